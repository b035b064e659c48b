"""Runs of programs that are refused memory and threads, and whether each is right."""
import os
import pathlib
import re
import struct
import subprocess
import sys
import threading
from collections import Counter, namedtuple

from testing.memory_cases import QUESTIONS, Report, is_asked, rules_of_counts, threads_of

SECONDS = 20
MEMORY = (5, b"", b"error 60 Memory\n")
EXPLAINED_MEMORY = (5, b"", b"error 60 Memory\nmemory ran out\n")
UNWARNED = b"warning: there was no memory to look for warnings\n"
UNTOLD = b"error: words don't fit, and there was no memory to tell which\n"

# In its first exploration CALLS has two workers, and the growth of a bench is among the first EARLY growths, at a place
# that differs from run to run: each of these is refused so often.
EARLY, AGAIN = 1000, 4

# The size that a worker of CALLS asks for when it is to get no more memory (MARK of crates/memory_run/src/failing.rt),
# and how many explorations have such workers.
MARK, STARVED = 77777, 5

# How many large growths of CALLS are refused. In the first exploration a bench grows by 5120 bytes, and nothing else by
# as many.
LARGE = 4

# Up to so many growths each is refused; else those up to EACH, and then about so many more.
MOST, EACH, FURTHER = 2000, 200, 100

# A run: its status and outputs, and how many growths and threads it asked for and was refused.
Ran = namedtuple("Ran", "ended growths refused_growths threads refused_threads")

# A command line, the status and outputs that it has to end with, and how many growths it asks for. Where its answer may differ
# from run to run, since several workers spend a budget, `whole` is the report of the whole exploration; else None.
Case = namedtuple("Case", "words wanted growths whole")


def is_brief(case, ended):
    """Whether a case that asks for an explanation ends so where there is no memory for a part of it: lines are left out, but
    not the first; or the explanation is that of refused memory."""
    if "--explain-errors" not in case.words:
        return False
    if ended == EXPLAINED_MEMORY:
        return True
    due, told = iter(case.wanted[2].splitlines()), ended[2].splitlines()
    return ended[:2] == case.wanted[:2] and told[:1] == case.wanted[2].splitlines()[:1] and all(line in due for line in told)


class Sweep:
    """Runs the program under refusals and counts what came of it, by parts."""

    def __init__(self, program, calls, folder):
        self.program, self.calls, self.folder = program, calls, folder
        self.library = os.path.join(folder, "refuse.so")
        self.lock = threading.Lock()
        self.tally = {}
        self.answers = {}

    def run(self, words, refusals=None, program=None):
        """A run under these refusals, of the program or another one; None where it hangs."""
        counts = os.path.join(self.folder, f"counts_{threading.get_ident()}")
        pathlib.Path(counts).write_bytes(bytes(32))
        env = {"LD_PRELOAD": self.library, "REFUSE_COUNTS": counts, **{name: str(n) for name, n in (refusals or {}).items()}}
        command = [program or self.program, *words]
        try:
            ran = subprocess.run(command, capture_output=True, env=env, cwd=self.folder, timeout=SECONDS, check=False)
        except subprocess.TimeoutExpired:
            return None
        return Ran((ran.returncode, ran.stdout, ran.stderr), *struct.unpack("<4q", pathlib.Path(counts).read_bytes()))

    def case(self, words, wanted=None, whole=None):
        """A command line that has to end so, or else as it ends where nothing is refused."""
        ample = self.run(words)
        if ample is None or ample.growths == 0:
            sys.exit(f"{' '.join(words)}: hangs, or allocates by a malloc of its own, as a program with a sanitizer does")
        least, most = threads_of(words)
        if not least <= ample.threads <= most:
            self.count("threads", " ".join(words), ample, False, f"starts {ample.threads} threads, not {least} to {most}")
        return Case(words, wanted or ample.ended, ample.growths, whole)

    def breaks(self, question, digits, paths):
        """Whether the input is in the question and the stack answers it with one of the question's actions."""
        key = (digits, *paths)
        if key not in self.answers:
            ran = self.run(["eval", "--input", digits, *paths])
            self.answers[key] = ran.ended[1].decode("ascii").split(" ")[0] if ran else "hangs"
        return is_asked(question, digits) and self.answers[key] in question.actions

    def why_unlawful(self, case, ended):
        """What is wrong with a report whose budget is spent by several workers, or None."""
        status, out, err = ended
        try:
            report, whole = Report(out), Report(case.whole)
        except ValueError as error:
            return str(error)
        words = case.words
        budget, paths = int(words[words.index("--budget") + 1]), words[words.index("policy") + 1 :]
        rules = rules_of_counts(report, whole, budget)
        rules["the status"] = status == report.status() and not err
        rules["the names"] = [name for _, name, _ in report.replies] == [question.name for question in QUESTIONS]
        for question, (_, name, reply), (_, _, wanted) in zip(QUESTIONS, report.replies, whole.replies):
            kind, _, digits = reply.partition(" ")
            is_broken = kind == "allowed" and wanted.startswith(kind) and self.breaks(question, digits, paths)
            rules[f"the reply to {name}"] = kind != "allowed" or is_broken
        rules["the whole report"] = report.count["open"] > 0 or out == case.whole
        return ", ".join(name for name, holds in rules.items() if not holds) or None

    def why_wrong(self, case, ran):
        """What is wrong with a run, or None."""
        if ran is None:
            return "hangs"
        if ran.refused_growths and (ran.ended == MEMORY or is_brief(case, ran.ended)):
            return None
        status, out, err = ran.ended
        if ran.refused_growths and (status in (0, 1, 2) and err == UNWARNED or status == 4 and err == UNTOLD):
            err = case.wanted[2]
        if case.whole and status in (0, 1, 2):
            return self.why_unlawful(case, (status, out, err))
        return None if (status, out, err) == case.wanted else f"ends with status {status}, {out[-200:]} and {err[-200:]}"

    def count(self, part, what, ran, found_none, why):
        """Counts a run, and prints what is wrong with it."""
        with self.lock:
            tally = self.tally.setdefault(part, Counter())
            tally["runs"] += 1
            tally["refused"] += ran is None or ran.refused_growths + ran.refused_threads > 0
            tally["memory"] += found_none
            tally["wrong"] += why is not None
            if why:
                print(f"{part}: {what}: {why}", flush=True)

    def judge(self, part, case, refusals):
        """Runs a case under refusals, judges and counts it, and gives the run."""
        ran = self.run(case.words, refusals)
        found_none = ran is not None and ran.ended == MEMORY
        self.count(part, f"{' '.join(case.words)} under {refusals}", ran, found_none, self.why_wrong(case, ran))
        return ran

    def why_calls_wrong(self, sections, ran, is_alone):
        """What is wrong with a run of the calls, or None."""
        if ran is None:
            return "hangs"
        status, out, err = ran.ended
        rest = out.decode("ascii")
        for name, section in sections:
            none = f"{name}: no memory\n"
            found = section if rest.startswith(section) else none if rest.startswith(none) and not is_alone else None
            if found is None:
                return f"shows for {name}: {rest[:300]}"
            rest = rest[len(found) :]
        if status or err or not re.fullmatch(r"[0-9]+ refused, 0 wrong\n", rest):
            return f"ends with status {status}, {rest[-300:]} and {err[-300:]}"
        return None

    def ample_calls(self):
        """A run of the calls that gets all."""
        ample = self.run([], program=self.calls)
        if ample is None or ample.ended[0] or not ample.ended[1].endswith(b"\n0 refused, 0 wrong\n"):
            sys.exit(f"{self.calls}: hangs, or is wrong where nothing is refused")
        return ample

    def starve_workers(self, times):
        """Refuses the workers that ask for it all memory from some call on, so often."""
        shown = self.ample_calls().ended[1].removesuffix(b"0 refused, 0 wrong\n")
        wanted = (0, shown + f"{STARVED} refused, 0 wrong\n".encode(), b"")
        for _ in range(times):
            ran = self.run([], {"REFUSE_MARK": MARK}, self.calls)
            why = "hangs" if ran is None else None if ran.ended == wanted else f"ends with {ran.ended[0]}, {ran.ended[1][-200:]}"
            self.count("workers", f"REFUSE_MARK {MARK}", ran, ran is not None and ran.refused_growths > 0, why)
            if ran is None:
                return

    def sections(self, ample):
        """What CALLS shows where it gets all, by sections: the first line of each, and its whole text."""
        parts = re.split(r"^(?=[a-z]+$|0 refused)", ample.ended[1].decode("ascii"), flags=re.MULTILINE)
        return [(part.split("\n")[0], part) for part in parts[1:-1]]

    def judge_calls(self, part, sections, kind, n):
        """Runs CALLS under one refusal."""
        ran = self.run([], {kind: n}, self.calls)
        found_none = ran is not None and not ran.ended[1].endswith(b"\n0 refused, 0 wrong\n")
        self.count(part, f"{kind} {n}", ran, found_none, self.why_calls_wrong(sections, ran, kind != "REFUSE_GROWTHS_FROM"))

    def refuse_calls(self, first, step, last=None, again=AGAIN):
        """Refuses the calls each growth from this one on in such steps, and each tenth time all that come after it."""
        ample = self.ample_calls()
        sections = self.sections(ample)
        for turn, n in enumerate(range(first, (last or ample.growths) + 1, step)):
            alone = ["REFUSE_GROWTH"] * (again if n <= EARLY else 1)
            for kind in alone + ["REFUSE_GROWTHS_FROM"] * (turn % 10 == 0):
                self.judge_calls("calls", sections, kind, n)

    def refuse_large(self, times):
        """Refuses the calls each of their first large growths, so often."""
        sections = self.sections(self.ample_calls())
        for n in range(1, LARGE + 1):
            for _ in range(times):
                self.judge_calls("benches", sections, "REFUSE_LARGE", n)

    def refuse_each(self, part, case, kind):
        """Refuses one growth after the other, until a run meets no refusal or hangs."""
        step = 1 if case.growths <= MOST else case.growths // FURTHER
        n = 1
        while True:
            ran = self.judge(part, case, {kind: n})
            if ran is None or not ran.refused_growths:
                return
            n += 1 if n < EACH else step

    def places(self, case, count):
        """So many places over the growths of a case."""
        return sorted({1 + case.growths * i // count for i in range(count)})

    def refuse_thread(self, part, case, refusal):
        """Refuses threads: with memory enough, and with growths refused here and there."""
        self.judge(part, case, refusal)
        for n in self.places(case, 8):
            self.judge(part, case, {**refusal, "REFUSE_GROWTH": n})
            self.judge(part, case, {**refusal, "REFUSE_GROWTHS_FROM": n})

    def start_threads(self, part, words, wanted):
        """Runs a command line, which has to start so many threads."""
        ran = self.run(words)
        why = "hangs" if ran is None else None if ran.threads == wanted else f"starts {ran.threads} threads, not {wanted}"
        self.count(part, " ".join(words), ran, False, why)

    def refuse_threads(self, part, case, most):
        """Refuses each thread alone, and all from each on."""
        for k in range(1, most + 1):
            self.refuse_thread(part, case, {"REFUSE_THREAD": k})
            self.refuse_thread(part, case, {"REFUSE_THREADS_FROM": k})

    def spend(self, part, case):
        """Runs a case whose budget is spent several times, and then under refusals."""
        for _ in range(5):
            self.judge(part, case, {})
        for n in self.places(case, 12):
            self.judge(part, case, {"REFUSE_GROWTH": n})
            self.judge(part, case, {"REFUSE_GROWTHS_FROM": n})
        for k in (1, 2, 3, 9):
            self.judge(part, case, {"REFUSE_THREADS_FROM": k})
            self.judge(part, case, {"REFUSE_THREADS_FROM": k, "REFUSE_GROWTH": case.growths // 2})

    def crowd(self, part, case):
        """Runs a case as it is and under refusals."""
        for _ in range(3):
            self.judge(part, case, {})
        for k in (1, 2, 5):
            self.judge(part, case, {"REFUSE_THREADS_FROM": k})
        for n in self.places(case, 6):
            self.judge(part, case, {"REFUSE_GROWTH": n})
            self.judge(part, case, {"REFUSE_GROWTHS_FROM": n, "REFUSE_THREAD": 2})
