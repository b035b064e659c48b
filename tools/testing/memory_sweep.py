"""Refuses the program memory and threads, and looks whether each answer is the right one or `error 60 Memory`.

    tools/test memory_sweep [--gate] [PROGRAM [CALLS]]

PROGRAM is the built seccomp_audit, and CALLS the built memory_run: crates/NAME/out/NAME of each, if not given.

CALLS makes the calls of the libraries one by one. It, and command lines of PROGRAM, are run once with all they ask for,
and then, with refuse.c beside this file before the C library:

  calls      CALLS, with each growth refused alone, the first ones several times, and all from each tenth on. It has to
             show `0 wrong`, and of each stack what it shows where it gets all; where all growths are refused from one
             on, it may show `no memory` instead. (No lease of a bench may be lost)
  workers    CALLS, with one worker of each of its last explorations refused all growths from one of its calls on, and
             of two of them all workers. It has to show that the others worked what that one gave back, and the calling
             thread nothing, and where all were refused that the calling thread worked off the rest and that the gate
             saw it
  growths    the Nth growth refused alone, and each from the Nth on, for N from 1 until a run meets no refusal. N goes
             up by 1; for the example, which asks for tens of thousands, by 1 to 200 and then in some 100 equal steps
  threads    the Kth thread can't be started, or none from the Kth on: with memory enough, and with refused growths. An
             audit that gets all has to ask for as many threads as its exploration and its sweep may start
  budgets    budgets that are spent, or just enough, also with refused growths and threads
  one core   2, 8 and 64 workers on one core beside a busy loop, also with refused threads and growths

Audits are by 1, 2 and 8 workers. A run is right where it ends with the status and the very bytes
of the run that got all (of several workers, the run by one). Where a growth was refused it may also end with status 5,
nothing on standard output and the line `error 60 Memory` on standard error; and where `--explain-errors` is given, with
some of the lines that it has to write there, the first among them, or with what that line of refused memory means under
it. In place of warnings, and of words that don't fit together, it may say there that it had no memory for them. Where
several workers spend a budget, which pieces are left is open: then the counts must agree with each other and with the
lines, each region must be one of the whole exploration, each example must break its question by the program's own
`eval`, and no question is `never`. A run that takes 20 seconds hangs.

Needs a C compiler: `cc`, or what the variable CC names. Prints each wrong run, and what came of each part (of CALLS
"answered Memory" counts the runs in which a call did). The status is 1 where a run was wrong, and where a part met no
refusal.

With `--gate` only what the gate runs, in less than a minute: a few of these (`gate_jobs`), large growths of CALLS, of
which a bench's is the first of all, and whether an audit starts as many threads as its workers need. The last line is
then `N passed, M failed`, of runs, and of parts that met no refusal.
"""
import os
import subprocess
import sys
import tempfile
from collections import Counter
from concurrent.futures import ThreadPoolExecutor

from building.kit import ROOT
from testing.memory_cases import Report, audit_words, single_words, write_files
from testing.refusals import Sweep

BUILT = os.path.join(ROOT, "crates/{0}/out/{0}")
REFUSE = os.path.join(ROOT, "tools/testing/refuse.c")
WORKERS = (1, 2, 8)

# The growths of CALLS are parted in so many jobs.
PARTS = 16

# How often CALLS is run with workers that get no memory, in so many jobs: which worker it is, and what it has, differs.
TIMES, JOBS = 50, 4

# How often the gate does so, in as many jobs; and how many growths of CALLS it refuses.
FEW, GATE_GROWTHS = 3, 400


def audits_of(sweep, paths, numbers):
    """Audits of a stack by so many workers each, which have to end as with one."""
    wanted = sweep.case(audit_words(paths, 1)).wanted
    return [sweep.case(audit_words(paths, workers), wanted) for workers in numbers]


def diagrams_of(sweep, paths):
    """A comparison of a stack with itself, and its list."""
    return [sweep.case(["compare", "--old", *paths, "--new", *paths]), sweep.case(["list", *paths])]


def spending_of(sweep, paths):
    """Audits of a stack with budgets up to the one that is just enough."""
    whole = sweep.case(audit_words(paths, 1)).wanted[1]
    commits = Report(whole).count["commits"]
    for budget in sorted({1, 2, commits // 2, commits - 1, commits}):
        for workers in WORKERS:
            yield sweep.case(audit_words(paths, workers, budget), whole=whole if workers > 1 else None)


def jobs_of(sweep, stacks):
    """What is to be run on all cores, the longest first: functions of no argument."""
    example = [os.path.join(ROOT, f"examples/snap-default/{name}.bpf") for name in ("01", "02")]
    audits = {name: audits_of(sweep, paths, WORKERS) for name, paths in {"example": example, **stacks}.items()}
    single = [case for paths in stacks.values() for case in diagrams_of(sweep, paths)]
    single += [sweep.case(words) for words in single_words(stacks)]
    for first in range(1, PARTS + 1):
        yield lambda first=first: sweep.refuse_calls(first, PARTS)
    for _ in range(JOBS):
        yield lambda: sweep.starve_workers(TIMES)
    for case in [*(case for cases in audits.values() for case in cases), *single]:
        for kind in ("REFUSE_GROWTH", "REFUSE_GROWTHS_FROM"):
            yield lambda case=case, kind=kind: sweep.refuse_each("growths", case, kind)
    for name, paths in stacks.items():
        for workers, case in list(zip(WORKERS, audits[name]))[1:]:
            yield lambda case=case, most=2 * workers + 1: sweep.refuse_threads("threads", case, most)
        for case in spending_of(sweep, paths):
            yield lambda case=case: sweep.spend("budgets", case)


def gate_jobs(sweep, stacks):
    """What the gate runs, the longest first: functions of no argument."""
    for first in range(1, PARTS + 1):
        yield lambda first=first: sweep.refuse_calls(first, PARTS, GATE_GROWTHS, 1)
    for _ in range(JOBS):
        yield lambda: sweep.refuse_large(FEW)
        yield lambda: sweep.starve_workers(FEW)
    paths = stacks["login"]
    for case in [*audits_of(sweep, paths, WORKERS), *diagrams_of(sweep, paths)]:
        yield lambda case=case: sweep.refuse_each("growths", case, "REFUSE_GROWTH")
    for workers in WORKERS[1:]:
        yield lambda workers=workers: sweep.start_threads("starts", audit_words(["wide"], workers), 2 * workers - 1)


def crowd_all(sweep, stacks):
    """Runs many workers on one core, beside a busy loop on it."""
    cases = [case for paths in stacks.values() for case in audits_of(sweep, paths, (2, 8, 64))]
    cores = os.sched_getaffinity(0)
    os.sched_setaffinity(0, {min(cores)})
    busy = subprocess.Popen([sys.executable, "-c", "while True: pass"])
    try:
        for case in cases:
            sweep.crowd("one core", case)
    finally:
        busy.kill()
        busy.wait()
        os.sched_setaffinity(0, cores)


def run_all(jobs):
    """Runs jobs on all cores."""
    with ThreadPoolExecutor(len(os.sched_getaffinity(0))) as pool:
        for done in [pool.submit(job) for job in jobs]:
            done.result()


def tell(tally):
    """Prints the figures of each part, and gives how many runs were right, and how many runs were wrong and parts met no refusal.
    A refused bench hands its lease back, so no call reports it; and where threads are counted, nothing is refused."""
    total = sum(tally.values(), Counter())
    for part, counts in [*tally.items(), ("in all", total)]:
        figures = (counts[name] for name in ("runs", "refused", "memory", "wrong"))
        print("{:9} {:6} runs, {:6} refused something, {:6} answered Memory, {:3} wrong".format(part, *figures))
    unmet = sum(not counts["refused" if part == "benches" else "memory"] for part, counts in tally.items() if part != "starts")
    return total["runs"] - total["wrong"], total["wrong"] + unmet


def main():
    in_gate = sys.argv[1:2] == ["--gate"]
    given = sys.argv[1 + in_gate :][:2]
    built = [BUILT.format(name) for name in ("seccomp_audit", "memory_run")]
    program, calls = (os.path.abspath(path) for path in [*given, *built[len(given) :]])
    with tempfile.TemporaryDirectory() as folder:
        sweep = Sweep(program, calls, folder)
        build = [os.environ.get("CC", "cc"), "-O2", "-shared", "-fPIC", "-o", sweep.library, REFUSE, "-ldl"]
        subprocess.run(build, check=True)
        stacks = write_files(folder)
        run_all((gate_jobs if in_gate else jobs_of)(sweep, stacks))
        if not in_gate:
            crowd_all(sweep, stacks)
    passed, failed = tell(sweep.tally)
    if in_gate:
        print(f"{passed} passed, {failed} failed")
    sys.exit(1 if failed else 0)
