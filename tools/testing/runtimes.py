"""Compares what runc, crun and podman make of profiles with what `seccomp_audit profile` makes of the same bytes.

    tools/test runtimes [--table] [PROGRAM]

Each text of profile_texts.py is given to each runtime that is installed. In the container a program makes some system
calls, and prints what they return. runc and crun get a config.json, podman a profile (it takes a config.json for one
that says nothing, and then no filter is in force). `profile` gets the same file, and where it writes a filter, `eval`
says what that answers to these calls. A text of those that all read alike has to be read by all, with these results.
For any other, one of them may refuse it, but where both answer, they have to agree.

It takes root, x86-64, a C compiler, and one of the runtimes (Debian: runc, crun, podman); a line says which are left
out, and why. Docker isn't tried. --table prints for each text and runtime what came.
"""
import argparse
import collections
import concurrent.futures
import functools
import os
import pathlib
import platform
import re
import shutil
import struct
import subprocess
import tempfile

from building.kit import ROOT
from testing import containers, profile_texts
from testing.told import BUILT

SOURCE = pathlib.Path(__file__).parent / "probe.c"
FLAGS = "-Wall -Wextra -Werror -O1 -static -nostdlib -ffreestanding -fno-stack-protector".split()

# The calls of the program in the container: 64 or 32 (a call of i386), the number, and two arguments. Those of other
# sets of calls come last, since most profiles end the program there.
Call = collections.namedtuple("Call", "name kind number first second")
GREATEST, GETPRIORITY, PTRACE, PERSONALITY, OPEN_TREE_ATTR, I386_GREATEST, X32 = 146, 140, 101, 135, 467, 159, 1 << 30
CALLS = [
    *(Call(f"sched_get_priority_max({one})", 64, GREATEST, one, 0) for one in (1, 2, (1 << 32) + 1, 99, (1 << 64) - 1)),
    Call("getpriority", 64, GETPRIORITY, 0, 0),
    Call("ptrace", 64, PTRACE, 99, 0),
    Call("personality", 64, PERSONALITY, 0xFFFFFFFF, 0),
    Call("open_tree_attr", 64, OPEN_TREE_ATTR, 0, 0),
    Call("sched_get_priority_max(1) of i386", 32, I386_GREATEST, 1, 0),
    Call("sched_get_priority_max(1) of x32", 64, X32 | GREATEST, 1, 0),
]
ARCHITECTURES = {64: 0xC000003E, 32: 0x40000003}
ENOSYS, GREATEST_ERROR = 38, 4095

# Texts that a runtime may read otherwise than `profile`, or that one of them may, and why that is meant.
MEANT = {
    "known to some: a newer call": "libseccomp may be older than the names: it leaves out a call that it doesn't know",
    "known to some: a rule that equals the default": "runtimes skip it, so a later rule about the same call counts",
    "podman: known to some: minKernel": "podman 4.3.1 doesn't know the key, and takes the rule for each kernel",
}

# What came of a text: whether the runtime ran it and `profile` read it, and what each has then, as lists of results.
Outcome = collections.namedtuple("Outcome", "name runtime is_alike ran read said")


class Program:
    """seccomp_audit, asked what a profile answers to the calls."""

    def __init__(self, path, folder):
        self.path, self.folder = path, folder
        kernel = re.match(r"\d+\.\d+", platform.release())[0]
        self.words = ["profile", "--machine", "x86_64", "--names", f"{ROOT}/policies/names.toml", "--kernel", kernel]
        self.words += ["--conflicts", "first"]

    def filter_of(self, text, options):
        """The filter of a profile; None where it is refused. And what is said."""
        ran = subprocess.run([self.path, *self.words, *options, "-"], input=text, capture_output=True)
        if ran.returncode not in (0, 3):
            raise RuntimeError(f"`profile` ended with {ran.returncode}: {ran.stderr}")
        return None if ran.returncode else ran.stdout, ran.stderr.decode(errors="replace").strip()

    @functools.cache
    def answers(self, filter):
        """The answers of a filter to the calls."""
        with tempfile.NamedTemporaryFile(dir=self.folder) as file:
            file.write(filter)
            file.flush()
            return [self.answer(call, file.name) for call in CALLS]

    def answer(self, call, path):
        words = call.number, ARCHITECTURES[call.kind], 0, call.first, call.second, 0, 0, 0, 0
        words = [self.path, "eval", "--input", struct.pack("<IIQ6Q", *words).hex(), path]
        ran = subprocess.run(words, capture_output=True, text=True, check=True)
        return ran.stdout.strip()


def results(answers, free):
    """What the program in the container prints where a filter gives these answers, up to where it ends. `free` are the
    results without a filter."""
    found = []
    for answer, result in zip(answers, free):
        action, number = answer.split()
        if action.startswith(("KILL", "TRAP")):
            break
        found.append({"ALLOW": result, "LOG": result, "ERRNO": -min(int(number), GREATEST_ERROR)}.get(action, -ENOSYS))
    return found


def printed(text):
    """The results that the program in the container has printed; None where it didn't begin."""
    begun, *lines = text.split("\n")[:-1] or [""]
    return [int(line) for line in lines] if begun == "begun" else None


def file_of(runtime, text):
    """The file that a runtime gets of a text."""
    if not runtime.takes_profiles and b"@head" not in text:
        text = profile_texts.config(text)
    return text.replace(b"@head", runtime.room.head()).replace(b"@spaces", containers.SPACES)


def outcome(program, free, name, text, is_alike, runtime):
    """What comes of a text."""
    text = file_of(runtime, text)
    out, err = runtime.run(text)
    filter, said = program.filter_of(text, runtime.options)
    read = None if filter is None else results(program.answers(filter), free)
    return Outcome(name, runtime.name, is_alike, printed(out), read, said if filter is None else err)


def is_well(it):
    """Whether an outcome is as it should be."""
    if it.is_alike:
        return it.ran is not None and it.ran == it.read
    agrees = it.ran is None or it.read is None or it.ran == it.read
    return agrees or it.name in MEANT or f"{it.runtime}: {it.name}" in MEANT


def word(it):
    """What an outcome is, in a few words."""
    if it.ran is None and it.read is None:
        return "both refuse"
    if it.ran is None:
        return "the runtime refuses"
    if it.read is None:
        return "`profile` refuses"
    return "agree" if it.ran == it.read else "differ"


def what_differs(it):
    """The first call of which a runtime and `profile` say different things."""
    told = [*zip(CALLS, it.ran + ["ended"], it.read + ["ended"])] if it.ran is not None and it.read is not None else []
    for call, ran, read in told:
        if ran != read:
            return f"{call.name}: the runtime {ran}, `profile` {read}"
    return it.said.replace("\n", " ")[-160:]


def made(folder):
    """The program of the containers, and why there is none."""
    compiler, path = shutil.which(os.environ.get("CC") or "cc"), os.path.join(folder, "probe")
    if platform.machine() != "x86_64" or os.geteuid() or not compiler:
        return None
    subprocess.run([compiler, *FLAGS, "-o", path, SOURCE], check=True)
    return path


def ready_runtimes(room):
    """The runtimes by which containers run here. A line for each other says why not."""
    runc, crun = containers.Low(room, "runc", ["--newer"]), containers.Low(room, "crun", [])
    for runtime in (runc, crun, containers.Podman(room)):
        why = runtime.ready()
        if not why:
            out, err = runtime.run(file_of(runtime, profile_texts.PLAIN))
            why = None if printed(out) else f"runs no container here: {err}"
        if why:
            print(f"left out: {runtime.name}: {why}")
        else:
            yield runtime


def all_outcomes(program, folder):
    """What comes of all texts in all runtimes."""
    probe = made(folder)
    if not probe:
        print("left out: all runtimes: they take root, x86-64 and a C compiler")
        return []
    words = [str(number) for call in CALLS for number in call[1:]]
    free = printed(subprocess.run([probe, *words], capture_output=True, text=True, check=True).stdout)
    runtimes = [*ready_runtimes(containers.Room(folder, probe, words))]
    jobs = [(name, text, texts is profile_texts.ALIKE, runtime) for runtime in runtimes
            for texts in (profile_texts.ALIKE, profile_texts.UNLIKE) for name, text in texts.items()
            if not runtime.takes_profiles or b"@head" not in text]
    asked = Program(program, folder)
    with concurrent.futures.ThreadPoolExecutor(os.cpu_count()) as pool:
        return [*pool.map(lambda job: outcome(asked, free, *job), jobs)]


def main():
    parser = argparse.ArgumentParser(description=__doc__, formatter_class=argparse.RawDescriptionHelpFormatter)
    parser.add_argument("--table", action="store_true", help="print what came of each text")
    parser.add_argument("program", nargs="?", default=BUILT, metavar="PROGRAM")
    given = parser.parse_args()
    with tempfile.TemporaryDirectory(prefix="runtimes-") as folder:
        found = all_outcomes(os.path.abspath(given.program), folder)
    failed = [it for it in found if not is_well(it)]
    for it in found if given.table else failed:
        print(f"{it.runtime}: {it.name}: {word(it)}: {what_differs(it)}")
    for text, count in sorted(collections.Counter(f"{it.runtime}: {word(it)}" for it in found).items()):
        print(f"{text}: {count}")
    print(f"{len(found) - len(failed)} passed, {len(failed)} failed")
    return 1 if failed else 0
