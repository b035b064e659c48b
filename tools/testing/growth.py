"""Counts the instructions that `seccomp_audit` takes for hostile inputs, and for others of a kind, twice as large.

    tools/test growth [--table] [PROGRAM]

The kinds are profiles and files of names that strangers might make so that reading them takes long. The larger input
of a kind may take 2.5 times the instructions of the other at most: so none grows with the square of its size. What
pages of many rows take is tried by `report/test`.

It takes valgrind, whose cachegrind counts; where it isn't there nothing is tried, and a line says so. --table prints
what each kind takes.
"""
import argparse
import collections
import concurrent.futures
import json
import os
import re
import shutil
import subprocess
import tempfile

from building.kit import ROOT, write
from testing.told import BUILT, finish, tell

COUNTER = ["valgrind", "--tool=cachegrind", "--cache-sim=no", "--cachegrind-out-file=/dev/null"]
MOST_TIMES = 2.5
X86_64 = 0xC000003E
FILTER = os.path.join(ROOT, "examples/p1.bpf")

# The file of names that profiles are read with: few calls, so that reading it is no great part of what is counted.
CALLS = [f"call{number}" for number in range(64)]
NAMES = f"arch = {X86_64}\n[calls]\n" + "".join(f"{name} = {number}\n" for number, name in enumerate(CALLS))

# A kind of input: its size, and what makes the input of a size, a profile or a file of names; how the program ends.
Kind = collections.namedtuple("Kind", "name size make subcommand status")


def rule(names, comparisons=0, **more):
    """A rule of a profile with some comparisons of one argument."""
    args = [{"index": 0, "value": value, "op": "SCMP_CMP_EQ"} for value in range(comparisons)]
    return {"names": names, "action": "SCMP_ACT_ERRNO", "args": args, **more}


def profile(rules):
    return json.dumps({"defaultAction": "SCMP_ACT_ALLOW", "syscalls": rules})


def unknown(count, first=0):
    """Names that no call has."""
    return [f"unknown_{number}" for number in range(first, first + count)]


def config(more):
    """A config.json with a profile and something that isn't looked at."""
    return json.dumps({"hooks": more, "linux": {"seccomp": {"defaultAction": "SCMP_ACT_ALLOW"}}})


def sets(count, calls):
    """A file of names of so many sets, each with so many calls."""
    return "".join(
        f"[set{at}]\narch = {at}\n[set{at}.calls]\n" + "".join(f"call{number} = {number}\n" for number in range(calls))
        for at in range(count))


KINDS = [
    Kind("comparisons and names that are unknown", 32, lambda n: profile([rule(unknown(16 * n), n)]), "profile", 0),
    Kind("comparisons and one name", 32, lambda n: profile([rule(["call1"] * 16 * n, n)]), "profile", 3),
    Kind("comparisons", 1000, lambda n: profile([rule(["call1"], n)]), "profile", 3),
    Kind("names in a rule", 16000, lambda n: profile([rule(["call1"] * n)]), "profile", 3),
    Kind("different names that are unknown", 3000,
         lambda n: profile([rule(unknown(500, 500 * at)) for at in range(n // 500)]), "profile", 0),
    Kind("rules of few calls", 1000, lambda n: profile([rule([CALLS[at % 64]]) for at in range(n)]), "profile", 0),
    Kind("rules of one call, with comparisons", 250,
         lambda n: profile([rule(["call1"], 1, errnoRet=at % 9) for at in range(n)]), "profile", 0),
    Kind("rules that don't apply", 60,
         lambda n: profile([rule(CALLS, includes={"caps": ["CAP_X"]})] * n), "profile", 0),
    Kind("too many rules", 5000, lambda n: profile([rule(["call1"])] * n), "profile", 3),
    Kind("keys of one object", 2000, lambda n: config({f"key{number}": "" for number in range(n)}), "profile", 0),
    Kind("objects", 4000, lambda n: config([{"key": 1}] * n), "profile", 0),
    Kind("a long text", 100_000, lambda n: config("\n" * n), "profile", 0),
    Kind("levels", 50_000, lambda n: "[" * n, "profile", 3),
    Kind("sets of calls", 32, lambda n: sets(n, 40), "list", 0),
    Kind("too many sets of calls", 2000, lambda n: sets(n, 1), "list", 3),
    Kind("calls of a set", 512, lambda n: sets(1, n), "list", 0),
    Kind("too many calls of a set", 4000, lambda n: sets(1, n), "list", 3),
]


class Counted:
    """The program, run where its instructions are counted."""

    def __init__(self, program, folder):
        self.program, self.folder = program, folder
        self.names = os.path.join(folder, "names.toml")
        write(self.names, NAMES)

    def words_of(self, subcommand, path):
        if subcommand == "list":
            return [subcommand, "--names", path, FILTER]
        return [subcommand, "--machine", "x86_64", "--names", self.names, "--skip-unknown", path]

    def count(self, kind, size):
        """How the program ends, and how many instructions it takes."""
        path = os.path.join(self.folder, f"{KINDS.index(kind)}-{size}")
        write(path, kind.make(size))
        words = [*COUNTER, self.program, *self.words_of(kind.subcommand, path)]
        ran = subprocess.run(words, stdin=subprocess.DEVNULL, capture_output=True)
        found = re.search(rb"I\s+refs:\s+([\d,]+)", ran.stderr)
        return ran.returncode, int(found[1].replace(b",", b"")) if found else 0

    def counts(self, kind):
        """The same of an input of a kind and of one twice as large."""
        return self.count(kind, kind.size), self.count(kind, 2 * kind.size)


def main():
    parser = argparse.ArgumentParser(description=__doc__, formatter_class=argparse.RawDescriptionHelpFormatter)
    parser.add_argument("--table", action="store_true", help="print what each kind takes")
    parser.add_argument("program", nargs="?", default=BUILT, metavar="PROGRAM")
    given = parser.parse_args()
    if not shutil.which(COUNTER[0]):
        print("left out: all kinds: there is no valgrind")
        print("0 passed, 0 failed")
        return 0
    with tempfile.TemporaryDirectory(prefix="growth-") as folder, concurrent.futures.ThreadPoolExecutor(2) as pool:
        counted = Counted(os.path.abspath(given.program), folder)
        for kind, found in zip(KINDS, pool.map(counted.counts, KINDS)):
            (first, one), (second, two) = found
            well = first == second == kind.status and 0 < two <= MOST_TIMES * one
            millions = f"{one / 1e6:.1f} and {two / 1e6:.1f} million instructions, {two / max(one, 1):.2f} times"
            tell(well, kind.name, f"{millions}; statuses {first} and {second} for {kind.status}", is_shown=given.table)
    return finish()
