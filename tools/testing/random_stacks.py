"""Audits random filter stacks with two programs of the same command line and compares what they print.

    tools/test random_stacks PROGRAM [--peer PEER] [SEED [CASES [KIND ..]]]

PEER is the plain program of bench/plain if none is given; cargo builds it first.

The kinds, all if none is given, are those of `random_filters.py`: each is aimed at some of the program's shortcuts. So
many CASES of each are tried, 1000 if no number is given. Each stack is audited with its regions, so names, counts,
answers and replies are compared, and the exit statuses. A stack on which the two differ is named by its kind, seed and
number, and its filters are shown as hexadecimal digits where they are short. A line for each kind counts its cases.
"""
import argparse
import random
import subprocess
import sys
import tempfile

from building.plain import audit_of, plain
from testing.random_filters import KINDS, encoded

# Longer filters aren't shown.
SHORT = 1024
POLICY = """version = 2
[[question]]
name = "any"
[[question]]
name = "low"
nr = [0, 7]
[[question]]
name = "bits"
nr = { mask = 6, value = 2 }
arg0_lo = [1, 2147483648]
[[question]]
name = "high"
arg1_lo = [5, 9]
arg2_hi = { mask = 255, value = 3 }
[[question]]
name = "killed"
actions = ["KILL_PROCESS", "KILL_THREAD"]
"""


def compare(programs, kind, seed, cases, folder):
    """How many stacks of a kind the two programs answer differently."""
    differ = emptied = refused = 0
    for n in range(cases):
        stack = [encoded(code) for code in kind(random.Random(f"{seed}/{n}"))]
        command, *words = audit_of(folder, POLICY, stack, KINDS[kind])
        ran = [subprocess.run([program, command, "--regions", *words], capture_output=True) for program in programs]
        one, two = ((it.returncode, it.stdout) for it in ran)
        refused += one[0] > 2
        emptied += one[0] <= 2 and b"emptied 0" not in one[1]
        if one != two:
            differ += 1
            shown = [code.hex() for code in stack if len(code) <= SHORT]
            print(f"{kind.__name__} {seed}/{n}: status {one[0]} and {two[0]}:", *shown)
    counts = f"{cases} cases, {refused} refused, {emptied} with emptied pieces, {differ} differ"
    print(f"{kind.__name__}: {counts}", flush=True)
    return differ


NAMED = {kind.__name__: kind for kind in KINDS}


def asked_of():
    """What the command line asks for."""
    kinds = "\n".join(f"{name}: {kind.__doc__}" for name, kind in NAMED.items())
    form = argparse.RawDescriptionHelpFormatter
    parser = argparse.ArgumentParser(description=__doc__, epilog=kinds, formatter_class=form, usage=argparse.SUPPRESS)
    parser.add_argument("program")
    parser.add_argument("--peer")
    parser.add_argument("seed", nargs="?", default="1")
    parser.add_argument("cases", nargs="?", type=int, default=1000)
    parser.add_argument("kinds", nargs="*", metavar="KIND")
    asked = parser.parse_intermixed_args()
    if not NAMED.keys() >= set(asked.kinds):
        parser.error("a KIND is one of " + ", ".join(NAMED))
    return asked


def main():
    asked = asked_of()
    programs = [asked.program, asked.peer or plain()]
    kinds = [NAMED[name] for name in asked.kinds or NAMED]
    with tempfile.TemporaryDirectory() as folder:
        differ = sum(compare(programs, kind, asked.seed, asked.cases, folder) for kind in kinds)
    print(f"{len(kinds) * asked.cases - differ} agree, {differ} differ")
    sys.exit(1 if differ else 0)
