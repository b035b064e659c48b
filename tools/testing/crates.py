"""Runs all tests and programs of the crates, without proofs: for a look, where there is no time for the gate.

    tools/test crates [NAME ..]

Each program, and the tests of each crate that has some, are built without proofs and run; what a program writes is
compared. (The product itself is the one that `tools/build --unproved` has built.) As many are built side by side as there
are processors, in some minutes. A test is given 120 seconds. NAME is a crate's; all if none is given.
"""
import os
import re
import subprocess
import sys
import tempfile
from concurrent.futures import ThreadPoolExecutor, as_completed

from building.kit import PROGRAM, Refused, built, found
from building.programs import has_tests, is_program, why_wrong
from building.unproved import make
from looking.tree import crates

# The seconds that a test is given.
SECONDS = "120"


def tried_tests(kit, program):
    """How many tests of a program of tests pass, how many fail, and what is to be printed of them."""
    words = [f"{kit}/bin/rattle-test", "--seconds", SECONDS, program]
    said = subprocess.run(words, stdin=subprocess.DEVNULL, stdout=subprocess.PIPE, stderr=subprocess.STDOUT, text=True, errors="replace").stdout
    counts = re.search(r"(\d+) passed; (\d+) failed", said)
    if not counts:
        return 0, 1, said
    return int(counts[1]), int(counts[2]), said if counts[2] != "0" else ""


def tried(kit, crate, tests):
    """The same of a crate's tests, or of its program."""
    with tempfile.TemporaryDirectory(prefix="tests-") as room:
        try:
            program = built("unproved") if crate.name == PROGRAM else make(kit, str(crate), room, tests)
        except Refused as why:
            return 0, 1, str(why)
        if tests:
            return tried_tests(kit, program)
        wrong = why_wrong(crate, program)
        return int(wrong is None), int(wrong is not None), wrong or ""


def tried_all(kit, names):
    """Tries the crates of these names, or all; answers how many tests and programs pass, and how many fail."""
    some = [crate for crate in crates() if not names or crate.name in names]
    tasks = [(crate, tests) for crate in some for tests in (True, False) if (has_tests(crate) if tests else is_program(crate))]
    passed = failed = 0
    with ThreadPoolExecutor(len(os.sched_getaffinity(0))) as pool:
        runs = {pool.submit(tried, kit, crate, tests): (crate, tests) for crate, tests in tasks}
        for run in as_completed(runs):
            (crate, tests), (good, bad, said) = runs[run], run.result()
            print(f"{crate.name}{': its tests' if tests else ''}: {good} passed, {bad} failed", flush=True)
            if said:
                print(said, flush=True)
            passed, failed = passed + good, failed + bad
    return passed, failed


def main():
    try:
        passed, failed = tried_all(found(), sys.argv[1:])
    except Refused as why:
        print(f"tools/test crates: {why}", file=sys.stderr)
        return 1
    print(f"{passed} passed, {failed} failed")
    return 1 if failed or not passed else 0
