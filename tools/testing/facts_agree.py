"""Compares what facts know of symbolic words with what the rules say, by the lines that crates/facts_run writes.

    tools/test facts_agree [--cases N] [--seed SEED] [--unproved | PROGRAM]

PROGRAM is the built facts_run, crates/facts_run/out/facts_run if not given; with --unproved it is built first, without
proofs. The head of its main.rt says what its lines mean. The cases are those of its file stdin, and N random ones,
10000 if no number is given. The rules are plain functions, in facts_rules.py. Both take all steps of a case, also those
after one that contradicts. Compared are

- what is known of each node, at first and after each step: its interval, its known bits, its number where it is
  decided, and the least number of a word;
- whether a step contradicts, and whether anything is new after it;
- which numbers are excluded for the words, of those that are the only one of some node: for the first four words after
  each step that brought something new, and in the end for all.

The first line counts what the random cases reach: of 10000 or more, each count has to be high enough. A case in which
facts and rules differ gets a line, but no more than twenty are shown. The last line is of cases and of counts.
"""
import argparse
import itertools
import os
import random
import subprocess
import sys
import tempfile
from collections import Counter
from functools import reduce

from building.kit import ROOT, Refused, found
from building.unproved import make
from testing.facts_cases import Maker, case_of, line_of
from testing.facts_rules import LAST, NOTHING, WORDS, Contradiction, Facts, number_of, operand_of, pushed

CRATE = os.path.join(ROOT, "crates/facts_run")

# So many faults are shown.
SHOWN = 20

# What so many random cases have to reach.
CASES = 10000
LEAST = {
    "steps": 65006,
    "steps that contradict": 10762,
    "steps that exclude a number": 3067,
    "steps by which bits go back through two operands": 246,
    "shifts by a number": 2235,
    "sums and differences that wrap": 339,
}


# ---- what the rules say, in the lines of facts_run

def is_apart(facts, word, node):
    """Whether the number of a node is excluded for a word; and also the word's number for the node, where the node is a
    word and the word has only one number."""
    back = number_of(facts.known[word]) if node < 16 else None
    return number_of(facts.known[node]) in facts.excluded[word] and (back is None or back in facts.excluded[node])


def excluded_lines(facts, words):
    """Which of the first words aren't the number of a node. Left out are nodes from which known bits go back."""
    told = [word for word in range(words) if facts.excluded[word]]
    for node, known in enumerate(facts.known):
        if number_of(known) is not None and operand_of(facts.nodes, node) is None:
            yield from (f"  {word} != {node}" for word in told if is_apart(facts, word, node))


def known_lines(before, after):
    """What is known of the nodes of which something else was known before."""
    for place, known in enumerate(after):
        if known != (before[place] if place < len(before) else NOTHING):
            low, high, zeros, ones = known
            decided = f", decided {low}" if low == high else ""
            least = f", least {low}" if place < 16 else ""
            yield f"  {place} from {low} to {high}, zeros {zeros:08x}, ones {ones:08x}{decided}{least}"


def in_the_end(facts):
    """The facts once a constant is pushed for each number that is the only one of some node."""
    nodes = facts.nodes
    for known in facts.known:
        if number_of(known) is not None:
            nodes = pushed(nodes, ("const", number_of(known)))
    left = facts.copied()
    left.grow(nodes)
    return left


def lines_by_rules(nodes, steps, reached):
    """What facts_run has to write below the line of a case."""
    facts = Facts(reduce(pushed, nodes, WORDS))
    yield "at first"
    yield from known_lines([], facts.known)
    for step in steps:
        before, left = facts, facts.after(step)
        facts = left or before
        is_new = not facts.is_same(before)
        yield "contradicts" if left is None else "taken" if is_new else "nothing new"
        yield from known_lines(before.known, facts.known)
        yield from excluded_lines(facts, 4) if is_new else ()
        count_step(reached, before, left, step)
    count_nodes(reached, facts)
    yield "in the end"
    yield from excluded_lines(in_the_end(facts), 16)


# ---- what cases reach

def goes_back(before, after, node):
    """Whether known bits went back from a node past its operand."""
    for _ in range(2):
        found = operand_of(after.nodes, node)
        if found is None:
            return False
        node = found[0]
    return before.known[node][2:] != after.known[node][2:]


def count_step(reached, before, after, step):
    reached["steps"] += 1
    reached["steps that contradict"] += after is None
    if after is not None:
        reached["steps that exclude a number"] += after.excluded != before.excluded
        is_back = step[0] == "learn" and any(goes_back(before, after, node) for node in (step[1], step[3]))
        reached["steps by which bits go back through two operands"] += is_back


def count_nodes(reached, facts):
    for name, *operands in facts.nodes:
        if name in ("add", "sub", "lsh", "rsh"):
            a, b = (facts.known[operand] for operand in operands)
            reached["shifts by a number"] += name in ("lsh", "rsh") and b.low == b.high
            wraps = a.low + b.low > LAST if name == "add" else name == "sub" and a.high < b.low
            reached["sums and differences that wrap"] += wraps


# ---- the comparison

def written_by(program, lines):
    """What a program writes below each line of some cases, and why it ended too early, if it did."""
    ran = subprocess.run([program], input="".join(f"{line}\n" for line in lines), capture_output=True, text=True)
    written = []
    for line in ran.stdout.splitlines():
        if "|" in line:
            written.append([])
        elif written:
            written[-1].append(line)
    return written, (ran.stderr.strip() or "no word of why") if ran.returncode else ""


def due_of(case, reached):
    """What is due below the line of a case. (Wrong rules may leave a node nothing that is only pushed.)"""
    try:
        return [*lines_by_rules(*case, reached)]
    except (Contradiction, IndexError):
        return ["no node that is pushed contradicts"]


def first_difference(written, due):
    """Where the lines of facts differ first from those of the rules; None where they don't."""
    heads, last = -1, sum(not line.startswith(" ") for line in due) - 1
    for told, line in itertools.zip_longest(written, due, fillvalue=" nothing"):
        heads += not line.startswith(" ")
        if told != line:
            where = {0: "at first", last: "in the end"}.get(heads, f"after step {heads}")
            return f"{where} facts say `{told.strip()}`, and the rules `{line.strip()}`"
    return None


def cases_of_crate():
    """The cases of facts_run's own input."""
    with open(os.path.join(CRATE, "stdin")) as file:
        return [case_of(line) for line in file if "|" in line and not line.startswith("#")]


def lacks_of(reached, cases):
    """What random cases don't reach often enough."""
    for what, least in LEAST.items():
        due = -(-least * cases // CASES)
        if reached[what] < due:
            yield f"{cases} random cases have {reached[what]} {what}, and not {due}"


def compare(program, cases, seed):
    """How many cases pass, of facts_run's own and of so many random ones, and all that fails."""
    rng = random.Random(seed)
    own, made = cases_of_crate(), [Maker(rng).case() for _ in range(cases)]
    lines = [line_of(*case) for case in own + made]
    written, why = written_by(program, lines)
    faults = [f"{program} ended after {len(written)} of {len(lines)} cases: {why}"] if why else []
    passed, reached = 0, Counter()
    for number, case in enumerate(own + made):
        due = due_of(case, reached if number >= len(own) else Counter())
        wrong = first_difference(written[number] if number < len(written) else [], due)
        passed += wrong is None
        faults += [] if wrong is None else [f"{lines[number]}: {wrong}"]
    print(f"{cases} random cases: {', '.join(f'{reached[what]} {what}' for what in LEAST)}")
    if cases < CASES:
        return passed, faults
    lacks = [*lacks_of(reached, cases)]
    return passed + len(LEAST) - len(lacks), lacks + faults


def main():
    parser = argparse.ArgumentParser(description=__doc__, formatter_class=argparse.RawDescriptionHelpFormatter)
    parser.add_argument("--cases", type=int, default=CASES, metavar="N")
    parser.add_argument("--seed", default="1")
    parser.add_argument("--unproved", action="store_true")
    parser.add_argument("program", nargs="?", default=os.path.join(CRATE, "out/facts_run"), metavar="PROGRAM")
    asked = parser.parse_args()
    try:
        with tempfile.TemporaryDirectory(prefix="facts-") as room:
            program = make(found(), CRATE, room) if asked.unproved else asked.program
            passed, faults = compare(program, asked.cases, asked.seed)
    except Refused as why:
        print(f"tools/test facts_agree: {why}", file=sys.stderr)
        return 1
    print("".join(f"{fault}\n" for fault in faults[:SHOWN]), end="")
    print(f"{passed} passed, {len(faults)} failed")
    return 1 if faults or not passed else 0
