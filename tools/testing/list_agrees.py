"""Compares the rows of `list` and of `compare --rows` with what `eval` answers to inputs.

    tools/test list_agrees [--names FILE] [--random N] [--seed SEED] [--program PROGRAM] FILE..
    tools/test list_agrees --programs N [--names FILE] [--random N] [--seed SEED] [--program PROGRAM]

FILE.. is a stack, as the program takes it; --programs makes so many random ones, with masks, computed numbers and tests
of single bits, every fourth with whole words and constants only. For each stack N inputs are made: a half lies in rows
that are drawn by lot, the other half is aimed at the numbers in the filters. Each has to lie in exactly one row, which
has its answer. The last line has to count the rows, the status has to be 0, and `list --digest` has to be the SHA-256 of
the rows. With --names, the lines of `list --calls` are compared, with this file of sets: those of the named calls, and
the rows behind them.

Each random stack is compared with another one too, on as many inputs. An input that both answer alike lies in no row; any
other lies in exactly one row, which has both answers.

A stack may be too large: then nothing may be written to standard output, and the line before the last counts it. One
with whole words and constants only never is.
"""
import argparse
import hashlib
import os
import pathlib
import random
import re
import struct
import sys
import tempfile
import tomllib

from building.kit import built
from testing.random_filters import ADD, AND, LSH, MUL, NEGATE, OR, RSH, SUB, XOR
from testing.random_filters import ANY_BIT, AT_LEAST, BY_X, EQUAL, GREATER, LOAD, LOAD_SCRATCH, RETURN, STORE, TAX, encoded
from testing.told import ran as run

ALL = 0xFFFFFFFF
X86_64, I386, ARM_64 = 0xC000003E, 0x40000003, 0xC00000B7
WORDS = ["nr", "arch", "ip_lo", "ip_hi"] + [f"arg{n}_{half}" for n in range(6) for half in ("lo", "hi")]
NUMBERS = r"(?:\w+(?:\.\.\w+)?(?:,\w+(?:\.\.\w+)?)*)"
ANSWER = r"[A-Z_]+(?::0x\w+)? \d+"
ROW = re.compile(rf"arch ((?:in |!= |not in )?{NUMBERS}) nr ({NUMBERS}) ({ANSWER}(?: -> {ANSWER})?)(?: if (.+))?")
CALL = re.compile(rf"(\w+) (\w+) ({ANSWER})(?: if (.+))?")
CONDITION = re.compile(rf"(\w+)(?: & 0x(\w+))? (=|!=|in|not in) ({NUMBERS})")
TOO_LARGE = re.compile(
    r"too large: more than (?:\d+ nodes; --nodes takes more|65536 rows, or more than 65536 tests of one word)\n"
)
ACTIONS = (0x7FFF0000, 0x7FFF0000, 0x80000000, 0x00050001, 0x00050026, 0x7FF00007, 0x00000000)


class Part:
    """Numbers of a word under a mask: spans, or all others."""

    def __init__(self, word, mask, others, text):
        self.word, self.mask, self.others = word, mask, others
        self.spans = [] if text == "any" else [span(one) for one in text.split(",")]
        self.others |= text == "any"

    def has(self, words):
        number = words[self.word] & self.mask
        return any(low <= number <= high for low, high in self.spans) != self.others

    def some(self, rng, word):
        """The word with some number of the part under the mask, where one is found."""
        for _ in range(20):
            if self.others:
                number = rng.choice((rng.getrandbits(32), *(n + d for s in self.spans for n in s for d in (-1, 1))))
            else:
                low, high = rng.choice(self.spans)
                number = rng.choice((low, high, rng.randint(low, high)))
            number = (word & ~self.mask & ALL) | (number & self.mask)
            if self.has({self.word: number}):
                return number
        return word


def span(text):
    low, _, high = text.partition("..")
    return int(low, 0), int(high or low, 0)


def head_of(line, names):
    """The parts of a line's architectures and call numbers, and its outcome and conditions."""
    if found := ROW.fullmatch(line):
        arch, nr, outcome, conditions = found.groups()
        how, _, numbers = arch.rpartition(" ")
        return [Part(1, ALL, how in ("!=", "not in"), numbers), Part(0, ALL, False, nr)], outcome, conditions
    if not (found := CALL.fullmatch(line)):
        sys.exit(f"no row: {line}")
    chosen, call, answer, conditions = found.groups()
    arch, nr = names[chosen]["arch"], names[chosen]["calls"][call]
    return [Part(1, ALL, False, str(arch)), Part(0, ALL, False, str(nr))], answer, conditions


def row_of(line, names):
    """The outcome of a row, and the parts that an input has to lie in."""
    parts, outcome, conditions = head_of(line, names)
    for text in conditions.split(" and ") if conditions else []:
        condition = CONDITION.fullmatch(text)
        if not condition:
            sys.exit(f"no condition: {text}")
        word, mask, how, numbers = condition.groups()
        parts.append(Part(WORDS.index(word), int(mask, 16) if mask else ALL, how in ("!=", "not in"), numbers))
    return outcome, parts


def is_same(row, other):
    """Whether two rows are about the same inputs, with the same outcome."""
    return row[0] == other[0] and [vars(part) for part in row[1]] == [vars(part) for part in other[1]]


def digits_of(words):
    return struct.pack("<16I", *words).hex()


def code_of(path):
    text = pathlib.Path(path).read_bytes()
    return [constant for _, _, _, constant in struct.iter_unpack("<HBBI", text[: len(text) // 8 * 8])]


def aimed(rng, known):
    """An input that is aimed at numbers."""
    words = []
    for place in range(16):
        number = rng.choice((0, 1, rng.choice(known), rng.choice(known), rng.choice(known), rng.getrandbits(32)))
        number += rng.choice((0, 0, 0, 0, 1, -1))
        number ^= 1 << rng.randrange(32) if rng.random() < 0.2 else 0
        if place == 0:
            number = rng.choice((number, number, rng.randrange(480), 0x40000000 + rng.randrange(600)))
        if place == 1 and rng.random() < 0.7:
            number = rng.choice((X86_64, I386, ARM_64))
        words.append(number & ALL)
    return words


def inside(rng, known, parts):
    """An input that lies in all of some parts, where one is found."""
    words = aimed(rng, known)
    for part in (*parts, *reversed(parts)):
        words[part.word] = words[part.word] if part.has(words) else part.some(rng, words[part.word])
    return words


def answer_of(program, digits, paths):
    return "".join(run(program, "eval", "--input", digits, *paths)[1:]).strip()


def without_rows(ran, plain, statuses):
    """What differs, how many inputs agree, and whether a stack is too large, where a run gives no rows; None where it does."""
    status, text, said = ran
    if status == 2 and not text and TOO_LARGE.fullmatch(said):
        return ["whole words are too large"] if plain else [], 0, True
    return None if status in statuses and not said else ([f"status {status}: {said.strip()}"], 0, False)


def rows_in(lines, names, last):
    """The rows of lines, and what is wrong with the last line, which counts them."""
    rows = [row_of(line, names) for line in lines[:-1]]
    due = f"{last} {len(rows)}"
    return rows, [] if lines[-1] == due else [f"{lines[-1]!r} in place of {due!r}"]


def digest_faults(program, paths, lines):
    """What is wrong with the digest of a stack whose rows have these lines."""
    text = "".join(line + "\n" for line in lines)
    due = f"list 2 sha256 {hashlib.sha256(text.encode()).hexdigest()}\n"
    ran = run(program, "list", "--quiet", "--digest", *paths)
    return [] if ran == (0, due, "") else [f"the digest is {ran}, and not {due!r}"]


def strays(rows, outcome, rng, count, paths):
    """The inputs whose outcome isn't that of the row in which they lie. Those in no row are `unchanged`."""
    known = sorted({constant for path in paths for constant in code_of(path)}) or [0]
    for n in range(count):
        words = inside(rng, known, rng.choice(rows)[1]) if n % 2 and rows else aimed(rng, known)
        found = [one for one, parts in rows if all(part.has(words) for part in parts)]
        told = outcome(digits_of(words))
        if (found or ["unchanged"]) != [told]:
            yield f"{digits_of(words)}: {told}, in rows {found}"


def of_list(program, paths, rng, count, plain, named):
    """What differs for the list of a stack, how many inputs agree, and whether it is too large."""
    ran = run(program, "list", "--quiet", *paths, *(("--calls", "--names", named) if named else ()))
    if found := without_rows(ran, plain, [0]):
        return found
    lines, names = ran[1].split("\n")[2:-1], tomllib.loads(pathlib.Path(named).read_text(encoding="utf-8")) if named else {}
    lined, wrong = rows_in(lines, names, "total lines" if named else "total rows")
    wrong += [] if named else digest_faults(program, paths, lines[:-1])
    # Two names of one call have the same lines.
    rows = [row for n, row in enumerate(lined) if not any(is_same(row, other) for other in lined[max(0, n - 20) : n])]
    stray = list(strays(rows, lambda digits: answer_of(program, digits, paths), rng, count, paths))
    return wrong + stray, count - len(stray), False


def of_comparison(program, old, new, rng, count, plain):
    """The same for the rows in which two stacks differ."""
    ran = run(program, "compare", "--quiet", "--rows", "--old", *old, "--new", *new)
    if found := without_rows(ran, plain, [0, 1]):
        return found
    lines = ran[1].split("\n")
    begin = next(n for n, line in enumerate(lines) if line.startswith("different ")) + 1
    rows, wrong = rows_in(lines[begin:-1], {}, "total changed")

    def outcome(digits):
        before, after = (answer_of(program, digits, paths) for paths in (old, new))
        return "unchanged" if before == after else f"{before} -> {after}"

    stray = list(strays(rows, outcome, rng, count, [*old, *new]))
    return wrong + stray, count - len(stray), False


def number(rng):
    """A small number, or now and then a call of x32, one near a power of two, or any."""
    kind = rng.random()
    if kind < 0.6:
        return rng.randrange(20)
    if kind < 0.7:
        return 0x40000000 + rng.randrange(20)
    if kind < 0.9:
        return (1 << rng.randrange(32)) + rng.randrange(-1, 2) & ALL
    return rng.getrandbits(32)


def computation(rng):
    """One instruction that computes a new A, mostly by a mask."""
    kind = rng.random()
    if kind < 0.35:
        return (AND, 0, 0, number(rng))
    if kind < 0.6:
        return (AND, 0, 0, 1 << rng.randrange(32))
    if kind < 0.75:
        return (rng.choice((ADD, SUB)) | (BY_X if rng.random() < 0.2 else 0), 0, 0, number(rng))
    if kind < 0.85:
        return (rng.choice((OR, XOR)), 0, 0, number(rng))
    if kind < 0.95:
        return (rng.choice((LSH, RSH)), 0, 0, rng.randrange(8))
    return rng.choice(((NEGATE, 0, 0, 0), (MUL, 0, 0, 1 + rng.randrange(5))))


def some_program(rng, plain):
    """The bytes of a lawful filter. Returns in the middle stand behind tests that jump over them."""
    code = [(LOAD, 0, 0, 0), (STORE, 0, 0, 0), (TAX, 0, 0, 0)]
    for _ in range(2 + rng.randrange(8)):
        code.append((LOAD, 0, 0, 4 * rng.choice((0, 0, 0, 1, 4, 5, 6, 8, 2))))
        if not plain:
            code += [computation(rng) for _ in range(rng.choice((0, 0, 1, 1, 2)))]
        tests = rng.choice((1, 1, 2, 3))
        for n in range(tests):
            test = rng.choice((EQUAL, EQUAL, GREATER, AT_LEAST) if plain else (EQUAL, EQUAL, GREATER, AT_LEAST, ANY_BIT))
            by_x = BY_X if not plain and rng.random() < 0.05 else 0
            ways = (tests - n - 1, 0 if n < tests - 1 else 1)
            code.append((test | by_x, *(ways if rng.random() < 0.8 or n < tests - 1 else ways[::-1]), number(rng)))
        code.append((RETURN, 0, 0, rng.choice(ACTIONS)))
        if not plain and rng.random() < 0.2:
            code.append((rng.choice((LOAD_SCRATCH, STORE)), 0, 0, 0))
    code.append((RETURN, 0, 0, rng.choice(ACTIONS)))
    return encoded(code)


def some_stack(rng, plain, folder, name):
    """The paths of a stack of one filter, or now and then of two."""
    paths = [os.path.join(folder, f"{name}{i}") for i in range(rng.choice((1, 1, 1, 2)))]
    for path in paths:
        pathlib.Path(path).write_bytes(some_program(rng, plain))
    return paths


def random_stacks(count, seed, folder):
    """Random stacks, each with another one, and with whether only whole words are compared with constants."""
    for n in range(count):
        rng = random.Random(f"{seed}/{n}")
        plain = n % 4 == 0
        yield f"case {seed}/{n}", some_stack(rng, plain, folder, "old"), some_stack(rng, plain, folder, "new"), rng, plain


def main():
    parser = argparse.ArgumentParser(description=__doc__, formatter_class=argparse.RawDescriptionHelpFormatter)
    parser.add_argument("--programs", type=int, default=0)
    parser.add_argument("--random", type=int, default=2000)
    parser.add_argument("--seed", default="1")
    parser.add_argument("--names")
    parser.add_argument("--program", default=built("proved"))
    parser.add_argument("files", nargs="*", metavar="FILE")
    asked = parser.parse_args()
    agree = differ = large = stacks = 0

    def add(name, paths, found):
        nonlocal agree, differ, large
        wrong, right, is_large = found
        agree, differ, large = agree + right, differ + len(wrong), large + is_large
        for line in wrong:
            print(f"{name}: {line}", *(pathlib.Path(path).read_bytes().hex() for path in paths))

    if asked.files:
        stacks += 1
        add("the stack", [], of_list(asked.program, asked.files, random.Random(asked.seed), asked.random, None, asked.names))
    with tempfile.TemporaryDirectory() as folder:
        for name, old, new, rng, plain in random_stacks(asked.programs, asked.seed, folder):
            stacks += 1
            add(name, old, of_list(asked.program, old, rng, asked.random, plain, asked.names))
            add(f"{name}, compared", [*old, *new], of_comparison(asked.program, old, new, rng, asked.random, plain))
    print(f"{stacks} stacks, {large} lists and comparisons too large")
    print(f"{agree} agree, {differ} differ")
    sys.exit(0 if agree and not differ else 1)
