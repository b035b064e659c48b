"""Compares the maps and rows of a page with what `eval` answers to inputs."""
import random
import re
import struct
import subprocess

from .dom import Page

LAST = 0xFFFFFFFF
WORDS = ["nr", "arch", "ip_lo", "ip_hi"] + [f"arg{place}_{half}" for place in range(6) for half in ("lo", "hi")]
SPOKEN = {"number": "nr", "architecture": "arch"}
for name, short in (("instruction pointer", "ip"), *((f"arg{place}", f"arg{place}") for place in range(6))):
    SPOKEN |= {f"{name} low half": f"{short}_lo", f"{name} high half": f"{short}_hi"}
CONDITION = re.compile(rf"({'|'.join(SPOKEN)})(?: & (\w+))? (=|!=|in|not in) (\S+)")

# How far an answer gets, by the manual page seccomp(2): what has another action ends the caller.
REACH = {"ALLOW": "let", "LOG": "let", "TRACE": "handed", "USER_NOTIF": "handed", "ERRNO": "refused", "TRAP": "refused"}


def effect_of(answer):
    return REACH.get(answer.split()[0], "killed")


def spans_of(text):
    return [(int(low, 0), int(high or low, 0)) for low, _, high in (one.partition("..") for one in text.split(","))]


class Part:
    """Numbers of a word under a mask: spans, or all others."""

    def __init__(self, word, mask, are_others, spans):
        self.word, self.mask, self.are_others, self.spans = word, mask, are_others, spans

    def has(self, words):
        number = words[self.word] & self.mask
        return any(low <= number <= high for low, high in self.spans) != self.are_others

    def some(self, rng, word):
        """A number for the word that lies in it, where one is found."""
        for _ in range(30):
            ends = [end + step for span in self.spans for end in span for step in (-1, 0, 1)]
            within = rng.randint(*rng.choice(self.spans or [(0, LAST)]))
            number = rng.choice((*ends, within, rng.getrandbits(32))) & LAST
            words = {self.word: (word & ~self.mask & LAST) | (number & self.mask)}
            if self.has(words):
                return words[self.word]
        return word


def part_of_architectures(text):
    """The architectures of a row, as the table has them."""
    for start, are_others in (("not in ", True), ("!= ", True), ("in ", False)):
        if text.startswith(start):
            return Part(1, LAST, are_others, spans_of(text.removeprefix(start)))
    return Part(1, LAST, False, [(0, LAST)] if text == "any" else spans_of(text))


def part_of_condition(text):
    """A condition, read back from its words."""
    word, mask, sign, numbers = CONDITION.fullmatch(text).groups()
    return Part(WORDS.index(SPOKEN[word]), int(mask, 0) if mask else LAST, sign in ("!=", "not in"), spans_of(numbers))


def row_of(cells):
    """The parts that an input of a table's row has to lie in, and its answer."""
    numbers = "".join(cells[2])
    spans = [(0, LAST)] if numbers == "any" else spans_of(numbers)
    parts = [part_of_architectures("".join(cells[1])), Part(0, LAST, False, spans)]
    parts += [part_of_condition(text) for text in cells[5] if text]
    return parts, "".join(cells[4])[2:].strip()


def input_for(rng, rows, places):
    """An input that lies in a row that is drawn by lot, or in a place of a map."""
    words = [rng.choice((0, 1, LAST, rng.getrandbits(32))) for _ in WORDS]
    if rng.random() < 0.6:
        parts, _ = rng.choice(rows)
        for part in (*parts, *reversed(parts)):
            words[part.word] = words[part.word] if part.has(words) else part.some(rng, words[part.word])
    else:
        spans, inside = rng.choice(places)
        place = rng.choice(inside)
        words[0] = rng.randint(place.first, place.last)
        words[1] = rng.choice((*rng.choice(spans), rng.randint(*rng.choice(spans))))
    return words


def answer_to(program, paths, words):
    digits = struct.pack("<16I", *words).hex()
    ran = subprocess.run([program, "eval", "--input", digits, *paths], capture_output=True, text=True)
    return digits, ran.stdout.strip()


def fault_of(page, rows, words, answer):
    """What is wrong with what the page says of an input; None where nothing is."""
    places = page.places_of(words[1], words[0])
    if len(places) != 1:
        return f"lies in {len(places)} places of the maps"
    met = [row for row in places[0].rows if all(part.has(words) for part in rows[row][0])]
    if len(met) != 1:
        return f"meets the conditions of {len(met)} rows of its place"
    if answer != rows[met[0]][1]:
        return f"is answered {answer}, and its row says {rows[met[0]][1]}"
    reached = {effect_of(rows[row][1]) for row in places[0].rows}
    due = {frozenset(("let",)): "let", frozenset(("handed",)): "handed", frozenset(("refused",)): "refused",
           frozenset(("killed",)): "killed", frozenset(("refused", "killed")): "stopped"}.get(
               frozenset(reached), "partly" if "let" in reached else "at_times")
    return None if places[0].effect == due else f"stands in a place that says {places[0].effect}, and not {due}"


def differences(text, program, paths, count, seed):
    """What differs between a page of one list and `eval`, for so many inputs."""
    page, rng = Page(text), random.Random(seed)
    rows = [row_of(cells) for cells, _ in next(iter(page.tables.values()))]
    found = []
    for _ in range(count):
        words = input_for(rng, rows, page.maps)
        digits, answer = answer_to(program, paths, words)
        fault = fault_of(page, rows, words, answer)
        if fault:
            found.append(f"{digits} {fault}")
    return found
