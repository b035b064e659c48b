"""What the rows of a document say of each number: maps of architectures, with cells and bands.

A cell is one number, named or in a short gap between named ones. A band is a range of other numbers that the same rows
are about. Nothing is computed here but which rows a number lies in.
"""
import bisect
from collections import Counter
from typing import NamedTuple

from .effects import change_of, effect_of, joined, joined_changes
from .naming import title_of
from .rows import ALL, LAST, is_met

# The longest gap between named numbers that is drawn number by number.
LONGEST_GAP = 192


class Cell(NamedTuple):
    """A number of a call: what it is called, how far it gets, and the places of the rows that are about it."""

    number: int
    names: list
    effect: str
    rows: list


class Band(NamedTuple):
    """A range of numbers, with both ends, that the same rows are about."""

    first: int
    last: int
    effect: str
    rows: list


class Strip(NamedTuple):
    """Cells of a set that stand one after the other."""

    name: str
    cells: list


class Map(NamedTuple):
    """What an architecture's numbers get, or those of several that get the same.

    title  what it is called
    archs  spans of architectures
    parts  strips and bands, in the order of their numbers
    """

    title: str
    archs: list
    parts: list


class Segments:
    """The numbers from 0 to the last, cut where spans begin or end: what has the numbers from `starts[k]` on is
    `holders[k]`, in rising order."""

    def __init__(self, spans_of_holders):
        """Takes each holder, a number, with its spans."""
        begins, ends = {0: []}, {}
        for holder, spans in spans_of_holders:
            for low, high in joined_spans(spans):
                begins.setdefault(low, []).append(holder)
                ends.setdefault(high + 1, []).append(holder)
        self.starts, self.holders = [], []
        now = set()
        for number in sorted({*begins, *ends} - {LAST + 1}):
            now.difference_update(ends.get(number, ()))
            now.update(begins.get(number, ()))
            self.starts.append(number)
            self.holders.append(tuple(sorted(now)))

    def place_of(self, number):
        """The place of the part that a number lies in."""
        return bisect.bisect_right(self.starts, number) - 1

    def at(self, number):
        return self.holders[self.place_of(number)]

    def between(self, first, last):
        """The parts of a range, each as its ends and what has it."""
        for place in range(self.place_of(first), bisect.bisect_right(self.starts, last)):
            end = self.starts[place + 1] - 1 if place + 1 < len(self.starts) else LAST
            yield max(first, self.starts[place]), min(last, end), self.holders[place]


class Numbers:
    """Which kinds of rows are about each number of an architecture.

    In a part between cuts, kinds without a condition on bits of the call are about each number. The others are found by
    the bits under the mask of their first condition, so that not each is looked at for each number.
    """

    def __init__(self, arch, kinds, row_of_kind):
        self.arch, self.row_of_kind = arch, row_of_kind
        self.segments = Segments((kind, row_of_kind[kind].nr) for kind in kinds)
        self.known = {}

    def axes_of(self, place):
        """Of a part: the kinds without a condition, and for each word and mask the others, by the bits under it."""
        free, axes = [], {}
        for kind in self.segments.holders[place]:
            on_call = self.row_of_kind[kind].on_call
            if on_call:
                word, mask, spans = on_call[0]
                axes.setdefault((word, mask), []).append((kind, spans))
            else:
                free.append(kind)
        return tuple(free), [(*axis, Segments(members)) for axis, members in axes.items()]

    def at(self, number):
        """The kinds of rows that a number lies in."""
        place = self.segments.place_of(number)
        if place not in self.known:
            self.known[place] = self.axes_of(place)
        free, axes = self.known[place]
        found = []
        for word, mask, members in axes:
            for kind in members.at((number if word == "nr" else self.arch) & mask):
                if all(is_met(one, self.arch, number) for one in self.row_of_kind[kind].on_call[1:]):
                    found.append(kind)
        return tuple(sorted((*free, *found))) if found else free

    def between(self, first, last):
        """The parts of a range, each as its ends and its kinds of rows, also those that conditions on bits rule out."""
        return self.segments.between(first, last)


class Picture:
    """The rows of a document, with how far the inputs of each get, or what the change is.

    Rows of one kind have the same architectures and numbers and the same conditions on bits of the call, so they are
    about the same calls. `kinds` has the places of the rows of each kind, and `row_of_kind` the first of these rows.
    """

    def __init__(self, rows, sets, is_of_change=False):
        self.rows, self.sets = rows, sets
        self.join = joined_changes if is_of_change else joined
        of_one = change_of if is_of_change else effect_of
        self.effects = [of_one(row.told) for row in rows]
        kinds = {}
        for place, row in enumerate(rows):
            kinds.setdefault((row.words, tuple(row.on_call)), []).append(place)
        self.kinds = list(kinds.values())
        self.row_of_kind = [rows[places[0]] for places in self.kinds]
        self.archs = Segments((kind, row.arch) for kind, row in enumerate(self.row_of_kind))
        self.numbers, self.known = {}, {}

    def told_of(self, kinds):
        """How far inputs get that lie in a row of one of these kinds, and the places of these rows. The same kinds give
        the very same list."""
        if kinds not in self.known:
            places = sorted(place for kind in kinds for place in self.kinds[kind])
            self.known[kinds] = self.join({self.effects[place] for place in places}), places
        return self.known[kinds]

    def numbers_of(self, arch):
        """The kinds of rows that the numbers of an architecture lie in."""
        if arch not in self.numbers:
            self.numbers[arch] = Numbers(arch, self.archs.at(arch), self.row_of_kind)
        return self.numbers[arch]

    def bands(self, numbers, first, last):
        """Bands of the numbers of a range."""
        found, before = [], None
        for low, high, kinds in numbers.between(first, last):
            if kinds == before:
                found[-1] = found[-1]._replace(last=high)
            else:
                found.append(Band(low, high, *self.told_of(kinds)))
            before = kinds
        return found

    def strip(self, numbers, sets, run):
        """The cells of a run of named numbers: those between two of them too."""
        names = names_by_number(sets)
        cells = [Cell(number, names.get(number, []), *self.told_of(numbers.at(number)))
                 for number in range(run[0], run[-1] + 1)]
        named = set(run)
        return Strip(" and ".join(it.name for it in sets if named & set(it.calls.values())), cells)

    def parts(self, arch, sets):
        """The strips and bands of an architecture."""
        numbers = self.numbers_of(arch)
        parts, begin = [], 0
        for run in runs_of(sorted(names_by_number(sets))):
            strip = self.strip(numbers, sets, run)
            if is_uniform(strip):
                continue
            parts += self.bands(numbers, begin, run[0] - 1) if begin < run[0] else []
            parts.append(strip)
            begin = run[-1] + 1
        return parts + (self.bands(numbers, begin, LAST) if begin <= LAST else [])

    def maps(self):
        """The maps: of each architecture that has names or a row of its own, and of all others together."""
        order = list(dict.fromkeys(it.arch for it in self.sets))
        own, rest = set(order), {}
        for first, last, kinds in self.archs.between(0, LAST):
            if first == last:
                own.add(first)
            for span in spans_without(first, last, sorted(arch for arch in own if first <= arch <= last)):
                rest.setdefault(kinds, []).append(span)
        found = []
        for arch in [*order, *sorted(own - set(order))]:
            sets = [it for it in self.sets if it.arch == arch]
            found.append(Map(title_of(arch), [(arch, arch)], self.parts(arch, sets)))
        for spans in rest.values():
            title = "all architectures" if spans == ALL else "other architectures"
            found.append(Map(title, spans, self.parts(spans[0][0], [])))
        return found

    def counts(self):
        """How many calls of each set get how far: for the name of each set a counter of effects."""
        found = {}
        for it in self.sets:
            numbers = self.numbers_of(it.arch)
            found[it.name] = Counter(self.told_of(numbers.at(one))[0] for one in it.calls.values())
        return found


def names_by_number(sets):
    names = {}
    for it in sets:
        for name, number in it.calls.items():
            names.setdefault(number, []).append(name)
    return names


def runs_of(numbers):
    """Runs of rising numbers with short gaps."""
    runs = []
    for number in numbers:
        if runs and number - runs[-1][-1] <= LONGEST_GAP + 1:
            runs[-1].append(number)
        else:
            runs.append([number])
    return runs


def is_uniform(strip):
    """Whether one row is about all cells of a strip, or none is."""
    first = strip.cells[0].rows
    return len(first) <= 1 and all(cell.rows == first for cell in strip.cells)


def joined_spans(spans):
    """The same numbers as spans that rise, and neither overlap nor touch."""
    found = []
    for low, high in sorted(spans):
        if found and low <= found[-1][1] + 1:
            found[-1] = found[-1][0], max(high, found[-1][1])
        else:
            found.append((low, high))
    return found


def spans_without(first, last, numbers):
    """What is left of a span without these numbers, which rise."""
    for number in numbers:
        if first < number:
            yield first, number - 1
        first = number + 1
    if first <= last:
        yield first, last
