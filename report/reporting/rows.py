"""Rows of a list or of a comparison, read from a document, and their words."""
import contextlib
import functools
from typing import NamedTuple

from .documents import Refused

LAST = 0xFFFFFFFF
ALL = [(0, LAST)]

WORDS = {"nr": "number", "arch": "architecture", "ip_lo": "instruction pointer low half",
         "ip_hi": "instruction pointer high half"}
for place in range(6):
    WORDS[f"arg{place}_lo"] = f"arg{place} low half"
    WORDS[f"arg{place}_hi"] = f"arg{place} high half"

# How many conditions are kept that were read: most rows have some that others have too.
KEPT = 1 << 12


class Condition(NamedTuple):
    """What an input has in a word: its bits under the mask are a number of the ranges, or else another one."""

    word: str
    mask: int
    is_rest: bool
    ranges: tuple

    @property
    def spans(self):
        """The spans of the numbers that the bits under the mask may have."""
        return others(self.ranges) if self.is_rest else list(self.ranges)

    @property
    def is_on_call(self):
        """Whether it is about the number or the architecture."""
        return self.word in ("nr", "arch")

    @property
    def is_whole(self):
        """Whether it is about a word with all its bits."""
        return self.mask == LAST


class Row(NamedTuple):
    """The inputs with these architectures, call numbers and further conditions, and what they get.

    words       the architectures and the numbers, as a row's line has them
    arch, nr    spans of numbers, each with both ends
    on_call     the conditions on bits of the number or the architecture, as (word, mask, spans)
    conditions  all further conditions, in words
    told        the answer of a list; of a comparison both, as `old` and `new`
    names       the names of its calls
    """

    words: tuple
    arch: list
    nr: list
    on_call: list
    conditions: list
    told: dict
    names: list


def others(spans):
    """All numbers but these."""
    left, first = [], 0
    for low, high in sorted(spans):
        if first < low:
            left.append((first, low - 1))
        first = max(first, high + 1)
    return [*left, (first, LAST)] if first <= LAST else left


def condition_of(fields):
    """A condition of a document. Refused where a range of it has no number."""
    ranges = tuple(map(tuple, fields["ranges"]))
    for first, last in ranges:
        if last < first:
            raise Refused(f"no range of a row: {[first, last]}")
    return Condition(fields["word"], fields["mask"], fields["not"], ranges)


def conditions_of(fields):
    """The conditions of a row. Refused where two are about one word."""
    found = [condition_of(one) for one in fields["conditions"]]
    words = [one.word for one in found]
    if len(set(words)) != len(words):
        raise Refused(f"two conditions of a row are about {next(it for it in words if words.count(it) > 1)}")
    return found


def short(number):
    """A number as a condition's words have it."""
    return f"0x{number:X}"


def number_in_words(number):
    """A number of a call as a row's line has it."""
    return str(number) if number < 1 << 16 else short(number)


def architecture_in_words(number):
    """A number of an architecture as a row's line has it."""
    return f"0x{number:08X}"


def numbers_in_words(condition, in_words):
    """The ranges of a condition, as a row's line has them."""
    return ",".join(in_words(first) if first == last else f"{in_words(first)}..{in_words(last)}"
                    for first, last in condition.ranges)


def sign_of(condition, one="= ", several="in "):
    """What stands before the numbers of a condition: where they are meant, this before one, and that before several."""
    is_one = len(condition.ranges) == 1 and condition.ranges[0][0] == condition.ranges[0][1]
    if condition.is_rest:
        return "!= " if is_one else "not in "
    return one if is_one else several


@functools.lru_cache(KEPT)
def in_words(condition):
    """A condition in words, as `arg1 low half = 0x5412`."""
    mask = "" if condition.is_whole else f" & {short(condition.mask)}"
    return f"{WORDS[condition.word]}{mask} {sign_of(condition)}{numbers_in_words(condition, short)}"


def whole(conditions, word):
    """The condition on a word with all its bits, or None."""
    return next((it for it in conditions if it.word == word and it.is_whole), None)


def row_of(fields):
    """A row that is shown by itself."""
    conditions = conditions_of(fields)
    arch, nr = whole(conditions, "arch"), whole(conditions, "nr")
    words = (f"{sign_of(arch, '')}{numbers_in_words(arch, architecture_in_words)}" if arch else "any",
             f"{sign_of(nr, '', '')}{numbers_in_words(nr, number_in_words)}" if nr else "any")
    further = [it for it in conditions if it not in (arch, nr)]
    on_call = [(it.word, it.mask, tuple(it.spans)) for it in further if it.is_on_call]
    spans = (it.spans if it else ALL for it in (arch, nr))
    return Row(words, *spans, on_call, list(map(in_words, further)), told_of(fields), fields["calls"])


def told_of(fields):
    """What a row says: its answer, or both answers."""
    return fields["answer"] if "answer" in fields else {"old": fields["old"], "new": fields["new"]}


def row_of_call(fields, sets):
    """A row of a named call. Refused where no set has the call, and where a condition is about its number."""
    found = next((it for it in sets if it.name == fields["set"]), None)
    if found is None or fields["call"] not in found.calls:
        whose = f"{fields['set']:.80} {fields['call']:.80}"
        raise Refused(f"no set has {whose}: give the file of names that the document was made with")
    conditions = conditions_of(fields)
    if any(it.is_on_call for it in conditions):
        raise Refused("a condition of a call's row is about its number or its architecture")
    number = found.calls[fields["call"]]
    words = architecture_in_words(found.arch), number_in_words(number)
    arch, nr = [(found.arch, found.arch)], [(number, number)]
    return Row(words, arch, nr, [], list(map(in_words, conditions)), told_of(fields), [fields["call"]])


@contextlib.contextmanager
def named(document):
    """Lets what is refused begin with where the document was read."""
    try:
        yield
    except Refused as why:
        raise Refused(f"{document.path}: {why}") from None


def rows_alone(document):
    """The rows of a document that aren't those of calls. Refused where one has another form."""
    with named(document):
        return [row_of(fields) for fields in document.value["rows"]]


def rows_of(document, sets):
    """The rows of a document: of calls, and then the others. Refused where one has another form."""
    with named(document):
        calls = [row_of_call(fields, sets) for fields in document.value["calls"] or []]
    return calls + rows_alone(document)


def is_in(number, spans):
    return any(low <= number <= high for low, high in spans)


def is_met(condition, arch, number):
    """Whether a condition on bits of the number or the architecture holds."""
    word, mask, spans = condition
    return is_in((number if word == "nr" else arch) & mask, spans)
