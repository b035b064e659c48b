"""The parts of a page that show rows: maps of architectures, and the table of all rows."""
from .effects import CHANGES, EFFECTS, told_in_words
from .markup import badge, breakable, element, escaped, listed, table
from .picture import Band
from .rows import number_in_words

MARKS = {**EFFECTS, **CHANGES}

# The most names of a row that are shown at once, and the most rows that a place of a map tells by itself.
MOST_NAMES = 8
MOST_PLACES = 8


def range_in_words(first, last):
    if (first, last) == (0, 0xFFFFFFFF):
        return "all numbers"
    return number_in_words(first) if first == last else f"{number_in_words(first)} to {number_in_words(last)}"


class Lists:
    """The rows that places of a map are about. Where these are many, their list stands once for all such places."""

    def __init__(self, identity):
        self.identity, self.found = identity, {}

    def told(self, rows):
        """What stands at a place: its rows, or where their list is. Equal lists of a `Picture` are one object."""
        if len(rows) <= MOST_PLACES:
            return " ".join(map(str, rows))
        number, _ = self.found.setdefault(id(rows), (len(self.found), rows))
        return f"#{self.identity}-list-{number}"

    def elements(self):
        """The lists, as elements that aren't shown."""
        lists = ((f"{self.identity}-list-{number}", " ".join(map(str, rows))) for number, rows in self.found.values())
        return "".join(element("div", "", hidden="", id=identity, data_r=rows) for identity, rows in lists)


def cell(it, is_first, is_changed, lists):
    """A cell of a map, as a button."""
    words, mark = MARKS[it.effect]
    note = ", changed" if is_changed else ""
    label = f"{number_in_words(it.number)} {listed(it.names) or '(no name)'}: {words}{note}"
    kinds = [it.effect, *([] if it.names else ["unnamed"]), *(["changed"] if is_changed else [])]
    return element("button", mark, class_=" ".join(kinds), data_n=it.number, data_r=lists.told(it.rows),
                   aria_label=label, tabindex="0" if is_first else "-1")


def strip(it, is_changed, lists):
    cells = "".join(cell(one, one is it.cells[0], is_changed(one.number, one.number), lists) for one in it.cells)
    head = f"{it.name}: {range_in_words(it.cells[0].number, it.cells[-1].number)}"
    return element("h4", escaped(head)) + element("div", cells, class_="cells", role="group", aria_label=head)


def band(it, is_changed, lists):
    words, mark = MARKS[it.effect]
    kinds, note = ("band changed", ", changed") if is_changed(it.first, it.last) else ("band", "")
    inside = f"{mark} {escaped(range_in_words(it.first, it.last))}: {words}{note}"
    return element("button", inside, class_=f"{kinds} {it.effect}", data_first=it.first, data_last=it.last,
                   data_r=lists.told(it.rows))


def archs_in_words(spans):
    """Architectures that have no name here, as a text of at most three spans."""
    shown = [f"0x{low:08X}" if low == high else f"0x{low:08X} to 0x{high:08X}" for low, high in spans]
    return ", ".join(shown[:3] + ([f"and {len(shown) - 3} more ranges"] if len(shown) > 3 else []))


def one_map(it, changed, lists):
    """The map of an architecture. `changed` says whether numbers of an architecture are marked."""
    first, last = it.archs[0]

    def is_changed(low, high):
        return changed(first, low, high)

    parts = "".join((band if isinstance(part, Band) else strip)(part, is_changed, lists) for part in it.parts)
    about = "" if first == last else element("p", escaped(archs_in_words(it.archs)), class_="soft mono")
    spans = " ".join(f"{low}-{high}" for low, high in it.archs)
    return element("section", element("h3", escaped(it.title)) + about + parts, class_="map", data_archs=spans)


def maps(found, identity, changed=lambda arch, first, last: False):
    """The maps of a document, whose rows stand in the table of that identity."""
    lists = Lists(identity)
    inside = "".join(one_map(it, changed, lists) for it in found)
    return element("div", lists.elements() + inside, data_table=identity)


def kinds_in(found):
    """The effects that maps show."""
    shown = {one.effect for it in found for part in it.parts for one in getattr(part, "cells", [part])}
    return [kind for kind in EFFECTS if kind in shown]


def key(kinds):
    """What the marks mean."""
    inside = "".join(element("li", badge(kind, MARKS[kind][1]) + f" {MARKS[kind][0]}") for kind in kinds)
    return element("ul", inside, class_="key", aria_label="what the marks mean")


def names_of(row):
    """The names of a row's calls: the first, and the others behind them."""
    shown = escaped(", ".join(row.names[:MOST_NAMES]))
    rest = row.names[MOST_NAMES:]
    if not rest:
        return shown
    return element("details", element("summary", f"{shown} and {len(rest)} more") + escaped(", ".join(rest)))


def row_line(place, row, effect):
    """A row of the table."""
    answer = badge(effect, f"{MARKS[effect][1]} {told_in_words(row.told)}")
    conditions = "".join(element("div", breakable(one)) for one in row.conditions)
    cells = [str(place + 1), breakable(row.words[0]), breakable(row.words[1]), names_of(row), answer, conditions]
    return element("tr", "".join(element("td", one) for one in cells), data_e=effect)


def filter_tools(identity, kinds):
    """A search box, and a box to be ticked for each mark."""
    ticked = '<input type="checkbox" checked value="{}"> {}'
    boxes = "".join(element("label", ticked.format(kind, MARKS[kind][0])) for kind in kinds)
    search = element("label", 'search <input type="search" autocomplete="off">')
    return f'<div class="tools" data-for="{identity}" hidden>{search}{boxes}<output></output></div>'


def rows_table(picture, identity):
    """The table of all rows, with what filters it."""
    kinds = [kind for kind in MARKS if kind in set(picture.effects)]
    lines = [row_line(place, row, picture.effects[place]) for place, row in enumerate(picture.rows)]
    heads = ("", "architecture", "numbers", "calls", "answer", "if")
    return filter_tools(identity, kinds) + table(identity, heads, lines)
