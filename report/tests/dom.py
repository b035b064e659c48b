"""Reads a page back: its maps with their cells and bands, and its tables of rows."""
import html.parser
from typing import NamedTuple


class Place(NamedTuple):
    """A cell or a band: its numbers, its effect, the rows it names, and what it is called."""

    first: int
    last: int
    effect: str
    rows: list
    label: str


class Page(html.parser.HTMLParser):
    """A page.

    maps    pairs of spans of architectures and places
    tables  for the identity of each table its rows: each as its cells' texts and its effect
    tags    the names of all elements, and of their attributes
    text    all text that stands outside of style and script
    """

    def __init__(self, text):
        super().__init__()
        self.maps, self.tables, self.tags, self.text = [], {}, set(), ""
        self.table, self.row, self.button, self.skips, self.lists = None, None, None, 0, {}
        self.feed(text)
        self.close()

    def handle_starttag(self, name, attributes):
        marks = dict(attributes)
        self.tags |= {name, *(f"{name} {key}" for key in marks)}
        self.skips += name in ("style", "script")
        if name == "section" and "data-archs" in marks:
            spans = [tuple(map(int, span.split("-"))) for span in marks["data-archs"].split()]
            self.maps.append((spans, []))
        elif "hidden" in marks and "data-r" in marks:
            self.lists[f"#{marks['id']}"] = marks["data-r"]
        elif name == "button" and "data-r" in marks:
            first, last = (marks["data-n"],) * 2 if "data-n" in marks else (marks["data-first"], marks["data-last"])
            kinds = set(marks["class"].split()) - {"band", "changed", "unnamed"}
            rows = [int(one) for one in self.lists.get(marks["data-r"], marks["data-r"]).split()]
            self.maps[-1][1].append(Place(int(first), int(last), *kinds, rows, marks.get("aria-label", "")))
        elif name == "table" and "id" in marks:
            self.table = self.tables.setdefault(marks["id"], [])
        elif name == "tr" and "data-e" in marks and self.table is not None:
            self.row = []
            self.table.append((self.row, marks["data-e"]))
        elif name == "td" and self.row is not None:
            self.row.append([""])
        elif name == "div" and self.row:
            self.row[-1].append("")

    def handle_endtag(self, name):
        self.skips -= name in ("style", "script")
        if name == "tr":
            self.row = None
        elif name == "table":
            self.table = None

    def handle_data(self, data):
        self.text += "" if self.skips else data
        if self.row:
            self.row[-1][-1] += data

    def places_of(self, arch, number):
        """The cells and bands that a number of an architecture lies in."""
        return [place for spans, places in self.maps if any(low <= arch <= high for low, high in spans)
                for place in places if place.first <= number <= place.last]
