"""The part of a page that shows a comparison of two stacks."""
from .effects import CHANGES, told_in_words
from .markup import badge, bullets, element, escaped, paragraph, section
from .page_rows import key, kinds_in, maps, rows_table
from .phrases import call_of
from .picture import Picture
from .rows import rows_of

WORDS = {
    "looser": ("No call gets further under NEW than under OLD.", "Some call gets further under NEW than under OLD"),
    "tighter": ("No call gets less far under NEW than under OLD.", "Some call gets less far under NEW than under OLD"),
    "different": ("Both give the same answer to each input.", "They answer some inputs differently"),
}


def change_line(kind, change):
    """What is found of a relation, in a sentence."""
    never, found = WORDS[kind]
    if change["result"] == "never":
        return escaped(never)
    example = element("code", escaped(call_of(change["example"])))
    told = escaped(told_in_words(change))
    return f"{badge(kind, CHANGES[kind][1])} {escaped(found)}: for instance {example}: {told}"


def looser_first(rows, effects):
    """The rows in the order of their changes: those that let more through first."""
    order = list(CHANGES)
    return [row for _, row in sorted(zip(effects, rows), key=lambda it: order.index(it[0]))]


class Changes:
    """Where a comparison has a change."""

    def __init__(self, picture):
        self.picture = picture

    def between(self, arch, first, last):
        """Whether anything is changed for these numbers of an architecture."""
        return any(it.effect != "same" for it in self.picture.bands(self.picture.numbers_of(arch), first, last))


def both_maps(lists, sets, changes, identity):
    """The maps of both stacks, with what is changed marked, and their rows, in tables whose identities begin so."""
    parts, shown = [], []
    for name, document in zip(("OLD", "NEW"), lists):
        picture = Picture(rows_of(document, sets), sets)
        found = picture.maps()
        shown += found
        own = f"{identity}-{name.lower()}"
        rows = element("details", element("summary", f"All rows of {name}") + rows_table(picture, own))
        parts.append(element("section", element("h3", name) + maps(found, own, changes.between) + rows))
    note = paragraph("What the change is about has a thick frame.", "soft")
    return element("h3", "Where") + key(kinds_in(shown)) + note + element("div", "".join(parts), class_="maps two")


def is_changed(part):
    """Whether a strip or a band has a change."""
    return any(it.effect != "same" for it in getattr(part, "cells", [part]))


def change_maps(found, identity):
    """The maps of architectures in which something is changed."""
    changed = [it for it in found if any(map(is_changed, it.parts))]
    if not changed:
        return ""
    left_out = "" if len(changed) == len(found) else paragraph("Nothing is changed for other architectures.", "soft")
    return element("h3", "Where") + maps(changed, identity) + left_out


def rows_part(document, sets, lists, identity):
    """The rows of a comparison, and where they are: marked in the maps of both stacks, if their lists are there."""
    plain = Picture(rows_of(document, sets), sets, is_of_change=True)
    picture = Picture(looser_first(plain.rows, plain.effects), sets, is_of_change=True)
    heading = element("h3", f"The rows that are {escaped(document.value['shown'])}")
    where = both_maps(lists, sets, Changes(picture), identity) if lists else change_maps(picture.maps(), identity)
    return heading + key(CHANGES) + rows_table(picture, identity) + where


def compare_part(document, sets, lists, identity):
    """The section of a comparison. `lists` are those of OLD and NEW, or none."""
    value = document.value
    lines = bullets(change_line(kind, value[kind]) for kind in WORDS)
    has_rows = document.kind == "compare-rows"
    return section("What the change does", lines, rows_part(document, sets, lists, identity) if has_rows else "")
