"""Must-fail edits: which function each is of, by the name that the prover prints, and which functions call which."""
import os
import re
from collections import namedtuple

from looking.edits import place_of
from looking.rattle import bare, functions_of, items_of, replacements, types_of
from looking.tree import sources

# The words of a body that may name a function: behind a type, behind a point, and alone or behind a module.
TYPED = re.compile(r"\b([A-Z]\w*)(?:::<[^>]*>)?::(\w+)")
METHOD = re.compile(r"\.(\w+)(?=\(|::<)")
PLAIN = re.compile(r"(?<!\.)\b([a-z_]\w*)\b")

# An edit of a crate: its file, the functions whose meaning it turns, and what it changes.
Edit = namedtuple("Edit", "crate path functions changes")

# A change of a source file: from where to where, and the text that stands there then.
Change = namedtuple("Change", "file start end text")


class BadEdit(Exception):
    """Why an edit can't be tried."""


def module_of(crate, source):
    """The path of a source file's module, below its crate."""
    parts = source.relative_to(crate / "src").with_suffix("").parts
    return parts if parts not in (("lib",), ("main",)) else ()


class Functions:
    """The functions of a crate by the names that the prover prints, with their texts."""

    def __init__(self, crate):
        self.crate, self.texts, self.places = crate, {}, {}
        read = {source: source.read_text() for source in sources(crate)}
        homes = {name: module_of(crate, source) for source, text in read.items() for name in types_of(text)}
        for source, text in read.items():
            for it in functions_of(text):
                owner, _, last = it.name.rpartition("::")
                # A method has the path of its type, wherever the `impl` stands, but for one of a trait.
                home = module_of(crate, source) if it.trait else homes.get(owner, module_of(crate, source))
                name = "::".join([*home, *filter(None, [owner + it.trait]), last])
                self.texts[name] = text[it.start : it.end]
                self.places[str(source.relative_to(crate)), it.name] = name

    def called_by(self, name):
        """The functions that one may call: a method by its last name, or with its type where that is told."""
        body = items_of(bare(self.texts[name]))[0].body
        own = name.split("::")[-2:-1]
        found = {"::".join(own + [word]) if owner == "Self" else f"{owner}::{word}" for owner, word in TYPED.findall(body)}
        plain, methods = set(PLAIN.findall(body)), set(METHOD.findall(body))
        is_called = lambda one, owner, last: (last in methods or f"{owner}::{last}" in found) if owner[:1].isupper() else last in plain
        return {one for one in self.texts if is_called(one, *([""] + one.split("::"))[-2:])}

    def reached(self, name):
        """The functions that one calls, and those that these call, as far as their names tell."""
        found, left = set(), [name]
        while left:
            new = self.called_by(left.pop()) - found - {name}
            found |= new
            left += new
        return found

    def using(self, text):
        """The functions that name a constant which this text declares."""
        declared = re.match(r"\s*(?:pub(?:\(\w+\))? )?(?:const|static) (\w+)", text)
        if not declared:
            raise BadEdit("it changes no function, and no constant")
        return [name for name, body in self.texts.items() if re.search(rf"\b{declared[1]}\b", body)]


def changes_of(crate, path):
    """What an edit changes: one piece of each file."""
    before, after = {}, {}
    for file, old, new in replacements(path.read_text()):
        before.setdefault(file, (crate / file).read_text())
        after[file] = after.get(file, before[file]).replace(old, new)
    for file, text in after.items():
        start = len(os.path.commonprefix([before[file], text]))
        rest = len(os.path.commonprefix([before[file][start:][::-1], text[start:][::-1]]))
        yield Change(file, start, len(before[file]) - rest, text[start : len(text) - rest])


def changed(file, text, edits):
    """The text of a file with what edits change in it, of which no two change the same place."""
    found = [change for edit in edits for change in edit.changes if change.file == file]
    for change in sorted(found, key=lambda change: -change.start):
        text = text[: change.start] + change.text + text[change.end :]
    return text


def edit_of(crate, path, functions):
    """The edit of a file. Refused where it can't be applied."""
    (file, name), why = place_of(crate, path)
    if why:
        raise BadEdit(why)
    changes = tuple(changes_of(crate, path))
    found = functions.places.get((file, name))
    if found is None:
        whole = (crate / file).read_text()
        line = whole[whole.rfind("\n", 0, changes[0].start) + 1 :]
        return Edit(crate.name, path, tuple(functions.using(line)), changes)
    return Edit(crate.name, path, (found,), changes)


def rounds_of(edits, functions):
    """The edits in rounds: within one, no edit's function calls that of another, so that each is judged by itself."""
    reached = {name: functions.reached(name) for edit in edits for name in edit.functions}
    below = {edit: set().union(*(reached[name] for name in edit.functions)) for edit in edits}
    rounds = []
    for edit in sorted(edits, key=lambda edit: (len(below[edit]), edit.path)):
        for one in rounds:
            if all(are_apart(edit, other, below) for other in one):
                one.append(edit)
                break
        else:
            rounds.append([edit])
    return rounds


def are_apart(edit, other, below):
    """Whether neither edit's functions are, or call, those of the other, and they change different places."""
    mine, theirs = set(edit.functions), set(other.functions)
    overlap = any(one.file == two.file and one.start <= two.end and two.start <= one.end for one in edit.changes for two in other.changes)
    return not (mine & theirs or mine & below[other] or theirs & below[edit] or overlap)
