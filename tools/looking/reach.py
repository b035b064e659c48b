"""What contracts reach of the definitions of `specs/`."""
import re
from collections import namedtuple

from looking.contracts import Clause, Crate, imported
from looking.rattle import definitions_in, types_imported, words_of
from looking.tree import CRATES, shown

# The definitions of one file, and their lines.
Row = namedtuple("Row", "told lines")


def direct(text):
    """A text whose words come from their own files, where they came through a crate's `Common`."""
    def uses(use):
        passed = re.findall(r"pub use ([\w.]+)\.\{(.*)\}", (CRATES / use[1] / "specs/Common.antt").read_text())
        parts = ((path, [word for word in words.split(", ") if word in use[2].split(", ")]) for path, words in passed)
        return "\n".join(f"use {path}.{{{', '.join(words)}}}" for path, words in parts if words)
    return re.sub(r"(?m)^use Rattle\.(\w+)\.specs\.Common\.\{(.*)\}$", uses, text)


class Definitions:
    """All definitions, and what they reach."""

    def __init__(self, crates):
        paths = [path for crate in crates for path in sorted((CRATES / crate / "specs").rglob("*.antt"))]
        texts = {shown(path): direct(path.read_text()) for path in paths if path.name not in ("Lib.antt", "laws.antt")}
        self.files = {file: definitions_in(text, file) for file, text in texts.items()}
        self.names = {file: {name: (file, name) for name in self.files[file]} | imported(texts[file]) for file in texts}
        self.declared = {file: types_imported(text) for file, text in texts.items()}

    def named(self, clause):
        """The definitions that a clause names."""
        places = ((clause.names[word], field) for word, field in words_of(clause.text) if word in clause.names)
        found = (self.files[file].get(name or field) for (file, name), field in places)
        return {definition for definition in found if definition}

    def reached(self, clauses, without=()):
        """All that clauses reach, without these names and what they alone reach."""
        reached, left = set(), [definition for clause in clauses for definition in self.named(clause)]
        while left:
            definition = left.pop()
            if definition not in reached and definition.name not in without:
                reached.add(definition)
                left += self.named(Clause(definition.text, self.names[definition.file]))
        return reached

    def types(self, definitions):
        """The types of the code that definitions name."""
        found = ((self.declared[one.file], word) for one in definitions for word, _ in words_of(one.text))
        return {names[word] for names, word in found if word in names}

    def rows(self, reached, before):
        """The row of each file with definitions that are reached, where those of earlier lists are known."""
        rows = {}
        for file, named in self.files.items():
            every = list(dict.fromkeys(named.values()))
            here = [one for one in every if one in reached]
            rest = [one for one in every if one not in reached and one not in before]
            whole = "the others" if before.intersection(every) else "all"
            names, lacking = (", ".join(f"`{one.name}`" for one in part) for part in (here, rest))
            if here:
                told = whole if not rest else f"{whole} but {lacking}" if len(rest) < len(here) else names
                rows[file] = Row(told, sum(one.lines for one in here))
        return rows


class House:
    """The crates and their definitions."""

    def __init__(self):
        names = [path.name for path in sorted(CRATES.iterdir()) if (path / "specs").is_dir()]
        self.definitions = Definitions(names)
        self.crates = {name: Crate(name) for name in names}

    def clauses(self, places):
        """The clauses of contracts, with those that their signatures bring."""
        types = set()
        for crate, name in places:
            yield from self.crates[crate].contracts[name]
            self.add_types(crate, name.split("::")[0], types)
            for origin, word in self.crates[crate].signatures.get(name, ()):
                self.add_types(origin if origin in self.crates else crate, word, types)
        for crate, word in types:
            yield from self.crates[crate].seen.get(word, [])

    def add_types(self, crate, word, types):
        """Adds a type, and the types of those of its fields that its view reads."""
        house = self.crates[crate]
        if (crate, word) in types or word not in house.seen and word not in house.fields:
            return
        types.add((crate, word))
        views = " ".join(clause.text for clause in house.seen.get(word, []))
        for field, words in house.fields.get(word, []):
            if not views or re.search(rf"\.{field}\b", views):
                for origin, part in words:
                    self.add_types(origin if origin in self.crates else crate, part, types)

    def found(self, word):
        """The contracts that a word of a document stands for."""
        crate, _, name = word.partition("::") if word.split("::")[0] in self.crates else ("", "", word)
        return [(one, name) for one in self.crates if crate in ("", one) and name in self.crates[one].contracts]
