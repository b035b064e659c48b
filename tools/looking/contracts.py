"""The contracts that a crate hands out, by its source files."""
import re
from collections import namedtuple

from looking.rattle import bare, closing, fields_of, handed_out, imports_in, items_of, name_of, owner_of
from looking.tree import CRATES, ROOT, sources

# A clause, and what its words stand for.
Clause = namedtuple("Clause", "text names")


def imported(text, indent=""):
    """What `use` lines bring in of `specs/`: words, with the file of definitions and the name that they stand for."""
    names = {}
    for path, words in imports_in(text, indent):
        crate, *parts = path.split(".")
        file = f"crates/{crate}/{'/'.join(parts)}.antt"
        if parts[0] == "specs" and (ROOT / file).exists():
            names.update((word, (file, name)) for word, name in words.items())
    return names


class Crate:
    """What a crate hands out: the clauses of each contract, those by which a type or trait is seen, and those that a
    type keeps."""

    def __init__(self, name):
        self.contracts, self.seen, self.kept, self.signatures, self.fields = {}, {}, {}, {}, {}
        texts = {source: bare(source.read_text()) for source in sources(CRATES / name)}
        library = texts.get(CRATES / name / "src/lib.rt", "")
        self.handed, modules = handed_out(library)
        for source, text in texts.items():
            if source.stem in ("lib", *modules):
                self.handed |= {name_of(item) for item in items_of(text) if item.is_public}
        for text in texts.values():
            self.read(text)

    def read(self, text):
        """Takes in a source file."""
        names, origins = imported(text), {}
        for crate, many, one in re.findall(r"(?m)^use (\w+)(?:::\w+)*::(?:\{([^}]*)\}|(\w+));", text):
            origins.update((word.strip(), crate) for word in (many or one).split(","))
        for item in items_of(text):
            trait, name = owner_of(item.header) if item.kind == "impl" else ("", name_of(item))
            within = names | imported(item.body, " +")
            if item.kind in ("struct", "enum"):
                self.fields[name] = list(fields_of(item, origins))
            if name not in self.handed or not (item.is_public or item.kind == "impl"):
                self.note(name, item, within)
                continue
            self.contracts.setdefault(name, [])
            if item.kind == "fn":
                self.add(name, item, within, origins)
            for ghost, clause in self.ghosts(item.body, within) if item.kind != "fn" else []:
                is_kept = item.kind == "struct" or ghost == "invariant"
                is_seen = item.kind == "trait" or ghost in ("Value", "view")
                place = self.kept if is_kept else self.seen if is_seen else self.contracts
                place.setdefault(name, []).append(clause)
            for method in items_of(item.body) if item.kind in ("impl", "trait") else []:
                if item.kind == "trait":
                    self.seen.setdefault(name, []).extend(Clause(clause, within) for clause in method.clauses)
                elif method.kind == "fn" and (method.is_public or trait):
                    self.add(f"{name}::{name_of(method)}", method, within, origins)

    def note(self, name, item, names):
        """Takes in how a private type is seen, and what it keeps."""
        for ghost, clause in self.ghosts(item.body, names) if item.kind in ("struct", "impl") else []:
            is_kept = item.kind == "struct" or ghost == "invariant"
            if is_kept or ghost in ("Value", "view"):
                (self.kept if is_kept else self.seen).setdefault(name, []).append(clause)

    @staticmethod
    def ghosts(body, names):
        """The ghost items of a body but for lemmas, by their names."""
        for match in re.finditer(r"\bghost (?!use\b|laws\b)(\w+)\s*[:=]\s*\{", body):
            yield match[1], Clause(body[match.end() - 1 : closing(body, match.end() - 1)], names)

    def add(self, name, function, names, origins):
        self.contracts.setdefault(name, []).extend(Clause(clause, names) for clause in function.clauses)
        self.signatures[name] = {(origins.get(word), word) for word in re.findall(r"\w+", function.header)}
