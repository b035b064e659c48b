"""Where files stand, and how long they and their lines are.

    tools/look layout

A line has at most 120 columns, except for `use` and `#[tactic]` lines, texts in code, tables and what documents show; a source file has
at most 500 lines. A folder below `proofs/` is that of a module, of a function in it, or of a method of a type in it, `proofs/MODULE.antt`
names the lemmas of the module, and other files there and in `specs/` stand in their `Lib.antt`. Laws stand in
`specs/laws/` and hold no definition, and no crate imports from the `proofs/` of another. Names of edits differ in the
three tiers, and each gate tries at most 70 edits. A crate has no other folders. Files are counted.
"""
import re
import subprocess
from collections import Counter

from looking.edits import TIERS
from looking.rattle import functions_of, has_public_definition, modules_in, proofs_imported, types_of
from looking.tree import CRATES, ROOT, crates, shown, sources

COLUMNS, LINES, MOST_EDITS = 120, 500, 70
ROOMS = {"src", "specs", "proofs", *TIERS, "args", "stdin", "stdout", "status", "data", "out"}
MAY_BE_WIDE = re.compile(r'\s*((pub |ghost )*use |#\[tactic\(|\|)|.*"')


def of_text(path, text):
    """What is wrong with the lines of a file."""
    parts = re.split(r"(?m)^ *```.*$", text)[::2] if path.suffix == ".md" else [text]
    wide = sum(len(line) > COLUMNS and not MAY_BE_WIDE.match(line) for part in parts for line in part.split("\n"))
    yield f"{wide} lines have more than {COLUMNS} columns" if wide else ""
    yield f"has more than {LINES} lines" if path.suffix == ".rt" and text.count("\n") > LINES else ""


def rooms_of(crate):
    """The folders that `proofs/` may have: those of modules, functions and methods, whichever module has the `impl`."""
    texts = {path.relative_to(crate / "src").with_suffix("").parts: path.read_text() for path in sources(crate)}
    names = {module: [one.name.split("::") for one in functions_of(text)] for module, text in texts.items()}
    for module, text in texts.items():
        types = types_of(text)
        yield from (module[:depth] for depth in range(1, len(module) + 1))
        yield from ((*module, name[-1]) for name in names[module])
        yield from ((*module, *name) for some in names.values() for name in some if name[0] in types)


def of_proofs(crate, rooms, path, text):
    """What is wrong with where a file of definitions or proofs stands."""
    yield from (f"imports from the proofs of {one}" for one in proofs_imported(text) - {crate.name} if (CRATES / one).is_dir())
    is_law, folder = path.stem.endswith("Laws") and path.is_relative_to(crate / "specs"), path.parent
    yield "laws that hold a definition" if is_law and has_public_definition(text) else ""
    yield "laws outside specs/laws" if is_law != (folder == crate / "specs/laws") else ""
    if folder.parent != crate and not is_law:
        # A `+` stands before a call of the function in itself.
        room = (*folder.relative_to(crate).parts[1:-1], folder.name.lstrip("+"))
        yield "" if room in rooms else "the crate has no such module, function or method"
    elif path.name != "Lib.antt":
        names = folder / "Lib.antt" if folder.parent == crate else folder.with_suffix(".antt")
        is_room = folder == crate / "proofs" and (path.stem,) in rooms
        yield "" if is_room or path.stem in modules_in(names.read_text()) else f"isn't in {names.name}"


def of_crates():
    """What is wrong with the folders of crates, and with the edits of all together."""
    edits = [path for tier in TIERS for path in CRATES.glob(f"*/{tier}/*") if path.name != "WITHOUT.md"]
    yield from (f"{shown(path)}: no room of a crate" for path in CRATES.glob("*/*") if path.name not in ROOMS)
    yield from (f"{shown(path)}: no edit" for path in edits if path.suffix != ".edit")
    names = Counter((path.parent.parent.name, path.name) for path in edits)
    yield from (f"{crate}: {name} is in {count} tiers" for (crate, name), count in names.items() if count > 1)
    if (tried := sum(path.parent.name != TIERS[-1] for path in edits)) > MOST_EDITS:
        yield f"each gate tries {tried} edits, and not {MOST_EDITS} at most"


def look(_):
    """What is wrong, and how much is right."""
    listed = subprocess.run(["git", "-C", str(ROOT), "ls-files", "*.md"], capture_output=True, text=True, check=True)
    pages = [ROOT / name for name in listed.stdout.splitlines() if not name.startswith("crates/")]
    found = [(path, fault) for path in pages for fault in of_text(path, path.read_text())]
    for crate in crates():
        code, proofs = sources(crate), [*crate.glob("specs/**/*.antt"), *crate.glob("proofs/**/*.antt")]
        rooms = {*rooms_of(crate)}
        found += [(path, fault) for path in code + proofs for fault in of_text(path, path.read_text())]
        found += [(path, fault) for path in proofs for fault in of_proofs(crate, rooms, path, path.read_text())]
    faults = [f"{shown(path)}: {fault}" for path, fault in found if fault] + [*of_crates()]
    return faults, sum(not fault for _, fault in found)
