"""Which function each must-fail edit is of, and why an exported function has none in its own body.

    tools/look edits               what is wrong
    tools/look edits CRATE ..      the same for these crates, with the function of each edit

Edits are of three tiers, each a folder: `rt ci` tries those of `must-fail/`; each gate tries those of `must-fail-always/`
by `tools/try_edits`, and in turn some of `must-fail-more/`. An edit is of the function whose text holds the first text
that it replaces, and each text that it replaces stands once in its file. A crate's exported functions are those that its lib.rt hands out: `pub fn` items that a `pub use` names, and the
`pub fn` methods of exported types. Laws, whose bodies do nothing, are left out: the functions of a `laws.rt` that have
no result. The others have an edit of some tier, or a line in `must-fail-more/WITHOUT.md` of their crate that says why
not: one `- `NAME`: WHY` a function, and none for a function with an edit. Looked at are crates with a folder of edits,
and all whose names begin with `sf_`. Edits, exported functions and lines of those files are counted.
"""
import re
from collections import Counter

from looking.rattle import functions_of, handed_out, replacements
from looking.tree import crates, sources

# The folders of edits: what `rt ci` tries in each gate, what `tools/try_edits` tries in each, and what it tries in turn.
TIERS = ("must-fail", "must-fail-always", "must-fail-more")


def place_of(crate, path):
    """The file and the function that an edit is of, and why it can't be applied, if it can't."""
    texts, first = {}, None
    for file, old, new in replacements(path.read_text()):
        source = crate / file
        text = texts.get(file) or (source.read_text() if source.is_file() else "")
        if text.count(old) != 1:
            return (file, None), f"{path.stem}: an old text stands {text.count(old)} times in {file}, and not once"
        if first is None:
            at = text.find(old)
            name = next((it.name for it in functions_of(text) if it.start <= at < it.end), "(no function)")
            first = (file, name)
        texts[file] = text.replace(old, new)
    return (first, None) if first else ((None, None), f"{path.stem}: it replaces nothing")


def exported(crate):
    """The functions that the crate hands out: the file of each, and its name."""
    library = crate / "src/lib.rt"
    names, modules = handed_out(library.read_text()) if library.exists() else (set(), [])
    for source in sources(crate):
        text = source.read_text()
        for it in functions_of(text):
            is_law = source.stem == "laws" and "->" not in text[it.start : it.end]
            if it.is_public and not is_law and ((it.owner or it.name) in names or source.stem in modules):
                yield str(source.relative_to(crate)), it.name


def reasons(crate):
    """The functions that have no edit, by the lines of the crate's own list, and why."""
    path = crate / "must-fail-more/WITHOUT.md"
    text = path.read_text() if path.exists() else ""
    return re.findall(r"^- `([^`]+)`: (.+)$", text, re.M)


def faults(crate, is_shown):
    """The faults of a crate, and how many edits, functions and lines are right. Shows the edits if asked to."""
    covered, rows, wrong, edits = set(), [], [], 0
    for tier in TIERS:
        for path in sorted((crate / tier).glob("*.edit")):
            place, why = place_of(crate, path)
            covered.add(place)
            wrong += [why] if why else []
            rows += [] if why else [f"  {path.stem}: {place[1]} ({place[0]}){', more' if tier == TIERS[-1] else ''}"]
            edits += 1
    functions = list(exported(crate))
    bare = [name for file, name in functions if (file, name) not in covered]
    told, right = dict(reasons(crate)), edits - len(wrong) + len(functions) - len(bare)
    wrong += [f"{name}: no edit in its body, and no line that says why" for name in bare if name not in told]
    others = [name for name in told if name not in bare]
    wrong += [f"{name}: in WITHOUT.md, but not an exported function without an edit" for name in others]
    counts = Counter(name for name, _ in reasons(crate))
    wrong += [f"{name}: {count} lines in WITHOUT.md" for name, count in counts.items() if count > 1]
    if is_shown:
        print(f"{crate.name}: {edits} edits, {len(functions)} exported functions, {len(bare)} of them without one")
        print("\n".join(rows + [f"  without: {name}: {told[name]}" for name in bare if name in told]))
    return [f"{crate.name}: {why}" for why in wrong], right + sum(name in bare for name in told)


def look(names):
    """The faults of the crates that are named, or of all, and how many edits, functions and lines are right."""
    some = [one for one in crates(names) if one.name.startswith("sf_") or any((one / tier).is_dir() for tier in TIERS)]
    every = [faults(crate, bool(names)) for crate in some]
    return [fault for found, _ in every for fault in found], sum(right for _, right in every)
