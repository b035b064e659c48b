"""Which lemmas nothing uses.

    tools/look unused

A lemma is a definition in a file of `proofs/` that isn't an answer to a goal, or in a file of `specs/` whose name ends
in `Laws`. It is used where its name stands in another definition, in a contract or in a line of code of any crate; a
line that only imports it doesn't count.
"""
from looking.rattle import lemmas_in, names_used
from looking.tree import ROOT, shown

ANSWERS = ("Answers.antt", "Invariants.antt", "Proof.antt", "Lib.antt")


def has_lemmas(path):
    """Whether a file of `proofs/`, or one of laws, isn't of answers."""
    return path.name not in ANSWERS or path.parent.name == "proofs"


def look(_):
    """The lemmas that nothing uses, and how many others there are."""
    used = set()
    for path in [*ROOT.glob("crates/*/**/*.antt"), *ROOT.glob("crates/*/src/**/*.rt")]:
        if "out" not in path.relative_to(ROOT).parts:
            used.update(names_used(path.read_text()))
    paths = sorted([*ROOT.glob("crates/*/proofs/**/*.antt"), *ROOT.glob("crates/*/specs/**/*Laws.antt")])
    lemmas = [(path, name) for path in paths if has_lemmas(path) for name in lemmas_in(path.read_text())]
    faults = [f"{shown(path)}: nothing uses {name}" for path, name in lemmas if name not in used]
    return faults, len(lemmas) - len(faults)
