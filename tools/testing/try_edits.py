"""Tries how tools/try_edits reads what the prover says of edits, which edits it tries together, and how many in a gate.

    tools/test try_edits

The prover's lines are those of two functions, of which `outer` calls `inner`.
"""
import pathlib
import tempfile

from testing.told import finish, tell
from trying.chosen import MOST, MOST_IN_TURN, in_turn
from trying.edits import BadEdit, Functions, changed, edit_of, rounds_of
from trying.prover import judged

# A crate with a function that calls another one, a method, and one that names a constant.
FILES = {
    "src/lib.rt": "mod inner;\nmod outer;\n",
    "src/inner.rt": "const MOST: u32 = 5;\n\n/// Calls outer, in words.\npub fn inner(n: u32) -> u32 {\n    n + 1\n}\n"
    "\npub fn least(n: u32) -> u32 {\n    n.min(MOST)\n}\n\npub struct Sum {\n    n: u32,\n}\n",
    "src/outer.rt": "use crate::inner::{Sum, inner};\n\npub fn outer(n: u32) -> u32 {\n    inner(n) - 1\n}\n"
    "\nimpl Sum {\n    pub fn doubled(&self) -> u32 {\n        outer(self.n) * 2\n    }\n}\n"
    "\npub fn some(ns: &[u32]) -> bool {\n    ns.iter().any(|n| *n > 1)\n}\n"
    "\npub fn each(ns: &[u32]) -> bool {\n    ns.iter().all(|n| *n > 1)\n}\n",
}

# Edits: their files, what they replace, and the functions that they are of.
EDITS = {
    "adds_two": ("src/inner.rt", "n + 1", "n + 2", ("inner::inner",)),
    "takes_two": ("src/outer.rt", "inner(n) - 1", "inner(n) - 2", ("outer::outer",)),
    "trebles": ("src/outer.rt", "* 2", "* 3", ("inner::Sum::doubled",)),
    "most_is_6": ("src/inner.rt", "u32 = 5", "u32 = 6", ("inner::least",)),
    "all": ("src/outer.rt", "ns.iter().any(", "ns.iter().all(", ("outer::some",)),
    "any": ("src/outer.rt", "ns.iter().all(", "ns.iter().any(", ("outer::each",)),
}

# Which of them are tried together: those that call one another aren't.
ROUNDS = [["adds_two", "all", "any", "most_is_6"], ["takes_two"], ["trebles"]]

REFUSED = "fn sf_new::outer::outer: no proof: expected answers in ./proofs/outer/outer/Answers.antt; `search` did not prove `returns`"
WAITS = "fn sf_new::outer::outer: not proved; it calls `sf_new::inner::inner`, which is not proved"
CLOSURE = "fn sf_new::outer::fn::outer::any+FnMut::call_mut: no proof: `search` did not prove `returns`"
OF_CLOSURE = "fn sf_new::outer::outer: not proved; it calls `sf_new::outer::fn::outer::any+FnMut::call_mut`, which is not proved"
STRAY = "fn sf_new::other::other: no proof: `search` did not prove `returns`"
ANSWER = "./proofs/outer/outer/Answers.antt:3:5: error: `returns`: the two types differ"
PROVED, INNER = "fn sf_new::outer::outer: proved", "fn sf_new::inner::inner: no proof: `search` did not prove `returns`"

# What the prover says of `takes_two`, whether that is a refusal, and whether it is tried once more.
SAID = [
    ("a goal that isn't proved", [REFUSED], True, False),
    ("an answer that is wrong", [ANSWER, "fn sf_new::outer::outer: not proved"], True, False),
    ("a closure in it", [CLOSURE, OF_CLOSURE], True, False),
    ("another edited function that fails too", [REFUSED, INNER], True, False),
    ("still proved", [PROVED], False, False),
    ("not proved for no reason of its own", ["fn sf_new::outer::outer: could not tell"], False, False),
    ("a callee that isn't proved", [WAITS, INNER], False, True),
    ("the same, with a goal of its own", [WAITS.replace("; it", "; `search` did not prove `returns`; it"), INNER], False, True),
    ("a function without an edit that fails", [REFUSED, STRAY], False, True),
    ("an answer that names what is gone", [ANSWER.replace("the two types differ", "`x` is not in scope"), REFUSED], False, True),
    ("the same in other words", [ANSWER.replace("the two types differ", "module `m` has no `x` that can be named from here"), REFUSED],
     False, True),
    ("an answer that rests on a refused one", [ANSWER.replace("the two types differ", "it depends on `x`, which was not admitted"), PROVED],
     False, False),
    ("a text that can't be read", ["src/outer.rt:4:5: error: expected `;`", REFUSED], False, True),
    ("nothing", [], False, True),
]


def room_of(folder):
    """The crate, with its edits."""
    crate = pathlib.Path(folder) / "sf_new"
    for name, text in FILES.items():
        (crate / name).parent.mkdir(parents=True, exist_ok=True)
        (crate / name).write_text(text)
    for name, (file, old, new, _) in EDITS.items():
        (crate / f"{name}.edit").write_text(f"file: {file}\nold: {old}\nnew: {new}\n")
    (crate / "nothing.edit").write_text("file: src/inner.rt\nold: mod\nnew: pub mod\n")
    return crate


def results(crate):
    """What is tried, and whether it is as it has to be."""
    functions = Functions(crate)
    edits = {name: edit_of(crate, crate / f"{name}.edit", functions) for name in EDITS}
    for name, edit in edits.items():
        yield f"the functions of {name}", edit.functions == EDITS[name][3]
    try:
        edit_of(crate, crate / "nothing.edit", functions)
        yield "an edit that can't be applied", False
    except BadEdit:
        yield "an edit that can't be applied", True
    both, text = [edits["all"], edits["any"]], FILES["src/outer.rt"]
    exchanged = text.replace(".any(", ".x(").replace(".all(", ".any(").replace(".x(", ".all(")
    yield "two edits of one file", changed("src/outer.rt", text, both) == changed("src/outer.rt", text, both[::-1]) == exchanged
    rounds = [sorted(edit.path.stem for edit in one) for one in rounds_of(list(edits.values()), functions)]
    yield f"the rounds {rounds}", rounds == ROUNDS
    chosen = in_turn()
    yield f"the edits in turn: {chosen}", chosen == in_turn() and 0 < sum(map(len, chosen.values())) <= MOST_IN_TURN
    yield "those of each crate", all(0 < len(some) <= MOST for some in chosen.values())
    of_inner = edits["adds_two"]
    for what, lines, is_refused, waits in SAID:
        one = judged(lines, edits["takes_two"], [edits["takes_two"], of_inner])
        yield f"{what}: {one}", (one.is_refused, one.waits) == (is_refused, waits)


def main():
    with tempfile.TemporaryDirectory() as folder:
        for what, is_well in results(room_of(folder)):
            tell(is_well, what)
    return finish()
