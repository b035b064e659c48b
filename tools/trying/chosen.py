"""Which edits a gate tries, and which of them were refused on this machine before."""
import hashlib
import os
import pathlib
import subprocess

from building.kit import ROOT, crates_below, known_costs, libraries_of_crates
from looking.edits import TIERS

# The folders of edits that `tools/try_edits` tries: those of the first in each gate, those of the second in turn.
_, ALWAYS, IN_TURN = TIERS

# So many edits of a crate are tried one after the other. More of them are parts, which are tried side by side: else the
# crate with the most edits takes longer than all others together. A gate tries one part of a crate.
MOST = 12

# How many edits in turn a gate tries at most, how many seconds of one processor it gives them, and how many times as long
# as a crate's proof a part of its edits takes.
MOST_IN_TURN, SECONDS, TIMES = 60, 25 * 60, 1.5


def edits_in(crate, folder):
    return sorted((pathlib.Path(ROOT) / "crates" / crate / folder).glob("*.edit"))


def in_turn():
    """The edits in turn that a gate tries, by their crates. A hash of the tree orders crates and edits, so that one commit
    always tries the same."""
    tree = subprocess.run(["git", "rev-parse", "HEAD:crates"], cwd=ROOT, check=True, capture_output=True).stdout
    by_tree = lambda name: hashlib.sha256(tree + str(name).encode()).digest()
    room, left, chosen, known = MOST_IN_TURN, SECONDS, {}, known_costs()
    for crate in sorted(known, key=by_tree):
        some = sorted(edits_in(crate, IN_TURN), key=lambda path: by_tree(path.name))[: min(room, MOST)]
        needed = TIMES * known[crate].seconds
        if some and needed <= left:
            room, left, chosen[crate] = room - len(some), left - needed, sorted(some)
    return chosen


def sum_of(kit, crate):
    """A sum of all that a check of a crate reads, and of what tries its edits."""
    whole = hashlib.sha256(open(f"{kit}/KIT-ID", "rb").read())
    here = os.path.dirname(os.path.abspath(__file__))
    folders = [f"{ROOT}/crates/{name}/{part}" for name in crates_below(crate) for part in ("src", "specs", "proofs")]
    for folder in [here, *folders]:
        for path in sorted(pathlib.Path(folder).rglob("*.*")):
            if path.suffix in (".py", ".rt", ".antt"):
                whole.update(repr((os.path.relpath(path, ROOT), path.read_bytes())).encode())
    whole.update(repr([libraries_of_crates()[name] for name in crates_below(crate)]).encode())
    return whole.digest()


class Refusals:
    """The edits that were refused on this machine, each with all that it was tried on: files without text, by a sum."""

    def __init__(self, kit):
        self.kit, self.sums = kit, {}
        home = os.environ.get("XDG_CACHE_HOME") or os.path.expanduser("~/.cache")
        self.folder = pathlib.Path(home) / "seccomp_audit" / "refused"

    def path_of(self, edit):
        if edit.crate not in self.sums:
            self.sums[edit.crate] = sum_of(self.kit, edit.crate)
        return self.folder / hashlib.sha256(self.sums[edit.crate] + edit.path.read_bytes()).hexdigest()

    def has(self, edit):
        return self.path_of(edit).is_file()

    def keep(self, edit):
        self.folder.mkdir(parents=True, exist_ok=True)
        self.path_of(edit).touch()
