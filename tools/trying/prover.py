"""Asks the prover for the functions that edits are of, all in one copy of their crate, and judges what it says."""
import os
import pathlib
import re
import shutil
import subprocess
import tempfile
from collections import namedtuple

from building.kit import ROOT, crates_below, libraries_of_crates
from trying.edits import changed

# What a copy of a crate has.
PARTS = ("src", "specs", "proofs")

# What the prover says of a text that it can't read, or of a proof that names what an edit took away. Such a refusal
# says nothing of a contract.
UNREAD = re.compile(r"is not in scope|has no |is no name|operand is missing|expected the end|cannot continue")
# What it says of a proof that rests on another one which it refused.
RESTS = re.compile(r"was not admitted|was not checked")
ERROR = re.compile(r"^(?:\./)?(\S+?):\d+:\d+: error: (.*)")

# What the prover said of an edit: whether it refused it, why, whether it is to be tried once more without others, and
# whether it refused only what names a thing that is gone.
Judged = namedtuple("Judged", "is_refused why waits is_weak", defaults=[False])


def library(name):
    return f"{ROOT}/crates/{name}/out/rlib/{name}.rlib"


def stale(names):
    """The libraries below these crates that aren't built, or are older than their sources."""
    for name in sorted({one for name in names for one in below(name)}):
        sources = [path for part in PARTS for path in pathlib.Path(ROOT, "crates", name, part).rglob("*.*")]
        if not os.path.exists(library(name)) or any(os.path.getmtime(library(name)) < path.stat().st_mtime for path in sources):
            yield name


def below(name):
    """The crates of the repository that a crate stands on."""
    return [one for one in crates_below(name) if one != name]


def words_of(kit, name):
    """The words that have the prover check a crate over the libraries that stand."""
    uses = libraries_of_crates()[name]
    root = "main" if os.path.isfile(f"{ROOT}/crates/{name}/src/main.rt") else "lib"
    words = ["--crate-name", name, f"src/{root}.rt", "-L", f"dependency={kit}/rlibs"]
    for one in ["std", *uses]:
        words += ["--extern", f"{one}={library(one) if one in below(name) else f'{kit}/rlibs/{one}.rlib'}"]
    for one in below(name):
        words += ["-L", f"dependency={os.path.dirname(library(one))}"]
    words += ["--antt-project", f"{kit}/rattle/logic/antt-project.json", "--logic-built", f"{kit}/logic_built"]
    return [*words, "--links", f"{name}=", "--jobs", "1"]


def asked(kit, edits, kept):
    """What the prover says of a crate's functions that edits are of, with all these edits made. What it proves of other
    functions is kept in a folder, for further rounds."""
    name = edits[0].crate
    with tempfile.TemporaryDirectory(prefix="edits-") as room:
        for part in PARTS:
            if os.path.isdir(f"{ROOT}/crates/{name}/{part}"):
                shutil.copytree(f"{ROOT}/crates/{name}/{part}", f"{room}/{part}")
        for path in {pathlib.Path(room, change.file) for edit in edits for change in edit.changes}:
            path.write_text(changed(str(path.relative_to(room)), path.read_text(), edits))
        only = [word for edit in edits for function in edit.functions for word in ("--only", function)]
        words = [f"{kit}/bin/rattle", "check", *words_of(kit, name), "--incremental", kept, *only]
        ran = subprocess.run(words, cwd=room, stdin=subprocess.DEVNULL, stdout=subprocess.PIPE, stderr=subprocess.STDOUT, text=True, errors="replace")
    return ran.stdout.splitlines()


def is_within(name, function):
    """Whether a function that the prover names is this one, or a closure in it."""
    *module, last = function.split("::")
    closures = ["::".join([*module[: len(module) - depth], "fn", *module[len(module) - depth :], last, ""]) for depth in (0, 1)]
    return name == function or name.startswith(tuple(closures))


def callees_in(told):
    """The functions of the crate that one calls, and that are not proved, by what is told of it."""
    listed = re.search(r"it calls (.*?),? which (?:is|are) not proved", told)
    return re.findall(r"`\w+::([^`]*)`", listed[1]) if listed else []


def folders_of(function):
    """Where the proofs of a function stand, alone or with that of its calls of itself."""
    *module, last = function.split("::")
    return ["/".join(["proofs", *module, name, ""]) for name in (last, f"+{last}")]


def told_of(said, edit, edits):
    """What the prover said of an edit's functions, and the first function that isn't proved though no edit is in it."""
    told, stray = [], None
    for found in filter(None, (re.match(rf"fn {edit.crate}::(\S+): (.*)", line) for line in said)):
        name, what = found.groups()
        if any(is_within(name, function) for function in edit.functions):
            told.append(what)
        elif not what.startswith("proved") and not callees_in(what):
            is_edited = any(is_within(name, function) for other in edits for function in other.functions)
            stray = stray or (None if is_edited else name)
    return told, stray


def judged(said, edit, edits):
    """What the prover said of an edit that was made with others."""
    told, stray = told_of(said, edit, edits)
    if not told:
        return Judged(False, "the prover did not come to it: " + next((line for line in said if "error" in line), "it says nothing"), True)
    folders = tuple(folder for function in edit.functions for folder in folders_of(function))
    files = {change.file for change in edit.changes}
    errors = [it for it in map(ERROR.match, said) if it and (it[1].startswith(folders) or it[1] in files) and not RESTS.search(it[2])]
    unread = next((it[0] for it in errors if UNREAD.search(re.sub(r"`[^`]*`", "", it[2])) or it[1] in files), None)
    if unread:
        return Judged(False, f"its text, or a proof that names what it took away, can't be read: {unread}", True, True)
    waits = [callee for what in told for callee in callees_in(what) if not any(is_within(callee, one) for one in edit.functions)]
    if waits or stray:
        return Judged(False, f"it waits for {waits[0]}, which it calls" if waits else f"{stray} isn't proved either, and no edit is in it", True)
    own = errors[0][0] if errors else next((what for what in told if "did not prove" in what), None)
    if own is None and all(what.startswith("proved") for what in told):
        return Judged(False, "it is still proved", False)
    return Judged(own is not None, own or f"not proved, with no reason of its own: {told[0]}", False)
