"""What the scripts here take of the Rattle kit beside its command `rt`, and where they put what they build."""
import hashlib
import importlib.machinery
import importlib.util
import os
import shutil
import subprocess
import sys
import tempfile
from collections import namedtuple

ROOT = os.path.dirname(os.path.dirname(os.path.dirname(os.path.abspath(__file__))))
OUT = os.path.join(ROOT, "out")
KNOWN_COSTS = os.path.join(ROOT, ".ci/costs")
PROGRAM = "seccomp_audit"

# The kits that the proofs were made with, and what they have in common: the logic that each proof is in.
KITS = ("rattle-kit-13b", "rattle-kit-13f")
LOGIC = "dac8208d650f15bf"

# What a proof costs: the modules of libraries that it loads, its functions, and seconds of one processor.
Cost = namedtuple("Cost", "modules functions seconds")


class Refused(Exception):
    """Why something can't be done, in one line, and what to do."""


def kit_version():
    """What `rt version` says; "" where there is no `rt` on the path."""
    command = shutil.which("rt")
    return subprocess.run([command, "version"], capture_output=True, text=True).stdout.strip() if command else ""


def found():
    """The folder of the kit whose `rt` is on the path. Refused where there is none, or another one."""
    command = shutil.which("rt")
    if command is None:
        raise Refused("there is no `rt` on the path: install the Rattle kit, or take the package, which needs none")
    words = kit_version().split()
    if words[:1] != [k for k in KITS if k in words[:1]] or words[1:] != ["logic", LOGIC]:
        told = " ".join(words) or "no version"
        raise Refused(f"`rt version` says `{told}`: the proofs are for {' or '.join(KITS)}, logic {LOGIC}")
    return os.path.dirname(os.path.dirname(os.path.realpath(command)))


def loaded(path):
    """A script in Python, as a module: `rt` of the kit, which is the gate, or one of this repository."""
    sys.dont_write_bytecode = True
    name = os.path.basename(path)
    spec = importlib.util.spec_from_loader(name, importlib.machinery.SourceFileLoader(name, path))
    module = importlib.util.module_from_spec(spec)
    sys.modules[spec.name] = module
    spec.loader.exec_module(module)
    return module


def built(kind):
    """Where the program of a kind stands: `proved` or `unproved`."""
    return os.path.join(OUT, kind, PROGRAM)


def shown(path):
    """A path as it is shown: from the repository's top where it is below it."""
    return os.path.relpath(path, ROOT) if path.startswith(ROOT + os.sep) else path


def text_of(path):
    """The text of a file, by its path from the repository's top, or the whole one."""
    with open(os.path.join(ROOT, path), encoding="utf-8") as file:
        return file.read()


def write(path, text):
    """Writes a file, whose path is meant so too."""
    with open(os.path.join(ROOT, path), "w", encoding="utf-8") as file:
        file.write(text)


def write_script(path, text):
    """Writes a file that can be run."""
    write(path, text)
    os.chmod(path, 0o755)


def replace(path, data, mode, check=lambda made: None):
    """Puts these bytes in a file's place: beside it first, where `check` may look at them. So it is whole at any time, and
    may run meanwhile."""
    number, beside = tempfile.mkstemp(dir=os.path.dirname(path), prefix=f".{os.path.basename(path)}.")
    try:
        with os.fdopen(number, "wb") as file:
            file.write(data)
        os.chmod(beside, mode)
        check(beside)
        os.replace(beside, path)
    except BaseException:
        os.remove(beside)
        raise


def libraries_of_crates():
    """Each crate of the repository, with the libraries that it uses."""
    lines = [line.split(":") for line in text_of("crates.txt").splitlines() if ":" in line and not line.startswith("#")]
    return {crate.strip(): words.split() for crate, words in lines}


def crates_below(name=PROGRAM):
    """A crate and the repository's libraries that it stands on."""
    uses = libraries_of_crates()
    found, left = set(), [name]
    while left:
        name = left.pop()
        if name in uses and name not in found:
            found.add(name)
            left += uses[name]
    return sorted(found)


def known_costs():
    """What each crate's proof is known to cost, by .ci/costs."""
    rows = [line.split() for line in text_of(KNOWN_COSTS).splitlines() if line.strip() and not line.startswith("#")]
    return {crate: Cost(*map(int, numbers)) for crate, *numbers in rows}


def sum_of_sources():
    """A sum of all that the program is made of."""
    whole, paths = hashlib.sha256(), [os.path.join(ROOT, name) for name in ("crates.txt", "HANDLES")]
    for crate in crates_below():
        for part in ("src", "specs", "proofs"):
            for at, folders, names in os.walk(os.path.join(ROOT, "crates", crate, part)):
                folders.sort()
                paths += [os.path.join(at, name) for name in sorted(names)]
    for path in paths:
        with open(path, "rb") as file:
            whole.update(repr((os.path.relpath(path, ROOT), file.read())).encode())
    return whole.hexdigest()


def made_of():
    """What stands beside a program that is built now: the sum of its sources, and the kit."""
    return f"{sum_of_sources()}\n{kit_version()}"


def is_current(kind):
    """Whether the program of a kind stands, and was built of the sources that stand now, by the kit that is on the path, if
    there is one."""
    try:
        sources, _, kit = text_of(f"out/{kind}/of").partition("\n")
        return os.path.isfile(built(kind)) and sources == sum_of_sources() and kit_version() in ("", kit)
    except OSError:
        return False
