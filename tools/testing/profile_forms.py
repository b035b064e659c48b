"""Compares which texts `seccomp_audit profile` and helpers/filter_of_profile refuse for their form.

    tools/test profile_forms [PROGRAM]

The texts are those of profile_texts.py, each by itself, and a profile also in a config.json. Those that all runtimes
read alike have to be read by both, and those that 1.2.0 to 1.5.0 read otherwise than some runtime have to be refused by
both. Of any other text both have to say the same, but where only names decide: `profile` refuses calls and sets of
calls that no file of names has. `tools/test runtimes` says what runtimes make of these texts.
"""
import concurrent.futures
import os
import re
import subprocess

from building.kit import ROOT, loaded
from testing import profile_texts
from testing.told import finish, given_program, tell

OPTIONS = ["--machine", "x86_64", "--names", f"{ROOT}/policies/names.toml", "--kernel", "6.1"]
# The faults that aren't of the form: of a name, and of a set of calls.
OF_NAMES = re.compile("error 4[49] ")
# The texts that all five findings about 1.2.0 to 1.5.0 are about.
FOUND = re.compile(r"[ABCD]'?[:,] ")

# Where the two differ, and why that is meant.
MEANT = {
    "known to some: an unknown key": "no runtime reads it; `profile` refuses it, since it may be a known one, mistyped",
    "known to some: an unknown key of a rule": "the same",
    "text: deep": "`profile` reads up to 127 levels; Python, runc and crun read more",
}


def refused_by_tool(module, text):
    """What filter_of_profile says where it refuses a text for its form; None where it doesn't."""
    try:
        module.profile_in(text.decode())
    except (SystemExit, UnicodeDecodeError) as why:
        return str(why)


def refused_by_program(program, text):
    """What `profile` says where it refuses a text; None where it doesn't."""
    ran = subprocess.run([program, "profile", *OPTIONS, "-"], input=text, capture_output=True)
    return ran.stderr.decode(errors="replace").strip() if ran.returncode else None


def texts():
    """Each text as its name, its bytes, and whether it has to be read (True), refused (False), or either (None)."""
    for due, found in ((True, profile_texts.ALIKE), (None, profile_texts.UNLIKE)):
        for name, text in found.items():
            wanted = False if FOUND.match(name) else due
            yield name, text, wanted
            if b'"linux"' not in text:
                yield f"{name}, in a config.json", profile_texts.config(text), wanted


def case(module, program, name, text, due):
    """A line where something is wrong with a text; None where all is well."""
    text = text.replace(b"@head", b'"ociVersion":"1.0.2"').replace(b"@spaces", b'"namespaces":[]')
    one, other = refused_by_program(program, text), refused_by_tool(module, text)
    same = (one is None) == (other is None) and due in (None, one is None)
    meant = name.removesuffix(", in a config.json") in MEANT or other is None and OF_NAMES.match(one or "")
    if same or due is None and meant:
        return None
    return f"{name}: `profile`: {one or 'read'}; filter_of_profile: {other or 'read'}"


def main():
    program, module = given_program(), loaded(f"{ROOT}/helpers/filter_of_profile")
    with concurrent.futures.ThreadPoolExecutor(os.cpu_count()) as pool:
        for wrong in pool.map(lambda one: case(module, program, *one), texts()):
            tell(wrong is None, wrong)
    return finish()
