"""Tries what a person meets: errors that explain themselves at a terminal, `@NAME` as a path, and `--policy @auto`.

    tools/test person [PROGRAM]

PROGRAM is tried in copies, so that what comes with it is looked for beside them.
"""
import contextlib
import os
import pathlib
import pty
import shutil
import struct
import subprocess
import tempfile

from building.kit import PROGRAM, ROOT, write
from testing.told import finish, given_program, tell

FILTER = os.path.join(ROOT, "examples/p1.bpf")
MISSING = ("check", "no-such-file.bpf")
LINE = "error 50 Read\n"
EXPLAINED = LINE + 'file "no-such-file.bpf": No such file or directory (os error 2)\na file can\'t be read, or has more than 1 MiB\n'

# Why a name is refused that can't be that of an installed file.
NO_NAME = "behind @ stands a name of letters, digits, - and _"

# Two policies, each of which has a name of its own for its question.
POLICY = 'version = 2\n\n[[question]]\nname = "{}"\nnr = 101\nactions = ["ALLOW"]\n'


def environment(**more):
    """The environment without what this program looks at, and with what is given."""
    kept = {name: value for name, value in os.environ.items() if not name.startswith("SECCOMP_AUDIT_")}
    return {**kept, "LC_ALL": "C", **more}


def at_terminal(words, **more):
    """What a command writes to standard error where that is a terminal."""
    ours, theirs = pty.openpty()
    with subprocess.Popen(words, env=environment(**more), stdin=subprocess.DEVNULL, stdout=subprocess.DEVNULL, stderr=theirs):
        os.close(theirs)
        said = b""
        # The end of what a terminal says is an error.
        with contextlib.suppress(OSError):
            while part := os.read(ours, 4096):
                said += part
    os.close(ours)
    return said.decode().replace("\r\n", "\n")


def run(words, cwd=None, given=None, **more):
    """The status of a command, and what it writes to standard output and to standard error."""
    ran = subprocess.run(words, cwd=cwd, env=environment(**more), input=given or b"", capture_output=True)
    return ran.returncode, ran.stdout.decode(), ran.stderr.decode()


def try_explanations(program):
    """An error explains itself where a person sees it, or where the environment asks for it."""
    words = [program, *MISSING]
    for what, got, due in [
        ("at a terminal", at_terminal(words), EXPLAINED),
        ("at a terminal that is to stay quiet", at_terminal(words, SECCOMP_AUDIT_EXPLAIN="0"), LINE),
        ("at a terminal, where the variable says something else", at_terminal(words, SECCOMP_AUDIT_EXPLAIN="no"), EXPLAINED),
        ("into a pipe", run(words)[2], LINE),
        ("into a pipe, where it is asked for", run(words, SECCOMP_AUDIT_EXPLAIN="1")[2], EXPLAINED),
    ]:
        tell(got == due, f"an error {what}", repr(got))


def made(room, where, policies, name):
    """A copy of the program's place: the program at `where` below the room, and a policy below `policies`."""
    program = os.path.join(room, where, PROGRAM)
    os.makedirs(os.path.dirname(program))
    shutil.copy(given_program(), program)
    os.makedirs(os.path.join(room, policies))
    write(os.path.join(room, policies, "it.toml"), POLICY.format(name))
    return program


def tells(program, question, cwd=None, path="@it", **more):
    """Whether the policy at a path is the one that has this question; and what came."""
    got = run([program, "audit", "--policy", path, FILTER], cwd, **more)
    return got[0] <= 2 and f" {question} " in got[1], got


def reason(program, path, **more):
    """The line that says which file can't be read, and why; without the path that was given."""
    said = run([program, "audit", "--policy", path, FILTER], SECCOMP_AUDIT_EXPLAIN="1", **more)
    return said[2].split("\n")[1].removeprefix(f'file "{path}": ') if said[0] == 5 else said


def try_places(room):
    """A file is found beside the program, in its checkout, or in the folder that the environment names."""
    beside = made(f"{room}/beside", "bin", "share/seccomp_audit/policies", "beside")
    is_found, got = tells(beside, "beside")
    tell(is_found, "beside the program", got)
    for where in ("out/proved", "out/unproved", f"crates/{PROGRAM}/out"):
        top = os.path.join(room, where.replace("/", "-"))
        is_found, got = tells(made(top, where, "policies", "of-a-checkout"), "of-a-checkout")
        tell(is_found, f"in a checkout, for {where}", got)
    other = f"{room}/out-proved"
    is_found, got = tells(beside, "of-a-checkout", SECCOMP_AUDIT_SHARE=other)
    tell(is_found, "in the folder that the environment names", got)
    got = reason(beside, "@it", SECCOMP_AUDIT_SHARE=f"{room}/empty")
    tell(got == f"there is no {room}/empty/policies/it.toml", "only there", got)
    write(os.path.join(other, "@it"), POLICY.format("a-file"))
    is_found, got = tells(beside, "a-file", cwd=other, path="./@it")
    tell(is_found, "./@it is a file", got)
    return beside


def try_reasons(room, beside):
    """What isn't found is refused with what was tried, and what can't be read with its place."""
    shares = f"{room}/beside/bin/../share/seccomp_audit/policies"
    got = reason(beside, "@other")
    tell(got == f"there is no {shares}/other.toml", "no such file", got)
    built = f"{room}/out-proved/out/proved"
    got, top = reason(f"{built}/{PROGRAM}", "@other"), f"{room}/out-proved"
    due = f"there is no {built}/../share/seccomp_audit/policies/other.toml, and no {top}/policies/other.toml"
    tell(got == due, "no such file in a checkout", got)
    os.mkdir(f"{room}/beside/share/seccomp_audit/policies/folder.toml")
    got = reason(beside, "@folder")
    tell(got == f"{shares}/folder.toml: Is a directory (os error 21)", "a folder in its place", got)
    for path in ("@", "@a/b", "@../policies/it", "@it.toml"):
        got = reason(beside, path)
        tell(got == NO_NAME, f"no name of an installed file: {path}", got)


def filter_that_tests(*architectures):
    """The bytes of a filter that compares the architecture with each of these numbers, and lets all through."""
    tests = [(0x15, 0, 0, number) for number in architectures]
    return b"".join(struct.pack("<HBBI", *it) for it in [(0x20, 0, 0, 4), *tests, (0x06, 0, 0, 0x7FFF0000)])


def try_auto(program, room):
    """`@auto` is the ready policy of the one architecture that the filters test, with its control, and with names."""
    def audit(*words, given=None):
        return run([program, "audit", *words], given=given, SECCOMP_AUDIT_SHARE=ROOT)

    paths = {name: os.path.join(room, name) for name in ("arm", "both", "none", "@auto")}
    for name, numbers in (("arm", [0x40000028]), ("both", [0xC000003E, 0x40000003, 0xC000003E]), ("none", [1])):
        pathlib.Path(paths[name]).write_bytes(filter_that_tests(*numbers))
    x64 = pathlib.Path(FILTER).read_bytes()
    due = audit("--policy", "@x86_64", "--control", "@control-x86_64", "--names", "@names", FILTER)
    tell(due[0] == 1 and "terminal-injection" in due[1], "the ready policy", due)
    for words in (["--policy", "@auto", FILTER], ["--policy=@auto", FILTER], [FILTER, "--policy", "@auto"], ["--policy", "@auto", "-"]):
        got = audit(*words, given=x64)
        tell(got == due, f"@auto: {words}", got)
    got = audit("--policy", "@auto", "--control", FILTER, FILTER)
    tell(got[0] == 3 and got[2].startswith("error 46"), "@auto with another control", got)
    got = audit("--policy", "@auto", paths["arm"])
    tell(got == audit("--policy", "@arm", "--control", "@control-arm", "--names", "@names", paths["arm"]), "@auto for arm", got)
    front = "error: --policy @auto takes filters that test one architecture; these test "
    for name, found in (("both", "x86_64 and i386"), ("none", "none of x86_64, i386, aarch64 and arm")):
        got = audit("--policy", "@auto", paths[name])
        tell(got == (4, "", f"{front}{found}\n  Name the policy, as --policy @x86_64.\n"), f"@auto for {name}", got)
    got = audit("--policy", "@auto", paths["arm"], FILTER)
    tell(got[0] == 4 and got[2].startswith(f"{front}x86_64 and arm\n"), "@auto for two filters", got)
    got = audit("--policy", "@auto", f"{room}/missing")
    tell(got == (5, "", LINE), "@auto where a filter is missing", got)
    write(paths["@auto"], POLICY.format("a-file"))
    got = run([program, "audit", "--policy", "./@auto", FILTER], room)
    tell(got[0] <= 2 and " a-file " in got[1], "./@auto is a file", got)


def main():
    with tempfile.TemporaryDirectory() as room:
        room = os.path.realpath(room)
        try_explanations(given_program())
        try_reasons(room, try_places(room))
        try_auto(given_program(), room)
    return finish()
