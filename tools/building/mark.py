"""What a built program says that it is: proved or not, and of which commit.

The line that `--version` writes stands in the program as it is written, and has the same length in each build. In the
sources it is that of a program that nobody vouches for (crates/seccomp_audit/src/version.rt). Here it is written over, in
the finished file, so that no source changes with a commit.
"""
import os
import re
import subprocess

from building.kit import PROGRAM, ROOT, Refused, replace, text_of

# The line, and how many bytes stand between its parentheses.
ROOM = 32
LINE = re.compile(rb"(%s \d+\.\d+\.\d+ \()[^()\n]{%d}\)\n" % (PROGRAM.encode(), ROOM))

# How a claim begins, and what it says where no commit is known: both together fill the room.
BEGINNINGS = {"proved": "proved, ", "unproved": "not proved, "}
NO_COMMIT = {"proved": "but of an unknown commit", "unproved": "of an unknown commit"}


def commit_of(folder=ROOT):
    """The commit that stands in a folder, and whether something there isn't committed; "" where git knows of none."""
    def said(*words):
        return subprocess.run(["git", "-C", folder, *words], capture_output=True, text=True, check=True).stdout

    try:
        top, commit = said("rev-parse", "--show-toplevel", "HEAD").splitlines()
        changes = said("status", "--porcelain")
    except (OSError, ValueError, subprocess.CalledProcessError):
        return "", False
    # A folder that was unpacked somewhere in another repository isn't of that one's commit.
    return (commit, bool(changes)) if os.path.samefile(top, folder) else ("", False)


def claim(kind, commit, is_changed):
    """What stands between the parentheses for a program of a kind: as much of the commit as there is room for."""
    begins, ends = BEGINNINGS[kind], "+changes" * is_changed
    return begins + (commit[:ROOM - len(begins) - len(ends)] + ends if commit else NO_COMMIT[kind])


def marked(data, told):
    """The bytes of a program that claims this. Refused where they have no place for it."""
    made, count = LINE.subn(lambda line: line[1] + told.encode() + b")\n", data)
    if not count or len(made) != len(data):
        raise Refused(f"the program has no place for `({told})`: see {PROGRAM}/src/version.rt")
    return made


def version_in_sources():
    """The version that the sources give the program."""
    return re.search(rf"{PROGRAM} (\d+\.\d+\.\d+) ", text_of(f"crates/{PROGRAM}/src/version.rt"))[1]


def version_of(program):
    """What a program says for `--version`, without the end of the line."""
    ran = subprocess.run([program, "--version"], stdin=subprocess.DEVNULL, capture_output=True, text=True)
    return ran.stdout.removesuffix("\n")


def put(program, kind):
    """Lets a program say what it is, of the commit that stands now. The file is whole at any time. Refused where it then
    says something else."""
    told = claim(kind, *commit_of())

    def check(made):
        if not version_of(made).endswith(f" ({told})"):
            raise Refused(f"the marked program says `{version_of(made)}`, and not `({told})`")

    with open(program, "rb") as file:
        data = marked(file.read(), told)
    replace(program, data, os.stat(program).st_mode & 0o777, check)
