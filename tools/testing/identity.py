"""Tries what a built program says that it is: whether one that isn't proved can say that it is.

    tools/test identity [PROGRAM]

PROGRAM is marked in copies only.
"""
import os
import re
import shutil
import subprocess
import tempfile

from building import mark
from building.kit import PROGRAM, built, text_of, write, write_script
from testing import told

COMMIT = "0123456789abcdef" * 4

# What a program of a kind claims at a commit, and with changes or without them.
CLAIMS = [
    ("proved", COMMIT[:40], False, "proved, 0123456789abcdef01234567"),
    ("proved", COMMIT[:40], True, "proved, 0123456789abcdef+changes"),
    ("proved", "", False, "proved, but of an unknown commit"),
    ("unproved", COMMIT[:40], False, "not proved, 0123456789abcdef0123"),
    ("unproved", COMMIT, True, "not proved, 0123456789ab+changes"),
    ("unproved", "", False, "not proved, of an unknown commit"),
]


def claims():
    """Each claim fills its place, and only that of a proved program begins with `proved`."""
    for kind, commit, is_changed, due in CLAIMS:
        got = mark.claim(kind, commit, is_changed)
        is_well = got == due and len(got) == mark.ROOM and got.startswith("proved") == (kind == "proved")
        yield f"claim: {kind} {commit} {is_changed}", is_well, got
    found = re.findall(r'"(.*)\\n"', text_of(f"crates/{PROGRAM}/src/version.rt"))
    is_well = len(found) == 1 and mark.LINE.fullmatch(f"{found[0]}\n".encode()) and "(not proved, of an unknown commit)" in found[0]
    yield "the sources vouch for nothing", is_well, found


def marks(program, room):
    """What copies of the program say when they are marked."""
    is_proved = os.path.realpath(program) == os.path.realpath(built("proved"))
    says = mark.version_of(program)
    yield "the program says what it is", (" (not proved, " in says) != is_proved, says
    with open(program, "rb") as file:
        data = file.read()
    copy = os.path.join(room, "copy")
    shutil.copy(program, copy)
    for kind in ("proved", "unproved", "proved", "unproved"):
        mark.put(copy, kind)
        says, due = mark.version_of(copy), mark.claim(kind, *mark.commit_of())
        yield f"a copy that is marked as {kind}", says.split(" (")[1:] == [f"{due})"], says
        yield f"a copy that is marked as {kind}: nothing else", os.path.getsize(copy) == len(data), os.path.getsize(copy)
    is_well = mark.marked(data, mark.claim("unproved", "", False)) == mark.marked(open(copy, "rb").read(), "not proved, of an unknown commit")
    yield "a mark changes nothing but the mark", is_well, ""
    yield "no copy is left beside", os.listdir(room) == ["copy"], os.listdir(room)


def refusals(room):
    """What can't be marked stays as it was."""
    line = f"{PROGRAM} {mark.version_in_sources()} (not proved, of an unknown commit)"
    for what, text in (("no place", "exec true"), ("a shorter place", f"echo '{line.replace('an ', '')}'"),
                       ("a place that isn't shown", f"true '{line}\n'; echo '{line[:-1]}!)'")):
        path, script = os.path.join(room, "stand-in"), f"#!/bin/sh\n{text}\n"
        write_script(path, script)
        got = told.refusal(mark.put, path, "proved")
        yield f"{what}: it is refused", got and text_of(path) == script and os.listdir(room) == ["stand-in"], got


def commits(room):
    """What git says of a folder."""
    def git(*words):
        who = ["-c", "user.name=A", "-c", "user.email=a@example.org"]
        return subprocess.run(["git", "-C", room, *who, *words], capture_output=True, text=True, check=True).stdout.strip()

    def case(what, due, folder=room):
        got = mark.commit_of(folder)
        return what, got == due, got

    yield case("no repository: no commit", ("", False))
    git("init", "-q")
    yield case("no commit yet", ("", False))
    write(f"{room}/file", "1\n")
    git("add", "file")
    git("commit", "-qm", "one")
    head = git("rev-parse", "HEAD")
    yield case("a commit", (head, False))
    os.mkdir(f"{room}/below")
    yield case("a folder in a repository of others", ("", False), f"{room}/below")
    write(f"{room}/more", "2\n")
    yield case("a file that git doesn't know", (head, True))
    os.remove(f"{room}/more")
    write(f"{room}/file", "2\n")
    yield case("a file that changed", (head, True))


def main():
    for some in (lambda _: claims(), lambda room: marks(told.given_program(), room), refusals, commits):
        with tempfile.TemporaryDirectory(prefix="identity-") as room:
            for what, is_well, got in some(room):
                told.tell(is_well, what, got)
    return told.finish()
