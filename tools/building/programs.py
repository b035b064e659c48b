"""Tests and programs of the crates: which crates have some, and what a program must write."""
import itertools
import subprocess
import tempfile


def has_tests(crate):
    return any("#[test]" in path.read_text() for path in (crate / "src").rglob("*.rt"))


def is_program(crate):
    return (crate / "src/main.rt").is_file()


def bytes_of(path):
    return path.read_bytes() if path.is_file() else b""


def first_difference(due, written):
    """The first line that differs, with its number from 1: what is due, and what was written."""
    due, written = due.decode(errors="replace").split("\n"), written.decode(errors="replace").split("\n")
    for number, (line, other) in enumerate(itertools.zip_longest(due, written, fillvalue="(no line)"), 1):
        if line != other:
            return f"line {number} differs:\n- {line}\n+ {other}"
    return ""


def why_wrong(crate, program):
    """What is wrong with what a crate's program writes, in a folder with its data: its file `stdout` has what is due; None
    where nothing is."""
    with tempfile.TemporaryDirectory() as room:
        data = crate / "data"
        words = [program, *bytes_of(crate / "args").decode().splitlines()]
        ran = subprocess.run(words, cwd=data if data.is_dir() else room, input=bytes_of(crate / "stdin"), capture_output=True)
    if ran.stdout != bytes_of(crate / "stdout"):
        return first_difference(bytes_of(crate / "stdout"), ran.stdout)
    status = int(bytes_of(crate / "status") or 0)
    return None if ran.returncode == status else f"ends with status {ran.returncode}, and not {status}"
