"""Compares the documents of `seccomp_audit .. --json` with their schemas.

    tools/test schemas [PROGRAM]

Command lines over examples/, policies/ and a filter made here are run with and without `--json`. Each document has to be
one line without blanks, its keys in order, and has to fit its schema in docs/schema/. What it says of the program, its
files and where questions stand has to be so. Both runs have to end with the same status and the same words on standard
error; what is too large gets no document. The documents of crates/command_run/stdout have to fit their schemas too.
Debian's python3-jsonschema reads the schemas as well, where it is there.
"""
import hashlib
import json
import os
import pathlib
import struct
import sys
import tempfile
from concurrent.futures import ThreadPoolExecutor

from testing.told import finish, given_program, ran, tell

ROOT = pathlib.Path(__file__).resolve().parent.parent.parent
sys.path.append(str(ROOT / "report"))
from reporting.schema import faults  # noqa: E402

try:
    import jsonschema
except ImportError:
    jsonschema = None

SCHEMAS = {path.name.removesuffix(".schema.json"): json.loads(path.read_text()) for path in (ROOT / "docs/schema").iterdir()}
NAMED = ["--names", "policies/names.toml"]
CALLS = ["--calls", "ioctl,execve", *NAMED]
SNAP = ["examples/snap-default/01.bpf", "examples/snap-default/02.bpf"]
P1, SSHD = ["examples/p1.bpf"], ["examples/sshd-preauth/01.bpf"]

# What each command is run with, before a stack or two.
OF_ONE = {
    "check": ([], ["--instructions"]),
    "eval": [["--input", struct.pack("<16I", 16, 0xC000003E, 1, 2, *range(3, 15)).hex(), *more]
             for more in ([], NAMED, ["--trace"], ["--trace-true"], ["--trace", *NAMED])],
    "list": ([], NAMED, CALLS, ["--calls", *NAMED], ["--nodes", "3"]),
    "audit": [["--policy", "policies/x86_64.toml", *more]
              for more in ([], ["--regions"], ["--why"], ["--why", *NAMED], ["--budget", "2", "--workers", "1"],
                           ["--policy", "policies/terminal-injection.toml"], ["--control", "policies/control-x86_64.toml"])],
    "needed": ([], ["--nodes", "1"]),
}
OF_TWO = {
    "compare": ([], NAMED, ["--nodes", "2"]),
    "compare-rows": [["--rows", *more] for more in ([], NAMED, CALLS, ["--only", "tighter"], ["--nodes", "2"])],
}


def command_lines(changed):
    """The command lines, each with the name of its schema. `changed` is a filter that differs from the first one."""
    for stack in (P1, SSHD, SNAP):
        yield from ((name, [name, *more, *stack]) for name, some in OF_ONE.items() for more in some)
    for old, new in (P1, P1), (P1, [changed]), ([changed], P1), (SNAP[:1], SNAP), (SSHD, SNAP):
        for name, some in OF_TWO.items():
            yield from ((name, ["compare", *more, "--old", *old, "--new", *new]) for more in some)


def misfits(name, document):
    """Where a document doesn't fit the schema of this name."""
    schema = SCHEMAS[name]
    yield from faults(schema, document, schema)
    if jsonschema:
        yield from (error.message[:200] for error in jsonschema.Draft202012Validator(schema).iter_errors(document))


def written():
    """The documents that `command_run` has to write, each with its line and the name of its schema."""
    for number, line in enumerate((ROOT / "crates/command_run/stdout").read_text().split("\n"), 1):
        if line.startswith("{"):
            document = json.loads(line)
            yield f"line {number}", document["seccomp_audit"] + "-rows" * ({"old", "rows"} <= document.keys()), document


def comment_above(lines, place):
    """The comment directly above one of the lines; None where there is none."""
    first = place
    while first and lines[first - 1].startswith("#"):
        first -= 1
    return " ".join(line.removeprefix("#").removeprefix(" ") for line in lines[first:place]) or None


def misplaced(document):
    """The questions of an audit that don't begin on the line which the document names, or have another comment there."""
    for question in document.get("questions", ()):
        origin = question["origin"]
        lines, place = (ROOT / origin["policy"]).read_text().split("\n"), origin["line"] - 1
        if lines[place] != "[[question]]":
            yield f"no question begins where {question['name']} stands: {lines[place]!r:.80}"
        if comment_above(lines, place) != origin["comment"]:
            yield f"another comment stands above {question['name']}: {origin['comment']!r:.80}"


def file_due(role, path):
    data = (ROOT / path).read_bytes()
    return {"role": role, "path": path, "length": len(data), "sha256": hashlib.sha256(data).hexdigest()}


def files_due(words):
    """What a document has to say of the files that a command line names: of the policies, and then of the filters."""
    role, policies, filters = "filter", [], []
    for before, word in zip(words, words[1:]):
        if word in ("--old", "--new"):
            role = word.removeprefix("--")
        elif before == "--policy":
            policies.append(file_due("policy", word))
        elif word.endswith(".bpf"):
            filters.append(file_due(role, word))
    return policies + filters


def misnamed(program, document, words):
    """Whether a document names another program, or other files, than those that wrote it and that it is about."""
    said = ran(program, "--version")[1]
    if f"{document['program']}\n" != said:
        yield f"says that it was written by {document['program']!r:.80}, and not {said!r:.80}"
    if document["files"] != files_due(words):
        yield f"is about the files {document['files']!r:.300}"


def wrong(program, name, words):
    """What is wrong with the document of a command line."""
    status, text, said = ran(program, *words, cwd=ROOT)
    other, line, told = ran(program, words[0], "--json", *words[1:], cwd=ROOT)
    if (status, said) != (other, told):
        yield f"ends with {other} and {told!r:.80}, and not {status} and {said!r:.80}"
    if not text:
        yield from [] if told.startswith("too large: ") and not line else [f"there is no text: {told!r:.80}"]
        return
    document = json.loads(line)
    if json.dumps(document, ensure_ascii=False, separators=(",", ":"), sort_keys=True) + "\n" != line:
        yield "isn't one line, or has blanks, or keys out of order"
    found = list(misfits(name, document))
    yield from found or [*misplaced(document), *misnamed(program, document, words)]


def main():
    program = given_program()
    with tempfile.TemporaryDirectory() as room, ThreadPoolExecutor(len(os.sched_getaffinity(0))) as pool:
        changed = pathlib.Path(room) / "changed.bpf"
        # 59 is execve on x86-64: the changed filter asks for its neighbour.
        changed.write_bytes((ROOT / P1[0]).read_bytes().replace(struct.pack("<I", 59), struct.pack("<I", 57)))
        lines = list(command_lines(str(changed)))
        results = [(" ".join(words), found) for (_, words), found in zip(lines, pool.map(lambda line: list(wrong(program, *line)), lines))]
    results += [(f"crates/command_run/stdout, {place}", list(misfits(name, document))) for place, name, document in written()]
    for what, found in results:
        tell(not found, what, f"\n{what}: ".join(found))
    return finish()
