"""Reads the JSON documents that the program writes, and refuses what isn't one of them, whole."""
import json
import pathlib
import sys

from .schema import faults

HERE = pathlib.Path(__file__).resolve().parent

# Where the schemas stand: in the repository, and where the program is installed.
SCHEMAS = [HERE.parents[1] / "docs/schema", HERE.parents[2] / "share/seccomp_audit/schema"]

# Of each command the version of its documents that is read.
VERSIONS = {"audit": 1, "compare": 2, "list": 2, "needed": 2}
KINDS = tuple(VERSIONS)


class Refused(Exception):
    """Why a report can't be made, in one line."""


class Document:
    """A document that was read.

    kind   "audit", "list", "compare", "compare-rows" or "needed"
    value  what it says, in the form of its schema
    path   where it was read, "-" for standard input
    """

    def __init__(self, kind, value, path):
        self.kind, self.value, self.path = kind, value, path

    @property
    def open(self):
        """How many pieces of an audit are outstanding. Where it isn't 0, the document doesn't say all."""
        return self.value["counts"]["open"] if "counts" in self.value else 0


def schema_of(kind):
    for folder in SCHEMAS:
        path = folder / f"{kind}.schema.json"
        if path.is_file():
            return json.loads(path.read_text())
    raise Refused(f"{kind}.schema.json isn't found in {' or '.join(str(folder) for folder in SCHEMAS)}")


def text_of(path):
    try:
        data = sys.stdin.buffer.read() if path == "-" else pathlib.Path(path).read_bytes()
    except OSError as error:
        raise Refused(f"{path}: {error.strerror}") from None
    try:
        return data.decode()
    except UnicodeDecodeError:
        raise Refused(f"{path}: this isn't UTF-8") from None


def kind_of(value, path):
    """Which command wrote a value."""
    command = value.get("seccomp_audit") if isinstance(value, dict) else None
    if command not in KINDS:
        raise Refused(f"{path}: no document of {', '.join(KINDS[:-1])} or {KINDS[-1]}")
    version = value.get("version")
    if version != VERSIONS[command] or isinstance(version, bool):
        raise Refused(f"{path}: its version is {version!r:.40}, and this program knows version {VERSIONS[command]}")
    return "compare-rows" if command == "compare" and "shown" in value else command


def unique(pairs):
    """An object, none of whose members comes twice."""
    found = dict(pairs)
    if len(found) != len(pairs):
        raise ValueError("a member comes twice")
    return found


def read(path):
    """The document in a file. Refused where it is cut, of another kind or version, or doesn't fit its schema."""
    text = text_of(path)
    if not text.endswith("\n"):
        raise Refused(f"{path}: the document is cut: its line doesn't end")
    try:
        value = json.loads(text, object_pairs_hook=unique)
    except (ValueError, RecursionError) as error:
        raise Refused(f"{path}: no JSON document ({error!s:.80})") from None
    kind = kind_of(value, path)
    schema = schema_of(kind)
    fault = next(faults(schema, value, schema), None)
    if fault:
        raise Refused(f"{path}: {fault}")
    return Document(kind, value, path)
