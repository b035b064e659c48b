"""What the texts for reviews and for build systems say alike."""
from collections import Counter

from showing import visible

from .documents import KINDS, Refused

# What made a text, and how far that can be trusted.
MADE_BY = "Made by seccomp_audit's report, outside the proofs, from what the program printed."

# How many digits of a SHA-256 are shown where there is no room for all.
DIGITS = 12

UNSETTLED = "no example was found, and no proof that there is none"


def counted(number, one, several):
    """A number with its noun."""
    return f"{number} {one if number == 1 else several}"


def call_of(example):
    """An input as a call in words, or by its numbers where no set of names has the call."""
    if example["call"] is not None:
        return visible(example["call"])
    arguments = ",".join(hex(int(one, 16)) for one in example["args"])
    return f"arch {example['arch']} nr {example['nr']} args {arguments}"


def path_in_words(path):
    """A path, as it was given."""
    return "standard input" if path == "-" else visible(path)


def source_of(document):
    """Where a document was read."""
    return path_in_words(document.path)


def files_of(document):
    """The files that a document is about, each with what it is to the command and a number among its like."""
    counts = Counter()
    for file in document.value["files"]:
        counts[file["role"]] += 1
        yield f"{file['role']} {counts[file['role']]}", file


def not_complete(number):
    """What is said where the exploration has pieces that are outstanding."""
    pieces = counted(number, "piece of the exploration is", "pieces of the exploration are")
    return f"Not complete: {pieces} outstanding. Raise --budget."


def control_of(document):
    """The questions of the control, with their replies."""
    return (document.value["expected"] or {"control": []})["control"]


def audits_of(documents, option):
    """The audits among documents. Refused where there is none, and where a document is of an unknown kind."""
    for document in documents:
        if document.kind not in (*KINDS, "compare-rows"):
            raise Refused(f"{document.path}: {option} knows no document of kind {document.kind!r:.40}")
    audits = [document for document in documents if document.kind == "audit"]
    if not audits:
        raise Refused(f"{option} tells of audits, and none of the documents is one")
    return audits
