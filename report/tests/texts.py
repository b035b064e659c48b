"""Tries the groups of questions, and the texts for reviews and for build systems: Markdown, JUnit and SARIF."""
import os
import subprocess
import sys
import tempfile

from . import making, text_groups, text_junit, text_markdown, text_sarif
from .making import ROOT, Maker

# Writes each text of an audit, a list and a comparison, in a Python of its own.
WRITE = """
import sys
from types import SimpleNamespace
from reporting import documents, groups, junit, markdown, naming, sarif

read = [documents.read(path) for path in sys.argv[1:]]
known = groups.load("policies/groups.toml")
sys.stdout.write(junit.text(read) + sarif.text(read, known))
sets = naming.sets_of("policies/names.toml")
report = SimpleNamespace(documents=read, groups=known, sets=sets, title="A title", warnings=["w"])
sys.stdout.write(markdown.text(report))
"""


def same_bytes(maker):
    """Whether two runs, in which Python puts sets in another order, write the same bytes."""
    made = [maker.audit(making.DOCKER, *making.CONTROL, "--why"), maker.list(making.FIREJAIL),
            maker.document("compare", "--old", "examples/p1.bpf", "--new", *making.filters_of(making.SNAP_ALONE))]
    wrote = []
    for seed in ("1", "2"):
        environment = {**os.environ, "PYTHONHASHSEED": seed, "PYTHONPATH": f"{ROOT}/report:{ROOT}/helpers"}
        words = [sys.executable, "-B", "-c", WRITE, *(document.path for document in made)]
        ran = subprocess.run(words, cwd=ROOT, env=environment, capture_output=True)
        wrote.append((ran.returncode, ran.stdout))
    status, text = wrote[0]
    is_whole = all(part in text for part in (b"<?xml", b'"version": "2.1.0"', b"## A title"))
    is_well = wrote[0] == wrote[1] and status == 0 and is_whole
    yield "texts: the same documents give the same bytes", is_well, [text[:300] for _, text in wrote]


def cases(program):
    """Each thing that is tried: what it is, whether it is well, and what came."""
    with tempfile.TemporaryDirectory() as room:
        maker = Maker(program, room)
        for part in (text_groups, text_junit, text_sarif, text_markdown):
            yield from part.cases(maker)
        yield from same_bytes(maker)
