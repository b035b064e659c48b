"""Pages that are opened in a browser."""
import json
import pathlib
import struct
import tempfile

from .making import condition, row
from .pages import HOSTILE, NAMES, REPORT, ROOT, STACKS, filters_of, listed, made, page_of, run, with_names

LOAD, EQUAL, AT_LEAST, RETURN = 0x20, 0x15, 0x35, 0x06


def filter_of(architectures):
    """A filter that refuses some numbers, others for each of so many architectures, and kills for other ones."""
    code = [(LOAD, 0, 0, 4)]
    for place in range(architectures):
        code += [(EQUAL, 0, 4, 0xC0001000 + place), (LOAD, 0, 0, 0), (AT_LEAST, 0, 1, 100 * (place + 1)),
                 (RETURN, 0, 0, 0x00050001), (RETURN, 0, 0, 0x7FFF0000)]
    code.append((RETURN, 0, 0, 0x80000000))
    return b"".join(struct.pack("<HBBI", *one) for one in code)


def page_of_architectures(program, count):
    """The page of a stack that tests so many architectures."""
    with tempfile.TemporaryDirectory() as room:
        path = pathlib.Path(room) / "many.bpf"
        path.write_bytes(filter_of(count))
        return page_of(listed(program, [path]))


def page_of_rows(program, count):
    """The page of so many rows, one number each."""
    value = json.loads(listed(program, [ROOT / "examples/p1.bpf"]))
    answers = {"action": "ALLOW", "data": 0}, {"action": "ERRNO", "data": 1}
    arch = condition("arch", (0xC000003E, 0xC000003E))
    value["rows"] = [row(arch, condition("nr", (number, number)), **answers[number % 2]) for number in range(count)]
    value["total"]["rows"] = count
    return page_of(json.dumps(value) + "\n")


def page_of_change(program):
    """What the second filter of snap's stack changes, with the maps of both."""
    alone, both = filters_of("snap-default-profile-alone"), filters_of("snap-default")
    words = ("--quiet", "--rows", "--json", "--names", NAMES, "--old", *alone, "--new", *both)
    change = run(program, "compare", *words).stdout
    with tempfile.TemporaryDirectory() as room:
        paths = []
        for name, text in (("old", listed(program, alone)), ("new", listed(program, both)), ("change", change)):
            paths.append(pathlib.Path(room) / f"{name}.json")
            paths[-1].write_text(text)
        return run(REPORT, "--html", *paths).stdout


def page_of_audit(program, stack):
    """The questions about a stack, with why they are allowed."""
    asked = ("--policy", ROOT / "policies/x86_64.toml", "--control", ROOT / "policies/control-x86_64.toml")
    ran = run(program, "audit", "--quiet", "--json", "--why", "--names", NAMES, *asked, *filters_of(stack))
    return page_of(ran.stdout)


def pages(program, are_all):
    """Pages, each with its name."""
    sshd = json.loads(listed(program, filters_of("sshd-preauth")))
    found = {
        "docker": page_of(listed(program, filters_of("docker-default-x86_64"))),
        "docker's questions": page_of_audit(program, "docker-default-x86_64"),
        "a change": page_of_change(program),
        "strangers' names": made(with_names(sshd, HOSTILE), "--html", "--title", HOSTILE[0])[1],
    }
    if are_all:
        found |= {stack: page_of(listed(program, filters_of(stack))) for stack in STACKS}
        found |= {"40 architectures": page_of_architectures(program, 40), "20,000 rows": page_of_rows(program, 20_000)}
        found["no rows"] = page_of(json.dumps(sshd | {"rows": [], "total": {"rows": 0}}) + "\n")
    return found
