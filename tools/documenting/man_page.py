"""Makes the man page of what the program and docs/REFERENCE.md say: `--help`, of each subcommand too, and the table of
faults. Its examples, files and environment stand in man_examples.py."""
import re

from building.kit import text_of
from documenting.help_text import Help
from documenting.man_examples import ENVIRONMENT, EXAMPLES, FILES, WHERE

FAULT = re.compile(r"\| (\d\d) \| `(\w+)` \|([^|]*)\|([^|]*)\|([^|]*)\|")


def roff(text):
    """A text as roff has it."""
    text = text.replace("\\", "\\e").replace("-", "\\-")
    return "\\&" + text if text[:1] in (".", "'") else text


def entries(lines):
    """A list of terms, each with what is said of it."""
    out = []
    for line in lines:
        term, _, text = line.partition("  ")
        out += [".TP", f".B {roff(term)}", roff(text.strip())]
    return out


def plain(text):
    """What a cell of the table of faults says, without its marks."""
    return re.sub(r"\[([^]]*)\]\([^)]*\)", r"\1", text).replace("`", "").strip()


def faults():
    """The table of faults."""
    rows = [found.groups() for found in map(FAULT.fullmatch, text_of("docs/REFERENCE.md").splitlines()) if found]
    out = []
    for number, name, what, where, remedy in rows:
        text = f"{plain(what)}{f' ({plain(where)})' if where.strip() else ''}: {plain(remedy)}"
        out += [".TP", f".B {number} {name}", roff(text if text.endswith("?") else text + ".")]
    return out


def examples():
    """The examples, each with what it is for."""
    out = []
    for example in EXAMPLES:
        out += [".PP", roff(example.about), ".PP", ".in +4n", ".EX", *map(roff, example.lines), ".EE", ".in"]
    return out


def terms(pairs):
    """A list of terms, each with what is said of it: here both are texts."""
    return [part for term, text in pairs for part in (".TP", f".B {roff(term)}", roff(text))]


def leads_on(line):
    """Whether a line at the end of the help names another page."""
    return line.startswith("docs/")


def texts(program):
    """The page, by the name of its file."""
    return {"docs/seccomp_audit.1": page(program)}


def page(program):
    """The whole page."""
    told = Help(program)
    top, parts = told.top, told.commands
    out = [
        f'.TH {told.name} 1 "" "{told.name} {told.version}"',
        ".SH NAME", f"{told.name} \\- {roff(top[''][0][0].lower() + top[''][0][1:])}",
        ".SH SYNOPSIS",
    ]
    for command in parts:
        out += [roff(parts[command]["Usage"][0]), ".br"]
    out += [".SH COMMANDS"]
    for command in parts:
        out += [f".SS {command}", roff(parts[command][""][0]) + "."]
        lines = parts[command].get("Arguments", []) + parts[command]["Options"]
        out += entries([line for line in lines if line[:2] != "-h"])
    out += [".SH OPTIONS", *entries(top["Options"])]
    out += [part for line in top["end"] if not leads_on(line) for part in (".PP", roff(line.replace("`", "")))]
    out += [".SH EXIT STATUS", *entries(top["Exit status"])]
    out += [".SH LIMITS", *(part for line in top["Limits"] for part in (roff(line), ".br"))]
    out += [".SH EXAMPLES", *examples()]
    out += [".SH FILES", *terms(FILES), ".PP", *map(roff, WHERE)]
    out += [".SH ENVIRONMENT", *terms(ENVIRONMENT)]
    out += [
        ".SH ERRORS", *(roff(line) for line in top["Errors"]),
        "Filters and questions count from 1, instructions from 0.", *faults(),
        ".SH SEE ALSO", *(roff(line) for line in top["end"] if leads_on(line)), ".BR seccomp (2)",
    ]
    return "\n".join(out) + "\n"
