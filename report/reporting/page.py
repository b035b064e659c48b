"""A page of documents, in one file that takes nothing from elsewhere."""
import base64
import hashlib
import pathlib
from typing import NamedTuple

from .documents import Document, Refused
from .markup import banner, bullets, element, escaped, listed, paragraph, section
from .page_audit import audit_part, banners_of
from .page_compare import compare_part
from .page_rows import key, kinds_in, maps, rows_table
from .phrases import DIGITS, MADE_BY, call_of, counted, files_of, not_complete, path_in_words, source_of
from .picture import Picture
from .rows import rows_of

HERE = pathlib.Path(__file__).resolve().parent

NOT_PROVED = "What it shows is what the program's JSON documents say: docs/PROOF.md of the program tells what is proved of it."


class Report(NamedTuple):
    """What a report is made of.

    documents  those that were read, in their order
    sets       sets of names of calls
    groups     groups of questions
    title      what stands at the top, or None
    warnings   lines of the program's standard error
    """

    documents: list[Document]
    sets: list
    groups: list
    title: str | None
    warnings: list


def of_one_kind(effect, names):
    """What calls of sets get that all get as far, in a sentence."""
    words = {"let": "lets through", "partly": "lets through, under conditions,", "handed": "hands to another process",
             "at_times": "hands to another process, under conditions,", "refused": "refuses",
             "killed": "ends the caller at", "stopped": "refuses, or ends the caller at,", "unknown": "says nothing of"}
    return f"It {words[effect]} every call of {listed(names)}."


def of_several_kinds(name, counts):
    """How far the calls of a set get, in a sentence."""
    words = {"let": "{} are let through", "partly": "{} are let through under conditions",
             "handed": "{} are handed to another process",
             "at_times": "{} are handed to another process under conditions", "refused": "{} are refused",
             "killed": "{} end the caller", "stopped": "{} are refused or end the caller", "unknown": "{} aren't told"}
    parts = [text.format(counts[kind]) for kind, text in words.items() if counts[kind]]
    return f"Of {sum(counts.values())} calls of {name}, {listed(parts)}."


def counts_in_words(counts):
    """How far the calls of all sets get, in sentences."""
    several = [of_several_kinds(name, found) for name, found in counts.items() if len(+found) > 1]
    alike = {}
    for name, found in counts.items():
        if len(+found) == 1:
            alike.setdefault(next(iter(+found)), []).append(name)
    return several + [of_one_kind(effect, names) for effect, names in alike.items()]


def of_other_architectures(picture, found):
    """Which architectures without names let something through, in sentences: one, or none."""
    named = {it.arch for it in picture.sets}
    open_ones = [it.title for it in found if it.archs[0][0] not in named and {"let", "partly"} & set(kinds_in([it]))]
    if not open_ones:
        return []
    more = [f"{len(open_ones) - 3} more"] if len(open_ones) > 3 else []
    return [f"Calls of {listed(open_ones[:3] + more)} are let through too, all or some."]


def list_part(document, sets, identity):
    """The section of a list: what calls get, in sentences, maps and rows."""
    picture = Picture(rows_of(document, sets), sets)
    found = picture.maps()
    told = counts_in_words(picture.counts()) + of_other_architectures(picture, found)
    kinds = kinds_in(found)
    shown = [key(kinds), maps(found, identity), element("h3", "All rows"), rows_table(picture, identity)]
    return section("What it does", bullets(map(escaped, told)), *shown)


def needed_part(document):
    """The section of what is found of each filter."""
    words = {"needed": "is needed", "spare": "changes nothing: no call gets further without it"}
    lines = []
    for it in document.value["filters"]:
        example = f", for instance for {element('code', escaped(call_of(it['example'])))}" if it["example"] else ""
        lines.append(f"Filter {it['number']} {words[it['result']]}{example}.")
    kept = listed(map(str, document.value["kept"]))
    return section("Which filters are needed", bullets(lines), paragraph(f"Enough are: {kept}."))


def lists_of(report, document):
    """The lists of OLD and NEW, where the report has these two. Refused where they can't be of the compared stacks."""
    lists = [it for it in report.documents if it.kind == "list"]
    if len(lists) != 2 or document.kind != "compare-rows":
        return []
    for name, it in zip(("old", "new"), lists):
        if it.value["stack"] != document.value[name]:
            raise Refused(f"{it.path}: this isn't the list of {name.upper()}: its stack has another size")
    return lists


def parts_of(report):
    """The sections of a page: comparisons first, and then the others in their order."""
    parts, used = [], []
    for place, it in enumerate(report.documents):
        if it.kind in ("compare", "compare-rows"):
            lists = lists_of(report, it)
            used += lists
            parts.append(compare_part(it, report.sets, lists, f"changes-{place}"))
    for place, it in enumerate(report.documents):
        if it.kind == "audit":
            parts.append(audit_part(it, report.groups))
        elif it.kind == "needed":
            parts.append(needed_part(it))
        elif it.kind == "list" and it not in used:
            parts.append(list_part(it, report.sets, f"rows-{place}"))
    return parts


def banners(report):
    """What has to be read before all else."""
    told = [banner(f"{not_complete(it.open)} ({source_of(it)})") for it in report.documents if it.open]
    return "".join([*told, *(banners_of(it) for it in report.documents if it.kind == "audit")])


def warnings_part(report):
    """The program's warnings."""
    if not report.warnings:
        return ""
    return section("Warnings", bullets(map(escaped, report.warnings)))


def size_of(document):
    """The size of what a document is about."""
    value = document.value
    stacks = [value["stack"]] if "stack" in value else [value["old"], value["new"]]
    return " and ".join(counted(it["filters"], "filter", "filters") for it in stacks)


def file_line(label, file):
    """A file that a document is about. The title of the digest's first digits has all of them."""
    told = escaped(f"{label}: {path_in_words(file['path'])}, {counted(file['length'], 'byte', 'bytes')}, SHA-256 ")
    return told + element("code", escaped(file["sha256"][:DIGITS]), title=file["sha256"])


def source_line(document):
    """A document that the page was made of: which program wrote it, and about which files."""
    told = f"{source_of(document)}: {document.kind}, of {size_of(document)}, by {document.value['program']}"
    return escaped(told) + bullets(file_line(label, file) for label, file in files_of(document))


def sources(report):
    """What the page was made of."""
    return section("Made of", bullets(map(source_line, report.documents)), paragraph(NOT_PROVED, "soft"))


def policy_of(style, script):
    """A content security policy that lets nothing in but the page's own style and script."""
    sums = ["sha256-" + base64.b64encode(hashlib.sha256(text.encode()).digest()).decode() for text in (style, script)]
    return f"default-src 'none'; style-src '{sums[0]}'; script-src '{sums[1]}'; base-uri 'none'; form-action 'none'"


PAGE = """<!DOCTYPE html>
<html lang="en">
<head>
<meta charset="utf-8">
<meta http-equiv="Content-Security-Policy" content="{policy}">
<meta name="viewport" content="width=device-width, initial-scale=1">
<title>{title}</title>
<style>{style}</style>
</head>
<body>
{body}
<div id="told" aria-live="polite"></div>
<dialog aria-labelledby="asked"><h2 id="asked"></h2><div class="scroll"></div>
<form method="dialog"><button>Close</button></form></dialog>
<script>{script}</script>
</body>
</html>
"""


def text(report):
    """The page."""
    style, script = ((HERE / name).read_text() for name in ("page.css", "page.js"))
    title = escaped(report.title or "What these seccomp filters do")
    header = element("header", element("h1", title) + paragraph(MADE_BY, "soft"))
    main = element("main", warnings_part(report) + "\n".join(parts_of(report)) + sources(report))
    body = "\n".join([header, banners(report), main])
    return PAGE.format(policy=policy_of(style, script), title=title, style=style, script=script, body=body)
