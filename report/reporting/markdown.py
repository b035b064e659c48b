"""A summary to paste into a review or a ticket, in Markdown."""
from .documents import Refused
from .effects import EFFECTS, answer_in_words, joined
from .groups import arranged
from .marks import LONGEST_TEXT, code, in_table, listed, plain_or_code
from .phrases import DIGITS, MADE_BY, call_of, control_of, counted, files_of, not_complete, path_in_words, source_of
from .picture import Picture, Strip
from .rows import rows_alone, rows_of
from .x32 import effect_of_x32

MOST_NAMES = 8
MOST_FILES = 8
MOST_WARNINGS = 8
HANDED = "handed-to-another-process"

# Whether numbers are open, by how far calls of them get.
OPEN = {
    "let": "open", "partly": "open for some calls",
    "handed": "handed to another process", "at_times": "handed to another process for some calls",
    "refused": "closed", "killed": "closed", "stopped": "closed", "unknown": "not told",
}

# How far calls may get, for which the table always has a column.
COLUMNS = ("let", "partly", "handed", "refused", "killed")

# What is said of a relation where an input has it, and where none has.
RELATIONS = {
    "looser": ("some call gets further than before", "no call gets further than before"),
    "tighter": ("some call gets less far than before", "no call gets less far than before"),
    "different": ("some call gets another answer", "each call gets the answer that it got before"),
}


def title_of(document, what):
    return f"### {what} ({code(source_of(document))})"


def stack_of(sizes):
    return f"a stack of {counted(sizes['filters'], 'filter', 'filters')}"


def file_said(label, file):
    """A file, with the first digits of its digest."""
    length = counted(file["length"], "byte", "bytes")
    return f"{label} {code(path_in_words(file['path']))} ({length}, SHA-256 `{file['sha256'][:DIGITS]}`)"


def made_from(document):
    """The lines that say which program wrote a document, and about which files."""
    said = [file_said(label, file) for label, file in files_of(document)]
    more = [f"and {len(said) - MOST_FILES} more"] if len(said) > MOST_FILES else []
    return [f"By {code(document.value['program'])}, of {', '.join(said[:MOST_FILES] + more)}.", ""]


# A list.

def table_of(counts):
    """The table of how many calls of each set get how far."""
    effects = [it for it in EFFECTS if it in COLUMNS or any(count[it] for count in counts.values())]
    lines = [f"| calls of | {' | '.join(EFFECTS[it][0] for it in effects)} |", f"|---|{'--:|' * len(effects)}"]
    for name, count in counts.items():
        cells = [in_table(code(name)), *(str(count[it]) for it in effects)]
        lines.append(f"| {' | '.join(cells)} |")
    return [*lines, ""]


def effect_of_map(each):
    """How far calls of a map get, taken together."""
    effects = []
    for part in each.parts:
        effects += [cell.effect for cell in part.cells] if isinstance(part, Strip) else [part.effect]
    return joined(effects)


def is_one_of(named, archs):
    """Whether spans of architectures are one architecture, and that one has names."""
    return archs[0][0] in named and archs[0][0] == archs[-1][1]


def openness(picture):
    """Which architectures without names are open, and whether x32 is."""
    named = {it.arch for it in picture.sets}
    others = [each for each in picture.maps() if not is_one_of(named, each.archs)]
    said = [f"{each.title[0].upper()}{each.title[1:]}: {OPEN[effect_of_map(each)]}." for each in others]
    return " ".join([*said, f"x32: {OPEN[effect_of_x32(picture)]}."])


def of_list(document, report):
    """What is said of a list."""
    lines = [title_of(document, f"What {stack_of(document.value['stack'])} lets through"), ""]
    picture = Picture(rows_of(document, report.sets), report.sets)
    lines += table_of(picture.counts()) if report.sets else ["Calls aren't counted, since no names are given.", ""]
    return [*lines, openness(picture), ""]


# An audit.

def control_said(document):
    """Whether the control holds."""
    control = control_of(document)
    failing = [question["name"] for question in control if question["reply"] != "allowed"]
    if not control:
        return "No control was asked."
    if failing:
        return f"**The control doesn't hold**, so the replies mean nothing: {listed(failing, MOST_NAMES)}."
    return "The control holds."


def handed_said(questions):
    """The lines that come first where calls are handed to another process."""
    handed = [it for it in questions if it["name"] == HANDED and it["reply"] == "allowed"]
    if not handed:
        return []
    accepted = " (accepted)" if handed[0]["accepted"] else ""
    example = f", for example {code(call_of(handed[0]['example']), LONGEST_TEXT)}" if handed[0]["example"] else ""
    return [f"**Calls are handed to another process{accepted}**{example}. The other replies say nothing of them.", ""]


def grouped(questions, groups):
    """A line for each group of the questions, and one for all where there are no groups."""
    if groups is None:
        return [f"- {listed([it['name'] for it in questions], MOST_NAMES)}"] if questions else []
    lines = []
    for group, members in arranged(questions, groups):
        title = "Other questions" if group is None else plain_or_code(group.title)
        lines.append(f"- **{title}** ({len(members)}): {listed([it['name'] for it in members], MOST_NAMES)}")
    return lines


def named(title, questions):
    """A line that names questions, where there are some."""
    if not questions:
        return []
    return [f"{title} ({len(questions)}): {listed([it['name'] for it in questions], MOST_NAMES)}", ""]


def of_audit(document, report):
    """What is said of an audit."""
    value = document.value
    questions, totals = value["questions"], value["totals"]
    allowed = [it for it in questions if it["unexpected"] and it["name"] != HANDED]
    by_groups = grouped(allowed, report.groups)
    lines = [title_of(document, f"Questions about {stack_of(value['stack'])}"), ""]
    lines += [f"{totals['never']} never, {totals['allowed']} allowed, {totals['unsettled']} unsettled. "
              f"{control_said(document)}", ""]
    lines += handed_said(questions)
    if by_groups:
        order = ", the heaviest first" if report.groups else ""
        lines += [f"Allowed and not accepted ({len(allowed)}){order}:", "", *by_groups, ""]
    lines += named("Accepted", [it for it in questions if it["accepted"]])
    return lines + named("Unsettled", [it for it in questions if it["reply"] == "unsettled"])


# Filters that are needed, and a comparison.

def of_needed(document, _report):
    """What is said of which filters are needed."""
    filters = document.value["filters"]
    spare = [str(it["number"]) for it in filters if it["result"] == "spare"]
    kept = [str(number) for number in document.value["kept"]]
    lines = [title_of(document, f"Which filters are needed of {stack_of(document.value['stack'])}"), ""]
    if spare:
        lines.append(f"No call gets further if one of these filters is left out: {', '.join(spare)}. "
                     f"Together these are enough: {', '.join(kept) or 'none'}.")
    return [*lines, *([] if spare else ["Each filter is needed."]), ""]


def relation_said(name, change):
    """The line of a relation between the answers of two stacks."""
    found, never = RELATIONS[name]
    if change["result"] == "never":
        return f"- {name}: {never}."
    line = f"- **{name}: {found}**"
    if change["example"]:
        line += f", for example {code(call_of(change['example']), LONGEST_TEXT)}"
    if change["old"] and change["new"]:
        line += f": {code(answer_in_words(change['old']))} became {code(answer_in_words(change['new']))}"
    return f"{line}."


def rows_said(document):
    """The line of the rows of a comparison, with the calls and the numbers that they are about."""
    value = document.value
    about = [f"{row['set']} {row['call']}" for row in value["calls"] or []]
    about += [f"arch {arch} nr {numbers}" for arch, numbers in (row.words for row in rows_alone(document))]
    names = listed(list(dict.fromkeys(about)), MOST_NAMES) if about else "none"
    return f"- rows that are {value['shown']} ({value['total']['rows']}): {names}."


def of_comparison(document, _report):
    """What is said of a comparison."""
    value = document.value
    title = f"What changes from {stack_of(value['old'])} to {stack_of(value['new'])}"
    lines = [title_of(document, title), "", *(relation_said(name, value[name]) for name in RELATIONS)]
    if document.kind == "compare-rows":
        lines.append(rows_said(document))
    return [*lines, ""]


SAID = {
    "list": of_list, "audit": of_audit, "needed": of_needed, "compare": of_comparison, "compare-rows": of_comparison,
}


def of_document(document, report):
    """What is said of a document, below its title first what it is about. Refused where it is of an unknown kind."""
    if document.kind not in SAID:
        raise Refused(f"{document.path}: --markdown knows no document of kind {document.kind!r:.40}")
    title, space, *lines = SAID[document.kind](document, report)
    return [title, space, *made_from(document), *lines]


def warned(warnings):
    """The warnings of the program, each on a line of its own."""
    if not warnings:
        return []
    lines = [f"- {code(line, LONGEST_TEXT)}" for line in warnings[:MOST_WARNINGS]]
    more = [f"- and {len(warnings) - MOST_WARNINGS} more"] if len(warnings) > MOST_WARNINGS else []
    return ["### Warnings", "", *lines, *more, ""]


def incomplete(documents):
    """The lines that say which documents aren't complete."""
    left = [document for document in documents if document.open]
    lines = [f"**{not_complete(document.open)}** ({code(source_of(document))})" for document in left]
    return [it for line in lines for it in (line, "")]


def text(report):
    """A summary of the documents of a report, in Markdown. What isn't complete is said at the very top."""
    title = plain_or_code(report.title or "Report on seccomp filters")
    lines = [*incomplete(report.documents), f"## {title}", "", MADE_BY, ""]
    for document in report.documents:
        lines += of_document(document, report)
    return "\n".join(lines + warned(report.warnings)).rstrip("\n") + "\n"
