"""Tries Markdown."""
import re
from collections import Counter, defaultdict
from types import SimpleNamespace

from reporting import groups, markdown, marks, naming
from reporting.documents import Document, Refused

from . import making
from .making import ROOT, WORD, audit_of, question

GROUPS = groups.load(ROOT / "policies/groups.toml")
SETS = naming.sets_of(ROOT / "policies/names.toml")
P1 = "examples/p1.bpf"
FEW = ["--budget", "50", "--workers", "1"]

# What docs/POLICIES.md says of audits by x86_64.toml. After a group stands how many of its questions are open, and
# some or all of their names. Groups that are all closed have no line.
KNOWN = {
    making.DOCKER: [
        "Other architectures, and numbers that a list forgets** (2): `i386-calls`, `x32-calls`\n",
        "Other processes** (3): `ptrace`, `pidfd-open`, `process-mrelease`\n",
        "Mounts and the root of the file tree** (1): `chroot`\n",
        "Files past their paths** (1): `fanotify-mark`\n",
        "The clock** (2): `clock-adjtime`, `adjtimex`\n",
        "Where memory lies** (1): `mincore`\n",
    ],
    making.FLATPAK: [
        "Setuid and setgid files, and devices** (29)",
        "The terminal** (2): `line-discipline`, `vhangup`\n",
        "Mounts and the root of the file tree** (3): `open-tree-attr`, `fchroot`, `statmount-listmount`\n",
        "Code of the kernel** (5)",
        "Files past their paths** (4)",
        "Identities** (13)",
    ],
    making.SNAP: [
        "Other architectures, and numbers that a list forgets** (1): `i386-calls`\n",
        "Identities** (3): `capset`, `prctl-ambient`, `prctl-securebits`\n",
        "The terminal** (2): `console-selection`, `line-discipline`\n",
        "The machine** (1): `syslog`\n",
        "Real time** (2): `realtime-fifo`, `realtime-round-robin`\n",
        "Old calls** (1): `ustat`\n",
    ],
    making.JOURNALD: [
        "Files past their paths** (1): `name-to-handle-at`\n",
        "Namespaces** (1): `unshare-empty-mount-namespace`\n",
        "Code that is made while running** (3): `memfd-create`, `execveat`, `prctl-speculation`\n",
        "Keys of the kernel** (3)",
    ],
}
CLOSED = {
    making.DOCKER: ["**Namespaces", "**Keys", "**The machine", "**Code of", "**Old calls"],
    making.FLATPAK: ["**Keys", "`i386-calls`", "`ptrace`", "**What is handed"],
    making.SNAP: ["**Other processes", "**Files past", "**The clock", "**Keys", "**Code of"],
    making.JOURNALD: ["**Other architectures", "**Mounts", "**The clock", "**The machine", "**Code of", "**Old calls"],
}

# What the guide and docs/POLICIES.md say of other architectures and of x32.
OTHERS = {
    making.DOCKER: "Other architectures: closed. x32: open for some calls.",
    making.FLATPAK: "Other architectures: closed. x32: closed.",
    making.FIREJAIL: "Other architectures: open for some calls. x32: closed.",
    making.SNAP: "Other architectures: closed. x32: closed.",
}

# How a name is written as code.
AS_CODE = {
    "a": "`a`", "a`b": "``a`b``", "`": "`` ` ``", "``a": "``` ``a ```", "": "`(empty)`", " a ": "`  a  `",
    "a\nb": "`a\\nb`", "x" * 90: f"`{'x' * 80}...`",
}

# How far calls get by an action: the column of the table.
COLUMN = {"ALLOW": 0, "LOG": 0, "TRACE": 2, "USER_NOTIF": 2, "ERRNO": 3, "TRAP": 3, "KILL_THREAD": 4, "KILL_PROCESS": 4}


def text_of(*documents, **more):
    """The text of a report of these documents."""
    usual = {"documents": documents, "groups": GROUPS, "sets": SETS, "title": None, "warnings": []}
    return markdown.text(SimpleNamespace(**{**usual, **more}))


def said(what, text, due, not_due=()):
    """The case that all that is due stands in a text, and nothing that isn't."""
    wrong = [one for one in due if one not in text], [one for one in not_due if one in text]
    return f"markdown: {what}", wrong == ([], []), (wrong, text)


def outside_code(text):
    """What isn't code, of all lines. Code stands between runs of as many backticks."""
    return re.sub(r"(?<!`)(`+)(?!`)(.+?)(?<!`)\1(?!`)", "CODE", text)


def columns_due(document):
    """In which columns of the table the rows of each call belong, by a list that shows all calls."""
    columns = defaultdict(set)
    for row in document.value["calls"]:
        columns[row["set"], row["call"]] .add(COLUMN[row["answer"]["action"]])
    return columns


def rows_due(document):
    """The rows of the table: a call that some inputs get further with than others belongs in the second column."""
    counts = defaultdict(Counter)
    for (name, _), found in columns_due(document).items():
        counts[name][min(found) if len(found) == 1 else 1] += 1
    return [f"| `{name}` | {' | '.join(str(count[place]) for place in range(5))} |\n" for name, count in counts.items()]


def of_audits(maker):
    """What is said of audits whose answers are known."""
    outside = "Made by seccomp_audit's report, outside the proofs"
    for stack, due in KNOWN.items():
        text = text_of(maker.audit(stack, *making.CONTROL, *making.NAMES))
        yield said(f"{stack}: what is known of it", text, [*due, "The control holds.", outside], CLOSED[stack])
    text = text_of(maker.audit(making.SSHD, *making.CONTROL))
    due = ["221 never, 0 allowed, 0 unsettled. The control holds."]
    yield said("sshd: all is closed", text, due, ["Allowed and", "Accepted", "Unsettled (", "**"])
    text = text_of(maker.audit(making.DOCKER, *making.CONTROL), groups=None)
    due = ["Allowed and not accepted (113):\n\n- `i386-calls`, `x32-calls`, `ptrace`", "and 105 more\n"]
    yield said("without groups one line has them", text, due)


def of_order(maker):
    """What stands before what."""
    text = text_of(maker.audit(making.FLATPAK))
    titles = re.findall(r"^- \*\*(.+)\*\* \(\d+\): ", text, re.M)
    due = [group.title for group in GROUPS if group.title in titles]
    yield "markdown: the heaviest group first", titles == due and len(titles) > 9, titles
    line = re.search(r"^- .+devices\*\* \(29\): (`[a-z0-9-]+`,? ){8}and 21 more$", text, re.M)
    yield "markdown: many names are cut", line is not None, text
    lines = text_of(maker.audit(maker.file("traced.bpf", making.TRACED))).split("\n")
    place = next((at for at, line in enumerate(lines) if line.startswith("220 never, 1 allowed")), -3)
    is_well = lines[place + 2].startswith("**Calls are handed to another process**, for example `arch ")
    yield "markdown: what is handed over comes first", is_well and "- **What is handed" not in "\n".join(lines), lines


def of_expected(maker):
    """What is said of what was expected."""
    text = text_of(maker.audit(making.DOCKER, "--accept", maker.file("accepted", b"ptrace\nchroot\n")))
    due = ["Accepted (2): `ptrace`, `chroot`\n", "Allowed and not accepted (111)", "No control was asked."]
    yield said("accepted questions stand apart", text, due, ["**Other processes** (3)", "**Mounts"])
    text = text_of(maker.audit(making.DOCKER, "--control", "policies/control-aarch64.toml"))
    names = "`exit-group`, `exit`, `read`, `write`, `futex`."
    due = [f"**The control doesn't hold**, so the replies mean nothing: {names}"]
    yield said("a control that doesn't hold", text, due, ["The control holds"])


def of_lists(maker):
    """What is said of lists. The table is counted again of the list of all calls."""
    for stack, sentence in OTHERS.items():
        calls = maker.list(stack, "--calls")
        due = rows_due(calls)
        yield f"markdown: {stack}: five sets of calls are counted", len(due) == 5, due
        yield said(f"{stack}: the table, and other numbers", text_of(maker.list(stack)), [*due, sentence])
        yield said(f"{stack}: the same of a list call by call", text_of(calls), [*due, sentence])
    screen = text_of(maker.list(making.DOCKER), maker.audit(making.DOCKER, *making.CONTROL))
    yield "markdown: docker's list and audit are one screen", screen.count("\n") <= 40, screen.count("\n")


def of_other_numbers(maker):
    """What is said of other architectures and of x32, of filters that are made here."""
    some, handed = "open for some calls", "handed to another process"
    made = {mask: making.without_bits(mask) for mask in (0x40000000, 0x40000001, 0x80000000, 1)}
    due = [(made[0x40000000], some, "closed"), (made[0x40000001], some, "closed"), (made[0x80000000], some, "open"),
           (made[1], some, some), (making.ALL, "open", "open"), (making.TRACED, handed, handed)]
    for data, others, word in due:
        text = text_of(maker.list(maker.file("made.bpf", data)))
        yield said(f"the filter {data.hex()}", text, [f"\nOther architectures: {others}. x32: {word}.\n"])
    due = "X86_64 (0xC000003E): open for some calls. Other architectures: closed. x32: open."
    yield said("without names no calls are counted", text_of(maker.list(P1), sets=[]), [due], ["|---"])


def of_needed(maker):
    """What is said of which filters are needed: as docs/GUIDE.md says."""
    due = "No call gets further if one of these filters is left out: 1, 2. Together these are enough: 2."
    yield said("needed: one filter twice", text_of(maker.document("needed", P1, P1)), [due], ["Each filter"])
    text = text_of(maker.document("needed", *making.filters_of(making.SNAP)))
    yield said("needed: both filters of snap", text, ["Each filter is needed."], ["left out"])
    text = text_of(maker.document("needed", maker.file("all.bpf", making.ALL)))
    yield said("needed: a filter that allows all", text, ["left out: 1. Together these are enough: none."])


def of_comparisons(maker):
    """What is said of comparisons: as docs/GUIDE.md says."""
    data = (ROOT / P1).read_bytes()
    both = ["--old", P1, "--new", maker.file("mistyped.bpf", data[:36] + b"\x3a" + data[37:])]
    due = [
        "looser: some call gets further than before**, for example `x86_64 execve()`: `ERRNO 1` became `ALLOW 0`.\n",
        "tighter: some call gets less far than before**, for example `x86_64 vfork()`: `ALLOW 0` became `ERRNO 1`.\n",
        "different: some call gets another answer**, for example `x86_64 vfork()`: `ALLOW 0` became `ERRNO 1`.\n",
    ]
    yield said("compare: a number was mistyped", text_of(maker.document("compare", *making.NAMES, *both)), due)
    text = text_of(maker.document("compare", "--rows", "--calls", *making.NAMES, *both))
    due.append("- rows that are changed (2): `x86_64 vfork`, `x86_64 execve`.\n")
    yield said("compare --rows: the calls", text, due)
    text = text_of(maker.document("compare", "--rows", *both))
    due = "- rows that are changed (2): `arch 0xC000003E nr 58`, `arch 0xC000003E nr 59`.\n"
    yield said("compare --rows: the numbers", text, [due])
    text = text_of(maker.document("compare", "--old", P1, "--new", P1))
    due = ["- looser: no call gets further than before.\n", "- tighter: no call gets less far than before.\n",
           "- different: each call gets the answer that it got before.\n"]
    yield said("compare: nothing changes", text, due, ["**"])


def of_open(maker):
    """What is said where an audit isn't complete."""
    audit, whole = maker.audit(making.SNAP, *FEW), maker.list(P1)
    top = r"\*\*Not complete: \d+ pieces of the exploration are outstanding\. Raise --budget\.\*\* \(`"
    text = text_of(whole, audit)
    yield "markdown: an audit that isn't complete: said at the very top", bool(re.match(top, text)), text
    text = text_of(whole)
    yield "markdown: a complete one begins with its heading", text.startswith("## Report on seccomp filters\n"), text
    due = [f"\nUnsettled ({audit.value['totals']['unsettled']}): `handed-to-another-process`, "]
    yield said("an audit tells what is unsettled", text_of(audit), due)


def of_hostile():
    """Whether nothing of a stranger's does anything."""
    hostile = making.hostile_audit()
    strange = [groups.Group(str(place), text, text, (f"{text}u", text)) for place, text in enumerate(making.HOSTILE)]
    warnings = [f"warning: {text}" for text in making.HOSTILE]
    for title in making.HOSTILE:
        text = text_of(hostile, groups=strange, title=title, warnings=warnings[:4] + [title])
        found = re.findall(rf".*(?:{WORD}|[<@]|\]\().*", outside_code(text))
        is_well = not found and text.isascii() and text.count(WORD) > 30
        yield f"markdown: hostile texts are code, {title!r:.30} as title too", is_well, found
    text = text_of(hostile, warnings=["warning: x"] * 12)
    is_well = text.count("- `warning: x`\n") == 8 and text.endswith("- and 4 more\n")
    yield "markdown: many warnings are cut", is_well, text[-200:]
    longest = max(len(line) for line in text.split("\n"))
    yield "markdown: a long name is cut", longest < 3000, longest


def of_code():
    """Whether names are written as code."""
    for name, due in AS_CODE.items():
        yield f"markdown: {name!r:.20} as code", marks.code(name) == due, marks.code(name)


def of_made():
    """What documents say that are made here."""
    sets = [naming.CallSet(f"a|{WORD}", 0xC000003E, {"read": 0})]
    value = {"calls": None, "files": making.FILES[1:], "program": making.PROGRAM, "rows": [making.row()],
             "stack": {"filters": 1, "path": 1}, "total": {"rows": 1}}
    text = text_of(Document("list", value, "l.json"), sets=sets)
    yield said("a bar in a table begins no cell", text, [f"| `a\\|{WORD}` | 1 | 0 | 0 | 0 | 0 |\n"])
    text = text_of(Document("list", {**value, "rows": []}, "l.json"), sets=sets)
    due = ["| not told |\n", " | 0 | 0 | 0 | 0 | 0 | 1 |\n", "Other architectures: not told. x32: not told."]
    yield said("of an empty list nothing is told", text, due)
    text = text_of(audit_of([], "-"))
    yield said("an audit without questions", text, ["(`standard input`)", "0 never, 0 allowed, 0 unsettled."])
    text = text_of(audit_of([question(1, "a")]))
    yield said("a question that no group has", text, ["- **Other questions** (1): `a`\n"])
    both = [question(1, "handed-to-another-process", unexpected=False, accepted=True), question(2, "ptrace")]
    example = "`arch 0xc000003e nr 59 args 0x0,0x0,0x0,0x0,0x0,0xff`"
    due = [f"**Calls are handed to another process (accepted)**, for example {example}. The other replies"]
    yield said("what is handed over is said also where it is accepted", text_of(audit_of(both)), due)
    try:
        got = text_of(audit_of([]), Document("eval", {}, "e.json"))
    except Refused as refused:
        got = refused
    yield "markdown: an unknown kind is refused", isinstance(got, Refused), got


def of_files():
    """What is said of the program, and of the files that it read."""
    policy, filter_of_all = making.FILES
    due = (f"\n\nBy `{making.PROGRAM}`, of policy 1 `policy.toml` (12 bytes, SHA-256 `{policy['sha256'][:12]}`), "
           f"filter 1 `1.bpf` (8 bytes, SHA-256 `{filter_of_all['sha256'][:12]}`).\n\n1 never")
    yield said("what an audit is of", text_of(audit_of([question(1, "q", "never")])), [due])
    files = [making.file("filter", "-", b"1")] * 12
    text = text_of(audit_of([], files=files))
    due = ["of filter 1 `standard input` (1 byte, ", "filter 8 ", "), and 4 more.\n"]
    yield said("many files are cut", text, due, ["filter 9 "])


def cases(maker):
    for part in (of_audits, of_order, of_expected, of_lists, of_other_numbers, of_needed, of_comparisons, of_open):
        yield from part(maker)
    yield from of_hostile()
    yield from of_code()
    yield from of_made()
    yield from of_files()
