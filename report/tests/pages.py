"""Tries pages: what they say of real stacks, of strangers' names, and of documents that aren't whole."""
import copy
import json
import pathlib
import random
import re
import resource
import subprocess
import tempfile

from reporting import documents, groups, markdown, page
from reporting.naming import sets_of

from . import agreement
from .dom import Page
from .making import PROGRAM, audit_of, condition, file, hostile_audit, origin, question, row

ROOT = pathlib.Path(__file__).resolve().parent.parent.parent
REPORT = ROOT / "report/report"
NAMES = ROOT / "policies/names.toml"
DATA = ROOT / "crates/examples_run/data"
STACKS = sorted(path.name for path in DATA.iterdir())

# What a stranger may call something.
HOSTILE = ["<script>alert(1)</script>", '"><img src=x onerror=alert(1)>', "a\u202eb", "</title></style>", "&lt;", "\u0001"]

# The most seconds that one run may take, on a machine that has much else to do.
SECONDS = 100

# How many documents of each kind are changed by lot.
BROKEN = 60

# How a page begins that isn't the whole truth.
BANNER = '<p class="banner" role="alert">Not complete: '


def run(*words, given=None):
    return subprocess.run([str(word) for word in words], input=given, capture_output=True, text=True, timeout=SECONDS)


def filters_of(stack):
    return sorted((DATA / stack).glob("*.bpf"))


def listed(program, paths):
    """What `list --json` writes of a stack."""
    return run(program, "list", "--quiet", "--json", "--names", NAMES, *paths).stdout


def made(document, *words):
    """What `report/report` makes of one document: its status, and what it writes to both streams."""
    ran = run(REPORT, *(words or ("--html",)), "-", given=document)
    return ran.returncode, ran.stdout, ran.stderr


def page_of(document):
    return made(document)[1]


def agreements(program, count):
    """Whether pages of real stacks agree with `eval`, and whether one that is wrong is found out."""
    for number, stack in enumerate(STACKS):
        paths = filters_of(stack)
        text = page_of(listed(program, paths))
        found = agreement.differences(text, program, paths, count, number)
        yield f"{stack}: {count} inputs beside eval", not found, found[:3]
    count = max(count, 100)
    wrong = text.replace('class="let"', 'class="refused"')
    yield "a wrong colour is found out", agreement.differences(wrong, program, paths, count, 0), "it isn't"
    wrong = text.replace(" ALLOW 0", " ERRNO 1")
    yield "a wrong answer is found out", agreement.differences(wrong, program, paths, count, 0), "it isn't"
    wrong = text.replace(" low half = ", " high half = ")
    yield "a wrong condition is found out", agreement.differences(wrong, program, paths, count, 0), "it isn't"


def facts(program):
    """What the guide and the page about policies say of real stacks, and what their profiles are known to do."""
    effects = {}
    for stack in ("docker-default-x86_64", "flatpak-run", "sshd-preauth", "snap-default"):
        effects[stack] = Page(page_of(listed(program, filters_of(stack))))
    known = [("docker-default-x86_64", 0xC000003E, 165, "refused"), ("docker-default-x86_64", 0xC000003E, 0, "let"),
             ("docker-default-x86_64", 0xC000003E, 56, "partly"), ("docker-default-x86_64", 0xC00000B7, 0, "killed"),
             ("flatpak-run", 0xC000003E, 0x4000003B, "killed"), ("flatpak-run", 0xC000003E, 5000, "let"),
             ("sshd-preauth", 0xC000003E, 59, "killed"), ("sshd-preauth", 0x40000003, 1, "killed"),
             ("snap-default", 0xC000003E, 16, "partly"), ("snap-default", 0xC000003E, 101, "refused")]
    for stack, arch, number, effect in known:
        places = effects[stack].places_of(arch, number)
        yield f"{stack}: call {number} of 0x{arch:X} is {effect}", [it.effect for it in places] == [effect], places


def with_names(value, names):
    """A document of a list in which other names stand."""
    value = copy.deepcopy(value)
    for row in value["rows"]:
        row["calls"] = list(names)
    return json.dumps(value) + "\n"


def strangers(program):
    """Whether a stranger's text shows as text."""
    value = json.loads(listed(program, filters_of("sshd-preauth")))
    calm, hostile = Page(page_of(with_names(value, ["calm"]))), Page(page_of(with_names(value, HOSTILE)))
    more = hostile.tags - calm.tags
    yield "a stranger's names make no elements", more <= {"details", "summary"}, more
    yield "a stranger's name is shown", "<script>alert(1)</script>" in hostile.text, ""
    turned = "a\\u202eb" in hostile.text and "\u202e" not in hostile.text
    yield "a character that turns the order is shown by its number", turned, hostile.text[-300:]
    title = '</title><script>alert(2)</script>'
    page = Page(made(with_names(value, []), "--html", "--title", title)[1])
    yield "a title makes no elements", page.tags == calm.tags and title in page.text, page.tags - calm.tags


def page_of_audit(document):
    return page.text(page.Report([document], [], [], None, []))


def audits(_program):
    """What a page of an audit says of its questions, and of the files that were read."""
    said = origin("policy.toml", 7, "Tampers <with> others.")
    asked = [question(1, "p", origin=said), question(2, "q", "never", origin=said), question(3, "r"), question(4, "s", "never")]
    files = [file("policy", "p <1>.toml", b"version = 2"), file("filter", "-", b"1"), file("filter", "2.bpf", b"12345678")]
    text = page_of_audit(audit_of(asked, files=files))
    calm = Page(text)
    yield "the comment of a question stands beside its name", calm.text.count("Tampers <with> others.") == 2, calm.text
    due = (f"by {PROGRAM}policy 1: p <1>.toml, 11 bytes, SHA-256 {files[0]['sha256'][:12]}filter 1: standard input, 1 byte, "
           f"SHA-256 {files[1]['sha256'][:12]}filter 2: 2.bpf, 8 bytes, SHA-256 {files[2]['sha256'][:12]}")
    yield "the program and the files stand at the foot", due in calm.text, calm.text[-800:]
    whole = [f'title="{it["sha256"]}"' in text for it in files]
    yield "the whole digest is the title of its beginning", whole == [True] * 3, whole
    hostile = Page(page_of_audit(hostile_audit()))
    more = hostile.tags - calm.tags - {"pre", "p role", "p class"}
    yield "a stranger's audit makes no elements", not more, more
    marks = [it for it in hostile.text if not it.isprintable() and it != "\n"]
    yield "a stranger's audit has no characters that can't be seen", not marks, marks


def refusals(program):
    """Whether a document that isn't whole, or another one, is refused with a line that says why."""
    text = listed(program, filters_of("sshd-preauth"))
    value = json.loads(text)
    cases = {
        "a cut document": (text[:-30], "cut"),
        "a document without its last newline": (text[:-1], "cut"),
        "another version": (json.dumps(value | {"version": 1}) + "\n", "version"),
        "no version": (without(value, "version"), "version"),
        "another command": (json.dumps(value | {"seccomp_audit": "guess"}) + "\n", "no document"),
        "an unknown member": (json.dumps(value | {"more": 1}) + "\n", "unknown member"),
        "no rows": (without(value, "rows"), "lacks rows"),
        "no program": (without(value, "program"), "lacks program"),
        "no files": (without(value, "files"), "lacks files"),
        "a short digest": (re.sub('"sha256":"..', '"sha256":"', text, count=1), "doesn't fit"),
        "a policy of a list": (text.replace('"role":"filter"', '"role":"policy"', 1), "is none of"),
        "a condition of another form": (text.replace('"word":"arg', '"word":"arg9', 1), "is none of"),
        "no JSON": ("seccomp_audit list 2\n", "no JSON"),
        "nothing": ("", "cut"),
    }
    for what, (given, why) in cases.items():
        ran = made(given)
        yield f"{what} is refused", is_refused(ran, why), ran


def without(value, member):
    """The text of a document without one of its members."""
    return json.dumps({key: it for key, it in value.items() if key != member}) + "\n"


def is_refused(ran, why=""):
    """Whether there is no report, and one line says why, in which nothing has a meaning for a terminal."""
    status, out, err = ran
    is_line = err.startswith("error: ") and err[:-1].isprintable() and err.endswith("\n")
    return status == 1 and not out and is_line and why in err


def malformed_conditions(program):
    """Whether conditions that no row has are refused with one line."""
    value, nr = json.loads(listed(program, [ROOT / "examples/p1.bpf"])), condition("nr", (1, 1))
    parts = {
        "ranges": ([], [1], [[1]], [[1, 2, 3]], [["1", "1"]], [[0, 1 << 32]], [[-1, 0]], [[True, 1]], [[0.5, 1]],
                   [None], None, "1..5", [[5, 1]], [[1, 1], [5, 1]]),
        "mask": (-1, 1 << 32, None, "0x1", True, [1]),
        "not": (None, 0, 1, "not", []),
        "word": ("args", "nr\n", "\x1b[31m", "", None, 0, "arg6_lo"),
    }
    for key, others in parts.items():
        for other in others:
            for form in ("--html", "--markdown"):
                ran = made(json.dumps(value | {"rows": [row(nr | {key: other})]}) + "\n", form)
                yield f"{key} {other!r:.20} for {form}", is_refused(ran), ran
    ran = made(json.dumps(value | {"rows": [row(condition("nr", (5, 1)))]}) + "\n")
    yield "the document is named", ran[2] == "error: -: no range of a row: [5, 1]\n", ran


def malformed(program):
    """Whether documents that fit no row, and names in them that would work on a terminal, are refused with one line."""
    value, nr = json.loads(listed(program, [ROOT / "examples/p1.bpf"])), condition("nr", (1, 1))
    one = row(condition("arch", (0xC000003E, 0xC000003E)), nr)
    call = {"set": "x86_64", "call": "read", "answer": one["answer"], "conditions": []}
    yield "a row", made(json.dumps(value | {"rows": [one], "calls": [call]}) + "\n")[0] == 0, "isn't taken"
    cases = {
        "two conditions on a word": {"rows": [row(nr, condition("nr", (0, 0), mask=1))]},
        "a condition on a call's number": {"calls": [call | {"conditions": [nr]}]},
        "no answer": {"rows": [{key: it for key, it in one.items() if key != "answer"}]},
        "no answer of a call": {"calls": [call | {"answer": None}]},
        "both answers in a list": {"rows": [one | {"old": one["answer"], "new": one["answer"]}]},
        "an action with a newline": {"rows": [row(action="ALLOW\n")]},
        "a member": {"\x1b[31m": 1},
        "a member of a row": {"rows": [one | {"\x9b31m\n": 1}]},
        "a set": {"calls": [call | {"set": "\x1b[31m\nerror: "}]},
        "a call": {"calls": [call | {"call": "\u202e\x07\ud800"}]},
        "a version": {"version": "\x1b"},
        "a kind": {"seccomp_audit": "\x1b"},
    }
    for what, more in cases.items():
        ran = made(json.dumps(value | more) + "\n")
        yield f"{what} that doesn't fit", is_refused(ran), ran
    for words in (("--html", "/nowhere/\x1b[31m\n"), ("--html", "--names", "\x1b[31m"), ("--html", "--groups", "\x9b"),
                  ("--html", "--warnings", "\x1b")):
        ran = run(REPORT, *words, given=json.dumps(value) + "\n")
        yield f"a path behind {words[-2]}", is_refused((ran.returncode, ran.stdout, ran.stderr)), ran
    ran = run(REPORT, "--html", "--\x1b[31m")
    yield "a word that is no option", ran.returncode == 2 and "\x1b" not in ran.stderr and "\\u001b" in ran.stderr, ran


def broken(value, rng):
    """A document in which one part, drawn by lot, is left out, comes twice, or is another one."""
    value = copy.deepcopy(value)

    def places(part):
        if isinstance(part, dict | list) and part:
            for key, member in part.items() if isinstance(part, dict) else enumerate(part):
                yield part, key
                yield from places(member)

    part, key = rng.choice(list(places(value)))
    others = (None, True, 0, -1, 1 << 70, 0.5, "", "\x1b[31m", "\ud800", "0", "0x1", "any", "ALLOW\n", [], [[]], {})
    way = rng.randrange(4)
    if way == 0 and isinstance(part, list):
        part.append(copy.deepcopy(part[key]))
    elif way == 1:
        del part[key]
    elif way == 2 and isinstance(part, dict):
        part[rng.choice(("", "\x1b", "rows", "why", "\ud800"))] = part.pop(key)
    else:
        part[key] = rng.choice(others)
    return value


def broken_ones(program):
    """Whether each document that is changed by lot is refused with one line, or makes a text in which nothing works."""
    paths, policy = filters_of("snap-default-profile-alone"), ROOT / "policies/terminal-injection.toml"
    asked = [("list", "--names", NAMES, "--calls", "ptrace,read", *paths),
             ("audit", "--why", "--policy", policy, *paths),
             ("compare", "--rows", "--old", *paths, "--new", ROOT / "examples/p1.bpf"), ("needed", *paths)]
    sets, known = sets_of(str(NAMES)), groups.load(ROOT / "policies/groups.toml")
    rng, faulty, taken = random.Random(1), [], 0
    with tempfile.TemporaryDirectory() as room:
        path = pathlib.Path(room) / "one.json"
        for words in asked:
            value = json.loads(run(program, words[0], "--quiet", "--json", *words[1:]).stdout)
            for one in (broken(value, rng) for _ in range(BROKEN)):
                path.write_text(json.dumps(one) + "\n")
                try:
                    report = page.Report([documents.read(str(path))], sets, known, None, [])
                    for text in (page.text(report), markdown.text(report)):
                        taken += 1
                        faulty += [one] if any(not it.isprintable() and it != "\n" for it in text) else []
                        text.encode()
                except documents.Refused:
                    pass
                except Exception as error:
                    faulty.append((repr(error), one))
    yield f"{4 * BROKEN} broken documents", not faulty and taken, (len(faulty), taken, faulty[:1])


def not_whole(program):
    """Whether a page of an audit that stopped early says so, and looks like no other."""
    asked = ("--quiet", "--json", "--policy", ROOT / "policies/terminal-injection.toml", ROOT / "examples/p1.bpf")
    status, out, err = made(run(program, "audit", "--budget", 1, *asked).stdout)
    yield "an unfinished audit has a banner", status == 0 and BANNER in out, err or out[:300]
    status, out, err = made(run(program, "audit", *asked).stdout)
    yield "a finished audit has no banner", status == 0 and BANNER not in out, err


def sizes(program):
    """Whether a page of much is small enough, and one of nothing is made."""
    docker = listed(program, filters_of("docker-default-x86_64"))
    words = ("--quiet", "--json", "--why", "--names", NAMES, "--policy", ROOT / "policies/x86_64.toml")
    audit = run(program, "audit", *words, *filters_of("docker-default-x86_64")).stdout
    with tempfile.TemporaryDirectory() as room:
        paths = [pathlib.Path(room) / name for name in ("list.json", "audit.json")]
        for path, text in zip(paths, (docker, audit)):
            path.write_text(text)
        first, second = (run(REPORT, "--html", *paths).stdout for _ in range(2))
    yield "docker's page with all questions has at most 600 KB", 100_000 < len(first.encode()) <= 600_000, len(first)
    yield "the same documents give the same page", first == second, ""
    value = json.loads(docker)
    empty = value | {"rows": [], "total": {"rows": 0}}
    status, out, err = made(json.dumps(empty) + "\n")
    yield "a list without rows has a page", status == 0 and 'class="band unknown"' in out, err


def of_many_rows(value, count):
    """A list whose rows are all about each number without bit 30, and differ in an argument."""
    answers = {"action": "ALLOW", "data": 0}, {"action": "ERRNO", "data": 1}
    low = condition("nr", (0, 0), mask=0x40000000)
    rows = [row(low, condition("arg0_lo", (place, place)), **answers[place % 2]) for place in range(count)]
    return json.dumps(value | {"rows": rows, "total": {"rows": count}}) + "\n"


def many_rows(program):
    """Whether many rows of one number are all found there, and take no time for each number."""
    value = json.loads(listed(program, [ROOT / "examples/p1.bpf"]))
    for count in (8, 9, 100):
        found = Page(page_of(of_many_rows(value, count))).places_of(0xC000003E, 1)
        well = [(it.rows, it.effect) for it in found] == [(list(range(count)), "partly")]
        yield f"{count} rows of a number", well, found
    before = resource.getrusage(resource.RUSAGE_CHILDREN)
    try:
        status, out, err = made(of_many_rows(value, 15_000), "--html")
    except subprocess.TimeoutExpired:
        status, out, err = None, "", "no end"
    after = resource.getrusage(resource.RUSAGE_CHILDREN)
    seconds = after.ru_utime + after.ru_stime - before.ru_utime - before.ru_stime
    yield "a page of 15,000 rows takes 10 s at most", status == 0 and seconds <= 10, (status, seconds, err[:300])
    yield "a page of 15,000 rows has 10 MB at most", len(out.encode()) <= 10_000_000, len(out)


def cases(program, count):
    """All of these, each as what is tried, whether it is well, and what came."""
    yield from agreements(program, count)
    for part in (facts, strangers, audits, refusals, malformed_conditions, malformed, broken_ones, not_whole, sizes, many_rows):
        yield from part(program)
