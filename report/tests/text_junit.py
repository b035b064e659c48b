"""Tries JUnit."""
import xml.etree.ElementTree as ElementTree

from reporting import junit
from reporting.documents import Document, Refused

from . import making
from .making import WORD, audit_of, question

# What the strict readers take (junit-10.xsd, which Jenkins' xunit plugin checks by, and pytest's xunit2): the
# attributes that each element must have, those that it may have, and the elements in it.
COUNTS = {"tests", "failures", "errors"}
RULES = {
    "testsuites": (set(), {"name", "time"} | COUNTS, {"testsuite"}),
    "testsuite": ({"name"} | COUNTS, {"group", "time", "skipped", "timestamp", "hostname", "id", "package", "file"},
                  {"testsuite", "properties", "testcase", "system-out", "system-err"}),
    "properties": (set(), set(), {"property"}),
    "property": ({"name", "value"}, set(), set()),
    "testcase": ({"name"}, {"classname", "time", "group"}, {"skipped", "error", "failure", "system-out", "system-err"}),
    "failure": (set(), {"type", "message"}, set()),
    "error": (set(), {"type", "message"}, set()),
    "system-out": (set(), set(), set()),
}


def faults_of(element):
    """What an element has that the strict readers don't take."""
    must, may, inside = RULES.get(element.tag, (set(), set(), set()))
    if element.tag not in RULES:
        yield f"an element {element.tag}"
    if not must <= set(element.keys()) or set(element.keys()) - must - may:
        yield f"{element.tag} has the attributes {sorted(element.keys())}"
    for child in element:
        if child.tag not in inside:
            yield f"{child.tag} in {element.tag}"
        yield from faults_of(child)


def counts_in(element):
    """How many tests, failures and errors there are in an element."""
    return {"tests": len(list(element.iter("testcase"))), "failures": len(list(element.iter("failure"))),
            "errors": len(list(element.iter("error")))}


def faults(text):
    """What the strict readers wouldn't take of a text, and counts that are wrong."""
    root = ElementTree.fromstring(text.encode())
    found = [f"the root is {root.tag}"] if root.tag != "testsuites" else []
    found += faults_of(root)
    for element in (root, *root.iter("testsuite")):
        said = {name: int(element.get(name, "-1")) for name in COUNTS}
        if said != counts_in(element):
            found.append(f"{element.tag} says {said}")
    return found


def tests_in(text):
    """The tests of a text, by owner and name."""
    tests = ElementTree.fromstring(text.encode()).iter("testcase")
    return {(test.get("classname"), test.get("name")): test for test in tests}


def failed(text, kind):
    """The names of the tests that failed so."""
    return [name for (_, name), test in tests_in(text).items() if [one.get("type") for one in test] == [kind]]


def of_rules():
    """Whether the check of the rules finds what breaks them."""
    counts = 'tests="1" failures="1" errors="0"'
    inside = '<testcase name="x"><failure/></testcase>'
    good = f'<testsuites {counts}><testsuite name="a" {counts}>{inside}</testsuite></testsuites>'
    yield "junit: the check finds nothing in what is right", faults(good) == [], faults(good)
    for old, new in (('tests="1" ', ""), ('tests="1"', 'tests="2"'), ('failures="1"', 'failures="0"'),
                     ("<failure/>", "<fail/>"), ("<failure/>", "<error/>"), ('name="x"', 'name="x" file="y"'),
                     ('<testcase name="x">', "<testcase>")):
        bad = good.replace(old, new)
        yield f"junit: the check finds {new or 'what is missing'}", faults(bad) != [], bad


def of_real(maker):
    """Whether docker's profile gives what docs/POLICIES.md says of it."""
    text = junit.text([maker.audit(making.DOCKER, *making.CONTROL, *making.NAMES, "--why")])
    yield "junit: docker: the rules hold", faults(text) == [], faults(text)
    tests = tests_in(text)
    yield "junit: docker: a test for each question and the control's five", len(tests) == 226, len(tests)
    names, passed = set(failed(text, "allowed")), {name for (_, name), test in tests.items() if not len(test)}
    open_ones = {"ptrace", "chroot", "fanotify-mark", "i386-calls"}
    closed = {"handed-to-another-process", "process-vm-readv", "pidfd-getfd", "mount", "pivot-root", "keyctl"}
    yield "junit: docker: what is open failed", open_ones <= names, open_ones - names
    yield "junit: docker: what is closed passed", closed <= passed, closed - passed
    failure = tests["policies/x86_64.toml", "ptrace"][0]
    yield "junit: the message has the call", "x86_64 ptrace()" in failure.get("message"), failure.get("message")
    is_well = "policies/x86_64.toml line 83" in failure.text and "why call x86_64 ptrace()" in failure.text
    yield "junit: the text has the place and why", is_well, failure.text
    control = [test for (owner, _), test in tests.items() if owner == "control" and not len(test)]
    yield "junit: the control's tests pass", len(control) == 5, len(control)


def of_accepted(maker):
    """What is said of accepted questions, of a control that doesn't hold, and of a budget that was spent."""
    accepted = maker.file("accepted", b"ptrace # for strace\nmount\n")
    text = junit.text([maker.audit(making.DOCKER, "--accept", accepted, "--control", "policies/control-aarch64.toml")])
    tests = tests_in(text)
    for name, due in (("ptrace", "It is allowed, and accepted."), ("mount", "its name can go from the list")):
        test = tests["policies/x86_64.toml", name]
        is_well = [one.tag for one in test] == ["system-out"] and due in test[0].text
        yield f"junit: accepted: {name} passes, and that is said", is_well, ElementTree.tostring(test)
    names = failed(text, "never")
    yield "junit: a control that doesn't hold fails", names == ["exit-group", "exit", "read", "write", "futex"], names
    text = junit.text([maker.audit(making.SNAP, "--budget", "50", "--workers", "1")])
    yield "junit: open: the rules hold", faults(text) == [], faults(text)
    errors = [one.get("message") for one in ElementTree.fromstring(text.encode()).iter("error")]
    yield "junit: open: one error says so", len(errors) == 1 and "Not complete" in errors[0], errors
    yield "junit: open: unsettled questions fail", "handed-to-another-process" in failed(text, "unsettled"), text[:600]


def of_made():
    """What documents say that are made here."""
    text = junit.text([making.hostile_audit()])
    yield "junit: hostile texts are in a document that can be read", making.fits_its_schema(making.hostile_audit()), ""
    yield "junit: hostile texts: the rules hold", faults(text) == [], faults(text)[:3]
    due = 4 * len(making.HOSTILE) + 1
    yield "junit: hostile texts: no test is lost", len(tests_in(text)) == due, (len(tests_in(text)), due)
    owner = f"{WORD}\\u0000\\u0001\\u001b[31m\\u007f\\u0085"
    yield "junit: hostile texts: control characters are escaped", (owner, owner) in tests_in(text), ""
    one = junit.text([audit_of([question(1, "q")])])
    message = tests_in(one)["policy.toml", "q"][0].get("message")
    is_well = message == "q is allowed: arch 0xc000003e nr 59 args 0x0,0x0,0x0,0x0,0x0,0xff"
    yield "junit: an example that no names have is told by numbers", is_well, message
    told = [(it.get("name"), it.get("value")) for it in ElementTree.fromstring(one.encode()).iter("property")]
    sums = [(f"{it['role']} 1", f"{it['path']}, {it['length']} bytes, SHA-256 {it['sha256']}") for it in making.FILES]
    due = [("program", making.PROGRAM), ("about", "a stack of 1 filter"), *sums]
    yield "junit: the program and the files are properties", told[1:] == due, told
    double = junit.text([audit_of([question(1, "q"), question(2, "q", "never")])])
    yield "junit: two questions of one name are two tests", len(tests_in(double)) == 2, list(tests_in(double))
    two = junit.text([audit_of([question(1, "q")], path) for path in ("a.json", "b.json")])
    due = [("a.json: policy.toml", "q"), ("b.json: policy.toml", "q")]
    yield "junit: several audits are told apart", list(tests_in(two)) == due and faults(two) == [], list(tests_in(two))
    empty = junit.text([audit_of([], "-")])
    yield "junit: no question is no test", faults(empty) == [] and 'tests="0"' in empty, empty


def of_refusals():
    """Whether documents of other kinds are refused."""
    for what, documents in (("no audit", [Document("list", {}, "l.json")]), ("nothing", []),
                            ("an unknown kind", [audit_of([]), Document("eval", {}, "e.json")])):
        try:
            got = junit.text(documents)
        except Refused as refused:
            got = refused
        yield f"junit: {what} is refused", isinstance(got, Refused), got


def cases(maker):
    yield from of_rules()
    yield from of_real(maker)
    yield from of_accepted(maker)
    yield from of_made()
    yield from of_refusals()
