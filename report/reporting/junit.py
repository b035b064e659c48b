"""What build systems read of tests: JUnit XML, in the form that Jenkins, GitLab and pytest agree about.

A suite for each audit, and a test for each question of its policies and of its control. The strict readers take no
`file` and no `line` of a test, so the text of a failure has them.
"""
from collections import Counter
from xml.sax.saxutils import escape, quoteattr

from showing import visible

from .phrases import (
    MADE_BY, UNSETTLED, audits_of, call_of, control_of, counted, files_of, not_complete, path_in_words, source_of
)

CONTROL = "control"


class Test:
    """A test of a suite.

    owner    what has the test: a policy file, the control, or the exploration
    name     what it is called
    tag      "failure", "error", or "" where it passes
    kind     of what kind the failure or error is
    message  what it says in one line
    lines    what it says besides
    """

    def __init__(self, owner, name, tag="", kind="", message="", lines=()):
        self.owner, self.name, self.tag, self.kind, self.message = owner, name, tag, kind, message
        self.lines = list(lines)


def place_of(origin):
    """Where a question stands."""
    return origin["policy"] if origin["line"] is None else f"{origin['policy']} line {origin['line']}"


def details_of(question):
    """The lines that a test says of a question: where it stands, the bytes of the example, and why it is allowed."""
    lines = [f"question {question['number']}, {place_of(question['origin'])}"]
    if question["example"]:
        lines += [f"example: {call_of(question['example'])}", f"bytes: {question['example']['bytes']}"]
    return lines + (question["why"] or "").splitlines()


def test_of(question):
    """The test of a question."""
    owner, name = question["origin"]["policy"], question["name"]
    if question["reply"] == "unsettled":
        message = f"{name} is unsettled: {UNSETTLED}"
        return Test(owner, name, "failure", "unsettled", message, details_of(question))
    if question["unexpected"]:
        example = f": {call_of(question['example'])}" if question["example"] else ""
        return Test(owner, name, "failure", "allowed", f"{name} is allowed{example}", details_of(question))
    if question["accepted"] and question["reply"] == "allowed":
        return Test(owner, name, lines=["It is allowed, and accepted.", *details_of(question)])
    if question["accepted"]:
        return Test(owner, name, lines=["It is accepted, but never allowed: its name can go from the list."])
    return Test(owner, name)


def test_of_control(question):
    """The test of a question of the control."""
    name, reply = question["name"], question["reply"]
    if reply == "allowed":
        return Test(CONTROL, name)
    message = f"the control {name} is {reply}, and must be allowed"
    return Test(CONTROL, name, "failure", reply, message, ["So the other replies mean nothing."])


def tests_of(document):
    """The tests of an audit. Where the exploration isn't complete, an error of its own comes first."""
    tests = [test_of(question) for question in document.value["questions"]]
    tests += [test_of_control(question) for question in control_of(document)]
    if document.open:
        tests.insert(0, Test("exploration", "is-complete", "error", "open", not_complete(document.open)))
    return told_apart(tests)


def told_apart(tests):
    """The tests, with a number behind the name where an earlier one of the same owner has it too."""
    seen = Counter()
    for test in tests:
        key = test.owner, test.name
        seen[key] += 1
        if seen[key] > 1:
            test.name += f" ({seen[key]})"
    return tests


def attributes(**named):
    return "".join(f" {name}={quoteattr(visible(value))}" for name, value in named.items())


def element_of(test, before):
    """The lines of a test. `before` stands before its owner."""
    start = f"    <testcase{attributes(classname=before + test.owner, name=test.name)}"
    if not test.tag and not test.lines:
        return [f"{start}/>"]
    text = escape("\n".join(visible(line) for line in test.lines))
    if test.tag:
        said = f"<{test.tag}{attributes(type=test.kind, message=test.message)}>{text}</{test.tag}>"
    else:
        said = f"<system-out>{text}</system-out>"
    return [f"{start}>", f"      {said}", "    </testcase>"]


def counts_of(tests):
    tags = Counter(test.tag for test in tests)
    return {"tests": len(tests), "failures": tags["failure"], "errors": tags["error"]}


def properties_of(document):
    """The lines that say what made a suite, and what it is about, down to the bytes."""
    stack = f"a stack of {counted(document.value['stack']['filters'], 'filter', 'filters')}"
    told = {"made by": MADE_BY, "program": document.value["program"], "about": stack}
    for label, file in files_of(document):
        length = counted(file["length"], "byte", "bytes")
        told[label] = f"{path_in_words(file['path'])}, {length}, SHA-256 {file['sha256']}"
    lines = [f"      <property{attributes(name=name, value=value)}/>" for name, value in told.items()]
    return ["    <properties>", *lines, "    </properties>"]


def suite_of(document, tests, before):
    """The lines of a suite."""
    start = f"  <testsuite{attributes(name=source_of(document), **counts_of(tests))}>"
    elements = [line for test in tests for line in element_of(test, before)]
    return [start, *properties_of(document), *elements, "  </testsuite>"]


def text(documents):
    """JUnit XML of the audits among documents. Where there are several, each test's class has its document before it,
    so that no reader takes two tests for one. Refused where there is no audit, or a document of an unknown kind."""
    audits = audits_of(documents, "--junit")
    suites = [tests_of(document) for document in audits]
    every = [test for tests in suites for test in tests]
    start = f"<testsuites{attributes(name='seccomp_audit', **counts_of(every))}>"
    lines = ['<?xml version="1.0" encoding="UTF-8"?>', start]
    for document, tests in zip(audits, suites):
        lines += suite_of(document, tests, f"{source_of(document)}: " if len(audits) > 1 else "")
    return "\n".join([*lines, "</testsuites>", ""])
