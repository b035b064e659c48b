"""Tries SARIF."""
import copy
import hashlib
import json
import re
import subprocess

from reporting import groups, sarif
from reporting.documents import Document, Refused
from reporting.schema import faults

from . import making
from .making import ROOT, audit_of, file, question

SCHEMA = ROOT / "report/tests/sarif-2.1.0.schema.json"

# Checks a value on standard input against the schema by python3-jsonschema. Ends with 3 where that isn't there.
BY_LIBRARY = """
import json, sys
try:
    import jsonschema
except ImportError:
    sys.exit(3)
schema = json.load(open(sys.argv[1]))
jsonschema.Draft202012Validator.check_schema(schema)
print([error.message[:100] for error in jsonschema.Draft202012Validator(schema).iter_errors(json.load(sys.stdin))])
"""

# Changes after which a value breaks the standard: where, and what stands there then (None: it is taken out).
BROKEN = [
    (["version"], "2.0.0"), (["version"], None), (["runs", 0, "tool"], None),
    (["runs", 0, "artifacts", 0, "hashes"], "text"), (["runs", 0, "artifacts", 0, "roles", 0], "filter"),
    (["runs", 0, "artifacts", 0, "sha256"], "text"),
    (["runs", 0, "tool", "driver", "name"], None), (["runs", 0, "tool", "driver", "rules", 0, "id"], None),
    (["runs", 0, "results", 0, "level"], "fatal"), (["runs", 0, "results", 0, "message"], "text"),
    (["runs", 0, "results", 0, "message", "text"], None), (["runs", 0, "results", 0, "more"], 1),
    (["runs", 0, "results", 0, "locations", 0, "physicalLocation", "region", "startLine"], 0),
    (["runs", 0, "results", 0, "locations", 0, "physicalLocation", "artifactLocation", "uri"], "a b"),
    (["runs", 0, "invocations", 0, "executionSuccessful"], None),
]

# Paths of policies, and how a reference to each is written, by RFC 3986.
REFERENCES = {
    "policies/x86_64.toml": "policies/x86_64.toml", "a b/ü:#?%.toml": "a%20b/%C3%BC%3A%23%3F%25.toml",
    "/x y": "file:///x%20y", "../a.toml": "../a.toml", "a:b.toml": "a%3Ab.toml", "<|`\n": "%3C%7C%60%0A",
    "\ud800": "%ED%A0%80",
}


def misfits(value):
    schema = json.loads(SCHEMA.read_text())
    return list(faults(schema, value, schema))


def broken(value, path, put):
    """The value with another one at a path."""
    value = copy.deepcopy(value)
    at = value
    for key in path[:-1]:
        at = at[key]
    if put is None:
        del at[path[-1]]
    else:
        at[path[-1]] = put
    return value


def results_in(text):
    return json.loads(text)["runs"][0]["results"]


def of_schema(value):
    """Whether the schema finds what breaks the standard."""
    for path, put in BROKEN:
        yield f"sarif: the schema finds {put!r} at {path}", misfits(broken(value, path, put)) != [], ""


def of_library(text):
    """What another checker says, where there is one."""
    for python in ("python3", "/usr/bin/python3"):
        try:
            ran = subprocess.run([python, "-c", BY_LIBRARY, str(SCHEMA)], input=text, capture_output=True, text=True)
        except OSError:
            continue
        if ran.returncode != 3:
            yield f"sarif: jsonschema of {python} finds nothing", ran.stdout == "[]\n", (ran.stdout, ran.stderr[-200:])


def lines_of(results):
    """Whether each result's line is the one on which the question begins."""
    for result in results:
        place = result["locations"][0]["physicalLocation"]
        lines = (ROOT / place["artifactLocation"]["uri"]).read_text().splitlines()
        line = place["region"]["startLine"]
        if lines[line - 1] != "[[question]]" or lines[line] != f'name = "{result["ruleId"]}"':
            yield result["ruleId"], line


def of_real(maker):
    """Whether docker's profile gives what docs/POLICIES.md says of it."""
    document = maker.audit(making.DOCKER, *making.CONTROL, *making.NAMES)
    text = sarif.text([document], groups.load(ROOT / "policies/groups.toml"))
    value, results = json.loads(text), results_in(text)
    yield "sarif: docker fits the schema", misfits(value) == [], misfits(value)
    yield from of_schema(value)
    yield from of_library(text)
    names = {result["ruleId"] for result in results}
    is_well = {"ptrace", "chroot", "fanotify-mark", "i386-calls", "x32-calls"} <= names and "mount" not in names
    yield "sarif: docker: results for what is open, and for nothing else", is_well, names
    yield "sarif: docker: each is an error", {result["level"] for result in results} == {"error"}, ""
    wrong = list(lines_of(results))
    yield "sarif: each line is that of its question", not wrong and len(results) == 113, (wrong, len(results))
    rules = value["runs"][0]["tool"]["driver"]["rules"]
    wrong = [result for result in results if rules[result["ruleIndex"]]["id"] != result["ruleId"]]
    yield "sarif: each result has its rule", not wrong and len({rule["id"] for rule in rules}) == len(rules), wrong
    rule = next(rule for rule in rules if rule["id"] == "ptrace")
    is_well = "memory of other processes" in rule.get("fullDescription", {}).get("text", "")
    yield "sarif: a rule tells what an attacker gains", is_well, rule
    result = next(result for result in results if result["ruleId"] == "ptrace")
    yield "sarif: the message has the call", "x86_64 ptrace()" in result["message"]["text"], result["message"]
    is_well = re.fullmatch(r"65000000" "3e0000c0" "0{112}", result.get("properties", {}).get("bytes", ""))
    yield "sarif: a result has the example's bytes", bool(is_well), result
    invocations = value["runs"][0]["invocations"]
    yield "sarif: where all is explored, it went well", invocations == [{"executionSuccessful": True}], invocations
    alone = json.loads(sarif.text([document]))["runs"][0]["tool"]["driver"]["rules"]
    is_well = all("fullDescription" not in rule for rule in alone)
    yield "sarif: without groups a rule tells only its question", is_well, alone[:1]


def of_open(maker):
    """What is said where the exploration isn't complete, and where the control doesn't hold."""
    document = maker.audit(making.SNAP, "--budget", "50", "--workers", "1")
    value = json.loads(sarif.text([document]))
    yield "sarif: open: it fits the schema", misfits(value) == [], misfits(value)
    invocation = value["runs"][0]["invocations"][0]
    said = [one["message"]["text"] for one in invocation.get("toolExecutionNotifications", [])]
    is_well = invocation["executionSuccessful"] is False and len(said) == 1 and "Not complete" in said[0]
    yield "sarif: open: it didn't go well, and that is said", is_well, invocation
    levels = {result["ruleId"]: result["level"] for result in value["runs"][0]["results"]}
    unsettled = {one["name"] for one in document.value["questions"] if one["reply"] == "unsettled"}
    is_well = unsettled and all(levels.get(name) == "warning" for name in unsettled)
    yield "sarif: open: each unsettled question is a warning", is_well, levels
    text = sarif.text([audit_of([], control=[{"name": "read", "reply": "never"}])])
    invocation = json.loads(text)["runs"][0]["invocations"][0]
    is_well = invocation["executionSuccessful"] is False and "the control read is never" in json.dumps(invocation)
    yield "sarif: a control that doesn't hold is said", is_well, invocation


def of_made():
    """What documents say that are made here."""
    text = sarif.text([making.hostile_audit()])
    yield "sarif: hostile texts fit the schema", misfits(json.loads(text)) == [], misfits(json.loads(text))[:3]
    due = 2 * len(making.HOSTILE)
    yield "sarif: hostile texts: no result is lost", len(results_in(text)) == due, len(results_in(text))
    messages = [result["message"]["text"] for result in results_in(text)]
    links = [one for one in messages if re.search(r"(?<!\\)[\[\]]|(?<!\{)\{(?!\{)", one)]
    yield "sarif: hostile texts make no links and no arguments", not links, links
    for path, due in REFERENCES.items():
        got = sarif.reference_of(path)
        yield f"sarif: the reference to {path!r}", got == due, got
    known, unknown = audit_of([question(1, "q")]), audit_of([question(1, "q", origin=making.origin("p"))])
    place = results_in(sarif.text([unknown]))[0]["locations"][0]["physicalLocation"]
    yield "sarif: a line that isn't known isn't told", place == {"artifactLocation": {"uri": "p"}}, place
    two = sarif.text([known, audit_of([question(1, "q")], "b.json")])
    said = [result["message"]["text"] for result in results_in(two)]
    is_told = [f"in {path}" in one for path, one in zip(("audit.json", "b.json"), said)]
    is_well = len(json.loads(two)["runs"]) == 1 and is_told == [True, True]
    yield "sarif: several audits are one run, and each result tells its document", is_well, said
    passed = sarif.text([audit_of([question(1, "q", "never"), question(2, "r", accepted=True, unexpected=False)])])
    yield "sarif: never and accepted are no results", results_in(passed) == [] and passed.endswith("}\n"), passed[-50:]


def prints_in(text):
    return [result["partialFingerprints"]["questionAndStack/v1"] for result in results_in(text)]


def about(*filters, questions=("q", "r"), path="audit.json"):
    """An audit of filters of these bytes, with questions that are allowed."""
    files = [file("policy", "p.toml", b"version = 2"), *(file("filter", path, data) for data in filters)]
    return audit_of([question(number, name) for number, name in enumerate(questions, 1)], path, files=files)


def of_fingerprints():
    """By what a result is known again."""
    one, elsewhere = about(b"1"), about(b"1", path="elsewhere.json")
    elsewhere.value["files"][0] = file("policy", "/p", b"another")
    for asked in elsewhere.value["questions"]:
        asked["origin"] = making.origin("/p")
    prints = prints_in(sarif.text([one]))
    yield "sarif: no path is in a fingerprint, and no policy", prints == prints_in(sarif.text([elsewhere])), prints
    is_well = prints_in(sarif.text([about(b"1", questions=("p", "q", "r"))]))[1:] == prints
    yield "sarif: a fingerprint is of nothing but the question and the filters", is_well, prints
    stacks = [about(b"1"), about(b"2"), about(b"1", b"2"), about(b"2", b"1")]
    prints = [it for stack in stacks for it in prints_in(sarif.text([stack]))]
    yield "sarif: each question about each stack has one of its own", len(set(prints)) == 8, prints
    twice = prints_in(sarif.text([about(b"1", questions=("q", "q"))]))
    yield "sarif: two questions of one name have two", len(set(twice)) == 2, twice
    text = sarif.text([about(b"filter of service %d" % number) for number in range(200)])
    yield "sarif: 200 services have fingerprints of their own", len(set(prints_in(text))) == 400, len(set(prints_in(text)))


def of_files():
    """What is said of the program and of the files that it read."""
    value = json.loads(sarif.text([about(b"1", b"2", path="a b.bpf"), about(b"1", path="a b.bpf"), about(b"3", path="-")]))
    yield "sarif: files fit the schema", misfits(value) == [], misfits(value)
    run, = value["runs"]
    due = [(["userSpecifiedConfiguration"], "p.toml", 11, b"version = 2"), (["analysisTarget"], "a%20b.bpf", 1, b"1"),
           (["analysisTarget"], "a%20b.bpf", 1, b"2"), (["analysisTarget", "standardStream"], None, 1, b"3")]
    due = [(roles, uri, length, hashlib.sha256(data).hexdigest()) for roles, uri, length, data in due]
    got = [(it["roles"], it.get("location", {}).get("uri"), it["length"], it["hashes"]["sha-256"]) for it in run["artifacts"]]
    yield "sarif: each file is there once, with its digest", got == due, got
    driver = run["tool"]["driver"]
    is_well = (driver["name"], driver["version"], driver["fullName"]) == ("seccomp_audit", "2.1.0", making.PROGRAM)
    yield "sarif: the driver is the program that wrote the document", is_well, driver
    two = json.loads(sarif.text([audit_of([question(1, "q")]), audit_of([question(1, "r")], program="seccomp_audit 9.9.9 (x)")]))
    got = [(it["tool"]["driver"]["version"], [one["ruleId"] for one in it["results"]]) for it in two["runs"]]
    yield "sarif: each program has a run", got == [("2.1.0", ["q"]), ("9.9.9", ["r"])] and misfits(two) == [], got


def of_places():
    """Where a result is shown."""
    value = json.loads(sarif.text([audit_of([question(1, "q")])], None, (), "etc/my profile.json"))
    yield "sarif: a file of the checkout fits the schema", misfits(value) == [], misfits(value)
    result = value["runs"][0]["results"][0]
    due = [{"physicalLocation": {"artifactLocation": {"uri": "etc/my%20profile.json"}}}]
    yield "sarif: a file of the checkout is the place", result["locations"] == due, result
    asked = result["relatedLocations"][0]["physicalLocation"]
    is_well = asked == {"artifactLocation": {"uri": "policy.toml"}, "region": {"startLine": 11}}
    yield "sarif: and the question stands beside it", is_well, asked
    for path in ("", "/etc/profile.json", "../profile.json", "a/../../b"):
        try:
            got = sarif.text([audit_of([question(1, "q")])], None, (), path)
        except Refused as refused:
            got = refused
        yield f"sarif: the place {path!r} is refused", isinstance(got, Refused), got


def of_version(maker):
    """Whether it is the version of the program."""
    driver = json.loads(sarif.text([maker.audit(making.SSHD)]))["runs"][0]["tool"]["driver"]
    said = subprocess.run([maker.program, "--version"], capture_output=True, text=True).stdout
    is_well = said == f"{driver['fullName']}\n" and said.split()[:2] == [driver["name"], driver["version"]]
    yield "sarif: the driver has the program's version", is_well, (said, driver)


def of_refusals():
    """Whether documents of other kinds are refused, and stacks that can't be that of an audit."""
    for what, audits, filters in (("two filters for one", 1, [b"1", b"2"]), ("another filter", 1, [b"2"]),
                                  ("filters for two audits", 2, [b"1"])):
        try:
            got = sarif.text([about(b"1")] * audits, None, filters)
        except Refused as refused:
            got = refused
        yield f"sarif: {what}: refused", isinstance(got, Refused), got
    yield "sarif: its own filter is taken", sarif.text([about(b"1")], None, [b"1"]) == sarif.text([about(b"1")]), ""
    for what, documents in (("no audit", [Document("needed", {}, "n.json")]), ("nothing", []),
                            ("an unknown kind", [audit_of([]), Document("check", {}, "c.json")])):
        try:
            got = sarif.text(documents)
        except Refused as refused:
            got = refused
        yield f"sarif: {what} is refused", isinstance(got, Refused), got


def cases(maker):
    yield from of_real(maker)
    yield from of_open(maker)
    yield from of_made()
    yield from of_fingerprints()
    yield from of_files()
    yield from of_places()
    yield from of_version(maker)
    yield from of_refusals()
