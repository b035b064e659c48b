"""What code scanners read: SARIF 2.1.0, with a result for each question that is let through or unsettled."""
import hashlib
import json
from collections import Counter
from urllib.parse import quote

from showing import visible

from .documents import Refused
from .phrases import MADE_BY, UNSETTLED, audits_of, call_of, control_of, not_complete, source_of

SCHEMA = "https://docs.oasis-open.org/sarif/sarif/v2.1.0/errata01/os/schemas/sarif-schema-2.1.0.json"

# What a file that an audit read is to SARIF.
ROLES = {"filter": "analysisTarget", "policy": "userSpecifiedConfiguration"}


def plain(text):
    """A text as a message: what would make a link or a place for an argument is taken as it stands."""
    marked = visible(text).replace("\\", "\\\\").replace("[", "\\[").replace("]", "\\]")
    return {"text": marked.replace("{", "{{").replace("}", "}}")}


def reference_of(path):
    """A path as a reference: relative as it is, and absolute with `file:`."""
    start = "file://" if path.startswith("/") else ""
    return start + quote(path.encode("utf-8", "surrogatepass"), safe="/")


def is_result(question):
    return question["unexpected"] or question["reply"] == "unsettled"


def message_of(question, document, is_one_of_several):
    """What a result says."""
    name = question["name"]
    if question["reply"] == "unsettled":
        said = f"{name} is unsettled: {UNSETTLED}."
    elif question["example"]:
        said = f"{name} is allowed, for example {call_of(question['example'])}."
    else:
        said = f"{name} is allowed."
    return plain(f"{said} This is said in {source_of(document)}." if is_one_of_several else said)


def location_of(path, line=None):
    """A place in a file, with its line where that is known."""
    place = {"artifactLocation": {"uri": reference_of(path)}}
    if line is not None:
        place["region"] = {"startLine": line}
    return {"physicalLocation": place}


def sum_of(*told):
    """A sum of what JSON can tell."""
    return hashlib.sha256(json.dumps(told, sort_keys=True).encode()).hexdigest()


def digests_of(document):
    """The digests of the filters that an audit is about, in their order."""
    return [file["sha256"] for file in document.value["files"] if file["role"] == "filter"]


def fingerprints_of(document):
    """A sum for each question of an audit, by which viewers know a result again: the same for the same question about the
    same filters, whatever their paths. Of questions with one name each has its own."""
    stack, seen, found = sum_of(*digests_of(document)), Counter(), []
    for question in document.value["questions"]:
        seen[question["name"]] += 1
        found.append(sum_of(question["name"], seen[question["name"]], stack))
    return found


def result_of(question, fingerprint, rules, document, is_one_of_several, place):
    """The result of a question. `rules` has the place of each rule. It is shown at a file of the checkout where `place` names
    one, and else where the question stands."""
    name, origin = visible(question["name"]), question["origin"]
    asked = location_of(origin["policy"], origin["line"])
    result = {
        "ruleId": name,
        "ruleIndex": rules[name],
        "level": "error" if question["unexpected"] else "warning",
        "message": message_of(question, document, is_one_of_several),
        "locations": [asked if place is None else location_of(place)],
        "partialFingerprints": {"questionAndStack/v1": fingerprint},
    }
    if place is not None:
        result["relatedLocations"] = [asked]
    if question["example"]:
        result["properties"] = {"bytes": question["example"]["bytes"]}
    return result


def rule_of(name, groups):
    """The rule that a question is. Where a group has the question, the rule says what an attacker gains."""
    rule = {"id": name, "shortDescription": plain(f"The question {name} must be answered never.")}
    group = next((group for group in groups or () if name in group.questions), None)
    if group:
        rule["fullDescription"] = plain(f"{group.title}: {group.why}")
    return rule


def notification_of(text):
    return {"level": "error", "message": plain(text)}


def notifications_of(document):
    """What keeps the replies of an audit from being the whole truth: pieces that are outstanding, and a control that
    doesn't hold."""
    at = source_of(document)
    found = [f"{at}: {not_complete(document.open)}"] if document.open else []
    failing = [question for question in control_of(document) if question["reply"] != "allowed"]
    found += [f"{at}: the control {question['name']} is {question['reply']}, and must be allowed. "
              "So the other replies mean nothing." for question in failing]
    return [notification_of(text) for text in found]


def invocation_of(audits):
    """How it went: well where each audit is complete and each control holds."""
    notifications = [one for document in audits for one in notifications_of(document)]
    if not notifications:
        return {"executionSuccessful": True}
    return {"executionSuccessful": False, "toolExecutionNotifications": notifications}


def need_stack(audits, filters):
    """Refused where filters are given that aren't those of the audit."""
    if not filters:
        return
    if len(audits) > 1:
        raise Refused("--filter tells the stack of one audit, and there are several")
    if [hashlib.sha256(data).hexdigest() for data in filters] != digests_of(audits[0]):
        raise Refused(f"--filter: {source_of(audits[0])} isn't about these filters")


def need_place(place):
    """Refused where a place is no path from the top of the checkout."""
    if place is not None and (not place or place.startswith("/") or ".." in place.split("/")):
        raise Refused(f"--place: {place!r:.80} is no path from the top of the checkout")


def artifact_of(file):
    """A file that an audit read, down to its bytes."""
    artifact = {"roles": [ROLES[file["role"]]], "length": file["length"], "hashes": {"sha-256": file["sha256"]}}
    if file["path"] == "-":
        artifact["roles"].append("standardStream")
    else:
        artifact["location"] = {"uri": reference_of(file["path"])}
    return artifact


def artifacts_of(audits):
    """The files that audits read, each once."""
    artifacts = [artifact_of(file) for document in audits for file in document.value["files"]]
    return list({json.dumps(artifact): artifact for artifact in artifacts}.values())


def driver_of(program, rules):
    """The program that wrote audits, by its line of `--version`: its name, its version, and whether it is proved."""
    return {
        "name": "seccomp_audit",
        "version": visible(program.partition(" ")[2].partition(" ")[0]),
        "fullName": visible(program),
        "fullDescription": plain(MADE_BY),
        "rules": rules,
    }


def run_of(audits, program, groups, place, is_one_of_several):
    """The run of audits that one program wrote."""
    asked = [(question, fingerprint, document) for document in audits
             for question, fingerprint in zip(document.value["questions"], fingerprints_of(document))]
    found = [(question, fingerprint, document) for question, fingerprint, document in asked if is_result(question)]
    rules = list(dict.fromkeys(visible(question["name"]) for question, _, _ in found))
    numbers = {name: number for number, name in enumerate(rules)}
    return {
        "tool": {"driver": driver_of(program, [rule_of(name, groups) for name in rules])},
        "invocations": [invocation_of(audits)],
        "artifacts": artifacts_of(audits),
        "results": [result_of(question, fingerprint, numbers, document, is_one_of_several, place)
                    for question, fingerprint, document in found],
    }


def text(documents, groups=None, filters=(), place=None):
    """SARIF of the audits among documents: a run for each program that wrote some. `filters` are the bytes of the filters of
    the only audit, or none; `place` is a file of the checkout, or None. Refused where there is no audit, or a document of
    an unknown kind, or where these can't be."""
    audits = audits_of(documents, "--sarif")
    need_stack(audits, filters)
    need_place(place)
    programs = {}
    for document in audits:
        programs.setdefault(document.value["program"], []).append(document)
    runs = [run_of(some, program, groups, place, len(audits) > 1) for program, some in programs.items()]
    return json.dumps({"$schema": SCHEMA, "version": "2.1.0", "runs": runs}, indent=2) + "\n"
