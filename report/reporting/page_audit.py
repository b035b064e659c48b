"""The part of a page that shows an audit: its questions by groups."""
from .groups import arranged
from .markup import badge, banner, element, escaped, paragraph, section
from .phrases import call_of

HANDED = "handed-to-another-process"
KINDS = {"never": "refused", "allowed": "looser", "unsettled": "handed"}
MARKS = {"never": "− never", "allowed": "+ allowed", "unsettled": "? unsettled"}


def reply(question):
    """A question's reply as a badge, and whether it was accepted."""
    accepted = " (accepted)" if question["accepted"] else ""
    return badge(KINDS[question["reply"]], MARKS[question["reply"]]) + accepted


def place_of(question):
    """Where a question stands."""
    origin = question["origin"]
    return origin["policy"] if origin["line"] is None else f"{origin['policy']}, line {origin['line']}"


def comment_of(question):
    """What its policy says of a question, if it says something."""
    comment = question["origin"]["comment"]
    return element("span", escaped(comment), class_="soft") if comment else ""


def whole(question):
    """A question that isn't answered `never`, with its example and why that is let through."""
    example, why, comment = question["example"], question["why"], comment_of(question)
    parts = [f"<div>{reply(question)} <strong class=\"mono\">{escaped(question['name'])}</strong> "
             f"<span class=\"soft\">{escaped(place_of(question))}</span></div>"]
    if comment:
        parts.append(element("div", comment))
    if example:
        parts.append(element("div", "for instance " + element("code", escaped(call_of(example)))))
    if why:
        # Each line begins with `why`. The text is the program's.
        lines = [line.removeprefix("why ") for line in why.splitlines()]
        parts.append(element("pre", "\n".join(escaped(line) for line in lines[1:] or lines)))
    return element("div", "".join(parts), class_=f"question{' open' if question['unexpected'] else ''}")


def group_part(group, questions):
    """A group: what is open in it, and the names of what is closed."""
    title, why = (group.title, group.why) if group else ("Other questions", "")
    told = [it for it in questions if it["reply"] != "never"]
    closed = [it for it in questions if it["reply"] == "never"]
    count = element("span", f"{len(told)} of {len(questions)} open or unsettled", class_="soft")
    head = element("h3", f"{escaped(title)} {count}")
    parts = [head, element("p", escaped(why), class_="soft") if why and told else "", *(whole(it) for it in told)]
    if closed:
        names = "".join(element("li", f"{element('code', escaped(it['name']))} {comment_of(it)}") for it in closed)
        summary = element("summary", f"never: {len(closed)}")
        parts.append(element("details", summary + element("ul", names, class_="quiet")))
    return element("section", "".join(parts))


def control(expected):
    """What the control says, if there is one."""
    if expected is None or not expected["control"]:
        return ""
    bad = [it["name"] for it in expected["control"] if it["reply"] != "allowed"]
    return "" if bad else paragraph(f"The control holds: its {len(expected['control'])} questions are allowed.")


def banners_of(document):
    """What has to be read of an audit first: a control that doesn't hold, and whether another process decides."""
    expected = document.value["expected"]
    bad = [it["name"] for it in (expected or {"control": []})["control"] if it["reply"] != "allowed"]
    told = [banner(f"The control doesn't hold, so never may mean nothing here: {', '.join(bad)}.")] if bad else []
    return "".join([*told, handed_part(document.value)])


def sentence(value):
    """The counts of an audit, in a sentence."""
    totals = value["totals"]
    count, unexpected = len(value["questions"]), sum(it["unexpected"] for it in value["questions"])
    accepted = f", {totals['allowed'] - unexpected} of them accepted" if unexpected != totals["allowed"] else ""
    return (f"Of {count} questions, {totals['never']} are answered never: no call that they ask about is let through. "
            f"{totals['allowed']} are allowed{accepted}, and {totals['unsettled']} are unsettled.")


def handed_part(value):
    """What comes before all else: whether another process decides."""
    found = [it for it in value["questions"] if it["name"] == HANDED and it["reply"] != "never"]
    if not found:
        return ""
    words = "Another process decides on some calls. Nothing here says what it lets through, also where a reply is never."
    return element("div", escaped(words) + "".join(whole(it) for it in found), class_="banner", role="alert")


def audit_part(document, groups):
    """The section of an audit."""
    value = document.value
    parts = [paragraph(sentence(value)), control(value["expected"])]
    parts += [group_part(group, questions) for group, questions in arranged(value["questions"], groups)]
    return section("What is asked of it", *parts)
