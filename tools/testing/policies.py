"""Looks at the ready policies and the files of names: what has a name, and what is asked about.

    tools/test policies

Each call that a policy asks about has a name. Each number of a set has a name, or a question of its policy is about it.
Each call of x86-64 has a question, or docs/POLICIES.md says why it has none. It takes no program and no headers.
"""
import re
import tomllib

from building.kit import text_of
from testing.told import finish, tell

SETS = ("x86_64", "i386", "x32", "aarch64", "arm")
X32_BIT = 0x40000000
# From this number on a call has the same one on all architectures, and the last of them that must have a name.
FIRST_EQUAL, NEWEST = 424, 472
# The numbers that a call can have: a set's first, and the last of all.
BEGINS, LAST = {"x32": X32_BIT}, 0x7FFFFFFF
# The most questions of a ready policy. A policy may have 256: the rest is room for those of users.
MOST = 240
# How policies write the calls that a question is about. Some ranges have expressions, as `2 * __X32_SYSCALL_BIT - 1`.
NUMBERS = re.compile(r"nr = [^#]*# (.+)")
NAME = re.compile(r"(?!__)\w+")


def spans_of(number):
    """The numbers that a question is about, as pairs of the first and the last. With a mask they have both ends."""
    if isinstance(number, dict):
        return [(it, it) for it in range(number["low"], number["high"] + 1) if it & number["mask"] == number["value"]]
    return [tuple(number) if isinstance(number, list) else (number, number)]


def table_of(path):
    return tomllib.loads(text_of(path))


def plain(number):
    """A number without the bit of x32."""
    return number & ~X32_BIT


class Policy:
    """A ready policy, and the names of its set."""

    def __init__(self, name):
        self.name, self.path = name, f"policies/{name}.toml"
        names = table_of(f"policies/names/{name}.toml")
        self.arch, self.calls = names["arch"], names["calls"]
        self.named = set(self.calls.values())
        tables = text_of(self.path).split("[[question]]")[1:]
        self.questions = table_of(self.path)["question"]
        # What stands behind the numbers of each question: names, or why there are none.
        self.comments = [(found := NUMBERS.search(table)) and found[1] for table in tables]

    def said(self):
        """The names of calls behind the numbers of questions, each with its number."""
        for question, comment in zip(self.questions, self.comments):
            if comment and not comment.startswith("declared:"):
                number = question["nr"]
                ends = number if isinstance(number, list) else [number]
                yield from ((name, at) for name, at in zip(comment.split(", "), ends) if NAME.fullmatch(name))

    def asked(self):
        """The names of all calls that questions are about, under conditions or not."""
        own = [question["nr"] for question in self.questions if "nr" in question and question["arch"] == self.arch]
        spans = [span for number in own for span in spans_of(number)]
        return {name for name, number in self.calls.items() if any(low <= number <= high for low, high in spans)}


def of_names(policies):
    """Whether all calls that are asked about have names, in each set that has them."""
    together = table_of("policies/names.toml")
    for policy in policies:
        apart = table_of(f"policies/names/{policy.name}.toml")
        yield f"{policy.name}: names.toml has the same set", together.get(policy.name) == apart, len(apart["calls"])
        newest = max(plain(number) for number in policy.named if plain(number) < 512)
        yield f"{policy.name}: names go up to {NEWEST}", newest >= NEWEST, newest
        wrong = [(name, number) for name, number in policy.said() if policy.calls.get(name) != number]
        yield f"{policy.name}: each call that is asked about has its name", not wrong, wrong
    newer = {(name, plain(at)) for policy in policies for name, at in policy.said()}
    newer = {(name, number) for name, number in newer if FIRST_EQUAL <= number < 512}
    for policy in policies:
        wrong = sorted((name, number) for name, number in newer if plain(policy.calls.get(name, -1)) != number)
        yield f"{policy.name}: calls that other policies ask about have their names too", not wrong, wrong
    heads = {text_of(f"policies/names/{name}.toml").split(" from ")[1].split(". ")[0] for name in SETS}
    release = re.fullmatch(r"the headers of Linux (\d+\.\d+)\S*", heads.pop()) if len(heads) == 1 else None
    yield "names: all are from the headers of one release", release is not None, heads
    said = re.search(r"`policies/names.toml` has the calls of Linux (\S+)\.\s", text_of("docs/REFERENCE.md"))
    yield "names: docs/REFERENCE.md says which", release and said and said[1] == release[1], said and said[1]
    seen = [line for line in text_of("policies/names/x86_64.toml").splitlines() if "no filter sees it" in line]
    due = ["uretprobe", "uprobe"]
    yield "names: the calls that no filter sees are marked", [line.split(" = ")[0] for line in seen] == due, seen


def between(spans, first):
    """The numbers that lie in no span, as pairs of the first and the last."""
    for low, high in [*sorted(spans), (LAST + 1, LAST + 1)]:
        if first < low:
            yield first, low - 1
        first = max(first, high + 1)


def of_numbers(policies):
    """Whether all numbers have names or are asked about, those without a name by no other condition."""
    for policy in policies:
        whole = [it["nr"] for it in policy.questions if set(it) == {"name", "arch", "nr"} and it["arch"] == policy.arch]
        spans = [span for number in whole for span in spans_of(number)] + [(number, number) for number in policy.named]
        open_spans = list(between(spans, BEGINS.get(policy.name, 0)))
        yield f"{policy.name}: no number lies between, without a name and a question", not open_spans, open_spans
        wrong = [(question["name"], number) for question, comment in zip(policy.questions, policy.comments)
                 if comment and comment.startswith("declared:")
                 for low, high in spans_of(question["nr"]) for number in policy.named if low <= number <= high]
        yield f"{policy.name}: no call is among the numbers without a name", not wrong, wrong
    counts = {policy.name: len(policy.questions) for policy in policies}
    yield f"policies: at most {MOST} questions", max(counts.values()) <= MOST, counts
    said = dict(re.findall(r"^\| `(\w+)\.toml` \| .+ \| (\d+) \| .+ \|$", text_of("docs/POLICIES.md"), re.M))
    wrong = {name: count for name, count in counts.items() if said.get(name) != str(count)}
    yield "policies: docs/POLICIES.md says how many questions there are", not wrong, wrong


def of_calls(policies):
    """Whether each call of x86-64 has a question, or stands among those without one; and whether others have it too."""
    policy = policies[0]
    part = text_of("docs/POLICIES.md").split("\n## Calls without a question\n")[1].split("\n## ")[0]
    told = [name for row in re.findall(r"^\| .+ \| `(.+)` \|$", part, re.M) for name in row.split()]
    asked = policy.asked()
    lost = sorted(policy.calls.keys() - asked - set(told))
    yield f"{policy.name}: each call has a question, or docs/POLICIES.md says why not", not lost, lost
    wrong = sorted(set(told) & asked | set(told) - policy.calls.keys())
    yield f"{policy.name}: the calls without a question are calls, and have none", not wrong, wrong
    twice = sorted({name for name in told if told.count(name) > 1})
    yield f"{policy.name}: each call without a question is told once", not twice, twice
    said = re.search(r"asks about (\d+) of the (\d+) calls", part)
    due = (str(len(asked)), str(len(policy.calls)))
    yield f"{policy.name}: docs/POLICIES.md says how many calls have a question", said and said.groups() == due, due
    for other in policies[1:]:
        lost = sorted(asked & other.calls.keys() - other.asked())
        yield f"{other.name}: what {policy.name} asks about is asked about, where there is such a call", not lost, lost


def main():
    policies = [Policy(name) for name in SETS]
    for what, is_well, got in [*of_names(policies), *of_numbers(policies), *of_calls(policies)]:
        tell(is_well, what, str(got)[:300])
    return finish()
