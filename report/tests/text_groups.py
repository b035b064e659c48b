"""Tries the groups of questions."""
import re
import tomllib

from reporting import groups
from reporting.documents import Refused

from .making import ROOT

PATH = ROOT / "policies/groups.toml"
POLICIES = ["x86_64", "i386", "x32", "aarch64", "arm"]

# Headings of policies whose group is called otherwise.
CALLED = {
    "What is handed to another process: ask this first": "What is handed to another process",
    "Numbers that a list forgets": "Other architectures, and numbers that a list forgets",
    "Old calls: a kernel has few of them, or none": "Old calls",
}

FORM = '[[group]]\nname = "a"\ntitle = "A"\nwhy = "x"\nquestions = ["one"]\n'
REFUSED = {
    "no TOML": b"[[group",
    "no UTF-8": b"\xff\xfe",
    "a group without a key": FORM.replace('why = "x"\n', "").encode(),
    "a group with another key": (FORM + "more = 1\n").encode(),
    "a title that is no text": FORM.replace('"A"', "1").encode(),
    "an empty name": FORM.replace('"a"', '""').encode(),
    "questions that are no list": FORM.replace('["one"]', '"one"').encode(),
    "a question that is no text": FORM.replace('["one"]', "[1]").encode(),
    "a question twice": FORM.replace('["one"]', '["one", "one"]').encode(),
    "a name of a group twice": (FORM + FORM.replace('"one"', '"two"')).encode(),
    "a key beside the groups": ("version = 1\n" + FORM).encode(),
    "a policy": (ROOT / "policies/terminal-injection.toml").read_bytes(),
    "an empty file": b"",
    "a group that is no table": b"group = [1]\n",
}


def titles_in(text):
    """The title over each question of a policy, by the question's name."""
    found, title = {}, None
    for line in text.splitlines():
        heading, name = re.fullmatch(r"# ---- (.+) ----", line), re.fullmatch(r'name = "(.+)"', line)
        if heading:
            title = CALLED.get(heading[1], heading[1])
        if name:
            found[name[1]] = title
    return found


def of_policies(loaded):
    """Whether each question of the ready policies is in the group of its heading, and no group has another."""
    title_of = {name: group.title for group in loaded for name in group.questions}
    known = set()
    for name in POLICIES:
        text = (ROOT / f"policies/{name}.toml").read_text()
        titles = titles_in(text)
        asked = [one["name"] for one in tomllib.loads(text)["question"]]
        known |= set(asked)
        yield f"groups: {name}.toml: each question is found", sorted(titles) == sorted(asked), len(titles)
        wrong = {it: (titles[it], title_of.get(it)) for it in titles if titles[it] != title_of.get(it)}
        yield f"groups: {name}.toml: each question is in the group of its heading", not wrong, wrong
    yield "groups: no group has a question that no policy has", set(title_of) == known, set(title_of) ^ known


def refusals(maker):
    """Whether files of another form are refused, in a line that names them."""
    for what, data in {**REFUSED, "a file that isn't there": None}.items():
        path = maker.file("groups.toml", data) if data is not None else str(maker.room / "not-there.toml")
        try:
            got = groups.load(path)
        except Refused as refused:
            got = refused
        is_well = isinstance(got, Refused) and str(got).startswith(path) and "\n" not in str(got)
        yield f"groups: {what} is refused", is_well, got


def cases(maker):
    loaded = groups.load(PATH)
    yield from of_policies(loaded)
    page = (ROOT / "docs/POLICIES.md").read_text().split("## The groups")[1]
    table = re.findall(r"^\| (.+?) \| .+ \| .+ \|$", page, re.M)
    titles = [group.title for group in loaded]
    same = sorted(titles) == sorted(set(table) - {"group"})
    yield "groups: the titles are those of docs/POLICIES.md", same, titles
    ends = titles[0], titles[-1]
    yield "groups: the first and the last", ends == ("What is handed to another process", "Old calls"), ends
    whys = [group.why for group in loaded if not re.fullmatch(r"[A-Z][^.\n]+\.", group.why)]
    yield "groups: each why is one sentence", not whys, whys
    asked = [{"name": name} for name in ("ustat", "mine", "ptrace", "handed-to-another-process", "kcmp")]
    pairs = groups.arranged(asked, loaded)
    got = [(group and group.title, [one["name"] for one in members]) for group, members in pairs]
    due = [("What is handed to another process", ["handed-to-another-process"]),
           ("Other processes", ["ptrace", "kcmp"]), ("Old calls", ["ustat"]), (None, ["mine"])]
    yield "groups: questions are arranged by the groups, others last", got == due, got
    yield "groups: nothing is arranged to nothing", groups.arranged([], loaded) == [], groups.arranged([], loaded)
    yield from refusals(maker)
    status, _ = maker.ran(["audit", "--policy", "policies/groups.toml", "examples/p1.bpf"])
    yield "groups: the program takes them for no policy", status == 3, status
