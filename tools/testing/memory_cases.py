"""What memory and threads are refused to: filters, policies, command lines, and the rules of a report whose budget is
spent."""
import os
import re
import struct
from collections import Counter, namedtuple

from building.kit import write

ALLOW, ERRNO, KILL_THREAD, KILL_PROCESS = 0x7FFF0000, 0x50000, 0, 0x80000000
X86_64 = 0xC000003E
LET_THROUGH = ("ALLOW", "LOG")
WORDS = ["nr", "arch", "ip_lo", "ip_hi", *(f"arg{i}_{half}" for i in range(6) for half in ("lo", "hi"))]
HIGHEST = 0xFFFFFFFF

# What a question asks of a word: mask, value, low, high.
Asked = namedtuple("Asked", "mask value low high")
Question = namedtuple("Question", "name words actions")


def filter_of(*insns):
    """The bytes of instructions (code, jt, jf, k)."""
    return b"".join(struct.pack("<HBBI", *insn) for insn in insns)


def load(offset):
    return (0x20, 0, 0, offset)


def answers(value):
    return (0x06, 0, 0, value)


# Kills what isn't for x86-64 and refuses execve.
LOGIN = filter_of(
    load(4), (0x15, 1, 0, X86_64), answers(KILL_PROCESS), load(0), (0x15, 0, 1, 59), answers(ERRNO + 1), answers(ALLOW)
)
# ld [16]; tax; ld #8; div x; ret a: ten regions, four of them without a member.
DIVIDES = filter_of(load(16), (0x07, 0, 0, 0), (0x00, 0, 0, 8), (0x3C, 0, 0, 0), (0x16, 0, 0, 0))
# ld [16]; and #31; or ERRNO; ret a: 32 regions.
BRANCHES = filter_of(load(16), (0x54, 0, 0, 31), (0x44, 0, 0, ERRNO), (0x16, 0, 0, 0))
# ld [16]; and #7; jge 4 0 1; ret ERRNO 2; ret ALLOW
MASKS = filter_of(load(16), (0x54, 0, 0, 7), (0x35, 0, 1, 4), answers(ERRNO + 2), answers(ALLOW))
# ld [0]; jset 0x40000000 0 1; ret ERRNO 38; ret ALLOW
NO_X32 = filter_of(load(0), (0x45, 0, 1, 0x40000000), answers(ERRNO + 38), answers(ALLOW))
# ld [0]; jset 5 0 1; ret KILL_THREAD; ret ALLOW: a test of two bits, whose replies may be in doubt.
TWO_BITS = filter_of(load(0), (0x45, 0, 1, 5), answers(KILL_THREAD), answers(ALLOW))

# ld [4 * i]; jeq 0 0 0, for each of the first twelve words; ret ALLOW: 4,096 regions.
WIDE = filter_of(*(insn for i in range(12) for insn in (load(4 * i), (0x15, 0, 0, 0))), answers(ALLOW))

STACKS = {
    "login": [LOGIN],
    "divides": [DIVIDES],
    "branches": [BRANCHES],
    "five": [LOGIN, MASKS, NO_X32, TWO_BITS, LOGIN],
}

QUESTIONS = [
    Question("execve", {"arch": Asked(HIGHEST, X86_64, 0, HIGHEST), "nr": Asked(HIGHEST, 59, 0, HIGHEST)}, LET_THROUGH),
    Question("x32", {"nr": Asked(0x40000000, 0x40000000, 0, HIGHEST), "arg0_lo": Asked(6, 2, 1, 4000)}, LET_THROUGH),
    Question("low", {"nr": Asked(0xFFFFFFF0, 0, 3, 12), "arg0_lo": Asked(4, 4, 0, HIGHEST)}, LET_THROUGH),
    Question("refused", {"arch": Asked(HIGHEST, X86_64, 0, HIGHEST)}, ("ERRNO", "TRAP")),
    Question("killed", {"nr": Asked(0, 0, 8, 58)}, ("KILL_THREAD", "OTHER")),
]


def policy_of(questions):
    """The text of a policy file."""
    lines = ["version = 2"]
    for question in questions:
        lines += ["[[question]]", f'name = "{question.name}"']
        for word, asked in question.words.items():
            lines.append(f"{word} = {{ mask = {asked.mask}, value = {asked.value}, low = {asked.low}, high = {asked.high} }}")
        lines.append(f"actions = {list(question.actions)}")
    return "\n".join(lines).replace("'", '"') + "\n"


def is_asked(question, digits):
    """Whether the input of these digits is in the question."""
    words = dict(zip(WORDS, struct.unpack("<16I", bytes.fromhex(digits))))
    return all(
        asked.low <= words[name] <= asked.high and words[name] & asked.mask == asked.value
        for name, asked in question.words.items()
    )


REPORT = re.compile(
    r"seccomp_audit report 2\nfilters \d+ path \d+ questions \d+\n"
    r"regions (?P<regions>\d+) open (?P<open>\d+) emptied (?P<emptied>\d+) splits (?P<splits>\d+) commits (?P<commits>\d+)\n"
    r"(?P<replies>(question \d+ \S+ (never|unsettled|allowed [0-9a-f]{128})\n)*)(?P<listed>(region \d+ [-FT]+ \S+ \d+\n)*)"
    r"total never (?P<never>\d+) allowed (?P<allowed>\d+) unsettled (?P<unsettled>\d+)\n"
)


class Report:
    """The parts of a report."""

    def __init__(self, out):
        found = REPORT.fullmatch(out.decode("ascii"))
        if not found:
            raise ValueError("isn't a report")
        names = ("regions", "open", "emptied", "splits", "commits", "never", "allowed", "unsettled")
        self.count = {name: int(found[name]) for name in names}
        self.head = out.split(b"\n")[1]
        self.replies = [line.split(" ", 3)[1:] for line in found["replies"].splitlines()]
        self.listed = [line.split(" ", 2)[1:] for line in found["listed"].splitlines()]

    def status(self):
        """The exit status that goes with the replies."""
        return 1 if self.count["allowed"] else 2 if self.count["unsettled"] else 0


def rules_of_counts(report, whole, budget):
    """What the counts of a report with a spent budget have to meet, each with a name."""
    count = report.count
    kinds = Counter(reply.split(" ")[0] for _, _, reply in report.replies)
    traces = [line.split(" ")[0] for _, line in report.listed]
    within = all(count[name] <= whole.count[name] for name in ("regions", "emptied", "splits"))
    return {
        "the filters": report.head == whole.head,
        "pieces": count["open"] + count["regions"] + count["emptied"] == 1 + count["splits"],
        "commits": count["commits"] == count["splits"] + count["regions"] + count["emptied"],
        "a spent budget": count["commits"] == budget if count["open"] else count["commits"] <= budget,
        "less than the whole": within,
        "the total": all(count[kind] == kinds[kind] for kind in ("never", "allowed", "unsettled")),
        "no never": count["open"] == 0 or count["never"] == 0,
        "as many lines as regions": len(traces) == count["regions"],
        "the numbers of regions": [int(number) for number, _ in report.listed] == list(range(1, len(traces) + 1)),
        "the order of regions": traces == sorted(set(traces)),
        "regions of the whole": {line for _, line in report.listed} <= {line for _, line in whole.listed},
    }


def audit_words(paths, workers, budget=None):
    limit = [] if budget is None else ["--budget", str(budget)]
    return ["audit", "--regions", "--workers", str(workers), *limit, "--policy", "policy", *paths]


def threads_of(words):
    """The fewest and the most threads that a command line starts. With several workers these are: one at least and at most one
    for each to explore, since none is started once nothing is left to do; and of an audit, to sweep, one less than there are
    workers, since the calling thread takes a part."""
    workers = int(words[words.index("--workers") + 1]) if "--workers" in words else 1
    swept = workers - 1 if words[0] == "audit" else 0
    return (1 + swept, workers + swept) if workers > 1 else (0, 0)


def write_files(folder):
    """Writes the policies and filters, and gives the paths of each stack."""
    texts = {
        "policy": policy_of(QUESTIONS),
        "bad_policy": 'version = 2\n[[question]]\nname = "a"\nnr = { mask = 1, value = 2 }\n',
        "no_policy": "version = 2\nnr = [1, 2] x\n",
        "control": 'version = 1\n[[question]]\nname = "anything"\n',
        "accepted": "# some that are allowed\nanything # on purpose\n",
        "bad_accepted": "nothing\n",
        "groups": '[[group]]\nname = "a"\ntitle = "Programs"\nwhy = "b"\nquestions = ["execve", "x32"]\n',
        "bad_groups": "group = 1\n",
        "names": "arch = 0xC00000B7\n[calls]\nread = 63\nwrite = 64\n",
        "profile": '{"defaultAction": "SCMP_ACT_ERRNO", "syscalls": [{"names": ["write", "no_call"], "action": "SCMP_ACT_LOG"}]}',
        "bad_profile": '{"defaultAction": "SCMP_ACT_ERRNO", "syscalls": [{"names": ["write"], "action": "SCMP_ACT_DENY"}]}',
    }
    for name, text in texts.items():
        write(os.path.join(folder, name), text)
    stacks = {name: [f"{name}_{i}" for i in range(len(filters))] for name, filters in STACKS.items()}
    filters = [(path, content) for name, paths in stacks.items() for path, content in zip(paths, STACKS[name])]
    for path, content in [*filters, ("cut", LOGIN[:40]), ("wide", WIDE)]:
        with open(os.path.join(folder, path), "wb") as file:
            file.write(content)
    return stacks


# Command lines that start no thread, some of which are refused. DIGITS are those of an input.
DIGITS = "3b0000003e0000c0" + "0" * 112
SINGLE = f"""
eval --trace --call write --args 0 --arch aarch64 --names names login_0
eval --explain-errors --call open --args 0 --arch aarch64 --names names login_0
list --names names login_0 --calls
list --digest login_0
list --nodes 10 login_0
compare --rows --only looser --old login_0 --new login_0 --names names --calls write
audit --workers 1 --why --names names --policy policy login_0
audit --workers 1 --policy control --control policy --accept accepted login_0
audit --workers 1 --policy control --policy policy --explain-errors --accept bad_accepted login_0
audit --workers 1 --policy control --control control login_0
audit --workers 1 --summary --groups groups --policy policy --control control login_0
audit --workers 1 --summary-all --groups bad_groups --explain-errors --policy policy login_0
needed login_0 login_0
help needed
profile --machine aarch64 --names names --skip-unknown profile
profile --machine aarch64 --names names --skip-unknown --notes profile
profile --machine aarch64 --names names --explain-errors profile
profile --machine aarch64 --names names bad_profile
profile --machine aarch64 --names names --explain-errors bad_profile
check login_0 cut
compare --explain-errors --old login_0 --new cut
list --explain-errors login_0 cut
check missing
eval --input {DIGITS[1:]} login_0
audit --policy bad_policy login_0
audit login_0
audit --policy policy --control policy login_0
audit --help
check --explain-errors login_0 cut
check --explain-errors login_0 missing
eval --explain-errors --input {DIGITS[1:]} login_0
audit --explain-errors --policy bad_policy login_0
audit --explain-errors --policy no_policy login_0
audit --explain-errors --policy missing login_0
"""


def single_words(stacks):
    """The words of these command lines, and of `check` and `eval` for each stack."""
    for paths in stacks.values():
        yield from (["check", *paths], ["eval", "--input", DIGITS, *paths])
    yield from map(str.split, SINGLE.strip().splitlines())
