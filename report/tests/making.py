"""Documents to try texts on: of real stacks, by the program; and ones that no program would write."""
import hashlib
import pathlib
import struct
import subprocess

from reporting import documents

ROOT = pathlib.Path(__file__).resolve().parent.parent.parent
DATA = "crates/examples_run/data"
DOCKER = f"{DATA}/docker-default-x86_64"
FLATPAK = f"{DATA}/flatpak-run"
SNAP = f"{DATA}/snap-default"
JOURNALD = f"{DATA}/unit-journald"
FIREJAIL = f"{DATA}/firejail-default"
SSHD = "examples/sshd-preauth"
SNAP_ALONE = "examples/snap-default-profile-alone"
POLICY = ["--policy", "policies/x86_64.toml"]
CONTROL = ["--control", "policies/control-x86_64.toml"]
NAMES = ["--names", "policies/names.toml"]


def filter_of(*instructions):
    """The bytes of a filter: each instruction has a code, two jumps and a number."""
    return b"".join(struct.pack("<HBBI", *one) for one in instructions)


def without_bits(mask):
    """A filter that lets calls through whose numbers have no bit of the mask, and kills others."""
    return filter_of((0x20, 0, 0, 0), (0x45, 0, 1, mask), (6, 0, 0, 0x80000000), (6, 0, 0, 0x7FFF0000))


# One filter for all inputs: let through, and handed to a tracer.
ALL = filter_of((6, 0, 0, 0x7FFF0000))
TRACED = filter_of((6, 0, 0, 0x7FF00000))

# Texts that would work as something else than text, in one of the forms. Each has the word that is looked for.
WORD = "Stranger"
HOSTILE = [
    f"<script>{WORD}</script>", f"`{WORD}`", f"``{WORD}```", f"`{WORD}", f"{WORD}`", f"|{WORD}|x|",
    f"{WORD}\n# {WORD}", f"x]]({WORD})", f"[{WORD}](https://example.org)", f"--- {WORD}",
    f"{WORD}\x00\x01\x1b[31m\x7f\x85", f"{WORD}\u202e\u2028\ufeff\ufffe\uffff", f"{WORD}\ud800",
    f"@{WORD}", f"#12 {WORD}", f"{WORD}]]>&amp;\"'", f"{WORD} {{0}} {{{WORD}}}", f"\\{WORD}\\", f" {WORD} ",
    f"**{WORD}**", f"![x]({WORD})", f"www.{WORD}.org", WORD * 1250,
]


class Maker:
    """Makes documents with the program, in a room for files."""

    def __init__(self, program, room):
        self.program, self.room, self.made = str(pathlib.Path(program).resolve()), pathlib.Path(room), 0

    def file(self, name, data):
        """A file with these bytes, and its path."""
        path = self.room / name
        path.write_bytes(data)
        return str(path)

    def ran(self, words):
        """The status of the program, and what it wrote."""
        ran = subprocess.run([self.program, *words], cwd=ROOT, capture_output=True, stdin=subprocess.DEVNULL)
        return ran.returncode, ran.stdout

    def document(self, *words):
        """The document that the program writes."""
        self.made += 1
        status, data = self.ran([words[0], "--json", *words[1:]])
        if status > 2:
            raise AssertionError(f"{words}: status {status}")
        return documents.read(self.file(f"{self.made}.json", data))

    def audit(self, stack, *more):
        return self.document("audit", *POLICY, *more, *filters_of(stack))

    def list(self, stack, *more):
        return self.document("list", *more, *NAMES, *filters_of(stack))


def filters_of(stack):
    """The filters of a stack: those in a folder of the repository, or the file itself."""
    folder = ROOT / stack
    found = sorted(str(path.relative_to(ROOT)) for path in folder.glob("*.bpf")) if folder.is_dir() else [stack]
    if not found:
        raise AssertionError(f"{stack} has no filter")
    return found


def example(call=None):
    """An input."""
    return {"arch": "0xc000003e", "args": ["0x0000000000000000"] * 5 + ["0x00000000000000ff"], "bytes": "0" * 128,
            "call": call, "instruction_pointer": "0x0000000000000000", "nr": 59}


def origin(policy="policy.toml", line=None, comment=None):
    """Where a question stands."""
    return {"comment": comment, "line": line, "policy": policy}


def question(number, name, reply="allowed", **more):
    """A question, allowed and not accepted if nothing else is said."""
    told = {"accepted": False, "example": example() if reply == "allowed" else None, "name": name, "number": number,
            "origin": origin(line=10 + number), "reply": reply, "unexpected": reply == "allowed", "why": None}
    return {**told, **more}


def file(role, path, data=b""):
    """A file that was read."""
    return {"length": len(data), "path": path, "role": role, "sha256": hashlib.sha256(data).hexdigest()}


# What a program says of itself, and two files that it read.
PROGRAM = "seccomp_audit 2.1.0 (proved, 0123456789abcdef01234567)"
FILES = [file("policy", "policy.toml", b"version = 2\n"), file("filter", "1.bpf", ALL)]


def audit_of(questions, path="audit.json", control=(), left=0, files=FILES, program=PROGRAM):
    """A document of an audit that has these questions, and a control with these."""
    replies = [one["reply"] for one in questions]
    holds = all(one["reply"] == "allowed" for one in control)
    value = {
        "counts": {"commits": 1, "emptied": 0, "open": left, "regions": 1, "splits": 0},
        "expected": {"control": list(control), "holds": holds} if control else None,
        "files": list(files),
        "program": program,
        "questions": questions,
        "regions": None,
        "seccomp_audit": "audit",
        "stack": {"filters": 1, "path": 1},
        "totals": {reply: replies.count(reply) for reply in ("never", "allowed", "unsettled")},
        "version": 1,
    }
    return documents.Document("audit", value, path)


def hostile_audit():
    """An audit in which each text of a stranger is hostile."""
    questions = [question(1, text, why=f"why {text}\n", example=example(text), origin=origin(text, 1, text))
                 for text in HOSTILE]
    questions += [question(2, f"{text}u", "unsettled") for text in HOSTILE]
    questions += [question(3, f"{text}a", unexpected=False, accepted=True) for text in HOSTILE]
    control = [{"name": text, "reply": "never"} for text in HOSTILE]
    files = [file(role, text) for role in ("policy", "filter") for text in HOSTILE]
    return audit_of(questions, f"{WORD}/<b>`|\n", control, 1, files, f"{WORD} {WORD}\x1b[31m<b>`|")


def condition(word, *ranges, mask=0xFFFFFFFF, rest=False):
    """A condition of a row: bits of a word under a mask are in ranges, or else in none of them."""
    return {"mask": mask, "not": rest, "ranges": list(map(list, ranges)), "word": word}


def row(*conditions, action="ALLOW", data=0):
    """A row of a list."""
    return {"answer": {"action": action, "data": data}, "calls": [], "conditions": list(conditions)}


def fits_its_schema(document):
    """Whether a document is one that could be read."""
    schema = documents.schema_of(document.kind)
    return not list(documents.faults(schema, document.value, schema))
