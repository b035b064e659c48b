"""What the man page has that `--help` doesn't: examples, files, and the environment. And the trial of the examples."""
import os
import re
import shutil
import subprocess
import tempfile
import uuid
from collections import namedtuple

from building.kit import ROOT

# Where the package puts what is shared.
SHARED = "/usr/share/seccomp_audit"

# An example: what it is for, its lines, and, which the page doesn't show, the status and the last line that must come.
Example = namedtuple("Example", "about lines status last")

EXAMPLES = [
    Example(
        "The folder service has the filters of a service. Are they lawful, and how long is their path?",
        ["seccomp_audit check service/*.bpf"], 0, "path 778"),
    Example(
        "What do they let through that is dangerous? The report has an example for each such question.",
        ["seccomp_audit audit --policy @x86_64 service/*.bpf"],
        1, "total never 125 allowed 96 unsettled 0"),
    Example(
        "The same, with the call of each example, and with the instruction that lets it through.",
        ["seccomp_audit audit --why --names @names --policy @x86_64 service/*.bpf"],
        1, "total never 125 allowed 96 unsettled 0"),
    Example(
        "In a build: only the questions that the file accepted names may be allowed. The control asks for what each "
        "process needs: where it doesn't hold, these are other filters.",
        ["seccomp_audit audit --policy @x86_64 --control @control-x86_64 \\", "    --accept accepted service/*.bpf"],
        1, "unexpected ustat"),
    Example(
        "Which of the filters are needed?",
        ["seccomp_audit needed service/*.bpf"], 0, "total needed 2 spare 0 kept 2"),
    Example(
        "What happens to one call?",
        ["seccomp_audit eval --call ioctl --args 0,0x5412 --arch x86_64 service/*.bpf"],
        0, "ERRNO 1"),
    Example(
        "What happens to two calls, with all their arguments?",
        ["seccomp_audit list --calls ioctl,ptrace service/*.bpf"],
        0, "total lines 12"),
    Example(
        "Does a new version of the filters let anything more through? The rows have all that changes.",
        ["seccomp_audit compare --rows --old old/*.bpf --new new/*.bpf"], 0, "total changed 1"),
    Example(
        "Do the installed filters do what a container's profile means?",
        ["seccomp_audit profile --machine x86_64 profile.json > meaning.bpf",
         "seccomp_audit compare --same --rows --old meaning.bpf --new installed.bpf"],
        1, "total changed 2"),
    Example(
        "What does a profile do that runs nowhere yet?",
        ["seccomp_audit profile --machine x86_64 profile.json |", "    seccomp_audit list -"],
        0, "total rows 17"),
]

# The files that the examples name, and those of the repository that stand for them.
NAMED = {
    "service/01.bpf": "examples/snap-default/01.bpf",
    "service/02.bpf": "examples/snap-default/02.bpf",
    "old/01.bpf": "examples/snap-default-profile-alone/01.bpf",
    "new/01.bpf": "examples/snap-default/01.bpf",
    "new/02.bpf": "examples/snap-default/02.bpf",
    "profile.json": "examples/profiles/sockets.json",
    "installed.bpf": "examples/profiles/sockets.bpf",
    "accepted": "/dev/null",
}

FILES = [
    (f"{SHARED}/policies/x86_64.toml",
     "A ready policy, @x86_64; there are more for i386, x32, aarch64 and arm. control-x86_64.toml beside it, "
     "@control-x86_64, asks for what each process needs."),
    (f"{SHARED}/policies/names.toml", "The names of calls for --names, @names: all five sets. names/ has a file for each."),
    ("/usr/share/doc/seccomp-audit/GUIDE.md",
     "The guide. Beside it GETTING-FILTERS.md says how to get filters, REFERENCE.md has formats and limits, and "
     "POLICIES.md says what the ready policies ask, and what a control is."),
    ("/usr/bin/seccomp_audit_read_filters",
     "Reads back, as root, the filters of a thread, or with --all-threads of a process, and writes a file for each."),
    ("/usr/bin/seccomp_audit_filter_of_profile",
     "Makes the filter that this machine's libseccomp makes of a JSON profile. It takes python3."),
    ("/usr/bin/seccomp_audit_kernel_agrees",
     "Compares what eval says of inputs with what this machine's kernel does. It takes python3."),
    ("/usr/bin/seccomp_audit_report",
     "Makes a page, a summary, or what build systems read, of what --json wrote. It takes python3."),
    ("/usr/bin/seccomp_audit_policy_numbers",
     "Compares the numbers of policies with the names behind them, by the kernel's headers. It takes python3."),
    ("/usr/bin/seccomp_audit_call_names",
     "Makes files of names of calls of the kernel's headers. It takes python3 and a C compiler."),
]
WHERE = [
    "These are the places of Debian's package.",
    "After tools/install PREFIX, PREFIX stands in the place of /usr, and these pages are in share/doc/seccomp_audit.",
]

ENVIRONMENT = [
    ("SECCOMP_AUDIT_EXPLAIN",
     "If it is 1, each command explains its errors, as with --explain-errors and at a terminal; if it is 0, not at a terminal."),
    ("SECCOMP_AUDIT_SHARE",
     "The only folder below which @NAME is looked for: there it is policies/NAME.toml."),
]


def make_room(room, program):
    """Fills a folder with the program, and with the files that the examples name."""
    os.mkdir(os.path.join(room, "bin"))
    os.symlink(program, os.path.join(room, "bin/seccomp_audit"))
    for name, source in NAMED.items():
        os.makedirs(os.path.dirname(os.path.join(room, name)), exist_ok=True)
        shutil.copyfile(os.path.join(ROOT, source), os.path.join(room, name))


def tried(program):
    """Runs the examples in their order in one shell. Gives the status and the last line of standard output of each."""
    end = uuid.uuid4().hex
    script = "".join("\n".join(example.lines) + f"\necho \"{end} $?\"\n" for example in EXAMPLES)
    with tempfile.TemporaryDirectory() as room:
        make_room(room, program)
        environment = {**os.environ, "PATH": f"{room}/bin:{os.environ['PATH']}", "LC_ALL": "C.UTF-8", "SECCOMP_AUDIT_SHARE": ROOT}
        words = {"cwd": room, "env": environment, "stdin": subprocess.DEVNULL, "stdout": subprocess.PIPE}
        said = subprocess.run(["bash", "-c", script], stderr=subprocess.DEVNULL, text=True, **words).stdout
    parts = re.split(rf"{end} (\d+)\n", said)
    return [(int(status), (text.splitlines() or [""])[-1]) for text, status in zip(parts[::2], parts[1::2])]
