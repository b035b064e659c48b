"""What goes with the program when it is installed, and where it goes."""
import os
import subprocess
import tempfile

from building.kit import PROGRAM, ROOT, Refused, replace

# What is copied beside the program: from where in the repository, and to where below PREFIX. {doc} is the folder of pages.
FILES = [
    ("docs/seccomp_audit.1", "share/man/man1/seccomp_audit.1"),
    ("docs/completions/seccomp_audit.bash", "share/bash-completion/completions/seccomp_audit"),
    ("docs/completions/_seccomp_audit", "share/zsh/vendor-completions/_seccomp_audit"),
    ("docs/completions/seccomp_audit.fish", "share/fish/vendor_completions.d/seccomp_audit.fish"),
    ("docs/GETTING-FILTERS.md", "share/doc/{doc}/GETTING-FILTERS.md"),
    ("docs/GUIDE.md", "share/doc/{doc}/GUIDE.md"),
    ("docs/REFERENCE.md", "share/doc/{doc}/REFERENCE.md"),
    ("docs/POLICIES.md", "share/doc/{doc}/POLICIES.md"),
    ("examples/ci/github.yml", "share/doc/{doc}/ci/github.yml"),
    ("examples/ci/gitlab.yml", "share/doc/{doc}/ci/gitlab.yml"),
    ("helpers/showing.py", "libexec/seccomp_audit/showing.py"),
]
POLICIES = "share/seccomp_audit/policies"

# Folders below PREFIX that nobody else writes in: they are listed as wholes.
OWN = ["libexec/seccomp_audit", "share/doc/{doc}", "share/seccomp_audit"]

# The report's modules and the schemas of the documents that it reads: the folder in the repository, what is copied of it,
# and the folder below PREFIX.
FOLDERS = [
    ("report/reporting", (".py", ".css", ".js"), "libexec/seccomp_audit/reporting"),
    ("docs/schema", (".json",), "share/seccomp_audit/schema"),
]

# Helpers in Python, and what a C compiler makes: the sources in helpers/, the compiler's options, the target.
# `kernel_agrees` does nothing without `ask_kernel`, so it goes where that goes.
HELPERS = [(path, f"bin/seccomp_audit_{os.path.basename(path)}") for path in (
    "helpers/filter_of_profile", "report/report", "helpers/call_names", "helpers/policy_numbers")]
KERNEL_AGREES = ("helpers/kernel_agrees", "bin/seccomp_audit_kernel_agrees")
READ_FILTERS = (("read_filters.c", "read_thread.c"), (), "bin/seccomp_audit_read_filters")
ASK_KERNEL = (("ask_kernel.c",), ("-pthread",), "libexec/seccomp_audit/ask_kernel")
COMPILED = (READ_FILTERS[2], ASK_KERNEL[2])

# The rights of folders and of programs, and those of other files.
OPEN, PLAIN = 0o755, 0o644


def make_folders(folder):
    """Makes a folder and those above it, where they aren't there. Everybody may look into those that it makes."""
    if folder and not os.path.isdir(folder):
        make_folders(os.path.dirname(folder))
        os.mkdir(folder)
        os.chmod(folder, OPEN)


def copy(source, target, mode):
    """Copies a file, which replaces the one before at once."""
    make_folders(os.path.dirname(target))
    with open(source, "rb") as file:
        replace(target, file.read(), mode)


def is_compiled(sources, options, made):
    """Compiles sources of helpers/. Whether that went well: it doesn't where there is no compiler, or another machine."""
    words = [os.environ.get("CC") or "cc", "-O2", "-s", *options, "-o", made, *sources]
    try:
        ran = subprocess.run(words, cwd=os.path.join(ROOT, "helpers"), stdin=subprocess.DEVNULL, capture_output=True)
    except FileNotFoundError:
        return False
    return ran.returncode == 0


def helpers(room):
    """The helpers, as `plan` has files, and the names of those that are left out. What is compiled stands in a room."""
    found = [(os.path.join(ROOT, source), target, OPEN) for source, target in HELPERS]
    left_out = []
    for (sources, options, target), entry in ((READ_FILTERS, None), (ASK_KERNEL, KERNEL_AGREES)):
        made = os.path.join(room, os.path.basename(target))
        if is_compiled(sources, options, made):
            found.append((made, target, OPEN))
            found += [(os.path.join(ROOT, entry[0]), entry[1], OPEN)] if entry else []
        else:
            left_out.append(os.path.basename(entry[1] if entry else target))
    return found, left_out


def policies():
    """The policies and the names of calls, with their places."""
    names = [f"{folder}{name}" for folder in ("", "names/")
             for name in sorted(os.listdir(os.path.join(ROOT, "policies", folder)))]
    return [(f"policies/{name}", f"{POLICIES}/{name}") for name in names if name.endswith(".toml")]


def folders():
    """The report's modules and the schemas, with their places."""
    return [(f"{source}/{name}", f"{target}/{name}") for source, ends, target in FOLDERS
            for name in sorted(os.listdir(os.path.join(ROOT, source))) if name.endswith(ends)]


def plan(program, room, doc):
    """All files: where each is, where below PREFIX it goes, and its rights. And the helpers that are left out."""
    made, left_out = helpers(room)
    plain = [*((source, target.format(doc=doc)) for source, target in FILES), *policies(), *folders()]
    files = [(os.path.join(ROOT, source), target, PLAIN) for source, target in plain]
    return [(program, f"bin/{PROGRAM}", OPEN), *made, *files], left_out


def install(program, prefix, doc=PROGRAM):
    """Copies all. Gives the paths that it has written (files, and in their place folders of its own), and the names of the
    helpers that it has left out, since no C compiler makes them here. Refused where one of these is a link."""
    with tempfile.TemporaryDirectory() as room:
        files, left_out = plan(program, room, doc)
        own = [folder.format(doc=doc) for folder in OWN]
        for path in (f"{prefix}/{it}" for it in (*own, *(target for _, target, _ in files))):
            if os.path.islink(path):
                raise Refused(f"{path} is a link, to {os.readlink(path)}: remove it first")
        for source, target, mode in files:
            copy(source, f"{prefix}/{target}", mode)
    told = [next((folder for folder in own if path.startswith(f"{folder}/")), path) for _, path, _ in files]
    return [f"{prefix}/{path}" for path in dict.fromkeys(told)], left_out
