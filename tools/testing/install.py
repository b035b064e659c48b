"""Tries what tools/install and tools/release put beside the program: whether all is there, runs, and goes again.

    tools/test install

A stand-in takes the program's place, so nothing has to be built. The cases of filter_of_profile are tried on the one
that is installed. Cases that need a C compiler, or dpkg and objdump, are left out without these, and a line says so.
"""
import json
import os
import shutil
import subprocess
import sys
import tempfile

from building import installing, mark
from building.kit import PROGRAM, ROOT, loaded, text_of, write, write_script
from testing import profiles
from testing.told import finish, refusal, tell

HELPERS = ["seccomp_audit_filter_of_profile", "seccomp_audit_kernel_agrees", "seccomp_audit_read_filters", "seccomp_audit_report"]
BY_HEADERS = ["seccomp_audit_call_names", "seccomp_audit_policy_numbers"]
PROFILE = os.path.join(ROOT, "examples/profiles/sockets.json")
FILTER = os.path.join(ROOT, "examples/p1.bpf")
COMPILER = shutil.which(os.environ.get("CC") or "cc")

# What is installed below PREFIX, without the policies; {doc} is the folder of pages.
PLACES = """
    bin/seccomp_audit bin/seccomp_audit_filter_of_profile bin/seccomp_audit_kernel_agrees bin/seccomp_audit_read_filters
    bin/seccomp_audit_report bin/seccomp_audit_call_names bin/seccomp_audit_policy_numbers
    libexec/seccomp_audit/ask_kernel libexec/seccomp_audit/showing.py
    share/bash-completion/completions/seccomp_audit share/doc/{doc}/GUIDE.md
    share/doc/{doc}/GETTING-FILTERS.md share/doc/{doc}/POLICIES.md share/doc/{doc}/REFERENCE.md
    share/doc/{doc}/ci/github.yml share/doc/{doc}/ci/gitlab.yml
    share/fish/vendor_completions.d/seccomp_audit.fish share/man/man1/seccomp_audit.1 share/zsh/vendor-completions/_seccomp_audit
"""
# The report's modules, and the schemas of what it reads.
MODULES = """
    __init__.py documents.py effects.py groups.py junit.py markdown.py marks.py markup.py naming.py page.css page.js
    page.py page_audit.py page_compare.py page_rows.py phrases.py picture.py rows.py sarif.py schema.py x32.py
"""
SCHEMAS = "audit check compare compare-rows eval list needed"
PLACES = [
    *PLACES.split(),
    *(f"libexec/seccomp_audit/reporting/{name}" for name in MODULES.split()),
    *(f"share/seccomp_audit/schema/{name}.schema.json" for name in SCHEMAS.split()),
]
# What is written where no C compiler makes the two helpers that are C.
WITHOUT_C = [place for place in PLACES if not place.endswith(("ask_kernel", "kernel_agrees", "read_filters"))]

# A document without rows.
DOCUMENT = json.dumps({
    "seccomp_audit": "list", "version": 2, "program": "seccomp_audit", "stack": {"filters": 1, "path": 1}, "calls": None,
    "files": [{"role": "filter", "path": "-", "length": 8, "sha256": "0" * 64}], "rows": [], "total": {"rows": 0},
}) + "\n"


def files_below(folder):
    """The files below a folder, without the policies."""
    found = [os.path.relpath(os.path.join(at, name), folder) for at, _, names in os.walk(folder) for name in names]
    return sorted(path for path in found if not path.startswith(installing.POLICIES))


def policies_below(folder):
    return sorted(name for at, _, names in os.walk(folder) for name in names)


def said(*words):
    return subprocess.run(words, stdin=subprocess.DEVNULL, capture_output=True, text=True)


def stand_in(room):
    """A program that says what `eval` says of the input that is tried."""
    path = os.path.join(room, "stand-in")
    write_script(path, "#!/bin/sh\necho ERRNO 1\n")
    return path


def try_install(room):
    """All is there, runs at its new place, and nothing is left where the listed paths are removed."""
    prefix = os.path.join(room, "prefix")
    written, left_out = installing.install(stand_in(room), prefix)
    places = [place.format(doc=PROGRAM) for place in PLACES]
    tell(files_below(prefix) == sorted(places) and not left_out, "install: the files", (files_below(prefix), left_out))
    both = policies_below(os.path.join(ROOT, "policies")), policies_below(os.path.join(prefix, installing.POLICIES))
    tell(both[0] == both[1], "install: the policies", both)
    for name in HELPERS + BY_HEADERS:
        tell(os.access(f"{prefix}/bin/{name}", os.X_OK), name, "can't be run")
    ran = said(f"{prefix}/bin/{HELPERS[2]}")
    tell(ran.returncode == 2 and "THREAD" in ran.stderr, HELPERS[2], ran)
    try_report(prefix)
    try_by_headers(prefix, room)
    for name in HELPERS[:2]:
        ran = said(f"{prefix}/bin/{name}", "--help")
        tell(ran.returncode == 0 and f"{prefix}/bin/{name} [" in ran.stdout and "helpers/filter" not in ran.stdout, name, ran)
    ran = subprocess.run([f"{prefix}/bin/{HELPERS[0]}", "--machine", "x86_64", PROFILE], capture_output=True)
    lacks = b"libseccomp.so.2: cannot open" in ran.stderr
    tell(lacks or ran.returncode == 0 and len(ran.stdout) > 8 and len(ran.stdout) % 8 == 0, HELPERS[0], ran)
    for what, is_well, got in profiles.cases(f"{prefix}/bin/{HELPERS[0]}", room):
        tell(is_well, f"{HELPERS[0]}: {what}", got)
    # No path leads to a compiler, or to another program: so `ask_kernel` and the program are those beside it.
    environment = {"PATH": os.path.dirname(sys.executable), "CC": "/nowhere"}
    words = [sys.executable, f"{prefix}/bin/{HELPERS[1]}", "--input", f"3b0000003e0000c0{0:0112x}", FILTER]
    ran = subprocess.run(words, env=environment, capture_output=True, text=True)
    refused = "can't be asked" in ran.stderr
    tell(refused or ran.stdout == "1 agree, 0 differ, 0 not tried\n", HELPERS[1], ran)
    for path in written:
        (shutil.rmtree if os.path.isdir(path) else os.remove)(path)
    tell(not [name for _, _, names in os.walk(prefix) for name in names], "install: removed again", files_below(prefix))
    left = [at for at, folders, _ in os.walk(prefix) if PROGRAM in os.path.basename(at)]
    tell(not left, "install: folders of its own are removed", left)


def try_report(prefix):
    """The report runs at its new place, over a document of its own, and leaves nothing there."""
    before, name = files_below(prefix), HELPERS[3]
    ran = said(f"{prefix}/bin/{name}", "--help")
    tell(ran.returncode == 0 and f"{prefix}/bin/{name} --html" in ran.stdout and "report/report" not in ran.stdout, name, ran)
    ran = subprocess.run([f"{prefix}/bin/{name}", "--html", "-"], input=DOCUMENT, capture_output=True, text=True)
    tell(ran.returncode == 0 and "All rows" in ran.stdout, f"{name} --html", ran)
    tell(files_below(prefix) == before, f"{name} leaves", files_below(prefix))


def try_by_headers(prefix, room):
    """The helpers that read headers run at their new place, over headers with one call, and leave nothing there."""
    before, own = files_below(prefix), os.path.join(room, "own")
    names, numbers = (f"{prefix}/bin/{name}" for name in BY_HEADERS)
    headers = os.path.join(room, "usr/include/x86_64-linux-gnu/asm")
    os.makedirs(headers)
    write(f"{headers}/unistd_64.h", "#define __NR_getpid 39\n")
    policy = os.path.join(room, "policy.toml")
    write(policy, '[[question]]\nname = "a"\narch = 0xC000003E\nnr = 39  # getpid\n[[question]]\nnr = 1  # \x9b2J\n')
    ran = said(numbers, "--root", room, policy)
    well = "\n1 checked, 0 not found, 1 wrong\n" in ran.stdout and "no expression: \\u009b2J" in ran.stdout
    tell(well, BY_HEADERS[1], ran)
    ran = said(numbers, "--root", room)
    well = f"{installing.POLICIES}/x86_64.toml" in ran.stdout and not ran.stderr
    tell(well, f"{BY_HEADERS[1]} on the ready policies", ran.stderr)
    ran = said(names, "--root", room, own)
    text = text_of(f"{own}.toml")
    tell(ran.returncode == 0 and text.endswith("[x86_64.calls]\ngetpid = 39\n"), BY_HEADERS[0], (ran, text))
    ran = said(names, "--root", room, "--check")
    tell(ran.returncode == 0 and ran.stdout.endswith("1 names compared, 0 wrong\n"), f"{BY_HEADERS[0]} --check", ran)
    ran = said(names, "--root", room)
    tell(ran.returncode == 2 and "FOLDER has to be given" in ran.stderr, f"{BY_HEADERS[0]} without a folder", ran)
    for path in (names, numbers):
        ran = said(path, "--help")
        well = ran.returncode == 0 and f"    {path} [" in ran.stdout and "helpers/call" not in ran.stdout
        tell(well, f"{path} --help", ran)
        ran = said(path, "--\x1b[31m")
        tell(ran.returncode == 2 and "\x1b" not in ran.stderr, f"{path}, and a word that doesn't fit", ran)
    tell(files_below(prefix) == before, "what reads headers leaves", files_below(prefix))


def try_replacing(room):
    """A program that runs is replaced, and a file is whole or as it was. The umask changes no rights."""
    prefix, sleep = os.path.join(room, "replaced"), shutil.which("sleep")
    installing.install(sleep, prefix)
    program = f"{prefix}/bin/{PROGRAM}"
    runs, before = subprocess.Popen([program, "1000"]), os.stat(program).st_ino
    try:
        installing.install(sleep, prefix)
        well = runs.poll() is None and os.stat(program).st_ino != before
    except OSError as why:
        well = why
    tell(well is True, "install: beside a program that runs", well)
    runs.kill()
    runs.wait()
    files, move = files_below(prefix), os.replace
    os.replace = lambda source, target: os.remove("/nowhere/at all")
    try:
        installing.install(stand_in(room), prefix)
        well = "it went well"
    except OSError:
        well = os.path.getsize(program) == os.path.getsize(sleep) and files_below(prefix) == files
    finally:
        os.replace = move
    tell(well is True, "install: a file that can't be put in its place", well)
    before = os.umask(0o077)
    installing.install(sleep, f"{prefix}/more/of it")
    os.umask(before)
    modes = {f"{at}/{name}": os.stat(f"{at}/{name}").st_mode & 0o777 for at, folders, names in os.walk(f"{prefix}/more")
             for name in folders + names}
    wrong = {path: oct(mode) for path, mode in modes.items()
             if mode != (0o755 if os.path.isdir(path) or "/bin/" in path or path.endswith("/ask_kernel") else 0o644)}
    tell(not wrong and os.stat(f"{prefix}/more").st_mode & 0o777 == 0o755, "install: rights under umask 077", wrong)
    try_links(room, sleep)


def try_links(room, program):
    """No link is followed: neither where a file goes, nor where a folder of its own does."""
    for place, kind in (("share/man/man1/seccomp_audit.1", "a file"), ("share/seccomp_audit", "a folder")):
        victim, prefix = os.path.join(room, f"victim of {kind}"), os.path.join(room, f"linked by {kind}")
        os.makedirs(victim) if kind == "a folder" else open(victim, "w").close()
        os.makedirs(os.path.dirname(f"{prefix}/{place}"))
        os.symlink(victim, f"{prefix}/{place}")
        got = refusal(installing.install, program, prefix)
        untouched = not os.listdir(victim) if kind == "a folder" else not os.path.getsize(victim)
        well = f"{prefix}/{place} is a link, to {victim}" in got and untouched and not os.path.exists(f"{prefix}/bin")
        tell(well, f"install: a link at the place of {kind}", got)


def try_empty(room):
    """An empty PREFIX is refused. That is tried on a copy that has no program, which could install nothing."""
    for folder in ("tools", "helpers"):
        shutil.copytree(os.path.join(ROOT, folder), os.path.join(room, "copy", folder))
    for words in ([""], ["--unproved", ""]):
        ran = said(os.path.join(room, "copy/tools/install"), *words)
        well = ran.returncode == 1 and ran.stderr.startswith("tools/install: PREFIX is empty")
        tell(well, f"tools/install {words}", ran)


def try_without_compiler(room):
    """Without a compiler the rest is there, and what isn't is named."""
    for compiler in ("/nowhere/cc", "false"):
        prefix = os.path.join(room, os.path.basename(compiler))
        os.environ["CC"] = compiler
        _, left_out = installing.install(stand_in(room), prefix)
        tell(left_out == [HELPERS[2], HELPERS[1]], f"CC={compiler}: what is left out", left_out)
        wanted = sorted(place.format(doc=PROGRAM) for place in WITHOUT_C)
        tell(files_below(prefix) == wanted, f"CC={compiler}: the files", files_below(prefix))
    del os.environ["CC"]


def try_release(room):
    """The package has all, `dpkg -r` leaves nothing, the same bytes come twice, and no compiler means no release."""
    release = loaded(f"{ROOT}/tools/release")
    release.built = lambda kind: "/bin/true"  # a program by which objdump finds a version of the C library
    date, texts = 1_000_000_000, {"NOTICES": "notices\n", "PROVED": "proved\n"}
    made = []
    for name in ("one", "two"):
        os.mkdir(os.path.join(room, name))
        release.make_package(os.path.join(room, name), "0", texts, date)
        with open(os.path.join(room, name, "seccomp-audit_0_amd64.deb"), "rb") as file:
            made.append((file.read(), release.make_archive(os.path.join(room, name), "archive", texts, date)))
    tell(made[0] == made[1], "release: the same bytes twice", "they differ")
    package, root = os.path.join(room, "one/seccomp-audit_0_amd64.deb"), os.path.join(room, "root")
    places = [f"usr/{place.format(doc='seccomp-audit')}" for place in PLACES]
    pages = [f"usr/share/doc/seccomp-audit/{name}" for name in (*release.PAGES, "copyright", "PROVED")]
    wanted = sorted([*(f"{place}.gz" if place.endswith(".1") else place for place in places), *pages])
    subprocess.run(["dpkg-deb", "-x", package, root], check=True)
    got = [path for path in files_below(root) if not path.startswith(f"usr/{installing.POLICIES}")]
    tell(got == wanted, "release: the files of the package", sorted(set(got) ^ set(wanted)))
    control = said("dpkg-deb", "-f", package, "Depends", "Recommends").stdout
    tell("Recommends: python3\n" in control and "python3" not in control.replace("Recommends: python3", ""), "release: control", control)
    try_removal(package, os.path.join(room, "system"))
    os.environ["CC"] = "/nowhere/cc"
    got = refusal(release.install_whole, os.path.join(room, "lacking"))
    tell("read_filters" in got, "release: without a compiler", got)
    del os.environ["CC"]


def try_claims(room):
    """Only a program that says that it is proved at the very commit is handed on."""
    release, commit = loaded(f"{ROOT}/tools/release"), "0123456789abcdef" * 2 + "01234567"
    release.is_current = lambda kind: True
    release.built = lambda kind: os.path.join(room, "claims")
    for kind, at, is_changed in (("proved", commit, False), ("proved", commit, True), ("proved", commit[::-1], False),
                                 ("proved", "", False), ("unproved", commit, False)):
        claim = mark.claim(kind, at, is_changed)
        write_script(release.built(kind), f"#!/bin/sh\necho '{PROGRAM} {mark.version_in_sources()} ({claim})'\n")
        got = refusal(release.proved_program, commit)
        is_due = kind == "proved" and at == commit and not is_changed
        tell(("isn't built of this commit" not in got) == is_due, f"release: {claim}", got)


def try_removal(package, system):
    """Installs the package in a folder that looks as a system does, and removes it."""
    os.makedirs(f"{system}/var/lib/dpkg/updates")
    os.makedirs(f"{system}/var/lib/dpkg/info")
    for name in ("status", "available"):
        open(f"{system}/var/lib/dpkg/{name}", "w").close()
    dpkg = ["dpkg", f"--root={system}", "--force-not-root", "--force-depends", "--log=/dev/null"]
    ran = said(*dpkg, "-i", package)
    tell(ran.returncode == 0 and os.path.exists(f"{system}/usr/bin/{HELPERS[2]}"), "release: dpkg -i", ran)
    ran = said(*dpkg, "-r", "seccomp-audit")
    left = [path for path in files_below(system) if not path.startswith("var/")]
    tell(ran.returncode == 0 and not left and not os.path.exists(f"{system}/usr"), "release: dpkg -r leaves", left or ran)


def main():
    with tempfile.TemporaryDirectory(prefix="install-") as room:
        try_without_compiler(room)
        try_empty(room)
        try_replacing(room)
        try_claims(room)
        if COMPILER:
            try_install(room)
        else:
            print("left out: what a C compiler makes")
        if COMPILER and all(map(shutil.which, ("dpkg", "dpkg-deb", "objdump"))):
            try_release(room)
        else:
            print("left out: the package, which takes a C compiler, dpkg and objdump")
    return finish()
