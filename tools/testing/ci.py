"""Runs the jobs in examples/ci, as a build does, on profiles that are fine, looser, tighter and missing.

    tools/test ci [PROGRAM]

A step of github.yml runs where none failed before it, or where it says `always()`; the lines below `script:` in gitlab.yml
run in one shell up to the first that fails, and those below `after_script:` in another one. The step that installs the
package is left out, and a stand-in takes the place of filter_of_profile, which takes libseccomp.
"""
import json
import os
import re
import shutil
import subprocess
import tempfile
from collections import namedtuple

from building.kit import ROOT, text_of, write, write_script
from testing.told import finish, given_program, tell

INSTALLS = "apt-get"
END = "--- the next one ---"

# What the profile allowed when the baseline was kept, and what the team accepts of it.
KNOWN = ["read", "write", "exit", "exit_group", "futex", "clone3"]
ACCEPTED = "# what the service needs\nclone3 # the C library starts threads by it\n"

# Makes a filter of a profile: of what a case says that libseccomp makes of it, if it does.
STAND_IN = """#!/bin/sh
for profile; do :; done
test -e "$profile" || exit 1
if test -e .made.json; then profile=.made.json; fi
seccomp_audit profile --machine x86_64 "$profile"
"""

# A case: the calls that the profile allows now (None: there is none), those that the filter made of it does (None: the
# same), a file that is missing; and of the audit, the change and the meaning each the status, a line that is due, and
# the beginning of lines that there may not be.
Case = namedtuple("Case", "name calls made missing audit change meaning")
FINE = (0, None, "unexpected"), (0, "total changed 0", "looser found"), (0, "total changed 0", "looser found")
UNREAD = (5, "error 50 Read", "total")
CASES = [
    Case("the same", KNOWN, None, None, *FINE),
    Case("looser, by a call that is asked about", [*KNOWN, "ptrace"], None, None, (1, "unexpected ptrace", "unexpected clone3"),
         (1, "x86_64 ptrace ERRNO 1 -> ALLOW 0", "looser never"), FINE[2]),
    Case("looser, by a call that nothing asks about", [*KNOWN, "getpid"], None, None, FINE[0],
         (1, "x86_64 getpid ERRNO 1 -> ALLOW 0", "looser never"), FINE[2]),
    Case("what is made lets more through than the profile", KNOWN, [*KNOWN, "getpid"], None, FINE[0],
         (1, "x86_64 getpid ERRNO 1 -> ALLOW 0", "looser never"), (1, "x86_64 getpid ERRNO 1 -> ALLOW 0", "looser never")),
    Case("tighter", KNOWN[:5], None, None, (0, "accepted clone3 never", "unexpected"),
         (0, "x86_64 clone3 ALLOW 0 -> ERRNO 1", "tighter never"), FINE[2]),
    Case("too tight", KNOWN[1:], None, None, (2, "control read never", "unexpected"),
         (0, "x86_64 read ALLOW 0 -> ERRNO 1", "looser found"), FINE[2]),
    Case("nothing allowed", [], None, None, (2, "control exit-group never", "unexpected"),
         (0, "x86_64 read ALLOW 0 -> ERRNO 1", "looser found"), FINE[2]),
    Case("no filters", None, None, None, UNREAD, UNREAD, (5, "error 50 Read", "looser")),
    Case("no list of what is accepted", KNOWN, None, "ci/accepted", UNREAD, *FINE[1:]),
    Case("no baseline", KNOWN, None, "ci/baseline", FINE[0], UNREAD, FINE[2]),
]


def variables_of(text):
    """The variables that a job sets."""
    return dict(re.findall(r"(?m)^ +(asked): (.*)$", text))


def github_steps(text):
    """The commands of each step, and whether it runs where one before it failed."""
    steps = []
    for part in re.split(r"(?m)^      - ", text)[1:]:
        found = re.search(r"(?m)^ *run: (?:\|\n((?: {10}.*\n?)+)|(.*))", part)
        if found and INSTALLS not in found[0]:
            steps.append((re.sub(r"(?m)^ {10}", "", found[1] or found[2]), "if: always()" in part))
    return steps


def gitlab_lines(text, section):
    """The lines of a section."""
    found = re.search(rf"(?m)^  {section}:\n((?:    - .*\n)+)", text)
    return re.findall(r"(?m)^    - (.*)$", found[1])


def write_profile(path, calls):
    profile = {"defaultAction": "SCMP_ACT_ERRNO", "syscalls": [{"names": calls, "action": "SCMP_ACT_ALLOW"}] if calls else []}
    write(path, json.dumps(profile))


def make_filter(program, room, calls, target):
    """The filter of a profile, as a build would make it."""
    profile = os.path.join(room, ".of.json")
    write_profile(profile, calls)
    os.makedirs(os.path.dirname(target), exist_ok=True)
    with open(target, "wb") as file:
        words = [program, "profile", "--machine", "x86_64", "--names", f"{ROOT}/policies/names.toml", profile]
        subprocess.run(words, stdout=file, check=True)


def make_room(program, room, case):
    """What the repository of a team has: its baseline, what it accepts, and the profile or the filters of a build."""
    make_filter(program, room, KNOWN, f"{room}/ci/baseline.bpf")
    make_filter(program, room, KNOWN, f"{room}/ci/baseline/01.bpf")
    write(f"{room}/ci/accepted", ACCEPTED)
    if case.calls is not None:
        made = case.calls if case.made is None else case.made
        write_profile(f"{room}/seccomp.json", case.calls)
        write_profile(f"{room}/.made.json", made)
        make_filter(program, room, made, f"{room}/filters/01.bpf")
    if case.missing == "ci/baseline":
        shutil.rmtree(f"{room}/ci/baseline")
        os.remove(f"{room}/ci/baseline.bpf")
    elif case.missing:
        os.remove(f"{room}/{case.missing}")
    os.mkdir(f"{room}/.tools")
    os.symlink(program, f"{room}/.tools/seccomp_audit")
    os.symlink(f"{ROOT}/report/report", f"{room}/.tools/seccomp_audit_report")
    write_script(f"{room}/.tools/seccomp_audit_filter_of_profile", STAND_IN)


def run(room, script, variables):
    """The status of a script, and what it says."""
    summary = {"GITHUB_STEP_SUMMARY": f"{room}/summary.md"}
    shared = {"SECCOMP_AUDIT_SHARE": ROOT}  # in the place of the package's
    environment = {**os.environ, **variables, **summary, **shared, "PATH": f"{room}/.tools:{os.environ['PATH']}"}
    words = ["bash", "-eo", "pipefail", "-c", script]
    ran = subprocess.run(words, cwd=room, env=environment, stdin=subprocess.DEVNULL, capture_output=True, text=True)
    return ran.returncode, ran.stdout + ran.stderr


def run_github(room, text):
    """Whether the job failed, and of its three steps the status and what each says; None for one that didn't run."""
    failed, ran = False, []
    for script, is_always in github_steps(text):
        ran.append(run(room, script, variables_of(text)) if is_always or not failed else (None, ""))
        failed = failed or bool(ran[-1][0])
    return failed, ran[1:4]


def run_gitlab(room, text):
    """The same of a job whose commands run in one shell: a command that fails says its status."""
    lines = gitlab_lines(text, "script")
    told = [re.sub(r"failed=\$\?$", "{ failed=$?; echo status $failed; }", line) for line in lines]
    status, said = run(room, f"\necho '{END}'\n".join(["exec 2>&1", *told]), variables_of(text))
    ran = []
    for line, part in zip(lines, said.split(f"{END}\n")[1:]):
        if re.match(r"seccomp_audit (audit|compare) ", line):
            found = re.search(r"(?m)^status (\d)$", part)
            ran.append((int(found[1]) if found else 0, part))
    run(room, "\n".join(gitlab_lines(text, "after_script")), variables_of(text))
    return status, ran


def wrong_of(case, failed, ran):
    """What is wrong with a job that ran."""
    due = (case.audit, case.change, case.meaning)
    if [status for status, _ in ran] != [status for status, _, _ in due]:
        yield f"the statuses {[status for status, _ in ran]}"
    if bool(failed) != any(status for status, _, _ in due):
        yield f"the job ends with {failed}"
    for (_, line, never), (_, said) in zip(due, ran):
        lines = said.splitlines()
        if line and line not in lines:
            yield f"no line {line!r} in {said[-300:]!r}"
        if any(it.startswith(never) for it in lines):
            yield f"a line that begins with {never!r}"


def wrong_summary(case, room):
    """What is wrong with the summary: it has each part that there is."""
    path = f"{room}/summary.md"
    text = text_of(path) if os.path.exists(path) else ""
    for title, (due, _, _) in (("Questions about", case.audit), ("What changes from", case.change)):
        if case.calls is not None and due < 3 and title not in text:
            yield f"the summary lacks {title!r}: {text[:300]!r}"


def main():
    for name, runs in (("github.yml", run_github), ("gitlab.yml", run_gitlab)):
        text = text_of(f"examples/ci/{name}")
        for case in CASES:
            with tempfile.TemporaryDirectory(prefix="ci-") as room:
                make_room(given_program(), room, case)
                wrong = [*wrong_of(case, *runs(room, text)), *wrong_summary(case, room)]
            tell(not wrong, f"{name}: {case.name}", f"\n{name}: {case.name}: ".join(wrong))
    return finish()
