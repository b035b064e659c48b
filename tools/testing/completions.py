"""Tries the completions in real shells: types the beginning of a line and a tab, and looks what the line becomes.

    tools/test completions [bash|zsh|fish ..]

Tries each shell that is on the path, or those that are named.
"""
import os
import pty
import re
import select
import shutil
import subprocess
import sys
import tempfile
import time

from building.kit import ROOT
from testing.told import finish, tell

FOLDER = os.path.join(ROOT, "docs/completions")
INSTALLED = "share/seccomp_audit/policies"
END = "all-was-typed"

# What is typed behind the program's name and, behind the bar, what a tab adds to it.
ADDED = """
    au|dit ; com|pare ; nee|ded ; pro|file ; hel|p ; help lis|t ; --ver|sion
    audit --po|licy ; audit --con|trol ; audit --acc|ept ; audit --prog|ress ; compare --ol|d ; eval --inp|ut
    list --dig|est ; needed --nod|es ; profile --conf|licts ; profile --sk|ip-unknown ; check --rows|
    audit --policy pol|icy.toml ; audit --policy policy.toml fil|ter.bpf ; audit --policy filter.bpf --policy pol|icy.toml
    audit --control pol|icy.toml ; audit --accept na|mes ; needed fil|ter.bpf ; compare --old filter.bpf --new fil|ter.bpf
    audit --budget pol| ; compare --nodes pol| ; compare --only ti|ghter ; eval --arch aa|rch64
    profile --machine aa|rch64 ; profile --conflicts mi|ldest ; eval --call getpi|d ; list --calls io_uring_s|etup
    list --calls getpid,io_uring_s|etup ; list --calls --dig|est ; audit --names @|names ; audit --groups @g|roups
    audit --policy @x86|_64 ; audit --policy @x86_64 --control @control-x8|6_64 ; audit --policy control-x8|
    audit --policy @control-x8|
"""
CASES = [(text, text + more) for text, more in (case.strip().split("|") for case in ADDED.strip().replace("\n", ";").split(";"))]
CASES += [("audit --policy x86", "audit --policy @x86_64"), ("audit --control control-x8", "audit --control @control-x86_64")]
CASES = [(f"seccomp_audit {text}", f"seccomp_audit {line}") for text, line in CASES]

# How each shell is started, and which commands it gets first.
SHELLS = {
    "bash": (["bash", "--norc", "--noprofile", "-i"], "bind 'set bell-style none'; PS1=; . '{folder}/seccomp_audit.bash'"),
    "zsh": (["zsh", "-f", "-i"], "bindkey -e; unsetopt beep; PS1=; autoload -Uz compinit; compinit -D -u; . '{folder}/_seccomp_audit'"),
}


def said_until(terminal, word, seconds=20):
    """What a shell says up to a word."""
    said, end = b"", time.monotonic() + seconds
    while word.encode() not in said and time.monotonic() < end:
        if select.select([terminal], [], [], 0.1)[0]:
            said += os.read(terminal, 4096)
    return said.decode(errors="replace")


def typed(shell, room, environment):
    """The lines that come of the cases in a shell at a terminal."""
    words, first = SHELLS[shell]
    child, terminal = pty.fork()
    if child == 0:
        os.chdir(room)
        os.execvpe(words[0], words, environment)
    os.write(terminal, f"{first.format(folder=FOLDER)}; printf '%s-%s\\n' {END[:7]} {END[8:]}\n".encode())
    said_until(terminal, END)
    came = []
    for text, _ in CASES:
        os.write(terminal, f"{text}\t".encode())
        time.sleep(0.3)
        # To the line's beginning, so that the completed words are what is printed, each within angles.
        os.write(terminal, f"\x01printf '{{%s}}' \x05; echo; printf '%s-%s\\n' {END[:7]} {END[8:]}\n".encode())
        found = re.findall(r"(?m)^((?:\{[^{}\n%]+\})+)\r?$", said_until(terminal, f"{END}\r\n").replace("\r\n", "\n"))
        came.append(" ".join(re.findall(r"\{([^{}]+)\}", found[-1])) if found else "")
    os.write(terminal, b"exit\n")
    os.close(terminal)
    os.waitpid(child, 0)
    return came


def completed_by_fish(room, environment):
    """The lines that fish makes of the cases: it prints the words that may come in place of the last one."""
    came = []
    for text, _ in CASES:
        script = f"source '{FOLDER}/seccomp_audit.fish'; complete -C '{text}'"
        words = ["fish", "--no-config", "-c", script]
        told = subprocess.run(words, cwd=room, capture_output=True, text=True, env=environment).stdout
        words = [line.split("\t")[0] for line in told.splitlines()]
        front, _, last = text.rpartition(" ")
        came.append(f"{front} {words[0]}" if len(words) == 1 else f"{front} {last}")
    return came


def main():
    shells = sys.argv[1:] or [name for name in ("bash", "zsh", "fish") if shutil.which(name)]
    for shell in shells:
        with tempfile.TemporaryDirectory() as room, tempfile.TemporaryDirectory() as installed:
            for name in ("policy.toml", "filter.bpf", "names"):
                open(os.path.join(room, name), "w").close()
            shutil.copytree(os.path.join(ROOT, "policies"), os.path.join(installed, INSTALLED))
            os.mkdir(os.path.join(installed, "bin"))
            os.symlink("/bin/true", os.path.join(installed, "bin/seccomp_audit"))
            # The program is on the path, and its policies are installed beside it.
            folders = {"HOME": room, "ZDOTDIR": room, "PATH": f"{installed}/bin:{os.environ['PATH']}"}
            environment = {**os.environ, "TERM": "dumb", **folders}
            came = completed_by_fish(room, environment) if shell == "fish" else typed(shell, room, environment)
        for (text, wanted), line in zip(CASES, came):
            tell(line == wanted, shell, f"`{text}` and a tab become `{line}`, and not `{wanted}`")
    print(f"tried in {', '.join(shells)}")
    return finish()
