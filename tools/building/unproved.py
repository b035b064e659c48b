"""Builds programs and tests without proofs, optimised.

`rt try` makes a whole program for the kit's compiler, and then has it compiled without optimisation and with a sanitizer, runs
it, and keeps nothing. So here it gets a copy of the kit whose compiler keeps what it is to compile. That is then compiled as
a program is that is to be used.
"""
import contextlib
import os
import shutil
import signal
import subprocess

from building.kit import Refused, text_of, write_script

# The commands that run.
RUNNING = set()

# What stands in the place of the kit's compiler.
KEEPS = """#!/bin/sh
case " $* " in
*" -fsanitize=address "*) cp module.bc '{room}/module.bc' && printf '%s\\n' "$@" > '{room}/words'; exit 1 ;;
esac
exec '{compiler}' "$@"
"""

# What stands in the place of the prover, which `rt try` asks beside for hints: that would take as long again.
PROVES_NOTHING = "#!/bin/sh\nexit 1\n"

# What the copy has of its own in each folder of the kit.
APART = {"": ("bin", "toolchain"), "bin/": ("rt", "rtlib.py", "rattle"), "toolchain/": ("bin",), "toolchain/bin/": ("clang",)}


def kit_that_keeps(kit, room):
    """A copy of the kit, of links, whose compiler keeps what it is to compile."""
    copied = os.path.join(room, "kit")
    for folder in ("", "/bin", "/toolchain", "/toolchain/bin"):
        os.mkdir(copied + folder)
    # What is no link: files that look for the kit around them, the compiler, and the prover.
    for folder, apart in APART.items():
        for name in set(os.listdir(f"{kit}/{folder}")) - {*apart}:
            os.symlink(os.path.realpath(f"{kit}/{folder}{name}"), f"{copied}/{folder}{name}")
    for name in ("rt", "rtlib.py"):
        shutil.copy(f"{kit}/bin/{name}", f"{copied}/bin/{name}")
    write_script(f"{copied}/toolchain/bin/clang", KEEPS.format(room=room, compiler=f"{kit}/toolchain/bin/clang"))
    write_script(f"{copied}/bin/rattle", PROVES_NOTHING)
    return copied


def said_by(words, **how):
    """The status of a command, and what it says. Where a signal stops this program, `stop` ends the command too."""
    how = {"stdin": subprocess.DEVNULL, "stdout": subprocess.PIPE, "stderr": subprocess.STDOUT, **how}
    with subprocess.Popen(words, text=True, errors="replace", **how) as command:
        RUNNING.add(command)
        said = command.communicate()[0]
        RUNNING.discard(command)
    return command.returncode, said


def stop():
    """Ends the commands that run. Called by a handler of a signal, so it takes no lock of `subprocess`."""
    for command in [*RUNNING]:
        os.kill(command.pid, signal.SIGTERM)
        with contextlib.suppress(ChildProcessError):
            os.waitpid(command.pid, 0)


def run(words, what, **how):
    """Runs a command. Refused with what it said first where it fails."""
    status, said = said_by(words, **how)
    if status:
        told = [line for line in said.splitlines() if line.strip()]
        raise Refused(f"{what} failed: {told[0] if told else f'status {status}'}")


def link(kit, made, program):
    """Links a program as `rt` does."""
    words = [f"{kit}/bin/rattle-link", "--target", "x86_64-unknown-linux-gnu", "--toolchain", f"{kit}/toolchain"]
    run([*words, "-o", program, made, f"{kit}/c/libos_c.a", f"{kit}/c/liblibc_c.a"], "to link the program")


def make(kit, crate, room, tests=False):
    """Makes the program in a crate's folder, or its tests, without proofs: a file in the folder `room`, which is empty."""
    words = [f"{kit_that_keeps(kit, room)}/bin/rt", "try", *["--test"] * tests]
    _, said = said_by(words, cwd=crate, env={**os.environ, "TMPDIR": room})
    if not os.path.isfile(f"{room}/words"):
        raise Refused(f"`rt try` made no program of {os.path.basename(crate)}:\n{said}")
    words = [{"-O0": "-O1"}.get(word, word) for word in text_of(f"{room}/words").splitlines() if word != "-fsanitize=address"]
    run([f"{kit}/toolchain/bin/clang", *words], "to compile the program", cwd=room)
    program = f"{room}/{os.path.basename(crate)}"
    link(kit, f"{room}/module.o", program)
    return program
