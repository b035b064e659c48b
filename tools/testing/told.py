"""What tests share: the program that they try, and the counts of what passes and what doesn't."""
import os
import subprocess
import sys

from building.kit import PROGRAM, ROOT, Refused

BUILT = os.path.join(ROOT, "crates", PROGRAM, "out", PROGRAM)

passed = failed = 0


def given_program():
    """The program that the command line names, or the built one."""
    return os.path.abspath(sys.argv[1] if sys.argv[1:] else BUILT)


def ran(*words, **how):
    """The status of a command, and what it writes to standard output and to standard error."""
    it = subprocess.run(words, stdin=subprocess.DEVNULL, capture_output=True, text=True, **how)
    return it.returncode, it.stdout, it.stderr


def tell(is_well, what, *got, is_shown=False):
    """Counts a case, and says what came where it isn't well, or is to be shown."""
    global passed, failed
    passed, failed = passed + bool(is_well), failed + (not is_well)
    if is_shown or not is_well:
        print(what, *got, sep=": ")


def finish():
    """Prints the counts. Gives the status of the test."""
    print(f"{passed} passed, {failed} failed")
    return 1 if failed or not passed else 0


def refusal(call, *words):
    """Why a call is refused; "" where it isn't."""
    try:
        call(*words)
    except Refused as why:
        return str(why)
    return ""
