"""Tries helpers/read_filters.c: how it groups threads, and, where that can be, what it reads of a real process.

    tools/test read_filters

It takes a C compiler. A process is read only by root with CAP_SYS_ADMIN, where no filter is in force; elsewhere these
cases are left out, and a line says so.
"""
import ctypes
import functools
import os
import signal
import subprocess
import sys
import tempfile
import time

from building.kit import ROOT, text_of, write
from testing.told import finish, tell

SOURCE, ONE_THREAD, WAITING = (
    os.path.join(ROOT, name) for name in ("helpers/read_filters.c", "helpers/read_thread.c", "tools/testing/waiting.c"))
FILTERS = [os.path.join(ROOT, "examples", path) for path in ("p1.bpf", "snap-default/02.bpf")]

# Groups threads 10 to 15, of which 11, 12 and 15 have one filter, 13 the same twice, and 14 one of the same length.
GROUPS = r"""
#define main read_main
#include "read_filters.c"
#undef main

static struct sock_filter allow[] = {{6, 0, 0, 0x7fff0000}}, deny[] = {{6, 0, 0, 0x50001}};

static struct stack stack_of(long count, const struct sock_filter *code)
{
    struct stack stack = {count, count, count ? calloc(count, sizeof *stack.filters) : NULL};
    for (long at = 0; at < count; at++) {
        stack.filters[at] = (struct sock_fprog){1, malloc(sizeof *code)};
        memcpy(stack.filters[at].filter, code, sizeof *code);
    }
    return stack;
}

int main(int count, char **words)
{
    struct group *groups = NULL;
    long groups_count = 0, counts[] = {0, 1, 1, 2, 1, 1};
    for (int at = 0; at < 6; at++)
        groups = add_to_groups(groups, &groups_count, 10 + at, stack_of(counts[at], at == 4 ? deny : allow));
    for (long at = 0; at < groups_count; at++)
        write_group(count > 1 ? words[1] : "", &groups[at]);
    return 0;
}
"""
GROUPED = """thread-10: 0 filters, of threads 10
thread-11: 1 filters, of threads 11 12 15
thread-13: 2 filters, of threads 13
thread-14: 1 filters, of threads 14
"""

# A process whose threads install the filters that are named to each, and then wait. It prints its threads' numbers.
THREADS = r"""
import ctypes, sys, threading, time
libc = ctypes.CDLL(None, use_errno=True)
class Program(ctypes.Structure):
    _fields_ = [("length", ctypes.c_ushort), ("code", ctypes.c_char_p)]
tried = threading.Semaphore(0)
def install(paths):
    for path in paths:
        code = open(path, "rb").read()
        if libc.syscall(317, 1, 0, ctypes.byref(Program(len(code) // 8, code))):
            print("refused", flush=True)
    numbers.append(threading.get_native_id())
    tried.release()
    time.sleep(1000)
numbers = [threading.get_native_id()]
for paths in sys.argv[2:]:
    threading.Thread(target=install, args=[paths.split()], daemon=True).start()
    tried.acquire()
print(*numbers, flush=True)
if sys.argv[1] == "ends":
    libc.syscall(60, 0)
time.sleep(1000)
"""

# The most seconds that a case takes, where all goes wrong.
MOST = 60
CAP_SYS_ADMIN, DROP_FROM_BOUNDS = 21, 24


def said(*words, **how):
    """How a command ends, or None where it doesn't end in time."""
    try:
        return subprocess.run(words, stdin=subprocess.DEVNULL, capture_output=True, text=True, timeout=MOST, **how)
    except subprocess.TimeoutExpired as ran:
        return subprocess.CompletedProcess(words, None, ran.stdout or "", ran.stderr or "")


def compiled(room, name, *sources):
    path = os.path.join(room, name)
    words = [os.environ.get("CC") or "cc", "-Wall", "-Wextra", "-Werror", "-O2", "-pthread", "-o", path, *sources]
    subprocess.run([*words, "-I", os.path.dirname(SOURCE)], check=True)
    return path


def bytes_below(folder):
    """The files below a folder, by their paths from there, with what is in them."""
    found = [os.path.join(at, name) for at, _, names in os.walk(folder) for name in names]
    return {os.path.relpath(path, folder): open(path, "rb").read() for path in found}


def try_groups(room):
    write(os.path.join(room, "groups.c"), GROUPS)
    groups = compiled(room, "groups", os.path.join(room, "groups.c"), ONE_THREAD)
    here = os.path.join(room, "grouped")
    os.mkdir(here)
    ran = said(groups, cwd=here)
    tell(ran.returncode == 0 and ran.stdout == GROUPED, "the groups", ran)
    allow, deny = bytes.fromhex("060000000000ff7f"), bytes.fromhex("0600000001000500")
    wanted = {"thread-11/01.bpf": allow, "thread-13/01.bpf": allow, "thread-13/02.bpf": allow, "thread-14/01.bpf": deny}
    tell(bytes_below(here) == wanted and os.path.isdir(f"{here}/thread-10"), "the files of the groups", bytes_below(here))
    ran = said(groups, cwd=here)
    tell(ran.returncode == 1 and "thread-10: File exists" in ran.stderr, "a folder that is there", ran)
    os.mkdir(f"{here}/other")
    tell(said(groups, "other/", cwd=here).stdout == GROUPED.replace("thread-", "other/thread-"), "a prefix", os.listdir(here))


def started(first, *paths):
    """A process with a thread for each of the paths, which are filters, and the numbers of its threads."""
    child = subprocess.Popen([sys.executable, "-c", THREADS, first, *paths], stdout=subprocess.PIPE, text=True)
    return child, child.stdout.readline().split()


def end(child):
    child.kill()
    child.wait()


def status_of(thread):
    """A thread's state, as a letter, and who traces it."""
    lines = dict(line.split(":\t", 1) for line in text_of(f"/proc/{thread}/status").splitlines())
    return lines["State"][0], lines["TracerPid"]


def is_free(thread):
    """Whether a thread is neither stopped nor traced."""
    state, tracer = status_of(thread)
    return state in "RS" and tracer == "0"


def comes(condition):
    """Whether something comes true in time."""
    end = time.monotonic() + MOST
    while not condition():
        if time.monotonic() > end:
            return False
        time.sleep(0.001)
    return True


def is_in(thread, call):
    """Whether a thread waits in a call."""
    return text_of(f"/proc/{thread}/syscall").split()[0] == call


def waiting(program, *kinds):
    """A process whose threads wait so, and the number of the thread of each kind; of a traced one also by whom."""
    child = subprocess.Popen([program, *kinds], stdout=subprocess.PIPE, text=True)
    threads = {}
    for _ in kinds:
        kind, thread, call = child.stdout.readline().split()
        threads[kind] = thread
        if kind == "traced":
            threads["tracer"] = call
        elif kind != "starts":
            comes(functools.partial(is_in, thread, call))
    return child, threads


def try_process(reader, room):
    """Threads with no filter, with one, with the same one, and with two."""
    child, numbers = started("waits", FILTERS[0], FILTERS[0], " ".join(FILTERS))
    here = os.path.join(room, "process")
    os.mkdir(here)
    try:
        ran = said(reader, "--all-threads", str(child.pid), cwd=here)
        none, one, same, two = numbers
        wanted = (
            f"thread-{none}: 0 filters, of threads {none}\nthread-{one}: 1 filters, of threads {one} {same}\n"
            f"thread-{two}: 2 filters, of threads {two}\n"
        )
        tell(ran.returncode == 0 and ran.stdout == wanted, "the threads of a process", (ran, wanted))
        first, second = (open(path, "rb").read() for path in FILTERS)
        files = {f"thread-{one}/01.bpf": first, f"thread-{two}/01.bpf": first, f"thread-{two}/02.bpf": second}
        tell(bytes_below(here) == files, "the filters of the threads", bytes_below(here).keys())
        tell(all(map(is_free, numbers)), "the threads go on", numbers)
        ran = said(reader, "--all-threads", two, "from-a-thread-", cwd=here)
        tell(ran.stdout == wanted.replace("thread-", "from-a-thread-thread-"), "from one of its threads", ran)
        ran = said(reader, str(child.pid), cwd=here)
        tell(ran.returncode == 0 and ran.stdout == "0 filters\n", "its first thread alone", ran)
        ran = said(reader, two, "two-", cwd=here)
        alone = {name: data for name, data in bytes_below(here).items() if name.startswith("two-")}
        tell(ran.stdout == "2 filters\n" and alone == {"two-01.bpf": first, "two-02.bpf": second}, "another thread alone", ran)
        ran = said(reader, two, "two-", cwd=here)
        tell(ran.returncode == 1 and "two-01.bpf: File exists" in ran.stderr, "a file that is there", ran)
    finally:
        end(child)


def try_unread(reader, waits, room):
    """A thread that doesn't stop, and one that is traced: both are named. The others are read, and run meanwhile."""
    child, threads = waiting(waits, "pause", "vfork", "traced", "recv")
    first, held, tracer = str(child.pid), threads["vfork"], threads.pop("tracer")
    reading = subprocess.Popen([reader, "--all-threads", first, f"{room}/unread-"], stdout=-1, stderr=-1, text=True)
    try:
        begun = comes(lambda: status_of(held)[1] != "0")
        others = [first, threads["pause"], threads["recv"]]
        tell(begun and all(map(is_free, others)), "one thread at a time", list(map(status_of, others)))
        out, err = reading.communicate(timeout=MOST)
        whys = {f"thread {held}: did not stop within 2 s", f"thread {threads['traced']}: is traced by {tracer}"}
        well = reading.returncode == 1 and set(err.splitlines()) == whys
        tell(well, "threads that can't be read", (reading.returncode, err))
        read = f"{room}/unread-thread-{first}: 0 filters, of threads {' '.join(sorted(others, key=int))}\n"
        tell(out == read, "the others are read", out)
        well = status_of(held) == ("D", "0") and all(map(is_free, others))
        tell(well, "each is let go", list(map(status_of, threads.values())))
        ran = said(reader, threads["traced"], f"{room}/alone-")
        tell(ran.returncode == 1 and ran.stderr == f"thread {threads['traced']}: is traced by {tracer}\n", "alone", ran)
        reading = subprocess.Popen([reader, held, f"{room}/killed-"], stdout=-1, stderr=-1)
        begun = comes(lambda: status_of(held)[1] != "0")
        reading.kill()
        reading.communicate()
        well = begun and comes(lambda: status_of(held) == ("D", "0"))
        tell(well, "let go where the reader is ended", status_of(held))
    finally:
        reading.kill()
        end(child)
    ran = said(reader, first, f"{room}/gone-")
    well = ran.returncode == 1 and ran.stderr == f"thread {first}: there is no such thread\n"
    tell(well, "a thread that isn't there", ran)


def try_calls(reader, waits, room):
    """The calls that return early are those of which the page tells, and others go on."""
    child, threads = waiting(waits, "epoll_wait", "recv_timeout", "recv", "poll", "pause")
    try:
        ran = said(reader, "--all-threads", str(child.pid), f"{room}/calls-")
        returned = {child.stdout.readline(), child.stdout.readline()} if ran.returncode == 0 else {}
        early = {"epoll_wait -1 EINTR\n", "recv_timeout -1 EINTR\n"}
        tell(returned == early, "calls that return early", (returned, ran))
        tell(all(map(is_free, threads.values())), "all threads wait again", threads)
    finally:
        child.kill()
    left = child.stdout.read()
    tell(left == "", "other calls go on", left)
    child.wait()


def try_states(reader, waits, room):
    """A process that is stopped stays so. One that goes on starting threads is read, in a time that has an end."""
    child, _ = waiting(waits, "pause")
    child.send_signal(signal.SIGSTOP)
    comes(lambda: status_of(child.pid)[0] == "T")
    ran = said(reader, "--all-threads", str(child.pid), f"{room}/stopped-")
    well = ran.returncode == 0 and comes(lambda: status_of(child.pid) == ("T", "0"))
    tell(well, "a process that is stopped", (ran, status_of(child.pid)))
    end(child)
    child, _ = waiting(waits, "starts")
    ran = said(reader, "--all-threads", str(child.pid), f"{room}/starts-")
    late = [line for line in ran.stderr.splitlines() if line.startswith("thread ") and "started too late" in line]
    well = ran.returncode == (1 if late else 0) and len(late) == ran.stderr.count("\n")
    tell(well and f"starts-thread-{child.pid}: 0 filters" in ran.stdout, "a process that starts threads", ran)
    end(child)


def drop_admin():
    ctypes.CDLL(None).prctl(DROP_FROM_BOUNDS, CAP_SYS_ADMIN, 0, 0, 0)


def try_rights(reader, room):
    """Without CAP_SYS_ADMIN a thread that has a filter can't be read, and one that has none can."""
    child, numbers = started("waits", FILTERS[0])
    ran = said(reader, "--all-threads", str(child.pid), f"{room}/rights-", preexec_fn=drop_admin)
    read = f"{room}/rights-thread-{numbers[0]}: 0 filters, of threads {numbers[0]}\n"
    well = ran.returncode == 1 and ran.stdout == read and ran.stderr == f"thread {numbers[1]}: needs CAP_SYS_ADMIN\n"
    tell(well, "without CAP_SYS_ADMIN", ran)
    end(child)


def try_ended(reader, room):
    """A process whose first thread has ended, and one that has ended as a whole."""
    child, numbers = started("ends", FILTERS[0])
    here = os.path.join(room, "ended")
    os.mkdir(here)
    try:
        comes(lambda: status_of(child.pid)[0] == "Z")
        ran = said(reader, "--all-threads", str(child.pid), cwd=here)
        wanted = f"thread-{numbers[1]}: 1 filters, of threads {numbers[1]}\n"
        tell(ran.returncode == 0 and ran.stdout == wanted, "a process without its first thread", ran)
    finally:
        child.kill()
    # It isn't waited for, so that it is there still.
    comes(lambda: status_of(child.pid)[0] == "Z" and len(os.listdir(f"/proc/{child.pid}/task")) == 1)
    ran = said(reader, "--all-threads", str(child.pid), cwd=here)
    tell(ran.returncode == 1 and ran.stdout == "" and ran.stderr == "no thread runs\n", "a process that has ended", ran)
    child.wait()
    ran = said(reader, "--all-threads", str(child.pid), cwd=here)
    tell(ran.returncode == 1 and "No such file" in ran.stderr, "a process that isn't there", ran)


def can_read(reader, room):
    """Whether a process can be read here."""
    child, _ = started("waits", FILTERS[0])
    ran = said(reader, "--all-threads", str(child.pid), os.path.join(room, "can-"))
    end(child)
    if ran.returncode:
        print(f"left out: what is read of processes: {ran.stderr.strip()}")
    return ran.returncode == 0


def main():
    with tempfile.TemporaryDirectory(prefix="read-filters-") as room:
        try:
            reader = compiled(room, "read_filters", SOURCE, ONE_THREAD)
        except FileNotFoundError as why:
            print(f"there is no C compiler: {why.filename}")
        else:
            for words in ([], ["--all-threads"], ["none"], ["1", "a", "b"]):
                ran = said(reader, *words)
                tell(ran.returncode == 2 and "usage" in ran.stderr, f"words {words}", ran)
            try_groups(room)
            if os.geteuid() == 0 and can_read(reader, room):
                waits = compiled(room, "waiting", WAITING)
                try_process(reader, room)
                try_unread(reader, waits, room)
                try_calls(reader, waits, room)
                try_states(reader, waits, room)
                try_rights(reader, room)
                try_ended(reader, room)
    return finish()
