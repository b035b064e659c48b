"""Texts of profiles, byte for byte, for tests of what reads them: runtimes, `seccomp_audit profile`, filter_of_profile.

A text that has `@head` is a whole config.json: in its place comes what a container needs, and `@spaces` stands for
namespaces. Others are profiles.
"""

GREATEST = b"sched_get_priority_max"
ALL = b'"architectures":["SCMP_ARCH_X86_64","SCMP_ARCH_X86","SCMP_ARCH_X32"]'
ONE = b'"architectures":["SCMP_ARCH_X86_64"]'

# What runtimes and the program in the container call where all else is refused. clone3's number is above all that are
# asked about but the newest: runc answers ENOSYS above the greatest number that a profile has.
NEEDED = (
    "access arch_prctl brk capget capset chdir clone clone3 close close_range dup3 epoll_ctl epoll_pwait execve exit "
    "exit_group faccessat2 fchdir fcntl fstat fstatfs futex getdents64 getpid getppid gettid getuid ioctl lseek "
    "madvise mmap mprotect munmap nanosleep newfstatat open openat openat2 pipe2 prctl pread64 prlimit64 pselect6 read "
    "readlinkat rt_sigaction rt_sigprocmask rt_sigreturn sched_yield sendmsg sendto set_robust_list set_tid_address "
    "setgid setgroups setresgid setresuid setsid setuid sigaltstack stat statfs tgkill umask uname unlinkat wait4 "
    "write"
).split()


def rule(more=b"", name=b"ptrace"):
    """A rule that refuses a call, with further members."""
    return b'{"names":["%b"],"action":"SCMP_ACT_ERRNO"%b}' % (name, more)


def profile(*rules, more=b"", sets=ONE):
    """A profile that lets all through but what its rules refuse, with further members."""
    return b'{"defaultAction":"SCMP_ACT_ALLOW",%b,"syscalls":[%b]%b}' % (sets, b",".join(rules), more)


def with_comparison(members):
    """A profile that refuses a call where a comparison with these members holds."""
    return profile(rule(b',"args":[{%b}]' % members, GREATEST))


def comparing(*comparisons):
    """A profile that refuses a call where comparisons hold, each of them written as `INDEX VALUE OP [VALUETWO]`."""
    written = []
    for comparison in comparisons:
        index, value, how, *two = comparison.split()
        more = f',"valueTwo":{two[0]}' if two else ""
        written.append(f'{{"index":{index},"value":{value},"op":"SCMP_CMP_{how}"{more}}}')
    return profile(rule(b',"args":[%b]' % ",".join(written).encode(), GREATEST))


def allowing(names, more=b""):
    """A profile that refuses all but some calls, with further members."""
    names = ",".join(f'"{name}"' for name in [*NEEDED, *names]).encode()
    allowed = b'{"names":[%b],"action":"SCMP_ACT_ALLOW"}' % names
    return b'{"defaultAction":"SCMP_ACT_ERRNO",%b,"syscalls":[%b]%b}' % (ONE, allowed, more)


def config(seccomp, more=b"", before=b""):
    """A config.json with a profile, and what stands behind and before `linux`."""
    return b'{@head,%b"linux":{@spaces,"seccomp":%b}%b}' % (before, seccomp, more)


PLAIN = profile(rule())
OTHER = profile(rule(name=b"getpriority"))
OPEN = b'{"defaultAction":"SCMP_ACT_ALLOW","syscalls":[]}'
STRICT = b'{"defaultAction":"SCMP_ACT_ERRNO","syscalls":[{"action":"SCMP_ACT_ALLOW","names":["read","write"]}]}'
EQUAL = b'{"index":0,"value":1,"op":"SCMP_CMP_EQ"}'

# These all read, and in the same way.
ALIKE = {
    "a rule": PLAIN,
    "an error number": profile(rule(b',"errnoRet":38')),
    "the error number 0": profile(rule(b',"errnoRet":0', b"getpriority")),
    "the greatest error number": profile(rule(b',"errnoRet":4094')),
    "no rules": profile(),
    "a call that is named twice": profile(b'{"names":["ptrace","ptrace"],"action":"SCMP_ACT_ERRNO"}'),
    "a call of another machine": profile(b'{"names":["s390_pci_mmio_read","ptrace"],"action":"SCMP_ACT_ERRNO"}'),
    "EQ": comparing("0 1 EQ"),
    "NE": comparing("0 1 NE"),
    "LT": comparing("0 2 LT"),
    "LE": comparing("0 1 LE"),
    "GE": comparing("0 2 GE"),
    "GT": comparing("0 1 GT"),
    "MASKED_EQ": comparing("0 1 MASKED_EQ 1"),
    "MASKED_EQ outside of its mask": comparing("0 1 MASKED_EQ 3"),
    "MASKED_EQ without valueTwo": comparing("0 1 MASKED_EQ"),
    "EQ with valueTwo": comparing("0 1 EQ 2"),
    "two comparisons of two arguments": comparing("0 1 GE", "1 0 EQ"),
    "two comparisons of one argument": comparing("0 1 EQ", "0 99 EQ"),
    "a number of 33 bits": comparing("0 4294967297 EQ"),
    "a number of 64 bits": comparing("0 18446744073709551615 EQ"),
    "a number above 2^53": comparing("0 9007199254740993 NE"),
    "all else is refused": allowing(["ptrace"]),
    "all else is refused, with a number": allowing(["sched_get_priority_max"], b',"defaultErrnoRet":13'),
    "three sets of calls": profile(rule(name=GREATEST), sets=ALL),
    "no sets of calls": profile(rule(), sets=b'"flags":[]'),
    "a set of calls that isn't the own": profile(rule(), sets=b'"architectures":["SCMP_ARCH_X86"]'),
    "a set of calls twice": profile(rule(), sets=b'"architectures":["SCMP_ARCH_X86_64","SCMP_ARCH_X86_64"]'),
    "empty lists": profile(rule(b',"args":[]'), b'{"names":[],"action":"SCMP_ACT_LOG"}', sets=b'"architectures":[]'),
    "LOG": profile(b'{"names":["ptrace"],"action":"SCMP_ACT_LOG"}'),
    "TRACE": profile(b'{"names":["ptrace"],"action":"SCMP_ACT_TRACE","errnoRet":7}'),
    "TRAP": profile(b'{"names":["ptrace"],"action":"SCMP_ACT_TRAP"}'),
    "KILL": profile(b'{"names":["ptrace"],"action":"SCMP_ACT_KILL"}'),
    "KILL_PROCESS": profile(b'{"names":["ptrace"],"action":"SCMP_ACT_KILL_PROCESS"}'),
    "an escape in a key": PLAIN.replace(b'"syscalls"', b'"\\u0073yscalls"'),
    "escapes in keys and texts": PLAIN.replace(b"names", b"n\\u0061mes").replace(b"ptrace", b"ptr\\u0061ce"),
    "spaces, tabs and lines": b" \t\r\n" + PLAIN.replace(b",", b" ,\r\n\t") + b" \r\n\t",
    "keys in another order": (
        b'{"syscalls":[{"action":"SCMP_ACT_ERRNO","names":["ptrace"]}],%b,"defaultAction":"SCMP_ACT_ALLOW"}' % ONE),
    "a config.json": config(PLAIN),
    "a config.json, linux first": b'{"linux":{"seccomp":%b,@spaces},@head}' % PLAIN,
    "a config.json, the keys elsewhere": config(PLAIN, b',"annotations":{"linux":"1","seccomp":"2"},"x":{"args":1}'),
}

# These are malformed, or some read them otherwise than others. They may be refused.
UNLIKE = {
    # what 1.2.0 to 1.5.0 read otherwise than some runtime
    "A: a stray linux": b'{"defaultAction":"SCMP_ACT_ALLOW","syscalls":[],"linux":{"seccomp":%b}}' % STRICT,
    "A, in a config.json": (
        b'{@head,"defaultAction":"SCMP_ACT_ALLOW","syscalls":[],"linux":{@spaces,"seccomp":%b}}' % PLAIN),
    "B: two lists of rules": profile(rule(b',"args":[{"index":0,"value":98,"op":"SCMP_CMP_EQ"}]'),
                                     more=b',"syscalls":[%b]' % rule()),
    "B': two lists of rules, the first counts": profile(
        b'{"names":["getpriority"],"action":"SCMP_ACT_ALLOW"}', more=b',"syscalls":[%b]' % rule()),
    "C: Linux behind linux": config(PLAIN, b',"Linux":{"Seccomp":{"Syscalls":[{"names":["getpriority"]}]}}'),
    "D: another errno": profile(rule(b',"errnoRet":1,"errno":"ENOSYS"')),
    "D: errno 0": profile(rule(b',"errnoRet":1,"errno":"0"', b"getpriority")),
    # a member twice
    "twice: defaultAction": profile(rule(), more=b',"defaultAction":"SCMP_ACT_LOG"'),
    "twice: architectures": profile(rule(), more=b',%b' % ALL),
    "twice: the same": profile(rule(), more=b',%b' % ONE),
    "twice: rules, and then null": profile(rule(), more=b',"syscalls":null'),
    "twice: null, and then rules": b'{"defaultAction":"SCMP_ACT_ALLOW","syscalls":null,"syscalls":[%b]}' % rule(),
    "twice: rules, once escaped": profile(rule(), more=b',"\\u0073yscalls":[%b]' % rule(name=b"getpriority")),
    "twice: names": profile(rule(b',"names":["getpriority"]')),
    "twice: an action": profile(rule(b',"action":"SCMP_ACT_ALLOW"')),
    "twice: an error number": profile(rule(b',"errnoRet":1,"errnoRet":38')),
    "twice: args": profile(rule(b',"args":[],"args":[%b]' % EQUAL, GREATEST)),
    "twice: a value": with_comparison(b'"index":0,"value":1,"op":"SCMP_CMP_EQ","value":99'),
    "twice: an op": with_comparison(b'"index":0,"value":1,"op":"SCMP_CMP_EQ","op":"SCMP_CMP_NE"'),
    "twice: linux": config(PLAIN, b',"linux":{@spaces,"seccomp":%b}' % OTHER),
    "twice: linux, the second without rules": config(PLAIN, b',"linux":{}'),
    "twice: seccomp": b'{@head,"linux":{@spaces,"seccomp":%b,"seccomp":%b}}' % (PLAIN, OTHER),
    # keys that differ in case
    "case: Syscalls": PLAIN.replace(b"syscalls", b"Syscalls"),
    "case: Syscalls behind syscalls": profile(rule(), more=b',"Syscalls":[%b]' % rule(name=b"getpriority")),
    "case: SYSCALLS before syscalls": b'{"SYSCALLS":[%b],%b' % (rule(name=b"getpriority"), PLAIN[1:]),
    "case: a long s": profile(rule(), more=b',"\xc5\xbfyscalls":[%b]' % rule(name=b"getpriority")),
    "case: a long s, escaped": profile(rule(), more=b',"\\u017fyscalls":[%b]' % rule(name=b"getpriority")),
    "case: DefaultAction": profile(rule(), more=b',"DefaultAction":"SCMP_ACT_LOG"'),
    "case: Names": profile(rule(b',"Names":["getpriority"]')),
    "case: Action": profile(rule(b',"Action":"SCMP_ACT_ALLOW"')),
    "case: ErrnoRet": profile(rule(b',"ErrnoRet":38')),
    "case: args with a long s": profile(rule(b',"arg\xc5\xbf":[%b]' % EQUAL, GREATEST)),
    "case: Value": with_comparison(b'"index":0,"value":1,"Value":99,"op":"SCMP_CMP_EQ"'),
    "case: valuetwo": comparing("0 3 MASKED_EQ 1").replace(b"valueTwo", b"valuetwo"),
    "case: Linux": config(PLAIN).replace(b'"linux"', b'"Linux"'),
    "case: Seccomp": config(PLAIN).replace(b'"seccomp"', b'"Seccomp"'),
    "case: Seccomp behind seccomp": b'{@head,"linux":{@spaces,"seccomp":%b,"Seccomp":%b}}' % (PLAIN, OTHER),
    "case: seccomp with a long s": b'{@head,"linux":{@spaces,"\xc5\xbfeccomp":%b,"seccomp":%b}}' % (OTHER, PLAIN),
    "case: a kelvin in minKernel": profile(rule(b',"includes":{"min\xe2\x84\xaaernel":"99.0"}')),
    "case: an action": PLAIN.replace(b"SCMP_ACT_ERRNO", b"scmp_act_errno"),
    "case: a call": profile(rule(name=b"Ptrace")),
    # a byte 0, where strings may end
    "zero: in a call": profile(rule(name=b"ptrace\\u0000x")),
    "zero: in an action": PLAIN.replace(b"SCMP_ACT_ERRNO", b"SCMP_ACT_ERRNO\\u0000"),
    "zero: in a key of the profile": b'{"syscalls\\u0000":[%b],%b' % (rule(name=b"getpriority"), PLAIN[1:]),
    "zero: in linux": config(PLAIN, before=b'"linux\\u0000":{@spaces,"seccomp":%b},' % OTHER),
    "zero: in seccomp": b'{@head,"linux":{@spaces,"seccomp\\u0000":%b,"seccomp":%b}}' % (OTHER, PLAIN),
    "zero: raw": PLAIN.replace(b"ptrace", b"ptrace\0"),
    # names of errors
    "errno: the name": profile(rule(b',"errnoRet":1,"errno":"EPERM"')),
    "errno: the numeral": profile(rule(b',"errnoRet":1,"errno":"1"')),
    "errno: alone": profile(rule(b',"errno":"ENOSYS"')),
    "errno: no name": profile(rule(b',"errnoRet":1,"errno":"EWRONG"')),
    "errno: in small letters": profile(rule(b',"errnoRet":1,"errno":"eperm"')),
    "errno: empty": profile(rule(b',"errnoRet":38,"errno":""')),
    "errno: null": profile(rule(b',"errnoRet":38,"errno":null')),
    "errno: of the default": allowing([], b',"defaultErrnoRet":1,"defaultErrno":"ENOSYS"'),
    "errno: of the default, the name": allowing([], b',"defaultErrnoRet":13,"defaultErrno":"EACCES"'),
    "errno: of the default, alone": allowing([], b',"defaultErrno":"ENOSYS"'),
    "errno: beside ALLOW": profile(b'{"names":["ptrace"],"action":"SCMP_ACT_ALLOW","errnoRet":1}'),
    # no profile
    "none: linux without seccomp": b'{@head,"linux":{@spaces}}',
    "none: seccomp null": config(b"null"),
    "none: seccomp empty": config(b"{}"),
    "none: linux null": b'{@head,"linux":null}',
    "none: linux null in a profile": profile(rule(), more=b',"linux":null'),
    "none: an empty object": b"{}",
    "none: empty": b"",
    "none: a list": b"[]",
    # null
    "null: syscalls": b'{"defaultAction":"SCMP_ACT_ALLOW","syscalls":null}',
    "null: architectures": profile(rule(), sets=b'"architectures":null'),
    "null: args": profile(rule(b',"args":null')),
    "null: errnoRet": profile(rule(b',"errnoRet":null')),
    "null: names": profile(b'{"names":null,"action":"SCMP_ACT_ERRNO"}'),
    "null: a name": profile(b'{"names":[null,"ptrace"],"action":"SCMP_ACT_ERRNO"}'),
    "null: an action": profile(b'{"names":["ptrace"],"action":null}'),
    "null: a rule": profile(b"null", rule()),
    "null: a comparison": profile(rule(b',"args":[null]', GREATEST)),
    "null: a value": with_comparison(b'"index":0,"value":null,"op":"SCMP_CMP_EQ"'),
    "null: defaultAction": b'{"defaultAction":null,"syscalls":[%b]}' % rule(),
    # numbers
    "number: a float": comparing("0 1.0 EQ"),
    "number: an exponent": comparing("0 1e0 EQ"),
    "number: negative": comparing("0 -1 EQ"),
    "number: -0": comparing("0 -0 NE"),
    "number: 2^64": comparing("0 18446744073709551616 EQ"),
    "number: 2^64 + 1": comparing("0 18446744073709551617 EQ"),
    "number: a text": comparing('0 "1" EQ'),
    "number: a zero before it": comparing("0 01 EQ"),
    "number: hexadecimal": comparing("0 0x1 EQ"),
    "number: an index of 6": comparing("6 1 EQ"),
    "number: an index of 2^32": comparing("4294967296 1 EQ"),
    "number: an error number of 17 bits": profile(rule(b',"errnoRet":65537')),
    "number: an error number of 33 bits": profile(rule(b',"errnoRet":4294967334')),
    "number: an error number that libseccomp refuses": profile(rule(b',"errnoRet":4095')),
    "number: a negative error number": profile(rule(b',"errnoRet":-1')),
    "number: an error number as a float": profile(rule(b',"errnoRet":1.5')),
    "number: no value": with_comparison(b'"index":0,"op":"SCMP_CMP_NE"'),
    "number: no index": with_comparison(b'"value":1,"op":"SCMP_CMP_EQ"'),
    # other texts than JSON, and what some take for it
    "text: a byte order mark": b"\xef\xbb\xbf" + PLAIN,
    "text: a byte order mark before a config.json": b"\xef\xbb\xbf" + config(PLAIN),
    "text: something behind it": PLAIN + b"x",
    "text: something behind a config.json": config(PLAIN) + b"x",
    "text: another profile behind it": PLAIN + OPEN,
    "text: another behind a config.json": config(PLAIN) + config(OTHER),
    "text: a zero behind a config.json": config(PLAIN) + b"\0",
    "text: a comment": PLAIN.replace(b"{", b"{/* */", 1),
    "text: a comment to the end of a line": PLAIN.replace(b"{", b"{//\n", 1),
    "text: a comma too much": PLAIN[:-1] + b",}",
    "text: a comma behind the rules": profile(rule() + b","),
    "text: one quotation mark": PLAIN.replace(b'"', b"'"),
    "text: a line in a text": PLAIN.replace(b"ptrace", b"ptrace\n"),
    "text: no UTF-8 in a comment": profile(rule(b',"comment":"\xff"')),
    "text: no UTF-8 in a call": profile(rule(name=b"ptrace\xff"), rule(name=b"getpriority")),
    "text: no UTF-8 in a config.json": config(PLAIN, b',"annotations":{"x":"\xff"}'),
    "text: half of a pair": profile(rule(name=b"ptrace\\ud800"), rule(name=b"getpriority")),
    "text: half of a pair in a config.json": config(PLAIN, b',"annotations":{"x":"\\ud800"}'),
    "text: deep": profile(rule(), more=b',"comment":%b1%b' % (b"[" * 200, b"]" * 200)),
    "text: not ended": PLAIN[:-1],
    # what only some know
    "known to some: SCMP_ACT_ left out": PLAIN.replace(b"SCMP_ACT_ERRNO", b"ERRNO"),
    "known to some: SCMP_CMP_ left out": comparing("0 1 EQ").replace(b"SCMP_CMP_EQ", b"EQ"),
    "known to some: name": profile(b'{"name":"ptrace","action":"SCMP_ACT_ERRNO"}'),
    "known to some: name beside names": profile(rule(b',"name":"getpriority"')),
    "known to some: includes": profile(rule(b',"includes":{"caps":["CAP_SYS_ADMIN"]}')),
    "known to some: excludes": profile(rule(b',"excludes":{"caps":["CAP_CHOWN"]}')),
    "known to some: arches": profile(rule(b',"includes":{"arches":["s390x"]}')),
    "known to some: minKernel": profile(rule(b',"includes":{"minKernel":"99.0"}')),
    "known to some: archMap": profile(rule(name=GREATEST), sets=(
        b'"archMap":[{"architecture":"SCMP_ARCH_X86_64","subArchitectures":["SCMP_ARCH_X86","SCMP_ARCH_X32"]}]')),
    "known to some: archMap beside architectures": profile(rule(name=GREATEST), more=(
        b',"archMap":[{"architecture":"SCMP_ARCH_X86_64","subArchitectures":["SCMP_ARCH_X86","SCMP_ARCH_X32"]}]')),
    "known to some: sets of another machine": profile(rule(), sets=b'"architectures":["SCMP_ARCH_AARCH64"]'),
    "known to some: an unknown set": profile(rule(), sets=b'"architectures":["SCMP_ARCH_X"]'),
    "known to some: a set without SCMP_ARCH_": profile(rule(), sets=b'"architectures":["x86_64","x86"]'),
    "known to some: a newer call": profile(rule(name=b"open_tree_attr")),
    "known to some: an unknown call": profile(b'{"names":["no_such_call","ptrace"],"action":"SCMP_ACT_ERRNO"}'),
    "known to some: an unknown key": profile(rule(), more=b',"x":1'),
    "known to some: an unknown key of a rule": profile(rule(b',"x":1')),
    "known to some: a flag": profile(rule(), more=b',"flags":["SECCOMP_FILTER_FLAG_LOG"]'),
    "known to some: an unknown flag": profile(rule(), more=b',"flags":["SECCOMP_FILTER_FLAG_X"]'),
    "known to some: a filter for crun": config(PLAIN, b',"annotations":{"run.oci.seccomp_bpf_data":"BgAAAAAA/38="}'),
    "known to some: an object of rules": b'{"defaultAction":"SCMP_ACT_ALLOW","syscalls":{"0":%b}}' % rule(),
    "known to some: a text of names": profile(b'{"names":"ptrace","action":"SCMP_ACT_ERRNO"}'),
    "known to some: no action": profile(b'{"names":["ptrace"]}'),
    "known to some: no names": profile(b'{"action":"SCMP_ACT_ERRNO"}'),
    "known to some: an empty name": profile(rule(name=b"")),
    "known to some: a rule that equals the default": profile(b'{"names":["ptrace"],"action":"SCMP_ACT_ALLOW"}', rule()),
    "known to some: rules that contradict": profile(rule(b',"errnoRet":38'), rule(b',"errnoRet":1')),
}
