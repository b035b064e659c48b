"""Tries filter_of_profile: which files it refuses, and that it ends. `tools/test install` runs these cases."""
import json
import os
import shutil
import subprocess

from building.kit import ROOT, text_of, write, write_script

# A rule, a profile with it, one that refuses all but a call, and one that is a whole config.json.
RULE = {"names": ["ptrace"], "action": "SCMP_ACT_ERRNO", "errnoRet": 1}
PROFILE = {"defaultAction": "SCMP_ACT_ALLOW", "syscalls": [RULE]}
STRICT = {"defaultAction": "SCMP_ACT_ERRNO", "syscalls": [{"names": ["read"], "action": "SCMP_ACT_ALLOW"}]}
CONFIG = {"ociVersion": "1.0.2", "process": {"Linux": 1}, "linux": {"resources": {"SECCOMP": 1}, "seccomp": PROFILE}}
ARGUMENT = {"index": 0, "value": 1, "op": "SCMP_CMP_EQ"}


def with_rule(**more):
    return PROFILE | {"syscalls": [RULE | more]}


def renamed(value, key, other):
    """An object, a key of which has another name."""
    return {other if it == key else it: member for it, member in value.items()}


# Files that are read, and files that are refused, with what the line says.
READ = {
    "a profile": PROFILE,
    "a config.json": CONFIG,
    "an errno that is the name": with_rule(errno="EPERM"),
    "a default that agrees": STRICT | {"defaultErrnoRet": 38, "defaultErrno": "ENOSYS"},
    "keys of others": PROFILE | {"x-comment": {"Names": 1}},
    "no names": PROFILE | {"syscalls": [RULE, RULE | {"names": []}]},
    "nulls": PROFILE | {"architectures": None, "syscalls": [RULE | {"args": None, "includes": None}]},
}
REFUSED = {
    "a key twice": ('{"defaultAction":"SCMP_ACT_ALLOW","syscalls":[],"syscalls":[]}', "syscalls comes twice"),
    "a key twice, deep": ('{"defaultAction":"SCMP_ACT_ALLOW","x":[{"y":{"names":1,"names":1}}]}', "names comes twice"),
    "a profile beside linux": (CONFIG | PROFILE, "beside linux stands defaultAction, syscalls"),
    "an empty list beside linux": (CONFIG | {"syscalls": []}, "beside linux stands syscalls"),
    "a profile beside linux, in capitals": (CONFIG | {"SysCalls": []}, "'SysCalls'"),
    "Linux beside linux": (CONFIG | {"Linux": {"seccomp": PROFILE}}, "'Linux'"),
    "Seccomp": (CONFIG | {"linux": {"seccomp": PROFILE, "Seccomp": None}}, "'Seccomp'"),
    "Syscalls": (renamed(PROFILE, "syscalls", "Syscalls"), "'Syscalls'"),
    "a long s": (PROFILE | {"\u017fyscalls": []}, "\\u017fyscalls"),
    "a sign of kelvins": (with_rule(includes={"min\u212aernel": "5.0"}), "'min\\u212aernel'"),
    "Names": (PROFILE | {"syscalls": [renamed(RULE, "names", "Names")]}, "'Names'"),
    "ERRNORET": (with_rule(ERRNORET=38), "'ERRNORET'"),
    "Value": (with_rule(args=[renamed(ARGUMENT, "value", "Value")]), "'Value'"),
    "Caps": (with_rule(includes={"Caps": []}), "'Caps'"),
    "SubArchitectures": (PROFILE | {"archMap": [{"architecture": "SCMP_ARCH_X86_64", "SubArchitectures": 1}]}, "'SubA"),
    "another errno": (with_rule(errno="ENOSYS"), "errno ENOSYS beside errnoRet 1"),
    "errno in digits": (with_rule(errno="1"), "errno 1 beside errnoRet 1"),
    "no errno": (with_rule(errno="errorcode"), "errno errorcode beside"),
    "errno alone": (with_rule(errnoRet=None, errno="EPERM"), "without errnoRet"),
    "another default": (STRICT | {"defaultErrnoRet": 38, "defaultErrno": "EPERM"}, "defaultErrno EPERM beside"),
    "no JSON": ("{", "no JSON"),
    "deep": ("[" * 100_000, "no JSON"),
    "a list": ([], "no object"),
    "nothing": ("", "no JSON"),
    "linux without seccomp": ({"linux": {}}, "linux has no seccomp"),
    "a character 0 in a key": (CONFIG | {"linux\0": {}}, "the key linux\\u0000 has a character 0"),
    "a character 0 in a name": (with_rule(names=["ptrace\0"]), "syscalls[0].names[0] has a character 0"),
    "half of a pair": (with_rule(names=["ptrace\ud800"]), "surrogates not allowed"),
    "a filter for crun": (CONFIG | {"annotations": {"run.oci.seccomp_bpf_data": ""}}, "run.oci.seccomp_bpf_data is"),
    "includes in a config.json": (CONFIG | {"linux": {"seccomp": with_rule(includes={})}}, "has the key includes"),
    "names and name": (with_rule(name="read"), "both names and name"),
    "a name that is null": (with_rule(names=[None]), "syscalls[0].names[0] is null"),
    "an index of 2^32": (with_rule(args=[ARGUMENT | {"index": 1 << 32}]), "without an index up to 5"),
    "a number that an action hasn't": (with_rule(action="SCMP_ACT_LOG"), "errnoRet 1, which doesn't fit SCMP_ACT_LOG"),
    "a set of calls under another name": (PROFILE | {"architectures": ["x86"]}, "no set of calls: x86"),
    "an unknown action": (with_rule(action="SCMP_ACT_\x1b[31m"), "SCMP_ACT_\\u001b[31m"),
    "an unknown comparison": (with_rule(args=[ARGUMENT | {"op": "SCMP_CMP_"}]), "without an op"),
    "a number of 65 bits": (with_rule(args=[ARGUMENT | {"value": 1 << 64}]), "no whole number"),
    "an unknown capability": (with_rule(includes={"caps": ["\x1b\n\x9b"]}), "\\u001b\\n\\u009b"),
    "a rule that is a text": (PROFILE | {"syscalls": ["read"]}, "syscalls[0] is no object"),
}

# A libseccomp that doesn't end: at a rule of the call `ever`, and where the action is LOG, when the filter is written.
ENDLESS = r"""
static unsigned action;
void *seccomp_init(unsigned given) { action = given; return &action; }
void seccomp_release(void *filter) { (void)filter; }
unsigned seccomp_arch_resolve_name(const char *name) { return *name; }
unsigned seccomp_arch_native(void) { return 'x'; }
int seccomp_arch_add(void *filter, unsigned arch) { (void)filter; return arch * 0; }
int seccomp_arch_remove(void *filter, unsigned arch) { (void)filter; return arch * 0; }
int seccomp_syscall_resolve_name(const char *name) { return *name; }
int seccomp_rule_add_array(void *filter, unsigned to, int call, unsigned count, const void *array)
{
    (void)filter, (void)to, (void)count, (void)array;
    for (volatile int more = call == 'e'; more;)
        ;
    return 0;
}
int seccomp_export_bpf(void *filter, int file)
{
    (void)filter, (void)file;
    for (volatile int more = action == 0x7ffc0000; more;)
        ;
    return 0;
}
"""


def ran(program, room, value, **how):
    """What the tool says of a file."""
    path = os.path.join(room, "profile.json")
    write(path, value if isinstance(value, str) else json.dumps(value))
    words = [program, "--machine", "x86_64", path]
    try:
        return subprocess.run(words, capture_output=True, timeout=60, **how)
    except subprocess.TimeoutExpired:
        return subprocess.CompletedProcess(words, None, b"", b"it doesn't end")


def endless_cases(program, room):
    """Whether the tool ends where libseccomp doesn't: a copy of it that waits for three seconds only."""
    compiler = shutil.which(os.environ.get("CC") or "cc")
    if not compiler:
        return
    text = text_of(program)
    yield "it waits for 10 s", "\nSECONDS = 10\n" in text, ""
    short = os.path.join(room, "short")
    write_script(short, text.replace("\nSECONDS = 10\n", "\nSECONDS = 3\n"))
    shutil.copy(os.path.join(ROOT, "helpers/showing.py"), room)
    source = os.path.join(room, "endless.c")
    write(source, ENDLESS)
    subprocess.run([compiler, "-shared", "-fPIC", "-O1", "-o", f"{room}/libseccomp.so.2", source], check=True)
    environment = {**os.environ, "LD_LIBRARY_PATH": room}
    for what, value, said in (
        ("ends", PROFILE, ""),
        ("does not end at a rule", PROFILE | {"syscalls": [RULE, RULE | {"names": ["read", "ever"]}]},
         "libseccomp did not end within 3 s at the rule of ever in syscalls[1]\n"),
        ("does not end afterwards", PROFILE | {"defaultAction": "SCMP_ACT_LOG"},
         "libseccomp did not end within 3 s when all rules were there, and it wrote the filter\n"),
    ):
        got = ran(short, room, value, env=environment)
        yield f"libseccomp {what}", got.returncode == bool(said) and got.stderr.decode() == said and not got.stdout, got


def cases(program, room):
    """What is tried, whether it is well, and what came."""
    for what, value in READ.items():
        got = ran(program, room, value)
        lacks = b"libseccomp.so.2: cannot open" in got.stderr
        yield what, lacks or got.returncode == 0 and len(got.stdout) == 72, got
    for what, (value, why) in REFUSED.items():
        got = ran(program, room, value)
        text = got.stderr.decode(errors="replace")
        is_line = text.count("\n") == 1 and text[:-1].isprintable() and why in text
        yield what, got.returncode == 1 and is_line and not got.stdout, got
    yield from endless_cases(program, room)
