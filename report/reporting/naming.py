"""Names of calls and of architectures."""
import tomllib
from typing import NamedTuple

from .documents import Refused

# Architectures of the kernel's header linux/audit.h, by their numbers: AUDIT_ARCH_ stands before each name there.
ARCHITECTURES = {
    0xC000003E: "X86_64", 0x40000003: "I386", 0xC00000B7: "AARCH64", 0x40000028: "ARM", 0xC00000F3: "RISCV64",
    0x400000F3: "RISCV32", 0xC0000102: "LOONGARCH64", 0x40000102: "LOONGARCH32", 0xC0000015: "PPC64LE",
    0x80000015: "PPC64", 0x00000014: "PPC", 0x80000016: "S390X", 0x00000016: "S390", 0x00000008: "MIPS",
    0x40000008: "MIPSEL", 0x80000008: "MIPS64", 0xC0000008: "MIPSEL64", 0xA0000008: "MIPS64N32",
    0xE0000008: "MIPSEL64N32", 0x80000009: "(SPARC of old kernels)", 0x8000002B: "SPARC64", 0x00000002: "SPARC",
    0x0000000F: "PARISC", 0x8000000F: "PARISC64", 0x00000028: "ARMEB", 0x0000002A: "SH", 0x4000002A: "SHEL",
    0xC0009026: "ALPHA", 0xC0000032: "IA64", 0x00000004: "M68K", 0x0000BABE: "(SPARC of old kernels)",
}


class CallSet(NamedTuple):
    """A named set of calls of one architecture, with the number of each."""

    name: str
    arch: int
    calls: dict


def set_of(name, table, path):
    """A set of a file of names. Refused where it is none."""
    arch, calls = table.get("arch"), table.get("calls")
    numbers = [arch, *(calls.values() if isinstance(calls, dict) else ["none"])]
    if any(type(number) is not int or not 0 <= number < 1 << 32 for number in numbers):
        whose = name or "the file"
        raise Refused(f"{path}: {whose} is no set of calls: it needs `arch` and a table `calls` of numbers")
    return CallSet(name, arch, calls)


def name_of_only_set(arch):
    """What a set is called in whose file it has no name."""
    known = {0xC000003E: "x86_64", 0x40000003: "i386", 0xC00000B7: "aarch64", 0x40000028: "arm"}
    return known.get(arch, f"0x{arch:08X}")


def sets_of(path):
    """The sets of a file of names. Refused where it can't be read, or isn't one."""
    try:
        with open(path, "rb") as file:
            tables = tomllib.load(file)
    except OSError as error:
        raise Refused(f"{path}: {error.strerror}") from None
    except (ValueError, RecursionError) as error:
        raise Refused(f"{path}: no TOML ({error!s:.80})") from None
    if "arch" in tables:
        only = set_of("", tables, path)
        low = min(only.calls.values(), default=0)
        name = "x32" if only.arch == 0xC000003E and low >= 1 << 30 else name_of_only_set(only.arch)
        return [only._replace(name=name)]
    if not all(isinstance(table, dict) for table in tables.values()):
        raise Refused(f"{path}: no file of names")
    return [set_of(name, table, path) for name, table in tables.items()]


def hexadecimal(arch):
    return f"0x{arch:08X}"


def title_of(arch):
    """What an architecture is called."""
    name = ARCHITECTURES.get(arch)
    return hexadecimal(arch) if name is None or name.startswith("(") else f"{name} ({hexadecimal(arch)})"
