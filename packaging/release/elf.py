"""What a built file asks of the machine, as `readelf` says it."""

import re

from release.faults import Fault, run

# What every system with the GNU C library has, and what a package of Debian has; wheels of all systems may need both.
KNOWN = {"libc.so.6", "libm.so.6", "libpthread.so.0", "libdl.so.2", "ld-linux-x86-64.so.2", "ld-linux-aarch64.so.1"}
PACKAGES = {"libgcc_s.so.1": "libgcc-s1"}


def packages_needed(file):
    """The packages of Debian beside libc6 whose libraries a file needs; one that needs another library is a fault."""
    needed = set(re.findall(r"\(NEEDED\).*\[(.*)\]", run(["readelf", "-W", "-d", file]).decode())) - KNOWN
    unknown = sorted(needed - set(PACKAGES))
    if unknown:
        raise Fault(f"{file} needs {unknown[0]}, which no package here names")
    return {PACKAGES[it] for it in needed}


def glibc_needed(file):
    """The least version of the GNU C library, as (2, 17); (0,) for a file that needs none."""
    versions = re.findall(r"Name: GLIBC_(\d+(?:\.\d+)*) ", run(["readelf", "-W", "-V", file]).decode())
    return max((tuple(map(int, it.split("."))) for it in versions), default=(0,))


def exported(file):
    """The symbols that a shared library exports, with their versions, as `pidtab_open@PIDTAB_1`."""
    rows = re.findall(r" (?:GLOBAL|WEAK) +DEFAULT +(?:\d+|ABS) (\S+)$", run(["readelf", "-W", "--dyn-syms", file]).decode(), re.MULTILINE)
    return sorted(f"{it}@{it}" if "@" not in it else it.replace("@@", "@") for it in rows)


def kind_of(file):
    """Whether a file is an object or an archive for a machine, or nothing of that."""
    head = file.read_bytes()[:8]
    return "archive" if head == b"!<arch>\n" else "object" if head[:4] == b"\x7fELF" else ""


def has_section(file, name):
    """Whether a file, or an object in it, has a section, as the table of symbols that `strip` takes away."""
    return f" {name} " in run(["readelf", "-W", "-S", file]).decode()
