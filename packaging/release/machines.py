"""The machines that a release is for: how each is compiled for, tried, and named."""

import dataclasses
import os
import platform
import shutil

X86_64, AARCH64 = "x86_64-unknown-linux-gnu", "aarch64-unknown-linux-gnu"


@dataclasses.dataclass(frozen=True)
class Machine:
    """One machine: its name in the files of a release, its kind as `uname -m` has it, its tools and its compiler.

    `target` is that of the module that the checker proves. It is what is compiled, unless `retarget` names the machine of tools/retarget for which the
    module is compiled again. `runner` begins a command of the machine on another one. A static machine is any Linux of its kind, by musl.
    """

    name: str
    kind: str
    tools: str
    compiler: tuple
    target: str
    runner: tuple = ()
    retarget: str = ""
    is_static: bool = False
    # How Debian calls it, and the least processor, where there are packages; the platform of a wheel, with its version of glibc.
    debian: str = ""
    level: str = ""
    wheel: str = ""

    @property
    def multiarch(self):
        return f"{self.kind}-linux-gnu"

    @property
    def lacks(self):
        """What is not there of what it is compiled with, or nothing."""
        missing = [it for it in (self.compiler[0], f"{self.tools}objcopy") if shutil.which(it) is None]
        missing += [file for word, _, file in (it.partition("=") for it in self.compiler) if word == "-specs" and not os.path.isfile(file)]
        return missing[0] if missing else ""

    def command(self, *words):
        """A command of the machine as it is run here; None where it cannot be."""
        if self.kind == platform.machine():
            return list(words)
        return [*self.runner, *words] if shutil.which(self.runner[0]) else None


HOST = Machine("x86_64", "x86_64", "", ("cc",), X86_64, debian="amd64", level="x86-64-v2", wheel="manylinux_{}_{}_x86_64")

GNU_AARCH64 = "aarch64-linux-gnu-"
QEMU_AARCH64 = ("qemu-aarch64-static", "-L", "/usr/aarch64-linux-gnu")
AARCH64_COMPILER = f"{GNU_AARCH64}gcc"
MUSL = ("-specs=/usr/lib/aarch64-linux-musl/musl-gcc.specs",)
# Without functions of the library of gcc that ask glibc for the processor.
ATOMICS = ("-mno-outline-atomics",)
QEMU_RISCV64 = ("qemu-riscv64-static", "-L", "/usr/riscv64-linux-gnu")
GNU_RISCV64 = "riscv64-linux-gnu-"

# Beside the first.
MACHINES = (
    Machine(
        "aarch64", "aarch64", GNU_AARCH64, (AARCH64_COMPILER, *ATOMICS), AARCH64, QEMU_AARCH64, debian="arm64", level="ARMv8-A", wheel="manylinux_{}_{}_aarch64"
    ),
    Machine("riscv64", "riscv64", GNU_RISCV64, (f"{GNU_RISCV64}gcc",), X86_64, QEMU_RISCV64, retarget="riscv64"),
    Machine("x86_64-musl", "x86_64", "", ("musl-gcc",), X86_64, is_static=True, wheel="musllinux_1_2_x86_64"),
    Machine(
        "aarch64-musl", "aarch64", GNU_AARCH64, (AARCH64_COMPILER, *MUSL, *ATOMICS), AARCH64, QEMU_AARCH64, is_static=True, wheel="musllinux_1_2_aarch64"
    ),
)
