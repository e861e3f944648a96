"""Has the wall clock of one process jump while it runs, and no other's: what the kernel gives it to read the time with is changed.

That is the vDSO, a page of code that each process has to itself once it is written. It serves programs of Go too, which no library stands before.
Only the wall clock is another one then. A monotonic clock never jumps, but for one that stands still: that is SIGSTOP.
"""

import os
import platform
import signal
import struct
import time
from collections.abc import Iterator
from contextlib import contextmanager
from pathlib import Path
from typing import BinaryIO

# For x86-64: asks the kernel; where the wall clock was asked for, adds the seconds that stand behind the code.
CODE = bytes.fromhex(
    "b8e4000000"  # mov eax, 228, clock_gettime
    "0f05"  # syscall
    "85ff"  # test edi, edi, which is 0 for the wall clock
    "750a"  # jne to the last instruction
    "488b0d0e000000"  # mov rcx, what stands at the place of the seconds
    "48010e"  # add [rsi], rcx
    "c3"  # ret
)
SECONDS_AT = 32
PATCH = CODE.ljust(SECONDS_AT, b"\x90")

FUNCTION = b"__vdso_clock_gettime"

# How often a process is stopped until none of its threads reads the time just then.
TRIES = 200

DYNAMIC, HASH, STRINGS, SYMBOLS = 2, 4, 5, 6


def why_not() -> str:
    """Why no clock can jump here; empty where it can."""
    machine = platform.machine()
    return "" if machine == "x86_64" else f"no clock jumps: the code that changes one is for x86_64, and this is {machine}"


def jump(pid: int, seconds: int) -> None:
    """Has the wall clock of a process be so many seconds ahead of the true one; 0 sets it right."""
    start, end = find_page(pid)
    with open(f"/proc/{pid}/mem", "r+b", buffering=0) as memory:
        page = read_at(memory, start, end - start)
        place = start + find_function(page)
        if read_at(memory, place, len(CODE)) != CODE:
            with standing_still(pid, start, end):
                write_at(memory, place, PATCH + bytes(8))
        # One word, which a thread reads whole.
        write_at(memory, place + SECONDS_AT, struct.pack("<q", seconds))


def read_at(memory: BinaryIO, place: int, size: int) -> bytes:
    """Reads some bytes of a process."""
    memory.seek(place)
    return memory.read(size)


def write_at(memory: BinaryIO, place: int, data: bytes) -> None:
    """Writes some bytes of a process."""
    memory.seek(place)
    memory.write(data)


def find_page(pid: int) -> tuple[int, int]:
    """Where a process has its vDSO."""
    for line in Path(f"/proc/{pid}/maps").read_text().splitlines():
        if line.endswith("[vdso]"):
            start, _, end = line.split(" ")[0].partition("-")
            return int(start, 16), int(end, 16)
    raise OSError(f"process {pid} has no vDSO")


def find_function(page: bytes) -> int:
    """Where the function is that reads the clocks, if it has room for the code."""
    for name, value, size in read_symbols(page):
        if name == FUNCTION:
            if size < SECONDS_AT + 8:
                raise OSError(f"the vDSO's function has {size} bytes, fewer than the code")
            return value
    raise OSError("the vDSO has no function for the clocks")


def read_symbols(page: bytes) -> Iterator[tuple[bytes, int, int]]:
    """The names of an ELF image, with their values and sizes."""
    headers, size, count = struct.unpack_from("<Q", page, 0x20)[0], *struct.unpack_from("<HH", page, 0x36)
    table: dict[int, int] = {}
    for at in range(headers, headers + size * count, size):
        kind, offset, length = struct.unpack_from("<I4xQ16xQ", page, at)
        if kind == DYNAMIC:
            table = {name: value for name, value in struct.iter_unpack("<QQ", page[offset : offset + length]) if name}
    (symbols,) = struct.unpack_from("<I", page, table[HASH] + 4)
    for at in range(table[SYMBOLS], table[SYMBOLS] + 24 * symbols, 24):
        name, value, length = struct.unpack_from("<I4xQQ", page, at)
        start = table[STRINGS] + name
        yield page[start : page.index(b"\0", start)], value, length


@contextmanager
def standing_still(pid: int, start: int, end: int) -> Iterator[None]:
    """Stops a process when none of its threads is in a range of its code, and has it go on behind it."""
    for _ in range(TRIES):
        os.kill(pid, signal.SIGSTOP)
        try:
            wait_until_stopped(pid)
            if not any(start <= it < end for it in places_of(pid)):
                yield
                return
        finally:
            os.kill(pid, signal.SIGCONT)
        time.sleep(0.001)
    raise OSError(f"process {pid} reads the time each time that it is stopped")


def wait_until_stopped(pid: int) -> None:
    """Waits until no thread of a process runs."""
    while any(state_of(it) not in "Tt" for it in Path(f"/proc/{pid}/task").iterdir()):
        time.sleep(0.0002)


def state_of(task: Path) -> str:
    """The letter that says what a thread does; one that has ended stands still."""
    try:
        return (task / "stat").read_text().rpartition(")")[2].split()[0]
    except OSError:
        return "T"


def places_of(pid: int) -> Iterator[int]:
    """Where the threads of a process are that stands still."""
    for task in Path(f"/proc/{pid}/task").iterdir():
        try:
            words = (task / "syscall").read_text().split()
        except OSError:
            continue
        yield int(words[-1], 16)
