"""The file of a saved history: the calls of a table with their replies. docs/SAVED.md has its form, and the library of C writes it."""

import ctypes
import os
import stat
import weakref
from collections.abc import Sequence
from typing import NamedTuple

from pidtab.faults import BadHistory, NotKept
from pidtab.native import fault_of
from pidtab.raw import (
    DEVICE,
    DIFFERS,
    DONE,
    NOT_EMPTY,
    NOT_KEPT,
    NOT_SAVED,
    OTHER_VERSION,
    OUT_OF_RANGE,
    SPENT,
    TORN,
    WRONG_BYTE,
    Pidtab,
    PidtabSaved,
    PidtabSavedHead,
)
from pidtab.settings import Settings

FilePath = str | os.PathLike[str]

# What is wrong with a head, by the status.
BAD_HEADS = {
    TORN: "the file ends within its head: there is no history yet",
    NOT_SAVED: "the bytes are no saved history",
    OTHER_VERSION: "the saved history is of another version",
    WRONG_BYTE: "a byte of the head is not the one that was written",
    OUT_OF_RANGE: "no table has the settings of the head",
}

# What is wrong with an entry.
BAD_ENTRIES = {
    WRONG_BYTE: "a byte is not the one that was written",
    DIFFERS: "its reply is another one now",
    OUT_OF_RANGE: "there is no such call, or no such worker",
    SPENT: "it is behind the call with the last stamp",
}


class Saved(NamedTuple):
    """What a file has of a table: so many calls, each whole, in so many bytes with the head. A load left out so many bytes of a torn end."""

    calls: int
    size: int
    left_out: int


class SavedFile:
    """A `struct pidtab_saved` with its descriptor, which is closed when nobody has this any more, so never while a thread is in a function."""

    def __init__(self, functions: ctypes.CDLL, path: str, flags: int) -> None:
        self.path = path
        self.at = PidtabSaved()
        self._functions = functions
        self._descriptors: list[int] = []
        weakref.finalize(self, close_all, self._descriptors).atexit = False
        self._open(flags)
        self._writes = flags & os.O_RDWR != 0
        self._has_name = False

    @property
    def descriptor(self) -> int:
        """The descriptor by which it is read and written."""
        return self._descriptors[0]

    @property
    def is_begun(self) -> bool:
        """Whether it has a head."""
        return self.at.bytes != 0

    @property
    def told(self) -> Saved:
        """What is in it."""
        return Saved(self.at.next, self.at.bytes, self.at.left_out)

    def is_at(self, path: str) -> bool:
        """Whether the path leads to it."""
        try:
            return os.path.samestat(os.stat(path), os.fstat(self.descriptor))
        except FileNotFoundError:
            return False

    def load(self, at: Pidtab, settings: Settings) -> int:
        """The status of a load of it."""
        return int(self._functions.pidtab_saved_load(self.at, self.descriptor, at, settings.packed()))

    def resume(self, at: Pidtab, settings: Settings) -> int:
        """The status of a load that goes on with the file, or begins it."""
        return int(self._functions.pidtab_saved_resume(self.at, self.descriptor, at, settings.packed()))

    def begin(self, head: PidtabSavedHead) -> None:
        """Writes the head, if the file is empty. What is written of it is taken away where that fails."""
        begin, at, descriptor, status = self._functions.pidtab_saved_begin, self.at, self.descriptor, DONE
        # No handler of a signal comes between these two, which may have begun it.
        if at.bytes == 0:
            status = begin(at, descriptor, head)
        if status != DONE:
            fault = self.fault_of(status, "begin")
            self._functions.pidtab_saved_trim(at)
            raise fault

    def make_ready(self) -> None:
        """Sees to it that the next entry comes after the last whole one."""
        self._write_too()
        found, left = self._sizes()
        if found != left:
            raise self._bad(f"the file has {found} bytes where this table left {left}: another has written to it")
        if self.at.is_torn:
            self.check(self._functions.pidtab_saved_trim(self.at), "trim")

    def sync(self) -> None:
        """Has it survive the machine: its bytes, and once its name."""
        os.fsync(self.descriptor)
        if not self._has_name:
            folder = os.open(os.path.dirname(self.path), os.O_RDONLY)
            try:
                os.fsync(folder)
            finally:
                os.close(folder)
            self._has_name = True

    def check(self, status: int, what: str) -> None:
        """Raises what a status other than done stands for."""
        if status != DONE:
            raise self.fault_of(status, what)

    def fault_of(self, status: int, what: str) -> Exception:
        """What is raised for a status other than done."""
        if status == DEVICE:
            return OSError(self.at.error, os.strerror(self.at.error), self.path)
        if status == NOT_EMPTY:
            return FileExistsError(status, "the file has bytes, and is not the one of this table", self.path)
        if status == NOT_KEPT:
            return NotKept(f"call {self.at.next} is not kept: it was cut away before it was saved to {self.path}")
        if not self.is_begun and status in BAD_HEADS:
            return self._bad(BAD_HEADS[status])
        if self.is_begun and status in BAD_ENTRIES:
            return self._bad(f"call {self.at.next}, saved at byte {self.at.bytes}: {BAD_ENTRIES[status]}")
        return fault_of(status, f"{what} {self.path}")

    def _left(self) -> int:
        """How many bytes this table has read or written."""
        return self.at.bytes + self.at.part + (self.at.left_out if self.at.is_torn else 0)

    def _sizes(self) -> tuple[int, int]:
        """How many bytes the file has, and how many it should have. A pipe and the like has what it should."""
        # A handler of a signal may save in between.
        while True:
            left, about = self._left(), os.fstat(self.descriptor)
            if left == self._left():
                break
        return about.st_size if stat.S_ISREG(about.st_mode) else left, left

    def _bad(self, why: str) -> BadHistory:
        """The fault of what stands after the last whole call."""
        fault = BadHistory(f"{self.path}: {why}")
        fault.calls, fault.place = self.at.next, self.at.bytes
        return fault

    def _open(self, flags: int) -> None:
        """Opens the file. The list takes what that answers, which is one step with it, so no interrupt loses it."""
        self._descriptors.extend(map(os.open, [self.path], [flags], [0o666]))

    def _write_too(self) -> None:
        """Has the descriptor write, where it was opened to be read alone."""
        if self._writes:
            return
        self._open(os.O_RDWR)
        if not os.path.samestat(os.fstat(self._descriptors[-1]), os.fstat(self.descriptor)):
            raise self._bad("another file has its name now")
        os.dup2(self._descriptors[-1], self.descriptor, inheritable=False)
        self._writes = True


def close_all(descriptors: Sequence[int]) -> None:
    """Closes descriptors."""
    for it in descriptors:
        os.close(it)
