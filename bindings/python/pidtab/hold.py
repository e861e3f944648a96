"""A table of the library that is open, and what asks it."""

import ctypes
import os
import weakref
from collections.abc import Callable, Iterator, Sequence
from functools import partial
from threading import get_ident

from pidtab.faults import TableClosed
from pidtab.library import function_of
from pidtab.native import state_of
from pidtab.owner import Owner
from pidtab.raw import DONE, NO_THREADS, Pidtab


def close_table(functions: ctypes.CDLL, at: Pidtab, opened: Sequence[int], process: int) -> None:
    """Closes a table, if it was opened, but not in a forked child."""
    if list(opened) == [DONE] and os.getpid() == process:
        functions.pidtab_close(at)


# What a thread has that has the lock of a table: what leads to the table without the lock, who took it, what gives it back, and the table, which is not freed.
Inside = tuple[object, "weakref.ref[object]", Iterator[None], "Hold"]


class Hold:
    """A `struct pidtab` that is open. It is closed when nobody has this any more, so never while a thread is in a function."""

    def __init__(self, functions: ctypes.CDLL, open_at: Callable[[Pidtab], int]) -> None:
        self.functions = functions
        self.at = Pidtab()
        # By the thread that has the lock of the table.
        self.inside: dict[int, Inside] = {}
        opened: list[int] = []
        # Not at the end of the interpreter, where threads may still be in a function.
        weakref.finalize(self, close_table, functions, self.at, opened, os.getpid()).atexit = False
        # The list takes what that answers, which is one step with it, so no interrupt loses it.
        opened.extend(map(open_at, [self.at]))
        self.status = opened[0]

    @property
    def here(self) -> object:
        """What leads this thread to the table."""
        inside = self.inside.get(get_ident())
        return self.at if inside is None else inside[0]

    def check_free(self) -> None:
        """Sees to it that this thread does not have the lock of the table, as it would wait for itself."""
        if get_ident() in self.inside:
            raise RuntimeError("this thread has the lock of the table, and would wait for itself: give the lock back first")


class Held(Owner):
    """A table of the library, as it is asked by the names of functions."""

    library: str = ""
    threads: bool = False

    # None where it was closed.
    _hold: Hold | None = None

    def _is_open(self) -> bool:
        return self._hold is not None

    def _check_open(self) -> Hold:
        """The open table of this process, which is not freed as long as the caller has it."""
        self._check_owner()
        hold = self._hold
        if hold is None:
            raise TableClosed("the table was closed")
        return hold

    def _check_free(self) -> Hold:
        """The open table, whose lock this thread does not have."""
        hold = self._check_open()
        hold.check_free()
        return hold

    def _check_waits(self) -> Hold:
        """The same of a table for threads."""
        if not self.threads:
            self._check_open()
            raise state_of(NO_THREADS)
        return self._check_free()

    def _status(self, name: str, *arguments: object) -> int:
        """What a function answers. Nothing is raised from here except that there is no table, or no function: a kept fault would keep it open."""
        hold = self._hold
        if hold is None or self._left:
            hold = self._check_open()
        function = getattr(hold.functions, name, None) or function_of(hold.functions, self.library, name)
        return int(function(hold.here if hold.inside else hold.at, *arguments))

    def _question(self, name: str) -> Callable[..., int]:
        """The function of the library with this name on the table."""
        return partial(self._status, f"pidtab_{name}")
