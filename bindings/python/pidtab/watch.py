"""Waits until a call of a table is recorded. A signal may interrupt them, and nobody looks again and again."""

import _thread
import ctypes
import threading
from collections.abc import Callable

from pidtab.changed import Changed
from pidtab.raw import DONE

# What the library answers to a wait that ends at a deadline, or at none: a status. It writes how many calls are recorded.
Asks = Callable[[object, ctypes.c_uint64], int]

# A `struct timespec` of zeroes, which is a deadline that has come. It is not longer than this.
PAST = (ctypes.c_uint64 * 2)()


class Watch:
    """The waits at one table.

    A thread that waits in the library runs no handler of a signal, and the main thread has to. So that, and whoever has a timeout, waits here, and
    is woken by a thread that waits in the library for the same ordinal. Where nobody waits here any more, that one goes on until it is told.
    """

    def __init__(self) -> None:
        self._changed = Changed()
        self._awaited: set[int] = set()

    def wait(self, ordinal: int, asks: Asks, timeout: float | None) -> tuple[int, int]:
        """The status, and how many calls are recorded: no more than the ordinal where the time is over."""
        recorded = ctypes.c_uint64()
        if timeout is None and threading.current_thread() is not threading.main_thread():
            return asks(None, recorded), recorded.value
        status = DONE

        def is_told() -> bool:
            nonlocal status
            status = asks(PAST, recorded)
            return status != DONE or recorded.value > ordinal

        if not is_told() and timeout != 0:
            self._have_awaited(ordinal, asks)
            self._changed.wait_for(is_told, timeout)
        return status, recorded.value

    def _have_awaited(self, ordinal: int, asks: Asks) -> None:
        """Sees to it that a thread waits in the library. Two may come to do so at once, and that is no harm."""
        if ordinal not in self._awaited:
            # One step, so no interrupt leaves a thread that is half begun. The end of the interpreter waits for none.
            _thread.start_new_thread(self._await, (ordinal, asks))

    def _await(self, ordinal: int, asks: Asks) -> None:
        """What such a thread does."""
        self._awaited.add(ordinal)
        asks(None, ctypes.c_uint64())
        self._awaited.discard(ordinal)
        self._changed.notify_all()
