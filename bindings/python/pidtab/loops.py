"""Waits for calls of a table in loops of asyncio: one thread waits in the library for all of them."""

import _thread
import asyncio
import ctypes
import threading
from collections.abc import Callable
from contextlib import suppress
from typing import NamedTuple

from pidtab.raw import DONE
from pidtab.watch import PAST

# What the library answers to a wait for a call, which ends at a deadline, or at none: a status. It writes how many calls are recorded.
AsksFor = Callable[[int, object, ctypes.c_uint64], int]

# The status of a wait, and how many calls are recorded.
Waited = tuple[int, int]


class Waiter(NamedTuple):
    """Who waits for a call, in which loop."""

    ordinal: int
    loop: asyncio.AbstractEventLoop
    future: "asyncio.Future[Waited]"


def answer(future: "asyncio.Future[Waited]", waited: Waited) -> None:
    """Answers who waits, if nobody has cancelled that."""
    if not future.done():
        future.set_result(waited)


class Loops:
    """Those that wait at one table. The thread goes on while there are any, and then until the next call, or the end of the waits."""

    def __init__(self) -> None:
        self._lock = threading.RLock()
        self._waiters: list[Waiter] = []
        self._has_thread = False

    async def wait(self, ordinal: int, asks: AsksFor) -> Waited:
        """Waits until the call with the ordinal is recorded, or the waits are ended."""
        loop = asyncio.get_running_loop()
        waiter = Waiter(ordinal, loop, loop.create_future())
        with self._lock:
            self._waiters.append(waiter)
        try:
            # Only now, so that no call comes between this look and the thread's.
            recorded = ctypes.c_uint64()
            status = asks(ordinal, PAST, recorded)
            if status != DONE or recorded.value > ordinal:
                # Where threads make many calls, the loop's other tasks have their turns too.
                await asyncio.sleep(0)
                return status, recorded.value
            self._have_thread(recorded, asks)
            return await waiter.future
        finally:
            with self._lock, suppress(ValueError):
                self._waiters.remove(waiter)

    def _have_thread(self, recorded: ctypes.c_uint64, asks: AsksFor) -> None:
        """Sees to it that a thread waits for the next call. The end of the interpreter does not wait for it."""
        with self._lock:
            if not self._has_thread:
                _thread.start_new_thread(self._serve, (recorded, asks))
                self._has_thread = True

    def _serve(self, recorded: ctypes.c_uint64, asks: AsksFor) -> None:
        """What the thread does."""
        status = DONE
        while self._goes_on(status):
            status = asks(recorded.value, None, recorded)
            self._tell(status, recorded.value)

    def _goes_on(self, status: int) -> bool:
        """Whether anybody is left to wait for."""
        with self._lock:
            self._has_thread = status == DONE and bool(self._waiters)
            return self._has_thread

    def _tell(self, status: int, recorded: int) -> None:
        """Wakes those whose call is recorded, or all of them at the end of the waits."""
        with self._lock:
            told = [it for it in self._waiters if status != DONE or recorded > it.ordinal]
            self._waiters = [it for it in self._waiters if it not in told]
        for it in told:
            # A loop that is closed has nobody who waits.
            with suppress(RuntimeError):
                it.loop.call_soon_threadsafe(answer, it.future, (status, recorded))
