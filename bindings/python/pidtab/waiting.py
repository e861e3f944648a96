"""Waits for the calls of a table that many threads use."""

import os
import weakref

from pidtab.bounds import GREATEST_NUMBER, check_range, check_timeout
from pidtab.faults import WaitingEnded
from pidtab.hold import Held, Hold
from pidtab.native import check
from pidtab.raw import CLOSED
from pidtab.watch import Watch


def end_waits(held: "weakref.ref[Hold]", process: int) -> None:
    """Ends the waits at a table that nobody has any more except a thread that waits for nobody, and not in a forked child."""
    hold = held()
    if hold is not None and os.getpid() == process:
        hold.functions.pidtab_end(hold.at)


class Waiting(Held):
    """The waits for what is recorded. Each is a `NoThreads` of a table of one thread, and a `NoHistory` of one without a history."""

    _watch: Watch
    # Whether a thread waits for a call, or may.
    _has_waits = False

    def wait_changed(self, ordinal: int, timeout: float | None = None) -> int:
        """Waits until the call with the ordinal is recorded, so until more than so many calls are, and answers how many are.

        So a viewer, or a thread that ships the history, follows the table: it reads `entries`, or has a table `follow`, and waits for the next ordinal. It
        sleeps meanwhile, and the call wakes it. Any number of threads may wait, beside a saver. Ctrl-C interrupts the main thread.

        A TimeoutError is raised where no more calls are recorded in so many seconds, `WaitingEnded` after `end_waiting`, and `TableClosed` where the table is
        closed meanwhile.
        """
        ordinal = check_range("ordinal", ordinal, 0, GREATEST_NUMBER)
        seconds = None if timeout is None else check_timeout("timeout", timeout)
        recorded = self._check_waited(ordinal, *self._waited(ordinal, seconds))
        if recorded <= ordinal:
            raise TimeoutError(f"call {ordinal} was not recorded in {seconds:g} seconds")
        return recorded

    async def changed(self, ordinal: int) -> int:
        """As `wait_changed`, for a loop of asyncio: `recorded = await table.changed(n)`. However many wait so, one thread waits in the library for all.

        `asyncio.wait_for` bounds the time. What is raised at an end is what `wait_changed` raises.
        """
        # Here, as asyncio takes longer to load than all of this.
        from pidtab.loops import Loops

        ordinal = check_range("ordinal", ordinal, 0, GREATEST_NUMBER)
        hold = self._with_waits()
        # One step, as loops of several threads may come here at once.
        loops: Loops = vars(self).setdefault("_loops", Loops())
        wait = hold.functions.pidtab_await
        return self._check_waited(ordinal, *await loops.wait(ordinal, lambda place, until, recorded: int(wait(hold.at, place, until, recorded))))

    def end_waiting(self) -> None:
        """Ends the waits of `wait_changed`, for good: what waits, or comes to wait, for a call that is not recorded is a `WaitingEnded`.

        A wait for one that is recorded is answered, so who follows the table has all calls first. `close` ends them too.
        """
        hold = self._with_waits()
        hold.functions.pidtab_end(hold.at)

    def _check_waited(self, ordinal: int, status: int, recorded: int) -> int:
        """How many calls are recorded, if a wait was not ended."""
        if status == CLOSED:
            self._check_open()
            raise WaitingEnded(f"the waits were ended, and call {ordinal} is not recorded")
        check(status, f"wait for call {ordinal}")
        return recorded

    def _waited(self, ordinal: int, seconds: float | None) -> tuple[int, int]:
        """The status of a wait, and how many calls are recorded."""
        hold = self._with_waits()
        return self._watch.wait(ordinal, lambda until, recorded: int(hold.functions.pidtab_await(hold.at, ordinal, until, recorded)), seconds)

    def _with_waits(self) -> Hold:
        """The open table, whose end ends the waits."""
        hold = self._check_waits()
        if not self._has_waits:
            weakref.finalize(self, end_waits, weakref.ref(hold), os.getpid()).atexit = False
            self._has_waits = True
        # A close that came before this was seen has ended no wait.
        return self._check_open()

    def _end_waits(self, hold: Hold) -> None:
        """Ends all that wait at a table that is closed."""
        if self._has_waits:
            hold.functions.pidtab_end(hold.at)
