"""Calls that were submitted, and what they are answered once their replica has applied them."""

import time
from collections.abc import Callable, Sequence
from concurrent.futures import Future, InvalidStateError, TimeoutError
from contextlib import suppress
from typing import TYPE_CHECKING, NamedTuple

from pidtab.changed import Changed
from pidtab.faults import NotKnown, TableClosed
from pidtab.hosts.calls import HostCall, State
from pidtab.hosts.log_entries import LONGEST_LINE, PART_BYTES

if TYPE_CHECKING:
    from pidtab.hosts.own_calls import OwnCalls

WAITS, ANSWERED = {State.QUEUED, State.ENTERED}, {State.ANSWERED}

# So many ticks of the machine's clock are a second.
TICKS = 10**9


class Receipt(NamedTuple):
    """Where calls are in the log: the session and the number of their entry, the place of the first in it, counted from 0, and how many."""

    session: int
    sequence: int
    place: int
    # In the place of the method of a tuple.
    count: int  # type: ignore[assignment]


class Part(HostCall):
    """Lines of a submit that go into one entry: a call of the machine."""

    def __init__(self, submitted: "Submitted", texts: Sequence[bytes]) -> None:
        super().__init__()
        self.submitted = submitted
        self.texts = texts
        # Once the machine has it answered.
        self.answers: Sequence[str] = ()

    @property
    def entry_size(self) -> int:
        """How many bytes it takes in an entry."""
        return sum(map(len, self.texts)) + len(self.texts)


class Submitted(Future["tuple[str, ...]"]):
    """The answers to lines that were submitted to a table on many hosts, once they are there.

    It waits on its own at most as long as the patience of the table, and then its exception is a `NotKnown`. An interrupt while one waits for it
    loses nothing: wait again. It can be cancelled until it is sent, and then its calls are not made.
    """

    # What a Future is at, which it has without a lock.
    _state: str

    def __init__(self, lines: Sequence[bytes], deadline: float, calls: "OwnCalls", is_left: Callable[[], bool]) -> None:
        super().__init__()
        # In the place of the one that a Future has, which an interrupt may leave taken.
        self._condition = Changed()
        self.deadline = deadline
        self.submitted_at = time.monotonic()
        # What has to stay open until it is answered.
        self.keeps: object = None
        self._calls = calls
        self._is_left = is_left
        self.parts = [Part(self, part) for part in split_lines(lines)]
        if not self.parts:
            self.set_result(())

    def result(self, timeout: float | None = None) -> "tuple[str, ...]":
        """The answers, as those of `Calls.answers`. In a forked child, which gets none, a `TableClosed` where they were not there before."""
        self._wait(timeout)
        return super().result(0)

    def exception(self, timeout: float | None = None) -> BaseException | None:
        """What was raised in the place of answers."""
        self._wait(timeout)
        return super().exception(0)

    def cancel(self) -> bool:
        """Has its calls not made, if nothing of it was sent. Whether that went well. A forked child cancels nothing."""
        if self._is_left():
            return False
        with self._calls.lock:
            is_cancelled = self.cancelled() or self._calls.cancel(self)
        if is_cancelled:
            super().cancel()
            self.keeps = None
        return is_cancelled

    @property
    def sent(self) -> bool:
        """Whether some of it may be in the log."""
        return any(part.state in (State.ENTERED, State.ANSWERED, State.NOT_KNOWN) for part in self.parts)

    @property
    def receipts(self) -> Sequence[Receipt]:
        """Where its calls are in the log, part by part, of those that were answered."""
        return [Receipt(part.session, part.sequence, part.place, part.lines) for part in self.parts if part.state == State.ANSWERED]

    def rows(self) -> list[str]:
        """A row for each answered call, as `pidtab-replay --answers` reads it: session, sequence and place, the line, the answer."""
        return [
            f"{part.session} {part.sequence} {place}\t{line.decode('utf-8', 'surrogateescape')}\t{answer}\n"
            for part in self.parts
            for place, (line, answer) in enumerate(zip(part.texts, part.answers), start=part.place)
        ]

    def begin(self) -> None:
        """Says that some of it may be in the log from now on."""
        if self._state == "PENDING":
            self.set_running_or_notify_cancel()

    def settle(self, why: str = "", cause: Exception | None = None) -> bool:
        """Ends it as its calls are, if these are over: whether it has no answer now, as nobody knows. What waits for it may run here, so the caller has no lock."""
        states = {part.state for part in self.parts}
        if State.CANCELLED in states:
            self._was_cancelled()
            return False
        if not states.isdisjoint(WAITS):
            return False
        self.keeps = None
        # It was ended by another thread, where both have found it over.
        with suppress(InvalidStateError):
            if states != ANSWERED:
                self.set_exception(self._not_known(why, cause))
                return True
            self.set_result(tuple([answer for part in self.parts for answer in part.answers]))
        return False

    def _was_cancelled(self) -> None:
        """Says so to who waits, also where an interrupt came before its own `cancel` has said it."""
        super().cancel()
        self.keeps = None
        with self._condition:
            if self._state == "CANCELLED":
                self.set_running_or_notify_cancel()

    def _not_known(self, why: str, cause: Exception | None) -> NotKnown:
        told = "the calls were made, or were not, or will be made yet" if self.sent else "the calls were not made"
        fault = NotKnown(f"{why}: {told}", self.sent)
        fault.__cause__ = cause
        return fault

    def _wait(self, timeout: float | None) -> None:
        """Waits until it is over."""
        self._check_owner()
        if not self._condition.wait_for(self.done, timeout):
            raise TimeoutError

    def _check_owner(self) -> None:
        # Before anything that takes a lock, which another thread of the parent may have had.
        if self._is_left() and self._state not in ("FINISHED", "CANCELLED", "CANCELLED_AND_NOTIFIED"):
            raise TableClosed("these calls are those of the parent process: a forked child gets no answer to them")


def as_sent(line: bytes) -> bytes:
    """A line as it goes into the log: of one that is too long only what shows it."""
    return line[: LONGEST_LINE + 1]


def split_lines(lines: Sequence[bytes]) -> list[list[bytes]]:
    """The lines as parts, each of which goes into one entry."""
    parts: list[list[bytes]] = []
    size = PART_BYTES
    for line in map(as_sent, lines):
        size += len(line) + 1
        if size > PART_BYTES:
            parts.append([])
            size = len(line) + 1
        parts[-1].append(line)
    return parts


def deadline_behind(patience: float) -> float:
    """When the patience is over that begins now."""
    return time.monotonic() + patience


def ticks_of(time: float) -> int:
    """A time by the clock of the machine."""
    return int(time * TICKS)
