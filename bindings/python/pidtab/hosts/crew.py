"""Who does the steps of a replica: threads of its own, or some that many replicas share."""

import threading
import time
from abc import ABC, abstractmethod
from collections.abc import Callable, Sequence
from typing import TYPE_CHECKING

from pidtab.hosts.shared_threads import Clock
from pidtab.hosts.submitted import deadline_behind

if TYPE_CHECKING:
    from pidtab.hosts.replica import Replica

# How often a close looks whether it still waits for something, in seconds.
LOOK = 0.2

# How long a close waits for its threads, which a log may hold up.
LAST_SECONDS = 10.0

CLOSED = "the table was closed"


class Crew(ABC):
    """What a replica asks of those who serve it. Any thread may ask it, and an interrupt may break off what is asked."""

    # All that do steps of the replica, and so must not wait for it.
    threads: Sequence[threading.Thread]

    @abstractmethod
    def watch_time(self) -> None:
        """Begins to fail what waits too long, and to end the replica once that is wished."""

    @abstractmethod
    def follow_log(self) -> None:
        """Begins to follow the log and to append to it."""

    @abstractmethod
    def leave_log(self) -> None:
        """The replica has stopped, and neither follows nor appends any more. This may be asked again."""

    @abstractmethod
    def tell(self) -> None:
        """Something has changed. It takes no lock."""

    @abstractmethod
    def expect(self, position: int) -> None:
        """Somebody waits until the log was read up to a position."""

    @abstractmethod
    def wish(self) -> None:
        """Has the replica end. A destructor may ask it, as it takes no lock."""

    @abstractmethod
    def wait(self) -> None:
        """Waits until the replica has ended."""

    @abstractmethod
    def do(self, job: Callable[[], object]) -> None:
        """Does something beside the steps."""


class TimedCrew(Crew):
    """One that watches the time by a clock, and ends its replica in steps. Who watches does what it has from `begin_to_end` on."""

    def __init__(self, replica: "Replica", clock: Clock) -> None:
        self.replica = replica
        self.clock = clock
        # Whether somebody has it end, and whether it has ended.
        self.wished = self.ended = False
        self._end_by = 0.0
        # Whether its session is to be ended, and whether that was tried.
        self.says_end = self.said_end = False

    @abstractmethod
    def end_session(self) -> None:
        """Has the session ended, which `has_ended_session` says."""

    def has_ended_session(self) -> None:
        """The session was ended, by one try."""
        self.said_end = True
        self.clock.poke()

    def tell(self) -> None:
        if self.replica.closing:
            self.clock.poke()

    def wish(self) -> None:
        self.wished = True
        self.clock.jobs.put(self.begin_to_end)

    def begin_to_end(self) -> None:
        """Has what was submitted answered, and then the replica end."""
        if not (self.replica.closing or self.ended):
            self._end_by = deadline_behind(self.replica.patience)
            self.replica.begin_to_end()

    def next_time(self) -> float:
        """When it is to be looked at."""
        if self.replica.closing:
            return min(self._end_by, time.monotonic() + LOOK)
        return self.replica.first_deadline()

    def look(self) -> None:
        """Fails what waits longer than the patience, and goes on with an end."""
        if time.monotonic() >= self.replica.first_deadline():
            self.replica.expire()
        if self.replica.closing and self._is_to_stop():
            self._stop()

    def _is_to_stop(self) -> bool:
        """Whether nothing more is waited for: answers, and then the end of the session."""
        replica, is_over = self.replica, time.monotonic() >= self._end_by
        if self.says_end:
            return self.said_end or replica.stopped or replica.hurried or is_over
        if not (is_over or replica.is_unwanted()):
            return False
        if not replica.is_idle():
            return True
        self.says_end, self._end_by = True, deadline_behind(LAST_SECONDS)
        self.end_session()
        return False

    def _stop(self) -> None:
        try:
            self.replica.stop(None, CLOSED)
        finally:
            self.ended = True
            self.replica.changed.notify_all()
