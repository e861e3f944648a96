"""Threads that many tables share, and the steps that these do there: of each table one at a time, and at once or at a time."""

import heapq
import itertools
import queue
import sys
import threading
import time
from collections.abc import Callable
from typing import NamedTuple

Job = Callable[[], object]


def work(job: Job) -> None:
    """Does a job. A fault of its own ends no thread, as that is the one of many tables."""
    try:
        job()
    except Exception:
        sys.excepthook(*sys.exc_info())


def nothing() -> None:
    """Only wakes who waits for a job."""


class Pool:
    """Threads that do jobs in the order in which they were given."""

    def __init__(self, name: str, count: int) -> None:
        # It takes no lock of Python, so that a destructor or an interrupted thread may put something here.
        self.jobs: "queue.SimpleQueue[Job | None]" = queue.SimpleQueue()
        self.threads = [threading.Thread(target=self._run, name=f"pidtab {name}", daemon=True) for _ in range(count)]

    def end(self) -> None:
        """Has the threads end behind what they have."""
        for _ in self.threads:
            self.jobs.put(None)

    def _run(self) -> None:
        while (job := self.jobs.get()) is not None:
            work(job)


class Alarm(NamedTuple):
    """When something is to be woken."""

    time: float
    number: int
    wake: Job


class Clock:
    """Jobs that one thread does at once or at their time."""

    def __init__(self) -> None:
        self.jobs: "queue.SimpleQueue[Job]" = queue.SimpleQueue()
        self._alarms: list[Alarm] = []
        self._numbers = itertools.count()

    def at(self, when: float, wake: Job) -> None:
        """Has something woken at a time; from any thread."""
        self.jobs.put(lambda: heapq.heappush(self._alarms, Alarm(when, next(self._numbers), wake)))

    def poke(self) -> None:
        """Has the time looked at."""
        if self.jobs.empty():
            self.jobs.put(nothing)

    def turn(self, until: float) -> None:
        """Waits for a job, and no longer than until the first alarm or the time that is named."""
        first = min([until, *(it.time for it in self._alarms[:1])])
        try:
            work(self.jobs.get(timeout=max(0.0, first - time.monotonic())))
        except queue.Empty:
            pass
        while self._alarms and self._alarms[0].time <= time.monotonic():
            heapq.heappop(self._alarms).wake()


class Strand:
    """A step of one table, which one thread of a pool does at a time, however often it is woken.

    The step says how many seconds are to pass before it is done again, or None, where it is to be woken.
    """

    def __init__(self, pool: Pool, clock: Clock, step: Callable[[], float | None]) -> None:
        self._pool = pool
        self._clock = clock
        self._step = step
        self._lock = threading.Lock()
        self._again = False
        self._not_before = 0.0

    def wake(self) -> None:
        """Has the step done soon. It takes no lock."""
        self._pool.jobs.put(self._run)

    def rest(self, seconds: float) -> None:
        """Has the step done in so many seconds, and not before."""
        if seconds:
            self._not_before = time.monotonic() + seconds
            self._clock.at(self._not_before, self.wake)
        else:
            self.wake()

    def _run(self) -> None:
        if time.monotonic() < self._not_before:
            return
        # Before the lock: who has it sees this behind its step.
        self._again = True
        if not self._lock.acquire(blocking=False):
            return
        try:
            self._again = False
            pause = self._step()
            if pause is not None:
                self.rest(pause)
        finally:
            self._lock.release()
        if self._again:
            self.wake()
