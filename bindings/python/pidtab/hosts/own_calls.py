"""The calls of one host: what the proved machine says of them is done here."""

import itertools
from collections import deque
from collections.abc import Iterator, Sequence

from pidtab.changed import Changed
from pidtab.hosts import log_faults
from pidtab.hosts.calls import HostCall, HostCalls, LogOutcome, Put, PutStep, Reading, State, Taken, Told
from pidtab.hosts.log_entries import OPEN, SHORT_DIGEST, Asked, write_calls
from pidtab.hosts.machine import Outcome
from pidtab.hosts.submitted import Part, Submitted, ticks_of

OUTCOMES = {"made": LogOutcome.MADE, "repeated": LogOutcome.REPEATED, "gone": LogOutcome.GONE, "gap": LogOutcome.GAP}


class OwnCalls:
    """What was submitted to one host, and is not over. Who asks anything here has the lock.

    An interrupt comes into a thread of a caller alone, and might break off what takes several steps. So a caller only adds and cancels, and threads
    of the crew do the rest. They are told what has ended, and settle it once they have given up the lock.
    """

    def __init__(self, library: str, lock: Changed) -> None:
        self.lock = lock
        self._host = HostCalls(library)
        self._numbers = self._host.numbers
        # What was added, of which the machine was not told yet; and what it was told of, in this order, until it is over.
        self._added: deque[Submitted] = deque()
        self._waiting: deque[Submitted] = deque()
        # The calls that are not over, by their tickets.
        self._live: dict[int, Part] = {}
        # What is put, as the machine has said last; the parts of the entry that is made up; and the bytes of the one that is put.
        self._step = PutStep()
        self._parts: list[Part] = []
        self._entry = b""
        # Stands for each call that is over.
        self._over = HostCall()
        self._host.cancel(self._over)

    @property
    def session(self) -> int:
        """The one that is open, or 0."""
        return int(self._numbers.session)

    @property
    def waiting(self) -> Iterator[Submitted]:
        """What may have no answer yet, in the order in which it was submitted."""
        return itertools.chain(self._waiting, self._added)

    @property
    def has_new(self) -> bool:
        """Whether something waits for its turn. It needs no lock, as what follows."""
        return bool(self._added) or self._numbers.taken < self._numbers.submitted

    @property
    def may_put(self) -> bool:
        """Whether the machine is to be asked what is put."""
        return self.has_new or self._numbers.is_putting

    @property
    def is_idle(self) -> bool:
        """Whether nothing waits for an answer."""
        return not (self._added or self._live)

    # What a caller does, in one step each.

    def __len__(self) -> int:
        return len(self._waiting) + len(self._added)

    def add(self, submitted: Submitted) -> None:
        """Has calls made."""
        if submitted.parts:
            self._added.append(submitted)

    def cancel(self, submitted: Submitted) -> bool:
        """Cancels calls, if no entry has the first of them. The others follow it in their turn."""
        return bool(submitted.parts) and self._host.cancel(submitted.parts[0])

    # What is put.

    def next_entry(self, place: tuple[int, str], ended: list[Submitted]) -> bytes | None:
        """What goes into the log now, if anything does. After a try with an unknown end that is the same again. `place` is where this host is."""
        self._admit(ended)
        step = self._step
        self._host.next_put(step)
        while step.kind in (Put.TAKE, Put.SEAL):
            if step.kind == Put.TAKE:
                self._take(step.first, ended)
            else:
                self._seal(place)
            self._host.next_put(step)
        if step.kind == Put.REST:
            return None
        return self._entry if step.kind == Put.ENTRY else OPEN

    def sent(self, position: int) -> None:
        """The log has answered that it has that entry."""
        if self._step.kind == Put.OPEN:
            self._host.opened(position)
        else:
            self._host.acknowledge(self._step.first, self._step.second)
            self._entry = b""

    def _admit(self, ended: list[Submitted]) -> None:
        """Tells the machine of what was added, unless it was cancelled before."""
        while self._added:
            submitted = self._added.popleft()
            if submitted.parts[0].state == State.CANCELLED:
                ended.append(submitted)
                continue
            self._waiting.append(submitted)
            for part in submitted.parts:
                if self._host.submit(part, len(part.texts), part.entry_size, ticks_of(submitted.deadline)):
                    self._live[part.ticket] = part

    def _take(self, ticket: int, ended: list[Submitted]) -> None:
        """Gives the call that has its turn to the entry that is made up."""
        part = self._live.get(ticket)
        if part is None:
            self._host.take(self._over_at(ticket))
            return
        if part.submitted.parts[0].state == State.CANCELLED:
            self._host.cancel(part)
        taken = self._host.take(part)
        if taken in (Taken.BEGINS, Taken.JOINS):
            self._parts.append(part)
            part.submitted.begin()
        elif taken == Taken.PASSES:
            del self._live[ticket]
            ended.append(part.submitted)

    def _seal(self, place: tuple[int, str]) -> None:
        """Has the entry put that is made up."""
        self._host.seal()
        first, (position, digest) = self._parts[0], place
        lines = [line for part in self._parts for line in part.texts]
        self._entry = write_calls(Asked(first.session, first.sequence, position, digest[:SHORT_DIGEST], lines))
        self._parts = []

    # What is read. Each answers what has ended by it.

    def read(self, outcome: Outcome) -> list[Submitted]:
        """An entry of calls was read, of which the log has made this."""
        reading = self._host.read(OUTCOMES[outcome.what], outcome.session, outcome.sequence)
        if reading == Reading.MISSES:
            raise log_faults.lost_entry(outcome.session, outcome.sequence)
        return self._tell(outcome.answers)

    def load(self, position: int, last: int | None) -> list[Submitted]:
        """A snapshot was loaded, with the last number of this host's session, or none where that is not open."""
        if self._host.load(position, last is not None, last or 0) == Reading.MISSES:
            raise log_faults.foreign_entry(position, self.session, last)
        return self._tell()

    def expire(self, time: float) -> list[Submitted]:
        """Gives up what is late, and lets go what is over."""
        ended: list[Submitted] = []
        self._admit(ended)
        while self._waiting:
            first = self._waiting[0]
            if not first.done():
                if not all([self._host.expire(part, ticks_of(time)) for part in first.parts]):
                    break
                self._forget(first)
                ended.append(first)
            self._waiting.popleft()
        return ended

    def drop_over(self) -> None:
        """Lets go what is over, of what has waited the longest."""
        while self._waiting and self._waiting[0].done():
            self._waiting.popleft()

    def stop(self) -> list[Submitted]:
        """Nothing is put any more."""
        ended: list[Submitted] = []
        self._admit(ended)
        self._host.stop()
        self._waiting.clear()
        return ended + self._tell()

    def _tell(self, answers: Sequence[str] = ()) -> list[Submitted]:
        """Tells calls what they are told now."""
        ended = []
        while self._host.is_telling():
            ticket = self._numbers.told
            part = self._live.get(ticket)
            told = self._host.tell(self._over_at(ticket) if part is None else part)
            if part is None or told == Told.ENDS:
                continue
            del self._live[ticket]
            if told == Told.ANSWERS:
                part.answers = answers[part.place : part.place + part.lines]
            elif told != Told.PASSES:
                self._forget(part.submitted)
            ended.append(part.submitted)
        return ended

    def _forget(self, submitted: Submitted) -> None:
        """Nobody waits for any of these calls any more."""
        for part in submitted.parts:
            self._host.give_up(part)
            if self._live.get(part.ticket) is part:
                del self._live[part.ticket]

    def _over_at(self, ticket: int) -> HostCall:
        """What stands for the call with a ticket, which is over."""
        self._over.ticket = ticket
        return self._over
