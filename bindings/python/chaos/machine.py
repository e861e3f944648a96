"""A host by the proved machine that keeps each of its calls, and does one thing after another: for `test_machine.py`."""

from collections.abc import Sequence

from pidtab.hosts.calls import HostCall, HostCalls, LogOutcome, Put, PutStep, Reading, Taken, Told


class MachineHost:
    """What the machine says has to be done is done here, and kept to be looked at."""

    def __init__(self, library: str) -> None:
        self._host = HostCalls(library)
        self.calls: list[HostCall] = []
        # The tickets in the entry that is made up, or put.
        self.entry: list[int] = []

    def submit(self, lines: int, size: int, deadline: int) -> HostCall:
        """Has a call made."""
        call = HostCall()
        assert self._host.submit(call, lines, size, deadline)
        self.calls.append(call)
        return call

    def cancel(self, calls: Sequence[HostCall]) -> bool:
        """Cancels the calls of one submit, if no entry has the first one."""
        if not self._host.cancel(calls[0]):
            return False
        assert all([self._host.cancel(it) for it in calls[1:]])
        return True

    def give_up(self, calls: Sequence[HostCall]) -> None:
        """Nobody waits for them any more."""
        for it in calls:
            self._host.give_up(it)

    def expire(self, calls: Sequence[HostCall], time: int) -> bool:
        """Gives the calls of one submit up, if they are late."""
        return all([self._host.expire(it, time) for it in calls])

    def next_entry(self) -> tuple[Put, int, int]:
        """What goes into the log now: nothing, the opening of a session, or the entry with a session and a number."""
        step = PutStep()
        while True:
            self._host.next_put(step)
            if step.kind == Put.TAKE:
                self._take(self.calls[step.first])
            elif step.kind == Put.SEAL:
                assert self._host.seal()
            else:
                return Put(step.kind), step.first, step.second

    def _take(self, call: HostCall) -> None:
        taken = self._host.take(call)
        assert taken != Taken.REFUSED
        if taken == Taken.BEGINS:
            self.entry = []
        if taken in (Taken.BEGINS, Taken.JOINS):
            assert call.place == sum(self.calls[it].lines for it in self.entry)
            self.entry.append(call.ticket)

    def opened(self, session: int) -> bool:
        """The log has opened a session."""
        return self._host.opened(session)

    def acknowledge(self, session: int, sequence: int) -> bool:
        """The log has the entry."""
        return self._host.acknowledge(session, sequence)

    def read(self, outcome: LogOutcome, session: int, sequence: int) -> list[HostCall]:
        """An entry was read: the calls that are told that nobody knows."""
        assert self._host.read(outcome, session, sequence) not in (Reading.BUSY, Reading.MISSES)
        return self._tell()

    def load(self, position: int, last: int | None) -> list[HostCall]:
        """A snapshot was loaded: the calls that are told that nobody knows."""
        assert self._host.load(position, last is not None, last or 0) not in (Reading.BUSY, Reading.MISSES)
        return self._tell()

    def stop(self) -> None:
        """Each call that is not over is told."""
        self._host.stop()
        self._tell()

    def _tell(self) -> list[HostCall]:
        lost = []
        while self._host.is_telling():
            call = self.calls[self._host.numbers.told]
            told = self._host.tell(call)
            assert told != Told.REFUSED
            if told == Told.LOSES:
                lost.append(call)
        return lost

    @property
    def session(self) -> int:
        """The session that is open, or 0."""
        return int(self._host.numbers.session)
