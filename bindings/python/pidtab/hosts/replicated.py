"""One table on many hosts: each applies the calls of one log, in its order, to a table of its own."""

from collections.abc import Callable, Iterable, Sequence
from contextlib import suppress
from operator import index
from typing import TypeVar

from pidtab.answers import Form, Stat
from pidtab.bounds import DEFAULT_PID_MAX, check_pid_max, check_seconds, check_timeout
from pidtab.calls import Call, Calls, as_line
from pidtab.faults import LibraryFault, NotKept
from pidtab.hosts.crew import Crew
from pidtab.hosts.log import CutLog, Log
from pidtab.hosts.monitoring import Changes, Numbers
from pidtab.hosts.replica import Replica
from pidtab.hosts.replica_threads import OwnThreads
from pidtab.hosts.submitted import Submitted, deadline_behind
from pidtab.labels import Labelled
from pidtab.native import ROOT_INIT, Ask, AskableCalls, Would, pack
from pidtab.table import Table

# Seconds until a call that has no answer is given up.
PATIENCE = 60.0

T = TypeVar("T")


class Fresh:
    """A table on many hosts each of whose questions first waits until this host is not behind the log."""

    def __init__(self, table: "Replicated") -> None:
        self._table = table
        self._question = table._question

    def __repr__(self) -> str:
        return repr(self._table)

    def _check_owner(self) -> None:
        self._table.catch_up()


class ReplicaAsk(Ask):
    """Queries of this host's own table, which may be behind the log; by `ask(now=True)` those that are not behind it.

    They are no calls: nothing goes into the log, and no later id is shifted.
    """

    def __init__(self, table: "Replicated", now: bool = False) -> None:
        asked: Fresh | Replicated = Fresh(table) if now else table
        super().__init__(asked)
        self._host = table

    def __call__(self, *, now: bool = False) -> "ReplicaAsk":
        """The same queries; with `now`, each first waits until this host has all that the log has: it asks the log for its end."""
        return ReplicaAsk(self._host, now)


class Replicated(Labelled, AskableCalls):
    """One table on many hosts, by a log that they share: `Replicated(log)` on each of them is the same table.

    A call goes into the log, is made on each host in the log's order, and is answered when it was made here. It is made exactly once as long as
    this object lives, also where the log answers late or twice. All queries of `Calls` are such calls; those of `ask` are this host's alone.

    Where the log does not answer for `patience` seconds, a call raises `NotKnown`, and the table goes on once the log does. `Diverged`, `LogFault`
    and, where this host has no memory for what others have made, a MemoryError stop it: then each method raises the same again. What waited
    meanwhile gets a `NotKnown`. Nothing is lost by any of them: the log has all calls, and a new `Replicated` makes them again.

    Opening it loads the newest snapshot that the log has, plays what is behind it, and waits for that.
    """

    # What has to stay as long as this does.
    _keeps: object = None

    def __init__(
        self,
        log: Log,
        *,
        pid_max: int = DEFAULT_PID_MAX,
        table: Callable[..., Calls] = Table,
        patience: float = PATIENCE,
        checks: bool = False,
    ) -> None:
        """Opens the table of a log, or begins one in a log that is empty.

        `table` opens this host's table when it is called with `pid_max=..`: `Table`, `Process`, or a function. The log stays the caller's.
        With `checks` this host checks the snapshots of a `pidtab-keep`, and all of it waits for a dump of the table then.
        """
        if not isinstance(log, Log):
            raise TypeError(f"a log is a pidtab.Log, as an EtcdLog is, not {type(log).__name__}")
        self._begin(log, pid_max, table, patience, checks, OwnThreads)

    @classmethod
    def _of(
        cls, keeps: object, log: Log, pid_max: int, table: Callable[..., Calls], patience: float, checks: bool, hire: Callable[[Replica], Crew]
    ) -> "Replicated":
        """Opens a table that a crew serves; something has to stay as long as it does."""
        opened = cls.__new__(cls)
        opened._keeps = keeps
        opened._begin(log, pid_max, table, patience, checks, hire)
        return opened

    def _begin(
        self, log: Log, pid_max: int, table: Callable[..., Calls], patience: float, checks: bool, hire: Callable[[Replica], Crew]
    ) -> None:
        """Opens the table, which a crew serves."""
        if checks and not isinstance(log, CutLog):
            raise TypeError(f"a {type(log).__name__} has no snapshots to check")
        self.pid_max = check_pid_max(pid_max)
        self.log = log
        self.patience = check_seconds("patience", patience)
        self._replica = Replica(log, self.pid_max, opener(table, self.pid_max), self.patience, hire, checks)
        # Those of this host alone.
        self._labels = self._replica.labels
        try:
            self._replica.start()
        except BaseException:
            self._replica.abandon()
            raise
        # It takes no lock, as it may run anywhere.
        self._keep(self._replica.crew.wish)

    def submit(self, texts: Iterable[str]) -> Submitted:
        """Has the calls on lines made: a `Future` of what `answers` would answer. All that waits goes into the log as one entry.

        So who submits much before waiting pays the log's time once. Its `result` waits on its own no longer than the patience. Where 100,000 of them
        have no answer yet, this is a `NotKnown` that was not sent.
        """
        if isinstance(texts, (str, bytes, bytearray)):
            raise TypeError(f"submit takes many lines, each a str, not one {type(texts).__name__}")
        return self._submit([as_line(text) for text in texts], lambda submitted: submitted)

    @property
    def ask(self) -> ReplicaAsk:
        """Queries that are no calls, of this host's own table: `table.ask.getpid(1)`, and `table.ask(now=True).getpid(1)`, which is not behind the log.

        A thread sees what it was answered before. They need a `Table`; a `Process` answers none.
        """
        self._check_owner()
        return ReplicaAsk(self)

    def catch_up(self) -> int:
        """Waits until this host has all that the log had when this was called: the position. Then `list`, `tree` and `ask` are not behind it."""
        super()._check_owner()
        return self._replica.catch_up()

    def wait_changed(self, position: int, timeout: float | None = None) -> int:
        """Waits until this host has applied an entry behind a position, of whichever host: the position then. A TimeoutError after so many seconds."""
        replica, behind = self._replica, index(position)
        replica.check_thread()
        self._check_owner()
        seconds = None if timeout is None else check_timeout("timeout", timeout)
        if not replica.changed.wait_for(lambda: replica.stopped or replica.place[0] > behind, seconds):
            raise TimeoutError(f"nothing has come behind position {behind} in {seconds} seconds")
        self._check_owner()
        return replica.place[0]

    def follow(self) -> Changes:
        """Each call of all hosts from now on, with its answer, in the log's order: `for change in table.follow()`. Any number of them may be taken."""
        self._check_owner()
        return Changes(self._replica)

    @property
    def numbers(self) -> Numbers:
        """How this host does. `numbers.prometheus("web")` is the text for Prometheus. The same troubles go to the logger `pidtab` of `logging`."""
        super()._check_owner()
        return self._replica.numbers()

    @property
    def would(self) -> Would:
        """What each call would answer on this host's own table, as `Table.would`: it may be behind the log, and others may be first."""
        self._check_owner()
        return Would(self)

    def dump(self) -> str:
        """All that there is to know of this host's own table, as `Table.dump`."""
        super()._check_owner()
        return self._replica.read(lambda table: as_table(table).dump())

    def copy(self) -> Table:
        """A table of one's own that stands as this host's does, with its labels, and goes its own way from here on."""
        copied = Table.from_dump(self.dump(), self._replica.read(lambda table: as_table(table).library))
        copied._labels = self._labels.copy()
        return copied

    @property
    def position(self) -> int:
        """The position of the last entry of the log that this host has applied."""
        return self._replica.place[0]

    @property
    def digest(self) -> str:
        """The SHA-256 of all calls and answers up to the position, in hexadecimal. It is the same on each host."""
        return self._replica.place[1]

    def digest_at(self, position: int) -> str:
        """The digest behind the entry at a position, of the last 4,096 entries; else a `NotKept`. So hosts that are not equally far can be compared."""
        self._check_owner()
        found = self._replica.machine.digest_at(index(position))
        if found is None:
            raise NotKept(f"no digest is kept for position {position}: it is too old, not reached yet, or none of an entry")
        return found

    def close(self) -> None:
        """Waits, at most as long as the patience, until what was submitted is answered, and ends. The log stays as it is, and open.

        What has no answer then gets a `NotKnown`, as it does where an interrupt ends the wait. A second time nothing is done.
        """
        if not self._left:
            self._replica.close()
            if self._finish is not None:
                self._finish.detach()

    def _settings(self) -> str:
        return f"pid_max={self.pid_max} position={self.position}"

    def _is_open(self) -> bool:
        return not (self._replica.closing or self._replica.stopped)

    def _leave(self) -> None:
        super()._leave()
        self._replica.left = True

    def _check_owner(self) -> None:
        super()._check_owner()
        self._replica.check_open()

    def _submit(self, lines: Sequence[bytes], answer: Callable[[Submitted], T]) -> T:
        """Has calls made, and answers something of them."""
        super()._check_owner()
        # It holds the replica alone, so that a table that nobody has ends.
        replica = self._replica
        submitted = Submitted(lines, deadline_behind(self.patience), replica.calls, lambda: replica.left)
        if not submitted.done():
            submitted.keeps = self
        try:
            self._replica.submit(submitted)
            return answer(submitted)
        except BaseException:
            # An interrupt: what was not sent is not made.
            submitted.cancel()
            raise

    def _answers(self, lines: Sequence[bytes]) -> tuple[str, ...]:
        self._replica.check_thread()
        return self._submit(lines, Submitted.result)

    def _make(self, call: Call, form: Form[T]) -> T:
        # A number that does not fit is told without a call.
        pack(call)
        return form.read(self.line(call.line))

    def _question(self, name: str) -> Callable[..., int]:
        super()._check_owner()
        return lambda *taken: self._replica.read(lambda table: as_table(table)._question(name)(*taken))

    def _place(self) -> int:
        self._check_owner()
        return self._replica.machine.calls

    def _look(self, task: int) -> Stat:
        return self.ask.stat(ROOT_INIT, task)

    def _list_text(self) -> str:
        super()._check_owner()
        return self._replica.read(lambda table: table._list_text())


def as_table(table: Calls) -> Table:
    """A host's own table, if it is one by the library."""
    if not isinstance(table, Table):
        raise LibraryFault("only a table by the library answers queries that are no calls: open it with table=pidtab.Table")
    return table


def opener(table: Callable[..., Calls], pid_max: int) -> Callable[[], Calls]:
    """Opens a host's own table."""
    if not callable(table):
        raise TypeError(f"table is what opens a table, as pidtab.Table is, not {type(table).__name__}")

    def open_table() -> Calls:
        opened = table(pid_max=pid_max)
        if not isinstance(opened, Calls) or isinstance(opened, Replicated):
            with suppress(AttributeError):
                opened.close()
            raise TypeError(f"table has to open a pidtab.Table or another pidtab.Calls of its own, not {type(opened).__name__}")
        return opened

    return open_table
