"""Two and three replicas of a log with troubles, by 100 seeds; and versions with a fault, each of which is found."""

import io
import unittest
from collections.abc import Callable, Iterator, Sequence
from contextlib import contextmanager
from unittest import mock

from cluster.load import Load, User, run_users, table_kind
from pidtab import Calls, Diverged, LogFault, MemoryLog, NotKnown, Process, Replicated
from pidtab.commands.replay import Comparison, Replay, read_row
from pidtab.hosts.log_entries import Asked
from pidtab.hosts.machine import Machine, Outcome, asker
from tests.ways import need_library, need_program

SEEDS = range(100)
# Of these some have each trouble.
FEW = range(12)
USERS, BATCH, CALLS = 2, 4, 60


class Round:
    """Some replicas of one log, with users; what they were answered and how they end."""

    def __init__(self, seed: int, count: int, tables: Sequence[Callable[..., Calls]] = ()) -> None:
        self.log = MemoryLog(seed)
        self.rows: list[str] = []
        self.ends: set[tuple[str, str]] = set()
        self._seed = seed
        kinds = [*tables, *[table_kind()] * count][:count]
        self._replicas = [Replicated(self.log, table=kind, patience=30) for kind in kinds]

    def run(self) -> None:
        """Has all users make their calls, with a replica that comes late."""
        try:
            users = [self._user(table, (place, user)) for place, table in enumerate(self._replicas) for user in range(USERS)]
            run_users(users)
            self._replicas.append(Replicated(self.log, table=table_kind(), patience=30))
            run_users([self._user(self._replicas[-1], "late")])
            for table in self._replicas:
                table.catch_up()
            # Not the positions: an entry that nobody needs any more may still be put again.
            self.ends = {(it.digest, it.list_text()) for it in self._replicas}
        finally:
            for table in self._replicas:
                table.close()

    def _user(self, table: Replicated, name: object) -> User:
        return User(table, Load((self._seed, name)), BATCH, CALLS, 60, self.rows.extend)

    def compare(self) -> tuple[Replay, Comparison, str]:
        """The log by one thread, and the answers beside it: with the list that it leaves."""
        replay = Replay(list(self.log.entries))
        with table_kind()(pid_max=replay.pid_max) as table:
            replay.play(table)
            listed = table.list_text()
        comparison = Comparison(replay.made)
        for row in self.rows:
            comparison.take(read_row(row))
        return replay, comparison, listed


class Cases(unittest.TestCase):
    """Needs a table."""

    @classmethod
    def setUpClass(cls) -> None:
        (need_program if table_kind() is Process else need_library)()


class Seeds(Cases):
    """Each answer is that of one thread, and all tables are equal."""

    def check(self, count: int, seeds: Sequence[int]) -> None:
        repeated = 0
        for seed in seeds:
            with self.subTest(f"seed {seed}, {count} replicas"):
                it = Round(seed, count)
                it.run()
                replay, comparison, listed = it.compare()
                calls = (count * USERS + 1) * CALLS
                self.assertEqual(comparison.say()[0], f"answers {calls}: 0 lost, 0 wrong, 0 doubled; 0 calls have none")
                self.assertEqual(comparison.say()[1], f"times {calls}: 0 out of order")
                self.assertEqual(replay.differing, [])
                self.assertEqual(it.ends, {(replay.digest.hex(), listed)})
                repeated += replay.repeated
        # The troubles were there.
        self.assertGreater(repeated, len(seeds))

    def test_two_replicas(self) -> None:
        self.check(2, SEEDS)

    def test_three_replicas(self) -> None:
        self.check(3, SEEDS)


def make(machine: Machine, asked: Asked) -> Outcome:
    """Makes the calls of an entry whatever its number is."""
    machine._sessions[asked.session] = asked.sequence - 1
    return ASK(machine, asked)


def without_dedupe(machine: Machine, asked: Asked) -> Outcome:
    """Makes an entry that was made before."""
    return make(machine, asked) if asked.sequence <= machine._sessions.get(asked.session, 0) else ASK(machine, asked)


def without_sequence(machine: Machine, asked: Asked) -> Outcome:
    """Only sees to it that an entry is not the one before once more."""
    last = machine._sessions.get(asked.session)
    return ASK(machine, asked) if last in (None, asked.sequence) else make(machine, asked)


def with_one_twice(machine: Machine, asked: Asked) -> Outcome:
    """Makes each seventh entry of a session twice, on one of the replicas."""
    outcome = ASK(machine, asked)
    if outcome.what == "made" and asked.sequence % 7 == 3 and getattr(machine.table, "is_odd", False):
        return make(machine, asked)
    return outcome


ASK = Machine._ask


def odd(pid_max: int) -> Calls:
    """A table that a fault can be for."""
    table = table_kind()(pid_max=pid_max)
    table.is_odd = True  # type: ignore[attr-defined]
    return table


class Short:
    """Has no memory for each seventh of its forks, so many times in a row. The call is not made then."""

    def __init__(self, table: Calls, times: int) -> None:
        self._ask = asker(table)
        self._times = times
        self._forks = 0

    def answers(self, lines: Sequence[bytes]) -> tuple[str, ...]:
        """The answers to lines."""
        return tuple([self.answer(line) for line in lines])

    def answer(self, line: bytes) -> str:
        """The answer to a line."""
        if line.startswith(b"fork"):
            self._forks += 1
            if self._forks % (7 + self._times) >= 7:
                return "no memory"
        return self._ask(line)


def short(times: int) -> Callable[..., Calls]:
    """Opens tables that lack memory."""

    def open_table(pid_max: int) -> Calls:
        table = table_kind()(pid_max=pid_max)
        instead = Short(table, times)
        table._answers, table._answer = instead.answers, instead.answer  # type: ignore[attr-defined, method-assign]
        return table

    return open_table


class Faults(Cases):
    """Faults that are planted are found, by the replay or by the replicas themselves. They are planted in the rules in Python, which all hosts have here."""

    def setUp(self) -> None:
        super().setUp()
        ours = mock.patch("pidtab.hosts.machines.has_replicas", return_value=False)
        ours.start()
        self.addCleanup(ours.stop)

    def is_found(self, seed: int, tables: Sequence[Callable[..., Calls]] = ()) -> bool:
        """Whether a round shows that something is wrong."""
        it = Round(seed, 2, tables)
        try:
            it.run()
        except (Diverged, LogFault, NotKnown):
            return True
        replay, comparison, listed = it.compare()
        return not comparison.is_well or bool(replay.differing) or it.ends != {(replay.digest.hex(), listed)}

    def check(self, tables: Sequence[Callable[..., Calls]] = ()) -> None:
        found = [seed for seed in FEW if self.is_found(seed, tables)]
        self.assertGreater(len(found), len(FEW) // 2)

    @contextmanager
    def fault(self, name: str, version: object) -> Iterator[None]:
        with mock.patch(name, version), mock.patch("sys.stderr", io.StringIO()):
            yield

    def test_no_fault(self) -> None:
        self.assertEqual([seed for seed in FEW if self.is_found(seed)], [])

    def test_no_dedupe(self) -> None:
        with self.fault("pidtab.hosts.machine.Machine._ask", without_dedupe):
            self.check()

    def test_a_sequence_that_is_not_looked_at(self) -> None:
        with self.fault("pidtab.hosts.machine.Machine._ask", without_sequence):
            self.check()

    def test_an_entry_applied_twice(self) -> None:
        with self.fault("pidtab.hosts.machine.Machine._ask", with_one_twice):
            self.check([odd])

    def test_no_memory_taken_for_an_answer(self) -> None:
        with self.fault("pidtab.hosts.machine.NO_MEMORY", "no such answer"):
            self.check([short(1)])

    def test_no_memory_that_passes(self) -> None:
        # By a pipe the calls behind were made already, so that a table is made anew.
        need_library()
        with mock.patch("pidtab.hosts.machine.PAUSES", (0.0, 0.0)):
            self.assertEqual([seed for seed in FEW if self.is_found(seed, [short(2)])], [])

    def test_no_memory_that_stays(self) -> None:
        opened = []

        def open_table(pid_max: int) -> Calls:
            opened.append(pid_max)
            return (short(9) if len(opened) % 2 else table_kind())(pid_max=pid_max)

        with mock.patch("pidtab.hosts.machine.PAUSES", (0.0, 0.0)), mock.patch("pidtab.hosts.replica.REPLAY_PAUSE", 0.01):
            self.assertEqual([seed for seed in FEW if self.is_found(seed, [open_table])], [])
        # Tables were thrown away, and made anew from the log.
        self.assertGreater(len(opened), len(FEW))


if __name__ == "__main__":
    unittest.main()
