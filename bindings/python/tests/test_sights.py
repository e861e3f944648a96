"""What a user of a table sees of one on many hosts too: changes, numbers, labels, what a call would answer, a text and a copy."""

import logging
import threading
import time
import unittest
from unittest import mock

from pidtab import MemoryLog, NotKept, NotKnown, Replicated, Table, TableClosed
from pidtab.calls import Calls
from pidtab.hosts.monitoring import Change
from tests.keeping import LONG, Keeping
from tests.stand_in import StandIn
from tests.test_replicated import Flaky
from tests.ways import need_calls, need_library


def labels_of(table: Replicated | Table) -> dict[int, str]:
    """The labels of a list."""
    return {it.root: it.label for it in table.list().tasks if it.label}


def setUpModule() -> None:
    need_calls()


class FlakyLog(MemoryLog):
    """A log that may hold appends up, or refuse them."""

    def __init__(self) -> None:
        super().__init__()
        self.goes = threading.Event()
        self.goes.set()
        self.refuses: OSError | None = None

    def append(self, entry: bytes) -> int:
        self.goes.wait(LONG)
        if self.refuses is not None:
            raise self.refuses
        return super().append(entry)


class Hosts(unittest.TestCase):
    """Hosts of one log in memory."""

    table: type[Calls] = StandIn

    def setUp(self) -> None:
        self.log = MemoryLog()

    def open(self, log: MemoryLog | None = None, patience: float = LONG) -> Replicated:
        """One more host."""
        table = Replicated(log or self.log, table=type(self).table, patience=patience)
        self.addCleanup(table.close)
        return table


class Follows(Hosts):
    """Each change of all hosts, once and in order."""

    def test_each_call_of_all_hosts(self) -> None:
        one, two, viewer = self.open(), self.open(), self.open()
        changes = viewer.follow()
        one.answers(["fork 1", "getpid 2"])
        two.answers(["hello"])
        found = [next(changes) for _ in range(2)]
        self.assertEqual([it.calls for it in found], [(("fork 1", "child 2 root 2"), ("getpid 2", "2")), (("hello", "bad line"),)])
        self.assertEqual([it.sequence for it in found], [1, 1])
        self.assertNotEqual(found[0].session, found[1].session)
        self.assertLess(found[0].position, found[1].position)
        # From now on, and each feed on its own.
        later = viewer.follow()
        one.fork(1)
        self.assertEqual(next(later), next(changes))

    def test_by_many_seeds(self) -> None:
        for seed in range(6):
            self.log = MemoryLog(seed)
            hosts = [self.open() for _ in range(3)]
            feeds = [it.follow() for it in hosts]
            for number in range(20):
                hosts[number % 3].answers(["fork 1", f"getpid {number + 2}"])
            for it in hosts:
                it.catch_up()
            told = [[next(feed) for _ in range(20)] for feed in feeds]
            self.assertEqual(told[0], told[1])
            self.assertEqual(told[0], told[2])
            self.assertEqual([it.calls[0][1] for it in told[0]], [f"child {it} root {it}" for it in range(2, 22)])
            self.assertEqual(sorted({it.position for it in told[0]}), [it.position for it in told[0]])
            for it in hosts:
                it.close()

    def test_it_ends(self) -> None:
        table = self.open()
        changes, other = table.follow(), table.follow()
        threading.Timer(0.2, table.close).start()
        self.assertEqual(list(changes), [])
        other.close()
        self.assertEqual(list(other), [])
        with self.assertRaises(TableClosed):
            table.follow()

    def test_one_that_is_closed_while_it_waits(self) -> None:
        table = self.open()
        changes = table.follow()
        threading.Timer(0.2, changes.close).start()
        self.assertEqual(list(changes), [])
        self.assertEqual(table.fork(1).root, 2)
        self.assertEqual(table._replica.feeds, [])

    def test_one_that_nobody_takes(self) -> None:
        table = self.open()
        with mock.patch("pidtab.hosts.monitoring.MOST_CHANGES", 5):
            changes = table.follow()
            for _ in range(7):
                table.fork(1)
            with self.assertRaisesRegex(NotKept, "more than 5 changes were not taken, and are lost"):
                next(changes)

    def test_a_table_that_is_made_anew(self) -> None:
        tables = [Flaky(32768, 0), Flaky(32768, 0)]
        rest = iter(tables)
        table = Replicated(self.log, table=lambda pid_max: next(rest), patience=LONG)
        self.addCleanup(table.close)
        changes = table.follow()
        table.fork(1)
        # So often it has no memory, and then the table is made anew.
        tables[0].left = 99
        with mock.patch("pidtab.hosts.machine.PAUSES", (0.0, 0.01)), mock.patch("pidtab.hosts.replica.REPLAY_PAUSE", 0.01):
            self.assertEqual(table.fork(1).root, 3)
        table.catch_up()
        self.assertEqual([next(changes).calls[0][1] for _ in range(2)], ["child 2 root 2", "child 3 root 3"])
        self.assertEqual(table.numbers.replays, 1)

    def test_a_wait_for_others(self) -> None:
        one, two = self.open(), self.open()
        two.catch_up()
        behind = two.position
        with self.assertRaisesRegex(TimeoutError, f"nothing has come behind position {behind} in 0.1 seconds"):
            two.wait_changed(behind, 0.1)
        threading.Timer(0.2, lambda: one.fork(1)).start()
        self.assertGreater(two.wait_changed(behind, LONG), behind)
        threading.Timer(0.2, two.close).start()
        with self.assertRaises(TableClosed):
            two.wait_changed(10**9)


class Snapshots(Keeping):
    """A snapshot in the place of changes is told."""

    def test_it_is_told(self) -> None:
        table, keeper, late = self.open(), self.keep(), self.open()
        changes = late.follow()
        late._replica.feed(Change(7, 0, 0, ()))
        self.assertEqual(next(changes), (7, 0, 0, ()))
        self.assertIsNone(table.numbers.snapshot_age)
        self.fill(table)
        keeper.save()
        table.catch_up()
        age = table.numbers.snapshot_age
        assert age is not None
        self.assertLess(age, LONG)
        self.fill(table)
        keeper.save()
        self.assertIsNotNone(self.open().numbers.snapshot_age)


class Bounds(Hosts):
    """What is counted, and how much may wait."""

    def test_a_submit_has_a_bound(self) -> None:
        log = FlakyLog()
        table = self.open(log)
        table.fork(1)
        log.goes.clear()
        with mock.patch("pidtab.hosts.replica.MOST_WAITING", 3):
            asked = [table.submit(["fork 1"]) for _ in range(3)]
            with self.assertRaisesRegex(NotKnown, "^3 submits wait for the log already: the calls were not made$") as raised:
                table.submit(["fork 1"])
            self.assertFalse(raised.exception.sent)
            self.assertEqual(table.numbers.waiting, 3)
            self.assertGreater(table.numbers.lag, 0)
            log.goes.set()
            self.assertEqual([it.result()[0] for it in asked], [f"child {it} root {it}" for it in (3, 4, 5)])
            self.assertEqual(table.fork(1).root, 6)
        self.assertEqual((table.numbers.waiting, table.numbers.lag), (0, 0.0))

    def test_numbers(self) -> None:
        log = FlakyLog()
        table = self.open(log, patience=1.0)
        table.fork(1)
        log.refuses = ConnectionRefusedError(111, "Connection refused")
        with self.assertLogs("pidtab", logging.WARNING) as said, self.assertRaises(NotKnown):
            table.fork(1)
        self.assertRegex(said.output[0], "WARNING:pidtab:.* does not answer, and is asked again: .*Connection refused")
        self.assertEqual(len(said.output), 1)
        log.refuses = None
        found = table.numbers
        self.assertEqual((found.not_known, found.waiting), (1, 0))
        self.assertGreater(found.retries, 1)
        table.fork(1)
        end = time.monotonic() + LONG
        while table.numbers.trouble and time.monotonic() < end:
            time.sleep(0.01)
        self.assertEqual(table.numbers.trouble, "")
        text = table.numbers.prometheus('a "b"')
        self.assertIn('# TYPE pidtab_not_known_total counter\npidtab_not_known_total{table="a \\"b\\""} 1\n', text)
        self.assertRegex(text, r'(?m)^pidtab_snapshot_age_seconds\{table="a \\"b\\""\} nan$')
        self.assertEqual(text.count("\n"), 3 * 10)
        for line in text.splitlines():
            self.assertRegex(line, r'^(# (HELP|TYPE) pidtab_[a-z_]+ .+|pidtab_[a-z_]+\{table="a \\"b\\""\} [0-9.]+|.* nan)$')


class OfATable(Hosts):
    """What needs a table by the library."""

    table = Table

    def setUp(self) -> None:
        need_library()
        super().setUp()

    def test_a_text_and_a_copy(self) -> None:
        one, two = self.open(), self.open()
        one.answers(["fork 1 new", "mk 0", "fork 2"])
        two.catch_up()
        with Table() as alone:
            alone.answers(["fork 1 new", "mk 0", "fork 2"])
            self.assertEqual({one.dump(), two.dump()}, {alone.dump()})
        one.label(2, "web")
        copied = one.copy()
        self.addCleanup(copied.close)
        self.assertEqual(copied.dump(), one.dump())
        self.assertEqual(labels_of(copied), {2: "web"})
        copied.fork(1)
        self.assertNotEqual(copied.dump(), one.dump())

    def test_what_a_call_would_answer(self) -> None:
        one = self.open()
        position = one.position
        self.assertEqual(one.would.fork(1).root, 2)
        self.assertEqual(one.position, position)
        self.assertEqual(one.fork(1).root, 2)
        self.assertEqual(one.would.fork(1).root, 3)

    def test_labels_are_of_one_host(self) -> None:
        one, two = self.open(), self.open()
        self.assertEqual(one.fork(1).root, 2)
        one.label(2, "web")
        self.assertEqual((labels_of(one), labels_of(two)), ({2: "web"}, {}))
        one.fork(1)
        self.assertEqual(labels_of(one), {2: "web"})
        one.label(2, None)
        self.assertEqual(labels_of(one), {})

    def test_a_number_of_another_task(self) -> None:
        table = Replicated(MemoryLog(), pid_max=301)
        self.addCleanup(table.close)
        # After the greatest number come those from 300 on.
        while table.fork(1).root != 300:
            pass
        table.label(300, "web")
        self.assertEqual(labels_of(table), {300: "web"})
        table.answers(["exit 300 0", "wait 1 any", "fork 1"])
        self.assertEqual(table.list().tasks[-1].root, 300)
        self.assertEqual(labels_of(table), {})


if __name__ == "__main__":
    unittest.main()
