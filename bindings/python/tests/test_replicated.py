"""One table on many hosts, by a log in memory and a table in pure Python: what is answered, what is refused, and what an end or an interrupt leaves."""

import concurrent.futures
import contextlib
import copy
import gc
import os
import pickle
import ssl
import threading
import time
import unittest
import weakref
from collections.abc import Callable, Iterator, Sequence
from concurrent.futures import CancelledError
from types import FrameType
from unittest import mock

import pidtab
from pidtab import Diverged, EtcdLog, Following, LibraryFault, LogFault, MemoryLog, NotKept, NotKnown, Replicated, TableClosed
from pidtab.hosts import calls
from pidtab.hosts.log_entries import MOST_SESSIONS, OPEN, Asked, Settings, read_entry, write_calls, write_end, write_settings
from pidtab.hosts.memory_log import MemoryFollowing
from tests.alarms import alarms
from tests.stand_in import StandIn
from tests.test_ends import OTHERS, in_child, run_python
from tests.test_interrupts import CallInterrupter, interrupts
from tests.ways import need_calls

SETTINGS = write_settings(Settings(2, 32768, 1))
NO_DIGEST = "0" * 16

# Longer than any answer of a log that goes, in seconds.
LONG = 20.0

PACKAGE = os.path.dirname(pidtab.__file__)

# What a caller's thread runs, with what of the library has locks.
FILES = {
    *(os.path.join(PACKAGE, f"{name}.py") for name in ("calls", "changed")),
    *(os.path.join(PACKAGE, "hosts", f"{name}.py") for name in ("calls", "memory_log", "own_calls", "replica", "replicated", "submitted")),
    concurrent.futures._base.__file__,
    contextlib.__file__,
    threading.__file__,
}


def interrupt_package(number: int, frame: FrameType | None) -> None:
    """The handler of a signal that raises, but only in the package and in what that has called: a test is not what is tested."""
    while frame is not None:
        if frame.f_code.co_filename.startswith(PACKAGE):
            raise KeyboardInterrupt
        frame = frame.f_back


def tell_hang(number: int, frame: FrameType | None) -> None:
    """The handler of a signal that ends a test."""
    raise AssertionError(f"no answer within {LONG} seconds")


def setUpModule() -> None:
    need_calls()


class SwitchedLog(MemoryLog):
    """A log that answers no append and no end while it is off."""

    def __init__(self) -> None:
        super().__init__()
        self.on = threading.Event()
        self.on.set()
        self.tries = 0

    def append(self, entry: bytes) -> int:
        self.tries += 1
        self._check()
        return super().append(entry)

    def end(self) -> int:
        self._check()
        return super().end()

    def _check(self) -> None:
        if not self.on.is_set():
            raise ConnectionRefusedError(111, "Connection refused")


class Hosts(unittest.TestCase):
    """Opens replicas, which are closed after the test."""

    def setUp(self) -> None:
        self.log = SwitchedLog()
        self.addCleanup(self.log.on.set)

    def open(self, table: Callable[..., pidtab.Calls] = StandIn, patience: float = LONG, pid_max: int = 32768) -> Replicated:
        """One more replica."""
        opened = Replicated(self.log, table=table, patience=patience, pid_max=pid_max)
        self.addCleanup(opened.close)
        return opened

    def wait_until(self, holds: Callable[[], bool]) -> None:
        """Waits for what comes soon."""
        end = time.monotonic() + LONG
        while not holds():
            self.assertLess(time.monotonic(), end)
            time.sleep(0.01)


class Answers(Hosts):
    """Calls of several hosts on one table."""

    def test_two_hosts(self) -> None:
        one, two = self.open(), self.open()
        self.assertEqual([one.fork(1), two.fork(1), one.fork(3)], [pidtab.Forked(it, it) for it in (2, 3, 4)])
        self.assertEqual(two.mk(), 4)
        with self.assertRaisesRegex(ProcessLookupError, "getpid 99: no-caller"):
            one.getpid(99)
        two.catch_up()
        self.assertEqual((one.position, one.digest, one.list()), (two.position, two.digest, two.list()))
        self.assertEqual(one.digest_at(one.position), two.digest)
        self.assertIn("    4 group 1", two.tree())

    def test_raw_lines(self) -> None:
        table = self.open()
        self.assertEqual(table.answers(["fork 1", "frok", "getpid 9"]), ("child 2 root 2", "bad line", "ESRCH no-caller"))
        self.assertEqual(table.answers([]), ())
        self.assertEqual(table.submit([]).result(0), ())
        for line in ("frok", "x" * 100_000, "\udcff", "fork 1\r"):
            with self.assertRaisesRegex(ValueError, "^bad line: "):
                table.line(line)
        # What is too long does not go into the log whole.
        self.assertLess(max(len(it) for _, it in self.log.entries), 400)
        self.assertEqual(table.fork(1).root, 3)

    def test_what_is_refused_before_the_log(self) -> None:
        table = self.open()
        table.fork(1)
        before = self.log.entries
        for wrong, kind in [("", ValueError), ("a\nb", ValueError), (b"fork 1", TypeError), (1, TypeError)]:
            for ask in (lambda: table.line(wrong), lambda: table.answers([wrong]), lambda: table.submit(["fork 1", wrong])):
                with self.assertRaises(kind):
                    ask()
        for ask in (lambda: table.fork(-1), lambda: table.fork(2**32), lambda: table.next(1, "thread")):
            with self.assertRaises(ValueError):
                ask()
        for ask in (lambda: table.fork("1"), lambda: table.submit("fork 1"), lambda: table.answers("fork 1")):
            with self.assertRaises(TypeError):
                ask()
        self.assertEqual(self.log.entries, before)

    def test_much_at_once(self) -> None:
        table = self.open()
        asked = table.submit(["fork 1"] * 20_000 + ["x" * 200] * 3000)
        answers = asked.result(LONG)
        self.assertEqual((answers[0], answers[19_999], set(answers[20_000:])), ("child 2 root 2", "child 20001 root 20001", {"bad line"}))
        self.assertGreater(len(asked.receipts), 3)
        self.assertEqual(len(asked.rows()), 23_000)
        self.assertLess(max(len(it) for _, it in self.log.entries), 600_000)

    def test_what_waits_is_one_entry(self) -> None:
        table = self.open()
        self.log.on.clear()
        futures = [table.submit(["fork 1", "getpid 1"]) for _ in range(50)]
        self.log.on.set()
        self.assertEqual([it.result(LONG)[0] for it in futures], [f"child {it} root {it}" for it in range(2, 52)])
        sent = [it for it in map(read_entry, (data for _, data in self.log.entries)) if isinstance(it, Asked)]
        self.assertLessEqual(len(sent), 2)

    def test_queries_that_are_no_calls(self) -> None:
        with self.assertRaisesRegex(LibraryFault, "open it with table=pidtab.Table"):
            self.open().ask.getpid(1)
        with self.assertRaisesRegex(LibraryFault, "open it with table=pidtab.Table"):
            self.open().ask.children(1)
        with self.assertRaisesRegex(LibraryFault, "open it with table=pidtab.Table"):
            self.open().ask.space(0)

    def test_a_late_host(self) -> None:
        one = self.open()
        one.answers(["fork 1", "mk 0"] * 300)
        two = self.open()
        self.assertEqual((two.position, two.digest, two.list()), (one.position, one.digest, one.list()))

    def test_a_log_with_troubles(self) -> None:
        # 100 seeds with a real table are what `make replicated` has.
        for seed in range(3):
            self.log = MemoryLog(seed)  # type: ignore[assignment]
            hosts = [self.open() for _ in range(3)]
            roots = [host.fork(1).root for _ in range(20) for host in hosts]
            self.assertEqual(roots, list(range(2, 62)))
            for host in hosts:
                host.catch_up()
            self.assertEqual(len({it.list_text() for it in hosts}), 1)


class HeldLog(MemoryLog):
    """A log whose followers can be held up."""

    def __init__(self) -> None:
        super().__init__()
        self.goes = threading.Event()
        self.goes.set()

    def _wait_for(self, following: "MemoryFollowing") -> pidtab.Progress:
        self.goes.wait(LONG)
        return super()._wait_for(following)


class Reads(Hosts):
    """Reads that are not after the log."""

    def setUp(self) -> None:
        self.log = self.held = HeldLog()  # type: ignore[assignment]

    def hold(self, *tables: Replicated) -> None:
        """Holds up the followers."""
        self.held.goes.clear()
        # They wait for this one already.
        last = self.held.append(OPEN)
        self.wait_until(lambda: all(it.position == last for it in tables))

    def test_a_read_waits_for_what_was_answered(self) -> None:
        table = self.open()
        self.hold(table)
        last = self.held.append(OPEN)
        threading.Timer(0.3, self.held.goes.set).start()
        self.assertEqual(table.catch_up(), last)

    def test_two_hosts_that_wait_at_once(self) -> None:
        # Their entries have the same number.
        tables = [self.open(), self.open()]
        for it in tables:
            it.catch_up()
            it.getpid(1)
        self.hold(*tables)
        before = self.held.end()
        futures = [it.submit(["fork 1"]) for it in tables]
        self.wait_until(lambda: self.held.end() == before + 2)
        self.held.goes.set()
        answers = [it.result(LONG)[0] for it in futures]
        self.assertCountEqual(answers, ["child 2 root 2", "child 3 root 3"])
        # Each of them has that of its own entry.
        places = [it.receipts[0].session for it in futures]
        sent = [entry for entry in map(read_entry, (data for _, data in self.held.entries)) if isinstance(entry, Asked) and entry.lines == [b"fork 1"]]
        self.assertEqual([places.index(entry.session) for entry in sent], [answers.index(f"child {it} root {it}") for it in (2, 3)])


class Settled(Hosts):
    """The settings of a log, and what it may not have."""

    def test_another_pid_max(self) -> None:
        self.open()
        with self.assertRaisesRegex(LogFault, "the log has form 2, pid_max 32768 and model 1, and this replica form 2, pid_max 400 and model 1"):
            self.open(pid_max=400)

    def test_another_form_or_model(self) -> None:
        for settings in (Settings(3, 32768, 1), Settings(2, 32768, 2), Settings(0, 32768, 1)):
            self.log = SwitchedLog()
            self.log.append(write_settings(settings))
            with self.assertRaisesRegex(LogFault, f"the log has form {settings.form}, .* model {settings.model}, and this replica"):
                self.open()

    def test_two_that_begin_at_once(self) -> None:
        self.log.append(SETTINGS)
        self.log.append(SETTINGS)
        self.assertEqual(self.open().fork(1).root, 2)

    def test_what_is_no_log(self) -> None:
        for entry, why in [(b"open", "it was trimmed"), (b"hello", "entry 1 of the log cannot be read: it begins with b'hello'"), (b"", "cannot be read")]:
            self.log = SwitchedLog()
            self.log.append(entry)
            with self.assertRaisesRegex(LogFault, why):
                self.open()

    def test_an_entry_that_cannot_be_read(self) -> None:
        table = self.open()
        table.fork(1)
        self.log.append(b"calls 2 2 2 2 " + NO_DIGEST.encode() + b"\nfork 1")
        self.wait_until(lambda: "closed" in repr(table))
        for ask in (lambda: table.fork(1), lambda: table.list(), lambda: table.submit(["fork 1"]), lambda: table.catch_up(), lambda: table.ask):
            with self.assertRaisesRegex(LogFault, "entry 4 of the log cannot be read: 1 lines in the place of 2"):
                ask()
        table.close()
        with self.assertRaisesRegex(TableClosed, "closed"):
            table.fork(1)

    def test_a_log_that_has_lost_an_entry(self) -> None:
        # The writer had an entry that is not here.
        table = self.open()
        table.fork(1)
        self.log.append(write_calls(Asked(9, 1, 9, NO_DIGEST, [b"fork 1"])))
        self.wait_until(lambda: "closed" in repr(table))
        with self.assertRaisesRegex(LogFault, "the writer of entry 4 had an entry 9, which the log has no more"):
            table.getpid(1)

    def test_another_digest(self) -> None:
        table = self.open()
        table.fork(1)
        self.log.append(write_calls(Asked(9, 1, 3, NO_DIGEST, [b"fork 1"])))
        self.wait_until(lambda: "closed" in repr(table))
        with self.assertRaisesRegex(Diverged, f"behind entry 3 the digest is [0-9a-f]{{16}} here, and {NO_DIGEST} with the writer of entry 4"):
            table.getpid(1)


class Sessions(Hosts):
    """Sessions end, are bounded, and are opened anew without a loss."""

    def test_an_end(self) -> None:
        with self.open() as table:
            table.fork(1)
            session = next(at for at, it in self.log.entries if it == OPEN)
        self.assertEqual(self.log.entries[-1][1], write_end(session))

    def test_one_that_nobody_used(self) -> None:
        self.open().close()
        self.assertEqual([it for _, it in self.log.entries], [SETTINGS])

    def test_too_many(self) -> None:
        table, other = self.open(), self.open()
        table.fork(1)
        for _ in range(MOST_SESSIONS):
            self.log.append(OPEN)
        futures = [table.submit(["fork 1", "mk 0"]) for _ in range(30)]
        self.assertEqual([it.result(LONG)[0] for it in futures], [f"child {it} root {it}" for it in range(3, 33)])
        self.assertEqual(len({it.session for future in futures for it in future.receipts}), 1)
        other.catch_up()
        self.assertEqual(other.list(), table.list())

    def test_one_that_is_used_stays(self) -> None:
        table = self.open()
        table.fork(1)
        for _ in range(3):
            for _ in range(MOST_SESSIONS // 2):
                self.log.append(OPEN)
            table.fork(1)
        self.assertEqual(sum(it.startswith(b"calls") for _, it in self.log.entries), 4)


class Flaky(StandIn):
    """Has no memory for some of its calls."""

    def __init__(self, pid_max: int, times: int) -> None:
        super().__init__(pid_max)
        self.left = times
        self.refuse = self.refuse_some

    def refuse_some(self, line: bytes) -> str | None:
        if not line.startswith(b"fork") or self.left == 0:
            return None
        self.left -= 1
        return "no memory"


class Memory(Hosts):
    """Want of memory is never an answer."""

    def setUp(self) -> None:
        super().setUp()
        for name, value in (("pidtab.hosts.machine.PAUSES", (0.0, 0.01)), ("pidtab.hosts.replica.REPLAY_PAUSE", 0.01)):
            patch = mock.patch(name, value)
            patch.start()
            self.addCleanup(patch.stop)

    def open_flaky(self, *times: int) -> Replicated:
        """A replica whose tables have no memory for so many calls, one after the other."""
        rest = iter(times)
        return self.open(lambda pid_max: Flaky(pid_max, next(rest, times[-1])))

    def check(self, table: Replicated) -> None:
        other = self.open()
        self.assertEqual(table.answers(["fork 1", "mk 0", "fork 1"]), ("child 2 root 2", "control 2", "child 3 root 3"))
        self.assertEqual(other.fork(1).root, 4)
        self.assertEqual(table.fork(1).root, 5)
        other.catch_up()
        self.assertEqual((table.digest, table.list()), (other.digest, other.list()))

    def test_it_is_made_again_in_place(self) -> None:
        table = self.open_flaky(2, 0)
        self.check(table)
        self.assertEqual(table._replica.replays, 0)

    def test_the_table_is_made_anew(self) -> None:
        table = self.open_flaky(50, 0)
        self.check(table)
        self.assertEqual(table._replica.replays, 1)

    def test_it_never_comes(self) -> None:
        table, other = self.open_flaky(10**9), self.open()
        with self.assertRaisesRegex(NotKnown, "stopped .* no memory .*: the calls were made, or were not, or will be made yet") as caught:
            table.fork(1)
        self.assertIsInstance(caught.exception.__cause__, MemoryError)
        with self.assertRaisesRegex(MemoryError, "behind entry 2, after 4 replays of the log: no memory for a call"):
            table.fork(1)
        # The others have made it.
        self.assertEqual(other.fork(1).root, 3)

    def open_two(self, second: Callable[[int], pidtab.Calls]) -> Replicated:
        """A replica whose first table has memory for one fork, and then another table."""
        opened: list[StandIn] = []

        def open_table(pid_max: int) -> pidtab.Calls:
            if opened:
                return second(pid_max)
            opened.append(StandIn(pid_max))
            opened[0].refuse = lambda line: "no memory" if line.startswith(b"fork") and opened[0].next_task > 2 else None
            return opened[0]

        table = self.open(open_table)
        self.assertEqual(table.fork(1).root, 2)
        return table

    def test_who_reads_waits_for_a_replay(self) -> None:
        def open_late(pid_max: int) -> pidtab.Calls:
            time.sleep(0.3)
            return StandIn(pid_max)

        table = self.open_two(open_late)
        future = table.submit(["fork 1"])
        while not future.done():
            self.assertGreaterEqual(len(table.list().tasks), 2)
        self.assertEqual(future.result(), ("child 3 root 3",))
        self.assertEqual(table._replica.replays, 1)

    def test_a_second_table_that_is_not_there(self) -> None:
        table = self.open_two(mock.Mock(side_effect=pidtab.LibraryMissing("no library")))
        with self.assertRaisesRegex(NotKnown, "the replica has stopped, no library"):
            table.fork(1)
        with self.assertRaisesRegex(pidtab.LibraryMissing, "no library"):
            table.list()

    def test_a_second_table_without_memory(self) -> None:
        table = self.open_two(mock.Mock(side_effect=MemoryError("open: no memory")))
        with self.assertRaisesRegex(NotKnown, "after 4 replays of the log: open: no memory"):
            table.fork(1)
        with self.assertRaisesRegex(MemoryError, "open: no memory"):
            table.list()

    def test_one_that_never_gets_far(self) -> None:
        # Each table gets an entry further than the one before.
        opened: list[StandIn] = []

        def open_table(pid_max: int) -> pidtab.Calls:
            table, most = StandIn(pid_max), len(opened) + 2
            table.refuse = lambda line: "no memory" if line.startswith(b"fork") and table.next_task > most else None
            opened.append(table)
            return table

        table = self.open(open_table)
        futures = [table.submit(["fork 1"]) for _ in range(1)]
        with self.assertRaises((NotKnown, MemoryError)):
            while True:
                futures[-1].result()
                futures.append(table.submit(["fork 1"]))
        self.assertEqual(len(opened), 5)

    def test_a_second_table_that_answers_otherwise(self) -> None:
        def open_other(pid_max: int) -> pidtab.Calls:
            other = StandIn(pid_max)
            other.next_task = 5
            return other

        table = self.open_two(open_other)
        with self.assertRaisesRegex(NotKnown, "behind entry 3 the digest was [0-9a-f]{16} here, and after a replay it is [0-9a-f]{16}"):
            table.fork(1)
        with self.assertRaises(Diverged):
            table.list()

    def test_none_to_open_it(self) -> None:
        with self.assertRaises(MemoryError):
            self.open(mock.Mock(side_effect=MemoryError("open: no memory")))


class Late(Hosts):
    """A log that does not answer."""

    def test_from_the_start(self) -> None:
        self.log.on.clear()
        with self.assertRaisesRegex(LogFault, r"the log was not opened: .* not answered for 0.2 seconds \(.*Connection refused\)"):
            self.open(patience=0.2)

    def test_amid_calls(self) -> None:
        table = self.open(patience=1)
        table.fork(1)
        self.log.on.clear()
        first = table.submit(["fork 1"])
        self.wait_until(lambda: first.sent)
        behind = table.submit(["fork 1"])
        begun = time.monotonic()
        with self.assertRaisesRegex(NotKnown, "1 seconds .*Connection refused.*: the calls were made, or were not, or will be made yet$") as caught:
            first.result()
        self.assertTrue(caught.exception.sent)
        with self.assertRaisesRegex(NotKnown, "the calls were not made$") as caught:
            behind.result()
        self.assertFalse(caught.exception.sent)
        with self.assertRaisesRegex(NotKnown, "no call was made"):
            table.catch_up()
        self.assertLess(time.monotonic() - begun, 10)
        self.log.on.set()
        # The first one was sent, so it is made yet, and before what is asked now.
        self.assertEqual(table.fork(1).root, 4)

    def test_one_that_comes_back(self) -> None:
        table = self.open()
        self.log.on.clear()
        futures = [table.submit(["fork 1"]) for _ in range(10)]
        time.sleep(0.3)
        self.assertGreater(self.log.tries, 2)
        self.log.on.set()
        self.assertEqual([it.result(LONG)[0] for it in futures], [f"child {it} root {it}" for it in range(2, 12)])

    def test_a_close_without_it(self) -> None:
        table = self.open(patience=0.3)
        self.log.on.clear()
        future = table.submit(["fork 1"])
        begun = time.monotonic()
        table.close()
        self.assertLess(time.monotonic() - begun, 5)
        self.assertIsInstance(future.exception(0), NotKnown)

    def test_a_close_behind_a_not_known(self) -> None:
        table = self.open(patience=2)
        table.fork(1)
        self.log.on.clear()
        with self.assertRaises(NotKnown):
            table.fork(1)
        begun = time.monotonic()
        table.close()
        # Nobody waits for anything, so a close does not either.
        self.assertLess(time.monotonic() - begun, 1.5)


class Ends(Hosts):
    """Closes, threads, interrupts, forks, and what nobody has any more."""

    def test_a_close_waits_for_what_was_submitted(self) -> None:
        table = self.open()
        futures = [table.submit(["fork 1"]) for _ in range(100)]
        table.close()
        self.assertEqual(futures[-1].result(0), ("child 101 root 101",))
        table.close()
        for ask in (lambda: table.fork(1), lambda: table.list(), lambda: table.submit([]), lambda: table.catch_up(), lambda: table.ask):
            with self.assertRaisesRegex(TableClosed, "the table was closed"):
                ask()
        self.assertEqual(repr(table), f"<pidtab.Replicated pid_max=32768 position={table.position}, closed>")
        self.assertFalse([it for it in table._replica.threads if it.is_alive()])

    def test_a_cancelled_one_is_not_made(self) -> None:
        table = self.open()
        table.getpid(1)
        self.log.on.clear()
        first = table.submit(["fork 1"])
        self.wait_until(lambda: first.sent)
        second, third = table.submit(["fork 1"]), table.submit(["fork 1"])
        self.assertFalse(first.cancel())
        self.assertTrue(second.cancel())
        self.log.on.set()
        self.assertEqual((first.result(LONG), third.result(LONG)), (("child 2 root 2",), ("child 3 root 3",)))
        with self.assertRaises(CancelledError):
            second.result()

    def test_a_cancelled_one_of_many_parts(self) -> None:
        table, many = self.open(), ["getpid 1" + " " * 100] * 10_000
        table.getpid(1)
        self.log.on.clear()
        first = table.submit(["fork 1"])
        self.wait_until(lambda: first.sent)
        second = table.submit(many)
        self.assertGreater(len(second.parts), 5)
        self.assertTrue(second.cancel() and second.cancel())
        self.log.on.set()
        self.assertEqual((table.fork(1).root, table._replica.machine.calls), (3, 3))
        # Who waits for many is told of it, as it never runs.
        self.assertEqual(concurrent.futures.wait([first, second], LONG).not_done, set())
        third = table.submit(many)
        self.assertEqual(len(third.result(LONG)), 10_000)
        self.assertFalse(third.cancel())

    def test_a_cancel_that_is_interrupted(self) -> None:
        """After each step of it: then it was cancelled, or was not, and who waits is told either."""
        table = self.open()
        table.getpid(1)
        is_interrupted, places, ends = True, 0, set()
        while is_interrupted:
            self.log.on.clear()
            sent = table.submit(["fork 1"])
            self.wait_until(lambda sent=sent: sent.sent)  # type: ignore[misc]
            future, behind = table.submit(["fork 1"]), table.submit(["fork 1"])
            places += 1
            with alarms(tell_hang, LONG):
                is_interrupted = CallInterrupter(places, FILES).run(future.cancel)
            self.log.on.set()
            self.assertEqual(concurrent.futures.wait([future, behind], LONG).not_done, set())
            made = len(table.list().tasks)
            self.assertEqual(behind.result(), (f"child {made} root {made}",))
            self.assertEqual(sent.result(), (f"child {made - 2 + future.cancelled()} root {made - 2 + future.cancelled()}",))
            ends.add(future.cancelled())
        self.assertGreater(places, 5)
        self.assertEqual(ends, {False, True})

    def test_an_interrupt(self) -> None:
        table = self.open()
        table.getpid(1)
        self.log.on.clear()
        sent = table.submit(["fork 1"])
        self.wait_until(lambda: sent.sent)
        with interrupts(0.1), self.assertRaises(KeyboardInterrupt):
            table.fork(1)
        with interrupts(0.1), self.assertRaises(KeyboardInterrupt):
            sent.result()
        self.log.on.set()
        # What waits for a Future loses nothing; the call of the method had not been sent.
        self.assertEqual(sent.result(LONG), ("child 2 root 2",))
        self.assertEqual(table.fork(1).root, 3)

    def test_an_interrupt_behind_each_step(self) -> None:
        table = self.open()
        asks: Sequence[Callable[[], object]] = [
            lambda: table.fork(1), lambda: table.submit(["fork 1"]).result(), lambda: table.submit(["fork 1"]).exception(), table.list, table.catch_up,
            lambda: table.submit(["fork 1"]).cancel(),
        ]  # fmt: skip
        for ask in asks:
            interrupted: list[CallInterrupter] = []
            with alarms(tell_hang, LONG):
                # The interpreter may tell of the steps of a function from its second call on.
                self.assertFalse(CallInterrupter(-1, FILES).run(ask))
                while (interrupter := CallInterrupter(len(interrupted) + 1, FILES)).run(ask):
                    interrupted.append(interrupter)
                    # No thread waits for a lock that nobody gives up.
                    root = table.fork(1).root
                    self.assertEqual(len(table.list().tasks), root)
            self.assertGreater(len(interrupted), 5)

    def test_an_interrupt_behind_each_step_of_an_end(self) -> None:
        places, is_interrupted = 0, True
        while is_interrupted:
            table = self.open()
            table.fork(1)
            places += 1
            with alarms(tell_hang, LONG):
                is_interrupted = CallInterrupter(places, FILES).run(table.close)
                table.close()
            self.assertFalse([it for it in table._replica.threads if it.is_alive()])
        self.assertGreater(places, 3)

    def test_many_interrupts(self) -> None:
        table, given, interrupted, end = self.open(), [], 0, time.monotonic() + 1.5
        with alarms(interrupt_package, 0.02, 0.02):
            while time.monotonic() < end:
                try:
                    while True:
                        given.append(table.fork(1).root)
                        given.append(int(table.answers(["fork 1", "mk 0"])[0].split()[1]))
                except KeyboardInterrupt:
                    interrupted += 1
        self.assertGreater(interrupted, 20)
        self.assertEqual(given, sorted(set(given)))
        root = table.fork(1).root
        self.assertLessEqual(root - 2 - len(given), interrupted)
        self.assertEqual(len(table.list().tasks), root)

    def test_an_interrupt_amid_the_start_and_the_close(self) -> None:
        self.log.on.clear()
        before = threading.active_count()
        with interrupts(0.1), self.assertRaises(KeyboardInterrupt):
            self.open()
        self.wait_until(lambda: threading.active_count() == before)
        self.log.on.set()
        table = self.open()
        self.log.on.clear()
        future = table.submit(["fork 1"])
        with interrupts(0.1), self.assertRaises(KeyboardInterrupt):
            table.close()
        self.assertIsInstance(future.exception(1), NotKnown)
        self.log.on.set()
        table.close()

    def test_threads(self) -> None:
        table = self.open()
        roots: list[int] = []
        threads = [threading.Thread(target=lambda: roots.extend(table.fork(1).root for _ in range(50))) for _ in range(8)]
        for it in threads:
            it.start()
        for it in threads:
            it.join()
        self.assertEqual(sorted(roots), list(range(2, 402)))

    def test_a_wait_in_a_callback(self) -> None:
        table, said = self.open(), []

        def callback(future: object) -> None:
            try:
                table.fork(1)
            except RuntimeError as fault:
                said.append(str(fault))
            said.append(table.submit(["fork 1"]))

        table.submit(["fork 1"]).add_done_callback(callback)
        self.wait_until(lambda: len(said) == 2)
        self.assertIn("cannot wait for its table: use `submit` there", said[0])
        self.assertEqual(said[1].result(LONG), ("child 3 root 3",))

    def test_a_forked_child(self) -> None:
        table = self.open()
        self.log.on.clear()
        future = table.submit(["fork 1"])
        for ask in (lambda: table.fork(1), lambda: table.list(), lambda: table.submit([]), lambda: table.catch_up(), lambda: table.ask.getpid(1)):
            self.assertEqual(in_child(ask), f"closed: {OTHERS}")
        self.assertIn("a forked child gets no answer", in_child(future.result))
        self.assertEqual(in_child(future.cancel), "False")
        self.assertEqual(in_child(table.close), "None")
        self.assertIn("of the parent process", in_child(lambda: repr(table)))
        self.log.on.set()
        self.assertEqual((future.result(LONG), table.fork(1).root), (("child 2 root 2",), 3))

    def test_one_that_nobody_has(self) -> None:
        gone = weakref.ref(Replicated(self.log, table=StandIn))
        self.wait_until(lambda: gc.collect() >= 0 and gone() is None)
        self.wait_until(lambda: not [it for it in threading.enumerate() if it.name.startswith("pidtab")])

    def test_an_interpreter_that_ends(self) -> None:
        said, complaints = run_python(
            "from tests.stand_in import StandIn", "log = pidtab.MemoryLog()", "table = pidtab.Replicated(log, table=StandIn)", "table.fork(1)",
            "futures = [table.submit(['fork 1'] * 100) for _ in range(100)]", "print(table.fork(1).root)",
        )  # fmt: skip
        self.assertEqual((said, complaints), ("10003\n", ""))

    def test_one_that_only_an_answer_needs(self) -> None:
        self.assertEqual(Replicated(self.log, table=StandIn).submit(["fork 1"]).result(LONG), ("child 2 root 2",))

    def test_it_has_no_copies(self) -> None:
        table = self.open()
        for ask in (copy.copy, copy.deepcopy, pickle.dumps):
            with self.assertRaisesRegex(TypeError, "a Replicated is not copied or pickled"):
                ask(table)


class Misuse(Hosts):
    """What cannot be meant is told in a sentence."""

    def check(self, kind: type[Exception], words: str, make: Callable[[], object]) -> None:
        with self.assertRaisesRegex(kind, words):
            make()

    def test_the_arguments_of_a_replica(self) -> None:
        self.check(TypeError, "a log is a pidtab.Log, .* not str", lambda: Replicated("127.0.0.1:2379"))  # type: ignore[arg-type]
        self.check(TypeError, "table is what opens a table, .* not int", lambda: Replicated(self.log, table=3))  # type: ignore[arg-type]
        self.check(TypeError, "table has to open a pidtab.Table .* not dict", lambda: self.open(dict))  # type: ignore[arg-type]
        self.check(TypeError, "not Replicated", lambda: self.open(lambda pid_max: Replicated(MemoryLog(), table=StandIn)))
        self.check(TypeError, "patience is a number of seconds, not str", lambda: self.open(patience="60"))  # type: ignore[arg-type]
        self.check(ValueError, "patience is a number of seconds above 0, not 0", lambda: self.open(patience=0))
        self.check(ValueError, "not inf", lambda: self.open(patience=float("inf")))
        self.check(ValueError, "pid_max is 301 to 4194304, not 300", lambda: self.open(pid_max=300))
        self.check(TypeError, "bytes, not str", lambda: self.log.append("open"))  # type: ignore[arg-type]
        self.assertEqual(self.log.entries, [])

    def test_nothing_built(self) -> None:
        with mock.patch.dict(os.environ, {"PIDTAB_LIBRARY": "/no/such/library", "PIDTAB": "/no/such/program"}):
            self.check(pidtab.LibraryMissing, "build it with `make lib`", lambda: Replicated(self.log))
            self.check(pidtab.ProgramMissing, "build it with `make build`", lambda: Replicated(self.log, table=pidtab.Process))
            # A table of another kind needs the library too, for its calls.
            table = StandIn()
            with mock.patch.object(table, "close") as close:
                self.check(pidtab.LibraryMissing, "build it with `make lib`", lambda: self.open(lambda pid_max: table))
            close.assert_called_once_with()

    def test_an_earlier_library(self) -> None:
        self.addCleanup(calls.load_calls.cache_clear)
        calls.load_calls.cache_clear()
        with mock.patch.dict(calls.FUNCTIONS, {"host_calls_later": (None, [])}):
            self.check(LibraryFault, "has no function host_calls_later, as the library of an earlier release", self.open)

    def test_a_position_without_a_digest(self) -> None:
        table = self.open()
        self.check(NotKept, "no digest is kept for position 7", lambda: table.digest_at(7))
        self.check(TypeError, "", lambda: table.digest_at("1"))  # type: ignore[arg-type]

    def test_the_arguments_of_a_log_in_etcd(self) -> None:
        self.check(TypeError, "members is a list of texts, .* not one str", lambda: EtcdLog("127.0.0.1:2379", "web"))
        self.check(ValueError, "members is an empty list", lambda: EtcdLog([], "web"))
        for member in ("127.0.0.1", "host:", ":2379", "host:port", "host:0", "host:65536", "http://host:1/path"):
            self.check(ValueError, "a member is HOST:PORT, not ", lambda member=member: EtcdLog([member], "web"))
        self.check(TypeError, "a member is a text, HOST:PORT, not int", lambda: EtcdLog([2379], "web"))  # type: ignore[list-item]
        for name in ("", "a:b", "a\nb", "x" * 201):
            self.check(ValueError, "a log's name has 1 to 200 printable characters", lambda name=name: EtcdLog(["h:1"], name))
        self.check(TypeError, "name is a text, not bytes", lambda: EtcdLog(["h:1"], b"web"))  # type: ignore[arg-type]
        self.check(TypeError, "user is a pair of texts", lambda: EtcdLog(["h:1"], "web", user="root"))  # type: ignore[arg-type]
        self.check(TypeError, "tls is an ssl.SSLContext, not bool", lambda: EtcdLog(["h:1"], "web", tls=True))  # type: ignore[arg-type]
        self.check(ValueError, "by https needs tls", lambda: EtcdLog(["https://h:1"], "web"))
        self.check(ValueError, "by http has no tls", lambda: EtcdLog(["http://h:1"], "web", tls=ssl.create_default_context()))
        log = EtcdLog(["http://127.0.0.1:2379", "[::1]:2379", "host:1/"], "web")
        self.assertEqual(repr(log), "<pidtab.EtcdLog 'web' at 127.0.0.1:2379, ::1:2379, host:1>")

    def test_an_etcd_that_is_not_there(self) -> None:
        log = EtcdLog(["127.0.0.1:1", "localhost:1"], "web")
        begun = time.monotonic()
        with self.assertRaisesRegex(LogFault, r"the log was not opened: .* 0.3 seconds \(.*:1: .*refused\)"):
            Replicated(log, table=StandIn, patience=0.3)
        self.assertLess(time.monotonic() - begun, 5)


class Form(unittest.TestCase):
    """The entries of the log."""

    def test_what_is_written_is_read(self) -> None:
        asked = Asked(7, 3, 21, "0123456789abcdef", [b"fork 1", b"\xff\r"])
        self.assertEqual(write_calls(asked), b"calls 7 3 2 21 0123456789abcdef\nfork 1\n\xff\r")
        self.assertEqual(read_entry(write_calls(asked)), asked)
        self.assertEqual(read_entry(SETTINGS), Settings(2, 32768, 1))
        self.assertEqual(SETTINGS, b"pidtab-log 2 pid_max 32768 model 1")

    def test_what_is_none(self) -> None:
        good = write_calls(Asked(7, 3, 21, "0123456789abcdef", [b"fork 1", b"mk 0"]))
        wrong: Sequence[bytes] = [b"", b"open\n", b"end", b"end 07", b"calls", good[:-5], good + b"\n", good + b"\nmk 0", good.replace(b"fork 1", b""), b" " + good]
        for entry in (*wrong, good.replace(b"calls 7", b"calls -7"), SETTINGS + b" ", good.replace(b"abcdef", b"ABCDEF")):
            with self.subTest(entry), self.assertRaises(ValueError):
                read_entry(entry)


class OtherLog(unittest.TestCase):
    """A log of somebody else, with two methods and an end."""

    def test_it_serves(self) -> None:
        inner = MemoryLog()

        class Other(pidtab.Log):
            def append(self, entry: bytes) -> int:
                return inner.append(entry)

            def follow(self, after: int) -> Following:
                return inner.follow(after)

            def end(self) -> int:
                return inner.end()

        with Replicated(Other(), table=StandIn) as table:
            self.assertEqual(table.fork(1).root, 2)

    def test_a_generator_follows(self) -> None:
        class Simple(MemoryLog):
            def follow(self, after: int) -> Iterator[pidtab.Progress]:  # type: ignore[override]
                while True:
                    found = [it for it in self.entries if it[0] > after]
                    after += len(found)
                    yield pidtab.Progress(after, found)
                    time.sleep(0.02)

        log = Simple()
        with Replicated(log, table=StandIn) as table, Replicated(log, table=StandIn) as other:
            self.assertEqual((table.fork(1).root, other.fork(1).root), (2, 3))

    def test_one_that_is_wrong(self) -> None:
        class Wrong(MemoryLog):
            def append(self, entry: bytes) -> int:
                raise ZeroDivisionError("a fault of its own")

        with self.assertRaisesRegex(ZeroDivisionError, "a fault of its own"):
            Replicated(Wrong(), table=StandIn)


if __name__ == "__main__":
    unittest.main()
