"""The lock of a table for threads: several calls in one go, and no interrupt, fault, fork or end leaves it taken."""

import asyncio
import gc
import os
import threading
import time
import unittest
from collections.abc import Callable

from pidtab import Counts, Forked, NoThreads, Table, TableClosed
from pidtab.lock import Lock
from tests.alarms import Awaiting, alarms
from tests.test_ends import OTHERS, in_child
from tests.test_history import run_all
from tests.ways import TwoSeats, for_threads

# Seconds: longer than any wait here takes, and long enough that a thread that waits has begun.
LONG, SHORT = 20.0, 0.1


class Locks(TwoSeats):
    """Nobody has the lock of the table after the test."""

    def setUp(self) -> None:
        super().setUp()
        self.addCleanup(self.check_free)

    def check_free(self) -> None:
        """Another thread gets at the table, if it is open."""
        thread = threading.Thread(target=self.table.ask.getpid if self.table._is_open() else int, args=(1,), daemon=True)
        thread.start()
        thread.join(LONG)
        self.assertFalse(thread.is_alive(), "the lock is taken")


class InOneGo(Locks):
    """What a thread does that has the lock."""

    def test_no_call_of_another_thread_comes_between(self) -> None:
        other = threading.Thread(target=lambda: [self.other.fork(1) for _ in range(200)])
        with self.table.lock() as held:
            self.assertIs(held, self.table)
            other.start()
            for _ in range(20):
                self.seat.fork(1)
                self.table.fork(1)
                time.sleep(0.001)
            self.assertEqual(self.table.counts(), Counts(0, 40))
        run_all([other], started=True)
        self.assertEqual([it.worker for it in self.table.entries()], [0] * 40 + [1] * 200)

    def test_all_that_asks(self) -> None:
        seat = self.seat
        with self.table.lock() as table:
            self.assertEqual((seat.fork(1), table.told.fork(1).answer, table.would.fork(1)), (Forked(2, 2), Forked(3, 3), Forked(4, 4)))
            self.assertEqual((table.answers(["fork 1", "getpid 4"]), seat.line("getpid 1"), seat.ordinal), (("child 4 root 4", "4"), "1", 4))
            self.assertTrue(table.fork_at(1, table.would.fork(1)))
            self.assertEqual((table.ask.children(1), table.ask.stat(2).parent, len(table.list().tasks)), ((2, 3, 4, 5), 1, 5))
            self.assertEqual((table.entry(0).line, len(list(table.entries())), table.worker(0)), ("fork 1", 6, 6))
            with Table() as replica, table.at(6) as after:
                self.assertEqual((table.follow(replica, 0), replica.dump(), after.dump()), (6, table.dump(), table.dump()))
            self.assertFalse(table.checkpoint_at(5))
            table.checkpoint()
        self.assertEqual((self.table.counts(), self.table.fork(1).root), (Counts(6, 6), 6))

    def test_a_replica_whose_lock_it_has(self) -> None:
        self.table.fork(1)
        with Table(threads=True) as replica, replica.lock():
            self.assertEqual((self.table.follow(replica, 0), replica.dump()), (1, self.table.dump()))

    def test_a_table_without_a_history(self) -> None:
        with Table(threads=True) as table:
            with table.lock():
                self.assertEqual((table.seat().worker, table.fork(1).root, table.answers(["fork 1"] * 2)), (0, 2, ("child 3 root 3", "child 4 root 4")))
            self.assertEqual(table.fork(1).root, 5)

    def test_two_tables_at_once(self) -> None:
        with for_threads(1) as other, self.table.lock(), other.lock():
            self.assertEqual((self.table.fork(1).root, other.fork(1).root), (2, 2))


class Ends(Locks):
    """The lock is given back at the end of its `with`, and by nothing before."""

    def test_a_fault(self) -> None:
        with self.assertRaises(ProcessLookupError), self.table.lock():
            self.table.fork(9)
        self.assertEqual(self.table.fork(1).root, 2)

    def test_what_would_wait_for_itself(self) -> None:
        waits: list[Callable[[], object]] = [
            self.table.lock().__enter__, lambda: self.table.wait_changed(0), lambda: asyncio.run(self.table.changed(0)), self.table.end_waiting,
            lambda: self.table.serve(os.devnull), lambda: self.table.wait_saved(0), lambda: self.table.bound_unsaved(1), self.table.end_saving,
            self.table.close, self.table.lock,
            lambda: self.table.save(os.devnull),
        ]  # fmt: skip
        with self.table.lock():
            for wait in waits:
                with self.assertRaisesRegex(RuntimeError, "^this thread has the lock of the table, and would wait for itself: give the lock back first$"):
                    wait()
            del waits[:]
            gc.collect()
            # It is as it was.
            self.assertEqual(self.table.fork(1).root, 2)
            other = threading.Thread(target=self.table.fork, args=(1,))
            other.start()
            time.sleep(SHORT)
            self.assertEqual(self.table.counts().recorded, 1)
        run_all([other], started=True)
        self.assertEqual(self.table.counts().recorded, 2)

    def test_one_after_the_other(self) -> None:
        lock = self.table.lock()
        for _ in range(3):
            with lock:
                self.table.fork(1)
            self.check_free()
        self.assertEqual(self.table.counts().recorded, 3)

    def test_two_threads_with_one(self) -> None:
        lock, seen = self.table.lock(), list[tuple[int, int]]()

        def work() -> None:
            for _ in range(50):
                with lock:
                    seen.append((self.table.fork(1).root, self.table.fork(1).root))

        run_all([threading.Thread(target=work) for _ in range(4)])
        self.assertEqual(sorted(seen), [(root, root + 1) for root in range(2, 402, 2)])

    def test_one_that_nobody_has_any_more(self) -> None:
        lock: Lock | None = self.table.lock()
        assert lock is not None
        lock.__enter__()
        self.table.fork(1)
        del lock
        gc.collect()
        self.check_free()

    def test_a_close_by_another_thread(self) -> None:
        hold = self.table._check_open()
        at = hold.at
        del hold
        with self.table.lock():
            run_all([threading.Thread(target=self.table.close)])
            self.assertTrue(at.is_open)
            with self.assertRaisesRegex(TableClosed, "^the table was closed$"):
                self.table.fork(1)
        self.assertFalse(at.is_open)

    def test_a_table_that_was_closed(self) -> None:
        lock = self.table.lock()
        self.table.close()
        for use in (lock.__enter__, self.table.lock):
            with self.assertRaisesRegex(TableClosed, "^the table was closed$"):
                use()

    def test_a_table_of_one_thread(self) -> None:
        with Table(keep=1) as table, self.assertRaises(NoThreads):
            table.lock()

    def test_a_forked_child(self) -> None:
        with self.table.lock():
            self.assertEqual(in_child(lambda: self.table.fork(1)), f"closed: {OTHERS}")
            self.assertEqual(in_child(self.leave), "left")
            self.assertEqual(self.table.fork(1).root, 2)
        self.assertEqual(in_child(lambda: self.table.lock()), f"closed: {OTHERS}")

    def leave(self) -> str:
        """What a child does that has the `with` of its parent: it leaves it, and drops the table."""
        table = self.table
        table.close()
        del table
        gc.collect()
        return "left"


class Interrupts(Awaiting, Locks):
    """Ctrl-C, and what any other handler of a signal raises."""

    def test_many_in_a_second(self) -> None:
        interrupted, end = 0, time.monotonic() + 2
        with alarms(self.interrupt, 0.003, 0.003):
            while time.monotonic() < end:
                try:
                    self.lock_on(end)
                except KeyboardInterrupt:
                    interrupted += 1
                self.check_free()
        self.assertGreater(interrupted, 20)

    def lock_on(self, end: float) -> None:
        """Takes the lock and gives it back until it is interrupted."""
        self.awaited = True
        while time.monotonic() < end:
            with self.table.lock() as table:
                table.ask.getpid(1)
        self.awaited = False

    def test_one_while_it_waits(self) -> None:
        # Another thread has the lock, and gives it back later: then it is taken, the interrupt comes, and it is given back.
        release, taken = threading.Event(), threading.Event()

        def keep() -> None:
            with self.table.lock():
                taken.set()
                release.wait(LONG)

        thread = threading.Thread(target=keep)
        thread.start()
        taken.wait(LONG)
        threading.Timer(3 * SHORT, release.set).start()
        self.awaited = True
        with alarms(self.interrupt, SHORT), self.assertRaises(KeyboardInterrupt), self.table.lock():
            self.fail("it was interrupted before")
        run_all([thread], started=True)


if __name__ == "__main__":
    unittest.main()
