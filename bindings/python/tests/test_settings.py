"""The settings of a table: what each may be, which of its methods need one, and what is said of one that lacks it."""

import asyncio
import os
import threading
import unittest
from collections.abc import Callable
from typing import Any

import pidtab
from pidtab import ALL, Calls, Counts, NoHistory, NoThreads, Table, TableBusy, TableClosed
from pidtab.raw import DONE
from tests.test_arguments import NO_INTEGERS
from tests.test_calls import CallCases, LineCases, ListCases, NumberCases, TableCases
from tests.test_ends import ForkCases
from tests.test_refusals import RefusalCases
from tests.ways import DEFAULT_PID_MAX, Way, for_threads, need_library

NO_HISTORY = "^this table keeps no history: open it with keep$"
NO_THREADS = "^this table is one thread's: open it with threads$"
BUSY = "^another thread is in this table, which is one thread's: open it with threads$"

# What marks a table in the library as one that a call is on.
ALONE = 255


class ByHistory(Way):
    """By the calls of worker 0 of a table with a history, for one thread."""

    @classmethod
    def setUpClass(cls) -> None:
        need_library()

    def open(self, pid_max: int = DEFAULT_PID_MAX) -> Calls:
        table = Table(pid_max, keep=ALL)
        self.addCleanup(table.close)
        return table


class ByThreads(ByHistory):
    """By a table for threads without a history."""

    def open(self, pid_max: int = DEFAULT_PID_MAX) -> Calls:
        table = Table(pid_max, threads=True)
        self.addCleanup(table.close)
        return table


class CallsByHistory(CallCases, LineCases, ByHistory):
    pass


class TablesByHistory(NumberCases, ListCases, TableCases, ByHistory):
    pass


class RefusalsByHistory(RefusalCases, ByHistory):
    pass


class ForksByHistory(ForkCases, ByHistory):
    pass


class CallsByThreads(CallCases, LineCases, ByThreads):
    pass


class TablesByThreads(NumberCases, ListCases, TableCases, ByThreads):
    pass


class RefusalsByThreads(RefusalCases, ByThreads):
    pass


class ForksByThreads(ForkCases, ByThreads):
    pass


class OfLibrary(unittest.TestCase):
    """Opens tables, which are closed after the test."""

    @classmethod
    def setUpClass(cls) -> None:
        need_library()

    def open(self, **settings: Any) -> Table:
        """A new table."""
        table = Table(**settings)
        self.addCleanup(table.close)
        return table


class Ranges(OfLibrary):
    """What each setting may be."""

    def test_the_least_and_the_most(self) -> None:
        ranges: list[tuple[str, int, int]] = [("keep", 0, ALL), ("workers", 1, 16), ("pid_max", 301, 4194304), ("first_stamp", 1, 2**64 - 1)]
        for name, least, most in ranges:
            for value in (least, most):
                self.assertEqual(getattr(self.open(**{"keep": 1, name: value}), name), value)
            for value in (least - 1, most + 1, -(2**70)):
                with self.subTest(name), self.assertRaisesRegex(ValueError, f"^{name} is {least} to {most}, not {value}$"):
                    Table(**{"keep": 1, name: value})  # type: ignore[arg-type]

    def test_what_is_no_number(self) -> None:
        for name in ("keep", "workers", "pid_max", "first_stamp"):
            for value in NO_INTEGERS:
                with self.subTest(name), self.assertRaisesRegex(TypeError, "cannot be interpreted as an integer"):
                    Table(**{name: value})
            for value in (True, False):
                with self.subTest(name), self.assertRaisesRegex(TypeError, f"^{name} is a number, not {value}$"):
                    Table(**{name: value})

    def test_threads_are_no_number(self) -> None:
        for value in (0, 1, 16, None, "no"):
            with self.assertRaisesRegex(TypeError, f"^threads is True or False, not {value!r}$"):
                Table(threads=value)  # type: ignore[arg-type]

    def test_workers_without_a_history(self) -> None:
        for threads in (False, True):
            with self.assertRaisesRegex(ValueError, "^workers count the calls of a history: open it with keep$"):
                Table(workers=4, threads=threads)

    def test_settings_have_names(self) -> None:
        with self.assertRaisesRegex(TypeError, "positional"):
            Table(400, None, 4)  # type: ignore[misc]
        with self.assertRaisesRegex(TypeError, "positional"):
            Table.from_dump(self.open().dump(), None, 4)  # type: ignore[misc]

    def test_how_it_shows_itself(self) -> None:
        shown = {"": {}, " keep=1": {"keep": 1}, " keep=pidtab.ALL workers=2 threads=True": {"keep": ALL, "workers": 2, "threads": True}}
        for words, settings in shown.items():
            self.assertEqual(repr(self.open(**settings)), f"<pidtab.Table pid_max=32768{words}, open>")
        self.assertEqual(pidtab.ALL, 2**64 - 1)

    def test_the_first_stamp_of_each(self) -> None:
        for settings in ({}, {"keep": 2}, {"threads": True}):
            self.assertEqual(self.open(first_stamp=1000, **settings).mk(), 1000)

    def test_the_bound_of_each_call(self) -> None:
        table = self.open(keep=2)
        makes: list[Callable[[], object]] = [
            lambda: table.fork(1), lambda: table.line("fork 1"), lambda: table.answers(["fork 1"] * 3), lambda: table.told.fork(1),
            lambda: table.fork_at(1, table.would.fork(1)), lambda: table.seat().fork(1),
        ]  # fmt: skip
        for make in makes:
            make()
            first_kept, recorded = table.counts()
            self.assertEqual(first_kept, max(0, recorded - 2))
        self.assertEqual(table.counts(), Counts(6, 8))

    def test_a_copy_has_the_settings(self) -> None:
        for settings in ({}, {"keep": 9, "workers": 3, "threads": True}, {"threads": True}):
            table = self.open(**settings)
            table.label(table.fork(1).root, "web")
            with table.copy() as copied:
                self.assertEqual(repr(copied), repr(table))
                self.assertEqual((copied.list(), copied.fork(1).root), (table.list(), 3))
                if copied.keep:
                    self.assertEqual(copied.counts(), Counts(0, 1))


def of_histories(table: Table) -> list[Callable[[], object]]:
    """Each method that needs a history."""
    return [
        table.counts, lambda: table.worker(0), lambda: table.entry(0), table.entries, lambda: table.entries(0), table.checkpoint,
        lambda: table.checkpoint_at(0), lambda: table.at(0), lambda: table.follow(Table(), 0), lambda: table.save(os.devnull),
    ]  # fmt: skip


def of_threads(table: Table) -> list[Callable[[], object]]:
    """Each method that needs a lock."""
    return [
        table.lock, lambda: table.wait_changed(0), lambda: table.wait_changed(0, 0), lambda: asyncio.run(table.changed(0)), table.end_waiting,
        lambda: table.serve(os.devnull), lambda: table.wait_saved(0), lambda: table.bound_unsaved(1), table.end_saving,
    ]  # fmt: skip


class WhatIsLacked(OfLibrary):
    """A method that needs a setting says which, of a table that was opened without it."""

    def test_without_a_history(self) -> None:
        for threads in (False, True):
            table = self.open(threads=threads)
            for method in of_histories(table):
                with self.assertRaisesRegex(NoHistory, NO_HISTORY):
                    method()
            # Before that there is no such worker.
            with self.assertRaisesRegex(NoHistory, NO_HISTORY):
                table.worker(3)
            self.assertIsNone(table.saved)

    def test_waits_without_a_history(self) -> None:
        table = self.open(threads=True)
        waits: list[Callable[[], object]] = [lambda: table.wait_changed(0), lambda: asyncio.run(table.changed(0)), lambda: table.serve(os.devnull)]
        for wait in waits:
            with self.assertRaisesRegex(NoHistory, NO_HISTORY):
                wait()

    def test_without_threads(self) -> None:
        for keep in (0, ALL):
            table = self.open(keep=keep)
            for method in of_threads(table):
                with self.assertRaisesRegex(NoThreads, NO_THREADS):
                    method()

    def test_a_child_that_ends_later(self) -> None:
        seat = self.open(keep=ALL).seat()
        seat.fork(1)
        with self.assertRaisesRegex(NoThreads, NO_THREADS):
            asyncio.run(seat.reap(1))

    def test_a_table_that_was_closed(self) -> None:
        for settings in ({}, {"keep": ALL}, {"keep": ALL, "threads": True}):
            table = self.open(**settings)
            table.close()
            table.close()
            for method in of_threads(table) + (of_histories(table) if table.keep else []):
                with self.assertRaisesRegex(TableClosed, "^the table was closed$"):
                    method()

    def test_the_one_seat_without_a_history(self) -> None:
        for threads in (False, True):
            table = self.open(threads=threads)
            seat = table.seat()
            self.assertEqual((seat.worker, seat.fork(1).root, seat.line("fork 1"), seat.ordinal), (0, 2, "child 3 root 3", None))
            self.assertEqual((seat.answers(["fork 1"] * 2), seat.told.fork(1).answer.root), (("child 4 root 4", "child 5 root 5"), 6))
            self.assertTrue(seat.fork_at(1, seat.would.fork(1)))
            with self.assertRaisesRegex(pidtab.SeatsTaken, "^the one worker has its seat: open the table with keep and more workers, at most 16$"):
                table.seat()


class Busy(OfLibrary):
    """A thread that finds another one in a table of one thread, as in an interpreter without its lock."""

    def test_each_function(self) -> None:
        table = self.open(keep=ALL)
        seat, at, before = table.seat(), table._check_open().at, table.dump()
        at.in_use = ALONE
        calls: list[Callable[[], object]] = [
            lambda: table.fork(1), lambda: table.line("fork 1"), lambda: table.answers(["fork 1"]), lambda: table.answers(["fork 1"] * 2),
            lambda: table.told.fork(1), lambda: table.would.fork(1), lambda: table.ask.getpid(1), lambda: table.ask.stat(1),
            lambda: table.fork_at(1, pidtab.Forked(2, 2)), table.list, table.dump, table.copy, table.counts, table.checkpoint, lambda: table.entry(0), table.seat, lambda: seat.fork(1), lambda: table.label(1, "init"),
        ]  # fmt: skip
        for call in calls:
            with self.assertRaisesRegex(TableBusy, BUSY):
                call()
        at.in_use = 0
        self.assertEqual((table.dump(), table.counts()), (before, Counts(0, 0)))

    def test_a_replica_that_another_is_in(self) -> None:
        table, replica = self.open(keep=ALL), self.open()
        table.fork(1)
        at = replica._check_open().at
        at.in_use = ALONE
        with self.assertRaisesRegex(TableBusy, BUSY):
            table.follow(replica, 0)
        at.in_use = 0
        self.assertEqual((table.follow(replica, 0), replica.dump()), (1, table.dump()))

    def test_two_threads(self) -> None:
        # One follows without the interpreter's lock. Whichever finds the other one there is told so.
        with for_threads(1) as table:
            for _ in range(50):
                table.answers(["fork 1", "exit 2 0", "wait 1 any"] * 500)
            faults: list[BaseException] = []
            while not faults:
                replica = self.open()
                thread = threading.Thread(target=self.keep_fault, args=(faults, lambda: table.follow(replica, 0)))
                thread.start()
                while thread.is_alive():
                    self.keep_fault(faults, lambda: replica.getpid(1))
                thread.join()
        for fault in faults:
            self.assertIsInstance(fault, TableBusy)
            self.assertRegex(str(fault), BUSY)

    def keep_fault(self, faults: list[BaseException], call: Callable[[], object]) -> None:
        """Makes a call, and keeps what it raises."""
        try:
            call()
        except Exception as fault:
            faults.append(fault)

    def test_one_that_is_busy_is_not_freed(self) -> None:
        table = self.open()
        hold = table._check_open()
        functions, at = hold.functions, hold.at
        at.in_use = ALONE
        del hold
        table.close()
        self.assertTrue(at.is_open)
        at.in_use = 0
        self.assertEqual((functions.pidtab_close(at), at.is_open), (DONE, False))


class ForThreads(unittest.TestCase):
    """Worker 0 has no seat of its own: its calls are those of the table."""

    @classmethod
    def setUpClass(cls) -> None:
        need_library()

    def test_the_calls_of_the_table_are_of_worker_0(self) -> None:
        with for_threads(2) as table:
            seats = [table.seat(), table.seat()]
            self.assertEqual([table.fork(1).root, seats[1].fork(1).root, seats[0].fork(1).root], [2, 3, 4])
            table.answers(["getpid 1"] * 3)
            table.told.exit(2)
            self.assertEqual([it.worker for it in table.entries()], [0, 1, 0, 0, 0, 0, 0])
            self.assertEqual((table.worker(0), table.worker(1), seats[0].ordinal), (6, 1, 2))


if __name__ == "__main__":
    unittest.main()
