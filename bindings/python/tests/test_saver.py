"""The saver of a table: who waits for it, whom it holds up, and what they are told where it fails or ends."""

import errno
import os
import resource
import threading
import unittest
from collections.abc import Callable

from pidtab import Counts, Saved, SaverEnded, Seat, Table, TableClosed, Unsaved
from tests.test_arguments import NO_INTEGERS
from tests.test_ends import in_child
from tests.test_saved import BLOCK, Files
from tests.ways import for_threads

THREADS = 4
EACH = 100
BOUND = 16


class Later:
    """What a function answers or raises in a thread of its own."""

    def __init__(self, do: Callable[[], object]) -> None:
        self._told: list[object] = []
        self._thread = threading.Thread(target=self._run, args=(do,))
        self._thread.start()

    def _run(self, do: Callable[[], object]) -> None:
        try:
            self._told.append(do())
        except Exception as fault:
            self._told.append(fault)

    def told(self) -> object:
        """What it was, at its end."""
        self._thread.join(60)
        (told,) = self._told
        return told


class Savers(Files):
    """One thread saves what others do."""

    def in_file(self) -> int:
        """How many calls the file has: each of them is one block."""
        return self.path.stat().st_size // BLOCK - 1

    def make(self, seat: Seat) -> int:
        """Makes a call that is one block: its ordinal."""
        self.assertEqual(seat.getpid(1), 1)
        assert seat.ordinal is not None
        return seat.ordinal

    def beside_the_saver(self, table: Table, saver: Later, does: Callable[[], None]) -> None:
        """Threads do it at once, and the saver ends after them."""
        works = [Later(does) for _ in range(THREADS)]
        self.assertEqual([it.told() for it in works], [None] * THREADS)
        table.end_saving()
        calls = THREADS * EACH
        self.assertEqual((saver.told(), self.in_file()), (Saved(calls, (calls + 1) * BLOCK, 0), calls))

    def test_each_answer_is_saved(self) -> None:
        table = self.closed_behind(for_threads(THREADS))
        saver = Later(lambda: table.serve(self.path, keep=64, sync=True))

        def work() -> None:
            seat = table.seat()
            for _ in range(EACH):
                ordinal = self.make(seat)
                table.wait_saved(ordinal)
                self.assertGreater(self.in_file(), ordinal)

        self.beside_the_saver(table, saver, work)
        # No thread had more than one call that was not saved.
        self.assertLess(THREADS * EACH - table.counts().first_kept, 64 + THREADS)
        again = self.load()
        self.assertIsNone(again.wait_saved(THREADS * EACH - 1))

    def test_never_too_far(self) -> None:
        table = self.closed_behind(for_threads(THREADS))
        table.save(self.path)
        table.bound_unsaved(BOUND)
        saver = Later(lambda: table.serve(self.path))

        def work() -> None:
            seat = table.seat()
            for _ in range(EACH):
                ordinal = self.make(seat)
                self.assertLess(ordinal, self.in_file() + BOUND)

        self.beside_the_saver(table, saver, work)

    def test_a_saver_that_fails(self) -> None:
        table, (seat,) = self.open(1)
        table.save(self.path)
        table.bound_unsaved(1)
        self.make(seat)
        waiter = Later(lambda: table.wait_saved(0))
        limits = resource.getrlimit(resource.RLIMIT_FSIZE)
        self.addCleanup(resource.setrlimit, resource.RLIMIT_FSIZE, limits)
        resource.setrlimit(resource.RLIMIT_FSIZE, (BLOCK, limits[1]))
        with self.assertRaises(OSError) as caught:
            table.serve(self.path)
        resource.setrlimit(resource.RLIMIT_FSIZE, limits)
        for fault in (caught.exception, waiter.told(), Later(lambda: table.wait_saved(0)).told()):
            assert isinstance(fault, OSError)
            self.assertEqual((fault.errno, fault.filename), (errno.EFBIG, str(self.path)))
        calls: list[Callable[[], object]] = [
            lambda: seat.getpid(1), lambda: seat.line("getpid 1"), lambda: seat.answers(["getpid 1"]), lambda: seat.told.getpid(1),
        ]  # fmt: skip
        for call in calls:
            with self.assertRaisesRegex(Unsaved, "^too many calls are not saved, and the saver has ended or failed$") as refused:
                call()
            self.assertIsInstance(refused.exception.__cause__, OSError)
        self.assertEqual(table.counts(), Counts(0, 1))
        # A save that does better lets all go on.
        self.assertEqual(table.save(self.path).calls, 1)
        self.assertIsNone(table.wait_saved(0))
        self.assertEqual(self.make(seat), 1)

    def test_a_saver_that_has_ended(self) -> None:
        table, (seat,) = self.open(1)
        table.bound_unsaved(1)
        self.make(seat)
        waiter = Later(lambda: table.wait_saved(0))
        table.end_saving()
        self.assertIsInstance(waiter.told(), SaverEnded)
        with self.assertRaises(Unsaved) as refused:
            seat.getpid(1)
        self.assertIsInstance(refused.exception.__cause__, SaverEnded)
        # It has a turn yet.
        self.assertEqual((table.serve(self.path).calls, table.wait_saved(0)), (1, None))
        with self.assertRaisesRegex(SaverEnded, "^the saver has ended, and whether the call is saved is not known$"):
            table.wait_saved(1)

    def test_a_close_lets_nobody_wait(self) -> None:
        table, (seat,) = self.open(1)
        saver = Later(lambda: table.serve(self.path))
        while not self.path.exists():
            os.sched_yield()
        waiter = Later(lambda: table.wait_saved(0))
        table.close()
        told = waiter.told()
        self.assertIsInstance(told, TableClosed)
        self.assertIsInstance(saver.told(), (Saved, TableClosed))
        for call in (lambda: table.wait_saved(0), lambda: table.bound_unsaved(1), table.end_saving, lambda: table.serve(self.path)):
            with self.assertRaisesRegex(TableClosed, "^the table was closed$"):
                call()

    def test_in_a_forked_child(self) -> None:
        table, _ = self.open(1)
        table.bound_unsaved(1)

        def wait() -> str:
            try:
                table.wait_saved(0)
            except TableClosed as fault:
                table.close()
                return str(fault)
            return "no fault"

        self.assertIn("this table is that of the parent process", in_child(wait))

    def test_numbers(self) -> None:
        table, _ = self.open(1)
        places: list[tuple[Callable[[int], object], str]] = [
            (table.wait_saved, "ordinal"), (table.bound_unsaved, "most"), (lambda it: table.serve(self.path, keep=it), "keep"),
        ]  # fmt: skip
        for method, name in places:
            for value in (-1, 2**64):
                with self.assertRaisesRegex(ValueError, f"^{name} is 0 to .*, not {value}$"):
                    method(value)
            for value in NO_INTEGERS:
                with self.assertRaisesRegex(TypeError, "cannot be interpreted as an integer"):
                    method(value)
        self.assertFalse(self.path.exists())


if __name__ == "__main__":
    unittest.main()
