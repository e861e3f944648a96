"""What a call would answer, and forks that are made only with the numbers that were told."""

import random
import threading
import unittest
from collections.abc import Callable

from pidtab import Forked, Reaped, Refusal, Seat, Table, TableClosed
from tests.test_ends import OTHERS, in_child
from tests.test_interrupts import CallInterrupter
from tests.test_labels import take_last_number
from tests.ways import FILES_OF_TABLES, for_threads, need_library

SEED = 3
FORKS = 200
THREADS = 4


def outcome(ask: Callable[[], object]) -> object:
    """What a call tells, or why it is refused."""
    try:
        return ask()
    except Refusal as refusal:
        return refusal.errno, refusal.why


class WouldOfTable(unittest.TestCase):
    """A table of this process."""

    def setUp(self) -> None:
        need_library()
        self.table = Table()
        self.addCleanup(self.table.close)

    def test_nothing_changes(self) -> None:
        self.table.fork(1, new=True)
        before = self.table.dump()
        would = self.table.would
        self.assertEqual(would.fork(1), Forked(3, 3))
        self.assertEqual(would.fork(2), Forked(2, 3))
        self.assertEqual(would.fork(1, new=True), Forked(3, 3))
        self.assertIsNone(would.exit(2, 7))
        self.assertIsNone(would.wait(1))
        self.assertEqual((would.setsid(2), would.mk(), would.getpid(2), would.count()), (1, 2, 1, 2))
        self.assertEqual(self.table.dump(), before)

    def test_a_wait_leaves_the_child(self) -> None:
        self.table.fork(1)
        self.table.exit(2, 9)
        self.assertEqual([self.table.would.wait(1), self.table.would.wait(1), self.table.wait(1)], [Reaped(2, 9)] * 3)
        self.assertEqual(outcome(lambda: self.table.would.wait(1)), outcome(lambda: self.table.wait(1)))

    def test_refusals_are_raised(self) -> None:
        for call in (lambda it: it.fork(9), lambda it: it.exit(1), lambda it: it.rm(0), lambda it: it.join(1, 5), lambda it: it.limit(0, 5)):
            refused = outcome(lambda: call(self.table.would))
            self.assertIsInstance(refused, tuple)
            self.assertEqual(outcome(lambda: call(self.table)), refused)

    def test_a_fork_as_told(self) -> None:
        self.table.fork(1, new=True)
        told = self.table.would.fork(2)
        before = self.table.dump()
        for other in (Forked(3, 3), Forked(2, 2), Forked(0, 0)):
            self.assertIs(self.table.fork_at(2, other), False)
        self.assertIs(self.table.fork_at(7, told), False)
        self.assertEqual(self.table.dump(), before)
        self.assertIs(self.table.fork_at(2, told), True)
        self.assertEqual(self.table.nspid(2, 2), (2,))
        self.assertEqual(self.table.nspid(1, told.root), (3, 2))
        self.assertIs(self.table.fork_at(1, self.table.would.fork(1, new=True), new=True), True)
        self.assertEqual(self.table.nspid(1, 4), (4, 1))

    def test_what_is_none(self) -> None:
        for bad in ((2**32, 2), (2, -1)):
            with self.assertRaises(ValueError):
                self.table.fork_at(1, Forked(*bad))
        with self.assertRaises(ValueError):
            self.table.fork_at(-1, Forked(2, 2))
        with self.assertRaises(TypeError):
            self.table.fork_at(1, Forked("2", 2))  # type: ignore[arg-type]
        with self.assertRaises(TypeError):
            self.table.fork_at(1, 2)  # type: ignore[arg-type]
        self.assertFalse(hasattr(self.table.would, "line"))
        self.assertEqual(self.table.count(), 1)

    def test_a_label_is_of_the_task_before(self) -> None:
        table = Table(301)
        self.addCleanup(table.close)
        take_last_number(table)
        self.assertEqual(table.would.fork(1), Forked(300, 300))
        self.assertEqual([it.label for it in table.list().tasks if it.root == 300], [])
        self.assertIs(table.fork_at(1, Forked(300, 300)), True)
        self.assertEqual([it.label for it in table.list().tasks if it.root == 300], [None])

    def test_a_closed_table(self) -> None:
        would = self.table.would
        self.table.close()
        with self.assertRaises(TableClosed):
            would.fork(1)
        with self.assertRaises(TableClosed):
            self.table.fork_at(1, Forked(2, 2))

    def test_each_call_answers_as_told(self) -> None:
        chance, would = random.Random(SEED), self.table.would
        calls: list[Callable[[object, int, int], object]] = [
            lambda it, n, m: it.fork(n, m % 2 == 0), lambda it, n, m: it.exit(n, m), lambda it, n, m: it.wait(n), lambda it, n, m: it.wait(n, m),
            lambda it, n, m: it.setpgid(n, m, 0), lambda it, n, m: it.setsid(n), lambda it, n, m: it.mk(m), lambda it, n, m: it.rm(m),
            lambda it, n, m: it.limit(m, n), lambda it, n, m: it.move(n, m), lambda it, n, m: it.join(n, m), lambda it, n, m: it.exec(n),
            lambda it, n, m: it.subreaper(n), lambda it, n, m: it.nspid(n, m), lambda it, n, m: it.getppid(n),
        ]  # type: ignore[attr-defined]  # fmt: skip
        for _ in range(3000):
            call, n, m = chance.choice(calls), chance.randrange(12), chance.randrange(6)
            told = outcome(lambda: call(would, n, m))
            self.assertEqual(outcome(lambda: call(self.table, n, m)), told)


class WouldOfShared(unittest.TestCase):
    """A table that threads share."""

    def setUp(self) -> None:
        need_library()

    def test_nothing_is_recorded(self) -> None:
        with for_threads() as many:
            seat = many.seat()
            self.assertEqual([it.would.fork(1) for it in (many, seat)], [Forked(2, 2)] * 2)
            self.assertIs(seat.fork_at(1, Forked(3, 3)), False)
            self.assertEqual((seat.ordinal, many.counts().recorded), (None, 0))
            self.assertIs(seat.fork_at(1, Forked(2, 2)), True)
            self.assertEqual((seat.ordinal, many.counts().recorded, many.entry(0).answer), (0, 1, "child 2 root 2"))
        with self.assertRaises(TableClosed):
            many.would.fork(1)

    def test_threads_fork_as_told(self) -> None:
        with for_threads(THREADS, keep=10) as many:
            made: list[int] = []

            def fork_as_told() -> None:
                seat, count = many.seat(), 0
                while count < FORKS:
                    told = many.would.fork(1)
                    if seat.fork_at(1, told):
                        made.append(told.root)
                        count += 1

            threads = [threading.Thread(target=fork_as_told) for _ in range(THREADS)]
            for it in threads:
                it.start()
            for it in threads:
                it.join()
            self.assertEqual(sorted(made), list(range(2, THREADS * FORKS + 2)))
            self.assertEqual(many.counts().recorded, THREADS * FORKS)


class Misuse(unittest.TestCase):
    """A fork of this process, and an interrupt after each step."""

    def setUp(self) -> None:
        need_library()
        table, many = Table(), for_threads()
        self.addCleanup(table.close)
        self.addCleanup(many.close)
        self.held: list[Table | Seat] = [table, many.seat()]

    def test_a_forked_child_has_no_table(self) -> None:
        for held in self.held:
            self.assertEqual(in_child(lambda: held.would.fork(1)), f"closed: {OTHERS}")
            self.assertEqual(in_child(lambda: held.fork_at(1, Forked(2, 2))), f"closed: {OTHERS}")
            self.assertEqual(held.would.fork(1), Forked(2, 2))

    def interrupt_each(self, ask: Callable[[], object], check: Callable[[], None]) -> None:
        """Asks until no step is left after which an interrupt could come, and checks after each."""
        places = 0
        while CallInterrupter(places + 1, FILES_OF_TABLES).run(ask):
            places += 1
            check()
        self.assertGreater(places, 4)

    def test_a_fork_is_made_whole_or_not_begun(self) -> None:
        for held in self.held:
            tasks = [1]

            def fork_as_told() -> None:
                held.fork_at(1, held.would.fork(1))

            def check() -> None:
                made = held.ask.count() - len(tasks)
                self.assertIn(made, (0, 1))
                tasks.extend([len(tasks) + 1] * made)
                self.assertEqual([held.ask.nspid(1, it) for it in tasks], [(it,) for it in tasks])

            self.interrupt_each(fork_as_told, check)
            # The last one was not interrupted.
            self.assertEqual(held.would.fork(1), Forked(len(tasks) + 2, len(tasks) + 2))

    def test_what_is_foretold_changes_nothing(self) -> None:
        for held in self.held:
            self.interrupt_each(lambda: held.would.fork(1), lambda: self.assertEqual(held.would.fork(1), Forked(2, 2)))
            self.assertEqual(held.ask.count(), 1)


if __name__ == "__main__":
    unittest.main()
