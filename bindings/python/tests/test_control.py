"""The live tasks of control groups, by cgroup.procs of cgroup-v2.rst. bindings/c/test_control.c compares more of them."""

import random
import unittest

from pidtab import Ask, LibraryFault, MemoryLog, Refusal, Replicated, Seat, Table, TableClosed
from pidtab.native import SHORT_PAGE
from pidtab.raw import CLOSED, COUNTED, DONE, NO_MEMORY, PidtabReply
from tests.test_ends import OTHERS, in_child
from tests.test_interrupts import CallInterrupter
from tests.ways import FILES_OF_TABLES, Answered, OnEachTable, need_library, numbers_beside_a_writer

SEED = 5


class Controls(OnEachTable):
    """On each table. The control group 2 is in 1. 3 is the init of a namespace, in which its child 4 is 2. 2 and 4 are in 1, 5 in 2, and 6 is a zombie there."""

    def fill(self, table: Table | Seat) -> None:
        table.mk()
        table.mk(1)
        table.fork(1)
        table.fork(1, new=True)
        table.fork(3)
        table.move(2, 1)
        table.move(4, 1)
        table.fork(1)
        table.move(5, 2)
        table.fork(5)
        table.exit(6)

    def test_each_group(self) -> None:
        for ask in self.ways():
            self.assertEqual([ask.control_tasks(1), ask.control_tasks(1, 0), ask.control_tasks(1, 1), ask.control_tasks(1, 2)], [(1, 3), (1, 3), (2, 4), (5,)])
            # 3 and 4 see each other alone, and 5 sees all.
            self.assertEqual([ask.control_tasks(3), ask.control_tasks(4, 1), ask.control_tasks(3, 2), ask.control_tasks(5, 1)], [(1,), (2,), (), (2, 4)])

    def test_from_a_number_on(self) -> None:
        for ask in self.ways():
            self.assertEqual([ask.control_tasks(1, 1, it) for it in (0, 2, 3, 4, 5, 2**32 - 1)], [(2, 4), (2, 4), (4,), (4,), (), ()])

    def test_ends_and_moves(self) -> None:
        for table in (self.table, self.seat):
            tasks = table.ask.control_tasks
            table.exit(2)
            # A zombie counts, and is no live task.
            self.assertEqual((tasks(1, 1), table.ask.count(1)), ((4,), 4))
            table.move(5, 0)
            self.assertEqual((tasks(1), tasks(1, 2)), ((1, 3, 5), ()))
            table.wait(5)
            table.rm(2)
            self.is_refused(table.ask, 1, 2, 2, "no-control")

    def test_refusals_in_their_order(self) -> None:
        for ask in self.ways():
            for caller in (0, 6, 9):
                for control in (1, 99):
                    self.is_refused(ask, caller, control, 3, "no-caller")
            # 4 is the id of a namespace.
            for control in (4, 99, 2**32, 2**64 - 1):
                self.is_refused(ask, 1, control, 2, "no-control")

    def is_refused(self, ask: Ask, caller: int, control: int, errno: int, why: str) -> None:
        """The refusal is so."""
        with self.assertRaisesRegex(Refusal, f"^.*control_tasks {caller} {control}: {why}$") as raised:
            ask.control_tasks(caller, control)
        self.assertEqual((raised.exception.errno, raised.exception.why), (errno, why))

    def test_they_are_no_calls(self) -> None:
        before = self.many.counts()
        for ask in self.ways():
            ask.control_tasks(1)
        self.assertEqual((self.table.mk(), self.many.counts(), self.seat.ordinal), (12, before, 10))

    def test_numbers(self) -> None:
        for ask in self.ways():
            for place, (what, most) in enumerate((("caller", 2**32 - 1), ("control", 2**64 - 1), ("start", 2**32 - 1))):
                for value in (-1, most + 1):
                    with self.assertRaisesRegex(ValueError, f"^{what} is 0 to {most}, not {value}$"):
                        ask.control_tasks(*[1, 0][:place], value)
                for none in ("1", 1.0, None):
                    with self.assertRaises(TypeError):
                        ask.control_tasks(*[1, 0][:place], none)  # type: ignore[arg-type]

    def test_closed(self) -> None:
        ways = self.ways()
        self.table.close()
        self.many.close()
        for ask in ways:
            with self.assertRaises(TableClosed):
                ask.control_tasks(1)

    def test_in_a_child(self) -> None:
        for ask in self.ways():
            self.assertEqual(in_child(lambda: ask.control_tasks(1)), f"closed: {OTHERS}")
            self.assertEqual(ask.control_tasks(1), (1, 3))

    def test_interrupts(self) -> None:
        for ask in self.ways():
            places = 0
            while CallInterrupter(places + 1, FILES_OF_TABLES).run(lambda: ask.control_tasks(1, 1)):
                places += 1
                self.assertEqual(ask.control_tasks(1, 1), (2, 4))
            self.assertGreater(places, 4)


class Others(unittest.TestCase):
    """Beside the list, on many hosts, and for threads."""

    def test_more_than_a_page(self) -> None:
        need_library()
        for count in (SHORT_PAGE - 1, SHORT_PAGE, SHORT_PAGE + 1, 4 * SHORT_PAGE):
            with Table() as table:
                children = tuple(table.fork(1).root for _ in range(count))
                self.assertEqual(table.ask.control_tasks(1, start=2), children)

    def test_as_the_list_of_the_table_says(self) -> None:
        need_library()
        chance, met = random.Random(SEED), 0
        with Table(301) as table:
            roots, groups = [1], [0, table.mk(), table.mk()]
            for _ in range(600):
                caller, other, group = chance.choice(roots), chance.choice(roots), chance.choice(groups)
                calls = [lambda: table.fork(caller, chance.random() < 0.3), lambda: table.fork(caller), lambda: table.move(other, group)]
                calls += [lambda: table.move(other, group), lambda: table.exit(caller), lambda: table.wait(1)]
                try:
                    chance.choice(calls)()
                except Refusal:
                    pass
                tasks = table.list().tasks
                for id in groups:
                    wanted = tuple(it.root for it in tasks if it.control == id and it.live)
                    self.assertEqual(table.ask.control_tasks(1, id), wanted)
                    met += id != 0 and len(wanted) > 1
                roots = [it.root for it in tasks]
        self.assertGreater(met, 50)

    def test_one_table_on_many_hosts(self) -> None:
        need_library()
        log = MemoryLog()
        with Replicated(log) as one, Replicated(log) as two:
            one.move(one.fork(1).root, one.mk())
            self.assertEqual([one.ask.control_tasks(1), two.ask(now=True).control_tasks(1, 2), two.ask(now=True).control_tasks(1)], [(1,), (2,), (1,)])

    def test_threads_beside_a_writer(self) -> None:
        numbers_beside_a_writer(self, lambda table: table.ask.control_tasks(1, start=2))


class Reading(unittest.TestCase):
    """What is made of what the library answers; it is not needed."""

    def read(self, *counts: int, status: int = DONE) -> tuple[int, ...]:
        """All numbers, where so many are there at each try."""
        tries = iter(counts)

        def write(name: str, caller: int, control: int, start: int, numbers: list[int], room: int, reply: PidtabReply) -> int:
            self.assertEqual((name, caller, control, start), ("control_tasks", 1, 2**64 - 1, 3))
            if status != DONE:
                return status
            there = next(tries)
            reply.kind, reply.first = COUNTED, min(there, room + 1)
            numbers[: min(room, there)] = range(3, 3 + min(room, there))
            return DONE

        return Ask(Answered(write)).control_tasks(1, 2**64 - 1, 3)

    def test_rooms(self) -> None:
        self.assertEqual(self.read(0), ())
        self.assertEqual(self.read(SHORT_PAGE + 1, SHORT_PAGE + 2), tuple(range(3, SHORT_PAGE + 5)))

    def test_statuses(self) -> None:
        for status, fault in ((NO_MEMORY, MemoryError), (CLOSED, TableClosed), (99, LibraryFault)):
            with self.assertRaises(fault):
                self.read(status=status)


if __name__ == "__main__":
    unittest.main()
