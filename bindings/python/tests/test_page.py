"""The children of tasks, the members of groups and sessions, and the tasks of namespaces. bindings/c/test_page.c compares more of them."""

import random
import unittest
from collections.abc import Callable

from pidtab import Ask, MemoryLog, Refusal, Replicated, Seat, Table, TableClosed
from pidtab.native import SHORT_PAGE
from pidtab.raw import CHILDREN, CLOSED, COUNTED, DONE, NO_MEMORY, PidtabReply
from tests.test_ends import OTHERS, in_child
from tests.test_interrupts import CallInterrupter
from tests.ways import FILES_OF_TABLES, Answered, OnEachTable, need_library, numbers_beside_a_writer

SEED = 5

NAMES = ("children", "group_members", "session_members", "namespace_members", "namespace_own")

Lists = tuple[Callable[..., tuple[int, ...]], ...]


def lists_of(ask: Ask) -> Lists:
    """The methods that answer lists."""
    return (ask.children, ask.group_members, ask.session_members, ask.namespace_members, ask.namespace_own)


def make_tasks(table: Table | Seat) -> None:
    """1 has the children 2 and 3. 3 is 1 of a new namespace, and its child 4 is 2 there. 2 leads a session, of which is its child 5, a zombie."""
    table.fork(1)
    table.fork(1, new=True)
    table.fork(3)
    table.setsid(2)
    table.fork(2)
    table.exit(5)


class Pages(OnEachTable):
    """On each table."""

    def fill(self, table: Table | Seat) -> None:
        make_tasks(table)

    def test_each_kind(self) -> None:
        for ask in self.ways():
            told = [ask.children(1), ask.children(1, 1), ask.children(2), ask.children(1, 2), ask.children(1, 3), ask.children(1, 4)]
            self.assertEqual(told, [(2, 3), (2, 3), (5,), (5,), (4,), ()])
            for members in lists_of(ask)[1:3]:
                self.assertEqual([members(1), members(1, 1), members(2), members(1, 2), members(1, 3)], [(1, 3, 4), (1, 3, 4), (2, 5), (2, 5), ()])

    def test_in_a_namespace(self) -> None:
        for ask in self.ways():
            self.assertEqual([ask.children(3), ask.children(4, 1), ask.children(4)], [(2,), (2,), ()])
            # It sees no number of the group and the session of 1, in which both are.
            for members in lists_of(ask)[1:3]:
                self.assertEqual([members(3), members(4), members(4, 1)], [(1, 2), (1, 2), ()])

    def test_of_a_namespace(self) -> None:
        for ask in self.ways():
            self.assertEqual([ask.namespace_members(1), ask.namespace_members(2, 5, 4)], [(1, 2, 3, 4, 5), (4, 5)])
            self.assertEqual([ask.namespace_own(1), ask.namespace_own(1, 2, 2)], [(1, 2, 5), (2, 5)])
            for members in lists_of(ask)[3:]:
                self.assertEqual([members(1, 3), members(1, 4), members(3), members(4, 1, 2), members(3, 3)], [(3, 4), (3, 4), (1, 2), (2,), ()])

    def test_from_a_number_on(self) -> None:
        for ask in self.ways():
            self.assertEqual([ask.children(1, 0, it) for it in (2, 3, 4, 2**32 - 1)], [(2, 3), (3,), (), ()])
            self.assertEqual([ask.group_members(1, start=2), ask.session_members(1, start=4)], [(3, 4), (4,)])

    def test_refusals(self) -> None:
        for ask in self.ways():
            for caller in (0, 5, 9):
                for ask_list, name in zip(lists_of(ask), NAMES):
                    with self.assertRaisesRegex(Refusal, f"^.*{name} {caller} 7: no-caller$") as raised:
                        ask_list(caller, 7)
                    self.assertEqual((raised.exception.errno, raised.exception.why), (3, "no-caller"))

    def test_they_are_no_calls(self) -> None:
        before = self.many.counts()
        for ask in self.ways():
            for ask_list in lists_of(ask):
                ask_list(1)
        self.assertEqual((self.table.mk(), self.many.counts(), self.seat.ordinal), (7, before, 5))

    def test_numbers(self) -> None:
        for ask in self.ways():
            for ask_list, name in zip(lists_of(ask), ("pid", "group", "session", "pid", "pid")):
                for place, what in enumerate(("caller", name, "start")):
                    for value in (-1, 2**32):
                        with self.assertRaisesRegex(ValueError, f"^{what} is 0 to 4294967295, not {value}$"):
                            ask_list(*[1, 0, 0][:place], value)
                    for none in ("1", 1.0, None):
                        with self.assertRaises(TypeError):
                            ask_list(*[1, 0, 0][:place], none)

    def test_closed(self) -> None:
        ways = self.ways()
        self.table.close()
        self.many.close()
        for ask in ways:
            for ask_list in lists_of(ask):
                with self.assertRaises(TableClosed):
                    ask_list(1)

    def test_a_forked_child_has_no_table(self) -> None:
        for ask in self.ways():
            self.assertEqual(in_child(lambda: ask.children(1)), f"closed: {OTHERS}")
            self.assertEqual(ask.children(1), (2, 3))

    def test_an_interrupt_behind_each_step(self) -> None:
        for ask in self.ways():
            places = 0
            while CallInterrupter(places + 1, FILES_OF_TABLES).run(lambda: ask.children(1)):
                places += 1
                self.assertEqual(ask.children(1), (2, 3))
            self.assertGreater(places, 4)


class Many(unittest.TestCase):
    """More than there is room for at first, and many tables."""

    def test_more_than_a_page(self) -> None:
        need_library()
        for count in (SHORT_PAGE - 1, SHORT_PAGE, SHORT_PAGE + 1, 4 * SHORT_PAGE):
            with Table() as table:
                children = tuple(table.fork(1).root for _ in range(count))
                self.assertEqual([table.ask.children(1), table.ask.group_members(1)], [children, (1, *children)])

    def test_as_the_list_of_the_table_says(self) -> None:
        need_library()
        chance = random.Random(SEED)
        with Table(301) as table:
            roots = [1]
            for _ in range(400):
                caller, other = chance.choice(roots), chance.choice(roots)
                calls = [lambda: table.fork(caller, chance.random() < 0.3), lambda: table.fork(caller), lambda: table.setsid(caller)]
                calls += [lambda: table.setpgid(caller), lambda: table.setpgid(1, other, 0), lambda: table.exit(caller), lambda: table.wait(1)]
                try:
                    chance.choice(calls)()
                except Refusal:
                    pass
                self.check(table)
                roots = [it.root for it in table.list().tasks]

    def check(self, table: Table) -> None:
        """The root init sees each task by the numbers that the list has, and the namespaces around it."""
        tasks, around = table.list().tasks, {None: []}
        for space in table.list().spaces:
            around[space.id] = [space.id, *around[space.parent]]
        homes = {it.root: it.space for it in tasks}
        for number in {1, *homes, *(it.group for it in tasks), *(it.session for it in tasks)}:
            told = [ask(1, number) for ask in lists_of(table.ask)]
            wanted = [[it.root for it in tasks if kind(it) == number] for kind in (lambda it: it.parent, lambda it: it.group, lambda it: it.session)]
            wanted += [[it.root for it in tasks if homes.get(number) in around[it.space]], [it.root for it in tasks if homes.get(number) == it.space]]
            self.assertEqual(told, [tuple(it) for it in wanted])

    def test_one_table_on_many_hosts(self) -> None:
        need_library()
        log = MemoryLog()
        with Replicated(log) as one, Replicated(log) as two:
            one.fork(1)
            self.assertEqual([one.ask.children(1), two.ask(now=True).children(1), two.ask(now=True).session_members(1)], [(2,), (2,), (1, 2)])

    def test_threads_beside_a_writer(self) -> None:
        numbers_beside_a_writer(self, lambda table: table.ask.children(1))


class Reading(unittest.TestCase):
    """What is made of what the library answers; it is not needed."""

    def read(self, *counts: int, status: int = DONE) -> tuple[int, ...]:
        """All numbers, where so many are there at each try."""
        tries = iter(counts)
        self.rooms: list[int] = []

        def write(name: str, caller: int, kind: int, number: int, start: int, numbers: list[int], room: int, reply: PidtabReply) -> int:
            self.assertEqual((name, caller, kind, number, start), ("page", 1, CHILDREN, 2, 3))
            self.rooms.append(room)
            if status != DONE:
                return status
            there = next(tries)
            reply.kind, reply.first = COUNTED, min(there, room + 1)
            numbers[: min(room, there)] = range(3, 3 + min(room, there))
            return DONE

        return Ask(Answered(write)).children(1, 2, 3)

    def test_rooms(self) -> None:
        self.assertEqual(self.read(0), ())
        self.assertEqual(self.read(SHORT_PAGE), tuple(range(3, SHORT_PAGE + 3)))
        self.assertEqual(self.rooms, [SHORT_PAGE])
        # Others are faster twice: each room is larger than the last.
        self.assertEqual(self.read(SHORT_PAGE + 1, 4 * SHORT_PAGE + 1, 150), tuple(range(3, 153)))
        self.assertEqual(self.rooms, [SHORT_PAGE, 4 * SHORT_PAGE, 16 * SHORT_PAGE])

    def test_statuses(self) -> None:
        with self.assertRaises(MemoryError):
            self.read(status=NO_MEMORY)
        with self.assertRaises(TableClosed):
            self.read(status=CLOSED)


if __name__ == "__main__":
    unittest.main()
