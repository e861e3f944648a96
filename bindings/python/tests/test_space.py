"""Reads of namespaces, and what is directly inside one. bindings/c/test_space.c compares more of them."""

import json
import random
import unittest

from pidtab import Ask, LibraryFault, MemoryLog, Refusal, Replicated, Seat, SpaceStat, Table, TableClosed
from pidtab.native import SHORT_PAGE
from pidtab.raw import CLOSED, DONE, NO_MEMORY, OUT_OF_RANGE, PidtabSpace
from tests.test_changes import validator
from tests.test_ends import OTHERS, in_child
from tests.test_interrupts import CallInterrupter
from tests.ways import FILES_OF_TABLES, Answered, OnEachTable, need_library, read_beside_a_writer

SEED = 5

ROOT = SpaceStat(id=0, parent=None, level=0, init=1, fallen=False)


def make_spaces(table: Table | Seat) -> None:
    """The ids are the numbers of calls. 2 is the init of 1, and 3 that of 2 within it. 4 is that of 3, which has fallen: 5, a child of the root init, is there."""
    table.fork(1, new=True)
    table.fork(2, new=True)
    table.fork(1, new=True)
    table.join(1, 4)
    table.fork(1)
    table.exit(4)


class Spaces(OnEachTable):
    """On each table."""

    def fill(self, table: Table | Seat) -> None:
        make_spaces(table)

    def is_none(self, ask: Ask, id: int) -> None:
        """No namespace has the id."""
        with self.assertRaisesRegex(LookupError, f"^no namespace has the id {id}: it is gone, or there was none$"):
            ask.space(id)

    def test_each_field(self) -> None:
        for ask in self.ways():
            self.assertEqual([ask.space(it) for it in (0, 1, 2, 3)], [ROOT, SpaceStat(1, 0, 1, 2, False), SpaceStat(2, 1, 2, 3, False), SpaceStat(3, 0, 1, 4, True)])
            self.assertIs(ask.space(3).fallen, True)

    def test_ends(self) -> None:
        for table in (self.table, self.seat):
            table.wait(1, pid=4)
            self.assertEqual(table.ask.space(3), SpaceStat(3, 0, 1, None, True))
            table.wait(1, pid=5)
            self.is_none(table.ask, 3)
            # That within it goes at once with its init.
            table.exit(2)
            self.assertEqual(table.ask.space(1), SpaceStat(1, 0, 1, 2, True))
            self.is_none(table.ask, 2)

    def test_ids(self) -> None:
        for ask in self.ways():
            # That of a call which made none, the next one, and the greatest.
            for id in (4, 7, 2**32, 2**64 - 1):
                self.is_none(ask, id)
            for value in (-1, 2**64):
                with self.assertRaisesRegex(ValueError, f"^id is 0 to 18446744073709551615, not {value}$"):
                    ask.space(value)
            for none in ("1", 1.0, None):
                with self.assertRaises(TypeError):
                    ask.space(none)  # type: ignore[arg-type]

    def test_inside(self) -> None:
        for table in (self.table, self.seat):
            self.assertEqual([table.mk(), table.mk(7), table.mk(7)], [7, 8, 9])
        for ask in self.ways():
            self.assertEqual([ask.spaces_inside(), ask.spaces_inside(0, 2), ask.spaces_inside(1), ask.spaces_inside(2)], [(1, 3), (3,), (2,), ()])
            self.assertEqual([ask.controls_inside(), ask.controls_inside(7), ask.controls_inside(7, 9), ask.controls_inside(9)], [(7,), (8, 9), (9,), ()])
            self.assertEqual(ask.controls_inside(0, 2**64 - 1), ())
            with self.assertRaisesRegex(LookupError, "^no namespace has the id 7: it is gone, or there was none$"):
                ask.spaces_inside(7)
            with self.assertRaisesRegex(LookupError, "^no control group has the id 1: it is gone, or there was none$"):
                ask.controls_inside(1)

    def test_numbers_of_what_is_inside(self) -> None:
        for ask in self.ways():
            for inside in (ask.spaces_inside, ask.controls_inside):
                for place, what in enumerate(("id", "start")):
                    for value in (-1, 2**64):
                        with self.assertRaisesRegex(ValueError, f"^{what} is 0 to 18446744073709551615, not {value}$"):
                            inside(*[0][:place], value)
                    for none in ("1", 1.0, None):
                        with self.assertRaises(TypeError):
                            inside(*[0][:place], none)  # type: ignore[arg-type]

    def test_they_are_no_calls(self) -> None:
        before = self.many.counts()
        for ask in self.ways():
            ask.space(1)
            ask.spaces_inside()
            ask.controls_inside()
        self.assertEqual((self.table.mk(), self.many.counts(), self.seat.ordinal), (7, before, 5))

    def test_closed(self) -> None:
        ways = self.ways()
        self.table.close()
        self.many.close()
        for ask in ways:
            for read in (ask.space, ask.spaces_inside, ask.controls_inside):
                with self.assertRaises(TableClosed):
                    read(0)

    def test_in_a_child(self) -> None:
        for ask in self.ways():
            for read in (ask.space, ask.spaces_inside, ask.controls_inside):
                self.assertEqual(in_child(lambda: read(0)), f"closed: {OTHERS}")
            self.assertEqual([ask.space(0), ask.spaces_inside(0), ask.controls_inside(0)], [ROOT, (1, 3), ()])

    def test_interrupts(self) -> None:
        for ask in self.ways():
            places = 0
            while CallInterrupter(places + 1, FILES_OF_TABLES).run(lambda: ask.space(3)):
                places += 1
                self.assertEqual(ask.space(3), SpaceStat(3, 0, 1, 4, True))
            self.assertGreater(places, 0)

    def test_interrupts_of_what_is_inside(self) -> None:
        for ask in self.ways():
            places = 0
            while CallInterrupter(places + 1, FILES_OF_TABLES).run(lambda: ask.spaces_inside()):
                places += 1
                self.assertEqual(ask.spaces_inside(), (1, 3))
            self.assertGreater(places, 4)

    def test_values(self) -> None:
        space = self.table.ask.space(3)
        with self.assertRaises(AttributeError):
            space.init = 5  # type: ignore[misc]
        self.assertEqual(json.dumps(space.to_object()), '{"id": 3, "parent": 0, "level": 1, "init": 4, "fallen": true}')
        self.assertEqual(json.dumps(ROOT.to_object()), '{"id": 0, "parent": null, "level": 0, "init": 1, "fallen": false}')
        self.assertEqual(len({space, self.table.ask.space(3), ROOT}), 2)


class Others(unittest.TestCase):
    """Beside the list, on many hosts, and for threads."""

    def test_more_inside_than_a_page(self) -> None:
        need_library()
        for count in (SHORT_PAGE - 1, SHORT_PAGE, SHORT_PAGE + 1, 4 * SHORT_PAGE):
            with Table() as table:
                made = tuple(table.mk() for _ in range(count))
                self.assertEqual(table.ask.controls_inside(), made)

    def test_inside_without_memory(self) -> None:
        with self.assertRaises(MemoryError):
            Ask(Answered(lambda *taken: NO_MEMORY)).spaces_inside(1, 2)

    def test_as_the_list_of_the_table_says(self) -> None:
        need_library()
        chance = random.Random(SEED)
        with Table(301) as table:
            roots = [1]
            for _ in range(400):
                caller, other = chance.choice(roots), chance.choice(roots)
                calls = [lambda: table.fork(caller, chance.random() < 0.5), lambda: table.fork(1), lambda: table.join(1, other), lambda: table.join(1, 1)]
                calls += [lambda: table.setpgid(1, other, 0), lambda: table.exit(caller), lambda: table.wait(1)]
                try:
                    chance.choice(calls)()
                except Refusal:
                    pass
                self.check(table)
                roots = [it.root for it in table.list().tasks]

    def check(self, table: Table) -> None:
        """The list has the namespaces, and the inits as tasks with the number 1 there."""
        listing = table.list()
        inits = {it.space: it.root for it in listing.tasks if it.numbers[-1] == 1}
        levels: dict[int | None, int] = {None: -1}
        for it in listing.spaces:
            levels[it.id] = levels[it.parent] + 1
            self.assertEqual(table.ask.space(it.id), SpaceStat(it.id, it.parent, levels[it.id], inits.get(it.id), it.fallen))
            self.assertEqual(table.ask.spaces_inside(it.id), tuple(inner.id for inner in listing.spaces if inner.parent == it.id))

    def test_one_table_on_many_hosts(self) -> None:
        need_library()
        log = MemoryLog()
        with Replicated(log) as one, Replicated(log) as two:
            root = one.fork(1, new=True).root
            id = one.ask.stat(1, root).space
            self.assertEqual([one.ask.space(id), two.ask(now=True).space(id)], [SpaceStat(id, 0, 1, 2, False)] * 2)
            self.assertEqual([one.ask.spaces_inside(), two.ask(now=True).spaces_inside(), two.ask(now=True).controls_inside()], [(id,), (id,), ()])

    def test_threads_beside_a_writer(self) -> None:
        def read(table: Table, before: int) -> int:
            id = before + 1
            try:
                told = table.ask.space(id)
            except LookupError:
                return before
            inside = table.ask.spaces_inside()
            self.assertEqual((told, inside), (SpaceStat(id, 0, 1, id + 1, False), tuple(range(1, len(inside) + 1))))
            self.assertGreaterEqual(len(inside), id)
            return id

        read_beside_a_writer(self, read, new=True)

    def test_by_the_schema(self) -> None:
        check = validator()
        for space in (ROOT, SpaceStat(2**64 - 2, 0, 32, None, True)):
            check.validate(space.to_object())
        self.assertFalse(check.is_valid(SpaceStat(1, 0, 33, 2, False).to_object()))


class Reading(unittest.TestCase):
    """What is made of what the library answers; it is not needed."""

    def read(self, status: int = DONE, **fields: int) -> SpaceStat:
        """What is told where the library tells these fields."""

        def write(name: str, asked: int, space: PidtabSpace) -> int:
            self.assertEqual((name, asked), ("space", 3))
            for name, value in fields.items():
                setattr(space, name, value)
            return status

        return Ask(Answered(write)).space(3)

    def test_fields(self) -> None:
        self.assertEqual(self.read(init=1), ROOT)
        self.assertEqual(self.read(id=2**64 - 1, parent=2, level=32, fallen=1), SpaceStat(2**64 - 1, 2, 32, None, True))

    def test_statuses(self) -> None:
        with self.assertRaisesRegex(LookupError, "^no namespace has the id 3: it is gone, or there was none$"):
            self.read(status=OUT_OF_RANGE)
        with self.assertRaises(TableClosed):
            self.read(status=CLOSED)
        with self.assertRaises(MemoryError):
            self.read(status=NO_MEMORY)
        with self.assertRaises(LibraryFault):
            self.read(status=99)


if __name__ == "__main__":
    unittest.main()
