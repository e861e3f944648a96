"""What calls tell of what they did: by hand, beside the list, for threads, and where a call is interrupted."""

import random
import threading
import time
import unittest
from collections import Counter
from collections.abc import Callable
from types import SimpleNamespace
from typing import Any
from unittest import mock

import pidtab.effects
from pidtab import (
    Adopted,
    Effect,
    Ended,
    Forked,
    Gone,
    GroupGone,
    LibraryFault,
    Listing,
    Reaped,
    Seat,
    SessionGone,
    SpaceFell,
    SpaceGone,
    Table,
    TableClosed,
    Told,
)
from pidtab.calls import EachCall
from pidtab.effects import SHORT_ROOM, add_effects
from pidtab.raw import (
    CLOSED,
    DONE,
    GROUP_GONE,
    KILLED,
    NO_MEMORY,
    NO_ROOM,
    OUT_OF_RANGE,
    SESSION_GONE,
    SPACE_FELL,
    SPACE_GONE,
    SPENT,
    TASK_ADOPTED,
    TASK_ENDED,
    TASK_GONE,
)
from tests.test_ends import OTHERS, in_child
from tests.test_interrupts import CallInterrupter
from tests.test_labels import take_last_number
from tests.test_would import outcome
from tests.ways import FILES_OF_TABLES, OnEachTable, for_threads, need_library, open_stand_in

FILES = {pidtab.effects.__file__} | FILES_OF_TABLES

SEED = 7
THREADS = 3
ENOUGH = 100


def difference(before: Listing, after: Listing) -> list[Effect]:
    """What has become of the tasks between two lists."""
    now = {it.root: it for it in after.tasks}
    effects: list[Effect] = []
    for old in sorted(before.tasks, key=lambda it: it.root):
        new = now.get(old.root)
        if old.live and not (new and new.live):
            effects.append(Ended(old.root, new.status if new else None))
        if new is None:
            effects.append(Gone(old.root))
        elif new.parent != old.parent:
            effects.append(Adopted(old.root, new.parent))
    effects += [GroupGone(it) for it in sorted({it.group for it in before.tasks} - {it.group for it in after.tasks})]
    effects += [SessionGone(it) for it in sorted({it.session for it in before.tasks} - {it.session for it in after.tasks})]
    return effects + difference_of_spaces(before, after)


def difference_of_spaces(before: Listing, after: Listing) -> list[Effect]:
    """What has become of the namespaces between two lists."""
    now = {it.id: it for it in after.spaces}
    effects: list[Effect] = []
    for old in before.spaces:
        if not old.fallen and (old.id not in now or now[old.id].fallen):
            effects.append(SpaceFell(old.id))
        if old.id not in now:
            effects.append(SpaceGone(old.id))
    return effects


class Effects(OnEachTable):
    """By hand. 2 is the init of the namespace 1, in which are its child 3 and the child 4 of that; 5 is the init of 4, within that, and a child of 3.
    6 is a child of 1."""

    def fill(self, table: Table | Seat) -> None:
        table.fork(1, new=True)
        table.fork(2)
        table.fork(3)
        table.fork(3, new=True)
        table.fork(1)

    def tables(self) -> "list[Table | Seat]":
        """What makes calls."""
        return [self.table, self.seat]

    def test_an_exit(self) -> None:
        for table in self.tables():
            self.assertEqual(table.told.exit(4, 255), Told(None, [Ended(4, 255)]))
            # A zombie has another parent too.
            self.assertEqual(table.told.exit(3), Told(None, [Ended(3, 0), Adopted(4, 2), Adopted(5, 2)]))

    def test_the_fall_of_a_namespace(self) -> None:
        for table in self.tables():
            table.exit(4, 1)
            # 7 is in the namespace, and its parent is not: so it is there until that waits for it.
            table.join(1, 2)
            table.fork(1)
            told = table.told.exit(2, 9)
            of_tasks: list[Effect] = [Ended(2, 9), Ended(3, None), Gone(3), Gone(4), Ended(5, None), Gone(5), Ended(7, None)]
            self.assertEqual(told, Told(None, [*of_tasks, SpaceFell(1), SpaceFell(4), SpaceGone(4)]))
            self.assertEqual([it.killed for it in told.effects if isinstance(it, Ended)], [False, True, True, True])
            # 7 has a number in the namespace, and then nobody has.
            self.assertEqual(table.told.wait(1, pid=2), Told(Reaped(2, 9), [Gone(2)]))
            self.assertEqual(table.told.wait(1, pid=7), Told(Reaped(7, None), [Gone(7), SpaceGone(1)]))

    def test_groups_and_sessions(self) -> None:
        for table in self.tables():
            self.assertEqual(table.told.setpgid(1, 6, 0), Told(None, []))
            self.assertEqual(table.told.setpgid(1, 6, 1), Told(None, [GroupGone(6)]))
            self.assertEqual([table.told.setsid(6), table.told.fork(6)], [Told(6, []), Told(Forked(7, 7), [])])
            # 6 is a member of both until it is reaped, and its child 7 stays.
            self.assertEqual(table.told.exit(6, 1), Told(None, [Ended(6, 1), Adopted(7, 1)]))
            self.assertEqual(table.told.wait(1), Told(Reaped(6, 1), [Gone(6)]))
            self.assertEqual(table.told.setsid(7), Told(7, [GroupGone(6), SessionGone(6)]))
            self.assertEqual(table.told.exit(7, 2), Told(None, [Ended(7, 2)]))
            self.assertEqual(table.told.wait(1), Told(Reaped(7, 2), [Gone(7), GroupGone(7), SessionGone(7)]))

    def test_a_group_keeps_a_namespace(self) -> None:
        for table in self.tables():
            # 6 goes into the group of 7, which is the init of the namespace 7: so many calls were made by then.
            table.told.setpgid(1, 6, 6)
            child = table.told.fork(1, new=True).answer
            self.assertEqual((child, table.ask.stat(1, 7).space), (Forked(7, 7), 7))
            table.told.setpgid(1, 7, 0)
            self.assertEqual(table.told.setpgid(1, 6, 7), Told(None, [GroupGone(6)]))
            self.assertEqual(table.told.exit(7), Told(None, [Ended(7, 0), SpaceFell(7)]))
            self.assertEqual(table.told.wait(1), Told(Reaped(7, 0), [Gone(7)]))
            self.assertEqual(table.told.setpgid(1, 6, 1), Told(None, [GroupGone(7), SpaceGone(7)]))

    def test_a_wait(self) -> None:
        for table in self.tables():
            self.assertEqual(table.told.wait(1), Told(None, []))
            table.exit(6, 3)
            self.assertEqual(table.told.wait(1, pid=6), Told(Reaped(6, 3), [Gone(6)]))

    def test_others_do_nothing_to_tasks(self) -> None:
        for table in self.tables():
            told = table.told
            self.assertEqual([told.fork(1), told.fork(2, new=True)], [Told(Forked(7, 7), []), Told(Forked(5, 8), [])])
            self.assertEqual([told.setpgid(1, 6), told.setsid(3), told.exec(3), told.getpid(2)], [Told(it, []) for it in (None, 2, None, 1)])
            self.assertEqual(told.nspid(1, 3).answer, (3, 2))

    def test_a_refusal_is_raised(self) -> None:
        calls: list[Callable[[EachCall], object]] = [lambda it: it.exit(1), lambda it: it.exit(9), lambda it: it.wait(6), lambda it: it.rm(0), lambda it: it.fork(9)]
        for table in self.tables():
            for call in calls:
                refused = outcome(lambda: call(table))
                self.assertIsInstance(refused, tuple)
                self.assertEqual(outcome(lambda: call(table.told)), refused)  # type: ignore[arg-type]

    def test_numbers(self) -> None:
        for table in self.tables():
            before = table.list_text()
            for number, status in ((-1, 0), (2**32, 0), (6, 256), (6, -1)):
                with self.assertRaises(ValueError):
                    table.told.exit(number, status)
            for none in ("6", 6.0, None):
                with self.assertRaises(TypeError):
                    table.told.exit(none)  # type: ignore[arg-type]
            with self.assertRaises(TypeError):
                table.told.exit()  # type: ignore[call-arg]
            self.assertEqual(table.list_text(), before)

    def test_each_call_is_there_and_is_told(self) -> None:
        each = {name for name in dir(EachCall) if not name.startswith("_")}
        self.assertEqual({name for name in dir(self.table.told) if not name.startswith("_")}, each)
        self.assertEqual(repr(self.table.told), f"<pidtab.ToldCalls of {self.table!r}>")

    def test_it_is_recorded(self) -> None:
        self.seat.told.exit(6, 4)
        self.assertEqual((self.seat.ordinal, self.many.entry(5).line, self.many.entry(5).answer), (5, "exit 6 4", "ok"))

    def test_a_label_is_of_the_task_before(self) -> None:
        many = for_threads(1, pid_max=301)
        self.addCleanup(many.close)
        for table in (Table(301), many.seat()):
            self.addCleanup(table.close)
            take_last_number(table)
            self.assertEqual(table.told.fork(1), Told(Forked(300, 300), []))
            self.assertEqual([it.label for it in table.list().tasks if it.root == 300], [None])

    def test_closed(self) -> None:
        held = [self.table.told, self.seat.told]
        self.table.close()
        self.many.close()
        for told in held:
            with self.assertRaises(TableClosed):
                told.exit(6)

    def test_a_closed_seat(self) -> None:
        told = self.seat.told
        self.seat.close()
        with self.assertRaisesRegex(TableClosed, "^the seat was closed$"):
            told.exit(6)
        self.assertEqual(self.many.counts().recorded, 5)

    def test_in_a_child(self) -> None:
        for table in self.tables():
            self.assertEqual(in_child(lambda: table.told.exit(6)), f"closed: {OTHERS}")
            self.assertEqual(table.told.exit(6), Told(None, [Ended(6, 0)]))

    def test_interrupts(self) -> None:
        for table in self.tables():
            places, is_interrupted = 0, True
            while is_interrupted:
                child = table.fork(1).root
                is_interrupted = CallInterrupter(places + 1, FILES).run(lambda: table.told.exit(child, 5))
                self.check_exit(table, child)
                places += is_interrupted
            self.assertGreater(places, 8)

    def check_exit(self, table: Table | Seat, child: int) -> None:
        """The exit was made, or not begun. What a seat's has told, is told again."""
        if table.ask.stat(1, child).live:
            table.exit(child)
        elif isinstance(table, Seat):
            with self.many.at(table.ordinal or 0) as before:
                self.assertEqual(before.told.exit(child, 5), Told(None, [Ended(child, 5)]))
        table.wait(1, pid=child)

    def test_values(self) -> None:
        each = [Ended(2, 1), Adopted(2, 1), Gone(2), GroupGone(2), SessionGone(2), SpaceFell(2), SpaceGone(2)]
        self.assertEqual((len({*each, Ended(2, 1), SpaceGone(2)}), repr(each[-1])), (7, "SpaceGone(id=2)"))
        with self.assertRaises(AttributeError):
            Gone(2).number = 3  # type: ignore[misc]
        answer, effects = self.table.told.exit(6, 1)
        self.assertEqual((answer, effects), (None, [Ended(6, 1)]))


class Others(unittest.TestCase):
    """Beside the list, with more tasks than there is room for at first, and for threads."""

    def test_as_the_lists_before_and_behind_say(self) -> None:
        need_library()
        need_library()
        chance, kinds = random.Random(SEED), Counter[type]()
        with Table(301) as table, for_threads(1, pid_max=301) as many:
            seat, roots = many.seat(), [1]
            for _ in range(4000):
                caller, other = chance.choice(roots), chance.choice(roots)
                calls: list[Callable[[EachCall], object]] = [
                    lambda it: it.fork(caller, False), lambda it: it.fork(caller, True), lambda it: it.fork(1), lambda it: it.join(1, other),
                    lambda it: it.join(1, 1), lambda it: it.exit(caller, 9), lambda it: it.wait(caller), lambda it: it.wait(1), lambda it: it.subreaper(caller),
                    lambda it: it.setsid(caller), lambda it: it.setpgid(caller, 0, 0), lambda it: it.getppid(caller), lambda it: it.wait(1),
                    lambda it: it.setsid(other), lambda it: it.setpgid(1, other, 1), lambda it: it.setpgid(other, 0, 0),
                ]  # fmt: skip
                call, before = chance.choice(calls), table.list()
                told = outcome(lambda: call(table.told))  # type: ignore[arg-type]
                self.assertEqual(outcome(lambda: call(seat.told)), told)  # type: ignore[arg-type]
                after, effects = table.list(), told.effects if isinstance(told, Told) else []
                self.assertEqual(effects, difference(before, after))
                kinds.update(map(type, effects))
                roots = [it.root for it in after.tasks]
            self.assertEqual(many.dump(), table.dump())
        for kind in (Ended, Adopted, Gone, GroupGone, SessionGone, SpaceFell, SpaceGone):
            self.assertGreater(kinds[kind], 50)

    def test_more_than_there_is_room_for_at_first(self) -> None:
        need_library()
        # Of each task that an exit may touch there may be two effects, and one of their group and of their session.
        for count in (SHORT_ROOM // 2 - 3, SHORT_ROOM // 2 - 2, SHORT_ROOM // 2 - 1, 5 * SHORT_ROOM):
            with Table() as table:
                table.fork(1)
                children = [table.fork(2).root for _ in range(count)]
                self.assertEqual(table.told.exit(2, 7), Told(None, [Ended(2, 7), *[Adopted(it, 1) for it in children]]))

    def test_no_effect_is_lost_beside_threads_that_fork(self) -> None:
        need_library()
        with for_threads(THREADS + 1, pid_max=5000) as many:
            seat, children = many.seat(), []
            parent = seat.fork(1).root

            def fork_children() -> None:
                worker = many.seat()
                # It is refused once the parent has ended.
                while isinstance(child := outcome(lambda: worker.fork(parent)), Forked):
                    children.append(child.root)

            threads = [threading.Thread(target=fork_children) for _ in range(THREADS)]
            for it in threads:
                it.start()
            while len(children) < ENOUGH:
                time.sleep(0.001)
            told = seat.told.exit(parent, 3)
            for it in threads:
                it.join()
            self.assertEqual(told, Told(None, [Ended(parent, 3), *[Adopted(it, 1) for it in sorted(children)]]))


class Rooms(unittest.TestCase):
    """What is made of what the library answers; it is not needed."""

    def test_rooms_that_are_short(self) -> None:
        rooms: list[int] = []
        effects: list[Effect] = [Gone(7)]

        def make(room: Any, there: int, count: Any) -> int:
            rooms.append(there)
            if there < 2000:
                count.value = 1000 * len(rooms)
                return NO_ROOM
            of_tasks = [(TASK_ENDED, 2, KILLED), (TASK_ENDED, 3, 255), (TASK_ADOPTED, 4, 2**32 - 1), (TASK_GONE, 2**32 - 1, 0)]
            others = [(GROUP_GONE, 2**32 - 1, 0), (SESSION_GONE, 3, 0), (SPACE_FELL, 0, 2**64 - 1), (SPACE_GONE, 0, 4)]
            for place, told in enumerate(of_tasks + others):
                room[place] = told
            count.value = 8
            return DONE

        self.assertEqual(add_effects(effects, make), DONE)
        self.assertEqual(rooms, [SHORT_ROOM, 1125, 2250])
        of_tasks = [Ended(2, None), Ended(3, 255), Adopted(4, 2**32 - 1), Gone(2**32 - 1)]
        self.assertEqual(effects, [Gone(7), *of_tasks, GroupGone(2**32 - 1), SessionGone(3), SpaceFell(2**64 - 1), SpaceGone(4)])

    def table(self, **functions: object) -> Table:
        """A table of functions in the place of the library's."""
        done = mock.Mock(return_value=DONE)
        table = open_stand_in(SimpleNamespace(pidtab_open=done, pidtab_close=done, pidtab_call=done, pidtab_line=done, **functions))
        self.addCleanup(table.close)
        return table

    def test_statuses(self) -> None:
        for status, fault in ((NO_MEMORY, MemoryError), (OUT_OF_RANGE, ValueError), (SPENT, OverflowError), (CLOSED, TableClosed), (99, LibraryFault)):
            with self.assertRaises(fault):
                self.table(pidtab_call_told=mock.Mock(return_value=status)).told.exit(2)

    def test_a_library_of_an_earlier_release(self) -> None:
        with self.assertRaisesRegex(LibraryFault, "^stand-in has no function pidtab_call_told, as the library of an earlier release: build it with"):
            self.table().told.exit(2)


if __name__ == "__main__":
    unittest.main()
