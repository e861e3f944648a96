"""Labels of tasks, which are outside of the table, and keys beside numbers."""

import json
import threading
import unittest
from collections.abc import Callable
from itertools import product
from typing import Any

from pidtab import ALL, Forked, Refusal, Seat, Table, TableClosed, read_list
from pidtab.accounts import Accounts
from pidtab.calls import Calls
from pidtab.labels import Labels
from pidtab.number_calls import NumberCalls
from pidtab.tree import draw_list
from tests.test_history import run_all
from tests.ways import for_threads, need_library

TREE = """\
processes
  space 0
    1 group 1 session 1 control 0 live
      space 1
        2,1 (web 1) group 1 session 1 control 0 live
          3,2 group 1 session 1 control 0 live
"""


# The last number below a `pid_max` of 301; the search for a number begins there again, as the kernel's does.
LAST = 300


def go_up(table: Calls) -> None:
    """Forks children of the root init that end, up to the last number, which then comes again and again."""
    while (child := table.fork(1).root) != LAST:
        table.exit(child)
        table.wait(1)


def take_last_number(table: NumberCalls) -> None:
    """The last number had a task with a label, which is gone: the next child of the root init gets it."""
    go_up(table)
    table.label(LAST, "before")
    table.exit(LAST)
    table.wait(1)


def labels_of(table: Table | Table | Calls) -> dict[int, str | None]:
    """The labels of all tasks that have one."""
    return {task.root: task.label for task in table.list().tasks if task.label}


class OfOneTable(unittest.TestCase):
    """Of a table of this process."""

    def setUp(self) -> None:
        need_library()
        self.table = Table(301)
        self.addCleanup(self.table.close)

    def test_in_list_json_and_tree(self) -> None:
        self.table.answers(["fork 1 new", "fork 2"])
        text, dump = self.table.list_text(), self.table.dump()
        self.table.label(2, "web 1")
        self.assertEqual(labels_of(self.table), {2: "web 1"})
        tasks = json.loads(self.table.list().to_json())["tasks"]
        self.assertEqual([it.get("label") for it in tasks], [None, "web 1", None])
        self.assertEqual(self.table.tree().partition("namespaces")[0], TREE)
        # The table knows nothing of it, and no call was made.
        self.assertEqual((self.table.list_text(), self.table.dump(), self.table.list()), (text, dump, read_list(text)))
        self.assertEqual(self.table.mk(), 3)

    def test_another_and_none(self) -> None:
        for text in ("init", "systemd"):
            self.table.label(1, text)
        self.assertEqual(labels_of(self.table), {1: "systemd"})
        for _ in range(2):
            self.table.label(1, None)
        self.assertEqual(labels_of(self.table), {})

    def test_it_goes_with_its_task(self) -> None:
        go_up(self.table)
        for line in (None, "fork 1"):
            self.table.label(LAST, "short")
            self.table.exit(LAST)
            self.assertEqual(labels_of(self.table), {LAST: "short"})
            self.table.wait(1)
            self.assertEqual(labels_of(self.table), {})
            self.assertEqual(self.table.line(line) if line else self.table.fork(1).root, "child 300 root 300" if line else LAST)
            self.assertEqual(labels_of(self.table), {}, line)

    def test_a_copy_has_its_own(self) -> None:
        self.table.label(1, "init")
        with self.table.copy() as copy:
            copy.label(1, "other")
            self.assertEqual((labels_of(copy), labels_of(self.table)), ({1: "other"}, {1: "init"}))

    def test_misuse(self) -> None:
        with self.assertRaises(Refusal) as refusal:
            self.table.label(9, "nobody")
        self.assertEqual(refusal.exception.word, "no-task")
        for text in ("", "two\nlines", "bell\a"):
            with self.assertRaisesRegex(ValueError, "^a label is some printable text of one line"):
                self.table.label(1, text)
        with self.assertRaisesRegex(TypeError, "^a label is a str, not int$"):
            self.table.label(1, 5)  # type: ignore[arg-type]
        with self.assertRaises(TypeError):
            self.table.label("1", "init")  # type: ignore[arg-type]
        self.table.close()
        with self.assertRaises(TableClosed):
            self.table.label(1, "init")


class SharedLabels(unittest.TestCase):
    """Of a table for threads: one for all seats."""

    def setUp(self) -> None:
        need_library()
        self.table = for_threads(2, pid_max=301)
        self.addCleanup(self.table.close)
        self.seats = [self.table.seat(), self.table.seat()]

    def test_all_seats_have_them(self) -> None:
        self.seats[0].fork(1)
        self.seats[1].label(2, "web")
        for table in (self.table, *self.seats):
            self.assertEqual(labels_of(table), {2: "web"})
        self.assertEqual(self.table.counts().recorded, 1)

    def test_it_goes_by_the_fork_of_any_seat(self) -> None:
        go_up(self.seats[0])
        self.table.label(LAST, "web")
        self.seats[0].exit(LAST)
        self.seats[0].wait(1)
        self.assertEqual(self.seats[1].fork(1).root, LAST)
        self.assertEqual(labels_of(self.table), {})

    def test_it_goes_by_the_fork_of_a_turn(self) -> None:
        go_up(self.seats[0])
        self.table.label(LAST, "web")
        self.table.label(1, "init")
        _, _, forked, *_ = self.seats[1].answers([f"exit {LAST} 0", "wait 1 any", "fork 1", "getpid 1", "count 0"])
        self.assertEqual(forked, f"child {LAST} root {LAST}")
        self.assertEqual(labels_of(self.table), {1: "init"})

    def test_a_fork_by_its_place(self) -> None:
        # As a host has it, which makes the calls of all.
        labels = Labels()
        labels.put(2, "web", 1)
        labels.fork(2, 0)
        self.assertEqual(labels.of([1, 2]), {2: "web"})
        labels.fork(2, 1)
        self.assertEqual((labels.of([1, 2]), labels.copy().of([2])), ({}, {}))


# The functions of the library that may fork.
MAKERS = {f"pidtab_{it}" for it in ("call", "call_by", "line", "line_by", "fork_at", "fork_at_by", "call_told", "call_told_by", "calls")}


def do_nothing() -> None:
    """What another thread does that does nothing."""


def beside(table: Table, before: Callable[[], object] = do_nothing, after: Callable[[], object] = do_nothing) -> None:
    """Another thread comes before the table's next fork is made, and after it, before the thread that makes it goes on."""
    status = table._status

    def make(name: str, *given: object) -> int:
        if name not in MAKERS:
            return status(name, *given)
        table._status = status  # type: ignore[method-assign]
        run_all([threading.Thread(target=before)])
        made = status(name, *given)
        run_all([threading.Thread(target=after)])
        return made

    table._status = make  # type: ignore[method-assign]
    if not table.threads:
        table._call, table._line = (lambda *given: table._status("pidtab_call", *given)), (lambda *given: table._status("pidtab_line", *given))


# A fork of process 1, by each way to make one: the child gets that number.
FORKS: tuple[Callable[[Table | Seat, int], object], ...] = (
    lambda at, number: at.fork(1),
    lambda at, number: at.told.fork(1),
    lambda at, number: at.line("fork 1"),
    lambda at, number: at.answers(["fork 1", "getpid 1"]),
    lambda at, number: at.fork_at(1, Forked(number, number)),
)
SETTINGS: tuple[dict[str, Any], ...] = ({}, {"keep": ALL}, {"threads": True}, {"keep": ALL, "threads": True})


class Meanwhile(unittest.TestCase):
    """Another thread labels a task, by whose number one is in a fork."""

    def check(self, label: str | None, number: int, meanwhile: Callable[[Table, Table | Seat], None]) -> None:
        """The label of the number after a fork that gets it, on each kind of table, at it and at its seat."""
        need_library()
        for given, has_seat, (way, fork) in product(SETTINGS, (False, True), enumerate(FORKS)):
            with self.subTest(**given, has_seat=has_seat, way=way), Table(301, **given) as table:
                at = table.seat() if has_seat else table
                if number == LAST:
                    go_up(at)
                meanwhile(table, at)
                fork(at, number)
                self.assertEqual(labels_of(table), {number: label} if label else {})

    def end_last(self, table: Table, label: str) -> None:
        """The task with the last number gets a label, and is gone."""
        table.label(LAST, label)
        table.exit(LAST)
        table.wait(1)

    def test_the_new_task_keeps_it(self) -> None:
        self.check("web", 2, lambda table, at: beside(table, after=lambda: table.label(2, "web")))

    def test_after_it_comes_a_call_of_the_same_seat(self) -> None:
        def go_on(table: Table, at: Table | Seat) -> None:
            table.label(2, "web")
            at.exec(1)

        self.check("web", 2, lambda table, at: beside(table, after=lambda: go_on(table, at)))

    def test_within_the_lock(self) -> None:
        need_library()

        def label(table: Table) -> None:
            with table.lock():
                table.label(2, "web")

        with Table(threads=True) as table:
            beside(table, after=lambda: label(table))
            table.fork(1)
            self.assertEqual(labels_of(table), {2: "web"})

    def test_that_of_the_task_before_goes(self) -> None:
        self.check(None, LAST, lambda table, at: beside(table, lambda: self.end_last(table, "before")))

    def test_the_one_after_that_stays(self) -> None:
        self.check("web", LAST, lambda table, at: beside(table, lambda: self.end_last(table, "before"), lambda: table.label(LAST, "web")))

    def test_it_goes_by_a_second_fork_amid_the_first(self) -> None:
        def fork_again(table: Table) -> None:
            self.end_last(table, "web")
            table.fork(1)

        def begin(table: Table, at: Table | Seat) -> None:
            self.end_last(table, "before")
            beside(table, after=lambda: fork_again(table))

        self.check(None, LAST, begin)


class Keys(unittest.TestCase):
    def test_beside_each_number(self) -> None:
        need_library()
        with for_threads(1) as table:
            seat = table.seat()
            seat.answers(["mk 0", "fork 1", "fork 2"])
            accounts = Accounts(Table())
            self.addCleanup(accounts.table.close)
            accounts.add(table.entries())
            table.label(3, "job")
            listing = table.list().with_names({}, accounts.keys)
        # The stamps of the forks are their places among all calls, from 1 on.
        self.assertEqual([(task.root, task.key, task.label) for task in listing.tasks], [(1, None, None), (2, 2, None), (3, 3, "job")])
        self.assertIn("        3 #3 (job) group 1", draw_list(listing))
        self.assertEqual([it.get("key") for it in listing.to_object()["tasks"]], [None, 2, 3])


if __name__ == "__main__":
    unittest.main()
