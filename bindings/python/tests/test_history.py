"""A table with a history, for threads: its seats are tables as the others, its history is what they were answered, and misuse has its sentence."""

import copy
import gc
import os
import pickle
import random
import signal
import subprocess
import sys
import threading
import time
import unittest
from collections.abc import Callable
from contextlib import AbstractContextManager, suppress
from pathlib import Path
from types import SimpleNamespace
from typing import Any
from unittest import mock

from pidtab import Ask, Calls, Counts, Entry, LibraryFault, NotKept, Queries, Seat, SeatsTaken, Table, TableClosed, raw
from pidtab.batch import read_call
from pidtab.calls import Call
from pidtab.forms import say_answer
from pidtab.language import FORMS
from pidtab.library import load_library
from pidtab.number_calls import BLOCK
from tests.alarms import Awaiting, alarms
from tests.pages import StoredScript
from tests.test_arguments import NO_INTEGERS, IntegerCases, LongCases, TypeCases
from tests.test_calls import CallCases, LineCases, ListCases, NumberCases, PageCases, TableCases
from tests.test_dump import random_lines
from tests.test_ends import OTHERS, ForkCases, in_child
from tests.test_refusals import RefusalCases
from tests.ways import BySeat, TwoSeats, ask, for_threads, need_library

PACKAGE = Path(__file__).resolve().parents[1]
WORKERS = 16
EACH = 20000

# The queries, and a call of each kind that is none.
QUERIES = ["getpid 2", "getppid 2", "getpgid 1 2", "getsid 1 2", "nspid 1 2", "next 1 task 2", "next 1 group 0", "next 1 session 9", "count 0"]
NO_QUERIES = ["fork", "exec", "exit", "wait", "setpgid", "setsid", "join", "subreaper", "mk", "rm", "limit", "move", "line", "answers", "list", "list_text", "tree", "close"]


class CallsBySeat(CallCases, BySeat):
    pass


class NumbersBySeat(NumberCases, BySeat):
    pass


class LinesBySeat(LineCases, BySeat):
    pass


class ListsBySeat(ListCases, BySeat):
    pass


class TablesBySeat(TableCases, BySeat):
    pass


class RefusalsBySeat(RefusalCases, BySeat):
    pass


class TypesBySeat(TypeCases, BySeat):
    pass


class IntegersBySeat(IntegerCases, BySeat):
    pass


class LongBySeat(LongCases, BySeat):
    pass


class PagesBySeat(PageCases, BySeat):
    """The stored answers, and the history that is made of them."""

    def check_list(self, table: Calls, script: StoredScript) -> None:
        super().check_list(table, script)
        assert isinstance(table, Seat)
        asked = [line.decode("latin-1") for line in script.lines if line]
        made = [(line, answer) for line, answer in zip(asked, script.answers, strict=True) if answer != "bad line"]
        entries = list(table.table.entries())
        self.assertEqual([(it.line, it.answer) for it in entries], made)
        self.assertEqual([(it.ordinal, it.worker) for it in entries], [(place, 0) for place in range(len(made))])


class ForksBySeat(ForkCases, BySeat):
    """In a forked child."""

    def test_what_it_shows_of_itself(self) -> None:
        assert isinstance(self.table, Seat)
        shown = "<pidtab.Seat worker=0 pid_max=32768, of the parent process>"
        self.assertEqual(in_child(lambda: repr(self.table)), shown)
        table = self.table.table
        self.assertEqual(in_child(lambda: repr(table)), "<pidtab.Table pid_max=32768 keep=pidtab.ALL threads=True, of the parent process>")

    def test_each_method_of_the_table_in_the_child(self) -> None:
        assert isinstance(self.table, Seat)
        table, queries = self.table.table, self.table.ask
        for method in [*methods_of(table), lambda: queries.getpid(1)]:
            self.assertEqual(in_child(method), f"closed: {OTHERS}")
        self.assertEqual(in_child(table.close), "None")
        self.assertEqual(table.counts(), Counts(0, 0))

    def test_a_fork_while_the_lock_is_taken(self) -> None:
        assert isinstance(self.table, Seat)
        with self.table.table.lock():
            self.assertEqual(in_child(lambda: self.table.getpid(1)), f"closed: {OTHERS}")
            self.assertEqual(in_child(lambda: self.table.close()), "None")
        self.assertEqual(self.table.getpid(1), 1)


class InOneGo(unittest.TestCase):
    """Many lines at a seat, in one go of the library where they are calls."""

    def setUp(self) -> None:
        need_library()

    def open(self, workers: int = 1, **settings: int) -> Table:
        table = for_threads(workers, **settings)
        self.addCleanup(table.close)
        return table

    def test_as_one_line_after_another(self) -> None:
        chance = random.Random(5)
        lines = random_lines(chance, 3 * BLOCK)
        for bad in ("fork 01", "fork 1 ", "exit 1 256", "getpid 4294967296", "move 1", "setpgid 1 -0 0", "getpid " + "9" * 5000, "fork \xb2"):
            lines.insert(chance.randrange(len(lines)), bad)
        table, other = self.open(), self.open()
        seat, alone = table.seat(), other.seat()
        self.assertEqual(seat.answers(lines), tuple(alone.answers([line])[0] for line in lines))
        self.assertEqual((table.dump(), seat.ordinal), (other.dump(), alone.ordinal))
        self.assertEqual(list(table.entries()), list(other.entries()))

    def test_each_form_is_a_call_of_one_go(self) -> None:
        for text in FORMS:
            line = " ".join({"C": "1", "T": "1", "P": "2", "N": "3", "S": "4", "G": "-5", "I": "6"}.get(word, word) for word in text.split(" "))
            packed = read_call(line.encode())
            assert packed is not None
            self.assertEqual(Call._make(raw.CALL_FIELDS.unpack(packed)).line, line)

    def test_none_of_another_thread_between(self) -> None:
        table = self.open(4)

        def work() -> None:
            seat = table.seat()
            for _ in range(100):
                first, *_, last = seat.answers(["count 0", "fork 1", "getpid 1", "getpid 9999", "count 0"])
                self.assertEqual(int(last), int(first) + 1)

        threads = [threading.Thread(target=work) for _ in range(4)]
        for thread in threads:
            thread.start()
        for thread in threads:
            thread.join()
        workers = [entry.worker for entry in table.entries()]
        self.assertEqual([workers[place - place % 5] for place in range(len(workers))], workers)
        self.assertEqual(len(workers), 2000)

    def test_behind_the_last_stamp(self) -> None:
        table = self.open(first_stamp=2**64 - 4)
        seat = table.seat()
        self.assertEqual(seat.answers(["mk 0", "fork 1", "getpid 2", "getpid 1", "fork 01", "count 0"])[2:], ("2", "spent", "bad line", "spent"))
        self.assertEqual((seat.ordinal, table.counts()), (2, Counts(0, 3)))

    def test_a_bound(self) -> None:
        table = self.open(keep=10)
        seat = table.seat()
        for count in (7, 20, 1, BLOCK + 1):
            seat.answers(["count 0"] * count)
            recorded = table.counts().recorded
            self.assertEqual(table.counts().first_kept, max(0, recorded - 10))


def methods_of(table: Table) -> list[Callable[[], object]]:
    """Each method of a table for threads, but its end."""
    return [
        table.seat, table.counts, lambda: table.worker(0), lambda: table.entry(0), table.entries, lambda: table.entries(0), table.checkpoint,
        lambda: table.checkpoint_at(0), lambda: table.save("/none/none"), table.list, table.list_text, table.tree, lambda: table.ask.getpid(1), lambda: table.ask.count(), lambda: table.ask.stat(1), lambda: table.ask.children(1), lambda: table.ask.space(0),
    ]  # fmt: skip


class Receipts:
    """The calls of one worker, and what they were answered."""

    def __init__(self, seat: Seat) -> None:
        self.seat = seat
        self.kept: list[Entry] = []

    def make(self, line: str, call: Callable[[], object]) -> Any:
        """Makes a call by its method, and keeps what it tells."""
        told = call()
        ordinal = self.seat.ordinal
        assert ordinal is not None
        self.kept.append(Entry(ordinal, self.seat.worker, line, say_answer(line.split(" ")[0], told)))
        return told

    def serve(self, times: int) -> None:
        """A namespace of the worker's own, and in it a child after the other, which ends with the worker's number."""
        seat = self.seat
        own = self.make("fork 1 new", lambda: seat.fork(1, new=True)).root
        while len(self.kept) + 4 < times:
            child = self.make(f"fork {own}", lambda: seat.fork(own))
            self.make(f"getpid {child.root}", lambda: seat.getpid(child.root))
            self.make(f"exit {child.root} {seat.worker}", lambda: seat.exit(child.root, seat.worker))
            self.make(f"wait {own} pid {child.child}", lambda: seat.wait(own, child.child))
        while len(self.kept) < times:
            self.make(f"getppid {own}", lambda: seat.getppid(own))


class Threads(unittest.TestCase):
    """Sixteen threads, each with a seat of its own."""

    @classmethod
    def setUpClass(cls) -> None:
        need_library()

    def test_the_history_is_what_they_were_answered(self) -> None:
        with for_threads(WORKERS) as table:
            works = [Receipts(table.seat()) for _ in range(WORKERS)]
            run_all([threading.Thread(target=work.serve, args=(EACH,)) for work in works])
            self.check_counts(table)
            entries = list(table.entries())
            for work in works:
                self.assertEqual([it for it in entries if it.worker == work.seat.worker], work.kept)
            self.assertEqual([it.ordinal for it in entries], list(range(WORKERS * EACH)))
            self.check_again(entries, table)

    def check_counts(self, table: Table) -> None:
        """The counts of the workers add up."""
        self.assertEqual(table.counts(), Counts(0, WORKERS * EACH))
        self.assertEqual([table.worker(it) for it in range(WORKERS)], [EACH] * WORKERS)

    def check_again(self, entries: list[Entry], table: Table) -> None:
        """The same calls of one thread have the same answers, and leave the same list."""
        with for_threads(WORKERS) as other:
            seats = [other.seat() for _ in range(WORKERS)]
            self.assertEqual([seats[it.worker].line(it.line) for it in entries], [it.answer for it in entries])
            self.assertEqual(other.list_text(), table.list_text())
            self.assertGreater(len(other.list().tasks), WORKERS)
            self.assertEqual(list(other.entries()), entries)

    def test_two_threads_of_one_seat(self) -> None:
        # Each child is forked and told once, and the ordinal is that of the latest call.
        with for_threads(1) as table:
            seat = table.seat()
            seen: list[int] = []
            run_all([threading.Thread(target=lambda: seen.extend(seat.fork(1).root for _ in range(2000))) for _ in range(4)])
            self.assertEqual(sorted(seen), list(range(2, 8002)))
            self.assertEqual((seat.ordinal, table.worker(0), table.counts()), (7999, 8000, Counts(0, 8000)))

    def test_seats_are_handed_out_once(self) -> None:
        with for_threads(WORKERS) as table:
            numbers: list[int] = []
            run_all([threading.Thread(target=lambda: numbers.append(table.seat().worker)) for _ in range(WORKERS)])
            self.assertEqual(sorted(numbers), list(range(WORKERS)))
            with self.assertRaises(SeatsTaken):
                table.seat()

    def test_a_wait_for_the_lock_holds_nobody_up(self) -> None:
        # With the interpreter's lock kept, this thread would wait for ever.
        with for_threads(1) as table:
            seat, told = table.seat(), list[int]()
            with table.lock():
                thread = threading.Thread(target=lambda: told.append(seat.getpid(1)))
                thread.start()
                time.sleep(0.1)
                self.assertEqual((told, thread.is_alive()), ([], True))
            thread.join(60)
            self.assertEqual(told, [1])

    def test_lists_amid_calls(self) -> None:
        # Each list is one of the table between two calls: as many tasks as its count.
        with for_threads(2) as table:
            threads = [threading.Thread(target=Receipts(table.seat()).serve, args=(3000,)) for _ in range(2)]
            for thread in threads:
                thread.start()
            while any(thread.is_alive() for thread in threads):
                listing = table.list()
                self.assertEqual(len(listing.tasks), listing.controls[0].count)
            run_all(threads, started=True)


def run_all(threads: list[threading.Thread], started: bool = False) -> None:
    """Runs threads to their ends."""
    for thread in () if started else threads:
        thread.start()
    for thread in threads:
        thread.join()


class Histories(TwoSeats):
    """What is kept of the calls, and what is cut."""

    def test_what_makes_no_call_is_not_recorded(self) -> None:
        faults: list[Callable[[], object]] = [
            lambda: self.seat.line("FORK 1"), lambda: self.seat.line(""), lambda: self.seat.exit(1, 256), lambda: self.seat.fork(2**32),
            lambda: self.seat.next(1, "thing"), lambda: self.seat.fork("1"),  # type: ignore[arg-type]
        ]  # fmt: skip
        for fault in faults:
            with self.assertRaises((ValueError, TypeError)):
                fault()
        self.assertEqual(self.seat.answers(["FORK 1", "getpid 1"]), ("bad line", "1"))
        self.assertEqual((self.seat.ordinal, self.table.counts()), (0, Counts(0, 1)))

    def test_the_list_is_one_for_all(self) -> None:
        self.seat.fork(1)
        self.assertEqual(self.table.list(), self.other.list())
        self.assertEqual(self.table.tree(), self.seat.tree())
        self.assertEqual([task.numbers for task in self.table.list().tasks], [(1,), (2,)])

    def test_many_entries_are_read_in_blocks(self) -> None:
        many = 2 * BLOCK + 3
        self.seat.answers(["getpid 1"] * many)
        with mock.patch.object(self.table, "_status", wraps=self.table._status) as entered:
            self.assertEqual([it.ordinal for it in self.table.entries()], list(range(many)))
        # The counts twice, and three blocks.
        self.assertEqual(entered.call_count, 5)
        for start in (0, 1, BLOCK - 1, BLOCK, 2 * BLOCK, many - 1, many):
            self.assertEqual([it.ordinal for it in self.table.entries(start)], list(range(start, many)))

    def test_the_walk_ends_where_it_was_begun(self) -> None:
        # Each step makes one call more, and the second block has these too.
        many = BLOCK + 1
        self.seat.answers(["getpid 1"] * many)
        walked = [(entry.ordinal, self.seat.getpid(1)) for entry in self.table.entries()]
        self.assertEqual(walked, [(place, 1) for place in range(many)])
        self.assertEqual(self.table.counts(), Counts(0, 2 * many))

    def test_a_cut_behind_the_last_entry_of_a_walk(self) -> None:
        self.seat.answers(["getpid 1"] * BLOCK)
        walk = self.table.entries()
        self.assertEqual([next(walk).ordinal for _ in range(BLOCK)], list(range(BLOCK)))
        self.seat.getpid(1)
        self.table.checkpoint()
        self.assertEqual(list(walk), [])

    def test_a_cut_amid_a_walk(self) -> None:
        self.seat.answers(["getpid 1"] * (BLOCK + 1))
        walk = self.table.entries()
        next(walk)
        self.table.checkpoint()
        with self.assertRaisesRegex(NotKept, f"^entry {BLOCK} is not kept"):
            list(walk)

    def test_a_cut_before_the_first_kept_entry_is_read(self) -> None:
        self.seat.answers(["getpid 1"] * 3)
        self.table.checkpoint()
        with mock.patch.object(self.table, "counts", side_effect=[Counts(0, 3), Counts(0, 3), Counts(3, 3)]) as asked:
            self.assertEqual(list(self.table.entries()), [])
        self.assertEqual(asked.call_count, 3)

    def test_what_is_not_kept(self) -> None:
        self.seat.answers(["getpid 1"] * 3)
        self.assertTrue(self.table.checkpoint_at(3))
        finds: list[Callable[[int], object]] = [self.table.entry, self.table.entries]
        for ordinal in (0, 2, 4, 2**64 - 1):
            for find in finds:
                with self.assertRaisesRegex(NotKept, f"^entry {ordinal} is not kept: it was cut away, or there is no such call yet$"):
                    find(ordinal)
        with self.assertRaises(LookupError):
            self.table.entry(3)

class Asking(unittest.TestCase):
    """Queries that are no calls."""

    @classmethod
    def setUpClass(cls) -> None:
        need_library()

    def setUp(self) -> None:
        self.many, self.table = for_threads(2), Table()
        self.addCleanup(self.many.close)
        self.addCleanup(self.table.close)
        self.seat = self.many.seat()

    def ways(self) -> list[tuple[Calls, Ask]]:
        """What answers calls, and what answers queries of the same table."""
        return [(self.table, self.table.ask), (self.seat, self.many.ask), (self.seat, self.seat.ask)]

    def test_they_are_no_calls(self) -> None:
        for table, queries in self.ways():
            before = table.mk()
            for line in QUERIES[2:3] * 5 + ["getpid 9", "count 9"]:
                ask(queries, line)  # type: ignore[arg-type]
            # The id is the number of the call.
            self.assertEqual(table.mk(), before + 1)
        self.assertEqual((self.many.counts(), self.seat.ordinal), (Counts(0, 4), 3))

    def test_what_is_no_query(self) -> None:
        for _, queries in self.ways():
            for name in NO_QUERIES:
                self.assertFalse(hasattr(queries, name))
                with self.assertRaisesRegex(AttributeError, f"^{name} is no query: `ask` has count, getpgid, .*, next, nspid$"):
                    getattr(queries, name)
            with self.assertRaisesRegex(AttributeError, "^pidtab.Ask has no frok$"):
                queries.frok  # type: ignore[attr-defined]
        public = {name for name in dir(Calls) if not name.startswith("_")} - {"pid_max"}
        self.assertEqual(public - set(NO_QUERIES), {name for name in dir(Queries) if not name.startswith("_")})
        self.assertEqual(self.many.counts(), Counts(0, 0))

    def test_the_numbers_of_a_read(self) -> None:
        for _, queries in self.ways():
            for value in NO_INTEGERS:
                for read in (lambda it: queries.stat(it), lambda it: queries.stat(1, it)):
                    with self.assertRaisesRegex(TypeError, "cannot be interpreted as an integer"):
                        read(value)
            for value in (-1, 2**32):
                with self.assertRaisesRegex(ValueError, f"^caller is 0 to 4294967295, not {value}$"):
                    queries.stat(value)
                with self.assertRaisesRegex(ValueError, f"^pid is 0 to 4294967295, not {value}$"):
                    queries.stat(1, value)

    def test_numbers(self) -> None:
        for _, queries in self.ways():
            for value in NO_INTEGERS:
                with self.assertRaises(TypeError):
                    queries.getpid(value)
            for value in (-1, 2**32):
                with self.assertRaisesRegex(ValueError, f"^bad line: getpid {value}$"):
                    queries.getpid(value)

    def test_what_it_shows_of_itself(self) -> None:
        shown = [repr(queries) for _, queries in self.ways()]
        seat = "<pidtab.Seat worker=0 pid_max=32768, open>"
        self.assertEqual(shown[0], "<pidtab.Ask of <pidtab.Table pid_max=32768, open>>")
        self.assertEqual(shown[1:], ["<pidtab.Ask of <pidtab.Table pid_max=32768 keep=pidtab.ALL workers=2 threads=True, open>>", f"<pidtab.Ask of {seat}>"])

    def test_closed(self) -> None:
        asked = self.ways()
        self.seat.close()
        self.table.close()
        for (_, queries), words in zip(asked, ("the table was closed", None, "the seat was closed")):
            if words is None:
                self.assertEqual(queries.getpid(1), 1)
                continue
            with self.assertRaisesRegex(TableClosed, f"^{words}$"):
                queries.getpid(1)
        self.many.close()
        with self.assertRaisesRegex(TableClosed, "^the table was closed$"):
            self.many.ask.getpid(1)

    def test_an_earlier_library(self) -> None:
        functions = SimpleNamespace(**{name: mock.Mock(return_value=0) for name in raw.FUNCTIONS})
        with mock.patch("pidtab.table.find_library", return_value="early.so"), mock.patch("pidtab.table.load_library", return_value=functions):
            table = Table()
        self.addCleanup(table.close)
        with self.assertRaisesRegex(LibraryFault, "^early.so has no function pidtab_ask, as the library of an earlier release: build it with"):
            table.ask.getpid(1)
        with self.assertRaisesRegex(LibraryFault, "^early.so has no function pidtab_stat, as the library of an earlier release: build it with"):
            table.ask.stat(1)
        with self.assertRaisesRegex(LibraryFault, "^early.so has no function pidtab_page, as the library of an earlier release: build it with"):
            table.ask.children(1)
        with self.assertRaisesRegex(LibraryFault, "^early.so has no function pidtab_space, as the library of an earlier release: build it with"):
            table.ask.space(0)


class Misuse(unittest.TestCase):
    """What is no use of a table has its error."""

    THREADS = True
    SHOWN = " threads=True"

    @classmethod
    def setUpClass(cls) -> None:
        need_library()

    def open(self, workers: int = 2, **settings: Any) -> Table:
        """A new table, which is closed after the test."""
        table = for_threads(workers, threads=self.THREADS, **settings)
        self.addCleanup(table.close)
        return table

    def test_a_close_twice(self) -> None:
        table = self.open()
        table.close()
        table.close()
        with table:
            pass
        self.assertEqual(repr(table), f"<pidtab.Table pid_max=32768 keep=pidtab.ALL workers=2{self.SHOWN}, closed>")

    def test_a_table_that_was_closed(self) -> None:
        with self.open() as table:
            seat = table.seat()
            self.assertEqual(seat.getpid(1), 1)
        for method in [*methods_of(table), lambda: seat.getpid(1), lambda: seat.line("getpid 1"), lambda: seat.answers(["getpid 1"]), seat.list]:
            with self.assertRaisesRegex(TableClosed, "^the table was closed$"):
                method()
        seat.close()
        self.assertEqual((repr(seat), seat.ordinal), ("<pidtab.Seat worker=0 pid_max=32768, closed>", 0))

    def test_a_seat_that_was_closed(self) -> None:
        table = self.open()
        with table.seat() as seat:
            self.assertEqual(repr(seat), "<pidtab.Seat worker=0 pid_max=32768, open>")
        seat.close()
        calls: list[Callable[[], object]] = [lambda: seat.getpid(1), lambda: seat.line("getpid 1"), lambda: seat.answers(["getpid 1"]), seat.list]
        for call in calls:
            with self.assertRaisesRegex(TableClosed, "^the seat was closed$"):
                call()
        # The table goes on, and the number does not come again.
        self.assertEqual((table.counts(), table.seat().worker), (Counts(0, 0), 1))

    def test_more_seats_than_workers(self) -> None:
        table = self.open()
        self.assertEqual([table.seat().worker for _ in range(2)], [0, 1])
        for _ in range(2):
            with self.assertRaisesRegex(SeatsTaken, "^each of the 2 workers has its seat: open the table with more, at most 16$"):
                table.seat()

    def test_places_out_of_range(self) -> None:
        table = self.open()
        places: list[tuple[Callable[[Any], object], str, int]] = [
            (table.worker, "worker is 0 to 1", 2), (table.entry, "ordinal is 0 to", 2**64), (table.entries, "start is 0 to", 2**64),
            (table.checkpoint_at, "seen is 0 to", 2**64),
        ]  # fmt: skip
        for method, words, above in places:
            for value in (-1, above):
                with self.assertRaisesRegex(ValueError, f"^{words}.*, not {value}$"):
                    method(value)
            for value in NO_INTEGERS:
                # A walk without a start begins with the first kept entry.
                if value is not None or method != table.entries:
                    with self.assertRaisesRegex(TypeError, "cannot be interpreted as an integer"):
                        method(value)

    def test_there_are_no_copies(self) -> None:
        takes: list[Callable[[object], object]] = [copy.copy, copy.deepcopy, pickle.dumps]
        for take in takes:
            with self.assertRaisesRegex(TypeError, "^a Table is not copied or pickled"):
                take(self.open())

    def test_what_it_shows_of_itself(self) -> None:
        self.assertEqual(repr(self.open(pid_max=301, keep=9)), f"<pidtab.Table pid_max=301 keep=9 workers=2{self.SHOWN}, open>")
        self.assertEqual(repr(Table.__new__(Table)), "<pidtab.Table pid_max=32768, closed>")
        self.assertEqual(repr(Seat.__new__(Seat)), "<pidtab.Seat worker=-1 pid_max=32768, closed>")

    def test_want_of_memory(self) -> None:
        table = self.open()
        seat, hold = table.seat(), table._check_open()
        names = [name for name in raw.FUNCTIONS | raw.LATER_FUNCTIONS if name != "pidtab_close"]
        functions = SimpleNamespace(**{name: mock.Mock(return_value=raw.NO_MEMORY) for name in names})
        with mock.patch.object(hold, "functions", functions):
            calls: list[Callable[[], object]] = [
                table.checkpoint, lambda: table.checkpoint_at(0), table.list, lambda: seat.getpid(1), lambda: seat.line("getpid 1"),
            ]  # fmt: skip
            for call in calls:
                with self.assertRaisesRegex(MemoryError, "no memory"):
                    call()
            self.assertEqual(seat.answers(["getpid 1"]), ("no memory",))
        with mock.patch("pidtab.table.load_library", return_value=functions), self.assertRaisesRegex(MemoryError, "no memory"):
            for_threads()


class MisuseByOneThread(Misuse):
    """The same of a table of one thread with its history."""

    THREADS = False
    SHOWN = ""


class Libraries(unittest.TestCase):
    """Libraries that have no tables with settings."""

    def test_a_library_of_an_earlier_release(self) -> None:
        early = SimpleNamespace(**{name: mock.Mock(return_value=1) for name in raw.FUNCTIONS})
        words = "^early.so has no function pidtab_open_with, as the library of an earlier release: build it with `make lib`"
        with mock.patch("ctypes.CDLL", return_value=early), self.assertRaisesRegex(LibraryFault, words):
            load_library.__wrapped__("early.so", True)
        with mock.patch("ctypes.PyDLL", return_value=early):
            self.assertIs(load_library.__wrapped__("early.so"), early)
        with mock.patch("pidtab.table.find_library", return_value="early.so"), mock.patch("pidtab.table.load_library", return_value=early):
            for settings in ({"keep": 1}, {"first_stamp": 2}):
                with self.assertRaisesRegex(LibraryFault, words):
                    Table(**settings)  # type: ignore[arg-type]
            with self.assertRaisesRegex(LibraryFault, "^early.so has no function pidtab_saved_load"):
                Table.load(os.devnull)

    def test_what_is_no_library(self) -> None:
        with mock.patch("ctypes.CDLL", return_value=SimpleNamespace(other=1)), self.assertRaisesRegex(LibraryFault, "^other.so has no function pidtab_version$"):
            load_library.__wrapped__("other.so", True)
        with self.assertRaisesRegex(LibraryFault, "no library /no/such/library: build it"):
            for_threads(library="/no/such/library")
        with self.assertRaisesRegex(LibraryFault, "cannot load .*sh: .*: build it"):
            for_threads(library="/bin/sh")

    def test_another_interface(self) -> None:
        functions = SimpleNamespace(**{name: mock.Mock(return_value=2) for name in raw.FUNCTIONS | raw.LATER_FUNCTIONS | raw.SAVED_FUNCTIONS})
        with mock.patch("ctypes.CDLL", return_value=functions), self.assertRaisesRegex(LibraryFault, "^later.so has the interface 2"):
            load_library.__wrapped__("later.so", True)


class Ends(unittest.TestCase):
    """A table is closed once, by whoever has it last, and never while a thread is in it."""

    @classmethod
    def setUpClass(cls) -> None:
        need_library()

    def setUp(self) -> None:
        self.closed = 0
        table = for_threads(2)
        self.functions = table._check_open().functions
        table.close()

        def close(at: raw.Pidtab) -> None:
            self.closed += 1
            self.functions.pidtab_close(at)

        # The library's functions, with a count of the ends.
        counted = SimpleNamespace(**{name: getattr(self.functions, name) for name in raw.FUNCTIONS | raw.LATER_FUNCTIONS})
        counted.pidtab_close = close
        loaded = mock.patch("pidtab.table.load_library", return_value=counted)
        loaded.start()
        self.addCleanup(loaded.stop)

    def test_one_that_nobody_has(self) -> None:
        table = for_threads()
        self.assertEqual(self.closed, 0)
        del table
        gc.collect()
        self.assertEqual(self.closed, 1)

    def test_a_seat_keeps_the_table(self) -> None:
        seat = for_threads().seat()
        queries = seat.ask
        gc.collect()
        self.assertEqual((seat.fork(1).root, self.closed), (2, 0))
        del seat
        gc.collect()
        self.assertEqual((queries.getpid(2), self.closed), (2, 0))
        del queries
        gc.collect()
        self.assertEqual(self.closed, 1)

    def test_a_close_is_done_once(self) -> None:
        with for_threads() as table:
            pass
        table.close()
        del table
        gc.collect()
        self.assertEqual(self.closed, 1)

    def test_one_that_nobody_has_in_a_forked_child(self) -> None:
        table = for_threads()

        def drop() -> int:
            table._hold = None
            gc.collect()
            return self.closed

        self.assertEqual(in_child(drop), "0")
        self.assertEqual((table.seat().fork(1).root, self.closed), (2, 0))

    def test_a_fault_that_is_kept_keeps_no_table(self) -> None:
        table = for_threads()
        kept: list[BaseException] = []
        calls: list[Callable[[], object]] = [lambda: table.seat().getpid(9), lambda: table.entry(5), lambda: table.ask.getpid(9)]
        for call in calls:
            try:
                call()
            except (OSError, LookupError) as fault:
                kept.append(fault)
        table.close()
        self.assertEqual((len(kept), self.closed), (3, 1))

    def test_one_that_is_not_opened(self) -> None:
        for settings in ({"workers": 0}, {"pid_max": 1}, {"keep": -1}):
            with suppress(ValueError):
                for_threads(**settings)  # type: ignore[arg-type]
        gc.collect()
        self.assertEqual(self.closed, 0)

    def test_a_close_while_a_thread_is_in_it(self) -> None:
        table = for_threads()
        seat, told = table.seat(), list[int]()
        with table.lock():
            threads = [threading.Thread(target=lambda: told.append(seat.fork(1).root)), threading.Thread(target=table.close)]
            for thread in threads:
                thread.start()
                time.sleep(0.1)
            with self.assertRaisesRegex(TableClosed, "^the table was closed$"):
                seat.getpid(1)
            self.assertEqual((told, self.closed), ([], 0))
        run_all(threads, started=True)
        # Its call was made, and the end came after it.
        self.assertEqual((told, self.closed), ([2], 1))

    def test_a_close_amid_calls_of_many_threads(self) -> None:
        for _ in range(20):
            table = for_threads(4)
            ended: list[str] = []
            threads = [threading.Thread(target=work_till_closed, args=(table.seat(), ended)) for _ in range(4)]
            for thread in threads:
                thread.start()
            while table.counts().recorded < 100:
                time.sleep(0)
            table.close()
            run_all(threads, started=True)
            self.assertEqual(ended, ["the table was closed"] * 4)
        self.assertEqual(self.closed, 20)


def work_till_closed(seat: Seat, ended: list[str]) -> None:
    """Makes calls, until the table is closed."""
    try:
        while True:
            seat.getpid(1)
    except TableClosed as fault:
        ended.append(str(fault))


# A table for threads with its history, up to the number of its workers.
OPEN = "pidtab.Table(keep=pidtab.ALL, threads=True, workers="


class Programs(unittest.TestCase):
    """Programs in Python that end in odd ways."""

    @classmethod
    def setUpClass(cls) -> None:
        need_library()

    def run_python(self, *lines: str) -> tuple[str, str, int]:
        """What a program writes and complains of, and its status, where each warning is an error."""
        command = [sys.executable, "-X", "dev", "-W", "error", "-B", "-c", "\n".join(["import os, threading, time", "import pidtab", *lines])]
        named = {name: os.path.abspath(os.environ[name]) for name in ("PIDTAB_LIBRARY",) if os.environ.get(name)}
        done = subprocess.run(command, cwd=PACKAGE, env={**os.environ, **named}, capture_output=True, text=True, timeout=60, check=False)
        return done.stdout, done.stderr, done.returncode

    def test_no_warning_at_the_end_of_the_interpreter(self) -> None:
        lines = [f"s = {OPEN}4)", "seat = s.seat()", "print(seat.fork(1).root)"]
        self.assertEqual(self.run_python(*lines), ("2\n", "", 0))
        self.assertEqual(self.run_python(*lines, "s.itself = s", "del s"), ("2\n", "", 0))
        self.assertEqual(self.run_python(f"with {OPEN}4) as s: print(s.seat().fork(1).root)"), ("2\n", "", 0))

    def test_an_end_amid_calls_of_daemons(self) -> None:
        lines = [
            f"s = {OPEN}8)",
            "def work(seat):",
            "    while True: seat.getpid(1)",
            "for _ in range(8): threading.Thread(target=work, args=(s.seat(),), daemon=True).start()",
            "time.sleep(0.2)",
            "print('done')",
        ]
        for _ in range(3):
            self.assertEqual(self.run_python(*lines), ("done\n", "", 0))

    def test_a_forked_child_ends_well(self) -> None:
        lines = [f"s = {OPEN}2)", "seat = s.seat()", "seat.fork(1)", "child = os.fork()", "if child == 0:", "    del s, seat", "    raise SystemExit(0)"]
        after = ["print(os.waitpid(child, 0)[1], seat.fork(1).root, s.counts().recorded)"]
        self.assertEqual(self.run_python(*lines, *after), ("0 3 2\n", "", 0))

    def test_a_child_opens_its_own(self) -> None:
        lines = [f"s = {OPEN}2)", "seat = s.seat()", "seat.fork(1)", "child = os.fork()", "if child == 0:"]
        lines += [f"    with {OPEN}1) as own: os._exit(own.seat().fork(1).root)", "print(os.waitstatus_to_exitcode(os.waitpid(child, 0)[1]))"]
        self.assertEqual(self.run_python(*lines), ("2\n", "", 0))


class Interrupts(Awaiting, unittest.TestCase):
    """Ctrl-C, and what any other handler of a signal raises: a call was made whole, or not begun."""

    @classmethod
    def setUpClass(cls) -> None:
        need_library()

    def setUp(self) -> None:
        self.table = for_threads(1, pid_max=4194304)
        self.addCleanup(self.table.close)
        self.seat = self.table.seat()

    def interrupts(self, first: float, every: float = 0.0) -> AbstractContextManager[None]:
        """Raises a KeyboardInterrupt in so many seconds, and then again and again, where one is awaited."""
        return alarms(self.interrupt, first, every)

    def test_many_in_a_second(self) -> None:
        told: list[int] = []
        interrupted = 0
        end = time.monotonic() + 1
        with self.interrupts(0.005, 0.005):
            while time.monotonic() < end:
                try:
                    self.fork_for_ever(told)
                except KeyboardInterrupt:
                    interrupted += 1
        self.assertGreater(interrupted, 20)
        recorded = self.table.counts().recorded
        # The ordinal is that of the last call, also where its answer was lost.
        self.assertEqual((self.seat.ordinal, self.table.worker(0)), (recorded - 1, recorded))
        roots = [int(it.answer.split(" ")[3]) for it in self.table.entries()]
        self.assertEqual(roots, list(range(2, recorded + 2)))
        self.assertEqual(sorted(set(told)), told)
        self.assertLessEqual(recorded - len(told), interrupted)

    def fork_for_ever(self, told: list[int]) -> None:
        """Forks children until it is interrupted, and keeps what it is told."""
        self.awaited = True
        while True:
            told.append(self.seat.fork(1).root)

    def test_one_while_a_call_waits(self) -> None:
        # The lock is taken by another thread, which gives it back later: then the call is made, and the interrupt comes.
        release = threading.Event()

        def keep() -> None:
            with self.table.lock():
                taken.set()
                release.wait(60)

        taken, thread = threading.Event(), threading.Thread(target=keep)
        thread.start()
        taken.wait(60)
        threading.Timer(0.3, release.set).start()
        self.awaited = True
        with self.interrupts(0.1), self.assertRaises(KeyboardInterrupt):
            self.seat.fork(1)
        thread.join(60)
        self.assertEqual((self.seat.ordinal, self.table.entry(0)), (0, Entry(0, 0, "fork 1", "child 2 root 2")))
        self.assertEqual(self.seat.fork(1).root, 3)

    def test_calls_of_a_handler(self) -> None:
        # A handler runs between two steps of the interpreter, and never in a function of the library.
        made: list[int] = []
        before = signal.signal(signal.SIGALRM, lambda number, frame: made.append(self.seat.fork(1).root))
        self.addCleanup(signal.signal, signal.SIGALRM, before)
        signal.setitimer(signal.ITIMER_REAL, 0.002, 0.002)
        self.addCleanup(signal.setitimer, signal.ITIMER_REAL, 0)
        others = [self.seat.fork(1).root for _ in range(20000)]
        signal.setitimer(signal.ITIMER_REAL, 0)
        self.assertGreater(len(made), 5)
        self.assertEqual(sorted([*made, *others]), list(range(2, len(made) + 20002)))


if __name__ == "__main__":
    unittest.main()
