"""The two ways to a table, for cases that hold of both; and each call by its method, told as the script language tells it."""

import errno
import importlib.util
import threading
import unittest
from collections.abc import Callable, Sequence
from functools import partial
from types import SimpleNamespace
from typing import TYPE_CHECKING, Any
from unittest import mock

import pidtab.hold
import pidtab.native
import pidtab.number_calls
import pidtab.seat
import pidtab.table
from pidtab import ALL, Ask, Calls, LibraryFault, Process, ProgramMissing, Refusal, Seat, Table, find_library, find_program
from pidtab.forms import method_of, say_answer
from pidtab.hosts.calls import load_calls
from pidtab.library import load_library

DEFAULT_PID_MAX = 32768

# The modules in which a call of a table, or of a seat, is made.
FILES_OF_TABLES = {it.__file__ for it in (pidtab.hold, pidtab.native, pidtab.number_calls, pidtab.seat, pidtab.table)}


class Way(unittest.TestCase):
    """Opens tables, which are closed after the test."""

    def open(self, pid_max: int = DEFAULT_PID_MAX) -> Calls:
        """A new table."""
        raise NotImplementedError


# Cases have no tests of their own: each class of them is joined with a way below it.
if TYPE_CHECKING:
    Cases = Way
else:
    Cases = object


def need_program() -> None:
    """Skips what needs the program, where it is not there."""
    try:
        find_program()
    except ProgramMissing as fault:
        raise unittest.SkipTest(str(fault)) from fault


def need_library() -> None:
    """Skips what needs the library, where it is not there."""
    try:
        load_library(find_library(), True)
    except LibraryFault as fault:
        raise unittest.SkipTest(str(fault)) from fault


def need_calls() -> None:
    """Skips what needs the machine for the calls of a host, where the library is not there, or has none."""
    try:
        load_calls(find_library())
    except LibraryFault as fault:
        raise unittest.SkipTest(str(fault)) from fault


def for_threads(workers: int = 4, **settings: Any) -> Table:
    """A table for threads that keeps its history."""
    return Table(**{"keep": ALL, "workers": workers, "threads": True, **settings})


class TwoSeats(unittest.TestCase):
    """A table for threads with two seats, which is closed after the test."""

    @classmethod
    def setUpClass(cls) -> None:
        need_library()

    def setUp(self) -> None:
        self.table = for_threads(2)
        self.addCleanup(self.table.close)
        self.seat, self.other = self.table.seat(), self.table.seat()


def need_hypothesis() -> None:
    """Skips what needs Hypothesis, where it is not there."""
    if importlib.util.find_spec("hypothesis") is None:
        raise unittest.SkipTest("no Hypothesis")


class ByProgram(Way):
    """By the program at the other end of a pipe."""

    @classmethod
    def setUpClass(cls) -> None:
        need_program()

    def open(self, pid_max: int = DEFAULT_PID_MAX) -> Calls:
        process = Process(pid_max)
        self.addCleanup(process.close)
        return process


def open_stand_in(functions: SimpleNamespace, pid_max: int = DEFAULT_PID_MAX) -> Table:
    """A table of functions in the place of the library's."""
    with mock.patch("pidtab.table.find_library", return_value="stand-in"), mock.patch("pidtab.table.load_library", return_value=functions):
        return Table(pid_max)


class ByLibrary(Way):
    """By the library, in this process."""

    @classmethod
    def setUpClass(cls) -> None:
        need_library()

    def open(self, pid_max: int = DEFAULT_PID_MAX) -> Calls:
        table = Table(pid_max)
        self.addCleanup(table.close)
        return table


class BySeat(Way):
    """By the only seat of a table for threads."""

    @classmethod
    def setUpClass(cls) -> None:
        need_library()

    def open(self, pid_max: int = DEFAULT_PID_MAX) -> Seat:
        table = for_threads(1, pid_max=pid_max)
        self.addCleanup(table.close)
        return table.seat()


def make_call(table: Calls, line: str) -> object:
    """Makes the call on a good line by its method."""
    return method_of(line).call(table)


def ask(table: Calls, line: str) -> str:
    """The answer to a good line, by the method of its call."""
    try:
        return say_answer(line.split(" ")[0], make_call(table, line))
    except Refusal as refusal:
        assert refusal.errno is not None
        return f"{errno.errorcode[refusal.errno]} {refusal.why}"


# What readers see beside a writer: so many of them, and so many forks.
READERS = 3
FORKS = 300


def read_beside_a_writer(test: unittest.TestCase, read: Callable[[Table, int], int], new: bool = False) -> None:
    """Threads read how many children the root init has by now, each until it has seen all that a seat forks meanwhile. None is ever lost."""
    need_library()
    with for_threads(1) as table:
        seat, faults = table.seat(), list[object]()

        def read_on() -> None:
            before = 0
            try:
                while before < FORKS:
                    now = read(table, before)
                    test.assertGreaterEqual(now, before)
                    before = now
            except Exception as fault:
                faults.append(fault)

        threads = [threading.Thread(target=read_on) for _ in range(READERS)]
        for it in threads:
            it.start()
        for _ in range(FORKS):
            seat.fork(1, new)
        for it in threads:
            it.join()
        test.assertEqual((faults, table.counts().recorded), ([], FORKS))


def numbers_beside_a_writer(test: unittest.TestCase, ask: Callable[[Table], Sequence[int]]) -> None:
    """Threads ask for the numbers of all that are forked, as `read_beside_a_writer` has it: they are those from 2 on, without a gap."""

    def read(table: Table, before: int) -> int:
        told = ask(table)
        test.assertEqual(told, tuple(range(2, len(told) + 2)))
        return len(told)

    read_beside_a_writer(test, read)


class Answered:
    """A table whose library answers a question by this function: it takes the name of the question's own, what is asked, and where the answer goes."""

    def __init__(self, read: Callable[..., int]) -> None:
        self._read = read

    def _question(self, name: str) -> Callable[..., int]:
        return partial(self._read, name)

    def _check_owner(self) -> None:
        """It is open."""


class OnEachTable(unittest.TestCase):
    """On a table of one thread, on one for many with a history, and at a seat of that."""

    def setUp(self) -> None:
        need_library()
        self.table, self.many = Table(), for_threads()
        self.addCleanup(self.table.close)
        self.addCleanup(self.many.close)
        self.seat = self.many.seat()
        for table in (self.table, self.seat):
            self.fill(table)

    def fill(self, table: Table | Seat) -> None:
        """Makes the tasks that the tests ask about."""
        raise NotImplementedError

    def ways(self) -> list[Ask]:
        """What is asked."""
        return [self.table.ask, self.many.ask, self.seat.ask]
