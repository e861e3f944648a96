"""What only a table of this process has: the header, the library and where it is, and its end."""

import ctypes
import gc
import os
import random
import subprocess
import sys
import tempfile
import threading
import unittest
from collections.abc import Callable
from pathlib import Path
from types import SimpleNamespace
from unittest import mock

from pidtab import Calls, LibraryFault, LibraryMissing, Process, Table, TableClosed, find_library, raw
from pidtab.language import FORMS
from pidtab.library import load_library
from tests.alarms import alarms
from tests.pages import REPOSITORY
from tests.programs import need_tool
from tests.ways import ask, need_library, need_program, open_stand_in

SEED = 20
RANDOM_LINES = 3000

class Header(unittest.TestCase):
    """The structs are as long as those of the header, of which they are written."""

    def test_the_sizes(self) -> None:
        # Those that bindings/c/test.c asserts.
        structs = (raw.PidtabCall, raw.PidtabReply, raw.PidtabEntry)
        self.assertEqual([ctypes.sizeof(it) for it in structs], [32, 168, 208])
        self.assertEqual(raw.CALL_FIELDS.size, 32)
        for packed in (bytes(raw.PidtabCall(*range(1, 8))), b"\xff" * 32):
            fields = raw.PidtabCall.from_buffer_copy(packed)
            self.assertEqual(raw.CALL_FIELDS.unpack(packed), tuple(getattr(fields, name) for name, *_ in fields._fields_))

    def test_what_the_compiler_says_of_a_table(self) -> None:
        asserted = []
        for name, struct in (("pidtab", raw.Pidtab), ("pidtab_settings", raw.PidtabSettings), ("pidtab_saved", raw.PidtabSaved)):
            asserted.append(f"sizeof(struct {name}) == {ctypes.sizeof(struct)} && _Alignof(struct {name}) == {ctypes.alignment(struct)}")
        code = '#include "pidtab_saved.h"\n' + "".join(f'_Static_assert({it}, "room");\n' for it in asserted)
        command = [need_tool("cc"), "-std=c11", "-fsyntax-only", f"-I{REPOSITORY / 'bindings' / 'c'}", "-xc", "-"]
        done = subprocess.run(command, input=code, capture_output=True, text=True, check=False)
        self.assertEqual((done.returncode, done.stderr), (0, ""))


class Libraries(unittest.TestCase):
    """Where the library is looked for, and what is none."""

    def setUp(self) -> None:
        folder = tempfile.TemporaryDirectory()
        self.addCleanup(folder.cleanup)
        self.folder = Path(folder.name)
        self.nowhere = self.folder / "nothing"

    def file(self, name: str) -> Path:
        """A file that is no library."""
        path = self.folder / name
        path.write_text("no library\n")
        return path

    def find(self, built: Path, installed: Path) -> str:
        """The library that is found where these two may be."""
        with mock.patch("pidtab.library.BUILT_LIBRARY", built), mock.patch("pidtab.library.INSTALLED_LIBRARY", installed):
            return find_library()

    def test_the_variable_names_the_library(self) -> None:
        path = self.file("named.so")
        with mock.patch.dict(os.environ, {"PIDTAB_LIBRARY": str(path)}):
            self.assertEqual(find_library(), str(path))
            self.assertEqual(find_library("/bin/sh"), "/bin/sh")
        with mock.patch.dict(os.environ, {"PIDTAB_LIBRARY": str(self.nowhere)}), self.assertRaisesRegex(LibraryMissing, "make lib"):
            find_library()

    def test_the_order_of_places(self) -> None:
        built, installed = self.file("built.so"), self.file("installed.so")
        with mock.patch.dict(os.environ, {"PIDTAB_LIBRARY": ""}):
            self.assertEqual(self.find(built, installed), str(built))
            self.assertEqual(self.find(self.nowhere, installed), str(installed))
            self.assertEqual(self.find(self.nowhere, self.nowhere), "libpidtab.so.1")

    def test_what_is_no_library(self) -> None:
        with self.assertRaisesRegex(LibraryMissing, f"no library {self.nowhere}: build it"):
            Table(library=self.nowhere)
        with self.assertRaisesRegex(LibraryMissing, "cannot load .*named.so"):
            Table(library=self.file("named.so"))

    def test_another_library(self) -> None:
        with mock.patch("ctypes.PyDLL", return_value=SimpleNamespace(other=1)), self.assertRaisesRegex(LibraryFault, "no function pidtab_version"):
            load_library.__wrapped__("other.so")

    def test_another_interface(self) -> None:
        functions = SimpleNamespace(**{name: mock.Mock(return_value=2) for name in raw.FUNCTIONS})
        with mock.patch("ctypes.PyDLL", return_value=functions), self.assertRaisesRegex(LibraryFault, "later.so has the interface 2"):
            load_library.__wrapped__("later.so")


class Statuses(unittest.TestCase):
    """What is raised for each status that a table of a test's size does not come to."""

    def open(self, status: int) -> Table:
        """A table whose calls and list answer with the status."""
        return open_with(mock.Mock(return_value=status))

    def test_each(self) -> None:
        faults: list[tuple[int, type[Exception], str]] = [
            (raw.NO_MEMORY, MemoryError, "fork 1: no memory"),
            (raw.SPENT, OverflowError, "fork 1: spent"),
            (raw.OUT_OF_RANGE, ValueError, "bad line: fork 1"),
            (raw.CLOSED, TableClosed, "was closed"),
            (raw.EMPTY_LINE, LibraryFault, "status 61"),
            (99, LibraryFault, "status 99"),
        ]
        for fault in faults:
            with self.subTest(fault[0]):
                self.check(*fault)

    def check(self, status: int, kind: type[Exception], words: str) -> None:
        """A fork raises the kind, by its method and by its line."""
        table = self.open(status)
        with self.assertRaisesRegex(kind, words):
            table.fork(1)
        with self.assertRaisesRegex(kind, words):
            table.line("fork 1")

    def test_answers_tell_what_a_line_raises(self) -> None:
        for status, answer in ((raw.NO_MEMORY, "no memory"), (raw.SPENT, "spent"), (raw.BAD_LINE, "bad line")):
            self.assertEqual(self.open(status).answers(["fork 1"]), (answer,))

    def test_no_memory_for_a_list(self) -> None:
        with self.assertRaises(MemoryError):
            self.open(raw.NO_MEMORY).list()

    def test_no_memory_for_a_table(self) -> None:
        functions = SimpleNamespace(pidtab_open=mock.Mock(return_value=raw.NO_MEMORY))
        found = mock.patch.multiple("pidtab.table", find_library=lambda named: "none", load_library=lambda path, threads: functions)
        with found, self.assertRaises(MemoryError):
            Table()


class Replies(unittest.TestCase):
    """Each call reads a reply of its own, whoever makes a call meanwhile."""

    def number(self, reply: raw.PidtabReply, number: int) -> int:
        """Answers a number."""
        reply.kind, reply.first = raw.NUMBER, number
        return raw.DONE

    def test_a_call_before_the_reply_is_read(self) -> None:
        inner = open_with(lambda table, call, reply: self.number(reply, 8))
        told: list[int] = []

        def call(table: raw.Pidtab, call: bytes, reply: raw.PidtabReply) -> int:
            status = self.number(reply, 7)
            told.append(inner.getpid(1))
            return status

        outer = open_with(call)
        # The second time, both have replies that others had.
        self.assertEqual([outer.getpid(1), outer.getpid(1), *told], [7, 7, 8, 8])

    def test_a_handler_of_a_signal(self) -> None:
        need_library()
        told: list[tuple[int, ...]] = []
        with Table() as table, Table() as other:
            with alarms(lambda number, frame: told.append(other.nspid(1, 1)), 0.001, 0.001):
                roots = [table.fork(1).root for _ in range(10000)]
        self.assertEqual(roots, list(range(2, 10002)))
        self.assertEqual(set(told), {(1,)})


def open_with(function: Callable[..., int]) -> Table:
    """A table whose calls and list are answered by a function."""
    functions = SimpleNamespace(pidtab_open=mock.Mock(return_value=raw.DONE), pidtab_close=mock.Mock())
    functions.pidtab_call = functions.pidtab_line = functions.pidtab_list = function
    return open_stand_in(functions)


class Ends(unittest.TestCase):
    """A table is closed once, by whoever has it last."""

    @classmethod
    def setUpClass(cls) -> None:
        need_library()

    def test_a_table_that_nobody_has(self) -> None:
        table = Table()
        at = table._check_open().at
        self.assertTrue(at.is_open)
        del table
        gc.collect()
        self.assertFalse(at.is_open)

    def test_a_close_leaves_zeroes(self) -> None:
        table = Table(keep=4, workers=2)
        at = table._check_open().at
        table.close()
        self.assertEqual(bytes(at), bytes(ctypes.sizeof(at)))
        table.close()

    def test_a_close_amid_calls_of_another_thread(self) -> None:
        table, calls = Table(), 0
        ended = threading.Event()

        def work() -> None:
            nonlocal calls
            try:
                while True:
                    table.getpid(1)
                    calls += 1
            except TableClosed:
                ended.set()

        thread = threading.Thread(target=work)
        thread.start()
        while calls < 1000 and thread.is_alive():
            pass
        table.close()
        thread.join(60)
        self.assertTrue(ended.is_set())

    def test_two_threads_and_a_list(self) -> None:
        # Each list is one of the table between two calls: as many tasks as its count.
        interval = sys.getswitchinterval()
        self.addCleanup(sys.setswitchinterval, interval)
        sys.setswitchinterval(1e-6)
        with Table() as table:
            threads = [threading.Thread(target=fork_and_reap, args=(table, 3000)) for _ in range(2)]
            for thread in threads:
                thread.start()
            while any(thread.is_alive() for thread in threads):
                listing = table.list()
                self.assertEqual(len(listing.tasks), listing.controls[0].count)
            self.assertEqual((table.count(), table.mk()), (1, 3 * 2 * 3000 + 2))


def fork_and_reap(table: Calls, times: int) -> None:
    """Forks children and takes them away."""
    for _ in range(times):
        root = table.fork(1).root
        table.exit(root, 3)
        table.wait(1, root)


class Both(unittest.TestCase):
    """The same calls leave the same table, by either way."""

    @classmethod
    def setUpClass(cls) -> None:
        need_program()
        need_library()

    def test_random_lines(self) -> None:
        # Small numbers, so that most calls name what is there.
        chance = random.Random(SEED)
        numbers = {letter: range(-1 if letter == "G" else 0, 12) for letter in "CTPNSGI"}
        lines = [" ".join(str(chance.choice(numbers[word])) if word in numbers else word for word in chance.choice(FORMS).split(" "))
                 for _ in range(RANDOM_LINES)]  # fmt: skip
        with Process(301) as process, Table(301) as table:
            self.assertEqual(process.answers(lines), table.answers(lines))
            for line in lines:
                self.assertEqual((line, ask(process, line)), (line, ask(table, line)))
            self.assertEqual(process._list_text(), table._list_text())
            made = len(table.list().tasks)
        self.assertGreater(made, 20)

    def test_list_and_tree(self) -> None:
        with Process() as process, Table() as table:
            for way in (process, table):
                self.grow(way)
            self.assertEqual(process._list_text(), table._list_text())
            self.assertEqual((process.list(), process.tree()), (table.list(), table.tree()))

    def grow(self, table: Calls) -> None:
        """A table with all that a list may say."""
        group = table.mk()
        table.limit(group, 9)
        table.mk(group)
        table.fork(1, new=True)
        table.join(1, 2)
        for _ in range(3):
            table.fork(1)
        table.exec(3)
        table.subreaper(3)
        table.setsid(4)
        table.move(5, group)
        table.exit(5, 4)
        table.exit(2)
        words = table._list_text()
        for word in ("fallen", "killed", "exit 4", "children", "limit 9"):
            self.assertIn(word, words)


if __name__ == "__main__":
    unittest.main()
