"""The end of a table that nobody closes, and tables of a process that forks."""

import gc
import multiprocessing
import os
import signal
import subprocess
import sys
import time
import unittest
from collections.abc import Callable
from pathlib import Path
from types import SimpleNamespace
from unittest import mock

from pidtab import Calls, Process, TableClosed
from tests.ways import ByLibrary, ByProgram, Cases, need_program, open_stand_in

PACKAGE = Path(__file__).resolve().parents[1]
OTHERS = "this table is that of the parent process: a forked child opens its own"


def run_python(*lines: str) -> tuple[str, str]:
    """What a program in Python writes and what it complains of, where each warning is an error."""
    command = [sys.executable, "-X", "dev", "-W", "error", "-B", "-c", "\n".join(["import gc, os, sys", "import pidtab", *lines])]
    # The folder stays, since the variables for the program and the library may be relative to it.
    found = {**os.environ, "PYTHONPATH": str(PACKAGE)}
    done = subprocess.run(command, env=found, capture_output=True, text=True, timeout=60, check=False)
    return done.stdout, done.stderr


def say(ask: Callable[[], object]) -> str:
    """What a call answers or raises, in words."""
    try:
        return str(ask())
    except TableClosed as fault:
        return f"closed: {fault}"


def in_child(ask: Callable[[], object]) -> str:
    """The same, in a forked child."""
    reader, writer = os.pipe()
    child = os.fork()
    if child == 0:
        # One that waits for ever has no answer.
        signal.alarm(30)
        try:
            os.write(writer, say(ask).encode())
        finally:
            os._exit(0)
    os.close(writer)
    with open(reader, encoding="utf-8") as answer:
        said = answer.read()
    os.waitpid(child, 0)
    return said


class ForkCases(Cases):
    """A forked child leaves the table to its parent."""

    def setUp(self) -> None:
        self.table = self.open()

    def test_each_method_in_the_child(self) -> None:
        methods: list[Callable[[], object]] = [
            lambda: self.table.fork(1), lambda: self.table.getpid(1), lambda: self.table.mk(), lambda: self.table.line("fork 1"),
            lambda: self.table.answers(["fork 1"]), lambda: self.table.list(), lambda: self.table.tree(),
        ]  # fmt: skip
        for method in methods:
            self.assertEqual(in_child(method), f"closed: {OTHERS}")
        # The id is the number of the call, so none was made before.
        self.assertEqual(self.table.mk(), 1)

    def test_what_it_shows_of_itself(self) -> None:
        shown = repr(self.table)
        self.assertRegex(shown, f"^<pidtab.{type(self.table).__name__} .*pid_max=32768.*, open>$")
        self.assertEqual(in_child(lambda: repr(self.table)), shown.replace(", open>", ", of the parent process>"))

    def test_a_close_in_the_child(self) -> None:
        self.assertIn(in_child(lambda: self.table.close()), ("0", "None"))
        self.assertEqual(self.table.fork(1).root, 2)

    def test_a_child_opens_its_own(self) -> None:
        self.table.fork(1)
        self.assertEqual(in_child(lambda: self.open().fork(1).root), "2")
        self.assertEqual(self.table.fork(1).root, 3)

    def test_workers_of_multiprocessing(self) -> None:
        ways = multiprocessing.get_context("fork")
        answers = ways.SimpleQueue()
        workers = [ways.Process(target=lambda: answers.put(say(lambda: self.table.fork(1)))) for _ in range(2)]
        for worker in workers:
            worker.start()
        roots = [self.table.fork(1).root for _ in range(50)]
        said = [answers.get() for _ in workers]
        for worker in workers:
            worker.join()
        self.assertEqual(said, [f"closed: {OTHERS}"] * 2)
        self.assertEqual(roots, list(range(2, 52)))


class ForksByProgram(ForkCases, ByProgram):
    pass


class ForksByLibrary(ForkCases, ByLibrary):
    pass


class ForksByStandIn(unittest.TestCase):
    """By functions in the place of the library: none of them is called in a child."""

    def test_none_is_called(self) -> None:
        names = ("pidtab_open", "pidtab_close", "pidtab_call", "pidtab_line", "pidtab_list")
        functions = SimpleNamespace(**{name: mock.Mock(return_value=0) for name in names})
        table = open_stand_in(functions)
        self.addCleanup(table.close)

        def use() -> list[object]:
            said = [say(lambda: table.getpid(1)), say(lambda: table.answers(["getpid 1"])), say(lambda: table.list())]
            table.close()
            assert said == [f"closed: {OTHERS}"] * 3, said
            return [getattr(functions, name).call_count for name in names]

        self.assertEqual(in_child(use), "[1, 0, 0, 0, 0]")
        table.close()
        self.assertEqual(functions.pidtab_close.call_count, 1)


class Dropped(unittest.TestCase):
    """A process that is not closed."""

    @classmethod
    def setUpClass(cls) -> None:
        need_program()

    def test_one_that_nobody_has(self) -> None:
        process = Process()
        process.fork(1)
        child = process._child.pid
        del process
        gc.collect()
        # A zombie would be there still.
        self.assertFalse(Path(f"/proc/{child}").exists())

    def test_one_of_a_program_that_does_not_end(self) -> None:
        with mock.patch("pidtab.process.PATIENCE", 0.1):
            process = Process(program="/usr/bin/yes")
            child = process._child.pid
            os.kill(child, signal.SIGSTOP)
            del process
            gc.collect()
        self.assertFalse(Path(f"/proc/{child}").exists())

    def test_no_warning(self) -> None:
        self.assertEqual(run_python("p = pidtab.Process()", "print(p.fork(1).root)", "del p", "gc.collect()"), ("2\n", ""))
        self.assertEqual(run_python("p = pidtab.Process()", "p.itself = p", "del p", "gc.collect()"), ("", ""))

    def test_no_warning_at_the_end_of_the_interpreter(self) -> None:
        self.assertEqual(run_python("p = pidtab.Process()", "print(p.fork(1).root)"), ("2\n", ""))
        self.assertEqual(run_python("with pidtab.Process() as p: print(p.fork(1).root)"), ("2\n", ""))


class ForkedChild(unittest.TestCase):
    """What the end of a forked child does to its parent's program: nothing."""

    @classmethod
    def setUpClass(cls) -> None:
        need_program()

    def check(self, *child: str) -> None:
        """The parent's table goes on after such a child, and its program ends well."""
        lines = ["p = pidtab.Process()", "p.fork(1)", "if os.fork() == 0:", *[f"    {line}" for line in child], "    sys.exit()"]
        after = ["os.wait()", "print(p.fork(1).root, p.transcript.count('fork'), p.close())"]
        self.assertEqual(run_python(*lines, *after), ("3 2 0\n", ""))

    def test_an_exit(self) -> None:
        self.check("pass")

    def test_a_drop(self) -> None:
        self.check("del p", "gc.collect()")

    def test_a_close(self) -> None:
        self.check("p.close()")

    def test_an_end_of_with(self) -> None:
        self.check("with p: sys.exit()")

    def test_a_child_of_a_child(self) -> None:
        self.check("if os.fork() == 0: sys.exit()", "os.wait()")

    def test_it_holds_no_end_of_the_pipe(self) -> None:
        # The program ends where nobody can write to it any more.
        process = Process()
        child = os.fork()
        if child == 0:
            time.sleep(3)
            os._exit(0)
        start = time.monotonic()
        self.assertEqual(process.close(), 0)
        self.assertLess(time.monotonic() - start, 2)
        os.waitpid(child, 0)


class ForkAmidACall(unittest.TestCase):
    """A fork while another thread waits for an answer."""

    def test_the_child_does_not_wait_for_the_lock(self) -> None:
        table: Calls = Process(program="/bin/cat")
        self.addCleanup(table.close)
        assert isinstance(table, Process)
        with table._lock:
            self.assertEqual(in_child(lambda: table.getpid(1)), f"closed: {OTHERS}")


if __name__ == "__main__":
    unittest.main()
