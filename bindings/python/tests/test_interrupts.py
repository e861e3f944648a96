"""Interrupts, as by Ctrl-C: the program goes on, and no answer is given to another call."""

import dis
import gc
import os
import pty
import select
import signal
import sys
import tempfile
import threading
import time
import unittest
from collections.abc import Callable, Collection
from contextlib import AbstractContextManager, suppress
from functools import partial
from pathlib import Path
from types import FrameType
from typing import Any
from unittest import mock

import pidtab.process
import pidtab.exchange
from pidtab import Process
from tests.alarms import alarms
from tests.ways import need_program

PACKAGE = Path(__file__).resolve().parents[1]
FILES = {pidtab.process.__file__, pidtab.exchange.__file__}
CTRL_C = b"\x03"


def interrupt(number: int, frame: FrameType | None) -> None:
    """The handler of a signal that does what Ctrl-C does."""
    raise KeyboardInterrupt


def interrupts(first: float, every: float = 0.0) -> AbstractContextManager[None]:
    """Raises a KeyboardInterrupt in so many seconds, and then again and again."""
    return alarms(interrupt, first, every)


class Interrupter:
    """Interrupts once, after one of the places of the package where something has just been called: there a handler may run."""

    # By what the interpreter is asked to tell of its steps.
    told = sys.gettrace
    tell = sys.settrace

    def __init__(self, place: int) -> None:
        self.left = place
        self.before: dict[FrameType, int] = {}
        # What was raised, with the frames that it came through, as a prompt keeps them.
        self.fault: KeyboardInterrupt | None = None

    def trace(self, frame: FrameType, event: str, argument: object) -> Any:
        """What the interpreter calls at each of its steps."""
        if frame.f_code.co_filename not in FILES:
            return None
        frame.f_trace_opcodes = True
        if event == "exception":
            # No handler of a signal runs between what is raised and who catches it.
            self.before.pop(frame, None)
        if event == "opcode":
            last = self.before.get(frame)
            self.before[frame] = frame.f_lasti
            if last is not None and dis.opname[frame.f_code.co_code[last]].startswith("CALL"):
                self.left -= 1
            if self.left == 0:
                sys.settrace(None)
                raise KeyboardInterrupt
        return self.trace

    def run(self, ask: Callable[[], object]) -> bool:
        """Whether the call was interrupted."""
        before = self.told()
        # Nobody would catch what is raised where the collector ends a table of another test.
        gc.disable()
        self.tell(self.trace)
        try:
            ask()
        except KeyboardInterrupt as fault:
            self.fault = fault
            return True
        finally:
            self.tell(before)
            gc.enable()
        return False


class CallInterrupter(Interrupter):
    """Interrupts once, in the step of one of the calls that are made in some files, after what was called.

    There a handler is run too. What it raises is caught where the call is, and not where the next step is, which may be after a `with`.
    """

    told = sys.getprofile
    tell = sys.setprofile

    def __init__(self, place: int, files: Collection[str]) -> None:
        super().__init__(place)
        self.files = files

    def trace(self, frame: FrameType | None, event: str, argument: object) -> None:
        """What the interpreter calls at the beginning and at the end of what is called."""
        # A function of C ends in the frame that has called it, and one of Python in its own.
        caller = frame if event == "c_return" else frame and frame.f_back if event == "return" else None
        if caller is not None and caller.f_code.co_filename in self.files:
            self.left -= 1
            if self.left == 0:
                sys.setprofile(None)
                raise KeyboardInterrupt


class Interrupts(unittest.TestCase):
    """By the program."""

    @classmethod
    def setUpClass(cls) -> None:
        need_program()

    def setUp(self) -> None:
        self.process = Process(pid_max=4194304)
        self.addCleanup(self.process.close)
        # Of answers that were lost, a wait for them would have no end.
        watch = threading.Timer(60, self.process._child.kill)
        watch.start()
        self.addCleanup(watch.join)
        self.addCleanup(watch.cancel)

    def test_many_in_a_second(self) -> None:
        given: list[tuple[str, str]] = []
        interrupted = 0
        end = time.monotonic() + 1
        with interrupts(0.02, 0.02):
            while time.monotonic() < end:
                try:
                    self.ask_for_ever(given)
                except KeyboardInterrupt:
                    interrupted += 1
        self.assertGreater(interrupted, 20)
        self.compare(given, interrupted)

    def ask_for_ever(self, given: list[tuple[str, str]]) -> None:
        """Asks lines whose answers all differ, and notes what they are given."""
        while True:
            for line in ["fork 1", "mk 0"] * 20:
                given.append((line, self.process.line(line)))
            many = ["fork 1", "mk 0"] * 55
            given.extend(zip(many, self.process.answers(many)))

    def compare(self, given: list[tuple[str, str]], interrupted: int) -> None:
        """Each answer is the one of its line, where the transcript is played again."""
        lines = self.process.transcript.splitlines()
        with Process(pid_max=4194304) as other:
            played = list(zip(lines, other.answers(lines)))
            self.assertEqual(self.process._list_text(), other._list_text())
        rest = iter(played)
        self.assertEqual([it for it in given if it not in rest], [])
        # An interrupt costs one call, or one of many lines.
        self.assertLessEqual(len(played) - len(given), 110 * interrupted)
        self.assertEqual(self.process.answers(["fork 1"]), (f"child {lines.count('fork 1') + 2} root {lines.count('fork 1') + 2}",))

    def test_one_behind_each_step(self) -> None:
        for ask in (lambda: self.process.fork(1), lambda: self.process.answers(["fork 1"] * 101)):
            places = 0
            self.assertFalse(Interrupter(-1).run(ask))
            while Interrupter(places + 1).run(ask):
                places += 1
                self.check_forks()
            self.assertGreater(places, 20)

    def check_forks(self) -> None:
        """Each call is answered what it asks for, and the forks are those of the transcript."""
        self.assertEqual(self.process.getpid(1), 1)
        child = self.process.fork(1).root
        self.assertEqual(child, self.process.transcript.count("fork 1\n") + 1)

    def test_what_was_not_begun_is_not_made(self) -> None:
        # The interpreter may tell of the steps of a function from its second call on.
        self.assertFalse(Interrupter(-1).run(lambda: self.process.getpid(1)))
        for place in range(1, 4):
            self.assertTrue(Interrupter(place).run(lambda: self.process.fork(1)))
            self.assertEqual(self.process.transcript, "getpid 1\n")
        with mock.patch("os.write", side_effect=KeyboardInterrupt), self.assertRaises(KeyboardInterrupt):
            self.process.fork(1)
        self.assertEqual(self.process.transcript, "getpid 1\n")

    def test_an_end_amid_interrupts(self) -> None:
        interrupted = 0
        for place in range(1, 25):
            process = Process()
            process.fork(1)
            interrupted += Interrupter(place).run(process.close)
            self.assertEqual(process.close(), 0)
            with self.assertRaisesRegex(pidtab.TableClosed, "closed"):
                process.fork(1)
            self.assertFalse(Path(f"/proc/{process._child.pid}").exists())
        self.assertGreater(interrupted, 5)


class SlowProgram(unittest.TestCase):
    """A program of the shell that answers late, by the count of its lines."""

    def setUp(self) -> None:
        folder = tempfile.TemporaryDirectory()
        self.addCleanup(folder.cleanup)
        self.path = Path(folder.name) / "pidtab"

    def start(self, *lines: str) -> Process:
        """A process of such a program."""
        self.path.write_text("\n".join(["#!/bin/sh", *lines, ""]))
        self.path.chmod(0o755)
        process = Process(program=self.path)
        self.addCleanup(process.close)
        return process

    def break_off(self, process: Process) -> None:
        """A call that is interrupted while the program is at work."""
        with interrupts(0.1), self.assertRaises(KeyboardInterrupt):
            process.getpid(1)

    def test_an_answer_that_was_not_waited_for(self) -> None:
        process = self.start("n=0", "while read -r line; do sleep 0.3; n=$((n + 1)); echo $n; done")
        self.break_off(process)
        self.assertEqual(process.getppid(1), 2)
        self.assertEqual(process.transcript, "getpid 1\ngetppid 1\n")

    def test_the_transcript_tells_of_it(self) -> None:
        process = self.start("while read -r line; do sleep 0.3; echo 1; done")
        self.break_off(process)
        self.assertEqual(process.transcript, "getpid 1\n")

    def test_a_close_tells_of_it(self) -> None:
        process = self.start("while read -r line; do sleep 0.3; echo 1; done", "exit 5")
        self.break_off(process)
        self.assertEqual(process.close(), 5)
        self.assertEqual(process.transcript, "getpid 1\n")

    def test_half_an_answer(self) -> None:
        process = self.start("read -r line", "printf chi", "sleep 0.3", "echo 'ld 2 root 2'", "read -r line", "echo child 3 root 3")
        with interrupts(0.1), self.assertRaises(KeyboardInterrupt):
            process.fork(1)
        self.assertEqual(process.fork(1).root, 3)

    def test_a_program_that_ends_then(self) -> None:
        process = self.start("read -r line", "sleep 0.3", "exit 3")
        self.break_off(process)
        for _ in range(2):
            with self.assertRaisesRegex(pidtab.ProgramEnded, "ended with status 3"):
                process.getpid(1)
        self.assertEqual(process.transcript, "")

    def test_a_program_that_ends_amid_interrupts(self) -> None:
        for place in range(15, 55):
            process = self.start("read -r line", "echo 1", "read -r line", "exit 3")
            with suppress(pidtab.ProgramEnded):
                Interrupter(place).run(partial(process.answers, ["getpid 1"] * 3))
            with self.assertRaisesRegex(pidtab.ProgramEnded, "ended with status 3"):
                process.getpid(1)
            self.assertLessEqual(process.transcript.count("getpid 1\n"), 1)

    def test_a_line_that_the_pipe_does_not_hold(self) -> None:
        # Half of it is written when the interrupt comes, and the rest before the next line.
        process = self.start("sleep 0.3", "while read -r line; do echo ${#line}; done")
        with interrupts(0.1), self.assertRaises(KeyboardInterrupt):
            process.line("x" * 200_000)
        self.assertEqual(process.answers(["abc"]), ("3",))
        self.assertEqual(process.transcript, "x" * 200_000 + "\nabc\n")


class Prompt(unittest.TestCase):
    """Ctrl-C at the prompt of an interactive Python."""

    @classmethod
    def setUpClass(cls) -> None:
        need_program()

    def setUp(self) -> None:
        words = {**os.environ, "PYTHONPATH": str(PACKAGE), "PYTHON_BASIC_REPL": "1", "TERM": "dumb", "PIDTAB": str(pidtab.find_program())}
        self.child, self.terminal = pty.fork()
        if self.child == 0:
            # What starts the tests may have had it ignored.
            signal.signal(signal.SIGINT, signal.default_int_handler)
            os.execve(sys.executable, [sys.executable, "-q", "-B"], words)
        self.addCleanup(self.end)
        self.seen = b""

    def end(self) -> None:
        """Ends the interpreter."""
        os.kill(self.child, signal.SIGKILL)
        os.waitpid(self.child, 0)
        os.close(self.terminal)

    def type_line(self, line: str) -> None:
        os.write(self.terminal, line.encode() + b"\n")

    def wait_for(self, words: bytes) -> None:
        """Reads until the terminal shows the words."""
        end = time.monotonic() + 30
        while words not in self.seen:
            ready, _, _ = select.select([self.terminal], [], [], max(0, end - time.monotonic()))
            self.assertTrue(ready, self.seen)
            self.seen += os.read(self.terminal, 4096)
        self.seen = self.seen.partition(words)[2]

    def test_the_table_goes_on(self) -> None:
        self.type_line("import pidtab; p = pidtab.Process()")
        self.type_line("p.fork(1)")
        self.wait_for(b"Forked(child=2, root=2)")
        self.wait_for(b">>> ")
        os.write(self.terminal, CTRL_C)
        # An interrupt just before the interpreter waits for a line is told after the line.
        self.type_line("")
        self.wait_for(b"KeyboardInterrupt")
        self.type_line("try: print(p.fork(1))\nexcept Exception as fault: print(type(fault))\n")
        self.wait_for(b"Forked(child=3, root=3)")


if __name__ == "__main__":
    unittest.main()
