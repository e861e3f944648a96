"""Programs that are not there, that end, and that have no memory or no stamps left."""

import os
import tempfile
import unittest
from collections.abc import Callable
from pathlib import Path
from unittest import mock

from pidtab import Process, ProgramEnded, ProgramFault, ProgramMissing, TableClosed, find_program


class Faults(unittest.TestCase):
    """Each with a program of a few lines in the place of pidtab."""

    def setUp(self) -> None:
        self.folder = tempfile.TemporaryDirectory()
        self.addCleanup(self.folder.cleanup)

    def program(self, *lines: str, mode: int = 0o755) -> Path:
        """A program of the shell."""
        path = Path(self.folder.name) / "pidtab"
        path.write_text("\n".join(["#!/bin/sh", *lines, ""]))
        path.chmod(mode)
        return path

    def start(self, *lines: str) -> Process:
        """A process of such a program."""
        process = Process(program=self.program(*lines))
        self.addCleanup(process.close)
        return process

    def test_a_program_that_is_missing(self) -> None:
        for path in ("/no/such/pidtab", self.folder.name, str(self.program("exit", mode=0o644))):
            with self.subTest(path), self.assertRaisesRegex(ProgramMissing, f"no program {path}"):
                Process(program=path)

    def test_a_program_that_cannot_be_started(self) -> None:
        path = self.program("exit")
        path.write_text("#!/no/such/shell\n")
        with self.assertRaisesRegex(ProgramMissing, "cannot start"):
            Process(program=path)

    def test_the_variable_names_the_program(self) -> None:
        path = self.program("exit")
        with mock.patch.dict(os.environ, {"PIDTAB": str(path)}):
            self.assertEqual(find_program(), path)
            self.assertEqual(find_program("/bin/sh"), Path("/bin/sh"))
        with mock.patch.dict(os.environ, {"PIDTAB": "/no/such/pidtab"}), self.assertRaises(ProgramMissing):
            find_program()

    def test_the_built_program_goes_before_the_installed_one_and_this_before_one_on_the_path(self) -> None:
        path, nowhere = self.program("exit"), Path("/no/such/pidtab")
        found = [(Path("/bin/sh"), Path("/bin/ls"), Path("/bin/sh")), (nowhere, Path("/bin/ls"), Path("/bin/ls")), (nowhere, nowhere, path)]
        with mock.patch.dict(os.environ, {"PATH": self.folder.name, "PIDTAB": ""}):
            for built, installed, wanted in found:
                self.assertEqual(self.find(built, installed), wanted)
            path.unlink()
            with self.assertRaisesRegex(ProgramMissing, "make build"):
                self.find(nowhere, nowhere)

    def find(self, built: Path, installed: Path) -> Path:
        """The program that is found where these two may be."""
        with mock.patch("pidtab.program.BUILT_PROGRAM", built), mock.patch("pidtab.program.INSTALLED_PROGRAM", installed):
            return find_program()

    def test_a_program_that_ends_at_once(self) -> None:
        process = self.start("echo pidtab: no memory >&2", "exit 1")
        with self.assertRaisesRegex(ProgramEnded, "ended with status 1: pidtab: no memory"):
            process.getpid(1)
        self.assertEqual(process.close(), 1)

    def test_a_program_that_ends_later(self) -> None:
        process = self.start("read line", "echo 1", "read line", "exit 3")
        self.assertEqual(process.getpid(1), 1)
        for _ in range(2):
            with self.assertRaisesRegex(ProgramEnded, "ended with status 3"):
                process.getpid(1)
        self.assertEqual(process.transcript, "getpid 1\n")
        self.assertEqual(process.close(), 3)

    def test_a_program_that_has_ended(self) -> None:
        # What it wrote before its end is read all the same.
        process = self.start("echo 1")
        process._child.wait()
        self.assertEqual(process.getpid(1), 1)
        with self.assertRaisesRegex(ProgramEnded, "ended with status 0"):
            process.getpid(1)

    def test_a_program_that_is_killed(self) -> None:
        process = self.start("read line", "kill -9 $$")
        with self.assertRaisesRegex(ProgramEnded, "ended with status -9"):
            process.getpid(1)

    def test_a_program_that_ends_amid_an_answer(self) -> None:
        process = self.start("read line", "printf 1")
        with self.assertRaises(ProgramEnded):
            process.getpid(1)
        self.assertEqual(process.transcript, "")

    def test_a_program_that_ends_amid_many_lines(self) -> None:
        process = self.start("read line", "echo 1", "exit 1")
        with self.assertRaises(ProgramEnded):
            process.answers(["getpid 1"] * 500)
        self.assertEqual(process.transcript, "getpid 1\n")

    def test_no_memory(self) -> None:
        process = self.start("read line", "echo no memory", "read line", "echo child 2 root 2")
        with self.assertRaises(MemoryError):
            process.fork(1)
        self.assertEqual(process.fork(1).root, 2)
        self.assertEqual(process.transcript, "fork 1\n")

    def test_spent(self) -> None:
        process = self.start("read line", "echo spent")
        with self.assertRaises(OverflowError):
            process.fork(1)
        self.assertEqual(process.transcript, "")

    def test_a_program_that_answers_something_else(self) -> None:
        process = self.start("while read line; do echo hello; done")
        calls: list[Callable[[], object]] = [lambda: process.fork(1), lambda: process.exec(1), lambda: process.wait(1), lambda: process.getpid(1),
                 lambda: process.nspid(1, 1), lambda: process.next(1), lambda: process.mk(), lambda: process.rm(1)]  # fmt: skip
        for call in calls:
            with self.assertRaisesRegex(ProgramFault, "answered `hello`"):
                call()

    def test_a_list_that_fails(self) -> None:
        process = self.start('if [ "$1" = list ]; then echo pidtab: no memory >&2; exit 1; fi', "read line")
        with self.assertRaisesRegex(ProgramFault, "list ended with status 1: pidtab: no memory"):
            process.list()

    def test_a_list_is_asked_with_the_same_bound(self) -> None:
        process = Process(pid_max=301, program=self.program('echo "$@" >> "$0.words"', "cat > /dev/null", "exit 1"))
        with self.assertRaises(ProgramFault):
            process.list()
        process.close()
        words = (Path(self.folder.name) / "pidtab.words").read_text().splitlines()
        self.assertEqual(sorted(words), ["list --pid-max 301", "run --pid-max 301"])

    def test_a_program_that_answers_more_than_it_is_asked(self) -> None:
        process = self.start("read line", "printf '1\\n2\\n'", "read line")
        with self.assertRaisesRegex(ProgramFault, "answered more than it was asked"):
            process.getpid(1)

    def test_a_process_that_was_closed(self) -> None:
        with self.start("while read line; do echo 1; done", "exit 5") as process:
            self.assertEqual(process.getpid(1), 1)
        self.assertEqual([process.close(), process.close()], [5, 5])
        with self.assertRaisesRegex(TableClosed, "closed"):
            process.getpid(1)


if __name__ == "__main__":
    unittest.main()
