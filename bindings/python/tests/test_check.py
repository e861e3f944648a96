"""What is a bad line, by docs/SCRIPT.md and by the program, and where it goes wrong."""

import io
import json
import os
import random
import subprocess
import sys
import tempfile
import unittest
from pathlib import Path
from unittest import mock

from pidtab import Process
from pidtab.commands.check import find_bad
from pidtab.commands.common import Progress
from pidtab.language import FORMS, Fault, judge
from tests.pages import EXAMPLES, REPOSITORY, quoted, read_page, rows, section, stored_scripts
from tests.ways import need_program

LAUNCHER = REPOSITORY / "bindings" / "python" / "bin" / "pidtab-check"
SEED = 20
RANDOM_LINES = 2000

# The least and the greatest number of each letter of the page.
BOUNDS = {
    "C": (0, 4294967295), "T": (0, 4294967295), "P": (0, 4294967295), "N": (0, 4294967295),
    "S": (0, 255), "G": (-2147483648, 2147483647), "I": (0, 18446744073709551615),
}  # fmt: skip

NUMBERS = [
    "0", "1", "255", "256", "2147483647", "2147483648", "4294967295", "4294967296", "18446744073709551615",
    "18446744073709551616", "-1", "-2147483648", "-2147483649", "9" * 100,
]  # fmt: skip

# No number of any kind.
NO_NUMBERS = ["-0", "01", "00", "+1", "-01", "--1", "-", "1-", "0x1", "1.0", "1e1", "", "\u0661", "1_0"]

# A bad line, its column, and words of what is said.
FAULTS = [
    (b"fork 1\r", 7, "carriage return"),
    (b"\r", 1, "carriage return"),
    (b"fork 1 new\r", 11, "carriage return"),
    (b"FORK 1\r", 1, "nearest is `fork`"),
    (b"fork 1  new", 8, "one space"),
    (b"fork  1", 6, "one space"),
    (b"fork 1 ", 8, "one space"),
    (b" fork 1", 1, "one space"),
    (b" ", 1, "one space"),
    (b"fork\t1", 5, "not a tab"),
    (b"fork 1\tnew", 7, "not a tab"),
    (b"fork 01", 6, "without a leading zero"),
    (b"setpgid 1 -0 1", 11, "without a leading zero"),
    (b"fork +1", 6, "without a plus sign"),
    (b"exit 2 256", 8, "a status, 0 to 255"),
    (b"fork 4294967296", 6, "a caller, 0 to 4294967295"),
    (b"mk 18446744073709551616", 4, "the id of a control group, 0 to 18446744073709551615"),
    (b"setpgid 1 2 -2147483649", 13, "a number, -2147483648 to 2147483647"),
    (b"limit 1 4294967296", 9, "a limit, 0 to 4294967295 or `max`"),
    (b"frok 1", 1, "nearest is `fork`"),
    (b"Wait 1 any", 1, "nearest is `wait`"),
    (b"subreap 1 on", 1, "nearest is `subreaper`"),
    (b"42", 1, "one of fork, exec"),
    (b"# container", 1, "no comments"),
    (b"fork 1 # a child", 8, "`new`"),
    (b"fork", 5, "a caller"),
    (b"fork 1 old", 8, "`new`"),
    (b"fork 1 new 2", 12, "the end of the line"),
    (b"wait 1", 7, "`any` or `pid` or `own` or `group`"),
    (b"wait 1 pid", 11, "a process number"),
    (b"subreaper 1 yes", 13, "`on` or `off`"),
    (b"getpid 1 2", 10, "the end of the line"),
    (b"fork 1\x00", 6, "a caller"),
    (b"fork \xff", 6, "a caller"),
    (b"x" * 201, 201, "at most 200 bytes"),
    (b"fork 1" + b" " * 194 + b"\r", 201, "at most 200 bytes"),
]


def page_forms() -> list[str]:
    """The forms of the page's table of commands."""
    table = rows(section(read_page("docs/SCRIPT.md"), "### Commands"))
    return [form for row in table for form in quoted(row[0])]


def fill(form: str, numbers: dict[str, str]) -> bytes:
    """The form with a number for each letter; 1 where none is given."""
    words = [numbers.get(word, "1") if word in BOUNDS else word for word in form.split(" ")]
    return " ".join(words).encode()


def random_line(chance: random.Random) -> str:
    """A short line: a form with numbers, and often with an edit that may spoil it."""
    words = [chance.choice([*NUMBERS, *NO_NUMBERS, "2", "3"]) if word in BOUNDS and chance.random() < 0.3
             else "7" if word in BOUNDS else word for word in chance.choice(FORMS).split(" ")]  # fmt: skip
    line = " ".join(words)
    for _ in range(chance.choice([0, 0, 0, 1, 2])):
        place = chance.randrange(len(line) + 1)
        piece = chance.choice([" ", "  ", "\t", "\r", "#", "0", "-", "+", "1", "a", "N", "", " new", " any", "é"])
        line = line[:place] + piece + line[place + chance.choice([0, 0, 1, 2]) :]
    return line.replace("\n", "") or "fork"


def launch(*words: str, script: bytes = b"") -> "subprocess.CompletedProcess[bytes]":
    """Runs the program."""
    return subprocess.run([sys.executable, str(LAUNCHER), *words], input=script, capture_output=True, check=False)


class Judgement(unittest.TestCase):
    """Bad, good or empty."""

    def test_each_form_is_good(self) -> None:
        for form in page_forms():
            self.assertIsNone(judge(fill(form, {})), form)

    def test_each_form_with_a_word_less_or_more_is_bad(self) -> None:
        forms = {fill(form, {}) for form in page_forms()}
        for line in forms:
            for other in (line.rpartition(b" ")[0], line + b" 1", line + b" x", line.upper(), line + b" ", b" " + line):
                self.assertEqual(judge(other) is None, other in forms, other)

    def test_each_number_at_each_place(self) -> None:
        for form in page_forms():
            for letter in BOUNDS.keys() & set(form.split(" ")):
                least, greatest = BOUNDS[letter]
                for number in NUMBERS:
                    line = fill(form, {letter: number})
                    self.assertEqual(judge(line) is None, least <= int(number) <= greatest, line)
                for word in NO_NUMBERS:
                    line = fill(form, {letter: word})
                    self.assertIsNotNone(judge(line), line)

    def test_lengths(self) -> None:
        # No good line has 200 bytes, so a bad one of that length must not be called too long.
        fault = judge(b"x" * 200)
        assert fault is not None
        self.assertEqual(fault.column, 1)
        self.assertEqual(judge(b"x" * 201), Fault(201, "at most 200 bytes in a line"))
        self.assertIsNotNone(judge(b"9" * 1000000))

    def test_an_empty_line(self) -> None:
        self.assertIsNone(judge(b""))

    def test_stored_scripts(self) -> None:
        judged = 0
        for script in stored_scripts():
            asked = [line for line in script.lines if line]
            for line, answer in zip(asked, script.answers, strict=True):
                self.assertEqual(judge(line) is not None, answer == "bad line", line)
                judged += 1
        self.assertGreater(judged, 5000)

    def test_what_is_said(self) -> None:
        for line, column, words in FAULTS:
            with self.subTest(line):
                fault = judge(line)
                assert fault is not None
                self.assertEqual(fault.column, column)
                self.assertIn(words, fault.expected)


class Program(unittest.TestCase):
    """The same judgement as that of the program pidtab."""

    @classmethod
    def setUpClass(cls) -> None:
        need_program()

    def test_random_lines(self) -> None:
        chance = random.Random(SEED)
        lines = [random_line(chance) for _ in range(RANDOM_LINES)]
        with Process() as process:
            answers = process.answers(lines)
        bad = 0
        for line, answer in zip(lines, answers, strict=True):
            self.assertEqual(judge(line.encode()) is not None, answer == "bad line", line)
            bad += answer == "bad line"
        # Lines of both kinds are many, so that neither judgement is idle.
        self.assertTrue(RANDOM_LINES // 4 < bad < RANDOM_LINES * 3 // 4, bad)

    def test_each_number_at_each_place(self) -> None:
        lines = [fill(form, {letter: number}).decode() for form in page_forms() for letter in sorted(BOUNDS)
                 for number in [*NUMBERS, *NO_NUMBERS] if letter in form.split(" ")]  # fmt: skip
        with Process() as process:
            answers = process.answers(lines)
        for line, answer in zip(lines, answers, strict=True):
            self.assertEqual(judge(line.encode()) is not None, answer == "bad line", line)

    def test_bad_lines(self) -> None:
        lines = [line.decode("utf-8", "surrogateescape") for line, _, _ in FAULTS]
        with Process() as process:
            self.assertEqual(set(process.answers(lines)), {"bad line"})


class Launcher(unittest.TestCase):
    """pidtab-check as a program."""

    def test_good_scripts(self) -> None:
        done = launch(*[str(file) for file in sorted(EXAMPLES.glob("*.script"))])
        self.assertEqual((done.returncode, done.stdout, done.stderr), (0, b"", b""))

    def test_standard_input(self) -> None:
        for words in ((), ("-",), ("-", "-")):
            done = launch(*words, script=b"fork 1\n\nfork 1\r\nfork")
            self.assertEqual(done.returncode, 1)
            said = ["-:3:7: expected a newline alone, without a carriage return", "-:4:5: expected a caller, 0 to 4294967295"]
            self.assertEqual(done.stdout.decode().splitlines(), said)
        self.assertEqual(launch(script=b"").returncode, 0)
        self.assertEqual(launch(script=b"fork 1").returncode, 0)

    def test_files(self) -> None:
        with tempfile.TemporaryDirectory() as folder:
            good, bad = Path(folder) / "good", Path(folder) / "bad"
            good.write_bytes(b"fork 1\n")
            bad.write_bytes(b"exit 2 256\n")
            done = launch(str(bad), str(good))
            unnamed = Path(os.fsdecode(bytes(bad) + b"\xff"))
            unnamed.write_bytes(b"mk\n")
            said = launch(str(unnamed)).stdout
        self.assertEqual((done.returncode, done.stdout.decode()), (1, f"{bad}:1:8: expected a status, 0 to 255\n"))
        self.assertEqual(said, bytes(unnamed) + b":1:3: expected the id of a control group, 0 to 18446744073709551615\n")

    def test_json(self) -> None:
        done = launch("--json", script=b"frok 1\nfork 1\nexit 2 256\n")
        self.assertEqual(done.returncode, 1)
        first, second = (json.loads(line) for line in done.stdout.splitlines())
        self.assertEqual(first, {"file": "-", "line": 1, "column": 1, "expected": "a command: the nearest is `fork`"})
        self.assertEqual(second, {"file": "-", "line": 3, "column": 8, "expected": "a status, 0 to 255"})

    def test_wrong_words(self) -> None:
        self.assertEqual(launch("--no-such-word").returncode, 2)
        done = launch("/no/such/script")
        self.assertEqual((done.returncode, done.stdout), (2, b""))
        self.assertIn(b"pidtab-check: cannot read /no/such/script", done.stderr)


class Quick(unittest.TestCase):
    """The program judges first, and reasons are made for bad lines alone."""

    # The second and the fourth line are bad, and the last has no end.
    LINES = (b"fork 1\n", b"frok 1\n", b"\n", b"exit 2 256\n", b"fork 1\n", b"fork 1")
    FOUND = ("x:2:1: expected a command: the nearest is `fork`", "x:4:8: expected a status, 0 to 255")

    def find(self, **variables: str) -> list[str]:
        """What is found, with these variables."""
        with mock.patch.dict(os.environ, variables):
            return [str(found) for found in find_bad("x", self.LINES)]

    def test_only_bad_lines_are_looked_at(self) -> None:
        need_program()
        with mock.patch("pidtab.commands.check.judge", side_effect=judge) as judged:
            self.assertEqual(self.find(), list(self.FOUND))
        self.assertEqual([call.args[0] for call in judged.mock_calls], [b"frok 1", b"exit 2 256"])

    def test_blocks_of_lines(self) -> None:
        need_program()
        for size in range(1, 8):
            with mock.patch("pidtab.commands.check.BLOCK", size):
                self.assertEqual(self.find(), list(self.FOUND))

    def test_without_a_program_that_answers(self) -> None:
        with tempfile.TemporaryDirectory() as folder:
            other = Path(folder) / "pidtab"
            other.write_bytes(b"#!/bin/sh\ncat > /dev/null\necho bad line\n")
            other.chmod(0o755)
            no_program = Path(folder) / "text"
            no_program.write_bytes(b"\x7fELF")
            no_program.chmod(0o755)
            for program in ("/no/such/program", "/bin/false", str(other), str(no_program)):
                self.assertEqual(self.find(PIDTAB=program), list(self.FOUND), program)

    def test_a_program_that_takes_less(self) -> None:
        with tempfile.TemporaryDirectory() as folder:
            other = Path(folder) / "pidtab"
            other.write_bytes(b"#!/bin/sh\ngrep . | sed 's/.*/bad line/'\n")
            other.chmod(0o755)
            found = self.find(PIDTAB=str(other))
        self.assertEqual(found[0], "x:1:1: expected a line that the program takes")
        self.assertEqual((len(found), found[1]), (5, self.FOUND[0]))


class Terminal(io.StringIO):
    """Standard error at a terminal."""

    def isatty(self) -> bool:
        return True


class HowFar(unittest.TestCase):
    """A long work says how far it has come, at a terminal and after a second."""

    def said(self, stream: io.StringIO) -> str:
        """What is said of looks at these times; that at 1.1 is too soon after that at 1.0."""
        with mock.patch("sys.stderr", stream), mock.patch("time.monotonic", side_effect=[0.0, 0.9, 1.0, 1.1, 1.3]):
            with Progress() as progress:
                for text in ("a", "b", "c", "d"):
                    progress.say(text)
        return stream.getvalue()

    def test_at_a_terminal(self) -> None:
        self.assertEqual(self.said(Terminal()), "\r\x1b[Kb\r\x1b[Kd\r\x1b[K")

    def test_elsewhere(self) -> None:
        self.assertEqual(self.said(io.StringIO()), "")

    def test_the_lines_are_said(self) -> None:
        with mock.patch("pidtab.commands.common.SILENT", 0.0), mock.patch("sys.stderr", Terminal()) as terminal, Progress() as progress:
            self.assertEqual(len(list(find_bad("x", [b"fork 1\n", b"frok 1\n"], progress))), 1)
        self.assertTrue(terminal.getvalue().startswith("\r\x1b[Kx: line "), terminal.getvalue())


if __name__ == "__main__":
    unittest.main()
