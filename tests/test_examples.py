"""The scripts of examples/: their lists, the walk-throughs of their page, and a session that goes on after a crash."""

import os
import re
import subprocess
import sys
import unittest
from pathlib import Path

from pidtab import Process, Table, find_library, find_program
from tests.pages import EXAMPLES, JOBS, REPOSITORY, named_examples, quoted, rows, script_lines
from tests.ways import need_library, need_program

# With this package, wherever a program is started.
PACKAGE = {**os.environ, "PYTHONPATH": str(REPOSITORY / "bindings" / "python")}


def page_section(title: str) -> str:
    """The part of the page of the examples below a title of the second level."""
    _, found, behind = (EXAMPLES / "README.md").read_text(encoding="utf-8").partition(f"\n## {title}\n")
    if not found:
        raise ValueError(f"no section {title}")
    return behind.split("\n## ")[0]


def write_list(script: Path) -> str:
    """What the program lists of the table that a script leaves."""
    return subprocess.run(
        [find_program(), "list"], input=script.read_bytes(), capture_output=True, check=True
    ).stdout.decode()


class Examples(unittest.TestCase):
    """What is stored beside the scripts, and what their page says of them."""

    def test_each_script_has_answers_and_a_list(self) -> None:
        names = named_examples()
        self.assertEqual({file.stem for file in EXAMPLES.glob("*.script")}, names | JOBS)
        for kind in ("answers", "list"):
            self.assertEqual({file.stem for file in EXAMPLES.glob(f"*.{kind}")}, names)

    def test_lists(self) -> None:
        need_program()
        for file in sorted(EXAMPLES.glob("*.list")):
            with self.subTest(file.name):
                self.assertEqual(write_list(file.with_suffix(".script")), file.read_text(encoding="utf-8"))

    def test_walk_throughs(self) -> None:
        for name, title in (("shell", "Job control as a shell does it"), ("recovery", "A crash, and the same lines again")):
            with self.subTest(name):
                self.compare(name, page_section(title))

    def compare(self, name: str, text: str) -> None:
        """The tables of a section have the script's lines with their answers."""
        told = [[quoted(cell)[0] for cell in row[:2]] for row in rows_of_all(text)]
        lines = script_lines(EXAMPLES / f"{name}.script")
        answers = script_lines(EXAMPLES / f"{name}.answers")
        self.assertEqual(told, [list(it) for it in zip(lines, answers, strict=True)])

    def test_the_list_of_the_page(self) -> None:
        shown = "".join("    " + line + "\n" for line in script_lines(EXAMPLES / "recovery.list"))
        self.assertTrue(page_section("A crash, and the same lines again").endswith(f"\n\n{shown}"))


def rows_of_all(text: str) -> list[list[str]]:
    """The rows of all tables of a text, without their heads."""
    tables = [part for part in text.split("\n\n") if part.startswith("|")]
    return [row for table in tables for row in rows(table)]


class Recovery(unittest.TestCase):
    """A table that is lost at any line is had again by the same lines."""

    @classmethod
    def setUpClass(cls) -> None:
        need_program()

    def test_a_crash_after_each_line(self) -> None:
        lines = script_lines(EXAMPLES / "recovery.script")
        answers = tuple(script_lines(EXAMPLES / "recovery.answers"))
        for place in range(len(lines) + 1):
            with self.subTest(place):
                self.assertEqual(self.answer_before_a_crash(lines[:place]), answers[:place])
                with Process() as process:
                    self.assertEqual(process.answers(lines[:place]), answers[:place])
                    self.assertEqual(process.answers(lines[place:]), answers[place:])
                    self.assertEqual(process.transcript.splitlines(), lines)

    def answer_before_a_crash(self, lines: list[str]) -> tuple[str, ...]:
        """What a session answers that is killed after these lines."""
        process = Process()
        answers = process.answers(lines)
        process._child.kill()
        self.assertLess(process.close(), 0)
        return answers


class RecoveryByText(unittest.TestCase):
    """A table that is lost is had again of the text that was written at the crash."""

    CRASH = 9

    @classmethod
    def setUpClass(cls) -> None:
        need_library()

    def test_the_text_at_the_crash(self) -> None:
        lines = script_lines(EXAMPLES / "recovery.script")
        text = (EXAMPLES / "recovery.text").read_text(encoding="ascii")
        with Table() as table:
            table.answers(lines[: self.CRASH])
            self.assertEqual(table.dump(), text)

    def test_the_lines_behind_it(self) -> None:
        lines = script_lines(EXAMPLES / "recovery.script")
        answers = tuple(script_lines(EXAMPLES / "recovery.answers"))
        with Table.from_dump((EXAMPLES / "recovery.text").read_bytes()) as table:
            self.assertEqual(table.answers(lines[self.CRASH :]), answers[self.CRASH :])
            self.assertEqual(table._list_text().splitlines(), script_lines(EXAMPLES / "recovery.list"))

    def test_a_text_after_each_line(self) -> None:
        lines = script_lines(EXAMPLES / "recovery.script")
        answers = tuple(script_lines(EXAMPLES / "recovery.answers"))
        for place in range(len(lines) + 1):
            with self.subTest(place), Table() as table:
                table.answers(lines[:place])
                with Table.from_dump(table.dump()) as again:
                    self.assertEqual(again.answers(lines[place:]), answers[place:])

    def test_the_page_shows_what_is_so(self) -> None:
        (code,) = re.findall(r"```python\n(.*?)```", page_section("A crash, and the same lines again"), flags=re.DOTALL)
        done = subprocess.run([sys.executable, "-c", code], cwd=EXAMPLES, env={**PACKAGE, "PIDTAB_LIBRARY": find_library()}, capture_output=True, text=True, check=True)
        self.assertEqual(done.stdout, "('reaped 3 exit 6', 'child 4 root 5', 'control 12')\n")


if __name__ == "__main__":
    unittest.main()
