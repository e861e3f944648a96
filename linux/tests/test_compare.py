"""The command `compare`, with stand-ins for the program whose answers are written down here."""

import os
import subprocess
import sys
import tempfile
import unittest
from pathlib import Path

from harness.machine import Unable, look

LINUX = Path(__file__).resolve().parent.parent

# A program that answers from two lists, whatever it is asked.
STAND_IN = """#!{python}
import sys
if sys.argv[1] == "list":
    sys.stdin.read()
    print({listed!r}, end="")
    sys.exit(0)
for answer in {answers!r}:
    if not sys.stdin.readline():
        break
    print(answer, flush=True)
sys.stdin.read()
"""
# The answers and the list of the first example of docs/SCRIPT.md.
SCRIPT = "fork 1 new\nfork 2\nnspid 1 3\ngetppid 2\n"
ANSWERS = ["child 2 root 2", "child 2 root 3", "3 2", "0"]
LIST = """task 1 space 0 parent 0 group 1 session 1 control 0 live
task 2,1 space 1 parent 1 group 1 session 1 control 0 live
task 3,2 space 1 parent 2 group 1 session 1 control 0 live
space 0 parent - cursor 4
space 1 parent 0 cursor 3
control 0 parent - limit max count 3
"""


class Compare(unittest.TestCase):
    def setUp(self) -> None:
        try:
            look()
        except Unable as reason:
            raise unittest.SkipTest(str(reason)) from reason
        folder = tempfile.TemporaryDirectory()
        self.addCleanup(folder.cleanup)
        self.folder = Path(folder.name)

    def compare(self, script: str, answers: list[str], listed: str, *words: str) -> tuple[int, str]:
        """The exit status and the output of a comparison with a program that answers so."""
        program, path = self.folder / "program", self.folder / "a.script"
        program.write_text(STAND_IN.format(python=sys.executable, listed=listed, answers=answers))
        program.chmod(0o755)
        path.write_text(script)
        command = [str(LINUX / "compare"), "--pidtab", str(program), str(path), *words]
        done = subprocess.run([sys.executable, *command], stdout=subprocess.PIPE, stderr=subprocess.PIPE, text=True, check=False)
        return done.returncode, done.stdout + done.stderr

    def test_the_same(self) -> None:
        status, text = self.compare(SCRIPT, ANSWERS, LIST)
        self.assertEqual((status, "line" in text), (0, False), text)

    def test_another_answer_is_new(self) -> None:
        status, text = self.compare(SCRIPT, [*ANSWERS[:3], "1"], LIST)
        self.assertEqual(status, 1, text)
        self.assertIn("line 4: getppid 2\n  kernel 0\n  table  1\n  NEW", text)

    def test_another_list_is_new(self) -> None:
        changes = [("parent 2", "parent 1"), ("group 1 session 1", "group 1 session 2"), ("live\nspace", "exit 0\nspace")]
        if Path("/proc/sys/kernel/ns_last_pid").exists():
            changes.append(("cursor 3", "cursor 2"))
        for old, new in changes:
            status, text = self.compare(SCRIPT, ANSWERS, LIST.replace(old, new))
            self.assertEqual((status, "NEW" in text), (1, True), text)

    def test_a_missing_refusal_is_new(self) -> None:
        status, _ = self.compare("wait 1 any\n", ["none"], LIST)
        self.assertEqual(status, 1)

    def test_a_listed_difference_is_named(self) -> None:
        status, text = self.compare("exit 1 0\nwait 1 pid 0\n", ["EBUSY root-init", "ECHILD no-child"], LIST.splitlines()[0] + "\n"
                                    "space 0 parent - cursor 2\ncontrol 0 parent - limit max count 1\n")
        self.assertEqual(status, 0, text)
        self.assertIn("root-exit", text)
        self.assertIn("wait-pid-0", text)

    def test_of_a_listed_one_the_rest_is_compared(self) -> None:
        # An orphan with a number less than that of the kernel's first ended child.
        script = "fork 1\nfork 2\nfork 1\nexit 2 2\nwait 1 any\nexit 3 3\nexit 4 4\nwait 1 any\n"
        answers = ["child 2 root 2", "child 3 root 3", "child 4 root 4", "ok", "reaped 2 exit 2", "ok", "ok"]
        for answer, wanted in (("reaped 3 exit 3", 0), ("reaped 3 exit 4", 1), ("reaped 3 killed", 1), ("reaped 4 exit 3", 1), ("reaped 1 exit 4", 1)):
            status, text = self.compare(script, [*answers, answer], LIST)
            self.assertEqual((status, "NEW" in text, "wait-order" in text), (wanted, wanted == 1, wanted == 0), text)

    def test_no_program(self) -> None:
        command = [sys.executable, str(LINUX / "compare"), "--pidtab", "/nowhere/pidtab", os.devnull]
        done = subprocess.run(command, stdout=subprocess.PIPE, stderr=subprocess.PIPE, text=True, check=False)
        self.assertEqual(done.returncode, 2)
        self.assertIn("make build", done.stderr)

    def test_bad_words(self) -> None:
        for words in ([], ["--seeds", "3..1"], ["--seeds", "x"], ["--pid-max", "300", os.devnull]):
            done = subprocess.run([sys.executable, str(LINUX / "compare"), *words], stderr=subprocess.DEVNULL, check=False)
            self.assertEqual(done.returncode, 2, words)
