"""`pidtabctl conform`: which calls agree, of classes and commands with faults planted, and of what is no table."""

import json
import os
import signal
import subprocess
import sys
import tempfile
import time
import unittest
from importlib.util import find_spec
from pathlib import Path

from tests.pages import REPOSITORY
from tests.ways import need_library

PACKAGE = REPOSITORY / "bindings" / "python"
LAUNCHER = PACKAGE / "bin" / "pidtabctl"

CLASSES = """
from pidtab import Table

class Right(Table):
    pass

class Wrong(Table):
    def getppid(self, caller):
        return super().getppid(caller) + (caller > 1)

    def setsid(self, caller):
        raise ValueError("boom")

class Small:
    def __init__(self):
        self.table = Table()

    def fork(self, caller):
        return self.table.fork(caller).child

    def getpid(self, caller):
        return self.table.getpid(caller)

class Empty:
    pass

def fault():
    raise RuntimeError("no table today")
"""

# A command that is whole except for some calls: no next, an end at a move, and no answer to the calls that are named.
COMMAND = """
import sys, time
from pidtab import Table
table = Table()
for line in sys.stdin:
    word = line.split()[0]
    if word in sys.argv[1:]:
        time.sleep(1000)
    if word == "move":
        sys.exit("cannot move")
    print("n/a" if word == "next" else table.answers([line.rstrip()])[0], flush=True)
"""
CALLS = 19


class Conform(unittest.TestCase):
    """In a folder with classes and a command."""

    def setUp(self) -> None:
        need_library()
        if find_spec("hypothesis") is None:
            self.skipTest("no Hypothesis")
        folder = tempfile.TemporaryDirectory()
        self.addCleanup(folder.cleanup)
        self.folder = Path(folder.name)
        (self.folder / "mine.py").write_text(CLASSES, encoding="ascii")
        (self.folder / "command.py").write_text(COMMAND, encoding="ascii")

    def words(self, *words: str) -> list[str]:
        """The command with these words."""
        return [sys.executable, str(LAUNCHER), "conform", *words]

    def launch(self, *words: str, cases: int = 40) -> "subprocess.CompletedProcess[str]":
        """Runs it."""
        variables = {**os.environ, "PYTHONPATH": str(PACKAGE)}
        words = ("--cases", str(cases), *words)
        command = self.words(*words)
        return subprocess.run(command, cwd=self.folder, capture_output=True, text=True, env=variables, timeout=600)

    def says(self, said: str, *words: str) -> None:
        """It does nothing, and says so in one line."""
        done = self.launch(*words)
        self.assertEqual((done.stdout, done.returncode), ("", 2), words)
        self.assertEqual(done.stderr.splitlines()[-1], f"pidtabctl conform: {said}")
        self.assertNotIn("Traceback", done.stderr)

    def test_all_agree(self) -> None:
        done = self.launch("mine:Right")
        self.assertRegex(done.stdout, f"^{CALLS} of {CALLS} calls agree: 40 cases, [0-9]+ calls\n$")
        self.assertEqual((done.stderr, done.returncode), ("", 0))

    def test_two_do_not(self) -> None:
        done = self.launch("--json", "mine:Wrong")
        told = json.loads(done.stdout)
        self.assertEqual((sorted(told["differ"]), done.returncode), (["getppid", "setsid"], 1))
        self.assertEqual((len(told["agree"]), told["not_compared"]), (CALLS - 2, []))
        scripts = {it["call"]: it["script"] for it in told["differences"]}
        self.assertEqual(scripts, {"getppid": ["fork 1", "getppid 2"], "setsid": ["setsid 1"]})
        first = next(it for it in told["differences"] if it["call"] == "getppid")
        self.assertEqual((first["line"], first["yours"], first["pidtab"]), ("getppid 2", "2", "1"))

    def test_the_text(self) -> None:
        lines = self.launch("mine:Wrong").stdout.splitlines()
        self.assertEqual(lines[:2], ["17 of 19 calls agree; here are 2 scripts", ""])
        for line in ("getppid: getppid 2", "  yours  2", "  pidtab 1", "    fork 1", "    getppid 2"):
            self.assertIn(line, lines)

    def test_a_class_with_some_calls(self) -> None:
        told = json.loads(self.launch("--json", "mine:Small").stdout)
        self.assertEqual((told["agree"], told["differ"]), (["fork", "getpid"], []))
        self.assertIn("fork new", told["not_compared"])

    def test_what_is_no_table(self) -> None:
        self.says("error: no COMMAND and no MODULE:CLASS")
        self.says("nosuch cannot be imported: No module named 'nosuch'", "nosuch:Class")
        self.says("mine has no class Nothing", "mine:Nothing")
        self.says("mine:fault makes no table: RuntimeError: no table today", "mine:fault")
        self.says("nothing to compare: your table has no method of pidtab.Calls, or all were left out", "mine:Empty")
        self.says("cannot start /nosuch: No such file or directory", "/nosuch")
        self.says("sh has no answer to `getpid 1`: ended with status 3: gone", "sh", "-c", "echo gone >&2; exit 3")
        self.says("sleep has no answer to `getpid 1`: no answer in 10 s", "sleep", "1000")
        left_out = "while True: input(); print('n/a', flush=True)"
        self.says("nothing was compared: yours has left each call out", sys.executable, "-c", left_out)

    def test_a_command_that_breaks_and_is_silent(self) -> None:
        calls = "getpid,mk,move,next"
        told = json.loads(self.launch("--json", "--calls", calls, sys.executable, "command.py", "mk", cases=5).stdout)
        self.assertEqual(sorted(told["differ"]), ["mk", "move"])
        by_call = {it["call"]: it for it in told["differences"]}
        self.assertEqual((by_call["mk"]["yours"], by_call["mk"]["script"][-1][:3]), ("no answer in 10 s", "mk "))
        move = by_call["move"]
        self.assertEqual((move["yours"], len(move["script"])), ("ended with status 1: cannot move", 1))
        self.assertEqual(set(told["not_compared"]) & {"next task", "next group"}, {"next task", "next group"})

    def test_an_interrupt(self) -> None:
        pipes = {"stdout": subprocess.PIPE, "stderr": subprocess.PIPE}
        running = subprocess.Popen(self.words("sleep", "1000"), cwd=self.folder, text=True, **pipes)
        time.sleep(3)
        running.send_signal(signal.SIGINT)
        began = time.monotonic()
        stdout, stderr = running.communicate(timeout=60)
        self.assertEqual((stdout, running.returncode), ("", 130))
        self.assertEqual(stderr, "pidtabctl conform: interrupted: nothing is said of what was compared\n")
        self.assertLess(time.monotonic() - began, 8)


if __name__ == "__main__":
    unittest.main()
