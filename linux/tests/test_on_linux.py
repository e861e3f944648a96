"""The command that answers a script by real processes. Skipped where the machine makes none."""

import importlib.util
import subprocess
import sys
import unittest
from pathlib import Path

from harness.machine import Unable, look
from pidtab.faults import ProgramMissing
from pidtab.program import find_program

COMPARE = Path(__file__).resolve().parent.parent.parent / "bindings/python/bin/pidtab-compare"
COMMAND = [sys.executable, str(Path(__file__).resolve().parent.parent / "on_linux")]
LINES = {"fork 1 new": "child 2 root 2", "fork 2": "child 2 root 3", "nspid 1 3": "3 2", "hello": "bad line", "getpid 9": "ESRCH no-caller"}


class OnLinux(unittest.TestCase):
    def setUp(self) -> None:
        try:
            look()
        except Unable as reason:
            raise unittest.SkipTest(str(reason)) from reason

    def test_a_script(self) -> None:
        done = subprocess.run(COMMAND, input="\n".join(LINES), capture_output=True, text=True, check=True)
        self.assertEqual(done.stdout.splitlines(), list(LINES.values()))

    def test_each_line_is_answered_before_the_next(self) -> None:
        pipe, nowhere = subprocess.PIPE, subprocess.DEVNULL
        with subprocess.Popen([*COMMAND, "--each"], stdin=pipe, stdout=pipe, stderr=nowhere, text=True, bufsize=1) as world:
            assert world.stdin and world.stdout
            for line, answer in LINES.items():
                world.stdin.write(f"{line}\n")
                self.assertEqual(world.stdout.readline(), f"{answer}\n", line)
            world.stdin.close()
            self.assertEqual((world.stdout.read(), world.wait(10)), ("", 0))

    def test_by_the_test_kit(self) -> None:
        if importlib.util.find_spec("hypothesis") is None:
            self.skipTest("no Hypothesis")
        try:
            find_program()
        except ProgramMissing as reason:
            self.skipTest(str(reason))
        words = ["--cases", "10", "--calls", "fork,getppid,exit,wait any"]
        done = subprocess.run([sys.executable, COMPARE, *words, *COMMAND, "--each"], capture_output=True, text=True, check=False)
        self.assertRegex(done.stdout, r"\A[0-9]+ cases, [0-9]+ calls: no difference\n\Z")


if __name__ == "__main__":
    unittest.main()
