"""Logs that are played again under other bounds. All figures are reckoned by hand, as the comments say."""

import json
import subprocess
import sys
import tempfile
import unittest
from pathlib import Path

from pidtab import BadHistory, Table
from pidtab.commands.whatif import Bound, Log, Logged, World, play
from tests.pages import REPOSITORY, StoredScript, stored_scripts
from tests.ways import for_threads, need_library

LAUNCHER = REPOSITORY / "bindings" / "python" / "bin" / "pidtabctl"

# Task 1 is there. Tasks 2, 3 and 4 come: these are 4. Task 3 goes, and 5 comes: 4 again. Task 4 goes: 3.
FAMILY = ("fork 1", "fork 2", "fork 2", "exit 3 0", "wait 2 any", "fork 2", "exit 4 0", "wait 2 pid 4")

# Of 2 tasks, the fork in line 2 is one too many. When task 2 has gone, line 5 forks 4, which has the number 3 there; it has to go in lines 6 and 7, so that
# line 8 has room.
RENUMBERED = ("fork 1", "fork 1", "exit 2 0", "wait 1 any", "fork 1", "exit 4 0", "wait 1 pid 4", "fork 1")

# The same of 3 tasks in a namespace, where task 2 is the init. Line 3 is one too many, so 5 of line 6 is 4, and its number inside is 3 and not 4.
INSIDE = ("fork 1 new", "fork 2", "fork 2", "exit 3 0", "wait 2 pid 2", "fork 2", "exit 5 0", "wait 2 pid 4", "fork 2")

# Tasks 2 to 4 in a group of at most 5, of which one is moved into a group below it, and its child counts in both.
GROUPS = ("mk 0", "limit 1 5", "fork 1", "move 2 1", "mk 1", "fork 2", "move 3 5", "fork 3", "count 5", "limit 1 0", "fork 2")


def whatif(*words: str | Path, script: str = "") -> "subprocess.CompletedProcess[str]":
    """Runs `pidtabctl whatif`."""
    return subprocess.run([sys.executable, "-B", str(LAUNCHER), "whatif", *map(str, words)], input=script, capture_output=True, text=True, check=False)


def lines(*calls: str) -> str:
    """A script of these calls."""
    return "".join(f"{call}\n" for call in calls)


class Bounds(unittest.TestCase):
    """What comes of a log under a bound."""

    def setUp(self) -> None:
        need_library()

    def rows(self, script: str, *words: str) -> list[tuple[int, int, int, int | None]]:
        """The peak, how many were refused and not made, and the line of the first refusal: as it was, and under each bound."""
        done = whatif("--json", *words, script=script)
        self.assertEqual((done.returncode, done.stderr), (0, ""))
        found = json.loads(done.stdout)
        rows = [found["was"], *found["bounds"]]
        return [(row["peak"], row["refused"], row["not_made"], row["first"] and row["first"]["line"]) for row in rows]

    def test_a_family(self) -> None:
        # Of 3: line 3 is refused, lines 7 and 8 are of task 4. Of 2: lines 2, 3 and 6 are refused, lines 4, 7 and 8 are of tasks 3 and 4.
        # Of 1: nothing except line 1 is made.
        expected = [(4, 0, 0, None), (4, 0, 0, None), (3, 1, 2, 3), (2, 3, 3, 2), (1, 1, 7, 1)]
        self.assertEqual(self.rows(lines(*FAMILY), "--pids-max", "4,3,2,1"), expected)

    def test_the_text(self) -> None:
        done = whatif("--pids-max", "3", script=lines(*FAMILY))
        was, bound = "as it was: peak 4, 0 refused", "pids.max 3: peak 3, 1 refused, 2 not made, the first at line 3: fork 2: pids-limit"
        self.assertEqual(done.stdout.splitlines(), ["8 calls, control group 0", was, bound])

    def test_numbers_are_those_of_the_same_tasks(self) -> None:
        # As it was: 3 tasks after line 2, and never more.
        self.assertEqual(self.rows(lines(*RENUMBERED), "--pids-max", "2"), [(3, 0, 0, None), (2, 1, 0, 2)])
        self.assertEqual(self.rows(lines(*INSIDE), "--pids-max", "3"), [(4, 0, 0, None), (3, 1, 0, 3)])

    def test_lines_that_are_no_calls(self) -> None:
        # They are counted as lines, and nothing else.
        script = "fork 1\n\nfrok 1\nfork x\n\x00\r\nlimit 1 max 2\nfork 1\n"
        self.assertEqual(self.rows(script, "--pids-max", "2"), [(3, 0, 0, None), (2, 1, 0, 7)])

    def test_a_control_group(self) -> None:
        # As it was: tasks 2, 3 and 4 are 3 in the group 1; the last fork is refused by its limit of 0, in line 11.
        # Of 2, line 8 is refused, and so is line 11: the group's own limits are left out. Of 4 nothing is.
        expected = [(3, 1, 0, 11), (2, 2, 0, 8), (4, 0, 0, None)]
        self.assertEqual(self.rows(lines(*GROUPS), "--control", "1", "--pids-max", "2,4"), expected)
        # The group 5 is below it, and made after the limit that is set for it; the group 1 has its limit of 0 in line 11.
        self.assertEqual(self.rows(lines(*GROUPS), "--control", "5", "--pids-max", "1"), [(2, 1, 0, 11), (1, 2, 0, 8)])

    def test_a_fork_that_the_log_refuses(self) -> None:
        # Under 2, line 4 forks task 2. In the log nobody has that number, so line 5 does not end it, and line 7 has no room.
        script = lines("mk 0", "limit 1 1", "move 1 1", "fork 1", "exit 2 0", "wait 1 any", "fork 1")
        self.assertEqual(self.rows(script, "--control", "1", "--pids-max", "2"), [(1, 2, 0, 4), (2, 1, 0, 7)])

    def test_the_root(self) -> None:
        # What the root refuses it refuses here too, so the last fork is refused by the bound of 2.
        self.assertEqual(self.rows(lines("limit 0 9", "rm 0", "fork 1", "fork 1"), "--pids-max", "2"), [(3, 0, 0, None), (2, 1, 0, 4)])
        # As it was: at most 5 tasks. All are in the group that stands for the root, also those below it; its limit of 0 is left alone.
        self.assertEqual(self.rows(lines(*GROUPS), "--pids-max", "3")[1], (3, 2, 0, 8))

    def test_the_greatest_number(self) -> None:
        # Of 301, 299 numbers are free.
        script = lines(*["fork 1"] * 301)
        self.assertEqual(self.rows(script, "--pid-max", "301,302"), [(302, 0, 0, None), (300, 2, 0, 300), (301, 1, 0, 301)])
        self.assertEqual(self.rows(script, "--logged-pid-max", "301"), [(300, 2, 0, 300)])
        both = whatif("--pid-max", "301", "--pids-max", "5", script=script).stdout.splitlines()[-1]
        self.assertEqual(both, "pids.max 5, pid_max 301: peak 5, 297 refused, the first at line 5: fork 1: pids-limit")

    def test_a_number_that_is_given_again(self) -> None:
        # Under 301, after 299 forks and the end of task 300, the next is 300 again, as numbers below are not given a second time. In the log it is 301.
        script = lines(*["fork 1"] * 299, "exit 300 0", "wait 1 pid 300", "fork 1", "exit 301 0", "wait 1 pid 301", "fork 1")
        self.assertEqual(self.rows(script, "--pid-max", "301"), [(300, 0, 0, None), (300, 0, 0, None)])


class StoredScripts(unittest.TestCase):
    """Bounds that are known beforehand, of all stored scripts."""

    def setUp(self) -> None:
        need_library()

    def worlds(self, script: StoredScript, *bounds: Bound) -> list[World]:
        """What comes of a script."""
        calls = (Logged(place, line.decode("utf-8", "surrogateescape"), None) for place, line in enumerate(script.lines, start=1) if line)
        return play(Log("line", Table(script.pid_max), calls), bounds, 0)[1]

    def test_a_bound_that_is_not_met(self) -> None:
        for script in stored_scripts():
            was, other = (world.to_object("line") for world in self.worlds(script, Bound(4194304, None)))
            self.assertEqual({**was, "pids_max": 4194304}, other, script.name)

    def test_one_task_less_than_the_peak(self) -> None:
        tried = 0
        for script in stored_scripts():
            # One before the first line.
            counts = [1]
            with Table(script.pid_max) as table:
                for line in script.lines:
                    table.answers([line.decode("utf-8", "surrogateescape")] if line else [])
                    counts.append(table.ask.count(0))
            was, other = self.worlds(script, Bound(max(counts) - 1, None))
            self.assertEqual(was.peak, max(counts), script.name)
            if max(counts) > 1 and not was.refused:
                # The first line that makes the tasks as many as they ever are is the first that has no room.
                assert other.first
                self.assertEqual(other.first[0].place, counts.index(max(counts)), script.name)
                tried += 1
        self.assertGreater(tried, 10)


class Words(unittest.TestCase):
    """What is wrong is said."""

    def test_wrong_words(self) -> None:
        wrong = {
            ("--pids-max", "4194305"): "numbers from 0 to 4194304 with commas between, not 4194305",
            ("--pids-max", "3,,4"): "numbers from 0 to 4194304 with commas between, not 3,,4",
            ("--pid-max", "400,300"): "a number from 301 to 4194304, not 300",
            ("--control", "-1"): "the id of a control group, not -1",
        }
        for words, why in wrong.items():
            done = whatif(*words)
            self.assertEqual((done.returncode, done.stdout), (2, ""))
            self.assertIn(why, done.stderr)

    def test_no_such_control_group(self) -> None:
        need_library()
        done = whatif("--control", "7", script="mk 0\n")
        self.assertEqual((done.returncode, done.stdout, done.stderr), (1, "", "pidtabctl whatif: -: no call makes the control group 7\n"))

    def test_no_such_file(self) -> None:
        done = whatif("/no/such/log")
        self.assertEqual((done.returncode, done.stderr), (2, "pidtabctl whatif: cannot read /no/such/log: No such file or directory\n"))


class Histories(unittest.TestCase):
    """The log is a saved history."""

    def setUp(self) -> None:
        need_library()
        folder = tempfile.TemporaryDirectory()
        self.addCleanup(folder.cleanup)
        self.path = Path(folder.name, "history")

    def test_a_saved_history(self) -> None:
        with for_threads(1, pid_max=301) as table:
            table.seat().answers(FAMILY)
            table.save(self.path)
        done = whatif("--json", "--pids-max", "3", self.path)
        # The third call has the ordinal 2.
        (bound,) = json.loads(done.stdout)["bounds"]
        self.assertEqual((bound["peak"], bound["refused"], bound["not_made"]), (3, 1, 2))
        self.assertEqual(bound["first"], {"ordinal": 2, "call": "fork 2", "word": "pids-limit"})
        self.path.write_bytes(self.path.read_bytes()[:60] + b"\xff" + self.path.read_bytes()[61:])
        done = whatif(self.path)
        self.assertEqual((done.returncode, done.stdout), (1, ""))
        self.assertIn(f"pidtabctl whatif: {self.path}: call 0: ", done.stderr)

    def test_answers_that_differ(self) -> None:
        log = Log("ordinal", Table(), iter([Logged(0, "fork 1", "child 2 root 2"), Logged(1, "getpid 1", "7")]))
        with self.assertRaisesRegex(BadHistory, "call 1: `getpid 1` was answered `7`, and is answered `1` now"):
            play(log, [Bound(2, None)], 0)


if __name__ == "__main__":
    unittest.main()
