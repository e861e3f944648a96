"""Worlds of real processes. Skipped, with the reason, where the machine makes none."""

import os
import signal
import subprocess
import sys
import time
import unittest
from pathlib import Path

from harness.kernel_list import kernel_list
from harness.machine import Machine, Unable, look
from harness.script import parse_line
from harness.world import World, poll

LINUX = Path(__file__).resolve().parent.parent

# A harness of its own, to be killed: it makes a world with a process whose group would keep a fall from ending, and waits.
VICTIM = """
import sys, time
from harness.machine import look
from harness.script import parse_line
from harness.world import World
world = World(look().settings(32768, b"", "endless"))
for line in sys.argv[1:]:
    assert "E" not in world.answer(parse_line(line.encode()))
print(world.outer_init, world.keeper.pid, world.groups.root if world.groups else "-", flush=True)
time.sleep(60)
"""
ENDLESS = ["fork 1 new", "fork 2", "setpgid 3 0 0", "setpgid 2 0 2"]
WITH_GROUPS = ["mk 0", "mk 5", "move 3 6"]


def machine() -> Machine:
    """The machine, if it makes worlds."""
    try:
        return look()
    except Unable as reason:
        raise unittest.SkipTest(str(reason)) from reason


def answers(world: World, *lines: str) -> list[str]:
    """The world's answers to lines."""
    calls = [parse_line(line.encode()) for line in lines]
    return [world.answer(call) for call in calls if call is not None]


def is_gone(number: int) -> bool:
    """Whether a process has ended; one that nobody waits for any more may stand as a zombie."""
    try:
        return Path(f"/proc/{number}/stat").read_text().rsplit(") ", 1)[1][0] in "ZX"
    except (FileNotFoundError, ProcessLookupError):
        return True


class Answers(unittest.TestCase):
    def setUp(self) -> None:
        self.machine = machine()

    def test_the_example_of_the_language(self) -> None:
        with World(self.machine.settings(32768, b"")) as world:
            got = answers(world, "fork 1 new", "fork 2", "nspid 1 3", "getppid 2")
        self.assertEqual(got, ["child 2 root 2", "child 2 root 3", "3 2", "0"])

    def test_the_list_of_the_language(self) -> None:
        with World(self.machine.settings(32768, b"")) as world:
            answers(world, "fork 1 new", "fork 2")
            lines = [line for line in kernel_list(world) if line.startswith("task")]
        self.assertEqual([line.split(" control ")[0] for line in lines], [
            "task 1 space 0 parent 0 group 1 session 1",
            "task 2,1 space 1 parent 1 group 1 session 1",
            "task 3,2 space 1 parent 2 group 1 session 1",
        ])

    def test_an_init_that_leads_nothing(self) -> None:
        # What is outside of a namespace is 0 there, as pid_namespaces(7) says of a parent; setsid(2) is for who leads no group.
        lines = ["getsid 1 0", "getpgid 1 0", "fork 1", "getsid 1 2", "next 1 session 1", "setsid 1", "getsid 1 0", "getsid 1 2"]
        with World(self.machine.settings(32768, b"", "no-session")) as world:
            self.assertEqual(answers(world, *lines), ["0", "0", "child 2 root 2", "0", "end", "1", "1", "0"])
        with World(self.machine.settings(32768, b"")) as world:
            self.assertEqual(answers(world, *lines), ["1", "1", "child 2 root 2", "1", "1", "EPERM", "1", "1"])

    def test_an_ended_caller(self) -> None:
        with World(self.machine.settings(32768, b"")) as world:
            got = answers(world, "getpid 2", "fork 1", "exit 2 3", "getpid 2", "wait 1 any", "wait 1 any")
        self.assertEqual(got, ["ESRCH no-caller", "child 2 root 2", "ok", "ESRCH no-caller", "reaped 2 exit 3", "ECHILD"])

    def test_a_fall_kills(self) -> None:
        with World(self.machine.settings(32768, b"")) as world:
            got = answers(world, "fork 1 new", "fork 2", "exit 2 7", "next 1 task 3", "wait 1 any")
        self.assertEqual(got[3:], ["end", "reaped 2 exit 7"])

    def test_an_endless_fall_is_not_begun(self) -> None:
        with World(self.machine.settings(32768, b"")) as world:
            got = answers(world, *ENDLESS, "exit 2 5", "getpid 2")
        self.assertEqual(got[4:], ["n/a endless-fall", "1"])

    def test_a_waiting_init_is_not_put_into_an_inner_group(self) -> None:
        waiting = ["fork 1 new", "fork 2", "setpgid 3 0 0", "fork 1", "setpgid 4 0 3", "exit 2 5", "wait 1 any"]
        with World(self.machine.settings(32768, b"")) as world:
            got = answers(world, *waiting, "setpgid 1 2 3", "setpgid 1 2 0", "setpgid 4 0 0", "wait 1 any")
        self.assertEqual(got[6:], ["none", "n/a waiting-init", "ok", "ok", "reaped 2 exit 5"])

    def test_a_bound_of_tasks(self) -> None:
        settings = self.machine.settings(32768, b"")
        settings.most_tasks = 3
        with World(settings) as world:
            got = answers(world, "fork 1", "fork 1", "fork 1")
        self.assertEqual(got, ["child 2 root 2", "child 3 root 3", "n/a too-many-tasks"])


class Ends(unittest.TestCase):
    """Nothing is left, however the harness ends."""

    def setUp(self) -> None:
        self.machine = machine()
        lines = ENDLESS + (WITH_GROUPS if self.machine.place else [])
        self.start(lines)

    def start(self, lines: list[str]) -> None:
        """Starts the harness that will be killed."""
        words = [sys.executable, "-c", VICTIM, *lines]
        self.victim = subprocess.Popen(words, cwd=LINUX, stdout=subprocess.PIPE, text=True)
        assert self.victim.stdout
        init, keeper, folder = self.victim.stdout.readline().split()
        self.init, self.keeper, self.folder = int(init), int(keeper), Path(folder)
        self.space = os.readlink(f"/proc/{self.init}/ns/pid")

    def members(self) -> list[int]:
        """The processes of the world's own namespace that have not ended."""
        found = []
        for path in Path("/proc").glob("[0-9]*"):
            try:
                is_member = os.readlink(path / "ns" / "pid") == self.space and not is_gone(int(path.name))
                found += [int(path.name)] if is_member else []
            except OSError:
                continue
        return found

    def check_nothing_is_left(self, keeper_removes: bool = True) -> None:
        """All processes have gone, and the control group."""
        assert self.victim.stdout
        self.victim.wait()
        self.victim.stdout.close()
        self.assertTrue(poll(lambda: is_gone(self.init), 10), "the world's init is left")
        self.assertEqual(self.members(), [])
        if keeper_removes and str(self.folder) != "-":
            self.assertTrue(poll(lambda: not self.folder.exists(), 10), "a control group is left")

    def test_the_world_stands_before(self) -> None:
        self.assertIn(self.init, self.members())
        self.victim.kill()
        self.check_nothing_is_left()

    def test_a_harness_that_is_killed(self) -> None:
        self.victim.kill()
        self.check_nothing_is_left()

    def test_a_harness_that_is_killed_in_an_endless_fall(self) -> None:
        self.victim.kill()
        self.check_nothing_is_left()
        self.start([*ENDLESS, "exit 2 5", "wait 1 any"])
        self.victim.kill()
        self.check_nothing_is_left()

    def test_a_keeper_that_is_killed(self) -> None:
        self.addCleanup(self.remove_groups)
        os.kill(self.keeper, signal.SIGKILL)
        self.assertTrue(poll(lambda: is_gone(self.init), 10), "the world's init is left")
        self.victim.kill()
        self.check_nothing_is_left(keeper_removes=False)

    def remove_groups(self) -> None:
        """What the killed keeper could not remove: empty groups."""
        time.sleep(0.05)
        for path in ("g5/g6", "g5", "."):
            if self.folder.is_absolute() and (self.folder / path).exists():
                (self.folder / path).resolve().rmdir()
