"""The kernel of gVisor as another table: its answers to lines, where `make gvisor` has built it."""

import subprocess
import unittest
from pathlib import Path

PROGRAM = Path(__file__).resolve().parents[1] / "build" / "gvisor"

# What fork(2), _exit(2), waitpid(2), getppid(2), setpgid(2) and pid_namespaces(7) say.
LINES = """\
getpid 1 => 1
fork 1 => child 2 root 2
fork 2 => child 3 root 3
getppid 3 => 2
wait 2 any => none
exit 2 5 => ok
getppid 3 => 1
getpid 2 => ESRCH no-caller
wait 1 pid 3 => none
wait 1 any => reaped 2 exit 5
wait 1 pid 2 => ECHILD
fork 1 new => child 4 root 4
fork 4 => child 2 root 5
getpid 5 => 2
getppid 5 => 1
getppid 4 => 0
setpgid 4 2 2 => ok
getpgid 5 0 => 2
wait 4 group 2 => none
exec 5 => ok
exit 4 0 => ok
getpid 5 => ESRCH no-caller
"""

# There is no such system call, it does not take the number, or the kernel would end.
NOT_ASKED = ["join 1 2", "mk 0", "next 1 task 0", "nspid 1 1", "exit 1 0", "getpid 4294967296", "wait 1 pid 4294967295", "frok 1", "getpid", ""]


class Kernel(unittest.TestCase):
    def setUp(self) -> None:
        if not PROGRAM.exists():
            raise unittest.SkipTest("no program linux/build/gvisor: make -C linux gvisor builds it")

    def answers(self, lines: list[str]) -> list[str]:
        """What a new kernel answers."""
        done = subprocess.run([PROGRAM], input="".join(f"{line}\n" for line in lines), capture_output=True, text=True, check=True, timeout=60)
        self.assertEqual(done.stderr, "")
        return done.stdout.splitlines()

    def test_answers(self) -> None:
        lines, wanted = zip(*(line.split(" => ") for line in LINES.splitlines()))
        self.assertEqual(self.answers([*lines]), [*wanted])

    def test_what_is_not_asked(self) -> None:
        # An empty line has no answer.
        self.assertEqual(self.answers(NOT_ASKED), ["n/a"] * (len(NOT_ASKED) - 1))

    def test_one_that_never_comes_to_rest(self) -> None:
        # A child of a session leader, with a child of its own, calls setsid(2).
        lines = ["fork 1", "setsid 2", "fork 2", "fork 3", "setsid 3"]
        done = subprocess.run([PROGRAM], input="".join(f"{line}\n" for line in lines), capture_output=True, text=True, check=False, timeout=60)
        self.assertEqual((done.returncode, done.stdout.splitlines()[-1], done.stderr), (1, "child 4 root 4", "gvisor: the kernel did not come to rest in 2s\n"))


if __name__ == "__main__":
    unittest.main()
