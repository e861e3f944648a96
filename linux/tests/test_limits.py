"""Forks that the kernel refuses for a user, and the table never: fork(2), clone(2). Skipped where they cannot be tried."""

import subprocess
import sys
import unittest
from pathlib import Path

from harness.groups import Place
from harness.machine import Unable, look
from harness.script import parse_line
from harness.world import Refused, Settings, World, WorldFault

# A user of the machine's first user namespace with no right to pass its limits; its own process is the one that it may have.
FORKS = """
import errno, os, resource
if os.geteuid() == 0:
    os.setgroups([])
    os.setgid(65534)
    os.setuid(65534)
most = resource.getrlimit(resource.RLIMIT_NPROC)[1]
resource.setrlimit(resource.RLIMIT_NPROC, ({limit}, most))
try:
    child = os.fork()
except OSError as fault:
    print(errno.errorcode[fault.errno])
else:
    if child == 0:
        os._exit(0)
    os.waitpid(child, 0)
    print("child")
"""
NO_USER_NAMESPACES = "no user namespace of its own can be made here"


def fork_under(limit: str) -> str:
    """What a user's fork comes to under a limit of processes."""
    done = subprocess.run([sys.executable, "-S", "-c", FORKS.format(limit=limit)], capture_output=True, text=True, check=True)
    return done.stdout.strip()


class Limits(unittest.TestCase):
    @unittest.skipUnless(sys.platform == "linux", "needs Linux")
    def test_processes_of_a_user(self) -> None:
        self.assertEqual([fork_under("1"), fork_under("most")], ["EAGAIN", "child"])

    def test_namespaces_of_a_user(self) -> None:
        try:
            look()
            world = World(Settings(own_user=True))
        except (Unable, WorldFault) as reason:
            raise unittest.SkipTest(f"{NO_USER_NAMESPACES}: {reason}") from reason
        with world:
            self.assertEqual(world.answer(parse_line(b"fork 1 new")), "child 2 root 2")
            # The file is the user namespace's own: that of the machine stays as it is.
            machines = Path("/proc/sys/user/max_pid_namespaces").read_text()
            world.command(1, "put 1 /proc/sys/user/max_pid_namespaces")
            self.assertEqual(Path("/proc/sys/user/max_pid_namespaces").read_text(), machines)
            self.assertEqual([world.answer(parse_line(line)) for line in (b"fork 1 new", b"fork 1")], ["ENOSPC", "child 3 root 3"])


if __name__ == "__main__":
    unittest.main()
