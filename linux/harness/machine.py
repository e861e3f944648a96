"""What the machine can do, told before anything starts."""

import os
import platform
import re
from dataclasses import dataclass
from pathlib import Path

from harness.differences import ENDLESS, NO_SESSION
from harness.groups import Place, find_place
from harness.script import DEFAULT_PID_MAX, count_forks, split_lines
from harness.world import Settings, World, WorldFault

NEEDS = "needs Linux and root, or a kernel that gives a user its own user namespace"
OWN_PID_MAX = (6, 14)
GROUP_WORDS = (b"mk", b"rm", b"limit", b"move", b"count")


class Unable(RuntimeError):
    """The machine cannot run a script, and why."""


@dataclass(frozen=True)
class Machine:
    """The kernel's release, whether each namespace has its own pid_max, the machine's, and where control groups can be made."""

    release: str
    has_own_pid_max: bool
    pid_max: int
    place: Place | None
    own_user: bool

    def text(self) -> str:
        """What is used, in one line."""
        user = "in a user namespace" if self.own_user else "as root"
        own = "a pid_max for each namespace" if self.has_own_pid_max else f"one pid_max, {self.pid_max}"
        groups = f"pids version {self.place.version} in {self.place.folder}" if self.place else "no control groups"
        return f"Linux {self.release}, {user}; {own}; {groups}"

    def settings(self, pid_max: int, script: bytes, run: str = "") -> Settings:
        """How a world for a script is made, by the word of a row's field `run`; Unable where this machine makes none that would
        do."""
        uses_groups = any(line.split(b" ")[0] in GROUP_WORDS for line in split_lines(script))
        if uses_groups and self.place is None:
            raise Unable("control groups with the pids controller, which this machine does not give")
        if not self.has_own_pid_max and pid_max != self.pid_max and count_forks(script) + 2 >= min(pid_max, self.pid_max):
            raise Unable(f"a pid_max of {pid_max}; before Linux 6.14 all namespaces have the machine's, {self.pid_max}")
        return Settings(
            pid_max=pid_max if self.has_own_pid_max else None,
            place=self.place,
            own_user=self.own_user,
            run_endless_falls=run == ENDLESS,
            init_leads=run != NO_SESSION,
        )


def release_numbers(release: str) -> tuple[int, ...]:
    """The first two numbers of a kernel's release."""
    return tuple(int(word) for word in re.findall("[0-9]+", release)[:2])


def look(with_groups: bool = True) -> Machine:
    """What the machine can do; Unable where it makes no PID namespace."""
    if platform.system() != "Linux":
        raise Unable(f"{NEEDS}; this is {platform.system()}")
    release = platform.release()
    own_user = os.geteuid() != 0
    pid_max = int(Path("/proc/sys/kernel/pid_max").read_text())
    place = find_place() if with_groups and not own_user else None
    machine = Machine(release, release_numbers(release) >= OWN_PID_MAX, pid_max, place, own_user)
    try:
        World(machine.settings(DEFAULT_PID_MAX, b"")).close()
    except (WorldFault, OSError) as fault:
        raise Unable(f"{NEEDS}; here {fault}") from fault
    return machine
