"""What the world's own /proc tells of its processes, read from outside by the numbers of the world's namespace."""

import os
from dataclasses import dataclass

EXITING = 0x4
NOT_EXECUTED = 0x40


@dataclass(frozen=True)
class Stat:
    """A line of /proc/PID/stat: the root numbers of parent, group and session, and how the process stands."""

    number: int
    state: str
    parent: int
    group: int
    session: int
    flags: int
    end: int

    @property
    def is_zombie(self) -> bool:
        """Whether the process has ended, and its parent has not waited yet."""
        return self.state in "ZX"

    @property
    def is_exiting(self) -> bool:
        """Whether the process has begun to end, or has ended."""
        return self.is_zombie or bool(self.flags & EXITING)

    @property
    def how_ended(self) -> str:
        """How a process that is exiting ended: `exit S` or `killed`."""
        return "killed" if self.end & 0x7F else f"exit {self.end >> 8}"

    @property
    def is_at_rest(self) -> bool:
        """Whether the process has ended, or is an exiting init that sleeps: until no other number is in use in its namespace, or
        until an init that does so lets itself be reaped."""
        return self.is_zombie or (self.is_exiting and self.state == "S")


def parse_stat(text: str) -> Stat:
    """The fields of /proc/PID/stat; the name, in parentheses, may hold anything."""
    number, rest = text.split(" (", 1)
    fields = rest.rsplit(") ", 1)[1].split()
    state, parent, group, session = fields[0], int(fields[1]), int(fields[2]), int(fields[3])
    return Stat(int(number), state, parent, group, session, int(fields[6]), int(fields[49]))


class Proc:
    """The procfs that a process sees, by way of that process's root directory."""

    def __init__(self, outer_number: int) -> None:
        path = os.path.join("/proc", str(outer_number), "root", "proc")
        self.folder = os.open(path, os.O_RDONLY | os.O_DIRECTORY | os.O_CLOEXEC)

    def close(self) -> None:
        """Gives the folder back."""
        os.close(self.folder)

    def read(self, path: str) -> str | None:
        """The text of a file below the folder, or None where it or its process is not there."""
        try:
            file = os.open(path, os.O_RDONLY | os.O_CLOEXEC, dir_fd=self.folder)
        except (FileNotFoundError, ProcessLookupError):
            return None
        try:
            return os.read(file, 65536).decode("latin-1")
        except ProcessLookupError:
            return None
        finally:
            os.close(file)

    def stat(self, number: int) -> Stat | None:
        """How the process with a root number stands, or None where there is none."""
        text = self.read(f"{number}/stat")
        return parse_stat(text) if text else None

    def count(self) -> int:
        """How many processes there are, zombies among them."""
        return sum(name.isdigit() for name in os.listdir(self.folder))

    def all(self) -> dict[int, Stat]:
        """All processes, by root number in order."""
        numbers = sorted(int(name) for name in os.listdir(self.folder) if name.isdigit())
        stats = ((number, self.stat(number)) for number in numbers)
        return {number: stat for number, stat in stats if stat is not None}

    def numbers(self, number: int) -> list[int]:
        """The process's numbers, from the world's namespace inwards."""
        for line in (self.read(f"{number}/status") or "").splitlines():
            if line.startswith("NSpid:"):
                return [int(word) for word in line.split()[1:]]
        return []

    def namespace(self, number: int, link: str) -> str | None:
        """What a namespace link of the process (`pid`, `pid_for_children`) names."""
        try:
            return os.readlink(f"{number}/ns/{link}", dir_fd=self.folder)
        except OSError:
            return None
