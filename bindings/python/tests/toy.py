"""A process table of one namespace in pure Python, by the manual pages alone, with bugs to be planted: what a test kit is tried on."""

import errno
from dataclasses import dataclass


@dataclass
class Process:
    """A process of the toy."""

    parent: int
    group: int
    session: int
    status: int | None = None
    executed: bool = False


class Toy:
    """Ten of the methods of `pidtab.Calls`. A bug is one of "", "grandparent" and "executed"."""

    def __init__(self, bug: str = "") -> None:
        self.bug = bug
        self.processes = {1: Process(0, 1, 1)}
        self.cursor = 2

    def _live(self, caller: int) -> Process:
        process = self.processes.get(caller)
        if process is None or process.status is not None:
            raise OSError(errno.ESRCH, "no-caller")
        return process

    def _find(self, caller: int, pid: int) -> Process:
        self._live(caller)
        if (pid or caller) not in self.processes:
            raise OSError(errno.ESRCH, "no-task")
        return self.processes[pid or caller]

    def fork(self, caller: int) -> int:
        """fork(2)."""
        parent, child = self._live(caller), self.cursor
        self.cursor += 1
        self.processes[child] = Process(caller, parent.group, parent.session)
        return child

    def exec(self, caller: int) -> None:
        """execve(2)."""
        self._live(caller).executed = True

    def exit(self, caller: int, status: int) -> None:
        """_exit(2): init takes the children."""
        ended = self._live(caller)
        if caller == 1:
            raise OSError(errno.EBUSY, "root-init")
        for child in self.processes.values():
            if child.parent == caller:
                child.parent = ended.parent if self.bug == "grandparent" else 1
        ended.status = status

    def wait(self, caller: int, pid: int | None = None) -> tuple[int, int] | None:
        """waitpid(2) with WNOHANG: the least number of those that have ended."""
        self._live(caller)
        children = {it: child for it, child in self.processes.items() if child.parent == caller and pid in (None, it)}
        if not children:
            raise OSError(errno.ECHILD, "no-child")
        for it, child in sorted(children.items()):
            if child.status is not None:
                del self.processes[it]
                return it, child.status
        return None

    def setpgid(self, caller: int, pid: int, pgid: int) -> None:
        """setpgid(2)."""
        own = self._live(caller)
        if pgid < 0:
            raise OSError(errno.EINVAL, "bad-group")
        target, number = self._find(caller, pid), pid or caller
        if target.parent == caller and target.session != own.session:
            raise OSError(errno.EPERM, "other-session")
        if target.parent == caller and target.executed and self.bug != "executed":
            raise OSError(errno.EACCES, "executed")
        if target.parent != caller and target is not own:
            raise OSError(errno.ESRCH, "no-task")
        if target.session == number:
            raise OSError(errno.EPERM, "is-leader")
        groups = {it.group for it in self.processes.values() if it.session == own.session}
        if (pgid or number) not in groups | {number}:
            raise OSError(errno.EPERM, "no-group")
        target.group = pgid or number

    def setsid(self, caller: int) -> int:
        """setsid(2)."""
        process = self._live(caller)
        if any(it.group == caller for it in self.processes.values()):
            raise OSError(errno.EPERM, "is-leader")
        process.group = process.session = caller
        return caller

    def getpid(self, caller: int) -> int:
        """getpid(2)."""
        self._live(caller)
        return caller

    def getppid(self, caller: int) -> int:
        """getppid(2)."""
        return self._live(caller).parent

    def getpgid(self, caller: int, pid: int = 0) -> int:
        """getpgid(2)."""
        return self._find(caller, pid).group

    def getsid(self, caller: int, pid: int = 0) -> int:
        """getsid(2)."""
        return self._find(caller, pid).session
