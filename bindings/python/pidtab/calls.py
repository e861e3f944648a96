"""One interface to a table, wherever it is: a method for each call, raw lines, and the list."""

from abc import ABC, abstractmethod
from collections.abc import Iterable, Sequence
from operator import index
from typing import Literal, NamedTuple, TypeVar, get_args

from pidtab import raw
from pidtab.answers import A_CHILD, A_CONTROL, A_NUMBER, AN_ENDED_CHILD, NOTHING, THE_NEXT, THE_NUMBERS, Forked, Form, Reaped
from pidtab.faults import read_fault, shorten
from pidtab.listing import Listing, read_list
from pidtab.owner import Owner

Kind = Literal["task", "group", "session"]

# In the order of their numbers.
KINDS: tuple[Kind, ...] = get_args(Kind)

T = TypeVar("T")

# The line of each call by its operation and its choice. Its numbers have the names of the fields of `struct pidtab_call`.
# Written by tools/interface: lines.
LINES: dict[int, tuple[str, ...]] = {
    raw.FORK: ("fork {caller}", "fork {caller} new"),
    raw.GETPID: ("getpid {caller}",),
    raw.NSPID: ("nspid {caller} {number}",),
    raw.EXEC: ("exec {caller}",),
    raw.EXIT: ("exit {caller} {number}",),
    raw.WAIT: ("wait {caller} any", "wait {caller} pid {number}", "wait {caller} own", "wait {caller} group {number}"),
    raw.GETPPID: ("getppid {caller}",),
    raw.SETPGID: ("setpgid {caller} {pid} {pgid}",),
    raw.SETSID: ("setsid {caller}",),
    raw.MK: ("mk {id}",),
    raw.RM: ("rm {id}",),
    raw.LIMIT: ("limit {id} max", "limit {id} {number}"),
    raw.MOVE: ("move {caller} {id}",),
    raw.COUNT: ("count {id}",),
    raw.GETPGID: ("getpgid {caller} {number}",),
    raw.GETSID: ("getsid {caller} {number}",),
    raw.NEXT: ("next {caller} task {number}", "next {caller} group {number}", "next {caller} session {number}"),
    raw.JOIN: ("join {caller} {number}",),
    raw.SUBREAPER: ("subreaper {caller} off", "subreaper {caller} on"),
}
# The end of lines.


class Call(NamedTuple):
    """A call as the numbers of `struct pidtab_call`."""

    operation: int
    caller: int = 0
    id: int = 0
    number: int = 0
    choice: int = 0
    pid: int = 0
    pgid: int = 0

    @property
    def line(self) -> str:
        """The same as a line of the script language."""
        return LINES[self.operation][self.choice].format(**self._asdict())


def as_line(text: str) -> bytes:
    """The bytes of a line, if it has an answer and is only one."""
    if not isinstance(text, str):
        raise TypeError(f"a line is a str, not {type(text).__name__}")
    if not text:
        raise ValueError("an empty line has no answer")
    if "\n" in text:
        raise ValueError(f"more than one line: {shorten(text)!r}")
    return text.encode("utf-8", "surrogateescape")


def select(pid: int | None, own: bool, group: int | None) -> tuple[int, int]:
    """Which children a wait means: the choice with its number."""
    if not own and group is None:
        return (raw.ANY, 0) if pid is None else (raw.CHILD, pid)
    if pid is not None or (own and group is not None):
        raise ValueError("at most one of pid, own and group")
    return (raw.OWN_GROUP, 0) if group is None else (raw.GROUP, group)


def choice_of(caller: int, kind: str, start: int) -> int:
    """The number of what a next looks for."""
    if kind not in KINDS:
        raise ValueError(f"bad line: next {caller} {shorten(str(kind))} {start}")
    return KINDS.index(kind)


class Queries(ABC):
    """What may be asked of a table and changes nothing. On a table each is a call, which is counted; those of its `ask` are none.

    `Calls` says what numbers are taken, and what is raised.
    """

    @abstractmethod
    def _make(self, call: Call, form: Form[T]) -> T:
        """Makes a call, and reads what it is answered."""

    # Written by tools/interface: queries.
    def getpid(self, caller: int) -> int:
        """getpid(2): the caller's number in its own namespace. no-caller."""
        return self._make(Call(raw.GETPID, index(caller)), A_NUMBER)

    def nspid(self, caller: int, pid: int) -> tuple[int, ...]:
        """NSpid of proc(5): the numbers of the task `pid` from the caller's namespace inwards, outermost first: 1 to 33 of them.

        no-caller, no-task.
        """
        return self._make(Call(raw.NSPID, index(caller), 0, index(pid)), THE_NUMBERS)

    def getppid(self, caller: int) -> int:
        """getppid(2): the number of the caller's parent, 0 for one that it cannot see. no-caller."""
        return self._make(Call(raw.GETPPID, index(caller)), A_NUMBER)

    def count(self, control: int = 0) -> int:
        """How many tasks the control group and those below it have. no-control."""
        return self._make(Call(raw.COUNT, 0, index(control)), A_NUMBER)

    def getpgid(self, caller: int, pid: int = 0) -> int:
        """getpgid(2): the process group of the task `pid`, where 0 is the caller; 0 where it cannot be seen. no-caller, no-task."""
        return self._make(Call(raw.GETPGID, index(caller), 0, index(pid)), A_NUMBER)

    def getsid(self, caller: int, pid: int = 0) -> int:
        """getsid(2): the session of the task `pid`, where 0 is the caller; 0 where it cannot be seen. no-caller, no-task."""
        return self._make(Call(raw.GETSID, index(caller), 0, index(pid)), A_NUMBER)

    def next(self, caller: int, kind: Kind = "task", start: int = 0) -> int | None:
        """The least number from `start` on that is in use as that kind in the caller's namespace. no-caller."""
        return self._make(Call(raw.NEXT, index(caller), 0, index(start), choice_of(caller, kind, start)), THE_NEXT)
    # The end of queries.


class Listed(ABC):
    """What has a list."""

    @abstractmethod
    def _list_text(self) -> str:
        """The list, as `pidtab list` writes it."""

    def list(self) -> Listing:
        """The table as it stands now. It costs a copy of the table; by the program it costs what all calls so far did."""
        return read_list(self._list_text())

    def list_text(self) -> str:
        """The same as text, as `pidtab list` writes it and `pidtab-tree` reads it."""
        return self._list_text()

    def tree(self) -> str:
        """The same as a drawing for people."""
        # Here, as few who have a table draw it.
        from pidtab.tree import draw_list

        return draw_list(self.list())


class EachCall(Queries):
    """A method for each call. `Calls` says what they take, and what is raised."""

    def wait(
        self, caller: int, pid: int | None = None, *, own: bool = False, group: int | None = None
    ) -> Reaped | None:
        """waitpid(2) with WNOHANG: takes an ended child away, any, one by its number, or one of the caller's own or of another group.

        None where children match and none of them has ended. no-caller, no-child.
        """
        choice, number = select(pid, own, group)
        return self._make(Call(raw.WAIT, index(caller), 0, index(number), choice), AN_ENDED_CHILD)

    # Written by tools/interface: calls.
    def fork(self, caller: int, new: bool = False) -> Forked:
        """fork(2), or clone(2) with CLONE_NEWPID: a child in the namespace for the caller's children, or in a new one.

        no-caller, too-deep, elsewhere, space-fallen, no-number, pids-limit.
        """
        return self._make(Call(raw.FORK, index(caller), 0, 0, bool(new)), A_CHILD)

    def exec(self, caller: int) -> None:
        """execve(2): the caller executes a program. no-caller."""
        self._make(Call(raw.EXEC, index(caller)), NOTHING)

    def exit(self, caller: int, status: int = 0) -> None:
        """_exit(2): the caller ends, and its namespace falls if it is the init there; `status` is 0 to 255. no-caller, root-init."""
        self._make(Call(raw.EXIT, index(caller), 0, index(status)), NOTHING)

    def setpgid(self, caller: int, pid: int = 0, group: int = 0) -> None:
        """setpgid(2): the task `pid` goes into the group `group`; 0 is the caller, and the task.

        no-caller, bad-group, no-task, other-session, executed, is-leader, no-group.
        """
        self._make(Call(raw.SETPGID, index(caller), 0, 0, 0, index(pid), index(group)), NOTHING)

    def setsid(self, caller: int) -> int:
        """setsid(2): the caller leads a new session and a new group; its number. no-caller, is-leader."""
        return self._make(Call(raw.SETSID, index(caller)), A_NUMBER)

    def mk(self, parent: int = 0) -> int:
        """A new control group below the one with the id `parent`, of which 0 is the root: its id. no-control, control-depth."""
        return self._make(Call(raw.MK, 0, index(parent)), A_CONTROL)

    def rm(self, control: int) -> None:
        """Removes a control group without live tasks and children. no-control, root-control, control-busy."""
        self._make(Call(raw.RM, 0, index(control)), NOTHING)

    def limit(self, control: int, most: int | None = None) -> None:
        """How many tasks the control group may have, 0 to 4194304, or none for no limit. no-control, root-control, bad-limit."""
        self._make(Call(raw.LIMIT, 0, index(control), 0 if most is None else index(most), most is not None), NOTHING)

    def move(self, task: int, control: int) -> None:
        """The task, by its root number, goes into the control group. no-task, no-control."""
        self._make(Call(raw.MOVE, index(task), index(control)), NOTHING)

    def join(self, caller: int, pid: int) -> None:
        """setns(2) with CLONE_NEWPID: the caller's later children go into the namespace of the task `pid`. no-caller, no-task."""
        self._make(Call(raw.JOIN, index(caller), 0, index(pid)), NOTHING)

    def subreaper(self, caller: int, on: bool = True) -> None:
        """PR_SET_CHILD_SUBREAPER of prctl(2): the caller takes orphans of its namespace, or no more. no-caller."""
        self._make(Call(raw.SUBREAPER, index(caller), 0, 0, bool(on)), NOTHING)
    # The end of calls.


class Calls(EachCall, Listed, Owner):
    """A table, which begins with one task, the root init, number 1. docs/SCRIPT.md has all calls.

    Callers are root numbers; all other process numbers are those of the caller's namespace. Both are 0 to 2^32 - 1, those of setpgid -2^31 to
    2^31 - 1, and ids of control groups, where 0 is the root, 0 to 2^64 - 1; any other number is a ValueError, as is a bad line. What is no
    integer is a TypeError, and so is a line that is no str.

    A refused call raises `Refusal`, an OSError with the kernel's errno, whose `why` is the word; each method names the words that it may have.
    Where there is no memory, fork, mk and list raise a MemoryError. After 2^64 - 2 calls each raises an OverflowError. What raises has changed
    nothing, but that a refused call is counted.

    Threads may share a table: one call is made at a time. Once it is closed, each method raises `TableClosed`. So it does in a forked child,
    whose parent has the table; there `close` does nothing.
    """

    @abstractmethod
    def _answers(self, lines: Sequence[bytes]) -> tuple[str, ...]:
        """Makes the calls on lines, of which none is empty."""

    def line(self, text: str) -> str:
        """The answer to a raw line; refusals and bad lines are raised."""
        (answer,) = self._answers([as_line(text)])
        fault = read_fault(text, answer)
        if fault is not None:
            raise fault
        return answer

    def answers(self, texts: Iterable[str]) -> tuple[str, ...]:
        """The answers to many raw lines, in one go: refusals and bad lines are answers here, and nothing is raised."""
        if isinstance(texts, (str, bytes, bytearray)):
            raise TypeError(f"answers takes many lines, each a str, not one {type(texts).__name__}")
        return self._answers([as_line(text) for text in texts])
