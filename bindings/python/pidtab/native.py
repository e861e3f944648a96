"""Calls on a table of this process, by the library of C: told as numbers, or as lines."""

import ctypes
import struct
from collections.abc import Callable
from functools import partial, wraps
from inspect import signature
from typing import TYPE_CHECKING, Concatenate, NoReturn, ParamSpec, Protocol, TypeVar

from pidtab import raw
from pidtab.answers import Form, SpaceStat, Stat, tell_space, tell_stat
from pidtab.bounds import check_range
from pidtab.calls import Call, Calls, EachCall, Queries
from pidtab.effects import Effect, Told
from pidtab.faults import LibraryFault, NoHistory, NoThreads, NotKept, TableBusy, TableClosed, bad_text, read_fault, refusal_of, say_why
from pidtab.forms import QUERIES
from pidtab.raw import (
    BAD_LINE,
    BAD_TEXT,
    BUSY,
    CALL_FIELDS,
    CLOSED,
    DONE,
    NO_HISTORY,
    NO_MEMORY,
    NO_ROOM,
    NO_THREADS,
    NOT_KEPT,
    OUT_OF_RANGE,
    REFUSED,
    SPENT,
    PidtabCall,
    PidtabFault,
    PidtabReply,
    PidtabSpace,
    PidtabTask,
)

# The room for a first try of a list or a text.
SHORT_TEXT = 4096

# The same of a page, in numbers, and how many times as long the next one is: so all tries of a list together cost little more than the last one.
SHORT_PAGE = 64
GROWTH = 4

GREATEST_PID = 2**32 - 1
GREATEST_ID = 2**64 - 1

# It always lives, and sees all tasks by their root numbers.
ROOT_INIT = 1

# What is raised for a status that is about the table itself, and what it says.
STATES: dict[int, tuple[type[RuntimeError], str]] = {
    CLOSED: (TableClosed, "the table was closed"),
    BUSY: (TableBusy, "another thread is in this table, which is one thread's: open it with threads"),
    NO_HISTORY: (NoHistory, "this table keeps no history: open it with keep"),
    NO_THREADS: (NoThreads, "this table is one thread's: open it with threads"),
}

# What the program answers where the library has a status.
ANSWERS = {BAD_LINE: "bad line", OUT_OF_RANGE: "bad line", NO_MEMORY: "no memory", SPENT: "spent"}

T = TypeVar("T")
P = ParamSpec("P")


def state_of(status: int) -> RuntimeError:
    """What is raised for a status that is about the table itself."""
    kind, words = STATES[status]
    return kind(words)


def answer_of(status: int) -> str:
    """The answer that a status stands for, of those that no call was made for."""
    if status in STATES:
        raise state_of(status)
    if status not in ANSWERS:
        raise LibraryFault(f"the library answered with the status {status}")
    return ANSWERS[status]


def fault_of(status: int, line: str) -> Exception:
    """What is raised for a status other than done."""
    return read_fault(line, answer_of(status)) or AssertionError(status)


def check(status: int, what: str) -> None:
    """Raises what a status other than done stands for."""
    if status == NOT_KEPT:
        raise NotKept(f"{what} is not kept: it was cut away, or there is no such call yet")
    if status != DONE:
        raise fault_of(status, what)


def pack(call: Call) -> bytes:
    """The numbers of a call, if each fits into its field."""
    try:
        return CALL_FIELDS.pack(*call)
    except struct.error:
        raise ValueError(f"bad line: {call.line}") from None


def unpack(packed: PidtabCall) -> Call:
    """The call that the numbers are."""
    return Call._make(CALL_FIELDS.unpack(packed))


def read_written(write: Callable[..., int], what: str) -> str:
    """The text that is written into a room of a size, by a function that answers a status, and the size too where the room is short."""
    size = ctypes.c_size_t(SHORT_TEXT)
    while True:
        # Until the next try, other threads may make the text longer.
        room = ctypes.create_string_buffer(size.value + size.value // 8)
        status = write(room, len(room), size)
        if status == DONE:
            return ctypes.string_at(room, size.value).decode("ascii")
        if status != NO_ROOM:
            raise fault_of(status, what)


def text_bytes(text: str | bytes | bytearray | memoryview) -> bytes:
    """The bytes of a text, of whatever kind they are."""
    if isinstance(text, str):
        return text.encode("utf-8", "surrogatepass")
    if not isinstance(text, (bytes, bytearray, memoryview)):
        raise TypeError(f"the text of a table is a str or bytes, not {type(text).__name__}")
    return bytes(text)


def check_loaded(status: int, fault: PidtabFault) -> None:
    """Raises what says why no table was loaded."""
    if status == BAD_TEXT:
        raise bad_text(fault.line, fault.kind)
    if status != DONE:
        raise fault_of(status, "load")


def head_of(text: bytes) -> tuple[int, int]:
    """`pid_max` and the stamp of the next call, of a text that was loaded: `pidtab table 1 pid-max N stamp S`."""
    words = text.partition(b"\n")[0].split()
    return int(words[4]), int(words[6])


# Replies that no call has now. A call takes one out and puts it back once it is read, so no other thread and no handler of a signal meets
# it meanwhile. A call that is interrupted, or raises, leaves its own to the collector.
UNUSED: list[PidtabReply] = []


def make_call(call: Call, form: Form[T], make: Callable[[bytes, PidtabReply], int]) -> T:
    """What a call is answered by a function that takes and tells numbers, and answers a status."""
    try:
        packed = CALL_FIELDS.pack(*call)
    except struct.error:
        raise ValueError(f"bad line: {call.line}") from None
    try:
        reply = UNUSED.pop()
    except IndexError:
        reply = PidtabReply()
    status = make(packed, reply)
    if status != DONE:
        raise fault_of(status, call.line)
    if reply.kind == REFUSED:
        raise refusal_of(reply.error, call.line, say_why(reply.refusal, reply.first))
    told = form.tell(reply)
    UNUSED.append(reply)
    return told


def read_task(asked: str, read: Callable[[PidtabTask], int]) -> Stat:
    """What is read of a task by a function that answers a status."""
    task = PidtabTask()
    status = read(task)
    if status != DONE:
        raise fault_of(status, asked)
    if task.error:
        raise refusal_of(task.error, asked, say_why(task.refusal, 0))
    return tell_stat(task)


def read_numbers(asked: str, read: Callable[..., int]) -> tuple[int, ...]:
    """All numbers that are asked for, by a function that writes as many as there is room for, and whose reply counts one more where there are more."""
    reply, there = PidtabReply(), SHORT_PAGE
    while True:
        room = (ctypes.c_uint32 * there)()
        status = read(room, there, reply)
        if status != DONE:
            raise fault_of(status, asked)
        if reply.kind == REFUSED:
            raise refusal_of(reply.error, asked, say_why(reply.refusal, reply.first))
        if reply.first <= there:
            return tuple(room[: reply.first])
        there *= GROWTH


def absent(asked: str, what: str) -> LookupError:
    """That nothing has the id that was asked for."""
    return LookupError(f"no {what} has the id {asked.split(' ')[1]}: it is gone, or there was none")


def read_ids(asked: str, what: str, read: Callable[..., int]) -> tuple[int, ...]:
    """All ids that are asked for, by a function that writes as many as there is room for, and counts one more where there are more; of something that may not
    be there."""
    count, there = ctypes.c_uint64(), SHORT_PAGE
    while True:
        room = (ctypes.c_uint64 * there)()
        status = read(room, there, count)
        if status == OUT_OF_RANGE:
            raise absent(asked, what)
        if status != DONE:
            raise fault_of(status, asked)
        if count.value <= there:
            return tuple(room[: count.value])
        there *= GROWTH


def read_space(asked: str, what: str, read: Callable[[PidtabSpace], int]) -> SpaceStat:
    """What is read of a namespace, which may not be there, by a function that answers a status."""
    space = PidtabSpace()
    status = read(space)
    if status == OUT_OF_RANGE:
        raise absent(asked, what)
    if status != DONE:
        raise fault_of(status, asked)
    return tell_space(space)


class Asked(Protocol):
    """A table that answers queries."""

    def _check_owner(self) -> None:
        """Sees to it that the table is one of this process."""

    def _question(self, name: str) -> Callable[..., int]:
        """The function of the library with this name on the table. It answers a status."""


class Telling(Asked, Protocol):
    """A table that makes calls too, and tells what they did."""

    def _make_told(self, call: Call, form: Form[T], effects: list[Effect]) -> T:
        """Makes a call, and adds what it did."""


class OfTable:
    """What asks a table, and holds it."""

    def __init__(self, table: Asked) -> None:
        self._table = table

    def __repr__(self) -> str:
        return f"<pidtab.{type(self).__name__} of {self._table!r}>"


class Would(OfTable, EachCall):
    """What each call would answer now, as the `would` of a table: it raises what the call would raise, nothing changes, and nothing is counted.

    `would.fork(1)` has the numbers of the child that the next fork would make, and `would.wait(1)` whom a wait would reap, as waitid(2) with WNOWAIT.
    Whether there is memory for the call it does not know. As long as somebody has it, the table is not dropped.
    """

    def _make(self, call: Call, form: Form[T]) -> T:
        self._table._check_owner()
        return make_call(call, form, self._table._question("would"))


class Teller(EachCall):
    """Makes a call on a table, and keeps what it did."""

    def __init__(self, table: Telling) -> None:
        self._table = table
        self.effects: list[Effect] = []

    def _make(self, call: Call, form: Form[T]) -> T:
        return self._table._make_told(call, form, self.effects)


def telling(method: Callable[Concatenate[EachCall, P], T]) -> Callable[Concatenate["ToldCalls", P], Told[T]]:
    """The method of a call, which tells what the call did too."""

    @wraps(method)
    def tell(calls: "ToldCalls", /, *taken: P.args, **named: P.kwargs) -> Told[T]:
        teller = Teller(calls._table)
        return Told(method(teller, *taken, **named), teller.effects)

    # As `help` shows it.
    tell.__signature__ = signature(method).replace(return_annotation=Told)  # type: ignore[attr-defined]
    return tell


class ToldCalls(OfTable):
    """Calls that tell what they did, as the `told` of a table or of a seat: each is made, and answers a `Told`. It raises what the call raises.

    `told.exit(2)` has who was killed with a namespace, or who takes the children, and which groups, sessions and namespaces are gone. It costs what the call costs, and some searches for each task that the
    call may touch. An exit, a wait, a setpgid and a setsid take memory for a list: where there is none, it is a MemoryError, and the call was not made.

    Where an interrupt took away what a call of a seat has told, the same call on `table.at(seat.ordinal)` tells it. As long as somebody has this, the table is
    not dropped.
    """

    _table: Telling

    # Written by tools/interface: told calls.
    fork = telling(EachCall.fork)
    getpid = telling(EachCall.getpid)
    nspid = telling(EachCall.nspid)
    exec = telling(EachCall.exec)
    exit = telling(EachCall.exit)
    wait = telling(EachCall.wait)
    getppid = telling(EachCall.getppid)
    setpgid = telling(EachCall.setpgid)
    setsid = telling(EachCall.setsid)
    mk = telling(EachCall.mk)
    rm = telling(EachCall.rm)
    limit = telling(EachCall.limit)
    move = telling(EachCall.move)
    count = telling(EachCall.count)
    getpgid = telling(EachCall.getpgid)
    getsid = telling(EachCall.getsid)
    next = telling(EachCall.next)
    join = telling(EachCall.join)
    subreaper = telling(EachCall.subreaper)
    # The end of told calls.


class Ask(OfTable, Queries):
    """Queries that are no calls, as the `ask` of a table: they are neither counted nor recorded, and shift no later id.

    It has the queries, and what is read at once, as `stat`, `space` and `children`, and no other call. As long as somebody has it, the table is not dropped.
    """

    def _make(self, call: Call, form: Form[T]) -> T:
        self._table._check_owner()
        return make_call(call, form, self._table._question("ask"))

    # Written by tools/interface: questions.
    def stat(self, caller: int, pid: int = 0) -> Stat:
        """Reads the task `pid` of the caller's namespace, where 0 is the caller, and a zombie too, as getpgid finds it.

        It costs what a getpgid costs. no-caller, no-task.
        """
        self._table._check_owner()
        caller, pid = check_range("caller", caller, 0, GREATEST_PID), check_range("pid", pid, 0, GREATEST_PID)
        return read_task(f"stat {caller} {pid}", partial(self._table._question("stat"), caller, pid))

    def children(self, caller: int, pid: int = 0, start: int = 0) -> tuple[int, ...]:
        """The children of the task `pid`, where 0 is the caller, zombies too: their numbers in the caller's namespace, in rising order and not below
        `start`.

        Who is not visible there is left out, and a number that is nobody's has none. It costs what is read of each of them. It takes memory for a
        list: where there is none, it is a MemoryError. no-caller.
        """
        self._table._check_owner()
        caller, pid, start = check_range("caller", caller, 0, GREATEST_PID), check_range("pid", pid, 0, GREATEST_PID), check_range("start", start, 0, GREATEST_PID)
        return read_numbers(f"children {caller} {pid}", partial(self._table._question("page"), caller, raw.CHILDREN, pid, start))

    def group_members(self, caller: int, group: int = 0, start: int = 0) -> tuple[int, ...]:
        """The members of the process group with the number `group`, where 0 is the caller's own, as `children` has those of a task.

        It takes memory for a list: where there is none, it is a MemoryError. no-caller.
        """
        self._table._check_owner()
        caller, group, start = check_range("caller", caller, 0, GREATEST_PID), check_range("group", group, 0, GREATEST_PID), check_range("start", start, 0, GREATEST_PID)
        return read_numbers(f"group_members {caller} {group}", partial(self._table._question("page"), caller, raw.GROUP_MEMBERS, group, start))

    def session_members(self, caller: int, session: int = 0, start: int = 0) -> tuple[int, ...]:
        """The members of the session with the number `session`, where 0 is the caller's own, as `children` has those of a task.

        It takes memory for a list: where there is none, it is a MemoryError. no-caller.
        """
        self._table._check_owner()
        caller, session, start = check_range("caller", caller, 0, GREATEST_PID), check_range("session", session, 0, GREATEST_PID), check_range("start", start, 0, GREATEST_PID)
        return read_numbers(f"session_members {caller} {session}", partial(self._table._question("page"), caller, raw.SESSION_MEMBERS, session, start))

    def namespace_members(self, caller: int, pid: int = 0, start: int = 0) -> tuple[int, ...]:
        """The tasks of the namespace that the task `pid` is in, where 0 is the caller, those in namespaces inside it too, as `children` has those of
        a task.

        Of the caller's own namespace these are all that it sees, whom kill(2) of -1 reaches, and only what is told of them is read. It takes memory
        for a list: where there is none, it is a MemoryError. no-caller.
        """
        self._table._check_owner()
        caller, pid, start = check_range("caller", caller, 0, GREATEST_PID), check_range("pid", pid, 0, GREATEST_PID), check_range("start", start, 0, GREATEST_PID)
        return read_numbers(f"namespace_members {caller} {pid}", partial(self._table._question("page"), caller, raw.NAMESPACE_MEMBERS, pid, start))

    def namespace_own(self, caller: int, pid: int = 0, start: int = 0) -> tuple[int, ...]:
        """Of `namespace_members` those that are in no namespace inside it.

        It takes memory for a list: where there is none, it is a MemoryError. no-caller.
        """
        self._table._check_owner()
        caller, pid, start = check_range("caller", caller, 0, GREATEST_PID), check_range("pid", pid, 0, GREATEST_PID), check_range("start", start, 0, GREATEST_PID)
        return read_numbers(f"namespace_own {caller} {pid}", partial(self._table._question("page"), caller, raw.NAMESPACE_OWN, pid, start))

    def space(self, id: int) -> SpaceStat:
        """Reads the namespace `id`, where 0 is the root namespace; LookupError where no namespace has it, or it is gone.

        It takes no memory, and costs two searches and a few reads.
        """
        self._table._check_owner()
        id = check_range("id", id, 0, GREATEST_ID)
        return read_space(f"space {id}", "namespace", partial(self._table._question("space"), id))

    def spaces_inside(self, id: int = 0, start: int = 0) -> tuple[int, ...]:
        """The ids of the namespaces directly in the namespace `id`, where 0 is the root, in rising order and not below `start`; LookupError where no
        namespace has it, or it is gone.

        One that has fallen is among them as long as `space` reads it. It costs what is read of each of them. It takes memory for a list: where there
        is none, it is a MemoryError.
        """
        self._table._check_owner()
        id, start = check_range("id", id, 0, GREATEST_ID), check_range("start", start, 0, GREATEST_ID)
        return read_ids(f"spaces_inside {id}", "namespace", partial(self._table._question("inside"), raw.SPACES, id, start))

    def controls_inside(self, id: int = 0, start: int = 0) -> tuple[int, ...]:
        """The ids of the control groups directly in the control group `id`, where 0 is the root, as `spaces_inside` has those of a namespace;
        LookupError where no control group has it, or it is gone.

        It takes memory for a list: where there is none, it is a MemoryError.
        """
        self._table._check_owner()
        id, start = check_range("id", id, 0, GREATEST_ID), check_range("start", start, 0, GREATEST_ID)
        return read_ids(f"controls_inside {id}", "control group", partial(self._table._question("inside"), raw.CONTROLS, id, start))

    def control_tasks(self, caller: int, control: int = 0, start: int = 0) -> tuple[int, ...]:
        """The live tasks directly in the control group with the id `control`, where 0 is the root, as `children` has those of a task: cgroup.procs,
        in which no zombie appears.

        It takes memory for a list: where there is none, it is a MemoryError. no-caller, no-control.
        """
        self._table._check_owner()
        caller, control, start = check_range("caller", caller, 0, GREATEST_PID), check_range("control", control, 0, GREATEST_ID), check_range("start", start, 0, GREATEST_PID)
        return read_numbers(f"control_tasks {caller} {control}", partial(self._table._question("control_tasks"), caller, control, start))
    # The end of questions.

    # Not for a checker of types, which then finds a call that is no query.
    if not TYPE_CHECKING:

        def __getattr__(self, name: str) -> NoReturn:
            if name.startswith("_") or not hasattr(Calls, name):
                raise AttributeError(f"pidtab.Ask has no {name}")
            raise AttributeError(f"{name} is no query: `ask` has {', '.join(sorted(QUERIES))}")


class Askable(Protocol):
    """What has queries that are no calls: `Table`, `Seat` and `Replicated`. It is a type for a caller's own functions."""

    @property
    def ask(self) -> Ask:
        """Queries that shift no later id."""


class AskableCalls(Calls, Askable):
    """A table with its calls and with queries that are no calls: `Table`, `Seat` and `Replicated`, but no `Process`."""
