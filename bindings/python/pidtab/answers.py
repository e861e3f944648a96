"""What answers say, as lines and as numbers. A program that answers what no call is answered is at fault."""

import errno
import re
from collections.abc import Callable
from dataclasses import dataclass
from typing import Any, Generic, NamedTuple, TypeVar

from pidtab.faults import ProgramFault, say_why, shorten
from pidtab.raw import CONTROL, COUNTED, END, FORKED, KILLED, LEVELS, NONE_YET, NUMBER, OK, REAPED, REFUSED, PidtabReply, PidtabSpace, PidtabTask

T = TypeVar("T")


class Forked(NamedTuple):
    """A new task: its number in the caller's namespace, and in the root namespace."""

    child: int
    root: int

    def to_object(self) -> dict[str, Any]:
        """Its fields as docs/list.schema.json has them, for `json`, which would write a list of the tuple."""
        return self._asdict()


class Reaped(NamedTuple):
    """A child that was waited for: its number in the caller's namespace, and its status, None where it was killed."""

    child: int
    status: int | None

    @property
    def killed(self) -> bool:
        """Whether it was killed by the fall of its namespace."""
        return self.status is None

    def to_object(self) -> dict[str, Any]:
        """The same."""
        return self._asdict()


@dataclass(frozen=True)
class Stat:
    """A task as a namespace sees it: its numbers there and inwards, its root number, and those there of its parent, group and session, 0 where there is none.

    Then the ids of its own namespace and of its control group, whether it lives, its status if it has ended and was not killed, and its marks.
    """

    numbers: tuple[int, ...]
    root: int
    parent: int
    group: int
    session: int
    space: int
    control: int
    live: bool
    status: int | None
    executed: bool
    subreaper: bool

    @property
    def killed(self) -> bool:
        """Whether the fall of its namespace ended it."""
        return not self.live and self.status is None

    def to_object(self) -> dict[str, Any]:
        """Its fields as docs/list.schema.json has them, for `json`."""
        fields = vars(self) | {"numbers": list(self.numbers), "live": "live" if self.live else "killed" if self.killed else "exited"}
        return {"state" if name == "live" else name: value for name, value in fields.items()}


@dataclass(frozen=True)
class SpaceStat:
    """A namespace: its id, that of the one around it, None for the root, and how many are around it, 0 to 32.

    Then the root number of its init, which may have ended, None where that was reaped, and whether it has ended. A fallen namespace takes no task any more, and is
    gone with the last number in it.
    """

    id: int
    parent: int | None
    level: int
    init: int | None
    fallen: bool

    def to_object(self) -> dict[str, Any]:
        """Its fields as docs/list.schema.json has them, for `json`."""
        return dict(vars(self))


def match(pattern: str, answer: str) -> "re.Match[str]":
    """The parts of an answer that has the form."""
    found = re.fullmatch(pattern, answer, re.ASCII)
    if found is None:
        raise ProgramFault(f"the program answered `{shorten(answer)}`")
    return found


def read_ok(answer: str) -> None:
    """Sees to it that the answer is `ok`."""
    match("ok", answer)


def read_number(answer: str) -> int:
    """The number that the answer is."""
    return int(match(r"\d+", answer)[0])


def read_next(answer: str) -> int | None:
    """The number that the answer is, None for `end`."""
    return None if answer == "end" else read_number(answer)


def read_numbers(answer: str) -> tuple[int, ...]:
    """The numbers that the answer is."""
    return tuple(int(word) for word in match(r"\d+( \d+)*", answer)[0].split(" "))


def read_control_id(answer: str) -> int:
    """The id of `control ID`."""
    return int(match(r"control (\d+)", answer)[1])


def read_forked(answer: str) -> Forked:
    """The numbers of `child N root R`."""
    found = match(r"child (\d+) root (\d+)", answer)
    return Forked(int(found[1]), int(found[2]))


def read_reaped(answer: str) -> Reaped | None:
    """What `reaped N exit S`, `reaped N killed` or `none` says."""
    if answer == "none":
        return None
    found = match(r"reaped (\d+) (?:exit (\d+)|killed)", answer)
    return Reaped(int(found[1]), None if found[2] is None else int(found[2]))


def tell_next(reply: PidtabReply) -> int | None:
    """The number that follows, None where none does."""
    return None if reply.kind == END else reply.first


def tell_numbers(reply: PidtabReply) -> tuple[int, ...]:
    """A task's numbers."""
    return tuple(reply.levels[: reply.count])


def tell_reaped(reply: PidtabReply) -> Reaped | None:
    """Who was reaped, None where nobody had ended."""
    if reply.kind == NONE_YET:
        return None
    return Reaped(reply.first, None if reply.second == KILLED else reply.second)


def tell_stat(task: PidtabTask) -> Stat:
    """What was read of a task."""
    status = task.status if task.ended and task.status != KILLED else None
    numbers = tuple(task.levels[: task.count])
    seen = (numbers, task.root, task.parent, task.group, task.session, task.space, task.control)
    return Stat(*seen, not task.ended, status, bool(task.executed), bool(task.subreaper))


def tell_space(space: PidtabSpace) -> SpaceStat:
    """What was read of a namespace."""
    return SpaceStat(space.id, space.parent if space.level else None, space.level, space.init or None, bool(space.fallen))


def say_ended(status: int) -> str:
    """How a child ended that was reaped."""
    return "killed" if status == KILLED else f"exit {status}"


# The answer that a reply is in the script language, by its kind.
ANSWERS: dict[int, Callable[[PidtabReply], str]] = {
    FORKED: lambda reply: f"child {reply.first} root {reply.second}",
    OK: lambda reply: "ok",
    NUMBER: lambda reply: str(reply.first),
    LEVELS: lambda reply: " ".join(map(str, tell_numbers(reply))),
    REAPED: lambda reply: f"reaped {reply.first} {say_ended(reply.second)}",
    NONE_YET: lambda reply: "none",
    COUNTED: lambda reply: str(reply.first),
    CONTROL: lambda reply: f"control {reply.first}",
    END: lambda reply: "end",
    REFUSED: lambda reply: f"{errno.errorcode[reply.error]} {say_why(reply.refusal, reply.first)}",
}


@dataclass(frozen=True)
class Form(Generic[T]):
    """What a call is answered: read from the line, and told by the numbers."""

    read: Callable[[str], T]
    tell: Callable[[PidtabReply], T]


NOTHING: Form[None] = Form(read_ok, lambda reply: None)
A_NUMBER: Form[int] = Form(read_number, lambda reply: reply.first)
THE_NEXT: Form[int | None] = Form(read_next, tell_next)
THE_NUMBERS: Form[tuple[int, ...]] = Form(read_numbers, tell_numbers)
A_CONTROL: Form[int] = Form(read_control_id, lambda reply: reply.first)
A_CHILD: Form[Forked] = Form(read_forked, lambda reply: Forked(reply.first, reply.second))
AN_ENDED_CHILD: Form[Reaped | None] = Form(read_reaped, tell_reaped)
