"""What calls do to tasks, process groups, sessions and namespaces, which is told beside their answers. All numbers are root numbers."""

import ctypes
from collections.abc import Callable
from dataclasses import dataclass
from typing import Any, Generic, NamedTuple, TypeVar

from pidtab.raw import (
    DONE,
    GROUP_GONE,
    KILLED,
    NO_ROOM,
    SESSION_GONE,
    SPACE_FELL,
    SPACE_GONE,
    TASK_ADOPTED,
    TASK_ENDED,
    TASK_GONE,
    PidtabEffect,
)

# The room for a first try, in effects.
SHORT_ROOM = 64

T = TypeVar("T")


@dataclass(frozen=True, slots=True)
class Ended:
    """A task that lives no more: its number, and its status, None where it was killed."""

    number: int
    status: int | None

    @property
    def killed(self) -> bool:
        """Whether the fall of its namespace ended it."""
        return self.status is None


@dataclass(frozen=True, slots=True)
class Adopted:
    """A task that has another parent: its number, and that of the parent."""

    number: int
    parent: int


@dataclass(frozen=True, slots=True)
class Gone:
    """A task that is there no more: its number. It was reaped, or went with its namespace."""

    number: int


@dataclass(frozen=True, slots=True)
class GroupGone:
    """A process group that has no member any more, no zombie either: its number."""

    number: int


@dataclass(frozen=True, slots=True)
class SessionGone:
    """A session that has no member any more, no zombie either: its number."""

    number: int


@dataclass(frozen=True, slots=True)
class SpaceFell:
    """A namespace that has fallen: its id. Its init has ended, and it takes no task any more."""

    id: int


@dataclass(frozen=True, slots=True)
class SpaceGone:
    """A namespace that is there no more: its id. Nothing has a number in it."""

    id: int


Effect = Ended | Adopted | Gone | GroupGone | SessionGone | SpaceFell | SpaceGone


class Pair(NamedTuple):
    """An answer of any kind, with effects. In Python 3.10 a named tuple has no parameter for the kind, so `Told` adds it."""

    answer: Any
    effects: list[Effect]


class Told(Pair, Generic[T]):
    """What a call was answered, and what it did: first to tasks by rising numbers, then to process groups, to sessions, and to namespaces by rising ids.

    Of a task that ended and is gone, and of a namespace that fell and is gone, there are both, in this order.
    """

    __slots__ = ()

    answer: T

    def __new__(cls, answer: T, effects: list[Effect]) -> "Told[T]":
        return super().__new__(cls, answer, effects)


# What an effect is, by its kind, its number and its value.
EFFECTS: dict[int, Callable[[int, int], Effect]] = {
    TASK_ENDED: lambda number, value: Ended(number, None if value == KILLED else value),
    TASK_ADOPTED: Adopted,
    TASK_GONE: lambda number, value: Gone(number),
    GROUP_GONE: lambda number, value: GroupGone(number),
    SESSION_GONE: lambda number, value: SessionGone(number),
    SPACE_FELL: lambda number, value: SpaceFell(value),
    SPACE_GONE: lambda number, value: SpaceGone(value),
}


def add_effects(effects: list[Effect], make: Callable[..., int]) -> int:
    """Adds what a call has done, by a function that makes it and writes that into a room, and tells how much it is: the status of the function."""
    count, there = ctypes.c_uint64(), SHORT_ROOM
    while True:
        room = (PidtabEffect * there)()
        status = make(room, there, count)
        if status != NO_ROOM:
            break
        # The call was not made. Until the next try, other threads may make more tasks.
        there = count.value + count.value // 8
    if status == DONE:
        effects.extend(EFFECTS[it.what](it.number, it.value) for it in room[: count.value])
    return status
