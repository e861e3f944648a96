"""Whether a namespace's fall would end in the kernel, told before its init exits.

An init that exits kills all others in its namespace, reaps those whose parent is in there, and then sleeps until no number except
its own is in use in its namespace. So it waits for each init in there, for each init whose group has a number in there (its own
too), and for zombies and groups of processes outside. Where inits wait for each other in a ring, none of them ever ends.
"""

from collections.abc import Callable, Iterable, Mapping
from dataclasses import dataclass

ENDS = "ends"
WAITS_FOR_CHILD = "fall-waits-for-child"
WAITS_FOR_GROUP = "fall-waits-for-group"
NEVER = "endless-fall"


@dataclass(frozen=True)
class Member:
    """A process: its root number, its namespace, and the root numbers of parent and group."""

    number: int
    space: int
    parent: int
    group: int
    is_zombie: bool
    is_exiting: bool


class Forecast:
    """What would come of an init's exit, told of the processes as they stand."""

    def __init__(
        self,
        members: Iterable[Member],
        space_of_name: Mapping[int, int],
        is_within: Callable[[int, int], bool],
        inits: Mapping[int, int],
    ) -> None:
        """Takes the processes, the namespace of each identifier in use (by root number), whether a namespace is another or
        below it, and the init of each namespace that has one."""
        self.members = {member.number: member for member in members}
        self.space_of_name = space_of_name
        self.is_within = is_within
        self.inits = inits

    def is_inside(self, number: int, space: int) -> bool:
        """Whether an identifier has a number in a namespace. 0 names none: what has gone meanwhile."""
        return number in self.space_of_name and self.is_within(self.space_of_name[number], space)

    def dying(self, init: int) -> list[int]:
        """The inits that end with an init, itself and those that end already among them."""
        space = self.members[init].space
        ended = [number for number in self.inits.values() if number in self.members and self.will_end(number, space)]
        return ended

    def will_end(self, number: int, space: int) -> bool:
        """Whether an init ends with a namespace, or has begun to end before."""
        member = self.members[number]
        return not member.is_zombie and (member.is_exiting or self.is_within(member.space, space))

    def waits_for(self, init: int, among: list[int]) -> list[int]:
        """The inits for which an init waits: those in its namespace, and those whose group has a number in there."""
        space = self.members[init].space
        return [
            other
            for other in among
            if (other != init and self.is_within(self.members[other].space, space))
            or (self.members[other].group != init and self.is_inside(self.members[other].group, space))
        ]

    def stuck(self, init: int) -> list[int]:
        """The inits that would wait for each other in a ring, or for such."""
        left = self.dying(init)
        while True:
            kept = [number for number in left if self.waits_for(number, left)]
            if len(kept) == len(left):
                return kept
            left = kept

    def waits_with(self, init: int) -> list[int]:
        """An init, and all that it waits for, directly or by another."""
        among, reached = self.dying(init), [init]
        for number in reached:
            reached += [other for other in self.waits_for(number, among) if other not in reached]
        return reached

    def hold(self, member: Member, space: int, init: int) -> str:
        """How a process that does not go with a fall keeps a number of the namespace in use, if it does."""
        if self.is_within(member.space, space):
            parent = self.members.get(member.parent)
            goes = member.number == init or (parent is not None and self.is_within(parent.space, space))
            return ENDS if goes else WAITS_FOR_CHILD
        uses_number = member.group != init and self.is_inside(member.group, space)
        return WAITS_FOR_GROUP if uses_number else ENDS

    def outcome(self, init: int) -> str:
        """What the fall comes to: NEVER where the init would wait for itself; WAITS_FOR_CHILD where a parent outside has to
        wait first; WAITS_FOR_GROUP where a process outside has to leave a group; else ENDS."""
        if init in self.stuck(init):
            return NEVER
        spaces = {self.members[number].space: number for number in self.waits_with(init)}
        holds = {self.hold(member, space, owner) for space, owner in spaces.items() for member in self.members.values()}
        return next((held for held in (WAITS_FOR_CHILD, WAITS_FOR_GROUP) if held in holds), ENDS)
