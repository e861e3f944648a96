"""What the world shows before a line: as much of it as the tests of listed differences look at."""

from collections.abc import Callable, Iterator, Mapping, Set
from dataclasses import dataclass, field
from itertools import chain
from typing import Any

from harness.falls import ENDS
from harness.groups import Groups
from harness.proc import Stat
from harness.script import DEFAULT_PID_MAX, Call
from harness.world import World

# Where numbers begin again (RESERVED_PIDS of the kernel).
RESTART = 300


@dataclass(frozen=True)
class Child:
    """A child that a wait names, by its number in the caller's namespace. `end` is empty while it lives. `held` is the cause by
    which an init that has exited has not ended yet to the kernel."""

    number: int
    end: str = ""
    held: str = ""


@dataclass(frozen=True)
class Draw:
    """The number that a namespace gives next, as if no refused fork had moved its cursor; None where it has no free one. `held`
    is the cause by which the kernel alone still has that number in use."""

    space: int
    number: int | None
    held: str = ""


@dataclass(frozen=True)
class Birth:
    """What a fork would come to: the caller's namespace, what each namespace from that for its children outwards would give,
    the child's level, and whether the children's namespace has fallen."""

    own: int
    draws: tuple[Draw, ...]
    level: int
    has_fallen: bool = False

    @property
    def shown(self) -> tuple[Draw, Draw]:
        """The draws whose numbers the answer has: that of the caller's namespace, and that of the root."""
        return next(draw for draw in self.draws if draw.space == self.own), self.draws[-1]

    @property
    def is_elsewhere(self) -> bool:
        """Whether the caller's children go into another namespace than its own."""
        return self.draws[0].space != self.own


@dataclass(frozen=True)
class Sight:
    """What the world shows before a line, each part only for the lines that it matters to.

    An init that has exited and waits is a zombie to the table, or gone where its parent ended too. `held` is the cause by which
    such an init is what the line names, and `held_group` that by which only such are in the group that it names; both are empty
    where it is not so. `gone` has the cause of each that is gone, and `next_number` what `next` says without them.
    """

    moved: Mapping[str, Set[int]] = field(default_factory=dict)
    children: tuple[Child, ...] = ()
    birth: Birth | None = None
    is_live: bool = False
    is_zombie: bool = False
    control_level: int | None = None
    has_session: bool = True
    held: str = ""
    held_group: str = ""
    gone: tuple[str, ...] = ()
    next_number: str = ""


def first_free(last: int, taken: Set[int], pid_max: int) -> int | None:
    """The number that a namespace gives after another: the first free one above it, else from where numbers begin again."""
    least = RESTART if last + 1 > RESTART else 1
    first = max(last + 1, least)
    return next((number for number in chain(range(first, pid_max), range(least, first)) if number not in taken), None)


def level_of(groups: Groups | None, control: int) -> int | None:
    """How many control groups are above one; None where there is no such."""
    if groups is None or control not in groups.parents:
        return None
    above = groups.parents[control]
    return 0 if above is None else 1 + (level_of(groups, above) or 0)


class View:
    """The processes before a line of a caller, and the causes of those inits among them that have exited and wait."""

    def __init__(self, world: World, call: Call) -> None:
        self.world = world
        self.numbers = call.numbers
        self.call = call
        self.stats = world.proc_all()
        self.space = world.tasks[call.caller].space if call.caller is not None else 0
        self.waiting = {number: cause for number, cause in world.waiting_inits(self.stats).items() if cause != ENDS}
        self.gone = {number: cause for number, cause in self.waiting.items() if not world.is_live(self.stats[number].parent)}

    def number_of(self, root: int) -> int | None:
        """The number in the caller's namespace of the identifier with a root number."""
        return self.world.number_in(root, self.space)

    def only_gone(self, numbers: list[int]) -> str:
        """The cause by which the kernel has these processes, where all of them are gone to the table."""
        causes = [self.gone.get(number, "") for number in numbers]
        return causes[0] if causes and all(causes) else ""

    # What the lines name.

    def children(self) -> tuple[Child, ...]:
        """The children that a wait names."""
        caller = self.stats.get(self.numbers[0])
        mine = [stat for stat in self.stats.values() if caller and stat.parent == caller.number and self.selects(caller, stat)]
        return tuple(self.child(stat) for stat in mine)

    def selects(self, caller: Stat, stat: Stat) -> bool:
        """Whether a wait's words name a child. The group 0 is the caller's own (`waitid(2)`)."""
        if self.call.form == "any":
            return True
        if self.call.form == "own" or (self.call.form, self.numbers[-1]) == ("group", 0):
            return stat.group == caller.group
        return self.number_of(stat.number if self.call.form == "pid" else stat.group) == self.numbers[1]

    def child(self, stat: Stat) -> Child:
        """A child, with its end."""
        held = self.waiting.get(stat.number, "")
        end = stat.how_ended if stat.is_zombie or held else ""
        return Child(self.number_of(stat.number) or 0, end, held)

    def birth(self) -> Birth:
        """What a fork would come to."""
        caller = self.world.tasks[self.numbers[0]]
        space = caller.children_space
        level = self.world.spaces[space].level + (self.call.form == "new")
        draws = tuple(self.draw(at) for at in self.world.outwards(space))
        return Birth(caller.space, draws, level, not self.world.has_live_init(space))

    def draw(self, space: int) -> Draw:
        """What a namespace would give."""
        users: dict[int, list[int]] = {}
        for root, user in self.uses():
            users.setdefault(self.world.number_in(root, space) or 0, []).append(user)
        held = {number: self.only_gone(those) for number, those in users.items()}
        taken = {number for number, cause in held.items() if not cause}
        pid_max = self.world.settings.pid_max or DEFAULT_PID_MAX
        number = first_free(self.world.spaces[space].last, taken, pid_max)
        return Draw(space, number, held.get(number or 0, ""))

    def uses(self) -> Iterator[tuple[int, int]]:
        """The identifiers in use, by root number, each with a process that uses it as its own, its group or its session."""
        for stat in self.stats.values():
            yield from ((root, stat.number) for root in {stat.number, stat.group, stat.session})

    def held_process(self) -> str:
        """The cause by which the kernel alone has the process that a question names."""
        return self.only_gone([number for number in self.stats if self.number_of(number) == self.numbers[1]])

    def held_target(self) -> str:
        """What the init waits for that a setpgid names."""
        causes = [cause for number, cause in self.waiting.items() if self.number_of(number) == self.numbers[1]]
        return causes[0] if causes else ""

    def held_group(self, number: int, session: int | None = None) -> str:
        """The cause by which only the kernel has processes in a group, those of one session or of all."""
        members = [stat for stat in self.stats.values() if self.number_of(stat.group) == number]
        return self.only_gone([stat.number for stat in members if session in (None, stat.session)])

    def own_session(self) -> int:
        """The root number of the caller's session."""
        caller = self.stats.get(self.numbers[0])
        return caller.session if caller else 0

    def next_number(self) -> str:
        """What `next` says without the inits that are gone."""
        left = [stat for number, stat in self.stats.items() if number not in self.gone]
        return self.world.least_in_use(self.call, left)

    def has_session(self) -> bool:
        """Whether the world's init is in a session of the world."""
        init = self.stats.get(1)
        return init is None or init.session != 0

    def control_level(self, at: int) -> int | None:
        """The level of the control group that a line names."""
        return level_of(self.world.groups, self.numbers[at])


PARTS: dict[str, Callable[[View], dict[str, Any]]] = {
    "wait": lambda view: {"children": view.children()},
    "fork": lambda view: {"birth": view.birth()},
    "setpgid": lambda view: {"held": view.held_target(), "held_group": view.held_group(view.numbers[2], view.own_session())},
    "setsid": lambda view: {"held_group": view.held_group(view.number_of(view.numbers[0]) or 0)},
    "getpgid": lambda view: {"held": view.held_process()},
    "getsid": lambda view: {"held": view.held_process()},
    "nspid": lambda view: {"held": view.held_process()},
    "next": lambda view: {"next_number": view.next_number()},
    "mk": lambda view: {"control_level": view.control_level(0)},
    "move": lambda view: {
        "is_live": view.world.is_live(view.numbers[0]),
        "is_zombie": view.world.is_zombie(view.numbers[0]),
        "control_level": view.control_level(1),
        "held": view.waiting.get(view.numbers[0], ""),
    },
}


def look_before(world: World, call: Call, moved: Mapping[str, Set[int]]) -> Sight:
    """What the world shows before a line. `moved` has the namespaces whose cursors refused forks have moved, by cause."""
    if call.caller is not None and call.caller not in world.tasks:
        return Sight()
    view = View(world, call)
    parts = PARTS[call.name](view) if call.name in PARTS else {}
    seen = {cause: frozenset(spaces) for cause, spaces in moved.items()}
    return Sight(moved=seen, has_session=view.has_session(), gone=tuple(view.gone.values()), **parts)
