"""Random scripts, made line by line with a look at the world, so that most lines ask something that can be granted, and few
lead where the two states part."""

import random
from collections.abc import Callable

from harness.falls import ENDS, NEVER
from harness.proc import Stat
from harness.script import DEFAULT_PID_MAX, LEAST_PID_MAX
from harness.world import World

ODD_NUMBERS = (0, 1, 2, 300, 301, 2**31 - 1, 2**31, 2**32 - 1)
BAD_LINES = ("fork", "fork 01", "exit 2 256", "setpgid 1 0 -0", "mk -1", "fork  1", "limit 0 no", "")
MOST_CROWD = 24
RARELY = 0.03
OFTEN = 0.2


class Chooser:
    """The lines of one seed. `pid_max` is the script's; a small one is first walked up to, so that numbers come round."""

    def __init__(self, seed: int, free_pid_max: bool, with_groups: bool) -> None:
        self.dice = random.Random(seed)
        self.with_groups = with_groups
        is_small = free_pid_max and self.dice.random() < 0.25
        self.pid_max = LEAST_PID_MAX + self.dice.randint(4, 20) if is_small else DEFAULT_PID_MAX
        self.walk = LEAST_PID_MAX - self.dice.randint(2, 12) if is_small else 0
        self.waiting: list[str] = []
        self.stats: dict[int, Stat] = {}
        self.kinds = self.kinds_of_lines()

    def kinds_of_lines(self) -> tuple[list[Callable[[World, int], str]], list[float]]:
        """What makes a line, and how often it is taken; each seed has likings of its own."""
        weights: dict[Callable[[World, int], str], float] = {
            self.fork: 16, self.fork_new: 5, self.exit: 12, self.wait: 14, self.setpgid: 10, self.setsid: 3, self.exec: 2,
            self.getppid: 3, self.of_number: 8, self.next: 4, self.join: 4, self.subreaper: 4, self.getpid: 1,
        }
        if self.with_groups:
            weights |= {self.mk: 2, self.rm: 2, self.limit: 4, self.move: 5, self.count: 3}
        return list(weights), [weight * self.dice.uniform(0.3, 1.7) for weight in weights.values()]

    def line(self, world: World) -> str:
        """The next line."""
        if self.walk > 0 and not self.waiting:
            self.walk -= 1
            number = world.spaces[0].last + 1
            self.waiting = ["fork 1", f"exit {number} 0", f"wait 1 pid {number}"]
        if self.waiting:
            return self.waiting.pop(0)
        self.stats = world.proc_all()
        if self.rare():
            return self.dice.choice(BAD_LINES)
        makers, weights = self.kinds
        return self.dice.choices(makers, weights)[0](world, self.caller(world))

    def rare(self) -> bool:
        """Whether something odd is to come."""
        return self.dice.random() < RARELY

    # Who and what.

    def caller(self, world: World) -> int:
        """A live task, by its root number; rarely any number."""
        if self.rare():
            return self.dice.choice([*world.tasks, *ODD_NUMBERS])
        return self.dice.choice([number for number in self.stats if world.is_live(number)])

    def number(self, world: World, caller: int) -> int:
        """A process number in the caller's namespace: that of a task, or of any identifier, or an odd one."""
        if self.dice.random() < 2 * RARELY or caller not in world.tasks:
            return self.dice.choice(ODD_NUMBERS)
        space = world.tasks[caller].space
        pool = list(self.stats) if self.dice.random() < 0.85 else list(world.tasks)
        numbers = [world.number_in(number, space) for number in pool]
        return self.dice.choice([number for number in numbers if number is not None] or [1])

    def relative(self, world: World, caller: int) -> int:
        """The number of a child of the caller's, or else of any task."""
        children = [number for number, stat in self.stats.items() if stat.parent == caller and caller in world.tasks]
        if not children or self.dice.random() < 0.3:
            return self.number(world, caller)
        return world.number_in(self.dice.choice(children), world.tasks[caller].space) or 1

    def control(self, world: World) -> int:
        """The id of a control group; rarely one that is none."""
        known = list(world.groups.folders) if world.groups else [0]
        return self.dice.randint(1, 200) if self.rare() else self.dice.choice(known)

    # Lines, each of one kind.

    def fork(self, world: World, caller: int) -> str:
        """A fork, or an exit where there is a crowd."""
        return self.exit(world, caller) if len(self.stats) > MOST_CROWD else f"fork {caller}"

    def fork_new(self, world: World, caller: int) -> str:
        """A fork into a new namespace, more rarely the deeper it would be."""
        level = world.spaces[world.tasks[caller].children_space].level if caller in world.tasks else 0
        is_deep = self.dice.random() < level / 10
        return self.fork(world, caller) if is_deep or len(self.stats) > MOST_CROWD else f"fork {caller} new"

    def exit(self, world: World, caller: int) -> str:
        """An exit; of an init only where its fall ends, as a rule."""
        status = self.dice.choice([0, 1, 7, 255])
        if caller == 1 and not self.rare():
            return "wait 1 any" if self.has_one_zombie(1) else "getpid 1"
        if world.is_live(caller) and world.spaces[world.tasks[caller].space].init == caller and caller != 1:
            outcome = world.forecast(caller)
            if outcome == NEVER or (outcome != ENDS and self.dice.random() > OFTEN):
                return f"setpgid {caller} 0 0"
        return f"exit {caller} {status}"

    def zombies(self, caller: int) -> list[int]:
        """The ended children of a task."""
        return [number for number, stat in self.stats.items() if stat.parent == caller and stat.is_zombie]

    def has_one_zombie(self, caller: int) -> bool:
        """Whether a wait has no choice."""
        return len(self.zombies(caller)) <= 1

    def wait(self, world: World, caller: int) -> str:
        """A wait, mostly by one who has an ended child; by number where several have ended, as a rule."""
        parents = [number for number in self.stats if world.is_live(number) and self.zombies(number)]
        if parents and self.dice.random() < 0.7:
            caller = self.dice.choice(parents)
        number = self.relative(world, caller)
        zombies = self.zombies(caller)
        if zombies and caller in world.tasks and self.dice.random() < 0.8:
            number = world.number_in(self.dice.choice(zombies), world.tasks[caller].space) or number
        if not self.has_one_zombie(caller) and not self.rare():
            return f"wait {caller} pid {number}"
        group = 1 if number == 0 and not self.rare() else number
        forms = ["any", "own", f"pid {number}", f"group {group}", f"group {self.group_of(world, caller)}"]
        return f"wait {caller} {self.dice.choice(forms)}"

    def group_of(self, world: World, caller: int) -> int:
        """The group of a child of the caller's, by its number there."""
        groups = [stat.group for stat in self.stats.values() if stat.parent == caller]
        if not groups or caller not in world.tasks:
            return 1
        return world.number_in(self.dice.choice(groups), world.tasks[caller].space) or 1

    def setpgid(self, world: World, caller: int) -> str:
        """A group, new or old, for the caller or a child."""
        target = self.dice.choice([0, self.relative(world, caller), self.number(world, caller)])
        group = self.dice.choice([0, target, self.group_of(world, caller), self.number(world, caller)])
        if self.rare():
            target, group = self.dice.choice([(-1, 0), (-5, 3), (target, -1), (0, 99)])
        least, most = -(2**31), 2**31 - 1
        return f"setpgid {caller} {min(max(target, least), most)} {min(max(group, least), most)}"

    def setsid(self, world: World, caller: int) -> str:
        """A new session."""
        return f"setsid {caller}"

    def exec(self, world: World, caller: int) -> str:
        """A new program."""
        return f"exec {caller}"

    def getpid(self, world: World, caller: int) -> str:
        """The caller's number."""
        return f"getpid {caller}"

    def getppid(self, world: World, caller: int) -> str:
        """The number of the caller's parent."""
        return f"getppid {caller}"

    def of_number(self, world: World, caller: int) -> str:
        """A question about another task."""
        return f"{self.dice.choice(['getpgid', 'getsid', 'nspid'])} {caller} {self.number(world, caller)}"

    def next(self, world: World, caller: int) -> str:
        """The next number in use."""
        return f"next {caller} {self.dice.choice(['task', 'group', 'session'])} {self.number(world, caller)}"

    def join(self, world: World, caller: int) -> str:
        """Another namespace for the caller's children, or its own again."""
        own = world.tasks[caller].numbers[-1] if caller in world.tasks else 1
        return f"join {caller} {own if self.dice.random() < 0.3 else self.number(world, caller)}"

    def subreaper(self, world: World, caller: int) -> str:
        """The mark, on or off."""
        return f"subreaper {caller} {self.dice.choice(['on', 'on', 'off'])}"

    def mk(self, world: World, caller: int) -> str:
        """A new control group."""
        return f"mk {self.control(world)}"

    def lower_control(self, world: World) -> int:
        """The id of a control group below the root; rarely the root's, or one that is none. 0 where there is none yet."""
        known = [id for id in (world.groups.folders if world.groups else []) if id != 0]
        return self.control(world) if self.rare() or not known else self.dice.choice(known)

    def rm(self, world: World, caller: int) -> str:
        """A control group less; one more, where there is none."""
        control = self.lower_control(world)
        return f"rm {control}" if control or self.rare() else self.mk(world, caller)

    def limit(self, world: World, caller: int) -> str:
        """A limit, mostly near the count; a control group, where there is none."""
        control = self.lower_control(world)
        if control == 0 and not self.rare():
            return self.mk(world, caller)
        assert world.groups
        count = world.groups.count(control) if control in world.groups.folders else 3
        near = max(0, count + self.dice.randint(-1, 3))
        return f"limit {control} {self.dice.choice([near, near, near + 3, 'max', 'max', 4194304, 4194305])}"

    def move(self, world: World, caller: int) -> str:
        """A task into another control group."""
        task = self.dice.choice(list(self.stats)) if self.rare() else self.caller(world)
        return f"move {task} {self.control(world)}"

    def count(self, world: World, caller: int) -> str:
        """How many tasks a control group has."""
        return f"count {self.control(world)}"
