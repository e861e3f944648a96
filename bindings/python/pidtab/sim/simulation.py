"""Containers on a table, and their events in simulated time."""

import csv
import heapq
import io
from collections import Counter
from collections.abc import Callable, Iterable
from dataclasses import dataclass, field
from difflib import get_close_matches
from typing import Any, NamedTuple

from pidtab.calls import Calls
from pidtab.faults import Refusal
from pidtab.listing import Listing
from pidtab.sim.oci import Description

# The runtime is the init of the root namespace, which starts all containers and waits for them.
RUNTIME = 1

# What a shell says of a process that SIGKILL has ended.
KILLED = 137


@dataclass(frozen=True)
class Restart:
    """When a container whose init has ended is started again: after `first` seconds, each time `factor` times as many, at most `most`.

    Who has run for `reset` seconds begins with `first` anew.
    """

    first: float
    factor: float
    most: float
    reset: float

    def pause(self, before: float, ran: float) -> float:
        """The pause after one of `before` seconds, 0 for none, and a run of so many."""
        return self.first if before == 0 or ran >= self.reset else min(self.most, before * self.factor)


# As the documents of both say: `docker run --restart`, and `restartPolicy` of a pod.
DOCKER = Restart(0.1, 2, 60, 10)
KUBERNETES = Restart(10, 2, 300, 600)


@dataclass
class Container:
    """A container of a world. `tasks` are its live ones by their root numbers, the init first, each with its number in its own namespace."""

    name: str
    description: Description
    control: int
    init: int = 0
    tasks: dict[int, int] = field(default_factory=dict)
    parents: dict[int, int] = field(default_factory=dict)
    peak: int = 0
    starts: int = 0
    refused: Counter[str] = field(default_factory=Counter)

    @property
    def is_up(self) -> bool:
        """Whether its init lives."""
        return self.init in self.tasks


class NoContainer(KeyError):
    """No container has the name: it was never started."""

    def __init__(self, name: str, names: Iterable[str]) -> None:
        super().__init__(name)
        self.name = name
        self.like = get_close_matches(str(name), names, 1)

    def __str__(self) -> str:
        meant = f": is {self.like[0]!r} meant?" if self.like else ": it was never started"
        return f"no container {self.name!r}{meant}"


class Containers(dict[str, Container]):
    """Containers by their names."""

    def __missing__(self, name: str) -> Container:
        raise NoContainer(name, map(str, self))


class World:
    """Containers on a table, by name. It has no time: another engine of events may drive it as well as a `Simulation`.

    The table is used by nobody else meanwhile. A fork that the table refuses is counted by its word, and is no error.
    """

    def __init__(self, table: Calls) -> None:
        self.table = table
        self.containers = Containers()
        self.refused: Counter[str] = Counter()
        self.forks = 0

    def start(self, name: str, description: Description | None = None) -> bool:
        """Starts a container as a runtime does: its control group with its limit, its init, and the program. Whether there was room for the init.

        A container that was stopped is started again as it was described. One that is up is a ValueError, and so is one that nobody described.
        """
        container = self.containers.get(name) or self._make(name, description)
        if container.is_up:
            raise ValueError(f"the container {name} is up")
        try:
            init = self.table.fork(RUNTIME, container.description.own_namespace).root
        except Refusal as refusal:
            self._refuse(container, refusal)
            return False
        self.table.move(init, container.control)
        self.table.exec(init)
        container.init, container.starts = init, container.starts + 1
        # In a namespace of its own it is number 1, and else its number is the root's.
        container.tasks, container.parents = {init: 1 if container.description.own_namespace else init}, {init: RUNTIME}
        container.peak = max(container.peak, 1)
        return True

    def _make(self, name: str, description: Description | None) -> Container:
        if description is None:
            raise ValueError(f"nobody has described the container {name}")
        container = Container(name, description, self.table.mk())
        if description.limit is not None:
            self.table.limit(container.control, description.limit)
        self.containers[name] = container
        return container

    def _refuse(self, container: Container, refusal: Refusal) -> None:
        container.refused[refusal.word] += 1
        self.refused[refusal.word] += 1

    def fork(self, name: str, count: int = 1, parent: int = 0) -> int:
        """So many forks by a task of the container, or by its init: how many were not refused. 0 where the task is not there."""
        container = self.containers[name]
        tasks, parents, parent = container.tasks, container.parents, parent or container.init
        if parent not in tasks:
            return 0
        made = 0
        try:
            while made < count:
                forked = self.table.fork(parent)
                root = forked.root
                # Its parent is in the namespace, so that number is the one there.
                tasks[root], parents[root] = forked.child, parent
                made += 1
        except Refusal as refusal:
            self._refuse(container, refusal)
        self.forks += made
        if len(tasks) > container.peak:
            container.peak = len(tasks)
        return made

    def bomb(self, name: str) -> int:
        """Each live task of the container forks once, as in a fork bomb: how many of the forks were not refused."""
        return sum(self.fork(name, 1, root) for root in [*self.containers[name].tasks])

    def end(self, name: str, task: int = 0, status: int = 0) -> bool:
        """Ends a task, or the newest one that is not the init, and its parent waits for it. Whether there was one. The end of the init is a stop."""
        container = self.containers[name]
        tasks = container.tasks
        if task == 0 and len(tasks) > 1:
            task = next(reversed(tasks))
        if task not in tasks:
            return False
        if task == container.init:
            return self.stop(name, status)
        self._end(container, task, status)
        return True

    def _end(self, container: Container, task: int, status: int) -> None:
        number, parent = container.tasks.pop(task), container.parents.pop(task)
        self.table.exit(task, status)
        if parent not in container.tasks:
            # An orphan is the init's, or where it has no namespace of its own, the runtime's.
            parent = container.init if container.description.own_namespace else RUNTIME
        self.table.wait(parent, number)

    def stop(self, name: str, status: int = KILLED) -> bool:
        """Ends the init, and all of the container with it, and the runtime waits for it. Whether it was up.

        The end of a namespace's init is its teardown. Without a namespace of its own, each task is ended by itself, as `cgroup.kill` does.
        """
        container = self.containers[name]
        if not container.is_up:
            return False
        if not container.description.own_namespace:
            for task in [*container.tasks][:0:-1]:
                self._end(container, task, KILLED)
        self.table.exit(container.init, status)
        self.table.wait(RUNTIME, container.init)
        container.tasks, container.parents = {}, {}
        return True


class Sample(NamedTuple):
    """The counts of one moment: of tasks that live and of zombies, of containers that are up, and so far of forks, refused forks and starts."""

    time: float
    tasks: int
    zombies: int
    up: int
    forks: int
    refused: int
    starts: int
    watched: tuple[int, ...] = ()


# When it is, how many were put on the timeline before it, and what is called.
Event = tuple[float, int, Callable[..., object], tuple[Any, ...]]


class Moment(NamedTuple):
    """The table at one time."""

    time: float
    listing: Listing


class Simulation(World):
    """A world with a timeline in simulated seconds. Of two calls for one time, that which was put there first comes first."""

    def __init__(self, table: Calls, watch: Iterable[str] = ()) -> None:
        """Counts the tasks of the containers that are watched at each sample, too."""
        super().__init__(table)
        self.now = 0.0
        self.events = 0
        self.samples: list[Sample] = []
        self.moments: list[Moment] = []
        self.watch = tuple(watch)
        # What was put there before a run, the latest first once it is sorted, and a heap of what is put there amid it.
        self._planned: list[Event] = []
        self._soon: list[Event] = []
        self._put = 0
        self._runs = False
        self._restarts: dict[str, Restart] = {}
        self._pauses: dict[str, float] = {}
        self._started: dict[str, float] = {}

    def at(self, time: float, action: Callable[..., object], *arguments: Any) -> None:
        """Has a method, or any other function, be called at a time. One that has passed is a ValueError."""
        if not time >= self.now:
            raise ValueError(f"the time {time:g} has passed: it is {self.now:g}")
        self._put += 1
        event = float(time), self._put, action, arguments
        if self._runs:
            heapq.heappush(self._soon, event)
        else:
            self._planned.append(event)

    def every(self, pause: float, until: float, action: Callable[..., object], *arguments: Any) -> None:
        """Has it be called now, and then at each so many seconds, up to a time."""
        if not pause > 0:
            raise ValueError(f"a pause is above 0, not {pause}")
        begun, turns = self.now, int((until - self.now) / pause + 1e-9)
        for turn in range(turns + 1):
            self.at(begun + turn * pause, action, *arguments)

    def run(self) -> None:
        """Calls all that is on the timeline in its order. What one raises comes from here, and the rest stays for the next run."""
        planned, soon = sorted(self._planned + self._soon, reverse=True), list[Event]()
        self._planned, self._soon, self._runs = planned, soon, True
        try:
            while planned or soon:
                is_soon = soon and (not planned or soon[0] < planned[-1])
                self.now, _, action, arguments = heapq.heappop(soon) if is_soon else planned.pop()
                self.events += 1
                action(*arguments)
        finally:
            self._runs = False

    def keep_up(self, name: str, restart: Restart) -> None:
        """Has a container be started again whenever it has stopped."""
        self._restarts[name] = restart

    def start(self, name: str, description: Description | None = None) -> bool:
        """As a world does; one that is kept up and finds no room tries again."""
        self._started[name] = self.now
        return super().start(name, description) or self._again(name)

    def stop(self, name: str, status: int = KILLED) -> bool:
        """As a world does; one that is kept up is started again."""
        stopped = super().stop(name, status)
        if stopped:
            self._again(name)
        return stopped

    def _again(self, name: str) -> bool:
        restart = self._restarts.get(name)
        if restart is not None:
            pause = restart.pause(self._pauses.get(name, 0), self.now - self._started[name])
            self._pauses[name] = pause
            self.at(self.now + pause, self.start, name)
        return False

    def sample(self) -> None:
        """Takes the counts of now."""
        live = sum(len(it.tasks) for it in self.containers.values()) + 1
        counted = Counter(up=0, starts=0)
        for container in self.containers.values():
            counted.update(up=container.is_up, starts=container.starts)
        watched = tuple(len(self.containers[name].tasks) if name in self.containers else 0 for name in self.watch)
        zombies, refused = self.table.count() - live, sum(self.refused.values())
        self.samples.append(Sample(self.now, live, zombies, counted["up"], self.forks, refused, counted["starts"], watched))

    def picture(self) -> None:
        """Keeps the list of now among the moments. It costs a copy of the table."""
        self.moments.append(Moment(self.now, self.table.list()))

    def csv(self) -> str:
        """The samples, with a head: the time in seconds, the counts, and the tasks of each container that is watched."""
        text = io.StringIO()
        writer = csv.writer(text, lineterminator="\n")
        writer.writerow([*Sample._fields[:-1], *self.watch])
        writer.writerows([f"{it.time:g}", *it[1:-1], *it.watched] for it in self.samples)
        return text.getvalue()
