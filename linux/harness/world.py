"""A world of real processes, one for each task of a script, which answers the script's lines by what the kernel does."""

import errno
import socket
import subprocess
import time
from collections.abc import Callable, Iterable, Iterator, Mapping
from dataclasses import dataclass
from pathlib import Path

from harness.falls import ENDS, NEVER, Forecast, Member
from harness.groups import Groups, Place
from harness.proc import Proc, Stat
from harness.script import DEFAULT_PID_MAX, Call

PROGRAM = Path(__file__).resolve().parent.parent / "build" / "world"
MOST_TASKS = 1000
PATIENCE = 3.0
LONGEST_MESSAGE = 4608
NOT_ASKED = "n/a"
STATUS_STUCK = 1


class WorldFault(RuntimeError):
    """The machine cannot make a world, or a world is broken."""


@dataclass
class Task:
    """A process, by what the harness was told at its birth or asked it to do."""

    number: int
    numbers: list[int]
    space: int
    orders: socket.socket
    children_space: int
    has_exited: bool = False
    is_subreaper: bool = False


@dataclass
class Space:
    """A namespace: the ones around it, its init's root number, the number it gave last, and its name among the kernel's."""

    parent: int | None
    level: int
    init: int
    last: int = 1
    link: str | None = None


@dataclass
class Settings:
    """How a world is made. `pid_max` is None where the machine's own is to stay. An init that does not lead is in group and session
    0, as the machine's first process."""

    pid_max: int | None = DEFAULT_PID_MAX
    place: Place | None = None
    own_user: bool = False
    most_tasks: int = MOST_TASKS
    run_endless_falls: bool = False
    init_leads: bool = True


def errno_name(number: int) -> str:
    """The name of an errno."""
    return errno.errorcode.get(number, f"errno {number}")


class Refused(Exception):
    """The kernel refused a call."""

    def __init__(self, number: int) -> None:
        super().__init__(errno_name(number))


def poll(is_done: Callable[[], bool], seconds: float = PATIENCE) -> bool:
    """Waits until something is so, and tells whether it came to be."""
    end = time.monotonic() + seconds
    pause = 0.00005
    while not is_done():
        if time.monotonic() > end:
            return False
        time.sleep(pause)
        pause = min(2 * pause, 0.005)
    return True


def ask(orders: socket.socket, message: str) -> str:
    """A task's answer to a message; Refused where that is an error."""
    try:
        orders.send(message.encode())
        answer = orders.recv(LONGEST_MESSAGE).decode()
    except (OSError, TimeoutError) as fault:
        raise WorldFault(f"a process does not answer `{message}`: {fault}") from fault
    return checked(answer, message)


def checked(answer: str, message: str) -> str:
    """An answer that is none of the errors."""
    word, _, rest = answer.partition(" ")
    if word == "error":
        raise Refused(int(rest))
    if word in ("", "broken", "unborn"):
        raise WorldFault(f"a process answers `{answer}` to `{message}`")
    return answer


class World:
    """A PID namespace with its own /proc and control group, whose processes a script moves. Ends with `close`, or with this
    process, however that ends."""

    def __init__(self, settings: Settings) -> None:
        if not PROGRAM.exists():
            raise WorldFault(f"{PROGRAM} is not built: run `make -C linux`")
        self.settings = settings
        self.stamp = 0
        self.tasks: dict[int, Task] = {}
        self.spaces: dict[int, Space] = {}
        self.held_falls: dict[int, str] = {}
        self.groups = Groups(settings.place, settings.most_tasks + 1) if settings.place else None
        self.keeper, self.life, orders = self.start()
        self.proc: Proc | None = None
        try:
            self.begin(orders)
        except BaseException:
            orders.close()
            self.close()
            raise

    # The world's beginning and end.

    def start(self) -> tuple[subprocess.Popen[bytes], socket.socket, socket.socket]:
        """Starts the keeper, and gives the sockets whose ends are the end of the world."""
        life, keeper_life = socket.socketpair()
        orders, init_orders = socket.socketpair(socket.AF_UNIX, socket.SOCK_SEQPACKET)
        folder = str(self.groups.root) if self.groups else "-"
        mode = "user" if self.settings.own_user else "root"
        session = "session" if self.settings.init_leads else "no-session"
        words = [str(PROGRAM), "keep", folder, mode, session, str(init_orders.fileno())]
        with keeper_life, init_orders:
            keeper = subprocess.Popen(words, stdin=keeper_life, pass_fds=[init_orders.fileno()])
        return keeper, life, orders

    def begin(self, orders: socket.socket) -> None:
        """Takes the init as the script's task 1."""
        orders.settimeout(PATIENCE)
        self.life.settimeout(PATIENCE)
        try:
            outer = int(ask(self.life, "begin").split()[1])
        except Refused as fault:
            raise WorldFault(f"no PID namespace can be made: {fault}") from fault
        self.outer_init = outer
        born = checked(orders.recv(LONGEST_MESSAGE).decode(), "begin").split()[1:]
        if born != ["1"]:
            raise WorldFault(f"the init's numbers are {born}")
        self.proc = Proc(outer)
        if self.groups:
            self.groups.admit(outer)
        self.spaces[0] = Space(None, 0, 1, 1, self.proc.namespace(1, "pid"))
        self.tasks[1] = Task(1, [1], 0, orders, 0)
        if self.settings.pid_max is not None:
            self.set_pid_max(self.settings.pid_max)

    def set_pid_max(self, pid_max: int) -> None:
        """Sets the namespace's own pid_max."""
        try:
            self.command(1, f"put {pid_max} /proc/sys/kernel/pid_max")
        except Refused as fault:
            raise WorldFault(f"no pid_max of {pid_max} can be set: {fault}") from fault

    def close(self) -> None:
        """Ends all processes of the world, and removes its control groups."""
        for task in self.tasks.values():
            task.orders.close()
        self.life.close()
        if self.proc:
            self.proc.close()
            self.proc = None
        if self.keeper.wait() == STATUS_STUCK:
            raise WorldFault("a process of the world does not end")

    def __enter__(self) -> "World":
        return self

    def __exit__(self, *fault: object) -> None:
        self.close()

    # What is known of the processes.

    def stat(self, number: int) -> Stat | None:
        """How a process stands."""
        assert self.proc
        return self.proc.stat(number)

    def is_live(self, number: int) -> bool:
        """Whether a task may be a caller."""
        task = self.tasks.get(number)
        if task is None or task.has_exited:
            return False
        stat = self.stat(number)
        return stat is not None and not stat.is_exiting

    def is_zombie(self, number: int) -> bool:
        """Whether a task has ended, and stands yet."""
        stat = self.stat(number)
        return stat is not None and stat.is_zombie

    def is_within(self, space: int, other: int) -> bool:
        """Whether a namespace is another or below it."""
        return other in self.outwards(space)

    def outwards(self, space: int) -> Iterator[int]:
        """A namespace and those around it, the root last."""
        at: int | None = space
        while at is not None:
            yield at
            at = self.spaces[at].parent

    def has_live_init(self, space: int) -> bool:
        """Whether a namespace's init lives, and no later process has its number."""
        init = self.spaces[space].init
        return self.is_live(init) and self.tasks[init].space == space

    def number_in(self, number: int, space: int) -> int | None:
        """The number, in a namespace, of the identifier with a root number; None for 0, which is outside of the world."""
        task = self.tasks.get(number)
        return task.numbers[self.spaces[space].level] if task and self.is_within(task.space, space) else None

    def command(self, number: int, message: str) -> str:
        """Has a task do what a message says."""
        return ask(self.tasks[number].orders, message)

    # Answers.

    def answer(self, call: Call) -> str:
        """The kernel's answer to a call: the words of docs/SCRIPT.md, with a refusal's errno alone; or `n/a` and why it was
        not asked."""
        self.stamp += 1
        if call.caller is not None and not self.is_live(call.caller):
            return "ESRCH no-caller"
        try:
            handler = getattr(self, f"do_{call.name}", None)
            answer = handler(call) if handler else self.plain(call)
            self.settle_held_falls()
            return answer
        except Refused as refusal:
            return str(refusal)
        except OSError as fault:
            return errno_name(fault.errno or 0)

    def plain(self, call: Call) -> str:
        """The calls that are one message to the caller: getpid, getppid, getpgid, getsid, setsid, setpgid, nspid."""
        words = " ".join(str(number) for number in call.numbers[1:])
        answer = self.command(call.numbers[0], f"{call.name} {words}")
        return answer.replace("\t", " ")

    def do_setpgid(self, call: Call) -> str:
        """setpgid; not for an init that waits for numbers, since another group may make it wait for itself."""
        caller, target, group = call.numbers
        space = self.tasks[caller].space
        dying = [self.number_in(number, space) for number in self.held_falls if not self.is_over(number)]
        return f"{NOT_ASKED} waiting-init" if target in dying and group not in (0, target) else self.plain(call)

    def do_wait(self, call: Call) -> str:
        """waitid with WNOHANG."""
        number = call.numbers[1] if len(call.numbers) > 1 else 0
        return self.command(call.numbers[0], f"wait {call.form} {number}")

    def do_fork(self, call: Call) -> str:
        """fork, or clone with CLONE_NEWPID."""
        caller = self.tasks[call.numbers[0]]
        assert self.proc
        if self.proc.count() >= self.settings.most_tasks:
            return f"{NOT_ASKED} too-many-tasks"
        is_new = call.form == "new"
        kind = (str(self.settings.pid_max) if self.settings.pid_max else "new") if is_new else "-"
        child, orders = self.fork(caller, kind)
        orders.settimeout(PATIENCE)
        numbers = [int(word) for word in checked(orders.recv(LONGEST_MESSAGE).decode(), call.line).split()[1:]]
        number, space = numbers[0], caller.children_space
        if number in self.tasks:
            self.tasks[number].orders.close()
        if is_new:
            space = self.stamp
            level = self.spaces[caller.children_space].level + 1
            self.spaces[space] = Space(caller.children_space, level, number)
            self.spaces[space].link = self.proc.namespace(number, "pid")
        self.tasks[number] = Task(number, numbers, space, orders, space)
        self.note_numbers(space, numbers)
        return f"child {child} root {number}"

    def fork(self, caller: Task, kind: str) -> tuple[int, socket.socket]:
        """Has a task fork, and takes the child's socket."""
        caller.orders.send(f"fork {kind}".encode())
        answer, files, _, _ = socket.recv_fds(caller.orders, LONGEST_MESSAGE, 1)
        words = checked(answer.decode(), f"fork {kind}").split()
        return int(words[1]), socket.socket(fileno=files[0])

    def note_numbers(self, space: int, numbers: list[int]) -> None:
        """Keeps the number that each namespace gave last."""
        for at in self.outwards(space):
            self.spaces[at].last = numbers[self.spaces[at].level]

    def do_exec(self, call: Call) -> str:
        """execve."""
        return self.command(call.numbers[0], "exec")

    def do_subreaper(self, call: Call) -> str:
        """prctl with PR_SET_CHILD_SUBREAPER."""
        task = self.tasks[call.numbers[0]]
        answer = self.command(task.number, f"subreaper {int(call.form == 'on')}")
        task.is_subreaper = call.form == "on"
        return answer

    def do_join(self, call: Call) -> str:
        """setns of a pidfd with CLONE_NEWPID."""
        task = self.tasks[call.numbers[0]]
        answer = self.command(task.number, f"join {call.numbers[1]}")
        target = self.find(task.space, call.numbers[1])
        task.children_space = self.tasks[target].space
        return answer

    def find(self, space: int, number: int) -> int:
        """The root number of the process with a number in a namespace."""
        for root in self.proc_all():
            if root in self.tasks and self.number_in(root, space) == number:
                return root
        raise WorldFault(f"no process has the number {number}")

    # Exits and falls.

    def do_exit(self, call: Call) -> str:
        """_exit, and then all that comes of it."""
        number, status = call.numbers
        if number == 1:
            return f"{NOT_ASKED} root-exit"
        task = self.tasks[number]
        outcome = self.forecast(number) if self.spaces[task.space].init == number else ENDS
        if outcome == NEVER and not (self.settings.run_endless_falls and self.can_help(number)):
            return f"{NOT_ASKED} endless-fall"
        task.orders.send(f"exit {status}".encode())
        task.has_exited = True
        self.settle(task, outcome)
        return "ok"

    def members(self, stats: Mapping[int, Stat]) -> Iterator[Member]:
        """Processes, as a forecast wants them."""
        for number, stat in stats.items():
            task = self.tasks[number]
            has_exited = task.has_exited or stat.is_exiting
            yield Member(number, task.space, stat.parent, stat.group, stat.is_zombie, has_exited)

    def forecast(self, init: int) -> str:
        """What would come of an init's exit: one of the words of `falls`."""
        return self.forecasts(self.proc_all()).outcome(init)

    def forecasts(self, stats: Mapping[int, Stat]) -> Forecast:
        """Forecasts for processes."""
        members = list(self.members(stats))
        space_of_name = {number: task.space for number, task in self.tasks.items()}
        inits = {id: space.init for id, space in self.spaces.items() if self.is_still_init(id)}
        return Forecast(members, space_of_name, self.is_within, inits)

    def is_still_init(self, space: int) -> bool:
        """Whether a namespace's init stands, and no later process has its number."""
        init = self.tasks[self.spaces[space].init]
        return init.space == space and self.stat(init.number) is not None

    def can_help(self, init: int) -> bool:
        """Whether the parent of each init that would be stuck could end its fall: live, outside, of its session, and the
        child has not executed."""
        stuck = self.forecasts(self.proc_all()).stuck(init)
        return all(self.can_be_helped(number, stuck) for number in stuck)

    def can_be_helped(self, number: int, stuck: list[int]) -> bool:
        """Whether a live parent could put a stuck init into a group of its own."""
        stat = self.stat(number)
        parent = self.stat(stat.parent) if stat else None
        if stat is None or parent is None or parent.is_exiting or parent.session != stat.session:
            return False
        dies_too = any(self.is_within(self.tasks[parent.number].space, self.tasks[other].space) for other in stuck)
        return not dies_too and bool(stat.flags & 0x40)

    def settle(self, task: Task, outcome: str) -> None:
        """Waits until nothing moves: the task is a zombie, and so are all others that a fall kills, or they are gone."""
        space = self.spaces[task.space]
        if space.init != task.number:
            self.await_end(task.number)
            return
        inside = [other for other in self.tasks.values() if self.is_within(other.space, task.space)]
        if not poll(lambda: all(self.has_settled(other) for other in inside)):
            raise WorldFault(f"the fall of process {task.number} does not come to rest")
        if outcome != ENDS:
            self.held_falls[task.number] = outcome
            time.sleep(0.01)
        else:
            self.await_end(task.number)

    def waiting_inits(self, stats: Mapping[int, Stat]) -> dict[int, str]:
        """The inits among processes that have exited and are no zombies, each with its outcome."""
        self.forget_ended_falls()
        if not self.held_falls:
            return {}
        forecasts = self.forecasts(stats)
        exiting = [number for number, stat in stats.items() if stat.is_exiting and not stat.is_zombie]
        return {number: forecasts.outcome(number) for number in exiting if self.spaces[self.tasks[number].space].init == number}

    def settle_held_falls(self) -> None:
        """Waits for the inits that nothing holds any more, those inside of a held fall among them."""
        for number, outcome in self.waiting_inits(self.proc_all()).items():
            if outcome == ENDS:
                self.await_end(number)
        self.forget_ended_falls()

    def forget_ended_falls(self) -> None:
        """Keeps only the falls that are held yet."""
        self.held_falls = {number: held for number, held in self.held_falls.items() if not self.is_over(number)}

    def await_end(self, number: int) -> None:
        """Waits until a process is a zombie or gone."""
        if not poll(lambda: self.is_over(number)):
            raise WorldFault(f"process {number} does not end, as it should")

    def is_over(self, number: int) -> bool:
        """Whether a process is a zombie or gone."""
        stat = self.stat(number)
        return stat is None or stat.is_zombie

    def has_settled(self, task: Task) -> bool:
        """Whether a task of a falling namespace has come to rest: over, or an init that waits."""
        stat = self.stat(task.number)
        return stat is None or stat.is_at_rest

    def open_causes(self) -> frozenset[str]:
        """The falls that have not come to their end, by what they wait for."""
        self.forget_ended_falls()
        return frozenset(self.held_falls.values())

    # Cursors.

    def set_cursors_back(self, caller: int) -> bool:
        """After a refused fork of a caller, gives each namespace that the child would have been in the cursor it had before.
        Whether that could be done: it needs a kernel with CONFIG_CHECKPOINT_RESTORE."""
        try:
            for at in filter(self.has_live_init, self.outwards(self.tasks[caller].children_space)):
                space = self.spaces[at]
                self.command(space.init, f"put {space.last} /proc/sys/kernel/ns_last_pid")
        except Refused:
            return False
        return True

    # Control groups.

    def need_groups(self) -> Groups:
        """The world's control groups."""
        if self.groups is None:
            raise WorldFault("this machine gives no control group with the pids controller")
        return self.groups

    def do_mk(self, call: Call) -> str:
        """mkdir."""
        self.need_groups().make(call.numbers[0], self.stamp)
        return f"control {self.stamp}"

    def do_rm(self, call: Call) -> str:
        """rmdir."""
        if call.numbers[0] == 0:
            return f"{NOT_ASKED} root-control"
        self.need_groups().remove(call.numbers[0])
        return "ok"

    def do_limit(self, call: Call) -> str:
        """A write to pids.max. That of the root is looked for where the hierarchy begins, and never written."""
        control = call.numbers[0]
        groups = self.need_groups()
        if control == 0:
            return f"{NOT_ASKED} root-control" if groups.hierarchy_has_limit() else "ENOENT"
        groups.set_limit(control, None if call.form == "max" else call.numbers[1])
        return "ok"

    def do_move(self, call: Call) -> str:
        """A write to cgroup.procs by the init, which knows the task by its root number."""
        task, control = call.numbers
        return self.command(1, f"put {task} {self.need_groups().folder(control) / 'cgroup.procs'}")

    def do_count(self, call: Call) -> str:
        """A read of pids.current."""
        return str(self.need_groups().count(call.numbers[0]))

    # What the kernel's tables hold.

    def proc_all(self) -> dict[int, Stat]:
        """All processes of the world."""
        assert self.proc
        return self.proc.all()

    def do_next(self, call: Call) -> str:
        """The least number in use, which no system call tells: from the tasks, groups and sessions of all processes."""
        return self.least_in_use(call, self.proc_all().values())

    def least_in_use(self, call: Call, stats: Iterable[Stat]) -> str:
        """The answer to `next` of these processes."""
        space = self.tasks[call.numbers[0]].space
        roots = {getattr(stat, {"task": "number"}.get(call.form, call.form)) for stat in stats}
        numbers = [self.number_in(root, space) for root in roots]
        above = [number for number in numbers if number is not None and number >= call.numbers[1]]
        return str(min(above)) if above else "end"
