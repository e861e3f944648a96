"""Random calls for the tests of many hosts, and the answers to them as rows that `pidtab-replay` compares."""

import random
import threading
import time
from collections.abc import Callable, Sequence

from pidtab import Calls, LibraryFault, Process, Replicated, Submitted, Table, find_library
from pidtab.library import load_library

# Beside calls of all kinds, lines that are none.
OTHERS = ("frok", "fork 01", "fork 4294967296", "x" * 300, "getpid 1 ", "\udcff")


def table_kind() -> Callable[..., Calls]:
    """The table by the library, where that is there; else the one by the program."""
    try:
        load_library(find_library())
    except LibraryFault:
        return Process
    return Table


class Load:
    """Lines of one user, who has tasks and control groups of their own among those of the others."""

    def __init__(self, seed: object) -> None:
        self._random = random.Random(repr(seed))
        self._tasks = [1]
        self._controls = [0]

    def lines(self, count: int) -> list[str]:
        """The next lines."""
        return [self._line() for _ in range(count)]

    def take(self, lines: Sequence[str], answers: Sequence[str]) -> None:
        """Reads what was made."""
        for line, answer in zip(lines, answers, strict=True):
            words = answer.split(" ")
            if words[0] == "child":
                self._tasks.append(int(words[3]))
            elif words[0] == "control":
                self._controls.append(int(words[1]))
            elif line.startswith("exit") and answer == "ok":
                self._tasks.remove(int(line.split(" ")[1]))

    def _line(self) -> str:
        task, number = self._random.choice(self._tasks[-40:]), self._random.randrange(1, 200)
        control = self._random.choice(self._controls[-10:])
        forms = [
            f"fork {task}", f"fork {task}", f"fork {task} new", f"wait {task} any", "wait 1 any", f"getppid {task}", f"nspid {task} {number}",
            f"setpgid {task} 0 0", f"setsid {task}", f"next {task} group {number}", f"getpgid 1 {number}", f"join {task} {number}",
            f"subreaper {task} on", f"exec {task}", f"count {control}", f"move {task} {control}", f"limit {control} {number}", f"rm {control}",
        ]  # fmt: skip
        if len(self._tasks) > 30 or self._random.random() < 0.15:
            return f"exit {self._random.choice(self._tasks[1:] or [1])} {number}"
        if self._random.random() < 0.03:
            return f"mk {control}"
        return self._random.choice(OTHERS) if self._random.random() < 0.03 else self._random.choice(forms)


def with_times(submitted: Submitted, asked: int, answered: int) -> list[str]:
    """The rows of what was answered, with the times."""
    return [f"{row[:-1]}\t{asked}\t{answered}\n" for row in submitted.rows()]


class User(threading.Thread):
    """A thread that makes calls, some lines at a time, until it has made enough or its time is over. Its faults are kept."""

    def __init__(self, table: Replicated, load: Load, batch: int, calls: int, seconds: float, note: Callable[[list[str]], object]) -> None:
        super().__init__(daemon=True)
        self._table = table
        self._load = load
        self._batch = batch
        self._left = calls
        self._until = time.monotonic() + seconds
        self._note = note
        self.fault: BaseException | None = None

    def run(self) -> None:
        try:
            while self._left > 0 and time.monotonic() < self._until:
                self._ask()
        except BaseException as fault:
            self.fault = fault

    def _ask(self) -> None:
        lines = self._load.lines(self._batch)
        asked = time.monotonic_ns()
        submitted = self._table.submit(lines)
        answers = submitted.result()
        self._note(with_times(submitted, asked, time.monotonic_ns()))
        self._load.take(lines, answers)
        self._left -= len(lines)


def run_users(users: Sequence[User]) -> None:
    """Has users make their calls; raises what one of them met."""
    for user in users:
        user.start()
    for user in users:
        user.join()
    for user in users:
        if user.fault is not None:
            raise user.fault
