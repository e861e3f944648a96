"""A table in pure Python for the tests of what is around a table: it has forks, control groups and queries of a few words, and no rules of Linux."""

from collections.abc import Callable, Sequence
from typing import TypeVar

from pidtab.answers import Form
from pidtab.calls import Call, Calls

T = TypeVar("T")


class StandIn(Calls):
    """Numbers its tasks from 1 on and its calls from 1 on. What is none of its calls is a bad line, and counts for nothing."""

    def __init__(self, pid_max: int = 32768) -> None:
        self.pid_max = pid_max
        self.tasks = {1}
        self.next_task = 2
        self.stamp = 0
        # Called with each line; what it answers is the answer in the place of a call.
        self.refuse: Callable[[bytes], str | None] = lambda line: None
        self._keep(lambda: None)

    @classmethod
    def from_dump(cls, text: bytes) -> "StandIn":
        """A table as a text of `dump` says."""
        words = [int(word) for word in text.split()]
        table = cls(words[0])
        table.next_task, table.stamp, table.tasks = words[1], words[2], set(words[3:])
        return table

    def dump(self) -> str:
        """All that there is to know of the table."""
        return f"{self.pid_max} {self.next_task} {self.stamp}\n" + "".join(f"{it}\n" for it in sorted(self.tasks))

    def close(self) -> None:
        if self._finish is not None:
            self._finish()

    def _make(self, call: Call, form: Form[T]) -> T:
        return form.read(self.line(call.line))

    def _answers(self, lines: Sequence[bytes]) -> tuple[str, ...]:
        self._check_owner()
        return tuple([self.refuse(line) or self._answer(line.decode("latin-1")) for line in lines])

    def _answer(self, line: str) -> str:
        name, *words = line.split(" ")
        known = {"fork": self._fork, "exit": self._exit, "getpid": self._getpid, "mk": self._mk, "count": self._count}
        if len(line) > 200 or name not in known or not words or not all(it.isdigit() for it in words):
            return "bad line"
        self.stamp += 1
        return known[name](int(words[0]))

    def _fork(self, caller: int) -> str:
        if caller not in self.tasks:
            return "ESRCH no-caller"
        if len(self.tasks) >= self.pid_max - 1:
            return "EAGAIN no-number 0"
        task, self.next_task = self.next_task, self.next_task + 1
        self.tasks.add(task)
        return f"child {task} root {task}"

    def _exit(self, caller: int) -> str:
        if caller not in self.tasks:
            return "ESRCH no-caller"
        self.tasks.discard(caller)
        return "ok"

    def _getpid(self, caller: int) -> str:
        return str(caller) if caller in self.tasks else "ESRCH no-caller"

    def _mk(self, parent: int) -> str:
        return f"control {self.stamp}"

    def _count(self, control: int) -> str:
        return str(len(self.tasks))

    def _list_text(self) -> str:
        self._check_owner()
        tasks = "".join(f"task {it} space 0 parent 0 group 1 session 1 control 0 live\n" for it in sorted(self.tasks))
        return f"{tasks}space 0 parent - cursor {self.next_task}\ncontrol 0 parent - limit max count {len(self.tasks)}\n"
