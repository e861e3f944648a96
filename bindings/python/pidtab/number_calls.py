"""The calls of one worker on a table of this process, by functions of the library."""

import ctypes
from abc import abstractmethod
from collections.abc import Callable, Iterator, Sequence
from functools import partial
from itertools import groupby
from typing import TypeVar

from pidtab.answers import ANSWERS, Forked, Form, Stat
from pidtab.batch import read_call
from pidtab.bounds import check_range
from pidtab.calls import Call
from pidtab.effects import Effect, add_effects
from pidtab.labels import Labelled, Reads
from pidtab.native import GREATEST_PID, ROOT_INIT, Ask, AskableCalls, ToldCalls, Would, answer_of, fault_of, make_call, read_written
from pidtab.raw import DIFFERS, DONE, FORK, FORKED, Answer, PidtabReply

# How many calls are made in one go, and how many entries are read, while others wait.
BLOCK = 1024

T = TypeVar("T")


def tasks_of(replies: Sequence[PidtabReply]) -> list[int]:
    """The root numbers of the new tasks that replies tell. One that is not written yet is all zeroes, and 0 is no task's."""
    return [it.second for it in replies if it.kind == FORKED]


def task_of(answer: ctypes.Array[ctypes.c_char], size: ctypes.c_size_t) -> list[int]:
    """The same of the answer to a line."""
    words = answer[: size.value].split(b" ")
    return [int(words[3])] if words[0] == b"child" else []


class NumberCalls(Labelled, AskableCalls):
    """Calls by functions of the library, each of which answers a status."""

    # How many entries the history keeps; 0 where there is none.
    keep: int = 0

    # The functions that make a call, and that answer a line.
    _call: Callable[[bytes, PidtabReply], int]
    _line: Callable[..., int]

    @abstractmethod
    def _question(self, name: str) -> Callable[..., int]:
        """The function of the library with this name on the table."""

    @abstractmethod
    def _made(self, name: str, *given: object, told: tuple[object, ...] = ()) -> int:
        """The status of another function that makes a call of the worker, by its name: of what it is given, and of where it tells what the call did."""

    @abstractmethod
    def _made_calls(self, *given: object) -> int:
        """The status of the function that makes many calls of the worker in one go."""

    @property
    def ask(self) -> Ask:
        """Queries that are no calls: `table.ask.getpid(1)` answers as `table.getpid(1)` does, is not recorded, and shifts no later id."""
        return Ask(self)

    @property
    def would(self) -> Would:
        """What each call would answer: `table.would.fork(1)` has the numbers that `table.fork(1)` would give now."""
        return Would(self)

    @property
    def told(self) -> ToldCalls:
        """Calls that tell what they did: `table.told.exit(2)` is made as `table.exit(2)`, and tells who ended, who has another parent, who and what is gone."""
        return ToldCalls(self)

    def fork_at(self, caller: int, child: Forked, new: bool = False) -> bool:
        """fork(2), if the child gets exactly these numbers, as `would.fork` has told them. Else nothing changes, and it is False.

        So who prepares for a child before it is there has the one that he has prepared for, or none.
        """
        self._check_owner()
        told = Forked(*child)
        caller = check_range("caller", caller, 0, GREATEST_PID)
        number, root = check_range("child", told.child, 0, GREATEST_PID), check_range("root", told.root, 0, GREATEST_PID)
        reply = PidtabReply()
        # Another reply is that to no call.
        status = self._noted(
            lambda: tasks_of([reply] if (reply.first, reply.second) == (number, root) else []), self._made, "fork_at", caller, bool(new), number, root, reply
        )
        if status == DIFFERS:
            return False
        if status != DONE:
            raise fault_of(status, f"fork {caller}")
        return True

    def _make(self, call: Call, form: Form[T]) -> T:
        if self._left:
            self._check_owner()
        return make_call(call, form, self._call if call.operation != FORK else partial(self._fork, self._call))

    def _fork(self, make: Callable[[bytes, PidtabReply], int], call: bytes, reply: PidtabReply) -> int:
        """The status of a fork."""
        # It has the root number of an earlier one.
        reply.second = 0
        return self._noted(partial(tasks_of, [reply]), make, call, reply)

    def _noted(self, reads: Reads, make: Callable[..., int], *given: object) -> int:
        """The status of a call that may fork: its tasks have no labels of others."""
        labels = self._labels
        labels.under_way.add(reads)
        try:
            return make(*given)
        finally:
            labels.end(reads)

    def _make_told(self, call: Call, form: Form[T], effects: list[Effect]) -> T:
        """Makes a call, and adds what it did."""
        self._check_owner()

        def make(packed: bytes, reply: PidtabReply) -> int:
            return add_effects(effects, lambda *room: self._made("call_told", packed, reply, told=room))

        return make_call(call, form, make if call.operation != FORK else partial(self._fork, make))

    def _answers(self, lines: Sequence[bytes]) -> tuple[str, ...]:
        self._check_owner()
        # Without a history there is no function for many, and calls of other threads may come between two lines.
        if len(lines) == 1 or self.keep == 0:
            return tuple([self._answer(line) for line in lines])
        answers: list[str] = []
        for is_call, run in groupby([(line, read_call(line)) for line in lines], lambda it: it[1] is not None):
            if is_call:
                answers += self._make_all([call for _, call in run if call is not None])
            else:
                answers += [self._answer(line) for line, _ in run]
        return tuple(answers)

    def _answer(self, line: bytes) -> str:
        """The answer to a line."""
        room, size = Answer(), ctypes.c_size_t()
        status = self._noted(partial(task_of, room, size), self._line, line, len(line), room, len(room), size)
        if status != DONE:
            return answer_of(status)
        return ctypes.string_at(room, size.value).decode("ascii")

    def _make_all(self, calls: Sequence[bytes]) -> Iterator[str]:
        """The answers to calls, as many in one go as may be. One that cannot be made ends that, and the next begins after it."""
        begin = 0
        while begin < len(calls):
            block = calls[begin : begin + BLOCK]
            replies, made = (PidtabReply * len(block))(), ctypes.c_size_t()
            status = self._noted(partial(tasks_of, replies), self._made_calls, b"".join(block), len(block), replies, len(block), made)
            yield from [ANSWERS[it.kind](it) for it in replies[: made.value]]
            begin += made.value
            if status != DONE:
                yield answer_of(status)
                begin += 1

    def _list_text(self) -> str:
        self._check_owner()
        return read_written(self._question("list"), "list")

    def _look(self, task: int) -> Stat:
        return self.ask.stat(ROOT_INIT, task)
