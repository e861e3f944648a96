"""One worker of a table, who makes calls."""

import ctypes
from collections.abc import Callable
from contextlib import AbstractContextManager
from typing import TYPE_CHECKING

from pidtab.answers import Reaped
from pidtab.bounds import GREATEST_NUMBER
from pidtab.faults import TableClosed
from pidtab.number_calls import NumberCalls
from pidtab.raw import PidtabReply

if TYPE_CHECKING:
    from pidtab.table import Table

# No call has this ordinal.
NO_ORDINAL = GREATEST_NUMBER


class Seat(NumberCalls):
    """The calls of one worker of a table, from `Table.seat`. Where the table keeps a history they are recorded, each with its reply.

    Threads may share a seat: each call is answered what that call is answered. Then `ordinal` is that of the seat's latest call, whichever
    thread has made it; a thread that wants its own takes a seat of its own.

    `answers` makes up to 1024 recorded calls on end in one go: no call of another thread comes between them.

    An interrupt, as by Ctrl-C, never breaks a call: it was made or not begun. Where it was made and its answer lost, `ordinal` has moved, and
    `table.entry(seat.ordinal)` has the answer.
    """

    table: "Table"
    worker: int = -1

    def __init__(self, table: "Table", worker: int) -> None:
        self.table = table
        self.worker = worker
        self.pid_max = table.pid_max
        self.keep = table.keep
        self._closed = False
        self._labels = table._labels
        # The library writes it, so that no interrupt comes between a call and this.
        self._ordinal = ctypes.c_uint64(NO_ORDINAL)

    @property
    def ordinal(self) -> int | None:
        """The place of the seat's latest call in the history, counted from 0; None before the first, and without a history."""
        ordinal = self._ordinal.value
        return None if ordinal == NO_ORDINAL else ordinal

    def close(self) -> None:
        """Gives the seat up: it makes no more calls. The table stays open, and the seat is not handed out again."""
        # The second has a call look at the first.
        self._closed = self._left = True

    async def reap(self, caller: int, pid: int | None = None, *, own: bool = False, group: int | None = None) -> Reaped:
        """waitpid(2) as `wait`, without WNOHANG, for a loop of asyncio: waits until a child has ended, and takes it away. no-caller, no-child.

        No call is made before there is one. Meanwhile each call on the table costs one query for each that waits. It needs what `Table.changed` needs.
        """
        while True:
            seen = self.table.counts().recorded
            if self.would.wait(caller, pid, own=own, group=group) is not None:
                reaped = self.wait(caller, pid, own=own, group=group)
                # Another may have taken it away.
                if reaped is not None:
                    return reaped
            await self.table.changed(seen)

    def _settings(self) -> str:
        return f"worker={self.worker} pid_max={self.pid_max}"

    def _is_open(self) -> bool:
        return self.worker >= 0 and not self._closed and self.table._is_open()

    def _is_left(self) -> bool:
        return self.worker >= 0 and self.table._is_left()

    def _check_owner(self) -> None:
        self.table._check_open()
        if self._closed:
            raise TableClosed("the seat was closed")

    def _alone(self) -> AbstractContextManager[object]:
        return self.table._alone()

    def _question(self, name: str) -> Callable[..., int]:
        return self.table._question(name)

    def _call(self, call: bytes, reply: PidtabReply) -> int:
        return self.table._bounded("pidtab_call_by", self.worker, call, reply, self._ordinal)

    def _line(self, *given: object) -> int:
        return self.table._bounded("pidtab_line_by", self.worker, *given, self._ordinal)

    def _made(self, name: str, *given: object, told: tuple[object, ...] = ()) -> int:
        return self.table._bounded(f"pidtab_{name}_by", self.worker, *given, self._ordinal, *told)

    def _made_calls(self, *given: object) -> int:
        return self.table._bounded("pidtab_calls", self.worker, *given, self._ordinal)
