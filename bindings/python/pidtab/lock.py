"""The lock of a table that many threads use, for several calls in one go."""

import weakref
from collections import deque
from collections.abc import Callable
from functools import partial
from itertools import compress
from operator import contains
from threading import get_ident
from types import TracebackType
from typing import TYPE_CHECKING

from pidtab.hold import Hold, Inside

if TYPE_CHECKING:
    from pidtab.table import Table


class Lock:
    """What `Table.lock` answers: a thread has the lock of the table within the `with` of it.

    The lock is taken, and given back, in one step of C with the note of who has it, so a handler of a signal comes before both or after both. One that
    is taken, and that nobody has any more, is given back by a step of C too: an interrupt may come before the `with` has it, or amid its end.
    """

    def __init__(self, table: "Table") -> None:
        self._table = table
        # It alone keeps no table from being freed.
        self._hold: weakref.ref[Hold] | None = None

    def __enter__(self) -> "Table":
        hold, thread = self._table._check_waits(), get_ident()
        self._hold = weakref.ref(hold)
        leave: Callable[[int, None], Inside | None] = hold.inside.pop
        gives_back = map(hold.functions.pidtab_unlock, compress([hold.at], map(leave, [thread], [None])))
        # To find out whether something is among what this gives, all of it is taken.
        taker: weakref.ref[object] = weakref.ref(self, partial(contains, gives_back))
        try:
            hold.inside.update(zip([thread], zip(map(hold.functions.pidtab_lock, [hold.at]), [taker], [gives_back], [hold])))
        except BaseException:
            self._give_back()
            raise
        return self._table

    def __exit__(self, kind: type[BaseException] | None, fault: BaseException | None, trace: TracebackType | None) -> None:
        self._give_back()

    def _give_back(self) -> None:
        """Gives the lock back, if this thread has taken it by this, and it is not that of the parent process."""
        hold = None if self._hold is None else self._hold()
        inside = None if hold is None else hold.inside.get(get_ident())
        if inside is None or self._table._is_left():
            return
        _, taker, gives_back, _ = inside
        if taker() is self:
            deque(gives_back, maxlen=0)
