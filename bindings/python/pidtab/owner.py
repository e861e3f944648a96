"""What has a table: it ends once, has no copies, and is left to its parent by a forked child."""

import os
import weakref
from abc import ABC, abstractmethod
from collections.abc import Callable
from types import TracebackType
from typing import NoReturn, Protocol, TypeVar

from pidtab.bounds import DEFAULT_PID_MAX
from pidtab.faults import TableClosed

Opened = TypeVar("Opened", bound="Owner")


class Finish(Protocol):
    """What ends a table once, as a `weakref.finalize` does. It is a type of its own, as that class has parameters for some checkers and none for others."""

    @property
    def alive(self) -> bool:
        """Whether the table is not ended yet, and not detached."""

    def __call__(self) -> object:
        """Ends the table, if it is alive."""

    def detach(self) -> object:
        """Leaves the table as it is."""


class Owner(ABC):
    """A table, or a way to one, that is closed at the end of its `with`."""

    pid_max: int = DEFAULT_PID_MAX

    # Whether this process is a forked child of the one that has the table.
    _left = False
    # Ends the table where nobody has it any more.
    _finish: Finish | None = None

    def __repr__(self) -> str:
        state = "of the parent process" if self._is_left() else "open" if self._is_open() else "closed"
        return f"<pidtab.{type(self).__name__} {self._settings()}, {state}>"

    def __enter__(self: Opened) -> Opened:
        return self

    def __exit__(
        self, kind: type[BaseException] | None, fault: BaseException | None, trace: TracebackType | None
    ) -> None:
        self.close()

    def __reduce__(self) -> NoReturn:
        # Python asks this for copies too.
        raise TypeError(f"a {type(self).__name__} is not copied or pickled: there is one table behind it")

    def _settings(self) -> str:
        """What it was made with, in words."""
        return f"pid_max={self.pid_max}"

    def _is_open(self) -> bool:
        """Whether it was not closed."""
        return self._finish is not None and self._finish.alive

    def _is_left(self) -> bool:
        """Whether the table is the parent's."""
        return self._left

    def _keep(self, end: Callable[..., object], *parts: object) -> None:
        """Has the table ended once nobody has it any more, and left to its parent by a forked child."""
        self._finish = weakref.finalize(self, end, *parts)
        TABLES.add(self)

    def _leave(self) -> None:
        """In a forked child: the table stays the parent's, and is not ended here."""
        self._left = True
        if self._finish is not None:
            self._finish.detach()

    def _check_owner(self) -> None:
        """Sees to it that the table is one of this process."""
        if self._left:
            raise TableClosed("this table is that of the parent process: a forked child opens its own")

    @abstractmethod
    def close(self) -> int | None:
        """Ends the table. A second time nothing is done."""


# The tables that are open, which a forked child leaves to its parent.
TABLES: "weakref.WeakSet[Owner]" = weakref.WeakSet()


def leave_tables() -> None:
    """Leaves all tables to the parent."""
    for table in list(TABLES):
        table._leave()


os.register_at_fork(after_in_child=leave_tables)
