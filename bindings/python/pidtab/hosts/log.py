"""A log on which all hosts agree: what a table on many hosts needs of it."""

from abc import ABC, abstractmethod
from collections.abc import Iterable, Iterator, Mapping, Sequence
from typing import NamedTuple


class Progress(NamedTuple):
    """What has come of a log: entries with their positions, rising, and the position up to which these and all before are the whole log.

    Of a log that is cut it may be a snapshot, the text of all that the log up to the position has made. Then it has no entries.
    """

    position: int
    entries: Sequence[tuple[int, bytes]] = ()
    snapshot: bytes | None = None


class Following(Iterator[Progress]):
    """A walk over a log that has no end: it waits for what comes. What it raises is an OSError, and then a new one goes on; or a `LogFault`."""

    def __next__(self) -> Progress:
        """What comes next. Where nothing comes for some seconds, that is a progress without entries."""
        raise NotImplementedError

    def close(self) -> None:
        """Ends it, from any thread: who waits in it waits no more."""
        raise NotImplementedError


class Behind(OSError):
    """Nothing was put: what this host has read last is cut, and it has to read on first."""


class Log(ABC):
    """Entries in one order, the same for each host: `EtcdLog`, or another that keeps these promises. Positions are integers above 0, and rise.

    An entry whose `append` has answered is never lost, and stands before each entry whose `append` began later. None is changed or taken away.
    Threads may share a log. A `LogFault` says that it cannot be used any more.
    """

    @abstractmethod
    def append(self, entry: bytes) -> int:
        """Puts an entry of at most 600,000 bytes behind all others: its position.

        This is one try. After an OSError the entry is there, or is not, or comes later; the caller puts it again, so it may be there twice.
        """

    @abstractmethod
    def follow(self, after: int) -> Following:
        """All entries behind the position, each once and in their order, and then each that comes. 0 is before all of them.

        A generator of `Progress` does as well, if it yields at least once in some seconds.
        """

    @abstractmethod
    def end(self) -> int:
        """A position behind which there is no entry whose `append` had answered before this was asked. An OSError says nothing."""

    def mark(self) -> int:
        """The same, but each follower reaches it soon, also if no entry comes. It may cost a write, and puts no entry into the log."""
        return self.end()


class Cell(NamedTuple):
    """A value by a name, and a number that is another one behind each change. Where there is none, they are None and 0."""

    name: str
    value: bytes | None
    version: int


class Cells(ABC):
    """Values by names, which a log has beside its entries. A name has small letters, digits, `/` and `-`; a value at most 1,000,000 bytes."""

    @abstractmethod
    def get(self, name: str) -> Cell:
        """A cell as it is, which is not older than any change that was answered before."""

    @abstractmethod
    def names(self, start: str) -> list[str]:
        """The names that begin so, in their order."""

    @abstractmethod
    def change(
        self, puts: Mapping[str, bytes], *, drops: Iterable[str] = (), entry: bytes = b"", unchanged: Sequence[Cell] = ()
    ) -> bool:
        """Puts values, drops all cells whose names begin in some ways, and appends an entry, in one step.

        It is False, and then nothing was done, where a cell is not as it was read. After an OSError all of it was done, or nothing, or comes later.
        """


class CutLog(Log):
    """A log that can be cut behind snapshots, as `pidtab-keep` does. What `follow` is asked for and is no more, is a snapshot there."""

    @abstractmethod
    def cells(self) -> Cells:
        """The cells beside the entries."""

    @abstractmethod
    def entries_to(self, position: int) -> Iterator[Sequence[tuple[int, bytes]]]:
        """The entries up to a position that the log has been at, some at a time and in any order."""

    @abstractmethod
    def cut(self, position: int) -> int:
        """Takes the entries up to a position that the log has been at away, and no other: how many. It may be broken off, and done again."""
