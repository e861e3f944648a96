"""A log in the memory of one process, for tests: it can repeat entries, lose what it acknowledges, and be late."""

import random
import threading
from collections.abc import Iterable, Iterator, Mapping, Sequence

from pidtab.changed import Changed
from pidtab.hosts.log import Cell, Cells, CutLog, Following, Progress
from pidtab.hosts.snapshots import load_behind

# How often each trouble comes, of 1.
CHANCE = 0.08

# The longest delay, in seconds.
LONGEST_DELAY = 0.004

# A follower waits so long before it says that nothing came.
IDLE = 0.5


class MemoryLog(CutLog):
    """Entries in a list. Without a seed all goes well.

    With one, appends and followers have troubles that the seed chooses: an append fails and its entry is not there, or is there, or comes later;
    an entry is there twice, or again behind later ones; a follower ends, is late, or has few entries at a time. A change of cells fails, and was
    done or not.
    """

    def __init__(self, seed: int | None = None) -> None:
        self._random = None if seed is None else random.Random(seed)
        self._entries: list[bytes] = []
        self._late: list[bytes] = []
        # How many entries were cut, before those that are here.
        self._cut = 0
        self._cells: dict[str, Cell] = {}
        self._changes = 0
        self._changed = Changed()

    def append(self, entry: bytes) -> int:
        """Puts an entry behind the others. After an OSError it is there or not."""
        if not isinstance(entry, bytes):
            raise TypeError(f"an entry is bytes, not {type(entry).__name__}")
        self._delay()
        with self._changed:
            self._bring_late()
            fault = self._trouble(entry)
            if fault is not None:
                raise fault
            self._put(entry)
            position = self._last()
            if self._comes():
                self._put(entry)
            if self._comes():
                self._late.append(entry)
            return position

    def follow(self, after: int) -> "MemoryFollowing":
        """All entries behind the position, and then each that comes."""
        return MemoryFollowing(self, after)

    def end(self) -> int:
        """The position of the last entry."""
        with self._changed:
            return self._last()

    @property
    def entries(self) -> Sequence[tuple[int, bytes]]:
        """All entries that are not cut with their positions, as they are now."""
        with self._changed:
            return list(enumerate(self._entries, start=self._cut + 1))

    def cells(self) -> "MemoryCells":
        """The cells beside the entries."""
        return MemoryCells(self)

    def entries_to(self, position: int) -> Iterator[Sequence[tuple[int, bytes]]]:
        """The entries up to a position."""
        yield [it for it in self.entries if it[0] <= position]

    def cut(self, position: int) -> int:
        """Takes the entries up to a position away."""
        with self._changed:
            count = max(0, position - self._cut)
            del self._entries[:count]
            self._cut += count
            return count

    def _last(self) -> int:
        return self._cut + len(self._entries)

    def _comes(self) -> bool:
        """Whether a trouble comes now."""
        return self._random is not None and self._random.random() < CHANCE

    def _delay(self) -> None:
        if self._random is not None:
            threading.Event().wait(self._random.random() * LONGEST_DELAY)

    def _put(self, entry: bytes) -> None:
        self._entries.append(entry)
        self._changed.notify_all()

    def _bring_late(self) -> None:
        """Brings some of the entries that are late."""
        while self._late and self._comes():
            self._put(self._late.pop(0))

    def _trouble(self, entry: bytes) -> OSError | None:
        """What goes wrong with an append, if anything does."""
        if self._comes():
            return ConnectionError("the log does not answer, and the entry is lost")
        if self._comes():
            self._late.append(entry)
            return TimeoutError("the log does not answer, and the entry comes later")
        if self._comes():
            self._put(entry)
            return TimeoutError("the log does not answer, and the entry is there")
        return None

    def _wait_for(self, following: "MemoryFollowing") -> Progress:
        """What comes behind the place of a follower."""
        self._changed.wait_for(lambda: following.closed or self._last() > following.place, IDLE)
        with self._changed:
            if self._comes():
                raise ConnectionError("the follower is cut off")
            if following.place == 0 or following.place < self._cut:
                loaded = load_behind(self.cells(), following.place)
                if loaded is not None:
                    return Progress(loaded[0], (), loaded[1])
            at = max(0, following.place - self._cut)
            most = self._random.randint(1, 5) if self._random else len(self._entries)
            found = list(enumerate(self._entries[at : at + most], start=self._cut + at + 1))
        return Progress(self._cut + at + len(found), found)


class MemoryFollowing(Following):
    """A walk over the entries of a `MemoryLog`."""

    def __init__(self, log: MemoryLog, after: int) -> None:
        self.place = after
        self.closed = False
        self._log = log

    def __next__(self) -> Progress:
        self._log._delay()
        progress = self._log._wait_for(self)
        if self.closed:
            raise StopIteration
        self.place = progress.position
        return progress

    def close(self) -> None:
        """Ends it: who waits in it waits no more."""
        self.closed = True
        self._log._changed.notify_all()


class MemoryCells(Cells):
    """The cells of a `MemoryLog`."""

    def __init__(self, log: MemoryLog) -> None:
        self._log = log

    def get(self, name: str) -> Cell:
        """A cell as it is."""
        with self._log._changed:
            return self._log._cells.get(name, Cell(name, None, 0))

    def names(self, start: str) -> list[str]:
        """The names that begin so."""
        with self._log._changed:
            return sorted(it for it in self._log._cells if it.startswith(start))

    def change(
        self, puts: Mapping[str, bytes], *, drops: Iterable[str] = (), entry: bytes = b"", unchanged: Sequence[Cell] = ()
    ) -> bool:
        """A change with the lock of the log."""
        log = self._log
        with log._changed:
            if log._comes():
                raise ConnectionError("the log does not answer, and nothing was changed")
            if any(self.get(it.name).version != it.version for it in unchanged):
                return False
            log._changes += 1
            for name, value in puts.items():
                log._cells[name] = Cell(name, value, log._changes)
            for start in drops:
                for name in self.names(start):
                    del log._cells[name]
            if entry:
                log._put(entry)
            if log._comes():
                raise TimeoutError("the log does not answer, and all was changed")
            return True
