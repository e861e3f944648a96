"""What a table on many hosts is watched by: each call of all hosts as it comes, and numbers."""

from collections import deque
from collections.abc import Iterator, Sequence
from typing import TYPE_CHECKING, NamedTuple

from pidtab.faults import NotKept
from pidtab.hosts.log_entries import Asked, read_entry

if TYPE_CHECKING:
    from pidtab.hosts.replica import Replica

# So many changes a feed keeps for who does not take them.
MOST_CHANGES = 100_000


class Change(NamedTuple):
    """What an entry has made, of any host: its position, its session and number, and each line with its answer.

    One with the session 0 has no lines: a snapshot has come in the place of what was before its position, and is not told.
    """

    position: int
    session: int
    sequence: int
    calls: Sequence[tuple[str, str]]


class Changes(Iterator[Change]):
    """Each change from now on, in the log's order, each once. It waits for the next one, and ends where the table is closed."""

    def __init__(self, replica: "Replica") -> None:
        self._replica = replica
        self._came: deque[Change] = deque()
        self._behind = replica.place[0]
        self._lost = self._closed = False
        replica.feeds = [*replica.feeds, self]

    def __next__(self) -> Change:
        """The next one. What stops the table is raised here; a `NotKept`, where too many were not taken: then take a new feed."""
        replica = self._replica
        replica.check_thread()
        replica.changed.wait_for(lambda: self._came or self._closed or replica.stopped)
        if self._lost:
            raise NotKept(f"more than {MOST_CHANGES} changes were not taken, and are lost")
        if self._came:
            return self._came.popleft()
        if not self._closed and replica.fault is not None:
            replica.check_open()
        raise StopIteration

    def close(self) -> None:
        """Takes no more of them. A second time nothing is done."""
        self._closed = True
        self._replica.feeds = [it for it in self._replica.feeds if it is not self]
        self._replica.changed.notify_all()

    def put(self, change: Change) -> None:
        """Tells of a change. What comes again, as behind a table that was made anew, is told once."""
        if change.position <= self._behind:
            return
        self._behind = change.position
        if len(self._came) >= MOST_CHANGES:
            self._lost = True
            self.close()
        else:
            self._came.append(change)


def change_of(position: int, data: bytes, answers: Sequence[str]) -> Change:
    """What an entry of calls has made."""
    asked = read_entry(data)
    assert isinstance(asked, Asked)
    lines = [it.decode("utf-8", "surrogateescape") for it in asked.lines]
    return Change(position, asked.session, asked.sequence, tuple(zip(lines, answers)))


class Numbers(NamedTuple):
    """How a host of a table does, as it is now. Ages are seconds."""

    position: int
    """The position of the last entry that it has applied."""
    calls: int
    """How many lines the log has made."""
    waiting: int
    """How many submits have no answer yet."""
    lag: float
    """How long the oldest of these waits; 0 where none does."""
    silence: float
    """For how long nothing was heard of the log, which says something each few seconds."""
    retries: int
    """How often the log did not do what was asked, and was asked again."""
    not_known: int
    """How many submits have got a NotKnown."""
    replays: int
    """How often the table was made anew for want of memory."""
    snapshot_age: float | None
    """Since when the last snapshot is announced, or was loaded; None where none was since this host began."""
    trouble: str
    """What the log said last that it could not do; empty where it does."""

    def prometheus(self, table: str) -> str:
        """All numbers as the text that Prometheus reads, each with the name of the table as a label."""
        label = table.replace("\\", "\\\\").replace('"', '\\"').replace("\n", "\\n")
        return "".join(
            f"# HELP pidtab_{name} {words}\n# TYPE pidtab_{name} {kind}\npidtab_{name}{{table=\"{label}\"}} {value}\n"
            for name, kind, words, value in self._rows()
        )

    def _rows(self) -> list[tuple[str, str, str, float]]:
        return [
            ("position", "gauge", "Position of the last entry applied here.", self.position),
            ("calls_total", "counter", "Lines that the log has made.", self.calls),
            ("waiting", "gauge", "Submits without an answer.", self.waiting),
            ("lag_seconds", "gauge", "How long the oldest of them waits.", round(self.lag, 3)),
            ("silence_seconds", "gauge", "Since when nothing was heard of the log.", round(self.silence, 3)),
            ("retries_total", "counter", "What the log did not do at the first try.", self.retries),
            ("not_known_total", "counter", "Submits that have got no answer.", self.not_known),
            ("replays_total", "counter", "How often the table was made anew.", self.replays),
            ("snapshot_age_seconds", "gauge", "Since when the last snapshot is there.", float("nan") if self.snapshot_age is None else round(self.snapshot_age, 3)),
            ("trouble", "gauge", "1 where the log does not do what is asked.", int(bool(self.trouble))),
        ]
