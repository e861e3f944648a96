"""What the calls on a table come to, kept outside of it: peaks and refusals of its control groups, and a key for each task."""

from collections import Counter
from collections.abc import Iterable

from pidtab.faults import BadHistory
from pidtab.history import Entry
from pidtab.table import Table

# The refusal that the pids controller counts as an event `max` of the control group.
LIMITED = "pids-limit"


class Accounts:
    """The peaks, refusals and keys of a table, from its calls in their order. It makes them again on a table of its own.

    `table` is that. `peaks` are the most tasks that each control group has had; `pids.peak` counts a fork too that only a group around it refused.
    `limited` are the forks that its own limit refused, as the `max` of `pids.events.local`; that of `pids.events` has those of the groups below it
    too. So where a group of two tasks is below one with `pids.max` 2, a third fork leaves its peak at 2, and `limited` has 1 for the outer group
    alone; the kernel's `pids.peak` of the inner one is 3. `refused` counts all refusals by their words. A key is the stamp of a task's fork, so no
    other task of the table ever has it; a task that was there before the first call has none.
    """

    def __init__(self, table: Table, first_stamp: int = 1) -> None:
        """Goes on from the table, which is its own from now on, and on which the next call has that stamp."""
        self.table = table
        self.stamp = first_stamp
        listing = table.list()
        self.peaks: dict[int, int] = {control.id: control.count for control in listing.controls}
        self.limited: Counter[int] = Counter()
        self.refused: Counter[str] = Counter()
        self.keys: dict[int, int] = {}
        self.calls = 0
        self._above: dict[int, int | None] = {control.id: control.parent for control in listing.controls}

    def add(self, entries: Iterable[Entry]) -> None:
        """Makes the calls, and counts. One with another answer than that of its entry is a `BadHistory`."""
        for entry in entries:
            (answer,) = self.table.answers([entry.line])
            if answer != entry.answer:
                raise BadHistory(f"call {entry.ordinal}: `{entry.line}` was answered `{entry.answer}`, and is answered `{answer}` now")
            self._count(entry.line.split(" "), answer)
            self.stamp += 1
            self.calls += 1

    def _count(self, line: list[str], answer: str) -> None:
        """Counts a call."""
        if answer[0] == "E":
            self._refuse(answer)
        elif line[0] == "fork":
            root = int(answer.split(" ")[3])
            self.keys[root] = self.stamp
            self._rise(self.table.ask.stat(1, root).control)
        elif line[0] == "move":
            self._rise(int(line[2]))
        elif line[0] == "mk":
            self._above[self.stamp], self.peaks[self.stamp] = int(line[1]), 0
        elif line[0] == "rm":
            removed = int(line[1])
            del self._above[removed], self.peaks[removed], self.limited[removed]

    def _refuse(self, answer: str) -> None:
        """Counts a refusal."""
        _, word, *id = answer.split(" ")
        self.refused[word] += 1
        if word == LIMITED:
            self.limited[int(id[0])] += 1

    def _rise(self, control: int | None) -> None:
        """Looks at the control group that a task has come into, and at those around it."""
        while control is not None:
            self.peaks[control] = max(self.peaks[control], self.table.ask.count(control))
            control = self._above[control]
