"""The history of a table: its recorded calls, as lines with their answers."""

import ctypes
from collections.abc import Iterator, Sequence
from typing import TYPE_CHECKING, NamedTuple

from pidtab.answers import ANSWERS
from pidtab.bounds import GREATEST_NUMBER, check_range
from pidtab.faults import NotKept
from pidtab.hold import Held
from pidtab.native import check, state_of, unpack
from pidtab.number_calls import BLOCK
from pidtab.raw import AGAIN, DIFFERS, NO_HISTORY, PidtabCall, PidtabEntry, PidtabReply

if TYPE_CHECKING:
    from pidtab.table import Table


class Counts(NamedTuple):
    """The ordinal of the first kept entry, and how many calls were recorded, the cut ones too: so that is the ordinal of the next call."""

    first_kept: int
    recorded: int


class Entry(NamedTuple):
    """A recorded call: its place in the history, counted from 0, the worker that made it, its line, and the answer to the line.

    Both are in the script language, also where the call was made by a method.
    """

    ordinal: int
    worker: int
    line: str
    answer: str


def read_entry(ordinal: int, worker: int, call: PidtabCall, reply: PidtabReply) -> Entry:
    """The entry that the numbers are."""
    return Entry(ordinal, worker, unpack(call).line, ANSWERS[reply.kind](reply))


class History(Held):
    """What a table keeps of its calls. Of a table without a history each of these is a `NoHistory`."""

    keep: int = 0
    workers: int = 1

    def counts(self) -> Counts:
        """The ordinal of the first kept entry, and how many calls were recorded, both of one moment."""
        first_kept, recorded = ctypes.c_uint64(), ctypes.c_uint64()
        check(self._status("pidtab_counts", first_kept, recorded), "counts")
        return Counts(first_kept.value, recorded.value)

    def worker(self, number: int) -> int:
        """How many calls of the worker were recorded, the cut ones too."""
        if self.keep == 0:
            raise state_of(NO_HISTORY)
        number = check_range("worker", number, 0, self.workers - 1)
        calls = ctypes.c_uint64()
        check(self._status("pidtab_worker", number, calls), f"worker {number}")
        return calls.value

    def entry(self, ordinal: int) -> Entry:
        """The recorded call with the ordinal; `NotKept` where it was cut away or is not reached yet. It costs the same for each."""
        ordinal = check_range("ordinal", ordinal, 0, GREATEST_NUMBER)
        worker, call, reply = ctypes.c_uint64(), PidtabCall(), PidtabReply()
        check(self._status("pidtab_entry", ordinal, worker, call, reply), f"entry {ordinal}")
        return read_entry(ordinal, worker.value, call, reply)

    def entries(self, start: int | None = None) -> Iterator[Entry]:
        """The recorded calls from the ordinal on, or from the first kept one, to the last that there is now.

        They are read in blocks, and calls of other threads may come between two of them. `NotKept` is raised where the start is not kept, and
        amid the walk where the next block was cut away meanwhile. The ordinal of the next call may be the start: then there are none so far.
        """
        first = None if start is None else check_range("start", start, 0, GREATEST_NUMBER)
        end = self.counts().recorded
        return self._walk(self._first_block(first), end)

    def checkpoint(self) -> None:
        """Cuts the history: no entry is kept. Ordinals, stamps and counts go on. It costs each kept call once more, while all threads wait."""
        check(self._status("pidtab_checkpoint"), "checkpoint")

    def checkpoint_at(self, seen: int) -> bool:
        """Cuts the history where exactly so many calls were recorded: so no entry is cut that was not read. Whether it was cut."""
        seen = check_range("seen", seen, 0, GREATEST_NUMBER)
        status = self._status("pidtab_checkpoint_at", seen)
        if status != AGAIN:
            check(status, "checkpoint")
        return status != AGAIN

    def follow(self, replica: "Table", start: int) -> int:
        """Has another table, which began as this one did, make the calls from the ordinal on that are recorded by now. The ordinal after them.

        So `replica.dump()` is the text of the state there, and no call waits for it. The replica is `Table(pid_max)` and the start 0, or the table of
        a text of `dump` and what was recorded then; nobody else makes a call on it. Other threads may make calls here meanwhile.

        `NotKept` is raised where a call that it lacks was cut away, or is not reached yet, and ValueError where a reply is not the recorded one: it is
        no replica then. After a MemoryError it begins anew. It costs the calls once more.
        """
        following = ctypes.c_uint64(check_range("start", start, 0, GREATEST_NUMBER))
        if replica is self:
            raise ValueError("a table does not follow itself")
        status = self._made_by(replica, following)
        if status == DIFFERS:
            raise ValueError(f"call {following.value - 1}: its reply is not the recorded one: the table is no replica of this one")
        check(status, f"call {following.value}")
        return following.value

    def _made_by(self, replica: "Table", following: ctypes.c_uint64) -> int:
        """The status of a replica's calls, which is not freed meanwhile."""
        hold = replica._check_open()
        return self._status("pidtab_follow", hold.here, following)

    def _first_block(self, start: int | None) -> Sequence[Entry]:
        """The first block from the start on, or from the first kept entry, which may be cut away before it is read."""
        while start is None:
            try:
                return self._read(self.counts().first_kept)
            except NotKept:
                continue
        return self._read(start)

    def _read(self, start: int) -> Sequence[Entry]:
        """A block of entries from the ordinal on."""
        room, count = (PidtabEntry * BLOCK)(), ctypes.c_size_t()
        check(self._status("pidtab_read", start, room, BLOCK, count), f"entry {start}")
        return [read_entry(start + place, it.worker, it.call, it.reply) for place, it in enumerate(room[: count.value])]

    def _walk(self, block: Sequence[Entry], end: int) -> Iterator[Entry]:
        """The entries from a block on, to below the end."""
        while block:
            yield from block[: max(0, end - block[0].ordinal)]
            following = block[-1].ordinal + 1
            # After the end nothing is read, as it may be cut away by now.
            block = self._read(following) if following < end else ()
