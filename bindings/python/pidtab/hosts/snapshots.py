"""Which snapshots of a log serve, who agrees with them, and how one is announced, loaded and tidied up behind: by the cells beside the log.

The last two that were announced serve. The older one of two was agreed with, as nothing is left of what is before it.
"""

import secrets
from collections import OrderedDict
from collections.abc import Sequence
from typing import NamedTuple

from pidtab.faults import Diverged, LogFault
from pidtab.hosts.log import Cell, Cells
from pidtab.hosts.log_entries import Announced, read_announced, write_announced
from pidtab.hosts.snapshot import PIECE_BYTES, sum_of, unpack

# The cell of those that serve, and how the names of pieces and of agreements begin.
SERVED = "snapshots"
PIECES = "snap/"
AGREED = "ok/"

# For so many positions a host keeps the sum of its own text.
SUMS_KEPT = 8


class Served(NamedTuple):
    """The snapshots that serve, the older one first, and the cell that says so."""

    all: Sequence[Announced]
    cell: Cell

    @property
    def cut(self) -> int:
        """Up to this position the entries are taken away, or will be: 0 where none are."""
        return self.all[0].position if len(self.all) > 1 else 0


def name_of(position: int) -> str:
    """A name for the pieces of a snapshot, which no other has."""
    return f"{position:016x}-{secrets.token_hex(8)}"


def piece_name(key: str, number: int) -> str:
    """The cell of a piece."""
    return f"{PIECES}{key}/{number:04x}"


def read_served(cells: Cells) -> Served:
    """Which snapshots serve."""
    return served_of(cells.get(SERVED))


def served_of(cell: Cell) -> Served:
    """Which snapshots serve, by the cell that says so."""
    try:
        return Served([read_announced(line) for line in (cell.value or b"").split(b"\n") if line], cell)
    except ValueError as fault:
        raise LogFault(f"what the log says of its snapshots cannot be read: {fault}") from None


def agreed_sum(cells: Cells, it: Announced) -> str:
    """The sum that a host has which has not written the snapshot; empty where none has looked yet."""
    return (cells.get(AGREED + it.key).value or b"").decode("latin-1")


def is_agreed(cells: Cells, it: Announced) -> bool:
    """Whether another host has the same sum."""
    return agreed_sum(cells, it) == it.sum


def put_sum(cells: Cells, it: Announced, sum: str) -> None:
    """Says what sum a host has that has not written a snapshot. The first that says one is believed, as long as the snapshot serves."""
    while True:
        served, cell = read_served(cells), cells.get(AGREED + it.key)
        if cell.value is not None or it not in served.all:
            return
        if cells.change({cell.name: sum.encode()}, unchanged=(served.cell, cell)):
            return


def announce(cells: Cells, it: Announced, alone: bool) -> bool:
    """Says in one step that a snapshot serves, whose pieces are there; False where another one was announced that is not before it.

    It may be done twice. With `alone` no other host is asked.
    """
    while True:
        served = read_served(cells)
        if it in served.all:
            return True
        if served.all and served.all[-1].position >= it.position:
            return False
        agreed = [other for other in served.all if is_agreed(cells, other)]
        puts = {SERVED: b"\n".join(map(write_announced, [*agreed[-1:], it]))}
        if alone:
            puts[AGREED + it.key] = it.sum.encode()
        if cells.change(puts, entry=write_announced(it), unchanged=(served.cell,)):
            return True


def drop_pieces(cells: Cells, key: str) -> None:
    """Takes the pieces of a snapshot away that does not serve."""
    cells.change({}, drops=[f"{PIECES}{key}/"])


def tidy(cells: Cells, served: Served) -> None:
    """Takes away what is left of snapshots that do not serve any more: theirs, and those of a host that has crashed."""
    keys = {name.split("/")[1] for start in (PIECES, AGREED) for name in cells.names(start)} - {it.key for it in served.all}
    newest = served.all[-1].key if served.all else ""
    # A key begins with the position. A later snapshot may be about to be announced, and an earlier one never is.
    for key in sorted(it for it in keys if it < newest):
        cells.change({}, drops=[f"{PIECES}{key}/", AGREED + key])


def load(cells: Cells, it: Announced) -> bytes | None:
    """The text of a snapshot; None where its pieces are not whole."""
    found = [cells.get(piece_name(it.key, number)).value or b"" for number in range(-(-it.size // PIECE_BYTES))]
    return unpack(found, it.sum) if sum(map(len, found)) == it.size else None


def load_behind(cells: Cells, after: int) -> tuple[int, bytes] | None:
    """The newest snapshot that is agreed with and whole, and its position, for who is at one; None where the log has all entries that it needs.

    Where it has not, and there is no such snapshot, a LogFault.
    """
    served = read_served(cells)
    if after and after >= served.cut:
        return None
    for it in reversed(served.all):
        text = load(cells, it) if it.position > after and is_agreed(cells, it) else None
        if text is not None:
            return it.position, text
    if after:
        raise LogFault(f"the log was cut up to entry {served.cut}, and the pieces of its snapshots are lost")
    return None


class Checker:
    """The sums that one host has of its own table, and what it says of the snapshots of others."""

    def __init__(self) -> None:
        self._sums: OrderedDict[int, str] = OrderedDict()

    def note(self, position: int, text: bytes) -> str:
        """Keeps the sum of the text that this host has made at a position."""
        self._sums[position] = sum_of(text)
        if len(self._sums) > SUMS_KEPT:
            self._sums.popitem(last=False)
        return self._sums[position]

    def judge(self, cells: Cells, it: Announced) -> bool:
        """Says whether this host has the same table as a snapshot, if it knows: whether it does. Another table is a `Diverged`."""
        mine = self._sums.get(it.position)
        if mine is None:
            return False
        put_sum(cells, it, mine)
        if mine != it.sum:
            raise diverged(it)
        return True


def diverged(it: Announced) -> Diverged:
    """Two hosts have another table, though their answers were the same so far."""
    return Diverged(f"behind entry {it.position} two hosts have other tables: stop all hosts, and play the log by pidtab-replay")
