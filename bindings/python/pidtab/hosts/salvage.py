"""The way from a log that cannot be used any more to a new one: its table in a file, as far as it is good, and a log that begins with such a file."""

import hashlib
from collections.abc import Callable, Sequence
from typing import NamedTuple

from pidtab.calls import Calls
from pidtab.faults import Diverged, LogFault
from pidtab.hosts.etcd import encode
from pidtab.hosts.etcd_log import EtcdLog
from pidtab.hosts.etcd_transactions import BEFORE_CELLS, compare, put_of
from pidtab.hosts.keeper import settings_of
from pidtab.hosts.log_entries import FORM, MODEL, Announced, Settings, write_announced
from pidtab.hosts.machine import text_of
from pidtab.hosts.machines import AnyMachine, open_machine
from pidtab.hosts.snapshot import Snapshot, pack, read_snapshot, sum_of, write_snapshot
from pidtab.hosts.snapshots import AGREED, SERVED, load_behind, name_of, piece_name

# The position of the snapshot with which a log begins: before that of any entry.
FIRST = 1


class Salvaged(NamedTuple):
    """The text of a table, the last entry that has made it, how many there are behind that, and why these cannot be used; empty where there are none."""

    text: bytes
    position: int
    left: int
    why: str


def salvage(log: EtcdLog, open_table: Callable[[int], Calls]) -> Salvaged:
    """The table of a log, up to the first entry that cannot be applied. A LogFault where there is no beginning."""
    at, _ = log.guard.look()
    loaded = load_behind(log.cells(at), 0)
    last = 0 if loaded is None else loaded[0]
    entries = sorted(it for page in log.entries_to(at) for it in page if it[0] > last)
    machine = begin_machine(entries, None if loaded is None else loaded[1], last, open_table)
    try:
        for number, (position, data) in enumerate(entries):
            try:
                machine.apply(position, data)
            except (LogFault, Diverged) as fault:
                return Salvaged(text_of(machine.table), last, len(entries) - number, str(fault))
            last = position
        return Salvaged(text_of(machine.table), last, 0, "")
    finally:
        machine.table.close()


def begin_machine(entries: Sequence[tuple[int, bytes]], snapshot: bytes | None, at: int, open_table: Callable[[int], Calls]) -> AnyMachine:
    """A table as a log begins: by a snapshot, or by its settings, whatever they are."""
    if snapshot is None and not entries:
        raise LogFault("the log has no entries")
    found = settings_of(entries[0][1]) if snapshot is None else read_snapshot(snapshot).settings
    machine = open_machine(lambda: open_table(found.pid_max), Settings(FORM, found.pid_max, MODEL))
    if snapshot is not None:
        machine.load(at, snapshot)
    return machine


def begin(log: EtcdLog, table: Calls, pid_max: int) -> None:
    """Begins a log with a table. A LogFault where it is begun already: then nothing of it is changed."""
    dump = text_of(table)
    text = write_snapshot(Snapshot(Settings(FORM, pid_max, MODEL), FIRST, hashlib.sha256(dump).hexdigest(), 0, (), dump))
    pieces, key = pack(text), name_of(FIRST)
    it = Announced(FIRST, hashlib.sha256(dump).hexdigest(), sum(map(len, pieces)), sum_of(text), key)
    for number, piece in enumerate(pieces):
        log.cells().change({piece_name(key, number): piece})
    cells = log.prefix + BEFORE_CELLS
    empty = compare(log.prefix, "CREATE", "create_revision", 0, range_end=encode(cells))
    served = [put_of(cells + SERVED.encode(), write_announced(it)), put_of(cells + (AGREED + key).encode(), it.sum.encode())]
    new = compare(cells + SERVED.encode(), "MOD", "mod_revision", 0)
    if not log.guard.append_with(lambda behind: served, write_announced(it), [empty, new]).done:
        log.cells().change({}, drops=[f"{piece_name(key, 0)[:-4]}"])
        raise LogFault(f"the log {log.name} is begun already")
