"""Hosts and keepers of one log for the tests of snapshots, by an etcd in memory and a table in pure Python, or by others that a class below it names."""

import gc
import tempfile
import threading
import time
import unittest
from collections.abc import Callable, Sequence
from pathlib import Path

from pidtab import Calls, EtcdLog, Following, Progress, Replicated
from pidtab.hosts.archive import Archive
from pidtab.hosts.etcd import JSON, Etcd, decode
from pidtab.hosts.etcd_cells import read_keys
from pidtab.hosts.etcd_transactions import make_chance
from pidtab.hosts.keeper import Keeper, Wishes
from pidtab.hosts.log_entries import Asked, write_calls
from pidtab.hosts.snapshots import PIECES, read_served
from tests.memory_etcd import MemoryEtcd, keys_put, log_in
from tests.stand_in import StandIn

# Longer than any answer, in seconds.
LONG = 20.0

# So many entries are put between two snapshots, where a class does not say otherwise.
MANY = 40


class Crash(Exception):
    """A host crashes."""


class StillLog(EtcdLog):
    """The log of a host that can stand still: it hears nothing, and what it sends then gets there or not."""

    def __init__(self, members: Sequence[str], name: str) -> None:
        super().__init__(members, name)
        self.goes, self.hears = threading.Event(), threading.Event()
        self.goes.set()
        self.hears.set()
        self.sends = True
        self.sent = threading.Event()

    def stop(self) -> None:
        """Has it stand still."""
        self.hears.clear()
        self.goes.clear()

    def append(self, entry: bytes) -> int:
        if self.goes.is_set():
            return super().append(entry)
        if self.sends:
            super().append(entry)
        self.sent.set()
        self.goes.wait(LONG)
        raise TimeoutError("no answer")

    def follow(self, after: int) -> Following:  # type: ignore[override]
        self.hears.wait(LONG)
        return StillFollowing(self, super().follow(after))


class StillFollowing(Following):
    """What such a host hears."""

    def __init__(self, log: StillLog, following: Following) -> None:
        self._log = log
        self._following = following

    def __next__(self) -> Progress:
        progress = next(self._following)
        if not self._log.hears.is_set():
            raise ConnectionError("the host stands still")
        return progress

    def close(self) -> None:
        self._following.close()


def first_kept(table: Replicated) -> int:
    """The first position whose digest a host keeps: that of the snapshot with which it began, or of the settings."""
    machine = table._replica.machine
    return next(it for it in range(1, machine.position + 1) if machine.digest_at(it) is not None)


class Keeping(unittest.TestCase):
    """Opens hosts and keepers, which end after the test."""

    table: Callable[..., Calls] = StandIn
    # So many entries are put between two snapshots.
    many = MANY

    def setUp(self) -> None:
        folder = tempfile.TemporaryDirectory()
        self.addCleanup(folder.cleanup)
        self.folder = Path(folder.name)
        self.name = "web"
        self.said: list[str] = []
        self.begin()

    @classmethod
    def tearDownClass(cls) -> None:
        # Who counts descriptors next finds none of these.
        gc.collect()

    def begin(self) -> None:
        """Begins a new etcd, or a log of another name."""
        self.store = MemoryEtcd()
        self.addCleanup(self.store.close)

    def make_log(self, kind: type[EtcdLog] = EtcdLog) -> EtcdLog:
        """The log, for one host."""
        return log_in(self.store, self.name, kind)

    def compact(self) -> None:
        """Drops the history of etcd."""
        self.store.compact()

    def open(self, kind: type[EtcdLog] = EtcdLog, **wishes: object) -> Replicated:
        """One more host."""
        table: Replicated = Replicated(self.make_log(kind), table=type(self).table, patience=LONG, **wishes)  # type: ignore[arg-type]
        self.addCleanup(table.close)
        return table

    def keep(self, alone: bool = True, archive: Archive | None = None, **wishes: object) -> Keeper:
        """One more keeper, which has caught up."""
        table = type(self).table
        keeper = Keeper(
            self.make_log(), lambda pid_max: table(pid_max=pid_max), Wishes(alone=alone, **wishes), archive, self.said.append  # type: ignore[arg-type]
        )
        self.addCleanup(keeper.close)
        keeper.catch_up()
        return keeper

    def fill(self, table: Replicated, times: int = 0) -> None:
        """Makes calls, each in an entry of its own."""
        for _ in range(times or self.many):
            table.answers(["fork 1", "getpid 1"])

    def save_twice(self, table: Replicated, keeper: Keeper, *checkers: Keeper) -> None:
        """Has two snapshots, and so the log cut after the older one."""
        for _ in range(2):
            self.fill(table)
            self.assertIsNotNone(keeper.save())
            for it in checkers:
                it.catch_up()
        self.fill(table, 5)

    def check_same(self, *tables: Replicated) -> None:
        """All hosts have the same table, and have answered the same."""
        for it in tables:
            it.catch_up()
        self.assertEqual(len({(it.digest, it._replica.machine.write().partition(b"\n")[2]) for it in tables}), 1)

    def keys(self, start: str = "") -> list[bytes]:
        """The keys of the entries, or those of cells whose names begin so."""
        log = self.make_log()
        first = log.prefix + (b"~" + start.encode() if start else b"")
        last = first + b"\xff" if start else log.prefix + b"~"
        return [key.name for page in read_keys(etcd_of(log), first, last, 1000) for key in page]

    def check_cut(self) -> None:
        """No more than two snapshots and what is after the older one is left."""
        self.assertLess(len(self.keys()), 2 * self.many + 15)
        self.assertEqual(len(self.keys(PIECES)), len(read_served(self.make_log().cells()).all))

    def positions(self) -> list[int]:
        """The positions of all entries that are left."""
        log = self.make_log()
        return [key.revision for page in read_keys(etcd_of(log), log.prefix, log.prefix + b"~", 1000) for key in page]

    def put_late(self, table: Replicated) -> int:
        """Puts an entry with calls, as a host does that began to long ago: its position. The number in its key is just after the first one's."""
        log = self.make_log()
        hint = int(self.keys()[0][len(log.prefix) :][:16], 16) + 1
        session = log.append(b"open")
        table.catch_up()
        asked = Asked(session, 1, table.position, table.digest[:16], [b"fork 1"])
        entry = write_calls(asked)
        return log.guard.ask(lambda _: log.guard.entry_steps(make_chance(), entry, hint)).revision

    def wait_until(self, holds: Callable[[], bool]) -> None:
        """Waits for what comes soon."""
        end = time.monotonic() + LONG
        while not holds():
            self.assertLess(time.monotonic(), end)
            time.sleep(0.01)


def etcd_of(log: EtcdLog) -> Etcd:
    """What a log asks."""
    return log._etcd


def cuts(body: JSON) -> bool:
    """Whether a call deletes entries."""
    return any(b"~" not in decode(it["request_delete_range"]["key"]) for it in body.get("success", []) if "request_delete_range" in it)


def announces(body: JSON) -> bool:
    """Whether a call announces a snapshot."""
    return any(key.endswith(b":~snapshots") for key in keys_put("txn", body))
