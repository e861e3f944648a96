"""All transactions on a log in etcd. Each is done only where etcd has what this host has read of it: so none is done where etcd was set back."""

import secrets
from collections import deque
from collections.abc import Callable, Sequence
from typing import NamedTuple

from pidtab.faults import LogFault
from pidtab.hosts.etcd import JSON, Etcd, decode, encode
from pidtab.hosts.log import Behind, Cell
from pidtab.hosts.snapshots import SERVED, served_of

# Behind the log's name: the key that each entry puts too, and which so has the revision of the newest one; and the mark.
HEAD = b"~head"
MARK = b"~mark"

# Of so many entries the head is known, for who follows anew from one of them.
HEADS_KEPT = 64

# Before the names of all cells.
BEFORE_CELLS = b"~"


class Newest(NamedTuple):
    """The newest entry that was read or put here: the revision at which it was made, its key, and the revision in that."""

    revision: int
    key: bytes
    hint: int


class Head(NamedTuple):
    """The head as it was read: its revision, and the key of the entry that has put it."""

    revision: int
    key: bytes


class Steps(NamedTuple):
    """What a transaction has answered: whether its own compares held, and so its steps were done; the revision then; and behind which it was done."""

    done: bool
    answers: Sequence[JSON]
    revision: int
    behind: int


# The steps of a transaction that is behind a revision.
MakeSteps = Callable[[int], list[JSON]]


def compare(key: bytes, target: str, name: str, number: int, result: str = "EQUAL", **range_end: str) -> JSON:
    """Compares a number that etcd has of a key; 0 is where it is not there."""
    return {"key": encode(key), "target": target, "result": result, name: number, **range_end}


def put_of(key: bytes, value: bytes) -> JSON:
    """Puts a value."""
    return {"request_put": {"key": encode(key), "value": encode(value)}}


def range_of(key: bytes, **wishes: object) -> JSON:
    """Reads a key."""
    return {"request_range": {"key": encode(key), **wishes}}


def cut_of(served: Sequence[JSON]) -> int:
    """Up to which position a log is cut, or will be, by what was read of the cell of its snapshots that serve."""
    return served_of(Cell(SERVED, decode(served[0].get("value", "")) if served else None, 0)).cut


def make_chance() -> bytes:
    """What no other entry has in its key."""
    return secrets.token_hex(8).encode()


def key_of(behind: int, chance: bytes) -> bytes:
    """A key for an entry that is behind a revision."""
    return b"%016x-" % behind + chance


class Guard:
    """What one process has read of a log, and the transactions that compare it. Threads may share it.

    A put behind the newest entry that was read has a later revision than that one, so its key is a good one, also if etcd is restored meanwhile.
    """

    def __init__(self, etcd: Etcd, prefix: bytes, name: str) -> None:
        self.etcd = etcd
        self.prefix = prefix
        self.newest: Newest | None = None
        self._name = name
        # Of the head what was read last, the later one behind the earlier one.
        self._heads: deque[Head] = deque(maxlen=HEADS_KEPT)

    def ask(self, make_steps: MakeSteps, compares: Sequence[JSON] = ()) -> Steps:
        """Does steps in one transaction. Where etcd has not what was read of it, nothing is done: a LogFault, or a `Behind`."""
        newest = self.newest
        told = self.etcd.ask("/v3/kv/txn", self.body(newest, make_steps, compares))
        if newest is not None and not told.get("succeeded"):
            self._check_there(newest, *(it["response_range"].get("kvs", []) for it in told["responses"]))
        behind = 0 if newest is None else newest.revision
        return Steps(bool(told.get("succeeded")), told.get("responses", []), self.etcd.note(told["header"]), behind)

    def body(self, newest: Newest | None, make_steps: MakeSteps, compares: Sequence[JSON] = ()) -> JSON:
        """A transaction, also as a step of another one. Where it is not done, it reads why."""
        if newest is None:
            return {"compare": list(compares), "success": make_steps(0)}
        why = [range_of(self.prefix + newest.key, keys_only=True), range_of(self.prefix + BEFORE_CELLS + SERVED.encode())]
        is_there = compare(self.prefix + newest.key, "CREATE", "create_revision", newest.revision)
        return {"compare": [*compares, is_there], "success": make_steps(newest.revision), "failure": why}

    def entry_steps(self, chance: bytes, entry: bytes, behind: int) -> list[JSON]:
        """Puts an entry, and with it the head, if the log has one: it gets one with its first entry. The head comes first, and is read first."""
        key = key_of(behind, chance)
        head = put_of(self.prefix + HEAD, key)
        if_there = {"compare": [compare(self.prefix + HEAD, "VERSION", "version", 0, "GREATER")], "success": [head]}
        if not behind:
            empty = compare(self.prefix, "CREATE", "create_revision", 0, range_end=encode(self.prefix + BEFORE_CELLS))
            if_there = {"compare": [empty], "success": [head], "failure": [{"request_txn": if_there}]}
        return [{"request_txn": if_there}, put_of(self.prefix + key, entry)]

    def append(self, entry: bytes) -> int:
        """Puts an entry behind all others: its revision."""
        return self.append_with(lambda behind: [], entry).revision

    def append_with(self, make_steps: MakeSteps, entry: bytes, compares: Sequence[JSON] = ()) -> Steps:
        """Puts an entry, and does steps with it."""
        chance = make_chance()
        told = self.ask(lambda behind: [*make_steps(behind), *self.entry_steps(chance, entry, behind)], compares)
        if told.done:
            self.note_entry(Newest(told.revision, key_of(told.behind, chance), told.behind))
        return told

    def look(self, reads_on: bool = False) -> tuple[int, int]:
        """The revision of etcd now, by a read that a majority confirms; and that of the head, or 0 where the log has none.

        Who `reads_on` from there may be behind a cut.
        """
        read = range_of(self.prefix + HEAD, keys_only=True)
        try:
            told = self.ask(lambda _: [read])
        except Behind:
            if not reads_on:
                raise
            answer = self.etcd.ask("/v3/kv/txn", {"success": [read]})
            told = Steps(True, answer["responses"], self.etcd.note(answer["header"]), 0)
        kvs = told.answers[0]["response_range"].get("kvs", [])
        return told.revision, int(kvs[0]["mod_revision"]) if kvs else 0

    def note_entry(self, newest: Newest) -> None:
        """Notes an entry that was read, or that is put: it is there."""
        if self.newest is None or newest.revision > self.newest.revision:
            self.newest = newest

    def note_head(self, head: Head) -> None:
        """Notes the head that was read."""
        if not self._heads or head.revision > self._heads[-1].revision:
            self._heads.append(head)

    def head_at(self, revision: int) -> Head | None:
        """The head as who has read up to a revision has it, if that is known."""
        return max((it for it in tuple(self._heads) if it.revision <= revision), default=None)

    def set_back(self, what: str) -> LogFault:
        """What is raised where etcd has not what was read of it."""
        return LogFault(f"the log {self._name} has {what}: etcd was set back to an earlier state, or the entry was deleted; nothing was put")

    def _check_there(self, newest: Newest, entry: Sequence[JSON], served: Sequence[JSON]) -> None:
        """Sees to it that etcd has what was read of it: it may be cut by a keeper."""
        if entry and int(entry[0]["create_revision"]) == newest.revision:
            return
        if newest.hint < cut_of(served):
            raise Behind(f"the log was cut behind entry {newest.revision}, and this host reads on first")
        raise self.set_back(f"the entry of revision {newest.revision} no more")
