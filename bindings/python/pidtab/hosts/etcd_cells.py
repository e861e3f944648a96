"""What a log in etcd has beside its entries, and how its entries are cut: by transactions, each of which sees to it that nothing else has changed."""

from collections.abc import Iterable, Iterator, Mapping, Sequence
from typing import NamedTuple

from pidtab.hosts.etcd import JSON, Etcd, decode, encode
from pidtab.hosts.etcd_transactions import BEFORE_CELLS, Guard, compare, put_of
from pidtab.hosts.log import Cell, Cells

# So many keys are looked up at once. For those that are deleted in one transaction all hosts wait.
NAMES_AT_ONCE = 1000
CUT_AT_ONCE = 100
ENTRIES_AT_ONCE = 100


def delete_of(start: bytes, end: bytes) -> JSON:
    """Deletes the keys from one on and before another."""
    return {"request_delete_range": {"key": encode(start), "range_end": encode(end)}}


def behind(start: bytes) -> bytes:
    """What is behind each key that begins so."""
    return start[:-1] + bytes([start[-1] + 1])


class Key(NamedTuple):
    """A key, and the revision at which it was made; its value, where that was asked for."""

    name: bytes
    revision: int
    value: bytes


def read_keys(etcd: Etcd, start: bytes, end: bytes, most: int, keys_only: bool = True, at: int = 0) -> Iterator[Sequence[Key]]:
    """The keys from one on and before another, some at a time. Each time they are as they are then, or all as at one revision."""
    while start < end:
        body: JSON = {"key": encode(start), "range_end": encode(end), "limit": most, "keys_only": keys_only}
        told = etcd.ask("/v3/kv/range", {**body, "revision": at} if at else body)
        etcd.note(told["header"])
        found = [Key(decode(it["key"]), int(it["create_revision"]), decode(it.get("value", ""))) for it in told.get("kvs", [])]
        if found:
            yield found
        if not told.get("more"):
            return
        start = found[-1].name + b"\0"


class EtcdCells(Cells):
    """The cells of a log, each a key behind `NAME:~`; all as at one revision, if that is named."""

    def __init__(self, guard: Guard, at: int = 0) -> None:
        self._guard = guard
        self._etcd = guard.etcd
        self._prefix = guard.prefix + BEFORE_CELLS
        self._at = at

    def get(self, name: str) -> Cell:
        """A cell, by a read that a majority confirms."""
        body: JSON = {"key": encode(self.key(name))}
        told = self._etcd.ask("/v3/kv/range", {**body, "revision": self._at} if self._at else body)
        self._etcd.note(told["header"])
        for kv in told.get("kvs", []):
            return Cell(name, decode(kv.get("value", "")), int(kv["mod_revision"]))
        return Cell(name, None, 0)

    def names(self, start: str) -> list[str]:
        """The names that begin so."""
        first = self.key(start)
        pages = read_keys(self._etcd, first, behind(first), NAMES_AT_ONCE, at=self._at)
        return [key.name[len(self._prefix) :].decode() for page in pages for key in page]

    def change(
        self, puts: Mapping[str, bytes], *, drops: Iterable[str] = (), entry: bytes = b"", unchanged: Sequence[Cell] = ()
    ) -> bool:
        """One transaction."""
        steps = [put_of(self.key(name), value) for name, value in puts.items()]
        steps += [delete_of(self.key(start), behind(self.key(start))) for start in drops]
        compares = [compare(self.key(it.name), "MOD", "mod_revision", it.version) for it in unchanged]
        done = self._guard.append_with(lambda _: steps, entry, compares) if entry else self._guard.ask(lambda _: steps, compares)
        return done.done

    def key(self, name: str) -> bytes:
        """The key of a cell."""
        return self._prefix + name.encode()


def before_position(prefix: bytes, position: int) -> bytes:
    """No key of an entry up to a position is behind this one, as an entry's key has an earlier revision. Some before it are of later entries."""
    return prefix + b"%016x" % position


def read_entries_to(etcd: Etcd, prefix: bytes, position: int) -> Iterator[Sequence[tuple[int, bytes]]]:
    """The entries up to a position."""
    for page in read_keys(etcd, prefix, before_position(prefix, position), ENTRIES_AT_ONCE, keys_only=False):
        yield [(key.revision, key.value) for key in page if key.revision <= position]


def cut_entries(guard: Guard, position: int) -> int:
    """Deletes the entries up to a position, and no later one, whose key may be among theirs: how many."""
    return cut_range(guard, guard.prefix, before_position(guard.prefix, position), position)


def cut_range(guard: Guard, start: bytes, end: bytes, position: int) -> int:
    """The same of those entries whose keys are from one on and before another."""
    pages = read_keys(guard.etcd, start, end, CUT_AT_ONCE)
    return sum(cut_run(guard, run[0].name, run[-1].name + b"\0", position) for page in pages for run in split_runs(page, position))


def split_runs(keys: Sequence[Key], position: int) -> list[list[Key]]:
    """The keys of entries up to a position, in runs between which are those of later ones."""
    runs: list[list[Key]] = [[]]
    for key in keys:
        if key.revision <= position:
            runs[-1].append(key)
        elif runs[-1]:
            runs.append([])
    return [run for run in runs if run]


def cut_run(guard: Guard, start: bytes, end: bytes, position: int) -> int:
    """Deletes a range of keys in one step, if none of them is of a later entry; else those that are not, as one has come meanwhile."""
    none_later = compare(start, "CREATE", "create_revision", position + 1, "LESS", range_end=encode(end))
    told = guard.ask(lambda _: [delete_of(start, end)], [none_later])
    return int(told.answers[0]["response_delete_range"].get("deleted", 0)) if told.done else cut_range(guard, start, end, position)
