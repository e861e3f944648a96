"""An etcd of one member in the memory of this process, by etcd's description of its calls: what a log in etcd is tried on where none is installed."""

import json
import socket
import threading
from bisect import bisect_right
from collections.abc import Callable, Sequence
from typing import Any, NamedTuple
from unittest import mock

from pidtab import Cluster, EtcdLog
from pidtab.hosts.etcd import JSON, Etcd, Member, TooOld, decode, encode

# How much a watcher may be behind before it is cut off, in bytes.
ROOM = 8 * 1024 * 1024

# Seconds that a watch waits for something.
IDLE = 5.0

COMPARES: dict[str, Callable[[int, int], bool]] = {"EQUAL": int.__eq__, "LESS": int.__lt__, "GREATER": int.__gt__}

# What a compare has of a key, by its target.
TARGETS = {"MOD": ("mod_revision", "revision"), "CREATE": ("create_revision", "made_at"), "VERSION": ("version", "writes")}


class Version(NamedTuple):
    """A key as it is from a revision on; the value is None where it was deleted."""

    key: bytes
    revision: int
    made_at: int
    writes: int
    value: bytes | None

    def shown(self, keys_only: bool = False) -> JSON:
        """As the gateway has it, which leaves out what is empty."""
        shown: JSON = {"key": encode(self.key), "mod_revision": str(self.revision)}
        if self.value is not None:
            shown |= {"create_revision": str(self.made_at), "version": str(self.writes)}
        if self.value and not keys_only:
            shown["value"] = encode(self.value)
        return shown


class Watcher:
    """The far end of a watch."""

    def __init__(self, end: socket.socket, start: bytes, before: bytes, first: int, find_last: "Callable[[Version], Version]") -> None:
        self._end = end
        self._find_last = find_last
        self._start, self._before = start, before
        # A watch of what has not been yet waits for it.
        self._first = first
        end.setsockopt(socket.SOL_SOCKET, socket.SO_SNDBUF, ROOM)
        end.setblocking(False)

    def say(self, result: JSON) -> None:
        """Says a line; who does not read is cut off."""
        try:
            self._end.sendall(json.dumps({"result": result}).encode() + b"\n")
        except OSError:
            self.close()

    def close(self) -> None:
        """Ends it."""
        self._end.close()

    def tell(self, header: JSON, versions: Sequence[Version]) -> None:
        """Says what of some changes is its own."""
        own = [it for it in versions if self._start <= it.key < self._before and it.revision >= self._first]
        if own:
            self.say({"header": header, "events": [self._event(it) for it in own]})

    def _event(self, version: Version) -> JSON:
        event: JSON = {"kv": version.shown()} | ({"type": "DELETE"} if version.value is None else {})
        last = self._find_last(version)
        return event if last.value is None else {**event, "prev_kv": last.shown()}


class MemoryEtcd:
    """Keys with all their versions."""

    def __init__(self) -> None:
        self._lock = threading.RLock()
        self._keys: dict[bytes, list[Version]] = {}
        self._history: list[list[Version]] = []
        self._revision = 1
        self._compacted = 0
        self._watchers: list[Watcher] = []

    def close(self) -> None:
        """Ends all watches."""
        for it in self._watchers:
            it.close()

    def set_back(self, revision: int, others: int = 0) -> None:
        """Has it as it was at a revision, as a restored backup does; and then others may write so often."""
        with self._lock:
            self.close()
            self._watchers.clear()
            self._history = self._history[: revision - 1]
            self._revision = revision
            self._keys = {key: [it for it in versions if it.revision <= revision] for key, versions in self._keys.items()}
            for _ in range(others):
                self._put({"key": encode(b"other")})

    def compact(self) -> None:
        """Drops the history up to now."""
        with self._lock:
            self._compacted = self._revision

    def ask(self, path: str, body: JSON) -> JSON:
        """What the gateway answers."""
        calls: dict[str, Callable[[JSON], JSON]] = {"range": self._range, "put": self._put, "deleterange": self._delete, "txn": self._transact}
        with self._lock:
            told = calls[path.removeprefix("/v3/kv/")](body)
            return {"header": self._header(), **told}

    def watch(self, body: JSON) -> "tuple[Any, Any]":
        """A watch, as `Etcd.open_watch` gives it: a connection that is no more than a socket, and what is read there."""
        asked = body["create_request"]
        near, far = socket.socketpair()
        near.settimeout(IDLE)
        first = int(asked["start_revision"])
        watcher = Watcher(far, decode(asked["key"]), decode(asked["range_end"]), first, lambda it: self._now(it.key, it.revision - 1))
        with self._lock:
            watcher.say({"header": self._header(), "created": True})
            if first < self._compacted:
                watcher.say({"header": self._header(), "compact_revision": str(self._compacted)})
            for versions in self._history[max(0, first - 2) :]:
                watcher.tell(self._header(), versions)
            self._watchers.append(watcher)
        reply = near.makefile("rb")
        return Near(near, reply), reply

    def _header(self) -> JSON:
        return {"cluster_id": "7", "revision": str(self._revision)}

    def _now(self, key: bytes, revision: int = 0) -> Version:
        """A key as it is, or was."""
        versions = self._keys.get(key, [])
        at = bisect_right([it.revision for it in versions], revision or self._revision)
        return versions[at - 1] if at else Version(key, 0, 0, 0, None)

    def _those(self, body: JSON, revision: int = 0) -> list[Version]:
        """The keys of a call that are there, in their order."""
        start = decode(body["key"])
        end = decode(body["range_end"]) if body.get("range_end") else start + b"\0"
        those = [self._now(key, revision) for key in sorted(self._keys) if start <= key < end]
        return [it for it in those if it.value is not None]

    def _range(self, body: JSON) -> JSON:
        revision = int(body.get("revision", 0))
        if revision and revision < self._compacted:
            raise TooOld("etcd: etcdserver: mvcc: required revision has been compacted")
        those = self._those(body, revision)
        most = int(body.get("limit", 0)) or len(those)
        told: JSON = {"kvs": [it.shown(bool(body.get("keys_only"))) for it in those[:most]]} if those else {}
        return {**told, "more": True} if len(those) > most else told

    def _put(self, body: JSON) -> JSON:
        self._write([self._next(decode(body["key"]), decode(body.get("value", "")))])
        return {}

    def _delete(self, body: JSON) -> JSON:
        those = self._those(body)
        self._write([self._gone(it.key) for it in those])
        return {"deleted": str(len(those))}

    def _transact(self, body: JSON) -> JSON:
        versions: list[Version] = []
        told = self._plan(body, versions)
        self._write(versions)
        return told

    def _plan(self, body: JSON, versions: list[Version]) -> JSON:
        """What a transaction answers, and the changes of it; all compares are of what there was before."""
        held = all(map(self._holds, body.get("compare", [])))
        answers = [self._plan_step(step, versions) for step in body.get("success" if held else "failure", [])]
        return {"succeeded": True, "responses": answers} if held else {"responses": answers}

    def _plan_step(self, step: JSON, versions: list[Version]) -> JSON:
        ((kind, asked),) = step.items()
        if kind == "request_txn":
            return {"response_txn": self._plan(asked, versions)}
        if kind == "request_range":
            return {"response_range": self._range(asked)}
        if kind == "request_put":
            versions.append(self._next(decode(asked["key"]), decode(asked.get("value", ""))))
            return {"response_put": {}}
        those = self._those(asked)
        versions += [self._gone(it.key) for it in those]
        return {"response_delete_range": {"deleted": str(len(those))} if those else {}}

    def _holds(self, compare: JSON) -> bool:
        """Whether a compare holds of each key of its range, or of a key that is not there, whose numbers are 0."""
        those = self._those(compare) or [Version(decode(compare["key"]), 0, 0, 0, None)]
        name, what = TARGETS[compare["target"]]
        return all(COMPARES[compare["result"]](getattr(it, what), int(compare[name])) for it in those)

    def _next(self, key: bytes, value: bytes) -> Version:
        before, revision = self._now(key), self._revision + 1
        if before.value is None:
            return Version(key, revision, revision, 1, value)
        return Version(key, revision, before.made_at, before.writes + 1, value)

    def _gone(self, key: bytes) -> Version:
        return Version(key, self._revision + 1, 0, 0, None)

    def _write(self, versions: list[Version]) -> None:
        """Makes changes at the next revision, if there are any."""
        if not versions:
            return
        self._revision += 1
        for it in versions:
            self._keys.setdefault(it.key, []).append(it)
        # The revisions begin with 2.
        self._history.append(versions)
        for watcher in self._watchers:
            watcher.tell(self._header(), versions)


class Near:
    """The near end of a watch, with what `hang_up` needs of a connection."""

    def __init__(self, sock: socket.socket, reply: Any) -> None:
        self.sock = sock
        self._reply = reply

    def close(self) -> None:
        """Closes it."""
        self._reply.close()
        self.sock.close()


def keys_put(path: str, body: JSON) -> list[bytes]:
    """The keys that a call puts, if its compares hold."""
    if path.endswith("put"):
        return [decode(body["key"])]
    steps = [(kind, asked) for step in body.get("success", []) for kind, asked in step.items()]
    found = [keys_put("put" if kind == "request_put" else "txn", asked) for kind, asked in steps]
    return [key for keys in found for key in keys]


def nothing(path: str, body: JSON) -> None:
    """Does nothing before a call, or after it."""


class Client(Etcd):
    """The calls of one host on it. What is called `before` a call, or `after` it, may do something or raise."""

    def __init__(self, store: MemoryEtcd) -> None:
        super().__init__([Member("memory", 1)], None, None, IDLE)
        self._store = store
        self.before = self.behind = nothing

    def open_watch(self, body: JSON) -> "tuple[Any, Any]":
        return self._store.watch(body)

    def _ask(self, path: str, body: JSON) -> JSON:
        self.before(path, body)
        told = self._store.ask(path, body)
        self.note(told["header"])
        self.behind(path, body)
        return told


def log_in(store: MemoryEtcd, name: str = "web", kind: type[EtcdLog] = EtcdLog) -> EtcdLog:
    """A log in it, for one host."""
    log = kind(["memory:1"], name)
    log._begin(Client(store), name)
    return log


def cluster_in(store: MemoryEtcd, name: str = "many", patience: float = 20.0) -> Cluster:
    """A Cluster in it, whose calls are those of its `_etcd`."""
    with mock.patch("pidtab.hosts.cluster.open_etcd", lambda *words: Client(store)):
        return Cluster(["memory:1"], name, patience=patience)
