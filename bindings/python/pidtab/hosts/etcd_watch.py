"""A watch at etcd: what is told of the keys of a range, in the order of the revisions."""

import http.client
import json
from collections.abc import Iterator, Sequence
from typing import NamedTuple

from pidtab.hosts.etcd import JSON, Etcd, encode, hang_up


class Compacted(Exception):
    """The history from which a watch should begin is no more."""


class Changes(NamedTuple):
    """Some changes of keys, and the revision up to which the watch has told all of them."""

    position: int
    events: Sequence[JSON]


def revision_of(event: JSON) -> int:
    """The revision of a change."""
    return int(event["kv"]["mod_revision"])


class EtcdWatch:
    """A watch over the keys from one on and before another, each time at the next member."""

    def __init__(self, etcd: Etcd, start: bytes, before: bytes) -> None:
        self._etcd = etcd
        self._range: JSON = {"key": encode(start), "range_end": encode(before)}
        self._closed = False
        self._connection: http.client.HTTPConnection | None = None

    def close(self) -> None:
        """Ends it, from any thread: who waits in it finds its connection ended."""
        self._closed = True
        connection = self._connection
        if connection is not None:
            hang_up(connection)

    def follow(self, after: int) -> Iterator[Changes]:
        """What comes behind a revision, until it is quiet, which is a TimeoutError, or ends."""
        wanted = {**self._range, "start_revision": after + 1, "fragment": True, "prev_kv": True}
        connection, reply = self._etcd.open_watch({"create_request": wanted})
        self._connection = connection
        # Of the last revision that a piece of a line has, the next piece may have more.
        held: list[JSON] = []
        try:
            while not self._closed and (line := reply.readline()):
                self._etcd.sync()
                events, is_piece = self._read_line(line)
                events = held + events
                last = max(map(revision_of, events), default=0)
                held = [it for it in events if revision_of(it) == last] if is_piece else []
                if len(held) < len(events):
                    yield Changes(last - 1 if is_piece else last, events[: len(events) - len(held)])
            if not self._closed:
                raise ConnectionError("the watch has ended")
        except http.client.HTTPException as fault:
            raise ConnectionError(f"the watch has ended: {fault!r}") from fault
        finally:
            self._connection = None
            connection.close()

    def _read_line(self, line: bytes) -> tuple[list[JSON], bool]:
        """The changes that a line of a watch tells, and whether it is only a piece of what is told at once."""
        try:
            told = json.loads(line)
        except ValueError as fault:
            raise ConnectionError("the watch has ended amid a line") from fault
        if "error" in told:
            raise self._etcd.fault_of(told["error"] if isinstance(told["error"], dict) else told)
        result = told.get("result", {})
        # Its revision does not say how far the watch is: that only events do.
        self._etcd.note(result.get("header", {}))
        if "compact_revision" in result:
            raise Compacted
        if result.get("canceled"):
            raise ConnectionError(f"the watch was cancelled: {result.get('cancel_reason', 'no reason')}")
        return result.get("events", []), bool(result.get("fragment"))
