"""Writes down what is put into the log and deleted from it, by a watch of etcd's history: a log that is cut has its entries nowhere else.

History is dropped by the harness alone, and only behind what was written down.
"""

import base64
import json
import urllib.request
from pathlib import Path
from typing import Any

from chaos.members import CLIENTS, Members, text64
from chaos.network import Network, address_of
from chaos.record import Delete, Put, write_change

# A key beside the log, by which a watch is known to have come far enough. It is before the log's keys, so one watch has both.
MARK = "chaos"
NAME = "web"

# Behind the keys of entries.
LAST = f"{NAME}:~"

TIMEOUT = 5.0


class Recorder:
    """The log so far, in a file."""

    def __init__(self, network: Network, members: Members, path: Path, reached: int = 0) -> None:
        self._network = network
        self._members = members
        self._file = open(path, "w", encoding="ascii")
        # The revision up to which all is written down.
        self.reached = reached

    def record(self, place: int) -> int:
        """Writes down all up to now, by one member: the revision. After an OSError it goes on the next time where it was."""
        mark = int(self._members.ask(place, "/v3/kv/put", {"key": text64(MARK), "value": ""}, TIMEOUT)["header"]["revision"])
        changes = self._network.at(place, lambda: self._watch(place, mark))
        self._file.write("".join(map(write_change, changes)))
        self._file.flush()
        self.reached = mark
        return mark

    def left(self, place: int) -> list[int]:
        """The revisions of the entries that the log has, as it is now."""
        told = self._members.ask(place, "/v3/kv/range", {"key": text64(f"{NAME}:"), "range_end": text64(LAST), "keys_only": True}, 60.0)
        return [int(it["create_revision"]) for it in told.get("kvs", [])]

    def close(self) -> None:
        """Nothing more is written."""
        self._file.close()

    def _watch(self, place: int, mark: int) -> list[Put | Delete]:
        """What has happened up to a put of the mark."""
        wish = {"create_request": {"key": text64(MARK), "range_end": text64(LAST), "start_revision": str(self.reached + 1), "fragment": True}}
        request = urllib.request.Request(f"http://{address_of(place)}:{CLIENTS}/v3/watch", json.dumps(wish).encode())
        changes: list[Put | Delete] = []
        with urllib.request.urlopen(request, timeout=TIMEOUT) as reply:
            for line in reply:
                result = json.loads(line).get("result", {"canceled": True})
                if result.get("canceled") and "compact_revision" not in result:
                    raise ConnectionError(f"the watch has ended: {line!r}")
                if "compact_revision" in result:
                    raise AssertionError(f"the history from revision {self.reached + 1} on is no more")
                for event in result.get("events", []):
                    revision = int(event["kv"]["mod_revision"])
                    if revision > mark:
                        return changes
                    changes += read_event(event, revision)
                    if revision == mark:
                        return changes
        raise ConnectionError("the watch has ended")


def read_event(event: dict[str, Any], revision: int) -> list[Put | Delete]:
    """What an event says of the log; nothing where it is the mark's."""
    key = base64.b64decode(event["kv"]["key"]).decode()
    if key == MARK:
        return []
    if event.get("type") == "DELETE":
        return [Delete(revision, key)]
    return [Put(revision, key, base64.b64decode(event["kv"].get("value", "")))]
