"""The files of a run, as the harness and the hosts write them and the judge reads them. `README.md` has what is in each."""

import base64
import json
from collections.abc import Iterator
from pathlib import Path
from typing import Any, NamedTuple

Row = dict[str, Any]


class Put(NamedTuple):
    """A key of the log that was put, at a revision."""

    revision: int
    key: str
    value: bytes


class Delete(NamedTuple):
    """A key of the log that was deleted, at a revision."""

    revision: int
    key: str


def read_rows(path: Path) -> list[Row]:
    """The rows of a file. A last one without an end was being written when its writer was killed."""
    if not path.exists():
        return []
    with open(path, encoding="ascii") as rows:
        return [json.loads(row) for row in rows if row.endswith("\n")]


def write_change(change: Put | Delete) -> str:
    """A row of what was put or deleted."""
    row: Row = {"at": change.revision, "key": change.key}
    if isinstance(change, Put):
        row["value"] = base64.b64encode(change.value).decode()
    return json.dumps(row) + "\n"


def read_changes(path: Path) -> Iterator[Put | Delete]:
    """What was put and deleted."""
    for row in read_rows(path):
        if "value" in row:
            yield Put(row["at"], row["key"], base64.b64decode(row["value"]))
        else:
            yield Delete(row["at"], row["key"])


def read_archive(folder: Path) -> dict[int, bytes]:
    """The entries that a keeper has put into a folder, as `etcdctl get -w json` would write them."""
    found: dict[int, bytes] = {}
    for path in sorted(folder.glob("*.json")):
        for kv in json.loads(path.read_bytes())["kvs"]:
            found[int(kv["create_revision"])] = base64.b64decode(kv["value"])
    return found
