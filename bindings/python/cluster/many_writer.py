"""A host of many tables for the tests, as `cluster.writer` is one of one: by a Cluster, with so many tables as it has threads.

    python3 -m cluster.many_writer MEMBER,MEMBER.. NAME TABLES BATCH CALLS SECONDS FILE

The rows of the table 3 are in FILE.3. Behind `at` it says for each table the digest and the sum of the list.
"""

import hashlib
import os
import random
import sys
import time
from collections.abc import Callable, Sequence
from unittest import mock

from cluster.load import Load, User, run_users, table_kind
from cluster.writer import TROUBLE, say
from pidtab import Cluster, EtcdLog
from pidtab.hosts.etcd import Etcd
from pidtab.hosts.etcd_log import append_all

# So many users make calls on each table.
USERS = 2


def append_with_troubles(etcd: Etcd, puts: Sequence[tuple[EtcdLog, bytes]]) -> list[int]:
    """Puts some entries twice, and says of some that are there that etcd does not answer."""
    positions = append_all(etcd, puts)
    if random.random() < TROUBLE:
        append_all(etcd, puts)
    if random.random() < TROUBLE:
        raise TimeoutError("the acknowledgement is lost")
    return positions


def note_in(file: str) -> Callable[[list[str]], object]:
    """Writes rows; one write is one step."""
    rows = os.open(file, os.O_WRONLY | os.O_CREAT | os.O_APPEND)
    return lambda new: os.write(rows, "".join(new).encode("utf-8", "surrogateescape"))


def main(members: str, name: str, tables: str, batch: str, calls: str, seconds: str, file: str) -> None:
    begun = time.monotonic()
    with mock.patch("pidtab.hosts.cluster_threads.append_all", append_with_troubles), Cluster(members.split(","), name) as cluster:
        opened = [cluster.open(str(it), table=table_kind()) for it in range(int(tables))]
        say("open", len(opened), f"{time.monotonic() - begun:.2f}")
        users = []
        for number, table in enumerate(opened):
            note = note_in(f"{file}.{number}")
            users += [User(table, Load((file, number, it)), int(batch), int(calls) // USERS, float(seconds), note) for it in range(USERS)]
        run_users(users)
        say("done")
        sys.stdin.readline()
        for table in opened:
            table.catch_up()
        say("at", *(f"{it.digest},{hashlib.sha256(it.list_text().encode()).hexdigest()}" for it in opened))
        sys.stdin.readline()
    say("closed")


if __name__ == "__main__":
    main(*sys.argv[1:])
