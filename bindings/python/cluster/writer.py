"""A host of its own for the tests: makes random calls on a table, and writes a row for each answer before it makes the next.

    python3 -m cluster.writer MEMBER,MEMBER.. NAME THREADS BATCH CALLS SECONDS FILE

It says `open`, when its users have ended `done`, behind a first line of standard input how far it is, and behind a second one it closes.
"""

import hashlib
import os
import random
import sys
import threading
import time

from cluster.load import Load, User, run_users, table_kind
from pidtab import EtcdLog, Replicated

# How often an entry is put twice, and how often its acknowledgement is lost, of 1.
TROUBLE = 0.05


class TroubledLog(EtcdLog):
    """Puts some entries twice, and says of some that are there that etcd does not answer."""

    def append(self, entry: bytes) -> int:
        position = super().append(entry)
        if random.random() < TROUBLE:
            super().append(entry)
        if random.random() < TROUBLE:
            raise TimeoutError("the acknowledgement is lost")
        return position


def say(*words: object) -> None:
    """Says something to who has started this."""
    print(*words, flush=True)


def main(members: str, name: str, threads: str, batch: str, calls: str, seconds: str, file: str) -> None:
    rows, lock = os.open(file, os.O_WRONLY | os.O_CREAT | os.O_APPEND), threading.Lock()

    def note(new: list[str]) -> None:
        with lock:
            os.write(rows, "".join(new).encode("utf-8", "surrogateescape"))

    begun = time.monotonic()
    with Replicated(TroubledLog(members.split(","), name), table=table_kind()) as table:
        say("open", table.position, f"{time.monotonic() - begun:.2f}")
        run_users([User(table, Load((file, it)), int(batch), int(calls) // int(threads), float(seconds), note) for it in range(int(threads))])
        say("done")
        sys.stdin.readline()
        table.catch_up()
        say("at", table.position, table.digest, hashlib.sha256(table.list_text().encode()).hexdigest())
        sys.stdin.readline()
    say("closed")


if __name__ == "__main__":
    main(*sys.argv[1:])
