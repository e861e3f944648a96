"""A log in PostgreSQL 12 or later, for one table on many hosts: `pidtab.Replicated(PostgresLog("host=a,b dbname=pidtab", "web"))`. It needs psycopg2.

The position of an entry comes of one row, which its transaction holds until it has committed. So whoever sees an entry sees all before it. A sequence
would not do: of two transactions the one with the later number may commit first, and a reader would have passed the earlier one by.
"""

import os
import select
import socket
import sys
from collections.abc import Iterator, Sequence
from contextlib import contextmanager, suppress
from typing import Any

import psycopg2
import psycopg2.errors
import psycopg2.extensions

import pidtab

# Two hosts that begin at once may both fail here: then they try again.
TABLES = """
CREATE TABLE IF NOT EXISTS pidtab_end (log text PRIMARY KEY, position bigint NOT NULL, asked bigint NOT NULL);
CREATE TABLE IF NOT EXISTS pidtab_entry (log text, position bigint, entry bytea NOT NULL, PRIMARY KEY (log, position));
"""
# It looks first, as an insertion would wait for an append that is under way.
BEGIN = """
INSERT INTO pidtab_end SELECT %(log)s, 0, 0 WHERE NOT EXISTS (SELECT FROM pidtab_end WHERE log = %(log)s) ON CONFLICT DO NOTHING
"""

# Each is one statement, and so one transaction.
APPEND = """
WITH next AS (UPDATE pidtab_end SET position = position + 1 WHERE log = %(log)s RETURNING position),
put AS (INSERT INTO pidtab_entry SELECT %(log)s, position, %(entry)s FROM next RETURNING position)
SELECT position, pg_notify('pidtab', %(log)s) FROM put
"""
# A write, since a server that is cut off from those that took its place can still read, and commits nothing.
ASK_END = "UPDATE pidtab_end SET asked = asked + 1 WHERE log = %(log)s RETURNING position"
READ = "SELECT position, entry FROM pidtab_entry WHERE log = %(log)s AND position > %(after)s ORDER BY position LIMIT %(most)s"

# An answer is on the disk, and with those servers that `synchronous_standby_names` names.
SETTINGS = "-c synchronous_commit=on -c default_transaction_isolation=read\\ committed -c statement_timeout={0:d}"

# No time to try again helps against these.
NEVER = (psycopg2.errors.InsufficientPrivilege, psycopg2.errors.UndefinedColumn, psycopg2.errors.DatatypeMismatch)

TIMEOUT = 5.0
MOST_ENTRIES = 100

# A follower says so often that nothing came, in seconds.
QUIET = 1.0

Connection = psycopg2.extensions.connection
Entries = Sequence[tuple[int, bytes]]


@contextmanager
def as_faults() -> Iterator[None]:
    """What psycopg2 raises, as a log does."""
    try:
        yield
    except NEVER as fault:
        raise pidtab.LogFault(f"PostgreSQL refuses: {fault}".strip()) from fault
    except psycopg2.Error as fault:
        raise ConnectionError(f"PostgreSQL: {fault}".strip()) from fault


class PostgresLog(pidtab.Log):
    """Entries as the rows of a table. Threads may share it, and a forked child may use it: it opens connections of its own.

    The words are those of libpq. With several hosts add `target_session_attrs=read-write`. To lose no answered entry with a server, let
    `synchronous_standby_names` name others, and see to it that one which was replaced never serves again.
    """

    def __init__(self, words: str, name: str, timeout: float = TIMEOUT) -> None:
        """Names the log; nothing is asked yet. The timeout is for one answer, in seconds."""
        self.words = words
        self.name = name
        self.timeout = timeout
        # The greatest position that was answered here.
        self._greatest = 0
        # Connections that nobody uses, each with the process that opened it.
        self._idle: list[tuple[int, Connection]] = []

    def append(self, entry: bytes) -> int:
        """Puts an entry after all others."""
        before = self._greatest
        position = self._ask(APPEND, entry=entry)
        if position <= before:
            raise pidtab.LogFault(f"the log {self.name} gave position {position} behind {before}: it was set back")
        self._greatest = max(self._greatest, position)
        return position

    def follow(self, after: int) -> "PostgresFollowing":
        """All entries after the position, and then each that comes."""
        return PostgresFollowing(self, after)

    def end(self) -> int:
        """The position of the last entry."""
        return self._ask(ASK_END)

    def connect(self) -> Connection:
        """A new connection, with the tables."""
        seconds = max(1, int(self.timeout))
        with as_faults():
            made = psycopg2.connect(
                self.words, connect_timeout=seconds, options=SETTINGS.format(1000 * seconds), tcp_user_timeout=1000 * seconds
            )
            made.autocommit = True
            with made.cursor() as cursor:
                cursor.execute(TABLES)
                cursor.execute(BEGIN, {"log": self.name})
            return made

    def _ask(self, statement: str, **values: Any) -> int:
        """The position that a statement answers. After a fault its connection is not used again."""
        connection = self._take()
        try:
            with as_faults(), connection.cursor() as cursor:
                cursor.execute(statement, {"log": self.name, **values})
                found = cursor.fetchone()
        except BaseException:
            connection.close()
            raise
        self._idle.append((os.getpid(), connection))
        if found is None:
            raise pidtab.LogFault(f"the row of the log {self.name} was deleted")
        return int(found[0])

    def _take(self) -> Connection:
        """A connection that nobody else uses."""
        while self._idle:
            try:
                process, connection = self._idle.pop()
            except IndexError:
                break
            if process == os.getpid():
                return connection
        return self.connect()


class PostgresFollowing(pidtab.Following):
    """A walk over a log: by pages, and then whenever the server says that an entry came."""

    def __init__(self, log: PostgresLog, after: int) -> None:
        self._log = log
        self._at = after
        self._closed = False
        self._connection: Connection | None = None

    def __next__(self) -> pidtab.Progress:
        try:
            found = () if self._closed else self._next()
        except OSError:
            if not self._closed:
                raise
        if self._closed:
            raise StopIteration
        for position, _ in found:
            if position != self._at + 1:
                raise pidtab.LogFault(f"entry {self._at + 1} of the log {self._log.name} was deleted")
            self._at = position
        return pidtab.Progress(self._at, found)

    def close(self) -> None:
        """Ends it: who waits in it finds its connection ended."""
        self._closed = True
        connection = self._connection
        if connection is not None:
            with suppress(OSError, psycopg2.Error), socket.socket(fileno=os.dup(connection.fileno())) as at:
                at.shutdown(socket.SHUT_RDWR)

    def _next(self) -> Entries:
        """What comes, or nothing if nothing comes for some time."""
        connection = self._connection
        if connection is None:
            connection = self._connection = self._log.connect()
            with as_faults(), connection.cursor() as cursor:
                # Before the first page, so that nothing comes between.
                cursor.execute("LISTEN pidtab")
        found = self._read(connection)
        if found:
            return found
        with as_faults():
            select.select([connection], [], [], QUIET)
            connection.poll()
            connection.notifies.clear()
        return self._read(connection)

    def _read(self, connection: Connection) -> Entries:
        """A page of what is after the place."""
        with as_faults(), connection.cursor() as cursor:
            cursor.execute(READ, {"log": self._log.name, "after": self._at, "most": MOST_ENTRIES})
            return [(position, bytes(entry)) for position, entry in cursor.fetchall()]


if __name__ == "__main__":
    with pidtab.Replicated(PostgresLog(sys.argv[1], "web")) as table:
        print(table.fork(1, new=True), table.nspid(1, 2))
