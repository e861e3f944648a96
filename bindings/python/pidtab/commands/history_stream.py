"""The calls of a saved history, read as its bytes come: of a file that grows, or of a service that is followed."""

import ctypes
import os
import re
import socket
from collections.abc import Iterator
from contextlib import closing, suppress
from typing import NamedTuple

from pidtab.faults import BadHistory
from pidtab.history import Entry, read_entry
from pidtab.library import find_library, load_library
from pidtab.raw import DONE, TORN, PidtabEntry, PidtabSavedHead
from pidtab.saved import BAD_ENTRIES, BAD_HEADS, FilePath
from pidtab.table import Table

BLOCK = 48
ROOM = 1 << 16

# A head is among the blocks where a service has begun another log. From that operation on an entry is none of a table, as what is recorded of leases.
FIRST_OF_HEAD = 0x89
FIRST_NOTE = 128


class Blocks:
    """Takes bytes, and gives the whole entries that they end."""

    def __init__(self, functions: ctypes.CDLL, ordinal: int = 0, sum: int | None = None) -> None:
        """Reads from a head on; or where there is a running checksum, from the entry after it on."""
        self.head: PidtabSavedHead | None = None
        self.ordinal = ordinal
        self._functions = functions
        self._bytes = b""
        self._sum = ctypes.c_uint64(sum or 0)
        self._wants_head = sum is None

    def feed(self, part: bytes) -> list[Entry]:
        """The entries that are whole now. `BadHistory` says which is not as it was written."""
        self._bytes += part
        entries = []
        while self._bytes:
            if self._wants_head or self._bytes[0] == FIRST_OF_HEAD:
                size = self._take_head()
            else:
                size, entry = self._take()
                entries += [entry] if entry else []
            if size == 0:
                break
            self._bytes = self._bytes[size:]
        return entries

    def _take_head(self) -> int:
        """Reads the head, and answers its size; 0 where it is not whole yet."""
        head, size = PidtabSavedHead(), ctypes.c_size_t()
        status = self._functions.pidtab_saved_take_head(self._bytes, len(self._bytes), head, size, self._sum)
        if status == TORN:
            return 0
        if status != DONE:
            raise bad_history(self.ordinal, BAD_HEADS.get(status, f"status {status}"))
        self.head, self._wants_head = head, False
        return size.value

    def _take(self) -> tuple[int, Entry | None]:
        """The next entry with its size; 0 where it is not whole yet."""
        entry, size = PidtabEntry(), ctypes.c_size_t()
        status = self._functions.pidtab_saved_take(self._bytes, len(self._bytes), entry, size, self._sum)
        if status == TORN:
            return 0, None
        if status != DONE:
            raise bad_history(self.ordinal, BAD_ENTRIES.get(status, f"status {status}"))
        if entry.call.operation >= FIRST_NOTE:
            return size.value, None
        self.ordinal += 1
        return size.value, read_entry(self.ordinal - 1, entry.worker, entry.call, entry.reply)


def bad_history(calls: int, why: str) -> BadHistory:
    """The fault of a history, of which so many calls are good."""
    fault = BadHistory(f"call {calls}: {why}")
    fault.calls = calls
    return fault


class Followed(NamedTuple):
    """A table as it stood, its first stamp, and the calls after it, a list for each look: some may be empty."""

    table: Table
    first_stamp: int
    calls: Iterator[list[Entry]]


def follow_file(path: FilePath, library: str | os.PathLike[str] | None = None) -> Followed:
    """The calls of the file of a saved history, from the first on, and then those that are written after."""
    found = find_library(library)
    blocks = Blocks(load_library(found, True))
    with open(path, "rb") as file:
        blocks.feed(file.read(BLOCK))
    if blocks.head is None:
        raise bad_history(0, BAD_HEADS[TORN])
    head = blocks.head
    table = Table(head.pid_max, found, first_stamp=head.first_stamp)

    def calls() -> Iterator[list[Entry]]:
        with open(path, "rb") as file:
            file.seek(BLOCK)
            while True:
                yield blocks.feed(file.read())

    return Followed(table, head.first_stamp, calls())


class Service:
    """The stream of a service that is followed."""

    def __init__(self, path: str) -> None:
        self._socket = socket.socket(socket.AF_UNIX)
        self._read = b""
        try:
            self._socket.connect(path)
            self._socket.sendall(b"*1\r\n$13\r\nPIDTAB.FOLLOW\r\n")
        except OSError as fault:
            self._socket.close()
            raise OSError(fault.errno, fault.strerror, path) from None

    def bulk(self) -> bytes:
        """The next bulk string, for which it waits."""
        while (found := self._take()) is None:
            self._receive()
        return found

    def bulks(self) -> list[bytes]:
        """Those that are there: what was read already, or else what has come."""
        found = self._take_all()
        if not found:
            self._socket.setblocking(False)
            with suppress(BlockingIOError):
                self._receive()
            found = self._take_all()
        return found

    def close(self) -> None:
        """Follows no more."""
        self._socket.close()

    def _take_all(self) -> list[bytes]:
        found = []
        while (one := self._take()) is not None:
            found.append(one)
        return found

    def _receive(self) -> None:
        part = self._socket.recv(ROOM)
        if not part:
            raise BadHistory("the service has ended")
        self._read += part

    def _take(self) -> bytes | None:
        head, end, rest = self._read.partition(b"\r\n")
        if not end:
            return None
        found = re.fullmatch(rb"\$(\d+)", head)
        if found is None:
            raise BadHistory(f"the service says {head.decode('latin-1')}")
        size = int(found[1])
        if len(rest) < size + 2:
            return None
        self._read = rest[size + 2 :]
        return rest[:size]


def follow_service(path: str, library: str | os.PathLike[str] | None = None) -> Followed:
    """The table of a service, and the calls that it records from then on."""
    found = find_library(library)
    service = Service(path)
    try:
        text, sum = service.bulk(), int(service.bulk(), 16)
        table, blocks = Table.from_dump(text, found), Blocks(load_library(found, True), 0, sum)
    except BaseException:
        service.close()
        raise

    def calls() -> Iterator[list[Entry]]:
        with closing(service):
            while True:
                yield [entry for part in service.bulks() for entry in blocks.feed(part)]

    return Followed(table, int(text.split()[6]), calls())
