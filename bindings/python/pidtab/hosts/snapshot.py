"""A snapshot: all that the log up to a position has made, as one text, and that text as packed pieces."""

import hashlib
import re
import zlib
from collections.abc import Sequence
from typing import NamedTuple

from pidtab.hosts.log_entries import NUMBER, SUM, Settings

# A piece has at most so many bytes. etcd takes 1.5 MB in one request, but then all others wait for it.
PIECE_BYTES = 125_000

# Of zlib, which makes the text of a table some 16 times smaller: the fastest.
LEVEL = 1

NAMES = (b"pid_max", b"model", b"position", b"digest", b"calls", b"sessions")
HEAD = re.compile(b"pidtab-snapshot %s " % NUMBER + b" ".join(b"%s %s" % (it, SUM if it == b"digest" else NUMBER) for it in NAMES))


class Snapshot(NamedTuple):
    """What a host has behind an entry: the sessions, each with its last number, are in the order of their last use, the one used the longest ago first."""

    settings: Settings
    position: int
    digest: str
    calls: int
    sessions: Sequence[tuple[int, int]]
    # As `dump` writes it.
    table: bytes


def write_snapshot(it: Snapshot) -> bytes:
    """Its text. Two hosts that have the same write the same."""
    numbers = (*it.settings, it.position, it.digest.encode(), it.calls, len(it.sessions))
    head = b"pidtab-snapshot %d pid_max %d model %d position %d digest %s calls %d sessions %d\n" % numbers
    return head + b"".join([b"%d %d\n" % session for session in it.sessions]) + it.table


def read_snapshot(text: bytes) -> Snapshot:
    """What a text has; any other bytes are a ValueError. Whether the table can be made is not looked at."""
    head, _, rest = text.partition(b"\n")
    found = HEAD.fullmatch(head)
    if not found:
        raise ValueError(f"it begins with {head[:40]!r}")
    form, pid_max, model, position, calls, count = (int(found[it]) for it in (1, 2, 3, 4, 6, 7))
    *lines, table = rest.split(b"\n", count)
    if len(lines) != count:
        raise ValueError(f"it has {len(lines)} sessions in the place of {count}")
    sessions = [(int(session), int(last)) for session, last in (line.split(b" ") for line in lines)]
    return Snapshot(Settings(form, pid_max, model), position, found[5].decode(), calls, sessions, table)


def sum_of(text: bytes) -> str:
    """What two hosts compare: it is that of the text, as two releases of zlib may pack it otherwise."""
    return hashlib.sha256(text).hexdigest()


def pack(text: bytes) -> list[bytes]:
    """Its pieces."""
    packed = zlib.compress(text, LEVEL)
    return [packed[at : at + PIECE_BYTES] for at in range(0, len(packed), PIECE_BYTES)]


def unpack(pieces: Sequence[bytes], sum: str) -> bytes | None:
    """The text of pieces; None where they are not those of a text with this sum."""
    try:
        text = zlib.decompress(b"".join(pieces))
    except zlib.error:
        return None
    return text if sum_of(text) == sum else None
