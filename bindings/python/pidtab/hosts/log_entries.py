"""The entries of a log, as docs/CLUSTER.md has them: the settings, then sessions that open and end, their calls, and what is said of snapshots."""

import re
from collections.abc import Sequence
from typing import NamedTuple

# The form of the entries, with the rules by which they are applied. Form 2 has snapshots, behind which a log is cut; a log of form 1 goes on without.
FORM = 2
FORMS = (1, FORM)

# It rises when a release answers a line otherwise than the one before.
MODEL = 1

# So many sessions are open at once; the one that was used the longest ago ends for one more.
MOST_SESSIONS = 4096

# For so many entries the digest behind them is kept.
DIGESTS_KEPT = 4096

# An entry of calls has at most so many bytes, or one part of a submit.
MOST_BYTES = 512 * 1024
PART_BYTES = 128 * 1024

# So many digits of a digest are in an entry.
SHORT_DIGEST = 16

# A line with more bytes is bad, whatever it says (docs/SCRIPT.md).
LONGEST_LINE = 200

NUMBER = rb"(0|[1-9][0-9]{0,19})"
GREATEST = 2**64 - 1
SETTINGS = re.compile(rb"pidtab-log %s pid_max %s model %s" % (NUMBER, NUMBER, NUMBER))
END = re.compile(rb"end %s" % NUMBER)
CALLS = re.compile(rb"calls %s %s %s %s ([0-9a-f]{%d})" % (NUMBER, NUMBER, NUMBER, NUMBER, SHORT_DIGEST))
SUM = rb"([0-9a-f]{64})"
SNAPSHOT = re.compile(rb"snapshot %s %s %s %s ([0-9a-f]{16}-[0-9a-f]{16})" % (NUMBER, SUM, NUMBER, SUM))


class Settings(NamedTuple):
    """The first entry: what all replicas have in common."""

    form: int
    pid_max: int
    model: int

    def __str__(self) -> str:
        return f"form {self.form}, pid_max {self.pid_max} and model {self.model}"


class Opened(NamedTuple):
    """Opens a session, whose number is the position of the entry."""


class Ended(NamedTuple):
    """Ends a session."""

    session: int


class Asked(NamedTuple):
    """Calls of a session, with a number that rises by 1; and what the writer had at some position: the digest of all its answers so far."""

    session: int
    sequence: int
    position: int
    digest: str
    lines: Sequence[bytes]


class Wanted(NamedTuple):
    """Asks for a snapshot of the table as it is here: two hosts that make its text behind this entry make the same one."""


class Announced(NamedTuple):
    """A snapshot that is whole: the position of its `Wanted`, the digest there, the bytes of all its pieces, the sum of its text, and the pieces' name."""

    position: int
    digest: str
    size: int
    sum: str
    key: str


Entry = Settings | Opened | Ended | Asked | Wanted | Announced

# What the announcement of a snapshot begins with.
ANNOUNCES = b"snapshot "

OPEN = b"open"
SNAP = b"snap"


def write_settings(settings: Settings) -> bytes:
    """The entry of the settings."""
    return b"pidtab-log %d pid_max %d model %d" % settings


def write_end(session: int) -> bytes:
    """The entry that ends a session."""
    return b"end %d" % session


def write_calls(asked: Asked) -> bytes:
    """The entry of some calls."""
    numbers = (asked.session, asked.sequence, len(asked.lines), asked.position)
    return b"\n".join([b"calls %d %d %d %d " % numbers + asked.digest.encode(), *asked.lines])


def write_announced(it: Announced) -> bytes:
    """The entry that announces a snapshot."""
    return b"snapshot %d %s %d %s %s" % (it.position, it.digest.encode(), it.size, it.sum.encode(), it.key.encode())


def read_number(digits: bytes) -> int:
    """The number; one of more than 64 bits is a ValueError."""
    number = int(digits)
    if number > GREATEST:
        raise ValueError(f"{number} is above {GREATEST}")
    return number


def read_announced(data: bytes) -> Announced:
    """What announces a snapshot; any other bytes are a ValueError."""
    found = SNAPSHOT.fullmatch(data)
    if not found:
        raise ValueError(f"it announces no snapshot: {data[:40]!r}")
    return Announced(read_number(found[1]), found[2].decode(), read_number(found[3]), found[4].decode(), found[5].decode())


def read_entry(data: bytes) -> Entry:
    """What an entry is; any other bytes are a ValueError."""
    head, *lines = data.split(b"\n")
    if found := CALLS.fullmatch(head):
        session, sequence, count, position = map(read_number, found.groups()[:4])
        if not lines or count != len(lines) or b"" in lines:
            raise ValueError(f"{len(lines)} lines in the place of {count}, or an empty one")
        return Asked(session, sequence, position, found[5].decode(), lines)
    if lines:
        raise ValueError(f"it begins with {head[:40]!r}")
    return read_line(data)


def read_line(data: bytes) -> Entry:
    """What an entry of one line is."""
    if data == OPEN:
        return Opened()
    if data == SNAP:
        return Wanted()
    if found := END.fullmatch(data):
        return Ended(read_number(found[1]))
    if found := SETTINGS.fullmatch(data):
        return Settings(*map(read_number, found.groups()))
    if SNAPSHOT.fullmatch(data):
        return read_announced(data)
    raise ValueError(f"it begins with {data[:40]!r}")
