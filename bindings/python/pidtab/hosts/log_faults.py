"""What is said of a log that cannot be followed on."""

from pidtab.faults import Diverged, LogFault
from pidtab.hosts.log_entries import SHORT_DIGEST, Announced, Asked, Settings


def not_rising(position: int, last: int) -> LogFault:
    """The position is not behind that of the last entry."""
    return LogFault(f"the log has given entry {position} behind entry {last}")


def unreadable(position: int, why: object) -> LogFault:
    """The bytes are no entry."""
    return LogFault(f"entry {position} of the log cannot be read: {why}")


def no_settings() -> LogFault:
    """The first entry is another one."""
    return LogFault("the log does not begin with its settings: it was trimmed, its snapshots are lost, or it is none of pidtab's")


def other_settings(found: Settings, own: Settings) -> LogFault:
    """The log is that of other hosts."""
    return LogFault(f"the log has {found}, and this replica {own}")


def no_snapshots(position: int, form: int) -> LogFault:
    """The form of the log has no such entry."""
    return unreadable(position, f"form {form} has no snapshots")


def missing(position: int, asked: Asked) -> LogFault:
    """The writer had an entry that is not there."""
    return LogFault(f"the writer of entry {position} had an entry {asked.position}, which the log has no more")


def diverged(position: int, asked: Asked, mine: str) -> Diverged:
    """The writer of calls had another digest."""
    return Diverged(f"behind entry {asked.position} the digest is {mine[:SHORT_DIGEST]} here, and {asked.digest} with the writer of entry {position}")


def diverged_snapshot(position: int, it: Announced) -> Diverged:
    """The writer of a snapshot had another digest."""
    return Diverged(f"behind entry {it.position} the digest is not the one here in the snapshot that entry {position} announces")


def lost_entry(session: int, sequence: int) -> LogFault:
    """The log lacks an entry of this host."""
    return LogFault(f"the log has lost an entry of session {session} before number {sequence}")


def foreign_entry(position: int, session: int, sequence: int | None) -> LogFault:
    """A snapshot has an entry that this host has not put."""
    return LogFault(f"the snapshot of entry {position} has entry {sequence} of session {session}, which this host has not put")


def bad_snapshot(position: int, why: object) -> LogFault:
    """The text of a snapshot cannot be read."""
    return LogFault(f"the snapshot of entry {position} cannot be read: {why}")


def late_snapshot(position: int, last: int) -> LogFault:
    """The snapshot is not behind what is here."""
    return LogFault(f"the log has given the snapshot of entry {position} behind entry {last}")
