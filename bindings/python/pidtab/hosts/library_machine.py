"""The table of one replica by the library of C, where it is proved what the entries of a log make of it."""

import ctypes
import weakref
from functools import partial
from typing import Literal

from pidtab.faults import LibraryFault
from pidtab.hosts import log_faults
from pidtab.hosts.log_entries import Announced, Asked, Settings, read_entry
from pidtab.hosts.machine import NoMemory, Outcome
from pidtab.native import read_written
from pidtab.raw import (
    BAD_TEXT,
    DIVERGED,
    DONE,
    ENTRY_GAP,
    ENTRY_GONE,
    ENTRY_MADE,
    ENTRY_NOTED,
    ENTRY_REPEATED,
    MISSING,
    NO_ENTRY,
    NO_MEMORY,
    NOT_KEPT,
    NOT_RECOVERABLE,
    NOT_RISING,
    OTHER_SETTINGS,
    PidtabApplied,
    PidtabDigest,
    PidtabLog,
    PidtabReplica,
)
from pidtab.table import Table

WHAT: dict[int, Literal["made", "repeated", "gone", "gap"]] = {
    ENTRY_MADE: "made",
    ENTRY_REPEATED: "repeated",
    ENTRY_GONE: "gone",
    ENTRY_GAP: "gap",
}


def has_replicas(table: object) -> bool:
    """Whether the library of a table has replicas. A table of a kind that is derived from it may answer otherwise, and has none."""
    return type(table) is Table and hasattr(table._check_open().functions, "pidtab_replica_apply")


class LibraryMachine:
    """A table with what a replica knows of its log: as `Machine`, in one call of the library for each entry."""

    def __init__(self, table: Table, settings: Settings) -> None:
        # Once the log has begun, those of the log.
        self.settings = settings
        self.table = table
        self.begun = False
        self.position = 0
        self._functions = table._check_open().functions
        # Each entry goes through these, so they are not looked up by a name.
        self._apply, self._applied = self._functions.pidtab_replica_apply, PidtabApplied()
        self._replica = self._open(settings)

    def _open(self, settings: Settings) -> PidtabReplica:
        """A replica of a log that has not begun, which is freed once nobody has it."""
        replica = PidtabReplica()
        weakref.finalize(self, self._functions.pidtab_replica_close, replica)
        self._check(self._call(replica, "open", settings.pid_max, settings.model))
        return replica

    def _call(self, replica: PidtabReplica, name: str, *arguments: object) -> int:
        """The status of a function on a replica."""
        return int(getattr(self._functions, f"pidtab_replica_{name}")(replica, *arguments))

    def _check(self, status: int) -> None:
        """Raises what a status says that only means want of memory, or a fault of the library."""
        if status in (NO_MEMORY, NOT_RECOVERABLE):
            raise NoMemory("no memory for a call")
        if status != DONE:
            raise LibraryFault(f"the library answered with the status {status}")

    @property
    def digest(self) -> str:
        """The digest behind the last entry; nothing before the log has begun."""
        return (self.digest_at(self.position) or "") if self.begun else ""

    @property
    def calls(self) -> int:
        """How many lines were made."""
        return self._log(self._replica).calls

    def apply(self, position: int, data: bytes) -> Outcome | None:
        """Applies the next entry. What became of it, if it has calls."""
        applied = self._applied
        status = self._apply(self._replica, self.table._check_open().at, position, data, len(data), applied)
        if status != DONE:
            raise self._refused(status, position, data)
        self.position = position
        if not self.begun:
            self._begin()
        if applied.outcome == ENTRY_NOTED:
            return None
        return Outcome(applied.session, applied.sequence, WHAT[applied.outcome], self._answers(applied.size))

    def write(self) -> bytes:
        """All that the entries up to here have made, as the text of a snapshot. The caller sees to it that nobody changes the table."""
        head = read_written(partial(self._call, self._replica, "write"), "snapshot")
        return (head + self.table.dump()).encode("ascii")

    def load(self, position: int, text: bytes) -> None:
        """Takes what a snapshot has in the place of what is here, which is behind it."""
        if position <= self.position:
            raise log_faults.late_snapshot(position, self.position)
        replica = self._open(self.settings)
        used = self._read_head(replica, position, text)
        log = self._log(replica)
        try:
            if log.position != position:
                raise ValueError(f"it is that of entry {log.position}")
            table = Table.from_dump(text[used:], self.table.library)
        except ValueError as fault:
            raise log_faults.bad_snapshot(position, fault) from None
        self.table, before = table, self.table
        before.close()
        self._call(self._replica, "close")
        self._replica, self.position = replica, position
        self._begin()

    def last_of(self, session: int) -> int | None:
        """The number of a session's last entry that counted; None where the session is not open."""
        last = ctypes.c_uint64()
        return last.value if self._call(self._replica, "last", session, last) == DONE else None

    def digest_at(self, position: int) -> str | None:
        """The digest behind an entry; None where it is not kept."""
        digest = PidtabDigest()
        status = self._call(self._replica, "digest", position, digest)
        if status == NOT_KEPT:
            return None
        self._check(status)
        return bytes(digest.bytes).hex()

    def _log(self, replica: PidtabReplica) -> PidtabLog:
        """What a replica knows of its log."""
        log = PidtabLog()
        self._check(self._call(replica, "log", log))
        return log

    def _begin(self) -> None:
        """Takes the form of the log."""
        self.begun = True
        self.settings = self.settings._replace(form=self._log(self._replica).form)

    def _answers(self, size: int) -> list[str]:
        """The answers to the last entry, which have so many bytes."""
        if not size:
            return []
        room, written = ctypes.create_string_buffer(size), ctypes.c_size_t()
        self._check(self._call(self._replica, "answers", room, size, written))
        return room.raw[: written.value].decode("ascii").split("\n")[:-1]

    def _read_head(self, replica: PidtabReplica, position: int, text: bytes) -> int:
        """Gives a replica what the head of a snapshot says. Its length."""
        used = ctypes.c_size_t()
        status = self._call(replica, "read", text, len(text), used)
        if status in (BAD_TEXT, OTHER_SETTINGS):
            head = text.partition(b"\n")[0][:200]
            raise log_faults.bad_snapshot(position, f"it begins with {head[:40]!r}") if status == BAD_TEXT else other_log(head, self.settings)
        self._check(status)
        return used.value

    def _refused(self, status: int, position: int, data: bytes) -> Exception:
        """What is raised for an entry that is not applied."""
        if status == NOT_RISING:
            return log_faults.not_rising(position, self.position)
        if status == NO_ENTRY:
            return log_faults.unreadable(position, why_no_entry(data))
        if status not in (OTHER_SETTINGS, MISSING, DIVERGED):
            self._check(status)
        entry = read_entry(data)
        if isinstance(entry, Settings):
            return log_faults.other_settings(entry, self.settings)
        if status == OTHER_SETTINGS:
            return log_faults.no_snapshots(position, self.settings.form) if self.begun else log_faults.no_settings()
        if isinstance(entry, Announced):
            return log_faults.diverged_snapshot(position, entry)
        assert isinstance(entry, Asked)
        return log_faults.missing(position, entry) if status == MISSING else log_faults.diverged(position, entry, self.digest_at(entry.position) or "")


def why_no_entry(data: bytes) -> object:
    """Why bytes are no entry."""
    try:
        read_entry(data)
    except ValueError as fault:
        return fault
    raise LibraryFault("the library calls an entry none")


def other_log(head: bytes, own: Settings) -> Exception:
    """What is said of the snapshot of a log with other settings."""
    words = head.decode("ascii", "replace").split()
    return log_faults.other_settings(Settings(int(words[1]), int(words[3]), int(words[5])), own)
