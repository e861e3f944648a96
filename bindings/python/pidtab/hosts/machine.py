"""A table as a function of a log: who has the same entries has the same table, and has answered the same. For tables that the library does not hold."""

import gc
import hashlib
import time
from collections import OrderedDict
from collections.abc import Callable, Sequence
from typing import Literal, NamedTuple

from pidtab.calls import Calls
from pidtab.faults import LibraryFault
from pidtab.hosts import log_faults
from pidtab.hosts.log_entries import (
    DIGESTS_KEPT,
    FORM,
    FORMS,
    MOST_SESSIONS,
    SHORT_DIGEST,
    Announced,
    Asked,
    Ended,
    Entry,
    Opened,
    Settings,
    Wanted,
    read_entry,
    write_settings,
)
from pidtab.hosts.snapshot import Snapshot, read_snapshot, write_snapshot
from pidtab.number_calls import NumberCalls
from pidtab.process import Process
from pidtab.table import Table

NO_MEMORY = "no memory"

# A call that found no memory is made again behind so many seconds, and so on; then the table is given up.
PAUSES = (0.0, 0.05, 0.2, 1.0)


class NoMemory(Exception):
    """A call found no memory here, and others have made it: this table is not that of the log any more."""


class Outcome(NamedTuple):
    """What became of an entry of calls: they were made, or an entry with the number was before, or the session is none, or numbers are missing."""

    session: int
    sequence: int
    what: Literal["made", "repeated", "gone", "gap"]
    answers: Sequence[str] = ()


def asker(table: Calls) -> Callable[[bytes], str]:
    """What answers one line: for a table of this process its own function, which spares a list for each line."""
    if isinstance(table, NumberCalls):
        return table._answer
    return lambda line: table._answers((line,))[0]


def make_one_by_one(table: Calls, lines: Sequence[bytes]) -> list[str]:
    """The answers to lines. Where there is no memory for one, it is made again before the next."""
    table._check_owner()
    ask = asker(table)
    answers = []
    for line in lines:
        answer = ask(line)
        answers.append(answer if answer != NO_MEMORY else make_again(ask, line))
    return answers


def make_again(ask: Callable[[bytes], str], line: bytes) -> str:
    """The answer to a line for which there was no memory."""
    for pause in PAUSES:
        gc.collect()
        time.sleep(pause)
        answer = ask(line)
        if answer != NO_MEMORY:
            return answer
    raise NoMemory("no memory for a call")


def make_all(table: Calls, lines: Sequence[bytes]) -> Sequence[str]:
    """The answers to lines, none of which is `no memory`."""
    if not isinstance(table, Process):
        return make_one_by_one(table, lines)
    # What is behind in the pipe was made already, so none can be made again.
    answers = table._answers(lines)
    if NO_MEMORY in answers:
        raise NoMemory("no memory for a call")
    return answers


def text_of(table: Calls) -> bytes:
    """All that there is to know of a table."""
    dump = getattr(table, "dump", None)
    if dump is None:
        raise LibraryFault(f"a {type(table).__name__} has no text for a snapshot: only a table by the library has, as with table=pidtab.Table")
    return str(dump()).encode("ascii")


def table_of(text: bytes, like: Calls) -> Calls:
    """A table as a text says, of the kind of another one."""
    if isinstance(like, Table):
        return type(like).from_dump(text, like.library)
    load = getattr(like, "from_dump", None)
    if load is None:
        raise LibraryFault(f"the log begins with a snapshot, of which no {type(like).__name__} is made: open it with table=pidtab.Table")
    table: Calls = load(text)
    return table


class Machine:
    """The table of one replica, with the sessions of the log and the digest of all answers."""

    def __init__(self, table: Calls, settings: Settings) -> None:
        # Once the log has begun, those of the log.
        self.settings = settings
        self.table = table
        # Whether the log has its settings.
        self.begun = False
        self.position = 0
        self.digest = ""
        self.calls = 0
        # The last number of each session, the one first that was used the longest ago.
        self._sessions: OrderedDict[int, int] = OrderedDict()
        self._digests: OrderedDict[int, str] = OrderedDict()

    def apply(self, position: int, data: bytes) -> Outcome | None:
        """Applies the next entry. What became of it, if it has calls."""
        if position <= self.position:
            raise log_faults.not_rising(position, self.position)
        try:
            entry = read_entry(data)
        except ValueError as fault:
            raise log_faults.unreadable(position, fault) from None
        outcome = self._apply(position, entry)
        self.position = position
        self._digests[position] = self.digest
        if len(self._digests) > DIGESTS_KEPT:
            self._digests.popitem(last=False)
        return outcome

    def write(self) -> bytes:
        """All that the entries up to here have made, as the text of a snapshot. The caller sees to it that nobody changes the table."""
        return write_snapshot(Snapshot(self.settings, self.position, self.digest, self.calls, list(self._sessions.items()), text_of(self.table)))

    def load(self, position: int, text: bytes) -> None:
        """Takes what a snapshot has in the place of what is here, which is behind it."""
        if position <= self.position:
            raise log_faults.late_snapshot(position, self.position)
        try:
            found = read_snapshot(text)
            if found.position != position:
                raise ValueError(f"it is that of entry {found.position}")
            self._check_settings(found.settings)
            table = table_of(found.table, self.table)
        except ValueError as fault:
            raise log_faults.bad_snapshot(position, fault) from None
        self.table, before = table, self.table
        before.close()
        self.settings, self.begun = found.settings, True
        self.position, self.digest, self.calls = position, found.digest, found.calls
        self._sessions = OrderedDict(found.sessions)
        self._digests = OrderedDict([(position, found.digest)])

    def last_of(self, session: int) -> int | None:
        """The number of a session's last entry that counted; None where the session is not open."""
        return self._sessions.get(session)

    def digest_at(self, position: int) -> str | None:
        """The digest behind an entry; None where it is not kept."""
        return self._digests.get(position)

    def _apply(self, position: int, entry: Entry) -> Outcome | None:
        if not self.begun:
            self._begin(entry)
        elif isinstance(entry, Opened):
            self._open(position)
        elif isinstance(entry, Ended):
            self._sessions.pop(entry.session, None)
        elif isinstance(entry, Asked):
            self._compare(position, entry)
            return self._ask(entry)
        elif isinstance(entry, (Wanted, Announced)):
            self._check_snapshot(position, entry)
        # Settings that are not the first were written at the same time: who wrote them reads the first ones too.
        return None

    def _begin(self, entry: Entry) -> None:
        """Takes the first entry."""
        if not isinstance(entry, Settings):
            raise log_faults.no_settings()
        self._check_settings(entry)
        self.settings, self.begun = entry, True
        self.digest = hashlib.sha256(write_settings(entry)).hexdigest()

    def _check_settings(self, found: Settings) -> None:
        """Sees to it that the log has the settings of this replica. It may have an earlier form, and goes on with that."""
        if found.form not in FORMS or found[1:] != self.settings[1:]:
            raise log_faults.other_settings(found, self.settings)

    def _check_snapshot(self, position: int, entry: Wanted | Announced) -> None:
        """Sees to it that a log has snapshots, and that one has the digest that this host had."""
        if self.settings.form < FORM:
            raise log_faults.no_snapshots(position, self.settings.form)
        if isinstance(entry, Announced) and self._digests.get(entry.position, entry.digest) != entry.digest:
            raise log_faults.diverged_snapshot(position, entry)

    def _open(self, position: int) -> None:
        """Opens a session, for which the one that was used the longest ago may end."""
        if len(self._sessions) >= MOST_SESSIONS:
            self._sessions.popitem(last=False)
        self._sessions[position] = 0

    def _compare(self, position: int, asked: Asked) -> None:
        """Sees to it that the writer of an entry had the same answers."""
        mine = self._digests.get(asked.position)
        if mine is None:
            if asked.position >= next(iter(self._digests)):
                raise log_faults.missing(position, asked)
        elif mine[:SHORT_DIGEST] != asked.digest:
            raise log_faults.diverged(position, asked, mine)

    def _ask(self, asked: Asked) -> Outcome:
        """Makes the calls of an entry, if it is the next of its session."""
        last = self._sessions.get(asked.session)
        if last is None:
            return Outcome(asked.session, asked.sequence, "gone")
        if asked.sequence != last + 1:
            return Outcome(asked.session, asked.sequence, "repeated" if asked.sequence <= last else "gap")
        answers = make_all(self.table, asked.lines)
        self._sessions[asked.session] = asked.sequence
        self._sessions.move_to_end(asked.session)
        self.calls += len(answers)
        self.digest = next_digest(self.digest, asked.lines, answers)
        return Outcome(asked.session, asked.sequence, "made", answers)


def next_digest(before: str, lines: Sequence[bytes], answers: Sequence[str]) -> str:
    """The digest behind calls and their answers."""
    text = [bytes.fromhex(before)]
    for line, answer in zip(lines, answers):
        text += (line, b"\n", answer.encode(), b"\n")
    return hashlib.sha256(b"".join(text)).hexdigest()
