"""A host without clients that follows a log, writes snapshots of its table, checks those of others, and cuts the log behind them."""

import queue
import random
import time
from collections.abc import Callable
from contextlib import suppress
from functools import partial
from typing import NamedTuple, TypeVar

from pidtab.bounds import DEFAULT_PID_MAX, check_pid_max
from pidtab.calls import Calls
from pidtab.faults import LogFault
from pidtab.hosts.archive import Archive, ArchiveFault
from pidtab.hosts.backoff import Backoff
from pidtab.hosts.log import Behind, CutLog, Following, Progress
from pidtab.hosts.log_entries import ANNOUNCES, FORM, MODEL, SNAP, Announced, Settings, read_announced, read_entry
from pidtab.hosts.machine import table_of, text_of
from pidtab.hosts.machines import AnyMachine, open_machine
from pidtab.hosts.snapshot import pack, read_snapshot, sum_of
from pidtab.hosts.snapshots import (
    SUMS_KEPT,
    Checker,
    Served,
    agreed_sum,
    announce,
    diverged,
    drop_pieces,
    is_agreed,
    name_of,
    piece_name,
    read_served,
    tidy,
)

T = TypeVar("T")

MEGABYTE = 1_000_000

# About so many bytes an entry takes in etcd beside its own.
ENTRY_BYTES = 128

# Of two hosts that find it time for a snapshot, one sees within so many seconds that the other has asked; and waits so long for its snapshot.
HESITATION = 2.0
ANSWER_SECONDS = 60.0


class Wishes(NamedTuple):
    """How a keeper is to work."""

    # A snapshot is written where the entries since the last one are more bytes than this, and so many times those of that one.
    bytes: int = 16 * MEGABYTE
    times: float = 4.0
    # One with more bytes is not written.
    most: int = 64 * MEGABYTE
    # It writes none, and only checks.
    checks: bool = False
    # Its snapshots serve though no other host has checked them.
    alone: bool = False


class Ended(Exception):
    """The keeper is to end."""


class Keeper:
    """One thread that follows a log. Each of its steps may be broken off, and is done again by the next one that writes a snapshot."""

    def __init__(
        self,
        log: CutLog,
        open_table: Callable[[int], Calls],
        wishes: Wishes = Wishes(),
        archive: Archive | None = None,
        say: Callable[[str], object] = print,
    ) -> None:
        self.log = log
        self.open_table = open_table
        self.wishes = wishes
        self.archive = archive
        self.say = say
        self.machine: AnyMachine | None = None
        self.following: Following | None = None
        # The position up to which the log was read, and where it ended when this host began: it checks what is asked for from then on.
        self.seen = 0
        self.began_at: int | None = None
        self.checker = Checker()
        # The keys of its own snapshots, the position at which it has asked for one, and what it has made there.
        self.own: set[str] = set()
        self.asked = 0
        self.made: tuple[int, str, bytes] | None = None
        # The bytes of the entries so far; those up to where snapshots were asked for, and up to the last snapshot; and those of that one.
        self.total = 0
        self.totals: dict[int, int] = {}
        self.kept = 0
        self.size = 0
        # When it may ask for a snapshot, and when it will.
        self.quiet_until = 0.0
        self.due_at: float | None = None
        self.trouble = ""
        self.ended = False
        self.ends: "queue.SimpleQueue[None]" = queue.SimpleQueue()

    def end(self) -> None:
        """Has it end soon. It takes no lock, as it may be a handler of a signal that asks this."""
        self.ended = True
        self.ends.put(None)
        following = self.following
        if following is not None:
            following.close()

    def run(self, now: bool = False) -> None:
        """Follows the log, and writes snapshots when it is time, until its end is asked for; or does now all that can be done, and ends."""
        try:
            self.catch_up()
            self.say(f"open at position {self.seen}")
            if now:
                self.cut_now()
            while not now:
                self.insist(self.advance)
                if self.is_due():
                    self.save()
        except Ended:
            pass
        finally:
            self.close()

    def close(self) -> None:
        """Gives up what it has."""
        self.drop_following()
        if self.machine is not None:
            self.machine.table.close()

    def catch_up(self) -> None:
        """Follows the log to its end."""
        # Who follows it already does not see what becomes of the cells, but a mark.
        end = self.insist(self.log.end if self.following is None else self.log.mark)
        self.began_at = end if self.began_at is None else self.began_at
        self.reach(end)

    def cut_now(self) -> None:
        """Cuts what an earlier one has left, and then behind a new snapshot, if another host has the same within a time: so behind two of them."""
        # Deleting takes no space, where etcd has none.
        self.clear_up()
        first = self.save()
        end = time.monotonic() + ANSWER_SECONDS
        while first is not None and not self.insist(partial(is_agreed, self.log.cells(), first)) and time.monotonic() < end:
            self.pause(1.0)
        if first is not None:
            self.save()

    def save(self) -> Announced | None:
        """Writes a snapshot, and cuts the log behind the older one of those that serve then. None where none was written, which is said."""
        if self.machine is None:
            # The first entry of a log is its settings.
            return None
        self.asked = self.insist(lambda: self.log.append(SNAP))
        self.reach(self.asked)
        made, self.made = self.made, None
        # Also where it is too large, the next one is tried only after as much again.
        self.kept = self.total
        return None if made is None else self.write(*made)

    # Following the log.

    def insist(self, step: Callable[[], T]) -> T:
        """What a step of the log answers, which is tried until it does."""
        backoff = Backoff()
        while True:
            if self.ended:
                raise Ended
            try:
                return step()
            except Behind:
                # Nobody else follows the log here.
                with suppress(OSError):
                    self.advance()
                    continue
            except OSError as fault:
                # Its end ends its follower too.
                if not self.ended:
                    self.say_trouble(f"{fault}")
            self.pause(backoff.next())

    def pause(self, seconds: float) -> None:
        """Waits, and less if it is to end."""
        try:
            self.ends.get(timeout=seconds)
        except queue.Empty:
            pass

    def say_trouble(self, trouble: str) -> None:
        """Says once what the log does not do."""
        if trouble != self.trouble:
            self.trouble = trouble
            self.say(f"the log does not answer, and is asked again: {trouble}")

    def reach(self, position: int) -> None:
        """Follows the log up to a position."""
        while self.seen < position:
            self.insist(self.advance)

    def advance(self) -> None:
        """Takes what comes next of the log."""
        if self.following is None:
            self.following = self.log.follow(self.seen)
        try:
            progress = next(self.following, None)
        except OSError:
            self.drop_following()
            raise
        if progress is None:
            self.drop_following()
            raise ConnectionError("the follower has ended")
        self.take(progress)
        self.trouble = ""

    def drop_following(self) -> None:
        """Follows nothing any more."""
        following, self.following = self.following, None
        if following is not None:
            following.close()

    def take(self, progress: Progress) -> None:
        """Applies what has come. It raises no OSError, behind which it would come again."""
        if progress.snapshot is not None:
            self.load(progress.position, progress.snapshot)
        for position, data in progress.entries:
            self.apply(position, data)
        self.seen = max(self.seen, progress.position)

    def load(self, position: int, text: bytes) -> None:
        """Takes a snapshot in the place of what was cut."""
        try:
            settings = read_snapshot(text).settings
        except ValueError as fault:
            raise LogFault(f"the snapshot of entry {position} cannot be read: {fault}") from None
        machine = self.machine or self.begin(settings)
        machine.load(position, text)
        self.kept, self.size = self.total, sum(map(len, pack(text)))

    def apply(self, position: int, data: bytes) -> None:
        """Applies an entry."""
        machine = self.machine or self.begin(settings_of(data))
        machine.apply(position, data)
        self.total += len(data) + ENTRY_BYTES
        if data == SNAP:
            self.make(machine, position)
        elif data.startswith(ANNOUNCES):
            self.judge(read_announced(data))

    def begin(self, settings: Settings) -> AnyMachine:
        """Opens a table for the log, whatever its settings are, if they may have snapshots."""
        if settings.form < FORM:
            raise LogFault(f"the log has form {settings.form}, and goes on without snapshots: begin a log of another name with its table, by --salvage and --begin")
        try:
            pid_max = check_pid_max(settings.pid_max)
        except ValueError as fault:
            raise LogFault(f"the log has {settings}: {fault}") from None
        self.machine = open_machine(lambda: self.open_table(pid_max), Settings(FORM, pid_max, MODEL))
        return self.machine

    def make(self, machine: AnyMachine, position: int) -> None:
        """Makes the text of the table where a snapshot is asked for, if that is not long ago."""
        self.totals = {**dict(list(self.totals.items())[1 - SUMS_KEPT :]), position: self.total}
        if self.began_at is None or position <= self.began_at:
            return
        self.quiet_until = time.monotonic() + ANSWER_SECONDS
        text = machine.write()
        self.checker.note(position, text)
        if position == self.asked:
            self.made = (position, machine.digest, text)

    def judge(self, it: Announced) -> None:
        """Compares the snapshot of another host with its own text."""
        self.kept, self.size = self.totals.pop(it.position, self.total), it.size
        self.quiet_until = 0.0
        if it.key not in self.own and self.insist(lambda: self.checker.judge(self.log.cells(), it)):
            self.say(f"the snapshot of position {it.position} is right")

    # Writing a snapshot.

    def is_due(self) -> bool:
        """Whether it is time for a snapshot."""
        now = time.monotonic()
        bound = max(self.wishes.bytes, self.wishes.times * self.size)
        if self.wishes.checks or self.machine is None or self.total - self.kept <= bound or now < self.quiet_until:
            self.due_at = None
            return False
        if self.due_at is None:
            self.due_at = now + random.uniform(0, HESITATION)
        return now >= self.due_at

    def write(self, position: int, digest: str, text: bytes) -> Announced | None:
        """Puts the pieces of a snapshot, announces it, and cuts the log."""
        pieces = pack(text)
        it = Announced(position, digest, sum(map(len, pieces)), sum_of(text), name_of(position))
        why = self.why_not(it, text)
        if why:
            self.say(f"no snapshot of position {position}: {why}")
            return None
        cells = self.log.cells()
        self.look_at_last(self.insist(lambda: read_served(cells)))
        self.own.add(it.key)
        for number, piece in enumerate(pieces):
            self.insist(partial(cells.change, {piece_name(it.key, number): piece}))
        if not self.insist(lambda: announce(cells, it, self.wishes.alone)):
            self.insist(lambda: drop_pieces(cells, it.key))
            self.say(f"no snapshot of position {position}: another host has written a later one")
            return None
        self.say(f"snapshot of position {position}: {len(text)} bytes, packed to {it.size}")
        self.clear_up()
        return it

    def why_not(self, it: Announced, text: bytes) -> str:
        """Why a snapshot is not to be written; empty where it is."""
        if it.size > self.wishes.most:
            return f"it has {it.size} bytes, above {self.wishes.most}, and the log goes on without"
        assert self.machine
        table = read_snapshot(text).table
        try:
            again = table_of(table, self.machine.table)
        except ValueError as fault:
            return f"of its text no table is made: {fault}"
        try:
            return "" if text_of(again) == table else "of its text another table is made"
        finally:
            again.close()

    def look_at_last(self, served: Served) -> None:
        """Says where nobody has looked at the last snapshot; where somebody has another one, this is a `Diverged`."""
        for it in served.all[-1:]:
            sum = self.insist(partial(agreed_sum, self.log.cells(), it))
            if sum and sum != it.sum:
                raise diverged(it)
            if not sum:
                self.say(f"nobody has checked the snapshot of position {it.position}: run one more pidtab-keep, or this one with --alone")

    def clear_up(self) -> None:
        """Takes away what is left of snapshots that do not serve, and the entries before the older one that does."""
        cells = self.log.cells()
        served = self.insist(lambda: read_served(cells))
        self.insist(lambda: tidy(cells, served))
        if len(served.all) < 2 or not self.insist(lambda: is_agreed(cells, served.all[0])):
            return
        try:
            if self.archive is not None:
                self.insist(partial(self.keep_entries, self.archive, served.cut))
        except ArchiveFault as fault:
            self.say(f"nothing is cut: {fault}")
            return
        self.say(f"{self.insist(lambda: self.log.cut(served.cut))} entries up to position {served.cut} are cut")

    def keep_entries(self, archive: Archive, position: int) -> None:
        """Puts what is to be cut into the archive."""
        archive.put(self.log.entries_to(position))


def settings_of(data: bytes) -> Settings:
    """The settings that an entry is; else what the entry will be refused with."""
    try:
        entry = read_entry(data)
    except ValueError:
        entry = None
    return entry if isinstance(entry, Settings) else Settings(FORM, DEFAULT_PID_MAX, MODEL)
