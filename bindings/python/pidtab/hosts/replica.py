"""One host's part in a table on many hosts, in steps: it follows the log, appends to it, and watches the time."""

import copy
import logging
import threading
import time
from collections.abc import Callable, Sequence
from contextlib import suppress
from typing import TypeVar

from pidtab.calls import Calls
from pidtab.changed import Changed
from pidtab.faults import Diverged, LogFault, NotKnown, ProgramFault, TableClosed
from pidtab.hosts.backoff import Backoff
from pidtab.hosts.crew import CLOSED, Crew
from pidtab.hosts.log import CutLog, Following, Log, Progress
from pidtab.hosts.log_entries import (
    ANNOUNCES,
    FORM,
    MODEL,
    SHORT_DIGEST,
    Announced,
    Settings,
    Wanted,
    read_entry,
    write_end,
    write_settings,
)
from pidtab.hosts.machine import NoMemory, Outcome, text_of
from pidtab.hosts.machines import open_machine
from pidtab.hosts.monitoring import Change, Changes, Numbers, change_of
from pidtab.hosts.own_calls import OwnCalls
from pidtab.hosts.snapshots import Checker
from pidtab.hosts.submitted import Submitted, deadline_behind
from pidtab.labels import Labels
from pidtab.library import find_library
from pidtab.table import Table

T = TypeVar("T")

# What says that a table is not that of the log any more.
LOSSES = (NoMemory, ProgramFault, MemoryError)

# So often a table is made anew from the log without a gain of so many positions; then the replica stops.
MOST_REPLAYS = 4
GAIN = 1000

# Seconds before the next of them, times how many there were.
REPLAY_PAUSE = 0.5

# A reader that waits so long for its own log asks for a mark, which the log's follower reaches by itself.
SOON = 0.02

# At least so many tries of the log are made within the patience, if it answers at once.
PATIENCE_TRIES = 8

# So many submits may wait for answers at once: each takes some 2 KB.
MOST_WAITING = 100_000

# Silent, unless the program has it written somewhere.
LOGGER = logging.getLogger("pidtab")
LOGGER.addHandler(logging.NullHandler())


class Replica:
    """A table that follows a log, and what this host puts into it.

    An interrupt comes into a thread of the caller alone. So what takes several steps is done by a crew: three threads of its own, or some that
    serve many replicas. One thread at a time follows, one appends, and one watches the time.

    Nothing here has its own reference to the `Replicated` that it serves, but by what was submitted and is not answered.
    """

    def __init__(
        self, log: Log, pid_max: int, open_table: Callable[[], Calls], patience: float, hire: "Callable[[Replica], Crew]", checks: bool = False
    ) -> None:
        self.log = log
        self.patience = patience
        self.settings = Settings(FORM, pid_max, MODEL)
        self.open_table = open_table
        # Set in a forked child, where the threads are not.
        self.left = False
        self.stopped = False
        self.closing = False
        # Nothing is waited for any more.
        self.hurried = False
        self.fault: Exception | None = None
        # What the log last said that it could not do, for the words of a fault; and what of that was written to the program's log.
        self._trouble: Exception | None = None
        self._told_trouble = ""
        # Whether the log has done nothing since then.
        self._ails = False
        # What is counted, and when something was heard of the log, and of a snapshot.
        self.retries = self.not_known = self.all_replays = 0
        self.heard_at, self.snapshot_at = time.monotonic(), 0.0
        self.labels = Labels()
        self.feeds: Sequence[Changes] = ()
        # The position up to which the log was read; entries after it may be applied already.
        self.seen = 0
        # Why the table is not that of the log any more; None where it is.
        self.lost: Exception | None = None
        self.replays = 0
        self.failed_at = 0
        self.changed = Changed()
        self.following: Following | None = None
        self.table_lock = threading.Lock()
        # Its sums, if this host checks snapshots.
        self.checker = Checker() if checks else None
        self._open_machine(checks)
        # The last entry that was applied, and the digest after it. While the log is replayed it stays.
        self.place = (0, "")
        self.crew = hire(self)

    def _open_machine(self, checks: bool) -> None:
        """Opens the table, and what is said of its calls. A fault closes the table again."""
        self.machine = open_machine(self.open_table, self.settings)
        try:
            self.calls = OwnCalls(library_of(self.machine.table), self.changed)
            if checks:
                # A table that has no text says so before it is needed.
                text_of(self.machine.table)
        except BaseException:
            self.machine.table.close()
            raise

    @property
    def threads(self) -> Sequence[threading.Thread]:
        """Those of the crew."""
        return self.crew.threads

    @property
    def trouble(self) -> Exception | None:
        """What the log last said that it could not do."""
        return self._trouble

    @trouble.setter
    def trouble(self, fault: Exception) -> None:
        self._trouble, self._ails = fault, True
        self.retries += 1
        # Not by a thread of the caller, where an interrupt might leave a lock of `logging` taken.
        if str(fault) != self._told_trouble and threading.current_thread() in self.threads:
            self._told_trouble = str(fault)
            LOGGER.warning("%r does not answer, and is asked again: %s", self.log, fault)

    def numbers(self) -> Numbers:
        """How it does."""
        now = time.monotonic()
        with self.changed:
            waiting = [it.submitted_at for it in self.calls.waiting if not it.done()]
        age = now - self.snapshot_at if self.snapshot_at else None
        counts = (self.retries, self.not_known, self.all_replays)
        lag = now - min(waiting) if waiting else 0.0
        return Numbers(self.place[0], self.machine.calls, len(waiting), lag, now - self.heard_at, *counts, age, str(self._trouble) if self._ails else "")

    def tell(self) -> None:
        """Says that something has changed. It takes no lock."""
        self.changed.notify_all()
        self.crew.tell()

    def make_backoff(self) -> Backoff:
        """Pauses of which there are some within the patience."""
        return Backoff(self.patience / PATIENCE_TRIES)

    # What the threads of the caller do.

    def start(self) -> None:
        """Begins, and waits until the table is as the log has it now."""
        # The first, as that ends what cannot be opened.
        self.crew.watch_time()
        try:
            # Before the log is followed, which so gets there by itself.
            end = self.insist(self.log.end, deadline_behind(self.patience))
            self.crew.follow_log()
            self.reach(end)
            if not self.machine.begun:
                self.insist(lambda: self.log.append(write_settings(self.settings)), deadline_behind(self.patience))
                self.wait_until(lambda: self.machine.begun)
        except NotKnown as fault:
            raise LogFault(f"the log was not opened: {fault}") from self.trouble

    def submit(self, submitted: Submitted) -> None:
        """Has calls made."""
        with self.changed:
            self.check_open()
            if len(self.calls) >= MOST_WAITING:
                raise NotKnown(f"{len(self.calls)} submits wait for the log already: the calls were not made", sent=False)
            self.calls.add(submitted)
            self.tell()

    def check_open(self) -> None:
        """Raises why the replica takes no calls, if it does not."""
        if self.closing or (self.stopped and self.fault is None):
            raise TableClosed(CLOSED)
        if self.fault is not None:
            # A copy, since one that several threads raise has the traces of all.
            raise copy.copy(self.fault) from self.fault.__cause__

    def check_running(self) -> None:
        """Raises why the replica has stopped, if it has."""
        if self.stopped:
            self.check_open()

    def check_thread(self) -> None:
        """Sees to it that no thread of the crew waits for itself, as in what was added to a `Future` to be called when it is done."""
        if threading.current_thread() in self.threads:
            raise RuntimeError("what is called when a Future is done cannot wait for its table: use `submit` there, or another thread")

    def read(self, look: Callable[[Calls], T]) -> T:
        """What is seen in the table, which nobody changes meanwhile. Amid a replay it would be as it was before, so who reads waits for its end."""
        while True:
            self.check_open()
            if not self.is_whole():
                self.check_thread()
                self.wait_until(self.is_whole)
            with self.table_lock:
                self.check_open()
                if self.is_whole():
                    return look(self.machine.table)

    def is_whole(self) -> bool:
        """Whether the table has all that was ever answered here."""
        return self.lost is None and self.machine.position >= self.place[0]

    def catch_up(self) -> int:
        """Waits until the table has all that the log had when this was asked: the position."""
        self.check_thread()
        self.check_open()
        deadline = deadline_behind(self.patience)
        end = self.insist(self.log.end, deadline)
        self.crew.expect(end)
        if self.changed.wait_for(lambda: self.seen >= end or self.stopped, SOON) and not self.stopped:
            return self.place[0]
        self.reach(self.insist(self.log.mark, deadline))
        return self.place[0]

    def reach(self, position: int) -> None:
        """Waits until the log was read up to a position."""
        self.wait_until(lambda: self.seen >= position)

    def wait_until(self, holds: Callable[[], bool]) -> None:
        """Waits for something that the follower brings, as long as it goes on within the patience."""
        while not holds():
            self.check_open()
            before = self.progress()
            self.changed.wait_for(lambda: holds() or self.stopped or before != self.progress(), self.patience)
            if not (holds() or self.stopped) and before == self.progress():
                raise self.over()

    def progress(self) -> tuple[int, int, int]:
        """What changes as long as the follower goes on."""
        return (self.seen, self.machine.position, self.replays)

    def over(self) -> NotKnown:
        """What is raised when the patience is over for what makes no call."""
        return NotKnown(f"{self.why_late()}: no call was made", sent=False)

    def why_late(self) -> str:
        """Why the patience is over, in words."""
        trouble = "" if self.trouble is None else f" ({self.trouble})"
        return f"the log has not answered for {self.patience:g} seconds{trouble}"

    def insist(self, step: Callable[[], T], deadline: float) -> T:
        """What a step of the log answers, which is tried until it does."""
        backoff = self.make_backoff()
        while True:
            try:
                return step()
            except OSError as fault:
                self.trouble = fault
            self.check_running()
            if time.monotonic() > deadline:
                raise self.over()
            self.pause(backoff.next())

    def pause(self, seconds: float) -> None:
        """Waits, and less if the replica stops."""
        self.changed.wait_for(lambda: self.stopped, seconds)

    def close(self) -> None:
        """Waits within the patience until what was submitted is answered, and ends. What still waits gets a `NotKnown`."""
        self.check_thread()
        self.crew.wish()
        try:
            self.crew.wait()
        except BaseException:
            self.abandon()
            raise

    def abandon(self) -> None:
        """Has the replica end at once. Who asks this does not wait for it."""
        self.hurried = True
        self.crew.wish()
        self.tell()

    def stop(self, fault: Exception | None, why: str) -> None:
        """Ends all work and the table, and fails all that waits. Where it has stopped before, that stays as it was."""
        with self.changed:
            first, self.stopped = not self.stopped, True
            self.fault = fault if first else self.fault
            ended = self.calls.stop()
            self.tell()
        following = self.following
        if following is not None:
            # A generator that is at work cannot be closed, and ends behind its next word.
            with suppress(ValueError):
                following.close()
        self.crew.leave_log()
        self.end(ended, why, fault)
        if first and fault is not None:
            LOGGER.error("the table of %r has stopped: %s", self.log, fault)
        if fault is None:
            with self.table_lock:
                self.machine.table.close()

    # Who follows the log.

    def attempt(self, step: Callable[[], object]) -> float | None:
        """Does a step of who follows, and sees to what it raises. How many seconds to wait then, beside what a try waits that fails; None without a fault."""
        try:
            step()
            return None
        except OSError as fault:
            self.trouble = fault
        except LOSSES as fault:
            return self.lose(fault)
        except Exception as fault:
            self.stop(fault, f"the replica has stopped, {fault}")
        return 0.0

    def take(self, progress: Progress) -> None:
        """Applies what has come, and answers what is this host's."""
        if progress.snapshot is not None:
            text = progress.snapshot
            self.advance(progress.position, lambda: self.machine.load(progress.position, text))
            self.settle_snapshot(progress.position)
            self.snapshot_at = time.monotonic()
            # Whose numbers they are now is not told.
            self.labels.by_root.clear()
            self.feed(Change(progress.position, 0, 0, ()))
        for position, data in progress.entries:
            outcome = self.advance(position, lambda: self.machine.apply(position, data))
            if outcome is not None:
                self.show(position, data, outcome)
                self.settle(outcome)
            elif self.checker is not None and not self.stopped:
                self.check(self.checker, position, data)
            if self.stopped:
                return
            self.snapshot_at = time.monotonic() if data.startswith(ANNOUNCES) else self.snapshot_at
        self.heard_at = time.monotonic()
        if progress.entries or progress.snapshot is not None:
            self.recover()
        with self.changed:
            self.seen = max(self.seen, progress.position)
            self.tell()

    def recover(self) -> None:
        """Says that the log has done something."""
        self._ails = False
        if self._told_trouble:
            self._told_trouble = ""
            LOGGER.info("%r answers again", self.log)

    def show(self, position: int, data: bytes, outcome: Outcome) -> None:
        """Shows calls that were made to who follows them, and that a number is that of another task to the labels."""
        if outcome.what != "made":
            return
        if self.labels.by_root:
            first = self.machine.calls - len(outcome.answers)
            for number, answer in enumerate(outcome.answers, start=first):
                if answer.startswith("child "):
                    self.labels.fork(int(answer.split(" ")[3]), number)
        if self.feeds:
            self.feed(change_of(position, data, outcome.answers))

    def feed(self, change: Change) -> None:
        """Tells who follows."""
        for it in self.feeds:
            it.put(change)

    def advance(self, position: int, step: Callable[[], T]) -> T | None:
        """Has the table go on to a position; None where the replica has stopped."""
        with self.table_lock:
            if self.stopped:
                return None
            try:
                done = step()
            except LOSSES as fault:
                # Before anybody reads it.
                self.lost = fault
                raise
            self.note(position, self.machine.digest)
            return done

    def check(self, checker: Checker, position: int, data: bytes) -> None:
        """Makes the text of the table where a snapshot is asked for, and compares it with the one that is announced."""
        entry = read_entry(data)
        if isinstance(entry, Wanted):
            # Without memory for it, this host says nothing of that snapshot.
            with suppress(MemoryError):
                with self.table_lock:
                    text = self.machine.write()
                checker.note(position, text)
        elif isinstance(entry, Announced):
            announced = entry
            # Not by this thread, which must not wait for what the log is asked.
            self.crew.do(lambda: self.judge(checker, announced))

    def judge(self, checker: Checker, it: Announced) -> None:
        """Says whether this host has the same table as a snapshot. Where it cannot, the next one serves."""
        try:
            assert isinstance(self.log, CutLog)
            checker.judge(self.log.cells(), it)
        except OSError as fault:
            self.trouble = fault
        except Exception as fault:
            self.stop(fault, f"the replica has stopped, {fault}")

    def note(self, position: int, digest: str) -> None:
        """Notes the digest behind an entry. Where the log is replayed, it has to be the one that was noted before."""
        if position == self.place[0] and digest != self.place[1]:
            before, now = self.place[1][:SHORT_DIGEST], digest[:SHORT_DIGEST]
            raise Diverged(f"behind entry {position} the digest was {before} here, and after a replay it is {now}")
        if position > self.place[0]:
            self.place = (position, digest)

    def settle(self, outcome: Outcome) -> None:
        """Answers what an entry has, if it is this host's."""
        with self.changed:
            ended = self.calls.read(outcome)
            self.tell()
        self.end(ended)

    def settle_snapshot(self, position: int) -> None:
        """Says of what may be among the entries in whose place a snapshot has come, that nobody knows."""
        with self.changed:
            ended = self.calls.load(position, self.machine.last_of(self.calls.session))
            self.tell()
        self.end(ended, "the log was cut before this host had read it")

    def end(self, ended: Sequence[Submitted], why: str = "", fault: Exception | None = None) -> None:
        """Tells who waits what has ended. What they do then may run here."""
        if ended:
            self.not_known += sum([it.settle(why, fault) for it in ended])
            with self.changed:
                self.calls.drop_over()
                self.tell()

    def lose(self, fault: Exception) -> float:
        """Counts how often the table was lost without a gain, and stops the replica behind a bound. How many seconds to wait before the next replay."""
        self.lost = fault
        self.all_replays += 1
        self.replays = 1 if self.machine.position > self.failed_at + GAIN else self.replays + 1
        self.failed_at = max(self.failed_at, self.machine.position)
        if self.replays > MOST_REPLAYS:
            words = f"the replica has stopped behind entry {self.failed_at}, after {MOST_REPLAYS} replays of the log: {fault}"
            self.stop(type(fault)(words) if isinstance(fault, ProgramFault) else MemoryError(words), words)
        return self.replays * REPLAY_PAUSE

    def replay(self) -> None:
        """Throws the table away where it is not that of the log any more, and begins anew from the log's first entry."""
        with self.table_lock:
            if self.stopped or self.lost is None:
                return
            self.machine.table.close()
            self.machine = open_machine(self.open_table, self.settings)
            self.lost = None
        with self.changed:
            self.seen = 0
            self.tell()

    # Who appends.

    def guard(self, step: Callable[[], T]) -> T | None:
        """Does a step of who appends. What it raises stops the replica."""
        try:
            return step()
        except Exception as fault:
            self.stop(fault, f"the replica has stopped, {fault}")
            return None

    def has_to_send(self) -> bool:
        """Whether something goes into the log yet."""
        with self.changed:
            return self.calls.may_put and not self.stopped and not (self.closing and self.calls.is_idle)

    def next_entry(self) -> bytes | None:
        """What goes into the log now, if anything does."""
        ended: list[Submitted] = []
        with self.changed:
            entry = self.calls.next_entry(self.place, ended)
        self.end(ended)
        return entry

    def sent(self, position: int) -> None:
        """That entry is in the log."""
        with self.changed:
            self.calls.sent(position)

    def send(self, backoff: Backoff) -> float:
        """Puts an entry into the log, if there is one to put, by one try. How many seconds to wait before the next one."""
        try:
            entry = self.next_entry()
            if entry is not None:
                self.sent(self.log.append(entry))
            backoff.reset()
        except OSError as fault:
            self.trouble = fault
            return backoff.next()
        return 0.0

    def end_session(self) -> None:
        """Ends the session, by one try: one that nobody ends goes when there are too many."""
        session = self.calls.session
        if session and not self.stopped:
            with suppress(OSError):
                self.log.append(write_end(session))

    # Who watches the time, and ends the replica.

    def first_deadline(self) -> float:
        """When the first of the patiences is over."""
        with self.changed:
            return next((it.deadline for it in self.calls.waiting), deadline_behind(self.patience))

    def begin_to_end(self) -> None:
        """Takes no more calls."""
        with self.changed:
            self.closing = True
            self.tell()

    def is_unwanted(self) -> bool:
        """Whether nobody waits for an answer that may come yet."""
        with self.changed:
            return self.stopped or self.hurried or all(it.done() for it in self.calls.waiting)

    def is_idle(self) -> bool:
        """Whether nothing waits for an answer, and the session can be ended."""
        with self.changed:
            return self.calls.is_idle and not (self.stopped or self.hurried)

    def expire(self) -> None:
        """Fails what waits longer than the patience."""
        with self.changed:
            ended = self.calls.expire(time.monotonic())
            self.tell()
        self.end(ended, self.why_late())


def library_of(table: Calls) -> str:
    """Where the machine for the calls of a host is: in the library that its table has, or else in the one that is found."""
    return table.library if isinstance(table, Table) else find_library()
