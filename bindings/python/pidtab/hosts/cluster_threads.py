"""The threads of a Cluster, however many tables it has: one watches etcd, some read, apply and append, and one watches the time.

A table's entries are appended one at a time, and applied by one thread at a time. What waits for one table waits in a queue, and holds up no thread.
"""

import threading
import time
from collections import deque
from contextlib import suppress

from pidtab.changed import Changed
from pidtab.faults import TableClosed
from pidtab.hosts.backoff import Backoff
from pidtab.hosts.crew import LAST_SECONDS, TimedCrew
from pidtab.hosts.etcd import JSON, Etcd, decode, encode
from pidtab.hosts.etcd_cells import behind
from pidtab.hosts.etcd_log import QUIET_TIMES, EtcdLog, Events, append_all, read_behind
from pidtab.hosts.etcd_watch import Changes, Compacted, EtcdWatch, revision_of
from pidtab.hosts.log import Progress
from pidtab.hosts.replica import Replica
from pidtab.hosts.shared_threads import Clock, Job, Pool, Strand, work
from pidtab.hosts.submitted import deadline_behind

# With the one that watches etcd and the one that watches the time these are all threads.
APPENDERS, APPLIERS, READERS = 4, 2, 2

# So much of what has come is applied to one table before the next has its turn.
TURN = 64

# So many tables' entries are put by one transaction of etcd, whose bounds are 128 and 1.5 MiB by default.
MOST_AT_ONCE = 100
MOST_BYTES_AT_ONCE = 1_000_000

# Seconds that the time is not looked at where nothing waits.
IDLE = 60.0

CLUSTER_CLOSED = "the Cluster was closed"

# Behind the cluster's name; no table has it, as there is no colon.
MARK = b"~mark"


class Feed(TimedCrew):
    """What the threads of a Cluster do for one of its tables."""

    def __init__(self, crew: "SharedCrew", replica: Replica, log: EtcdLog) -> None:
        super().__init__(replica, crew.clock)
        self.threads = crew.threads
        # What the watch has told and was not applied: changes; a fault; or None where the table is to read its keys by itself.
        self.inbox: "deque[Changes | Exception | None]" = deque()
        self.log = log
        self.key = log.prefix
        # Whether the router has it told what comes.
        self.joined = False
        self._crew = crew
        self._events = Events(log, 0)
        # Whether it reads its keys by itself. Meanwhile nothing is taken out of the inbox.
        self._reads = False
        self._reading, self._sending = replica.make_backoff(), replica.make_backoff()
        self._reader = Strand(crew.readers, crew.clock, self._read)
        self._applier = Strand(crew.appliers, crew.clock, self._apply)
        self._appender = Strand(crew.appenders, crew.clock, self._append)
        # Whether an entry of it is being put, and whether the last try has failed.
        self._sends = self.has_failed = False

    # What its replica asks.

    def watch_time(self) -> None:
        self._crew.router.claim(self)
        self._crew.clock.jobs.put(lambda: self._crew.add(self))

    def follow_log(self) -> None:
        self._crew.router.join(self)

    def leave_log(self) -> None:
        self._crew.router.leave(self)
        self.inbox.clear()

    def tell(self) -> None:
        if self.replica.calls.has_new:
            self._appender.wake()
        super().tell()

    def expect(self, position: int) -> None:
        self._crew.router.expect(self, position)

    def wait(self) -> None:
        self.replica.changed.wait_for(lambda: self.ended)

    def do(self, job: Job) -> None:
        self._crew.readers.jobs.put(job)

    def end_session(self) -> None:
        self._appender.wake()

    # What the router asks.

    def put(self, told: Changes | Exception | None) -> None:
        """Hands something out to it."""
        self.inbox.append(told)
        self._applier.wake()

    # The steps.

    def _apply(self) -> float | None:
        """Applies some of what has come."""
        for _ in range(TURN):
            if self._reads or self.replica.stopped or not self.inbox:
                return None
            pause = self.replica.attempt(self._apply_next)
            if pause is not None and not self.replica.stopped:
                # What it could not do with what was told it does with what it reads.
                self._read_again(pause)
        return 0.0

    def _apply_next(self) -> None:
        told = self.inbox.popleft()
        if told is None:
            self._read_again(0.0)
        elif isinstance(told, Exception):
            raise told
        elif told.position > self.replica.seen:
            entries = [it for event in told.events if self._is_new(event) for it in self._events.read(event)]
            self.replica.take(Progress(told.position, entries))

    def _is_new(self, event: JSON) -> bool:
        """Whether a change is one of entries that this table has not read by itself."""
        return revision_of(event) > self.replica.seen and decode(event["kv"]["key"]) < self.log.last

    def _read_again(self, seconds: float) -> None:
        """Has the keys read in so many seconds. This is the last that who applies does."""
        self._reads = True
        self._reader.rest(seconds)

    def _read(self) -> float | None:
        """Reads the keys behind what was seen, up to a revision that the watch has reached, or a later one; what is told meanwhile waits."""
        if not self._reads or self.replica.stopped:
            return None
        pause = self.replica.attempt(self._read_all)
        if pause is not None:
            return pause + self._reading.next()
        self._reading.reset()
        self._reads = False
        self._applier.wake()
        return None

    def _read_all(self) -> None:
        self.replica.replay()
        for progress in read_behind(self._events, self.replica.seen):
            self.replica.take(progress)
            if self.replica.stopped:
                return

    def _append(self) -> float | None:
        """Has one entry put into the log, or ends the session."""
        replica = self.replica
        if self._sends:
            return None
        if replica.has_to_send():
            entry = replica.guard(replica.next_entry)
            if entry is None:
                return 0.0
            self._sends = True
            self._crew.sender.put(self, entry)
        elif self.says_end and not self.said_end:
            replica.guard(replica.end_session)
            self.has_ended_session()
        return None

    # What the sender tells.

    def was_sent(self, position: int) -> None:
        """The entry is in the log."""
        self.replica.sent(position)
        self._sending.reset()
        self._sends = self.has_failed = False
        self._appender.wake()

    def was_not_sent(self, fault: OSError) -> None:
        """The entry may be in the log or not."""
        self.replica.trouble = fault
        pause = self._sending.next()
        self._sends, self.has_failed = False, True
        self._appender.rest(pause)

    def was_refused(self, fault: Exception) -> None:
        """The entry is not put, nor any other one."""
        self._sends = False
        self.replica.stop(fault, f"the replica has stopped, {fault}")

    def begin_to_end(self) -> None:
        super().begin_to_end()
        self._crew.add(self)


class Sender:
    """Puts entries of tables into their logs: of one table one at a time, and of all that wait as many as fit by one try."""

    def __init__(self, etcd: Etcd, pool: Pool) -> None:
        self._etcd = etcd
        self._pool = pool
        self._waiting: "deque[tuple[Feed, bytes]]" = deque()

    def put(self, feed: "Feed", entry: bytes) -> None:
        """Has an entry put soon, and the table told what came of it."""
        self._waiting.append((feed, entry))
        self._pool.jobs.put(self._send_some)

    def _send_some(self) -> None:
        taken = self._take()
        if taken:
            self._send(taken)

    def _take(self) -> "list[tuple[Feed, bytes]]":
        """What is put at once; alone, where a try has failed, so that it holds up no other table again. Other threads may take too."""
        taken: "list[tuple[Feed, bytes]]" = []
        size = 0
        with suppress(IndexError):
            while len(taken) < MOST_AT_ONCE and not (taken and taken[-1][0].has_failed):
                found = self._waiting.popleft()
                size += len(found[1])
                if taken and (size > MOST_BYTES_AT_ONCE or found[0].has_failed):
                    self._waiting.appendleft(found)
                    break
                taken.append(found)
        if self._waiting:
            self._pool.jobs.put(self._send_some)
        return taken

    def _send(self, taken: "list[tuple[Feed, bytes]]") -> None:
        """One try. What etcd refuses of many is tried one by one, so that it stops the table alone whose it is."""
        try:
            positions = append_all(self._etcd, [(feed.log, entry) for feed, entry in taken])
        except OSError as fault:
            for feed, _ in taken:
                feed.was_not_sent(fault)
        except Exception as fault:
            if len(taken) == 1:
                taken[0][0].was_refused(fault)
            else:
                for it in taken:
                    self._send([it])
        else:
            for (feed, entry), position in zip(taken, positions):
                if position:
                    feed.was_sent(position)
                else:
                    # etcd has not what was read of this log: it was cut, or etcd set back.
                    self._send([(feed, entry)])


class Router:
    """The watch over all keys below the name of a Cluster, whose events go to the tables that are open.

    It has told each table that has joined of all changes behind those that it had reached then. What is before these the table reads by itself,
    as its read is not older than what any watch has reached.
    """

    def __init__(self, etcd: Etcd, name: str) -> None:
        self.feeds: dict[bytes, Feed] = {}
        # Takes no more tables.
        self.closing = False
        self._etcd = etcd
        self._prefix = name.encode() + b"/"
        self._watch = EtcdWatch(etcd, self._prefix, behind(self._prefix))
        self._lock = threading.Lock()
        # Up to this revision all was handed out; 0 where the watch has to begin anew.
        self._reached = 0
        # Those for which somebody waits until their log was read up to a revision.
        self._expected: dict[Feed, int] = {}
        self._closed = False
        self._changed = Changed()

    def claim(self, feed: Feed) -> None:
        """Takes a name for a table. Where the one that has it is about to end, this waits for that."""
        while True:
            with self._lock:
                if self.closing:
                    raise TableClosed(CLUSTER_CLOSED)
                before = self.feeds.setdefault(feed.key, feed)
            if before is feed:
                return
            if not before.wished:
                name = feed.key[len(self._prefix) : -1].decode()
                raise ValueError(f"the table {name!r} is open in this Cluster: use that one, or close it before it is opened again")
            before.wait()

    def join(self, feed: Feed) -> None:
        """Has a table told what comes from now on."""
        with self._lock:
            feed.joined = True
            if self._reached:
                feed.put(None)
        self._changed.notify_all()

    def leave(self, feed: Feed) -> None:
        """Has a table told nothing more."""
        with self._lock:
            self._expected.pop(feed, None)
            if self.feeds.get(feed.key) is feed:
                del self.feeds[feed.key]

    def expect(self, feed: Feed, position: int) -> None:
        """Has a table told that a revision was reached, also if that is none of its own."""
        with self._lock:
            if self._reached >= position:
                feed.put(Changes(self._reached, ()))
            else:
                self._expected[feed] = position

    def close_names(self) -> list[Feed]:
        """Takes no more tables: those that there are."""
        with self._lock:
            self.closing = True
            return list(self.feeds.values())

    def close(self) -> None:
        """Ends the watch."""
        self._closed = True
        self._watch.close()
        self._changed.notify_all()

    # The thread that watches.

    def run(self) -> None:
        """Watches as long as the Cluster is open, from the first table on."""
        backoff = Backoff()
        self._changed.wait_for(lambda: self.feeds or self._closed)
        while not self._closed:
            self._follow(backoff)
            self._changed.wait_for(lambda: self._closed, backoff.next())

    def _follow(self, backoff: Backoff) -> None:
        """Watches until something is wrong."""
        try:
            if not self._reached:
                self._begin()
            self._follow_quietly(backoff)
        except Compacted:
            self._reached = 0
        except OSError as fault:
            for feed in self._joined():
                feed.replica.trouble = fault
        except Exception as fault:
            for feed in self._joined():
                feed.put(fault)

    def _follow_quietly(self, backoff: Backoff) -> None:
        """Watches until the watch ends; where it is quiet, at the next member."""
        quiet = 0
        while not self._closed:
            try:
                for told in self._watch.follow(self._reached):
                    quiet = 0
                    backoff.reset()
                    self._hand_out(told)
            except TimeoutError:
                quiet += 1
                backoff.reset()
            # As a follower of one log: others may write to etcd.
            if quiet and quiet % QUIET_TIMES == 0 and self._end() > self._reached:
                self._etcd.note(self._etcd.ask("/v3/kv/put", {"key": encode(self._prefix + MARK), "value": ""})["header"])

    def _begin(self) -> None:
        """Begins behind what etcd has now, which each table then reads by itself."""
        end = self._end()
        with self._lock:
            self._reached = end
            for feed in self.feeds.values():
                if feed.joined:
                    feed.put(None)

    def _end(self) -> int:
        """The revision of etcd now, by a read that a majority confirms, and which says too whether all below the name may be read."""
        wanted = {"key": encode(self._prefix), "range_end": encode(behind(self._prefix)), "limit": 1, "keys_only": True}
        return self._etcd.note(self._etcd.ask("/v3/kv/range", wanted)["header"])

    def _hand_out(self, told: Changes) -> None:
        """Hands changes out to the tables whose they are."""
        own: dict[bytes, list[JSON]] = {}
        for event in told.events:
            name, colon, _ = decode(event["kv"]["key"]).partition(b":")
            own.setdefault(name + colon, []).append(event)
        with self._lock:
            for key, events in own.items():
                feed = self.feeds.get(key)
                if feed is not None and feed.joined:
                    feed.put(Changes(told.position, events))
            self._reached = told.position
            for feed in [it for it, position in self._expected.items() if position <= told.position]:
                del self._expected[feed]
                feed.put(Changes(told.position, ()))

    def _joined(self) -> list[Feed]:
        with self._lock:
            return [it for it in self.feeds.values() if it.joined]


class SharedCrew:
    """All threads of a Cluster. Nothing here has a reference to the Cluster or to the `Replicated` of a table."""

    def __init__(self, etcd: Etcd, name: str) -> None:
        self.clock = Clock()
        self.router = Router(etcd, name)
        self.appenders, self.appliers, self.readers = (
            Pool(f"cluster {name}", count) for name, count in (("append", APPENDERS), ("apply", APPLIERS), ("read", READERS))
        )
        # The tables that have not ended; only the thread that watches the time changes it.
        self.feeds: set[Feed] = set()
        self._watcher = threading.Thread(target=self._watch_time, name="pidtab cluster time", daemon=True)
        self.sender = Sender(etcd, self.appenders)
        self._pools = (self.appenders, self.appliers, self.readers)
        watch = threading.Thread(target=self.router.run, name="pidtab cluster watch", daemon=True)
        self._others = [watch, *(it for pool in self._pools for it in pool.threads)]
        self.threads = [self._watcher, *self._others]

    def start(self) -> None:
        """Begins with the thread that begins the others, as no interrupt comes there."""
        self._watcher.start()

    def add(self, feed: Feed) -> None:
        """Watches the time for a table. For the thread that does."""
        if not feed.ended:
            self.feeds.add(feed)

    def wish(self) -> None:
        """Has all tables end, and then the threads. A destructor may ask it, as it takes no lock."""
        self.clock.jobs.put(self._end_tables)

    def close(self) -> None:
        """Waits until all tables and threads have ended."""
        if threading.current_thread() in self.threads:
            raise RuntimeError("what is called when a Future is done cannot wait for its Cluster: use another thread")
        self.wish()
        try:
            self._watcher.join()
        except BaseException:
            self.clock.jobs.put(self._hurry)
            raise

    def _end_tables(self) -> None:
        for feed in {*self.feeds, *self.router.close_names()}:
            feed.wished = True
            feed.begin_to_end()

    def _hurry(self) -> None:
        """Has nothing waited for any more."""
        self._end_tables()
        for feed in self.feeds:
            feed.replica.hurried = True

    def _watch_time(self) -> None:
        """Fails what waits too long, and ends tables and at last all threads."""
        for thread in self._others:
            thread.start()
        while not (self.router.closing and not self.feeds):
            self.clock.turn(min([time.monotonic() + IDLE, *(it.next_time() for it in self.feeds)]))
            for feed in tuple(self.feeds):
                work(feed.look)
            self.feeds -= {it for it in self.feeds if it.ended}
        self.router.close()
        for pool in self._pools:
            pool.end()
        deadline = deadline_behind(LAST_SECONDS)
        for thread in self._others:
            thread.join(max(0.0, deadline - time.monotonic()))
