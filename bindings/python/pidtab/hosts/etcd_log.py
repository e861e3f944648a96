"""A log in etcd: each entry is a key of its own, and the order is that of the revisions at which they were made."""

import heapq
import re
import ssl
from collections.abc import Iterator, Sequence
from functools import partial
from typing import NamedTuple

from pidtab.bounds import check_seconds
from pidtab.faults import LogFault
from pidtab.hosts.etcd import JSON, Etcd, TooOld, User, decode, encode, read_member
from pidtab.hosts.etcd_cells import EtcdCells, cut_entries, read_entries_to
from pidtab.hosts.etcd_transactions import HEAD, MARK, Guard, Head, Newest, cut_of, make_chance, put_of, range_of
from pidtab.hosts.etcd_watch import Compacted, EtcdWatch
from pidtab.hosts.log import CutLog, Following, Progress
from pidtab.hosts.snapshots import SERVED, load_behind, read_served

# Seconds for one answer; and a watch that is quiet for so long is opened anew, at another member.
TIMEOUT = 5.0

# A quiet follower that cannot know that it has all asks for a mark so many times less often.
QUIET_TIMES = 12

# Bytes that a page of entries should have, and the bounds of its entries.
PAGE_BYTES = 4 * 1024 * 1024
FIRST_PAGE = 100
LONGEST_PAGE = 10_000

# Behind the log's name: a revision that was before that of the entry, and something that no other entry has.
KEY = re.compile(rb"([0-9a-f]{16})-[0-9a-f]{16}")
NAME = re.compile(r"[^:\x00-\x1f\x7f]{1,200}")
# Before the names of all cells, and behind what is read as the log.
END = b"~n"


class Found(NamedTuple):
    """An entry: its revision, its bytes, and the revision in its key."""

    revision: int
    data: bytes
    hint: int


def split_members(members: Sequence[str]) -> list[str]:
    """The members, if they are many texts."""
    if isinstance(members, (str, bytes)):
        raise TypeError(f"members is a list of texts, each HOST:PORT, not one {type(members).__name__}")
    found = list(members)
    if not found:
        raise ValueError("members is an empty list")
    return found


def check_user(user: User | None) -> User | None:
    """A user's name and password."""
    if user is None:
        return None
    if not isinstance(user, tuple) or len(user) != 2 or not isinstance(user[0], str) or not (isinstance(user[1], str) or callable(user[1])):
        raise TypeError("user is a pair of texts, the name and the password, which may be a function that gives it")
    return user


def check_name(whose: str, name: str) -> str:
    """A name below which keys are."""
    if not isinstance(name, str):
        raise TypeError(f"name is a text, not {type(name).__name__}")
    if not NAME.fullmatch(name):
        raise ValueError(f"a {whose}'s name has 1 to 200 printable characters and no colon, not {name!r}")
    return name


def open_etcd(members: Sequence[str], tls: ssl.SSLContext | None, user: User | None, timeout: float, sync: bool) -> Etcd:
    """The members, of which nothing is asked yet."""
    texts = split_members(members)
    found = [read_member(it) for it in texts]
    if tls is not None and not isinstance(tls, ssl.SSLContext):
        raise TypeError(f"tls is an ssl.SSLContext, not {type(tls).__name__}")
    if tls is None and any(it.startswith("https://") for it in texts):
        raise ValueError("a member by https needs tls, as ssl.create_default_context(cafile=..) is")
    if tls is not None and any(it.startswith("http://") for it in texts):
        raise ValueError("a member by http has no tls")
    return Etcd(found, tls, check_user(user), check_seconds("timeout", timeout), sync)


class EtcdLog(CutLog):
    """A log in etcd 3.4 or later, by the JSON gateway of its members, which are tried in turn.

    Each entry is one put of a key below `NAME:`, so the log can be read by `etcdctl get --prefix NAME:`. Nothing but `pidtab-keep` may change or
    delete a key there. The history of etcd may be compacted at any time: a log does not need it.
    """

    def __init__(
        self,
        members: Sequence[str],
        name: str,
        *,
        tls: ssl.SSLContext | None = None,
        user: User | None = None,
        timeout: float = TIMEOUT,
        sync: bool = True,
    ) -> None:
        """Names the log; nothing is asked yet.

        The members are `HOST:PORT`, or URLs. Those of `https` need `tls`, as `ssl.create_default_context(cafile=..)` is. The timeout is for one answer.
        A user is a name and a password, or a function that gives the password whenever it is asked for. With `sync` the members are asked each minute
        which of them there are; without, as where a host reaches them at other addresses, only those that are named are asked.
        """
        self._begin(open_etcd(members, tls, user, timeout, sync), check_name("log", name))

    @classmethod
    def _at(cls, etcd: Etcd, name: str) -> "EtcdLog":
        """A log at members that are shared with others."""
        log = cls.__new__(cls)
        log._begin(etcd, name)
        return log

    def _begin(self, etcd: Etcd, name: str) -> None:
        self.name = name
        self._etcd = etcd
        self.prefix = name.encode() + b":"
        self.guard = Guard(etcd, self.prefix, name)
        # Behind each key of the log, but those of its cells.
        self.last = self.prefix + END

    def __repr__(self) -> str:
        return f"<pidtab.EtcdLog {self.name!r} at {', '.join(map(str, self._etcd.members))}>"

    def append(self, entry: bytes) -> int:
        """Puts an entry behind all others, by one transaction at one member; nothing where etcd has not what was read of it here."""
        return self.guard.append(entry)

    def follow(self, after: int) -> "EtcdFollowing":
        """All entries behind the revision, and then each that comes."""
        return EtcdFollowing(self, self._etcd, after)

    def end(self) -> int:
        """The position of the newest entry, or, of a log without a head, the revision of etcd now: by a read that a majority confirms."""
        revision, head = self.guard.look()
        return head or revision

    def mark(self) -> int:
        """The same. Each follower sees the head; in a log without one it sees a put of a key that is none of an entry."""
        _, head = self.guard.look()
        return head or self.guard.ask(lambda _: [put_of(self.prefix + MARK, b"")]).revision

    def cells(self, at: int = 0) -> EtcdCells:
        """The cells, as keys behind `NAME:~`; all as at one revision, if that is named."""
        return EtcdCells(self.guard, at)

    def entries_to(self, position: int) -> Iterator[Sequence[tuple[int, bytes]]]:
        """The entries up to a revision, in the order of their keys."""
        return read_entries_to(self._etcd, self.prefix, position)

    def cut(self, position: int) -> int:
        """Deletes the entries up to a revision, by a transaction for some of them at a time."""
        return cut_entries(self.guard, position)

    def read(self, kv: JSON) -> Found | None:
        """An entry as etcd has it; None for the mark and the head."""
        key = decode(kv["key"])[len(self.prefix) :]
        if key in (HEAD, MARK):
            return None
        form, revision = KEY.fullmatch(key), int(kv["create_revision"])
        if form is None or int(form[1], 16) >= revision:
            raise LogFault(f"the log {self.name} has a key that is none of an entry: {key[:60]!r}")
        if int(kv.get("version", 1)) != 1:
            raise LogFault(f"the entry at revision {revision} was overwritten")
        hint = int(form[1], 16)
        self.guard.note_entry(Newest(revision, key, hint))
        return Found(revision, decode(kv.get("value", "")), hint)

    def page(self, start: bytes, after: int, at: int, most: int, keys_only: bool = False) -> tuple[JSON, int]:
        """Some keys from the start on, as they were at a revision, and about how many bytes they are. For who has all up to a position.

        Where that revision is compacted, they are as they are now: with later ones, and none of those behind the position is cut.
        """
        if start >= self.last:
            return {}, 1
        wanted = {"key": encode(start), "range_end": encode(self.last), "limit": most, "keys_only": keys_only}
        try:
            page = self._etcd.ask("/v3/kv/range", {**wanted, "revision": at})
        except TooOld:
            page = self._page_now(wanted, after)
        return page, 1 + sum(len(it.get("value", "")) + len(it["key"]) for it in page.get("kvs", []))

    def _page_now(self, wanted: JSON, after: int) -> JSON:
        """A page, and by the same read that no entry behind a position is cut."""
        served = self.cells().key(SERVED)
        told = self._etcd.ask("/v3/kv/txn", {"success": [{"request_range": wanted}, range_of(served)]})
        page, cell = (it["response_range"] for it in told["responses"])
        if cut_of(cell.get("kvs", [])) > after:
            raise ConnectionError("the log was cut while it was read, and is read anew from a snapshot")
        return dict(page)


def append_all(etcd: Etcd, puts: Sequence[tuple[EtcdLog, bytes]]) -> list[int]:
    """Puts an entry into each of some logs in one step, as `append` does into one: the positions; 0 of a log into which nothing was put."""
    if len(puts) == 1:
        return [puts[0][0].append(puts[0][1])]
    bodies = [log.guard.body(log.guard.newest, partial(log.guard.entry_steps, make_chance(), entry)) for log, entry in puts]
    told = etcd.ask("/v3/kv/txn", {"success": [{"request_txn": it} for it in bodies]})
    revision = etcd.note(told["header"])
    return [revision if it["response_txn"].get("succeeded") else 0 for it in told["responses"]]


class EtcdFollowing(Following):
    """A walk over a log in etcd: first by its keys, and then by a watch."""

    def __init__(self, log: EtcdLog, etcd: Etcd, after: int) -> None:
        self._log = log
        self._seen = after
        self._closed = False
        self._events = Events(log, after)
        self._watch = EtcdWatch(etcd, log.prefix, log.last)
        self._steps = self._walk()

    def __next__(self) -> Progress:
        if self._closed:
            raise StopIteration
        progress = next(self._steps)
        self._seen = max(self._seen, progress.position)
        return progress

    def close(self) -> None:
        """Ends it: who waits in it finds its connection ended."""
        self._closed = True
        self._watch.close()

    def _walk(self) -> Iterator[Progress]:
        if not self._seen:
            yield from read_behind(self._events, self._seen)
        quiet = 0
        while not self._closed:
            try:
                for told in self._watch.follow(self._seen):
                    quiet = 0
                    yield Progress(told.position, [it for event in told.events for it in self._events.read(event)])
            except TimeoutError:
                quiet += 1
                yield Progress(self._seen)
            except Compacted:
                yield from read_behind(self._events, self._seen)
            # Others may write to etcd, so that its revision alone does not say that nothing was missed.
            if quiet and quiet % QUIET_TIMES == 0 and self._log.end() > self._seen:
                self._log.mark()


class Events:
    """Reads what a watch tells of a log, for one follower, which is at a position."""

    def __init__(self, log: EtcdLog, after: int) -> None:
        self.log = log
        # Only entries with an earlier revision in their keys may be deleted.
        self._cut = 0
        self._head = log.guard.head_at(after)

    def read(self, event: JSON) -> Sequence[tuple[int, bytes]]:
        """The entry of an event, if it has one."""
        kv = event["kv"]
        key = decode(kv["key"])[len(self.log.prefix) :]
        if event.get("type") == "DELETE":
            self._check_deleted(key, kv["mod_revision"])
            return ()
        if key == HEAD:
            self._follow_head(event)
        found = self.log.read(kv)
        return () if found is None else ((found.revision, found.data),)

    def take_head(self, head: Head) -> None:
        """Begins behind a head."""
        self._head = head
        self.log.guard.note_head(head)

    def forget_head(self) -> None:
        """Begins behind a head that is not known."""
        self._head = None

    def _follow_head(self, event: JSON) -> None:
        """Sees to it that a head comes behind the one that was read last: before its entry, and none is left out. The last one has that entry's key."""
        last = self._head
        if last is None or "prev_kv" not in event:
            self.log.guard.look()
        elif head_of(event["prev_kv"]) != last:
            raise self.log.guard.set_back(f"another entry behind that of revision {last.revision}")
        self.take_head(head_of(event["kv"]))

    def _check_deleted(self, key: bytes, revision: str) -> None:
        """Sees to it that what was deleted is behind a snapshot. The follower had it before."""
        form = KEY.fullmatch(key)
        if key == HEAD:
            raise LogFault(f"the head of the log {self.log.name} was deleted, at revision {revision}: open it again, and it goes on without")
        if key != MARK and not (form and self._is_cut(int(form[1], 16))):
            raise LogFault(f"an entry of the log {self.log.name} was deleted, at revision {revision}")

    def _is_cut(self, hint: int) -> bool:
        """Whether an entry with this revision in its key may be one that is cut."""
        if hint >= self._cut:
            self._cut = read_served(self.log.cells()).cut
        return hint < self._cut


def head_of(kv: JSON) -> Head:
    """The head, as etcd has it."""
    return Head(int(kv["mod_revision"]), decode(kv.get("value", "")))


def read_behind(events: Events, after: int) -> Iterator[Progress]:
    """All that is behind a position, as it is at one revision: a snapshot, where what was there is cut or much, and then all entries.

    They are read by their keys, in the order of these: no entry has a revision up to that in its key. So what was read up to a key has all entries
    up to there.
    """
    log, most = events.log, FIRST_PAGE
    at, _ = log.guard.look(reads_on=True)
    loaded = load_behind(log.cells(at), after)
    if loaded is not None:
        yield Progress(loaded[0], (), loaded[1])
        after = loaded[0]
    start = first_behind(log, after, at)
    newest = after
    waiting: list[Found] = []
    while True:
        page, size = log.page(start, after, at, most)
        kvs = page.get("kvs", [])
        found = [it for it in map(log.read, kvs) if it is not None]
        for it in found:
            if after < it.revision <= at:
                heapq.heappush(waiting, it)
                newest = max(newest, it.revision)
        is_last = not page.get("more")
        if is_last:
            read_head(events, kvs, newest, at)
        bound = at if is_last else min(at, max([after, *(it.hint for it in found)]))
        ready = []
        while waiting and waiting[0].revision <= bound:
            it = heapq.heappop(waiting)
            ready.append((it.revision, it.data))
        yield Progress(bound, ready)
        if is_last:
            return
        start = decode(kvs[-1]["key"]) + b"\0"
        most = max(1, min(LONGEST_PAGE, 2 * most, most * PAGE_BYTES // size))


def read_head(events: Events, last: Sequence[JSON], newest: int, at: int) -> None:
    """Takes the head, which is among the last keys, and sees to it that its entry is there. One by hand has no value, and is of no entry.

    A later one is not that of the revision at which the log is read.
    """
    events.forget_head()
    for kv in last:
        if int(kv["mod_revision"]) <= at and decode(kv["key"]) == events.log.prefix + HEAD:
            head = head_of(kv)
            if head.key and head.revision > newest:
                raise LogFault(f"the newest entry of the log {events.log.name}, at revision {head.revision}, was deleted")
            events.take_head(head)


def first_behind(log: EtcdLog, after: int, at: int) -> bytes:
    """The first key whose entry is behind a position; read without the entries themselves."""
    start = log.prefix
    while after:
        page, _ = log.page(start, after, at, LONGEST_PAGE, keys_only=True)
        kvs = page.get("kvs", [])
        newer = [it for it in kvs if int(it["create_revision"]) > after]
        if newer:
            return decode(newer[0]["key"])
        if not page.get("more"):
            return log.last
        start = decode(kvs[-1]["key"]) + b"\0"
    return start
