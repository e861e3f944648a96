"""Many tables of one Cluster, by an etcd in memory and tables in pure Python: answers, what is told while a table reads, faults of one, ends and misuse."""

import concurrent.futures._base
import contextlib
import copy
import gc
import json
import os
import random
import threading
import time
import unittest
import weakref
from collections.abc import Callable, Iterator, Sequence
from unittest import mock

import pidtab
from pidtab import Cluster, Diverged, EtcdLog, LogFault, NotKnown, Replicated, TableClosed
from pidtab.hosts.etcd import JSON, Etcd, Member, encode
from pidtab.hosts.etcd_log import append_all
from pidtab.hosts.etcd_watch import EtcdWatch
from pidtab.hosts.log_entries import Asked, write_calls
from tests.alarms import alarms
from tests.keeping import Keeping
from tests.memory_etcd import Client, MemoryEtcd, cluster_in, keys_put, log_in
from tests.stand_in import StandIn
from tests.test_ends import in_child
from tests.test_interrupts import CallInterrupter, interrupts
from tests.test_replicated import NO_DIGEST, Flaky, interrupt_package, tell_hang
from tests.ways import need_calls

# Longer than any answer, in seconds.
LONG = 20.0

# The tables of a Cluster, and the calls that are made on each.
TABLES, CALLS = 20, 30
SEEDS = range(6)
CHANCE = 0.08

PACKAGE = os.path.dirname(pidtab.__file__)

# What a caller's thread runs, with what of the library has locks.
FILES = {
    *(os.path.join(PACKAGE, f"{name}.py") for name in ("calls", "changed")),
    *(os.path.join(PACKAGE, "hosts", f"{name}.py") for name in ("calls", "cluster", "cluster_threads", "own_calls", "replica", "replicated", "shared_threads", "submitted")),
    concurrent.futures._base.__file__,
    contextlib.__file__,
    threading.__file__,
}


def cluster_threads() -> list[threading.Thread]:
    """The threads of all Clusters."""
    return [it for it in threading.enumerate() if it.name.startswith("pidtab cluster")]


def names_of(path: str, body: JSON) -> list[bytes]:
    """The logs into which a call puts something."""
    return list(dict.fromkeys(key.partition(b":")[0] for key in keys_put(path, body)))


def setUpModule() -> None:
    need_calls()


class Clusters(unittest.TestCase):
    """Opens Clusters and plain hosts, which are closed after the test."""

    def setUp(self) -> None:
        self.store = MemoryEtcd()
        self.addCleanup(self.store.close)

    def begin(self, patience: float = LONG) -> Cluster:
        """One more Cluster."""
        cluster = cluster_in(self.store, patience=patience)
        self.addCleanup(cluster.close)
        return cluster

    def client(self, cluster: Cluster) -> Client:
        """What it asks etcd by."""
        client = cluster._etcd
        assert isinstance(client, Client)
        return client

    def open(self, cluster: Cluster, name: str = "web", table: Callable[..., pidtab.Calls] = StandIn) -> Replicated:
        """A table of it."""
        return cluster.open(name, table=table)

    def plain(self, name: str = "web") -> Replicated:
        """A host of a table by a log of its own."""
        table = Replicated(log_in(self.store, f"many/{name}"), table=StandIn, patience=LONG)
        self.addCleanup(table.close)
        return table

    def wait_until(self, holds: Callable[[], object]) -> None:
        """Waits for what comes soon."""
        end = time.monotonic() + LONG
        while not holds():
            self.assertLess(time.monotonic(), end)
            time.sleep(0.01)

    def diverge(self, name: str, table: Replicated) -> None:
        """Puts an entry of a host that has answered otherwise."""
        log_in(self.store, f"many/{name}").append(write_calls(Asked(9, 1, table.position, NO_DIGEST, [b"fork 1"])))

    def check_same(self, *tables: Replicated) -> None:
        """All hosts have answered the same, and have the same table."""
        for it in tables:
            it.catch_up()
        self.assertEqual(len({(it.digest, it.list_text()) for it in tables}), 1)

    def check_goes(self, table: Replicated) -> None:
        """A table answers, as one without a fault does."""
        root = table.fork(1).root
        self.assertEqual(table.catch_up() > 0 and len(table.list().tasks), root)


class Troubles:
    """What goes wrong with the appends of a Cluster, by a seed: entries are not there, or twice, or there without an acknowledgement."""

    def __init__(self, seed: int) -> None:
        self._random = random.Random(seed)
        # How many logs had an entry by one try, at most.
        self.most = 0

    def append_all(self, etcd: Etcd, puts: Sequence[tuple[EtcdLog, bytes]]) -> list[int]:
        """Puts entries, or not."""
        self.most = max(self.most, len(puts))
        time.sleep(self._random.random() * 0.003)
        if self._random.random() < CHANCE:
            raise ConnectionError("the entries are lost")
        positions = append_all(etcd, puts)
        if self._random.random() < CHANCE:
            append_all(etcd, puts)
        if self._random.random() < CHANCE:
            raise TimeoutError("the acknowledgement is lost")
        return positions


class Answers(Clusters):
    """All answers are right, and each call is made once."""

    def test_one_table_of_two_clusters_and_a_plain_host(self) -> None:
        one, two = (self.open(self.begin()) for _ in range(2))
        plain = self.plain()
        self.assertEqual([it.fork(1).root for it in (one, plain, two, one)], [2, 3, 4, 5])
        self.check_same(one, two, plain)
        self.assertIsInstance(one, Replicated)

    def test_names_that_begin_alike(self) -> None:
        cluster = self.begin()
        tables = [self.open(cluster, name) for name in ("a", "aa", "a/a", "ä b")]
        for number, table in enumerate(tables):
            self.assertEqual([table.fork(1).root for _ in range(number + 1)], list(range(2, number + 3)))
        other = Replicated(log_in(self.store, "man"), table=StandIn)
        self.addCleanup(other.close)
        self.assertEqual(other.fork(1).root, 2)

    def use(self, table: Replicated, roots: list[int]) -> None:
        """Makes calls, some of them at once."""
        while len(roots) < CALLS:
            asked = [table.submit(["fork 1", "getpid 1"]) for _ in range(3)]
            roots += [int(it.result(LONG)[0].split()[1]) for it in asked]

    def run_round(self, seed: int) -> None:
        """Two users on each of the tables of a Cluster whose watch is cut, one table that diverges, one that is closed, and one that comes late."""
        cluster, answers = self.begin(), dict[str, list[int]]()
        tables = {f"table{it}": self.open(cluster, f"table{it}") for it in range(TABLES)}
        bad, closed = tables.pop("table3"), tables.pop("table4")
        users = [threading.Thread(target=self.use, args=(it, answers.setdefault(name, []))) for name, it in tables.items()]
        waits = [closed.submit(["fork 1"]) for _ in range(10)]
        for it in users:
            it.start()
        self.diverge("table3", bad)
        closed.close()
        self.assertEqual([int(it.result(0)[0].split()[1]) for it in waits], list(range(2, 12)))
        for cut in (self.store.close, self.store.compact, self.store.close):
            time.sleep(0.05)
            cut()
        late = self.open(cluster, "late")
        self.use(late, answers.setdefault("late", []))
        for it in users:
            it.join()
        tables["late"] = late
        with self.assertRaises(Diverged):
            bad.catch_up()
        for name, roots in answers.items():
            self.assertEqual(sorted(roots), list(range(2, CALLS + 2)), name)
            self.check_same(tables[name], self.plain(name))
        cluster.close()

    def test_seeds(self) -> None:
        for seed in SEEDS:
            self.store = MemoryEtcd()
            self.addCleanup(self.store.close)
            troubles = Troubles(seed)
            with self.subTest(seed), mock.patch("pidtab.hosts.cluster_threads.append_all", troubles.append_all):
                self.run_round(seed)
            self.assertGreater(troubles.most, 3)

    def test_entries_go_in_their_order(self) -> None:
        cluster = self.begin()
        table = self.open(cluster)

        def be_late(path: str, body: JSON) -> None:
            if names_of(path, body):
                time.sleep(random.random() * 0.01)

        self.client(cluster).before = be_late
        asked = []
        for _ in range(60):
            asked.append(table.submit(["fork 1"]))
            time.sleep(0.002)
        self.assertEqual([it.result(LONG)[0] for it in asked], [f"child {it} root {it}" for it in range(2, 62)])
        numbers = [it.sequence for submitted in asked for it in submitted.receipts]
        self.assertEqual(numbers, sorted(numbers))
        self.assertGreater(numbers[-1], 10)

    def test_the_threads_are_ten(self) -> None:
        cluster = self.begin()
        tables = [self.open(cluster, str(it)) for it in range(100)]
        self.assertEqual({it.fork(1).root for it in tables}, {2})
        self.assertEqual(len(cluster_threads()), 10)
        self.assertEqual(len([it for it in self.store._watchers if it._end.fileno() >= 0]), 1)


class Joins(Clusters):
    """What is told while a table reads its keys is neither lost nor given twice."""

    @contextlib.contextmanager
    def hold_reads(self, cluster: Cluster, held: threading.Event, is_behind: bool) -> Iterator[threading.Event]:
        """Holds up who reads keys, before it is said up to which revision, or after that."""
        goes, client = threading.Event(), self.client(cluster)

        def hold(path: str, body: JSON) -> None:
            if threading.current_thread().name == "pidtab cluster read":
                held.set()
                goes.wait(LONG)

        setattr(client, "behind" if is_behind else "before", hold)
        try:
            yield goes
        finally:
            goes.set()

    def open_amid(self, is_behind: bool) -> None:
        """Entries come while a table reads its keys."""
        cluster, plain, held, opened = self.begin(), self.plain(), threading.Event(), list[Replicated]()
        other = self.open(cluster, "other")
        before = [plain.fork(1).root for _ in range(5)]
        with self.hold_reads(cluster, held, is_behind) as goes:
            opening = threading.Thread(target=lambda: opened.append(self.open(cluster)))
            opening.start()
            self.assertTrue(held.wait(LONG))
            self.assertEqual([plain.fork(1).root for _ in range(5)], list(range(before[-1] + 1, before[-1] + 6)))
            # The others are not held up, and the watch has told of all after this.
            self.assertEqual(other.fork(1).root, 2)
            goes.set()
            opening.join(LONG)
        self.check_goes(opened[0])
        self.check_same(opened[0], plain)

    def test_what_comes_behind_the_read(self) -> None:
        self.open_amid(is_behind=True)

    def test_what_comes_before_the_read(self) -> None:
        self.open_amid(is_behind=False)

    def test_a_table_that_is_lost(self) -> None:
        for is_behind in (False, True):
            self.store = MemoryEtcd()
            self.addCleanup(self.store.close)
            cluster, held = self.begin(), threading.Event()
            table, other, plain = self.open(cluster), self.open(cluster, "other"), self.plain()
            self.check_goes(table)
            with mock.patch("pidtab.hosts.replica.REPLAY_PAUSE", 0.01), self.hold_reads(cluster, held, is_behind) as goes:
                feed = table._replica.crew
                feed.put(MemoryError("no memory"))  # type: ignore[attr-defined]
                self.assertTrue(held.wait(LONG))
                for _ in range(5):
                    plain.fork(1)
                # After this the watch has told of all.
                other.fork(1)
                goes.set()
                self.check_goes(table)
            self.check_same(table, plain)
            self.assertEqual(table._replica.replays, 1)

    def test_no_memory_for_a_call(self) -> None:
        rest = iter((50, 0))
        cluster = self.begin()
        with mock.patch("pidtab.hosts.machine.PAUSES", (0.0, 0.01)), mock.patch("pidtab.hosts.replica.REPLAY_PAUSE", 0.01):
            table = self.open(cluster, table=lambda pid_max: Flaky(pid_max, next(rest)))
            self.assertEqual([table.fork(1).root for _ in range(3)], [2, 3, 4])
        self.assertEqual(table._replica.replays, 1)
        self.check_same(table, self.plain())

    def hold_watch(self, cluster: Cluster, opens: threading.Event) -> None:
        """Has no watch open before something is set."""
        client = self.client(cluster)
        watch = client.open_watch
        self.addCleanup(opens.set)

        def open_late(body: JSON) -> object:
            opens.wait(LONG)
            return watch(body)

        setattr(client, "open_watch", open_late)

    def test_a_read_waits_for_what_was_answered(self) -> None:
        cluster, plain, opens = self.begin(), self.plain(), threading.Event()
        table, other = self.open(cluster), self.open(cluster, "other")
        self.hold_watch(cluster, opens)
        self.store.close()
        roots = [plain.fork(1).root for _ in range(5)]
        threading.Timer(0.3, opens.set).start()
        for it in (table, other):
            self.assertGreaterEqual(it.catch_up(), 2)
        self.assertTrue(opens.is_set())
        self.assertEqual(len(table.list().tasks), roots[-1])

    def test_a_history_that_is_compacted(self) -> None:
        cluster = self.begin()
        tables, plains = [self.open(cluster, str(it)) for it in range(5)], [self.plain(str(it)) for it in range(5)]
        opens = threading.Event()
        self.hold_watch(cluster, opens)
        self.store.close()
        for it in plains:
            for _ in range(7):
                it.fork(1)
        self.store.compact()
        opens.set()
        for table, it in zip(tables, plains):
            self.check_same(table, it)
            self.check_goes(table)

    def test_a_watch_that_ends_again_and_again(self) -> None:
        cluster, plain = self.begin(), self.plain()
        table = self.open(cluster)
        for number in range(2, 40):
            if number % 3 == 0:
                self.store.close()
            self.assertEqual((plain if number % 2 else table).fork(1).root, number)
        self.check_same(table, plain)

    def test_a_read_that_others_have_brought_here(self) -> None:
        cluster = self.begin()
        quiet, busy = self.open(cluster, "quiet"), self.open(cluster, "busy")
        puts: list[bytes] = []
        self.client(cluster).before = lambda path, body: puts.extend(names_of(path, body))
        with mock.patch("pidtab.hosts.replica.SOON", LONG):
            for _ in range(10):
                busy.fork(1)
                quiet.catch_up()
        self.assertEqual([it for it in puts if it != b"many/busy"], [])

    def test_pieces_of_a_line(self) -> None:
        def events(*revisions: int) -> list[JSON]:
            return [{"kv": {"key": "", "mod_revision": str(it)}} for it in revisions]

        class Told(Client):
            def open_watch(self, body: JSON) -> tuple[mock.Mock, mock.Mock]:
                lines = [{"events": events(3, 4), "fragment": True}, {"events": events(4), "fragment": True}, {"events": events(4, 5)}]
                said = [json.dumps({"result": it}).encode() for it in lines]
                return mock.Mock(), mock.Mock(readline=mock.Mock(side_effect=[*said, b""]))

        told, walk = [], EtcdWatch(Told(self.store), b"a", b"b").follow(2)
        with self.assertRaisesRegex(ConnectionError, "the watch has ended"):
            for it in walk:
                told.append((it.position, [int(event["kv"]["mod_revision"]) for event in it.events]))
        self.assertEqual(told, [(3, [3]), (5, [4, 4, 4, 5])])


class Snapshots(Keeping):
    """A keeper cuts the log of one table."""

    def setUp(self) -> None:
        super().setUp()
        self.name = "many/web"

    def test_a_log_that_is_cut(self) -> None:
        cluster = cluster_in(self.store)
        self.addCleanup(cluster.close)
        table, other = cluster.open("web", table=StandIn), cluster.open("other", table=StandIn)
        host, keeper = self.open(), self.keep()
        self.save_twice(host, keeper)
        self.check_cut()
        self.assertEqual(other.fork(1).root, 2)
        self.check_same(table, host)
        self.compact()
        self.store.close()
        self.fill(host, 3)
        self.check_same(table, host)
        late = cluster_in(self.store)
        self.addCleanup(late.close)
        self.check_same(late.open("web", table=StandIn), host)


class Faults(Clusters):
    """What stops one table, or holds it up, leaves the others as they are."""

    def check_stopped(self, table: Replicated, kind: type[Exception], words: str, others: list[Replicated]) -> None:
        """A table has stopped, and the others go on."""
        self.wait_until(lambda: "closed" in repr(table))
        with self.assertRaisesRegex(kind, words):
            table.fork(1)
        for it in others:
            self.check_goes(it)

    def test_what_is_no_entry(self) -> None:
        cluster = self.begin()
        table, *others = [self.open(cluster, name) for name in ("web", "a", "b")]
        log_in(self.store, "many/web").append(b"hello")
        self.check_stopped(table, LogFault, "cannot be read", others)
        # It stands in the log, so the table is opened no more, though its name is free.
        with self.assertRaisesRegex(LogFault, "cannot be read"):
            self.open(cluster)
        self.check_stopped(table, LogFault, "cannot be read", others)

    def test_one_that_diverges(self) -> None:
        cluster = self.begin()
        table, *others = [self.open(cluster, name) for name in ("web", "a", "b")]
        self.diverge("web", table)
        self.check_stopped(table, Diverged, "behind entry", others)

    def test_an_entry_that_somebody_deletes(self) -> None:
        cluster = self.begin()
        table, *others = [self.open(cluster, name) for name in ("web", "a", "b")]
        table.fork(1)
        keys = [key for key in self.store._keys if key.startswith(b"many/web:0")]
        self.store.ask("/v3/kv/deleterange", {"key": encode(keys[-1])})
        self.check_stopped(table, LogFault, "an entry of the log many/web was deleted", others)

    def test_a_key_that_is_none(self) -> None:
        cluster = self.begin()
        table, *others = [self.open(cluster, name) for name in ("web", "a", "b")]
        for key in (b"many/", b"many/web", b"many/none:1", b"many/:", b"many0", b"many/\xff:1", b"many/web:~other"):
            self.store.ask("/v3/kv/put", {"key": encode(key), "value": ""})
        self.check_goes(table)
        self.store.ask("/v3/kv/put", {"key": encode(b"many/web:hello"), "value": ""})
        self.check_stopped(table, LogFault, "a key that is none of an entry", others)

    def test_what_etcd_refuses(self) -> None:
        cluster = self.begin()
        tables = [self.open(cluster, name) for name in ("a", "b")]
        setattr(self.client(cluster), "open_watch", mock.Mock(side_effect=LogFault("etcd refuses: permission denied")))
        self.store.close()
        for it in tables:
            self.check_stopped(it, LogFault, "permission denied", [])
        delattr(self.client(cluster), "open_watch")
        self.check_goes(self.open(cluster, "c"))
        self.check_goes(self.open(cluster, "a"))

    def test_some_whose_appends_fail(self) -> None:
        cluster = self.begin(patience=2)
        # More than there are threads that append.
        tables, others = [self.open(cluster, f"web{it}") for it in range(6)], [self.open(cluster, name) for name in ("a", "b")]
        table = tables[0]
        table.fork(1)

        def refuse(path: str, body: JSON) -> None:
            if any(it.startswith(b"many/web") for it in names_of(path, body)):
                raise ConnectionRefusedError(111, "Connection refused")

        self.client(cluster).before = refuse
        sent, *more = [it.submit(["fork 1"]) for it in tables]
        self.wait_until(lambda: sent.sent)
        behind = table.submit(["fork 1"])
        begun = time.monotonic()
        while not sent.done():
            for it in others:
                before = time.monotonic()
                it.fork(1)
                self.assertLess(time.monotonic() - before, 1)
        self.assertLess(time.monotonic() - begun, 4)
        with self.assertRaisesRegex(NotKnown, "2 seconds .*Connection refused.*will be made yet$"):
            sent.result()
        for submitted in (behind, *more):
            with self.assertRaisesRegex(NotKnown, "the calls were not made$"):
                submitted.result()
        self.client(cluster).before = lambda path, body: None
        # It was sent, so it is made yet; the others had not even a session.
        self.assertEqual([it.fork(1).root for it in tables], [4, 2, 2, 2, 2, 2])

    def test_what_is_refused_of_many(self) -> None:
        cluster = self.begin()
        table, *others = [self.open(cluster, name) for name in ("web", "a", "b", "c", "d")]
        goes, tried = threading.Event(), list[list[bytes]]()
        self.addCleanup(goes.set)

        def refuse(path: str, body: JSON) -> None:
            names = names_of(path, body)
            if names:
                goes.wait(LONG)
                tried.append(names)
            if b"many/web" in names:
                raise LogFault("etcd refuses: too large")

        self.client(cluster).before = refuse
        # Four threads wait with what comes first, and then all that waits is tried at once.
        asked = [it.submit(["fork 1"]) for _ in range(2) for it in (*others, table)]
        time.sleep(0.2)
        goes.set()
        self.assertEqual({it.result(LONG)[0] for it in asked if asked.index(it) % 5 < 4}, {"child 2 root 2", "child 3 root 3"})
        self.assertTrue([it for it in tried if b"many/web" in it])
        self.check_stopped(table, LogFault, "too large", others)

    def test_an_append_that_hangs(self) -> None:
        cluster = self.begin()
        table, *others = [self.open(cluster, name) for name in ("web", "a", "b")]
        hangs, goes = threading.Event(), threading.Event()
        self.addCleanup(goes.set)

        def hang(path: str, body: JSON) -> None:
            if b"many/web" in names_of(path, body):
                hangs.set()
                goes.wait(LONG)

        self.client(cluster).before = hang
        asked = [table.submit(["fork 1"]) for _ in range(20)]
        self.assertTrue(hangs.wait(LONG))
        for it in others:
            self.check_goes(it)
        goes.set()
        self.assertEqual(asked[-1].result(LONG), ("child 21 root 21",))

    def test_an_etcd_that_is_not_there(self) -> None:
        cluster = Cluster(["127.0.0.1:1"], "many", patience=0.3)
        self.addCleanup(cluster.close)
        begun = time.monotonic()
        with self.assertRaisesRegex(LogFault, r"the log was not opened: .* 0.3 seconds \(127.0.0.1:1: .*refused\)"):
            self.open(cluster)
        self.assertLess(time.monotonic() - begun, 5)

    def test_one_that_comes_back(self) -> None:
        cluster = self.begin()
        tables = [self.open(cluster, str(it)) for it in range(8)]
        is_off = threading.Event()

        def refuse(path: str, body: JSON) -> None:
            if is_off.is_set():
                raise ConnectionRefusedError(111, "Connection refused")

        self.client(cluster).before = refuse
        is_off.set()
        self.store.close()
        asked = [it.submit(["fork 1"]) for it in tables]
        time.sleep(0.5)
        is_off.clear()
        self.assertEqual({it.result(LONG) for it in asked}, {("child 2 root 2",)})
        for it in tables:
            self.check_goes(it)


    def test_two_threads_that_meet_a_dead_member(self) -> None:
        # Each goes to the next member, and not the second one beyond that, which might be the dead one again.
        etcd, both = Etcd([Member("dead", 1), Member("good", 1)], None, None, 1.0), threading.Barrier(2)

        def be_dead(*words: object) -> None:
            both.wait(LONG)
            raise ConnectionRefusedError(111, "Connection refused")

        def connect(member: Member) -> mock.Mock:
            return mock.Mock(host=member.host, port=member.port, request=be_dead)

        def ask() -> None:
            with contextlib.suppress(OSError):
                etcd.ask("/v3/kv/put", {})

        with mock.patch.object(etcd, "_connect", connect):
            threads = [threading.Thread(target=ask) for _ in range(2)]
            for it in threads:
                it.start()
            for it in threads:
                it.join()
        self.assertEqual(etcd._member(etcd._at).host, "good")


class Ends(Clusters):
    """Closes, threads, interrupts, forks, and what nobody has any more."""

    def test_a_table_that_is_closed(self) -> None:
        cluster = self.begin()
        table, other = self.open(cluster), self.open(cluster, "other")
        asked = [table.submit(["fork 1"]) for _ in range(50)]
        table.close()
        table.close()
        self.assertEqual(asked[-1].result(0), ("child 51 root 51",))
        self.assertEqual(self.last_entry(), b"end")
        with self.assertRaisesRegex(TableClosed, "the table was closed"):
            table.fork(1)
        self.check_goes(other)
        self.assertEqual(self.open(cluster).fork(1).root, 52)

    def last_entry(self) -> bytes:
        """The first word of the last entry of the table."""
        following = log_in(self.store, "many/web").follow(0)
        try:
            return list(next(following).entries)[-1][1].split()[0]
        finally:
            following.close()

    def test_a_cluster_that_is_closed(self) -> None:
        before = set(cluster_threads())
        with self.begin() as cluster:
            tables = [self.open(cluster, str(it)) for it in range(20)]
            asked = [it.submit(["fork 1"]) for it in tables]
        self.assertEqual({it.result(0) for it in asked}, {("child 2 root 2",)})
        cluster.close()
        self.assertEqual(set(cluster_threads()), before)
        self.assertEqual(repr(cluster), "<pidtab.Cluster 'many' at memory:1, closed>")
        with self.assertRaisesRegex(TableClosed, "the Cluster was closed"):
            self.open(cluster)
        for it in tables:
            with self.assertRaisesRegex(TableClosed, "the table was closed"):
                it.fork(1)
            it.close()

    def test_one_without_a_table(self) -> None:
        cluster = self.begin()
        cluster.close()
        cluster.close()
        self.assertEqual(self.store._revision, 1)

    def test_a_close_without_etcd(self) -> None:
        cluster = self.begin(patience=0.5)
        tables = [self.open(cluster, str(it)) for it in range(20)]
        self.client(cluster).before = mock.Mock(side_effect=ConnectionRefusedError(111, "Connection refused"))
        asked = [it.submit(["fork 1"]) for it in tables]
        begun = time.monotonic()
        cluster.close()
        self.assertLess(time.monotonic() - begun, 5)
        self.assertEqual({type(it.exception(0)) for it in asked}, {NotKnown})

    def test_a_close_amid_an_opening(self) -> None:
        cluster = self.begin()
        self.open(cluster, "other")
        self.client(cluster).before = lambda path, body: time.sleep(0.05)
        faults: list[Exception] = []

        def open_some() -> None:
            try:
                for it in range(100):
                    self.open(cluster, str(it))
            except Exception as fault:
                faults.append(fault)

        opening = threading.Thread(target=open_some)
        opening.start()
        time.sleep(0.3)
        cluster.close()
        opening.join(LONG)
        self.assertEqual([type(it) for it in faults], [TableClosed])

    def test_an_interrupt(self) -> None:
        cluster = self.begin()
        table = self.open(cluster)
        table.getpid(1)
        is_off = threading.Event()
        is_off.set()

        def refuse(path: str, body: JSON) -> None:
            if is_off.is_set():
                raise ConnectionRefusedError(111, "Connection refused")

        self.client(cluster).before = refuse
        sent = table.submit(["fork 1"])
        self.wait_until(lambda: sent.sent)
        for wait in (lambda: table.fork(1), sent.result, lambda: self.open(cluster, "late")):
            with interrupts(0.1), self.assertRaises(KeyboardInterrupt):
                wait()
        is_off.clear()
        # Who waited for the Future has lost nothing; the call of the method had not been sent.
        self.assertEqual((sent.result(LONG), table.fork(1).root), (("child 2 root 2",), 3))
        self.check_goes(self.open(cluster, "late"))
        is_off.set()
        late = table.submit(["fork 1"])
        with interrupts(0.1), self.assertRaises(KeyboardInterrupt):
            cluster.close()
        self.assertIsInstance(late.exception(LONG), NotKnown)
        cluster.close()

    def test_an_interrupt_behind_each_step(self) -> None:
        cluster = self.begin()
        table = self.open(cluster)
        for ask in (lambda: table.fork(1), lambda: table.submit(["fork 1"]).result(), table.list, table.catch_up):
            places, is_interrupted = 0, True
            with alarms(tell_hang, LONG):
                # The interpreter may tell of the steps of a function from its second call on.
                self.assertFalse(CallInterrupter(-1, FILES).run(ask))
                while is_interrupted:
                    places += 1
                    is_interrupted = CallInterrupter(places, FILES).run(ask)
                    # No thread waits for a lock that nobody gives up.
                    root = table.fork(1).root
                    self.assertEqual(len(table.list().tasks), root)
            self.assertGreater(places, 5)

    def test_an_interrupt_behind_each_step_of_an_opening_and_an_end(self) -> None:
        cluster = self.begin()
        other = self.open(cluster, "other")
        for step in ("open", "close"):
            places, is_interrupted, opened = 0, True, list[Replicated]()
            while is_interrupted:
                places += 1
                if step == "close":
                    opened.append(self.open(cluster))
                with alarms(tell_hang, LONG):
                    ask = opened[-1].close if step == "close" else lambda: opened.append(self.open(cluster))
                    is_interrupted = CallInterrupter(places, FILES).run(ask)
                    # The frames of an interrupt keep a host that nobody was given, until they are collected.
                    gc.collect()
                    for it in opened:
                        it.close()
            self.assertGreater(places, 3)
            self.check_goes(other)
        self.assertEqual(self.open(cluster).fork(1).root, 2)

    def test_many_interrupts(self) -> None:
        cluster = self.begin()
        tables, given, interrupted, end = [self.open(cluster, str(it)) for it in range(3)], list[int](), 0, time.monotonic() + 1.0
        with alarms(interrupt_package, 0.02, 0.02):
            while time.monotonic() < end:
                try:
                    while True:
                        given.append(tables[0].fork(1).root)
                        tables[1].answers(["fork 1"])
                        tables[2].catch_up()
                except KeyboardInterrupt:
                    interrupted += 1
        self.assertGreater(interrupted, 10)
        self.assertEqual(given, sorted(set(given)))
        for it in tables:
            self.check_goes(it)

    def test_a_forked_child(self) -> None:
        cluster = self.begin()
        table = self.open(cluster)
        self.assertIn("this Cluster is that of the parent process: a forked child opens its own", in_child(lambda: self.open(cluster, "late")))
        self.assertIn("that of the parent process", in_child(lambda: table.fork(1)))
        self.assertEqual((in_child(cluster.close), in_child(table.close)), ("None", "None"))
        self.assertIn("of the parent process", in_child(lambda: repr(cluster)))

        def open_own() -> int:
            with cluster_in(self.store) as own, own.open("web", table=StandIn) as opened:
                return opened._replica.machine.calls

        self.assertEqual(in_child(open_own), "0")
        self.check_goes(table)

    def test_a_wait_in_a_callback(self) -> None:
        cluster, said = self.begin(), list[object]()
        table, other = self.open(cluster), self.open(cluster, "other")

        def callback(future: object) -> None:
            for ask in (lambda: other.fork(1), lambda: self.open(cluster, "late"), cluster.close, table.close):
                try:
                    ask()
                except RuntimeError as fault:
                    said.append(str(fault))
            said.append(other.submit(["fork 1"]))

        table.submit(["fork 1"]).add_done_callback(callback)
        self.wait_until(lambda: len(said) == 5)
        for it in said[:4]:
            self.assertRegex(str(it), "what is called when a Future is done cannot wait for ")
        last = said[4]
        assert isinstance(last, pidtab.Submitted)
        self.assertEqual(last.result(LONG), ("child 2 root 2",))

    def test_tables_that_nobody_has(self) -> None:
        before = set(cluster_threads())
        cluster = cluster_in(self.store)
        gone = weakref.ref(cluster.open("web", table=StandIn))
        self.wait_until(lambda: gc.collect() >= 0 and gone() is None)
        # Its name is free as soon as it has ended.
        table = cluster.open("web", table=StandIn)
        only = weakref.ref(cluster)
        del cluster
        gc.collect()
        self.assertEqual(table.fork(1).root, 2)
        del table
        self.wait_until(lambda: gc.collect() >= 0 and only() is None)
        self.wait_until(lambda: set(cluster_threads()) == before)

    def test_threads(self) -> None:
        cluster, roots = self.begin(), list[int]()
        table = self.open(cluster)
        threads = [threading.Thread(target=lambda: roots.extend(table.fork(1).root for _ in range(50))) for _ in range(8)]
        for it in threads:
            it.start()
        for it in threads:
            it.join()
        self.assertEqual(sorted(roots), list(range(2, 402)))

    def test_two_that_open_one_name_at_once(self) -> None:
        cluster, opened = self.begin(), list[Replicated]()
        self.client(cluster).before = lambda path, body: time.sleep(0.01)

        def open_it() -> None:
            with contextlib.suppress(ValueError):
                opened.append(self.open(cluster))

        threads = [threading.Thread(target=open_it) for _ in range(6)]
        for it in threads:
            it.start()
        for it in threads:
            it.join()
        self.assertEqual(len(opened), 1)
        self.check_goes(opened[0])


class Misuse(Clusters):
    """What cannot be meant is told in a sentence."""

    def check(self, kind: type[Exception], words: str, make: Callable[[], object]) -> None:
        with self.assertRaisesRegex(kind, words):
            make()

    def test_names(self) -> None:
        for name in ("", "a:b", "a\nb", "x" * 201):
            self.check(ValueError, "a cluster's name has 1 to 200 printable characters and no colon", lambda name=name: Cluster(["h:1"], name))
        self.check(TypeError, "name is a text, not int", lambda: Cluster(["h:1"], 3))  # type: ignore[arg-type]
        cluster = self.begin()
        self.check(ValueError, "a table's name has 1 or more characters", lambda: self.open(cluster, ""))
        for name in ("a:b", "a\nb", "x" * 200):
            self.check(ValueError, "a log's name has 1 to 200 printable characters and no colon, not 'many/", lambda name=name: self.open(cluster, name))
        self.check(TypeError, "name is a text, not bytes", lambda: cluster.open(b"web"))  # type: ignore[arg-type]
        table = self.open(cluster)
        self.check(ValueError, "the table 'web' is open in this Cluster: use that one, or close it", lambda: self.open(cluster))
        self.check_goes(table)

    def test_other_arguments(self) -> None:
        self.check(TypeError, "members is a list of texts", lambda: Cluster("h:1", "many"))
        self.check(ValueError, "members is an empty list", lambda: Cluster([], "many"))
        self.check(ValueError, "by https needs tls", lambda: Cluster(["https://h:1"], "many"))
        self.check(TypeError, "user is a pair of texts", lambda: Cluster(["h:1"], "many", user="root"))  # type: ignore[arg-type]
        self.check(ValueError, "patience is a number of seconds above 0", lambda: Cluster(["h:1"], "many", patience=0))
        self.check(ValueError, "timeout is a number of seconds above 0", lambda: Cluster(["h:1"], "many", timeout=-1))
        cluster = self.begin()
        self.check(ValueError, "pid_max is 301 to 4194304, not 300", lambda: cluster.open("web", table=StandIn, pid_max=300))
        self.check(TypeError, "table is what opens a table, .* not int", lambda: cluster.open("web", table=3))  # type: ignore[arg-type]
        self.check(TypeError, "table has to open a pidtab.Table .* not dict", lambda: cluster.open("web", table=dict))  # type: ignore[arg-type]
        self.check(TypeError, "a Cluster is not copied or pickled", lambda: copy.copy(cluster))
        table = cluster.open("web", table=StandIn, pid_max=400)
        self.check_goes(table)
        other = self.begin()
        self.check(LogFault, "the log has form 2, pid_max 400 .* and this replica form 2, pid_max 32768", lambda: self.open(other))

    def test_nothing_built(self) -> None:
        cluster = self.begin()
        with mock.patch.dict(os.environ, {"PIDTAB_LIBRARY": "/no/such/library", "PIDTAB": "/no/such/program"}):
            self.check(pidtab.LibraryMissing, "build it with `make lib`", lambda: cluster.open("web"))
            self.check(pidtab.ProgramMissing, "build it with `make build`", lambda: cluster.open("web", table=pidtab.Process))
        self.check_goes(self.open(cluster))


if __name__ == "__main__":
    unittest.main()
