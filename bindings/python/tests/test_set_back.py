"""An etcd that was set back to an earlier state, by an etcd in memory: each host notices it, and none puts or deletes anything there."""

import contextlib
import unittest
from collections.abc import Sequence

from pidtab import LogFault, NotKnown, Replicated
from pidtab.hosts.etcd import JSON, decode, encode
from pidtab.hosts.etcd_transactions import HEAD
from pidtab.hosts.keeper import Keeper
from pidtab.hosts.log_entries import FORM, MODEL, Settings, write_settings
from pidtab.hosts.snapshots import read_served
from tests.keeping import Keeping, StillLog, cuts
from tests.memory_etcd import cluster_in, log_in
from tests.stand_in import StandIn
from tests.ways import need_calls

# A revision that was set back is after that which a host has read, or ahead of it by so many writes of others.
OTHERS = (0, 500)

NOTICED = "etcd was set back to an earlier state, or the entry was deleted; nothing was put"


def setUpModule() -> None:
    need_calls()


class SetBack(Keeping):
    """Hosts that have read more than etcd has then."""

    def state(self) -> list[tuple[bytes, int]]:
        """The keys of the log as they are."""
        told = self.store.ask("/v3/kv/range", {"key": encode(b"web:"), "range_end": encode(b"web;")})
        return [(decode(it["key"]), int(it["mod_revision"])) for it in told.get("kvs", [])]

    def make_history(self) -> tuple[int, Replicated, Replicated]:
        """A revision, and two hosts that have read more."""
        writer, reader = self.open(), self.open()
        self.fill(writer, 5)
        revision = self.store._revision
        self.fill(writer, 5)
        reader.catch_up()
        return revision, writer, reader

    def check_noticed(self, table: Replicated) -> None:
        """A host stops for this reason, or has; what waits then is not known."""
        with self.assertRaisesRegex((NotKnown, LogFault), NOTICED):
            table.fork(1)
        with self.assertRaisesRegex(LogFault, NOTICED):
            table.fork(1)

    def check_new_host(self) -> Replicated:
        """The log is good: a new host opens it, and has what there was."""
        table = self.open()
        self.assertEqual([table.fork(1).root for _ in range(3)], [7, 8, 9])
        return table

    def begin_set_back(self, others: int) -> tuple[Replicated, Replicated]:
        """A writer and a reader of a log that was set back, after which others have written so often."""
        self.begin()
        revision, writer, reader = self.make_history()
        self.store.set_back(revision, others)
        return writer, reader

    def test_a_call(self) -> None:
        for others in OTHERS:
            with self.subTest(others):
                writer, reader = self.begin_set_back(others)
                before = self.state()
                self.check_noticed(writer)
                self.check_noticed(reader)
                self.assertEqual(self.state(), before)
                self.check_new_host()

    def test_a_read(self) -> None:
        for others in OTHERS:
            with self.subTest(others):
                writer, reader = self.begin_set_back(others)
                for table in (reader, writer):
                    with self.assertRaisesRegex(LogFault, NOTICED):
                        table.catch_up()
                self.check_new_host()

    def test_a_new_host_is_first(self) -> None:
        # The old ones hear of its entries by their watches, and apply none.
        revision, writer, reader = self.make_history()
        last = reader.position
        self.store.set_back(revision, 500)
        new = self.check_new_host()
        for table in (reader, writer):
            self.wait_until(lambda: "closed" in repr(table))
            self.assertEqual(table.position, last)
            self.check_noticed(table)
        self.assertEqual(reader._replica.machine.position, last)
        self.assertEqual(new.fork(1).root, 10)
        self.check_same(new, self.open())

    def test_what_was_put_and_not_read(self) -> None:
        # Its own entry is there, as etcd has said, and nobody has read it.
        table = self.open(StillLog)
        log = table.log
        assert isinstance(log, StillLog)
        table.fork(1)
        revision = self.store._revision
        log.hears.clear()
        self.store.close()
        asked = table.submit(["fork 1"])
        self.wait_until(lambda: self.store._revision > revision)
        self.store.set_back(revision, 500)
        before = self.state()
        behind = table.submit(["fork 1"])
        with self.assertRaisesRegex(NotKnown, NOTICED):
            behind.result()
        self.assertTrue(asked.done())
        self.assertEqual(self.state(), before)
        log.hears.set()

    def test_tables_of_a_cluster(self) -> None:
        cluster = cluster_in(self.store)
        self.addCleanup(cluster.close)
        one, two = (cluster.open(name, table=StandIn) for name in ("one", "two"))
        one.fork(1)
        revision = self.store._revision
        two.fork(1)
        self.store.set_back(revision, 500)
        # The other table has lost nothing, and goes on.
        asked = [it.submit(["fork 1"]) for it in (one, two)]
        self.assertEqual(asked[0].result(), ("child 3 root 3",))
        self.check_noticed(two)
        again = Replicated(log_in(self.store, "many/two"), table=StandIn)
        self.addCleanup(again.close)
        self.assertEqual(again.fork(1).root, 2)

    def test_a_keeper(self) -> None:
        table, keeper = self.open(), self.keep()
        self.save_twice(table, keeper)
        revision = self.store._revision
        self.fill(table)
        keeper.catch_up()
        self.store.set_back(revision, 500)
        before = self.state()
        for step in (keeper.save, keeper.clear_up, lambda: keeper.log.cut(revision + 500), lambda: keeper.log.cells().change({"snap/none/0000": b"x"})):
            with contextlib.suppress(LogFault):
                step()
            self.assertEqual([it for it in before if it not in self.state()], [])
            self.assertEqual([it for it in self.state() if it not in before], [])

    def test_amid_a_cut(self) -> None:
        # The keeper has looked up which keys to delete, and etcd has others then.
        table, keeper = self.open(), self.keep()
        self.fill(table)
        keeper.save()
        self.fill(table)
        revision, done = self.store._revision, []

        def before(path: str, body: JSON) -> None:
            if cuts(body) and not done:
                self.store.set_back(revision, 500)
                done.append(self.state())

        keeper.log._etcd.before = before  # type: ignore[attr-defined]
        with self.assertRaisesRegex(LogFault, NOTICED):
            keeper.save()
        self.assertEqual(self.state(), done[0])

    def test_a_log_that_was_only_begun(self) -> None:
        # Nothing of it was read, so nothing shows that etcd was set back; and the first key is a good one.
        for _ in range(50):
            self.store.ask("/v3/kv/put", {"key": encode(b"other"), "value": ""})
        log = self.make_log()
        log.end()
        self.store.set_back(5)
        log.append(write_settings(Settings(FORM, 32768, MODEL)))
        self.assertEqual(self.open().fork(1).root, 2)


class Cut(Keeping):
    """A host whose newest entry was cut, and which puts nothing before it has read on."""

    def stand_still(self) -> tuple[Replicated, Replicated, StillLog, Keeper]:
        """A host, one that hears nothing from now on, and a keeper."""
        table, still, keeper = self.open(), self.open(StillLog), self.keep()
        log = still.log
        assert isinstance(log, StillLog)
        self.fill(table)
        still.catch_up()
        still.fork(1)
        log.hears.clear()
        self.store.close()
        return table, still, log, keeper

    def test_a_host_that_stood_still(self) -> None:
        table, still, log, keeper = self.stand_still()
        for _ in range(2):
            self.save_twice(table, keeper)
        asked = still.submit(["fork 1"])
        self.wait_until(lambda: "this host reads on first" in str(still._replica.trouble))
        log.hears.set()
        self.assertRegex(asked.result()[0], "^child ")
        self.check_same(table, still, self.open())

    def test_a_keeper_that_stood_still(self) -> None:
        table, still, keeper = self.open(), self.keep(), self.keep()
        self.save_twice(table, still)
        still.drop_following()
        for _ in range(2):
            self.save_twice(table, keeper)
        self.assertIsNotNone(still.save())
        self.check_same(table, self.open())

    def test_etcd_was_set_back_meanwhile(self) -> None:
        # It seems to be cut, by its number; and the watch tells that it is another entry that follows.
        table, still, log, keeper = self.stand_still()
        self.fill(table)
        still_at = still.position
        self.store.set_back(still_at - 10)
        new, again = self.open(), self.keep()
        for _ in range(2):
            self.save_twice(new, again)
        self.assertGreater(read_served(log.cells()).cut, still_at)
        before = self.positions()
        asked = still.submit(["fork 1"])
        self.wait_until(lambda: "this host reads on first" in str(still._replica.trouble))
        log.hears.set()
        with self.assertRaisesRegex(NotKnown, "has another entry behind that of revision [0-9]+: etcd was set back"):
            asked.result()
        self.assertEqual(still.position, still_at)
        self.assertEqual(self.positions(), before)
        self.check_same(new, self.open())


class Heads(Keeping):
    """The head of a log, and logs without one."""

    def head(self) -> Sequence[JSON]:
        """The head, if there is one."""
        kvs: Sequence[JSON] = self.store.ask("/v3/kv/range", {"key": encode(b"web:" + HEAD)}).get("kvs", [])
        return kvs

    def begin_earlier(self) -> None:
        """Begins a log as an earlier release does."""
        self.store.ask("/v3/kv/put", {"key": encode(b"web:%016x-%016x" % (0, 7)), "value": encode(write_settings(Settings(FORM, 32768, MODEL)))})

    def test_each_entry_puts_it(self) -> None:
        table, keeper = self.open(), self.keep()
        self.save_twice(table, keeper)
        (head,) = self.head()
        newest = max(self.positions())
        self.assertEqual(int(head["mod_revision"]), newest)
        (entry,) = self.store.ask("/v3/kv/range", {"key": encode(b"web:" + decode(head["value"]))})["kvs"]
        self.assertEqual(int(entry["create_revision"]), newest)
        # All entries that ever were, cut or not.
        settings_open_and_calls, snapshots = 2 + 2 * self.many + 5, 2 * 2
        self.assertEqual(int(head["version"]), settings_open_and_calls + snapshots)

    def test_a_newest_entry_that_was_deleted(self) -> None:
        table = self.open()
        self.fill(table, 3)
        table.close()
        (head,) = self.head()
        self.store.ask("/v3/kv/deleterange", {"key": encode(b"web:" + decode(head["value"]))})
        newest = head["mod_revision"]
        with self.assertRaisesRegex(LogFault, f"the newest entry of the log web, at revision {newest}, was deleted"):
            self.open()

    def test_a_head_that_was_deleted(self) -> None:
        table = self.open()
        table.fork(1)
        self.store.ask("/v3/kv/deleterange", {"key": encode(b"web:" + HEAD)})
        self.wait_until(lambda: "closed" in repr(table))
        with self.assertRaisesRegex(LogFault, "the head of the log web was deleted, at revision [0-9]+: open it again, and it goes on without"):
            table.fork(1)
        self.assertEqual(self.open().fork(1).root, 3)
        self.assertEqual(self.head(), [])

    def test_a_log_of_an_earlier_release(self) -> None:
        self.begin_earlier()
        one, two = self.open(), self.open()
        for number in range(2, 6):
            self.assertEqual(one.fork(1).root, number)
            two.catch_up()
            self.assertEqual(len(two.list().tasks), number)
        self.assertEqual(self.head(), [])

    def test_one_that_is_put_by_hand(self) -> None:
        self.begin_earlier()
        one, two = self.open(), self.open()
        one.fork(1)
        self.store.ask("/v3/kv/put", {"key": encode(b"web:" + HEAD), "value": ""})
        self.check_same(one, two, self.open())
        two.fork(1)
        self.assertEqual(int(self.head()[0]["mod_revision"]), max(self.positions()))
        self.check_same(one, two, self.open())

    def test_reads_put_nothing(self) -> None:
        one, two = self.open(), self.open()
        one.fork(1)
        for _ in range(20):
            revision = self.store._revision
            self.assertGreater(two.catch_up(), 0)
            self.assertEqual(self.store._revision, revision)
            # Others may write meanwhile.
            self.store.ask("/v3/kv/put", {"key": encode(b"other"), "value": ""})
        self.assertEqual(len(two.list().tasks), 2)


if __name__ == "__main__":
    unittest.main()
