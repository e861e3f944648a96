"""The way from a log that cannot be used any more to a new one, by an etcd in memory and a table in pure Python."""

import unittest
from collections.abc import Callable

from pidtab import LogFault, Replicated
from pidtab.hosts.archive import Archive
from pidtab.hosts.etcd import encode
from pidtab.hosts.log_entries import MODEL, Settings, write_settings
from pidtab.hosts.salvage import Salvaged, begin, salvage
from tests.keeping import Keeping
from tests.memory_etcd import log_in
from tests.stand_in import StandIn
from tests.ways import need_calls


def open_stand_in(pid_max: int) -> StandIn:
    """A table of a host."""
    return StandIn(pid_max=pid_max)


def setUpModule() -> None:
    need_calls()


class Salvages(Keeping):
    """What is good of a log, and a new log that begins with it."""

    def salvage(self) -> Salvaged:
        """What is good of the log."""
        return salvage(self.make_log(), open_stand_in)

    def begin_with(self, text: bytes, name: str = "new") -> None:
        """Begins a log with a table."""
        begin(log_in(self.store, name), StandIn.from_dump(text), 32768)

    def open_new(self, name: str = "new") -> Replicated:
        """A host of it."""
        table = Replicated(log_in(self.store, name), table=StandIn)
        self.addCleanup(table.close)
        return table

    def check_way(self, spoil: Callable[[], object], why: str, left: int, root: int) -> None:
        """A log that was spoiled is salvaged up to there, and the new one goes on with that table, and can be cut."""
        spoil()
        found = self.salvage()
        self.assertRegex(found.why, why)
        self.assertEqual(found.left, left)
        self.begin_with(found.text)
        one, two = self.open_new(), self.open_new()
        self.assertEqual([it.fork(1).root for it in (one, two, one)], [root, root + 1, root + 2])
        self.name = "new"
        keeper = self.keep()
        for _ in range(3):
            self.save_twice(one, keeper)
        self.check_cut()
        self.check_same(one, two, self.open_new())

    def test_an_entry_that_cannot_be_read(self) -> None:
        table = self.open()
        self.fill(table, 5)

        def spoil() -> None:
            log = self.make_log()
            log.append(b"hello")
            log.append(b"open")

        self.check_way(spoil, "entry [0-9]+ of the log cannot be read: it begins with b'hello'", 2, 7)

    def test_an_entry_that_was_deleted(self) -> None:
        table = self.open()
        self.fill(table, 5)
        table.close()
        keys = [key for key in self.store._keys if key.startswith(b"web:0")]
        # The third of five calls: the fourth says what its writer had there.
        self.check_way(lambda: self.store.ask("/v3/kv/deleterange", {"key": encode(keys[4])}), "the log has (lost|no more)|which the log has no more", 3, 4)

    def test_one_that_was_cut(self) -> None:
        table, keeper = self.open(), self.keep()
        self.save_twice(table, keeper)
        root = table.fork(1).root
        table.close()
        self.check_way(lambda: None, "^$", 0, root + 1)

    def test_one_of_form_1(self) -> None:
        settings = write_settings(Settings(1, 32768, MODEL))
        self.store.ask("/v3/kv/put", {"key": encode(b"web:%016x-%016x" % (0, 7)), "value": encode(settings)})
        table = self.open()
        self.fill(table, 3)
        with self.assertRaisesRegex(LogFault, "form 1, and goes on without snapshots: .*--salvage"):
            self.keep()
        self.check_way(table.close, "^$", 0, 5)

    def test_one_that_is_begun(self) -> None:
        table = self.open()
        self.fill(table, 3)
        with self.assertRaisesRegex(LogFault, "the log web is begun already"):
            self.begin_with(StandIn().dump().encode(), "web")
        self.assertEqual(self.keys("snap/"), [])
        self.assertEqual(table.fork(1).root, 5)
        with self.assertRaisesRegex(LogFault, "the log has no entries"):
            salvage(log_in(self.store, "none"), open_stand_in)

    def test_a_host_that_opens_it_meanwhile(self) -> None:
        # It has read that there is nothing, and does not begin with another table.
        self.begin_with(StandIn.from_dump(b"32768 9 3\n1\n8\n").dump().encode())
        log_in(self.store, "new").append(write_settings(Settings(2, 32768, MODEL)))
        self.assertEqual(self.open_new().fork(1).root, 9)


class Now(Keeping):
    """A keeper that does at once what can be done."""

    def test_it_cuts_and_ends(self) -> None:
        table, keeper = self.open(), self.keep()
        self.fill(table)
        before = set(self.positions())
        keeper.run(now=True)
        self.assertRegex(self.said[-1], "^[1-9][0-9]* entries up to position [0-9]+ are cut$")
        self.assertLess(len(before & set(self.positions())), 3)
        self.check_same(table, self.open())

    def test_parts_of_an_archive(self) -> None:
        (self.folder / "abc.part").write_text("half")
        (self.folder / "web-1-2.json").write_text("whole")
        Archive(self.folder, "web")
        self.assertEqual([it.name for it in self.folder.iterdir()], ["web-1-2.json"])

    def test_an_end_is_no_trouble(self) -> None:
        keeper = self.keep()
        keeper.end()
        keeper.run()
        self.assertEqual([it for it in self.said if "does not answer" in it], [])


if __name__ == "__main__":
    unittest.main()
