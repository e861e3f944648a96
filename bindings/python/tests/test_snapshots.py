"""Snapshots of a table on many hosts, case by case: the log is cut after them, and nothing that was answered is lost or made twice."""

import random
import unittest
from collections.abc import Callable
from unittest import mock

from pidtab import Calls, Diverged, LibraryFault, LogFault, MemoryLog, NotKnown, Process, Replicated
from pidtab.commands.replay import Replay, join, read_archive
from pidtab.hosts.archive import Archive, ArchiveFault
from pidtab.hosts.etcd import JSON, encode
from pidtab.hosts.keeper import ANSWER_SECONDS, Keeper
from pidtab.hosts.log import Log
from pidtab.hosts.log_entries import Announced, Settings, read_announced, read_entry, write_announced, write_settings
from pidtab.hosts.machine import Machine
from pidtab.hosts.snapshot import PIECE_BYTES, Snapshot, pack, read_snapshot, sum_of, unpack, write_snapshot
from pidtab.hosts.snapshots import AGREED, SERVED, is_agreed, piece_name, put_sum, read_served
from tests.keeping import LONG, MANY, Crash, Keeping, StillLog, announces, cuts, first_kept
from tests.stand_in import StandIn
from tests.ways import need_calls


def setUpModule() -> None:
    need_calls()


class Plain(Log):
    """A log that cannot be cut."""

    append = end = follow = lambda self, *arguments: 0  # type: ignore[assignment]


class Cuts(Keeping):
    """What is cut, and what is not."""

    def test_a_late_host(self) -> None:
        table, keeper = self.open(), self.keep()
        self.save_twice(table, keeper)
        self.check_cut()
        late = self.open()
        self.assertGreater(late._replica.machine.calls, 4 * MANY)
        self.check_same(table, late)
        self.assertEqual(late.fork(1).root, table.fork(1).root - 1)
        self.compact()
        self.check_same(table, late, self.open())

    def test_one_snapshot_cuts_nothing(self) -> None:
        table, keeper = self.open(), self.keep()
        self.fill(table)
        before = self.positions()
        keeper.save()
        self.assertLessEqual(set(before), set(self.positions()))

    def test_the_sessions_go_on(self) -> None:
        # One that was used the longest ago ends first, also on a host that has the sessions of a snapshot.
        with mock.patch("pidtab.hosts.machine.MOST_SESSIONS", 4):
            hosts = [self.open() for _ in range(4)]
            for it in (*hosts, *reversed(hosts)):
                it.fork(1)
            keeper = self.keep()
            keeper.save()
            late = self.open()
            for _ in range(2):
                late.log.append(b"open")
            for it in (hosts[0], hosts[1], hosts[3], late):
                it.fork(1)
            self.check_same(*hosts, late)

    def test_a_key_with_an_old_number(self) -> None:
        table, keeper = self.open(), self.keep()
        self.fill(table)
        keeper.save()
        late = self.put_late(table)
        self.fill(table)
        keeper.save()
        self.fill(table)
        self.assertIn(late, self.positions())
        self.check_same(table, self.open())

    def test_one_that_comes_amid_the_cut(self) -> None:
        table, keeper = self.open(), self.keep()
        self.fill(table)
        keeper.save()
        self.fill(table)
        came: list[int] = []

        def before(path: str, body: JSON) -> None:
            if cuts(body) and len(came) < 2:
                came.append(self.put_late(table))

        keeper.log._etcd.before = before  # type: ignore[attr-defined]
        keeper.save()
        self.assertEqual(len(came), 2)
        self.assertLessEqual(set(came), set(self.positions()))
        self.check_cut()
        self.check_same(table, self.open())

    def test_what_is_cut_is_in_the_archive(self) -> None:
        table, keeper = self.open(), self.keep(archive=Archive(self.folder, self.name))
        for _ in range(3):
            self.save_twice(table, keeper)
        keeper.close()
        archived, left = read_archive(str(self.folder)), list(self.make_log().entries_to(table.position + 10**6))
        entries = join([*archived, *(it for page in left for it in page)])
        self.assertEqual(entries[0][1], b"pidtab-log 2 pid_max 32768 model 1")
        replay = Replay(entries)
        replay.play(type(self).table(pid_max=replay.pid_max))
        self.assertEqual((replay.digest.hex(), replay.differing), (table.digest, []))
        self.assertEqual(len(replay.made), table._replica.machine.calls)

    def test_an_archive_that_cannot_be_written(self) -> None:
        table, keeper = self.open(), self.keep(archive=Archive(self.folder, self.name))
        before = self.positions()
        with mock.patch("pidtab.hosts.archive.os.fsync", side_effect=OSError(28, "No space left on device")):
            self.save_twice(table, keeper)
        self.assertIn(f"nothing is cut: the archive {self.folder} cannot be written: No space left on device", self.said)
        self.assertLessEqual(set(before), set(self.positions()))
        self.assertEqual(list(self.folder.iterdir()), [])
        self.save_twice(table, keeper)
        self.check_cut()
        with self.assertRaisesRegex(ArchiveFault, "no folder .*/none for an archive"):
            Archive(self.folder / "none", "web")


class Walks(Keeping):
    """A log that is cut while somebody reads it."""

    def walk(self, is_compacted: bool) -> tuple[list[int], list[int]]:
        """The positions that a walk gives after its first page, after which the log is cut; and those that there were before."""
        table, keeper, log = self.open(), self.keep(), self.make_log()
        self.fill(table)
        before = self.positions()
        with mock.patch("pidtab.hosts.etcd_log.FIRST_PAGE", 5), mock.patch("pidtab.hosts.etcd_log.LONGEST_PAGE", 5):
            following = log.follow(0)
            self.addCleanup(following.close)
            found = [position for position, _ in next(following).entries]
            self.save_twice(table, keeper)
            if is_compacted:
                self.compact()
            while not found or found[-1] < table.position:
                found += [position for position, _ in next(following).entries]
        return found, sorted(before)

    def test_it_is_read_as_it_was(self) -> None:
        found, before = self.walk(is_compacted=False)
        self.assertEqual(found[: len(before)], before)
        self.assertEqual(found, sorted(set(found)))

    def test_its_history_is_no_more_and_it_is_cut(self) -> None:
        with self.assertRaisesRegex(OSError, "the log was cut while it was read, and is read anew from a snapshot"):
            self.walk(is_compacted=True)

    def test_its_history_is_no_more(self) -> None:
        # An entry with an early number comes after the place of the walk, and one with a late one before it.
        table, log = self.open(), self.make_log()
        self.fill(table)
        before = sorted(self.positions())
        with mock.patch("pidtab.hosts.etcd_log.FIRST_PAGE", 5), mock.patch("pidtab.hosts.etcd_log.LONGEST_PAGE", 5):
            following = log.follow(0)
            self.addCleanup(following.close)
            found = [next(following)]
            late = self.put_late(table)
            self.fill(table, 5)
            self.compact()
            while found[-1].position < before[-1]:
                found.append(next(following))
        self.assertEqual([position for it in found for position, _ in it.entries], before)
        self.assertLess(found[-1].position, late)
        # What has come meanwhile comes then, once and in order.
        rest = []
        while not rest or rest[-1] < table.position:
            rest += [position for position, _ in next(following).entries]
        self.assertEqual([*before, *rest], sorted(self.positions()))


class Crashes(Keeping):
    """A keeper that ends in the middle leaves nothing that does harm, and the next one goes on."""

    many = 10

    def crash(self, keeper: Keeper, calls: int, is_behind: bool) -> bool:
        """Has a keeper crash at one of the calls on etcd that a snapshot takes, before it or after it; False where there are not so many."""
        left = [calls]

        def count(path: str, body: JSON) -> None:
            left[0] -= 1
            if left[0] < 0:
                raise Crash

        setattr(keeper.log._etcd, "behind" if is_behind else "before", count)  # type: ignore[attr-defined]
        try:
            keeper.save()
        except Crash:
            return True
        return False

    def test_a_crash_at_each_step(self) -> None:
        for is_behind in (False, True):
            calls, has_crashed = 0, True
            while has_crashed:
                with self.subTest(f"{'behind' if is_behind else 'before'} call {calls}"):
                    self.begin()
                    table, keeper = self.open(), self.keep(archive=Archive(self.folder, self.name))
                    self.save_twice(table, keeper)
                    has_crashed = self.crash(keeper, calls, is_behind)
                    self.check_same(table, self.open())
                    self.save_twice(table, self.keep())
                    self.check_cut()
                    self.check_same(table, self.open())
                calls += 1
            self.assertGreater(calls, 8)

    def test_no_answer_to_some_steps(self) -> None:
        for seed in range(10):
            # All is done, and of some calls nothing is heard.
            self.begin()
            table, keeper, chance = self.open(), self.keep(), random.Random(seed)

            def behind(path: str, body: JSON, chance: random.Random = chance) -> None:
                if chance.random() < 0.3:
                    raise TimeoutError("no answer")

            keeper.log._etcd.behind = behind  # type: ignore[attr-defined]
            with mock.patch("pidtab.hosts.keeper.Keeper.pause"):
                self.save_twice(table, keeper)
            self.assertIn("the log does not answer, and is asked again: no answer", self.said)
            self.check_cut()
            self.check_same(table, self.open())


class Two(Keeping):
    """Two keepers of one log."""

    def test_two_at_once(self) -> None:
        table, one, two = self.open(), self.keep(), self.keep()
        self.save_twice(table, one)
        done: list[Announced | None] = []

        def before(path: str, body: JSON) -> None:
            if announces(body) and not done:
                self.fill(table, 3)
                done.append(None)
                done.append(two.save())

        one.log._etcd.before = before  # type: ignore[attr-defined]
        self.assertIsNone(one.save())
        self.assertIsNotNone(done[1])
        self.assertEqual(read_served(self.make_log().cells()).all[-1], done[1])
        self.assertRegex(self.said[-1], "no snapshot of position [0-9]+: another host has written a later one")
        self.check_cut()
        self.check_same(table, self.open())

    def test_one_tidies_up_while_another_is_about_to_announce(self) -> None:
        table, one, two = self.open(), self.keep(), self.keep()
        self.save_twice(table, two)

        def before(path: str, body: JSON) -> None:
            if announces(body):
                two.clear_up()

        one.log._etcd.before = before  # type: ignore[attr-defined]
        done = one.save()
        self.assertIsNotNone(done)
        served = read_served(self.make_log().cells())
        self.assertEqual(served.all[-1], done)
        # The other one has not taken its pieces away.
        self.assertEqual(len(self.keys("snap/")), 2)

    def test_nothing_is_cut_or_loaded_that_no_other_has_checked(self) -> None:
        table, keeper = self.open(), self.keep(alone=False)
        before = self.positions()
        self.save_twice(table, keeper)
        self.assertLessEqual(set(before), set(self.positions()))
        self.assertRegex("\n".join(self.said), "nobody has checked the snapshot of position [0-9]+")
        late = self.open()
        self.check_same(table, late)
        # It has made all calls itself.
        self.assertIsNotNone(late._replica.machine.digest_at(before[0]))

    def test_two_that_check_each_other(self) -> None:
        table, one, two = self.open(), self.keep(alone=False), self.keep(alone=False)
        for it, other in ((one, two), (two, one)) * 2:
            self.fill(table)
            self.assertIsNotNone(it.save())
            other.catch_up()
        self.check_cut()
        late = self.open()
        self.assertEqual(first_kept(late), read_served(self.make_log().cells()).all[-1].position)
        self.check_same(table, late)

    def test_the_one_that_checks_goes_away(self) -> None:
        table, one, two = self.open(), self.keep(alone=False), self.keep(alone=False)
        self.save_twice(table, one, two)
        last = read_served(self.make_log().cells()).all[-1]
        two.close()
        self.save_twice(table, one)
        # What was checked last serves, however many come after it.
        self.assertEqual(read_served(self.make_log().cells()).all[0], last)
        late = self.open()
        self.assertEqual(first_kept(late), last.position)
        self.check_same(table, late)
        self.save_twice(table, one, self.keep(alone=False))
        self.check_cut()
        self.check_same(table, self.open())

    def test_nobody_agrees_with_what_it_has_written_itself(self) -> None:
        table, keeper = self.open(), self.keep(alone=False)
        self.fill(table)
        done = keeper.save()
        keeper.catch_up()
        # Nor one that is started again.
        again = self.keep(alone=False)
        self.fill(table)
        for it in (keeper, again):
            it.catch_up()
        assert done
        self.assertFalse(is_agreed(self.make_log().cells(), done))

    def test_a_host_that_checks(self) -> None:
        table, keeper = self.open(), self.keep(alone=False)
        checker = self.open(checks=True)
        self.fill(table)
        done = keeper.save()
        assert done
        cells, announced = self.make_log().cells(), done
        self.wait_until(lambda: is_agreed(cells, announced))
        # Its table has one task more, which no answer has shown.
        checker._replica.machine.table.fork(1)
        keeper.save()
        self.wait_until(lambda: "closed" in repr(checker))
        with self.assertRaisesRegex(Diverged, "behind entry [0-9]+ two hosts have other tables"):
            checker.getpid(1)

    def test_a_host_that_checks_and_has_no_memory(self) -> None:
        table, keeper, checker = self.open(), self.keep(alone=False), self.open(checks=True)
        self.fill(table)
        checker._replica.machine.table.dump = mock.Mock(side_effect=MemoryError("dump: no memory"))  # type: ignore[attr-defined]
        done = keeper.save()
        assert done
        self.assertEqual(checker.fork(1).root, table.fork(1).root - 1)
        self.assertFalse(is_agreed(self.make_log().cells(), done))
        del checker._replica.machine.table.dump  # type: ignore[attr-defined]
        self.check_same(table, checker)

    def test_a_host_that_cannot_check(self) -> None:
        with self.assertRaisesRegex(TypeError, "a Plain has no snapshots to check"):
            Replicated(Plain(), table=StandIn, checks=True)
        with mock.patch("tests.stand_in.StandIn.dump", None), self.assertRaisesRegex(LibraryFault, "a StandIn has no text for a snapshot: only a table by"):
            Replicated(MemoryLog(), table=StandIn, checks=True)

    def test_one_that_has_diverged(self) -> None:
        table, good, bad = self.open(), self.keep(alone=False), self.keep(alone=False)
        self.save_twice(table, good, bad)
        # One task more, which no answer has shown yet: the digest is that of all others.
        bad.catch_up()
        assert bad.machine
        bad.machine.table.fork(1)
        wrong = bad.save()
        assert wrong
        with self.assertRaisesRegex(Diverged, f"behind entry {wrong.position} two hosts have other tables"):
            good.catch_up()
        # Nobody loads its table, and it hears of that itself.
        late = self.open()
        self.check_same(table, late)
        self.assertLess(first_kept(late), wrong.position)
        with self.assertRaisesRegex(Diverged, "two hosts have other tables"):
            bad.save()
        self.check_same(table, self.open())

    def test_the_first_that_looks_is_believed(self) -> None:
        table, keeper = self.open(), self.keep(alone=False)
        self.fill(table)
        done = keeper.save()
        assert done
        cells = self.make_log().cells()
        put_sum(cells, done, done.sum)
        put_sum(cells, done, "0" * 64)
        self.assertTrue(is_agreed(cells, done))
        # One that does not serve any more leaves nothing.
        other = done._replace(key=done.key[:-1] + "x")
        put_sum(cells, other, done.sum)
        self.assertEqual(cells.names(AGREED), [AGREED + done.key])


class Losses(Keeping):
    """Pieces that are lost."""

    def lose(self, it: Announced) -> None:
        """Puts other bytes into a piece, of which zlib makes another text."""
        self.make_log().cells().change({piece_name(it.key, 0): pack(b"another text")[0].ljust(it.size, b"\0")})

    def test_the_older_one_serves(self) -> None:
        table, keeper = self.open(), self.keep()
        self.save_twice(table, keeper)
        older, newer = read_served(self.make_log().cells()).all
        self.lose(newer)
        late = self.open()
        self.assertEqual(first_kept(late), older.position)
        self.check_same(table, late)

    def test_a_snapshot_of_another_table(self) -> None:
        table, keeper = self.open(), self.keep()
        self.save_twice(table, keeper)
        newer = read_served(self.make_log().cells()).all[1]
        # A whole text, as of a host that has lost some memory, but not the one with the sum.
        text = keeper.machine.write().replace(b"\n1\n", b"\n") if keeper.machine else b""
        (piece,) = pack(text)
        cells = self.make_log().cells()
        served = read_served(cells)
        wrong = newer._replace(size=len(piece))
        cells.change({piece_name(newer.key, 0): piece, SERVED: write_announced(served.all[0]) + b"\n" + write_announced(wrong)})
        self.check_same(table, self.open())

    def test_both_are_lost(self) -> None:
        table, keeper = self.open(), self.keep()
        self.save_twice(table, keeper)
        for it in read_served(self.make_log().cells()).all:
            self.lose(it)
        with self.assertRaisesRegex(LogFault, "the log does not begin with its settings: it was trimmed, its snapshots are lost"):
            self.open()
        # Who has all goes on, and the next snapshots serve.
        table.fork(1)
        self.save_twice(table, keeper)
        self.check_same(table, self.open())


class Still(Keeping):
    """A host that stood still while the log was cut after it."""

    def stop(self, sends: bool) -> "tuple[Replicated, Replicated, object]":
        """Such a host, another one, and what it sent."""
        other, keeper = self.open(), self.keep()
        still = self.open(StillLog)
        log = still.log
        assert isinstance(log, StillLog)
        still.fork(1)
        self.fill(other, 10)
        log.sends = sends
        log.stop()
        sent = still.submit(["fork 1", "getpid 1"])
        self.assertTrue(log.sent.wait(LONG))
        self.save_twice(other, keeper)
        self.compact()
        self.forks = 1 + 10 + 2 * MANY + 5
        return other, still, sent

    def go(self, still: Replicated) -> None:
        """Has it go on."""
        assert isinstance(still.log, StillLog)
        still.log.hears.set()
        still.log.goes.set()

    def test_what_it_had_sent_is_not_made_again(self) -> None:
        other, still, sent = self.stop(sends=True)
        self.go(still)
        with self.assertRaisesRegex(NotKnown, "the log was cut before this host had read it: the calls were made, or were not") as caught:
            sent.result(LONG)  # type: ignore[attr-defined]
        self.assertTrue(caught.exception.sent)
        self.assertEqual(still.fork(1).root, self.forks + 3)
        self.check_same(other, still, self.open())

    def test_what_it_had_not_sent_goes_on(self) -> None:
        other, still, sent = self.stop(sends=False)
        behind = still.submit(["fork 1"])
        self.go(still)
        self.assertEqual(sent.result(LONG)[0], f"child {self.forks + 2} root {self.forks + 2}")  # type: ignore[attr-defined]
        self.assertEqual(behind.result(LONG), (f"child {self.forks + 3} root {self.forks + 3}",))
        self.check_same(other, still, self.open())

    def test_its_session_has_ended_meanwhile(self) -> None:
        with mock.patch("pidtab.hosts.machine.MOST_SESSIONS", 2):
            other, keeper, still = self.open(), self.keep(), self.open(StillLog)
            log = still.log
            assert isinstance(log, StillLog)
            still.fork(1)
            log.stop()
            sent, behind = still.submit(["fork 1"]), None
            self.assertTrue(log.sent.wait(LONG))
            behind = still.submit(["getpid 1"])
            self.fill(other, 1)
            for _ in range(3):
                other.log.append(b"open")
            self.save_twice(other, keeper)
            self.compact()
            log.hears.set()
            with self.assertRaises(NotKnown) as caught:
                sent.result(LONG)
            self.assertTrue(caught.exception.sent)
            log.goes.set()
            # What was not sent is made in a new session.
            self.assertEqual(behind.result(LONG), ("1",))
            self.check_same(other, still, self.open())

    def test_a_part_that_was_not_sent_goes_with_the_rest(self) -> None:
        other, keeper, still = self.open(), self.keep(), self.open(StillLog)
        log = still.log
        assert isinstance(log, StillLog)
        still.fork(1)
        log.stop()
        # More than one entry takes.
        sent = still.submit(["getpid 1"] * 100_000 + ["fork 1"])
        self.assertTrue(log.sent.wait(LONG))
        self.save_twice(other, keeper)
        self.compact()
        # It hears of the cut before it sends more.
        log.hears.set()
        with self.assertRaises(NotKnown):
            sent.result(LONG)
        log.goes.set()
        self.assertEqual(still.fork(1).root, 2 * MANY + 5 + 3)
        self.check_same(other, still, self.open())

    def test_one_that_lost_its_table(self) -> None:
        other, keeper, table = self.open(), self.keep(), self.open()
        self.save_twice(other, keeper)
        table.catch_up()
        table._replica.lose(MemoryError("no memory"))
        table._replica.following.close()  # type: ignore[union-attr]
        self.fill(other, 3)
        self.check_same(other, table)
        self.assertEqual(table._replica.replays, 1)


class Refused(Keeping):
    """What has no snapshots."""

    def test_a_table_that_is_too_large(self) -> None:
        table, keeper = self.open(), self.keep(most=100)
        self.fill(table)
        self.assertIsNone(keeper.save())
        self.assertRegex(self.said[-1], "no snapshot of position [0-9]+: it has [0-9]+ bytes, above 100, and the log goes on without")
        self.assertEqual((self.keys("snap"), self.keys("ok")), ([], []))
        self.check_same(table, self.open())

    def test_a_text_that_is_not_read_back(self) -> None:
        table, keeper = self.open(), self.keep()
        self.fill(table)
        for error, words in ((ValueError("line 7: no number left"), "of its text no table is made: line 7: no number left"), (None, "another table is made")):
            made = mock.Mock(side_effect=error, return_value=StandIn())
            with mock.patch("pidtab.hosts.keeper.table_of", made):
                self.assertIsNone(keeper.save())
            self.assertIn(words, self.said[-1])
        self.assertEqual(self.keys("snap"), [])
        self.check_same(table, self.open())

    def test_a_log_of_the_form_before(self) -> None:
        self.make_log().append(write_settings(Settings(1, 32768, 1)))
        one, two = self.open(), self.open()
        self.assertEqual((one.fork(1).root, two.fork(1).root), (2, 3))
        self.check_same(one, two)
        with self.assertRaisesRegex(LogFault, "the log has form 1, and goes on without snapshots"):
            self.keep()
        one.log.append(b"snap")
        self.wait_until(lambda: "closed" in repr(one))
        with self.assertRaisesRegex(LogFault, "entry [0-9]+ of the log cannot be read: form 1 has no snapshots"):
            one.fork(1)

    def test_a_new_log_has_the_new_form(self) -> None:
        # A release before this one knows form 1, and compares the settings first.
        table = self.open()
        table.fork(1)
        page = next(iter(table.log.entries_to(table.position)))  # type: ignore[attr-defined]
        self.assertEqual(page[0][1], b"pidtab-log 2 pid_max 32768 model 1")

    def test_another_pid_max_or_model(self) -> None:
        self.make_log().append(write_settings(Settings(2, 7, 1)))
        with self.assertRaisesRegex(LogFault, "the log has form 2, pid_max 7 and model 1: pid_max is 301 to 4194304, not 7"):
            self.keep()
        table = self.another("model").open()
        self.save_twice(table, self.keep())
        with self.assertRaisesRegex(LogFault, "the log has form 2, pid_max 32768 and model 1, and this replica form 2, pid_max 400 and model 1"):
            self.open(pid_max=400)
        self.another("later").make_log().append(write_settings(Settings(2, 32768, 2)))
        with self.assertRaisesRegex(LogFault, "the log has form 2, pid_max 32768 and model 2, and this replica form 2, pid_max 32768 and model 1"):
            self.keep()

    def another(self, name: str) -> "Refused":
        """Goes on with a log of another name."""
        self.name = name
        return self

    def test_a_table_without_a_text(self) -> None:
        table, keeper = self.open(), self.keep()
        self.save_twice(table, keeper)
        words = "of which no StandIn is made: open it with table=pidtab.Table"
        with mock.patch("tests.stand_in.StandIn.from_dump", None), self.assertRaisesRegex(LibraryFault, words):
            self.open()

    def test_an_entry_that_was_deleted_by_somebody_else(self) -> None:
        table, keeper = self.open(), self.keep()
        self.save_twice(table, keeper)
        self.fill(table, 3)
        self.assertNotIn("closed", repr(table))
        log = self.make_log()
        key = self.keys()[-2]
        log._etcd.ask("/v3/kv/deleterange", {"key": encode(key)})
        self.wait_until(lambda: "closed" in repr(table))
        with self.assertRaisesRegex(LogFault, "an entry of the log web was deleted"):
            table.fork(1)


class Times(Keeping):
    """When a keeper asks for a snapshot."""

    def keep_small(self, **wishes: object) -> Keeper:
        return self.keep(**{"bytes": 5000, "times": 4.0, **wishes})  # type: ignore[arg-type]

    def check_due(self, keeper: Keeper, is_due: bool) -> None:
        """Whether it is time, once the time of hesitation is over."""
        keeper.catch_up()
        with mock.patch("pidtab.hosts.keeper.HESITATION", 0.0):
            self.assertEqual(keeper.is_due(), is_due)

    def test_by_the_bytes(self) -> None:
        table, keeper = self.open(), self.keep_small()
        self.check_due(keeper, False)
        self.fill(table)
        self.check_due(keeper, True)
        keeper.save()
        self.check_due(keeper, False)
        self.fill(table)
        self.check_due(keeper, True)

    def test_by_the_last_one(self) -> None:
        table, keeper = self.open(), self.keep_small(times=1000.0)
        self.fill(table)
        keeper.save()
        self.fill(table)
        self.check_due(keeper, False)
        # So it is on one that has begun with that snapshot.
        again = self.keep_small(times=1000.0)
        self.assertEqual(again.size, keeper.size)
        self.fill(table)
        self.check_due(again, False)

    def test_a_log_that_nobody_has_begun(self) -> None:
        keeper = self.keep_small(bytes=1)
        self.check_due(keeper, False)
        self.assertIsNone(keeper.save())
        # A mark is no entry.
        self.assertLessEqual({key.partition(b":")[2] for key in self.keys()}, {b"~mark"})
        table = self.open()
        table.fork(1)
        self.check_due(keeper, True)
        self.assertIsNotNone(keeper.save())

    def test_one_that_only_checks(self) -> None:
        table, keeper = self.open(), self.keep_small(checks=True)
        self.fill(table)
        self.check_due(keeper, False)

    def test_another_has_asked(self) -> None:
        table, keeper, other = self.open(), self.keep_small(), self.keep_small()
        self.fill(table)
        self.check_due(keeper, True)
        other.log.append(b"snap")
        self.check_due(keeper, False)
        # That one has crashed since.
        keeper.quiet_until -= ANSWER_SECONDS
        self.check_due(keeper, True)

    def test_one_that_is_too_large(self) -> None:
        table, keeper = self.open(), self.keep_small(most=100)
        self.fill(table)
        keeper.save()
        keeper.quiet_until = 0.0
        self.check_due(keeper, False)
        self.fill(table)
        self.check_due(keeper, True)


class Texts(unittest.TestCase):
    """The text of a snapshot, and its pieces."""

    SNAPSHOT = Snapshot(Settings(2, 400, 1), 17, "ab" * 32, 5, [(9, 2), (3, 7)], b"400 3 5\n1\n2\n")
    TEXT = b"pidtab-snapshot 2 pid_max 400 model 1 position 17 digest " + b"ab" * 32 + b" calls 5 sessions 2\n9 2\n3 7\n400 3 5\n1\n2\n"

    def test_what_is_written_is_read(self) -> None:
        self.assertEqual(write_snapshot(self.SNAPSHOT), self.TEXT)
        self.assertEqual(read_snapshot(self.TEXT), self.SNAPSHOT)
        announced = Announced(17, "ab" * 32, 900, "cd" * 32, "0000000000000011-0123456789abcdef")
        entry = b"snapshot 17 " + b"ab" * 32 + b" 900 " + b"cd" * 32 + b" 0000000000000011-0123456789abcdef"
        self.assertEqual((write_announced(announced), read_announced(entry), read_entry(entry)), (entry, announced, announced))

    def test_what_is_none(self) -> None:
        for text in (b"", self.TEXT[1:], self.TEXT.replace(b"sessions 2", b"sessions 9"), self.TEXT.replace(b"9 2", b"9 x"), self.TEXT.replace(b"ab", b"AB")):
            with self.assertRaises(ValueError):
                read_snapshot(text)
        for entry in (b"snap ", b"snapshot", b"snapshot 17 ", b"snap\nsnap"):
            with self.assertRaises(ValueError):
                read_entry(entry)

    def test_pieces(self) -> None:
        # What zlib makes no smaller.
        text = b"".join(sum_of(b"%d" % it).encode() for it in range(60_000))
        pieces = pack(text)
        self.assertGreater(len(pieces), 1)
        self.assertLessEqual(max(map(len, pieces)), PIECE_BYTES)
        self.assertEqual(unpack(pieces, sum_of(text)), text)
        for wrong in (pieces[1:], pieces[:-1], pieces[::-1], [pieces[0][1:], *pieces[1:]]):
            self.assertIsNone(unpack(wrong, sum_of(text)))
        self.assertIsNone(unpack(pieces, sum_of(b"another")))


def machine_of(log: MemoryLog, table: Callable[..., Calls], to: int = 10**9) -> Machine:
    """What the entries of a log make, up to a position."""
    machine = Machine(table(pid_max=32768), Settings(2, 32768, 1))
    for position, data in log.entries:
        if position <= to:
            machine.apply(position, data)
    return machine


class Seeded(unittest.TestCase):
    """What a snapshot says of a host is all that there is to know of it."""

    def test_a_snapshot_of_what_a_snapshot_makes_is_the_same(self) -> None:
        for seed in range(5):
            log = MemoryLog(seed)
            hosts = [Replicated(log, table=StandIn, patience=LONG) for _ in range(3)]
            for it in hosts * 10:
                it.answers(["fork 1", "mk 0", "exit 2 0", "getpid 3"])
            for it in hosts[1:]:
                it.close()
            check_restored(self, log, StandIn)
            hosts[0].close()

    def test_no_process(self) -> None:
        self.assertFalse(hasattr(Process, "dump"))


def check_restored(case: unittest.TestCase, log: MemoryLog, table: Callable[..., Calls]) -> None:
    """At some positions of a log, a snapshot makes the same host again, which goes on as the other one does."""
    # A repeat of an entry may come late, and after these.
    entries = list(log.entries)
    whole = machine_of(log, table, entries[-1][0])
    for to in range(2, whole.position, 7):
        before = machine_of(log, table, to)
        text = before.write()
        again = Machine(table(pid_max=32768), Settings(2, 32768, 1))
        again.load(to, text)
        case.assertEqual(again.write(), text)
        for position, data in entries:
            if position > to:
                again.apply(position, data)
        case.assertEqual(again.write(), whole.write())


if __name__ == "__main__":
    unittest.main()
