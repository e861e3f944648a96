"""The example that has a log in PostgreSQL keeps the promises of a `pidtab.Log`, and so a table on it those of `Replicated`."""

import multiprocessing
import tempfile
import threading
import time
import unittest
from collections.abc import Callable
from pathlib import Path
from typing import Any

from cluster.postgres import Postgres, load_example, need_postgres
from pidtab import LogFault, Replicated
from pidtab.hosts.log import Log, Progress
from tests.stand_in import StandIn

# Whatever should come comes within so many seconds, on a busy machine.
SOON = 30.0

HOSTS, CLIENTS, FORKS = 3, 4, 40


def append_in_child(words: str, name: str, log: Any, pipe: Any) -> None:
    """What a forked child does with the log of its parent."""
    pipe.send((log.append(b"of the child"), log._idle[-1][1].info.backend_pid))


def take(log: Log, count: int, after: int = 0) -> list[tuple[int, bytes]]:
    """So many entries of a log behind a position, if they come soon."""
    following, found, end = log.follow(after), [], time.monotonic() + SOON
    try:
        while len(found) < count and time.monotonic() < end:
            found += next(following).entries
    finally:
        following.close()
    return found


class ByPostgres(unittest.TestCase):
    """Logs of one server."""

    logs = 0

    @classmethod
    def setUpClass(cls) -> None:
        need_postgres()
        cls.example = load_example()
        folder = tempfile.TemporaryDirectory(prefix="pidtab-postgres-")
        cls.addClassCleanup(folder.cleanup)
        cls.server = Postgres(Path(folder.name))
        cls.addClassCleanup(lambda: cls.server.stop())

    def setUp(self) -> None:
        ByPostgres.logs += 1
        self.name = f"log {ByPostgres.logs}"

    def log(self) -> Any:
        """The log of this test, as a host has it."""
        return self.example.PostgresLog(self.server.words, self.name)

    def run_sql(self, text: str) -> None:
        """Does something to the tables beside all logs."""
        with self.connected() as cursor:
            cursor.execute(text, {"log": self.name})

    def connected(self) -> Any:
        """A cursor of a connection that commits each statement."""
        connection = self.log().connect()
        self.addCleanup(connection.close)
        return connection.cursor()


class Promises(ByPostgres):
    """Those of `pidtab.Log`, one by one."""

    def test_positions_rise_by_one(self) -> None:
        log = self.log()
        self.assertEqual([log.append(b"%d" % it) for it in range(3)], [1, 2, 3])
        self.assertEqual((log.end(), log.mark()), (3, 3))
        self.assertEqual(take(log, 2, after=1), [(2, b"1"), (3, b"2")])

    def test_another_log_is_another(self) -> None:
        log, other = self.log(), self.example.PostgresLog(self.server.words, f"{self.name} too")
        self.assertEqual((log.append(b"a"), other.append(b"b"), log.end()), (1, 1, 1))
        self.assertEqual(take(other, 1), [(1, b"b")])

    def test_an_entry_of_any_bytes(self) -> None:
        log = self.log()
        entry = bytes(range(256)) * 2343
        self.assertEqual((log.append(entry), log.append(b"")), (1, 2))
        self.assertEqual(take(log, 2), [(1, entry), (2, b"")])

    def test_who_follows_hears_of_what_comes(self) -> None:
        log, came = self.log(), []
        following = log.follow(0)
        thread = threading.Thread(target=lambda: came.extend(following))
        thread.start()
        for it in range(50):
            log.append(b"%d" % it)
        self.wait(lambda: came and came[-1].position == 50)
        following.close()
        thread.join(SOON)
        self.assertFalse(thread.is_alive())
        self.assertEqual([entry for it in came for entry in it.entries], [(it + 1, b"%d" % it) for it in range(50)])

    def test_more_than_a_page(self) -> None:
        log, count = self.log(), 2 * self.example.MOST_ENTRIES + 1
        for it in range(count):
            log.append(b"%d" % it)
        self.assertEqual(take(log, count), [(it + 1, b"%d" % it) for it in range(count)])

    def test_no_commit_overtakes(self) -> None:
        """An append that has its position and has not committed holds up those behind it, so no follower passes it by."""
        slow = self.log().connect()
        self.addCleanup(slow.close)
        slow.autocommit = False
        with slow.cursor() as cursor:
            cursor.execute(self.example.APPEND, {"log": self.name, "entry": b"slow"})
        log, answered = self.log(), []
        thread = threading.Thread(target=lambda: answered.append(log.append(b"quick")))
        thread.start()
        following = log.follow(0)
        self.addCleanup(following.close)
        self.assertEqual(next(following), Progress(0, []))
        self.assertEqual(answered, [])
        slow.commit()
        thread.join(SOON)
        self.assertEqual((answered, take(log, 2)), ([2], [(1, b"slow"), (2, b"quick")]))

    def test_the_end_waits_for_what_is_under_way(self) -> None:
        slow = self.log().connect()
        self.addCleanup(slow.close)
        slow.autocommit = False
        with slow.cursor() as cursor:
            cursor.execute(self.example.APPEND, {"log": self.name, "entry": b"slow"})
        found: list[int] = []
        thread = threading.Thread(target=lambda: found.append(self.log().end()))
        thread.start()
        time.sleep(0.3)
        self.assertEqual(found, [])
        slow.commit()
        thread.join(SOON)
        self.assertEqual(found, [1])

    def test_a_forked_child_has_connections_of_its_own(self) -> None:
        log = self.log()
        self.assertEqual(log.append(b"before"), 1)
        ours, theirs = multiprocessing.Pipe()
        child = multiprocessing.get_context("fork").Process(target=append_in_child, args=(self.server.words, self.name, log, theirs))
        child.start()
        self.assertTrue(ours.poll(SOON))
        position, server = ours.recv()
        self.assertEqual(position, 2)
        self.assertNotEqual(server, log._idle[-1][1].info.backend_pid)
        child.join(SOON)
        self.assertEqual((log.append(b"behind"), [it[1] for it in take(log, 3)]), (3, [b"before", b"of the child", b"behind"]))

    def wait(self, holds: Callable[[], object]) -> None:
        """Waits until something holds."""
        end = time.monotonic() + SOON
        while not holds():
            self.assertLess(time.monotonic(), end)
            time.sleep(0.01)


class Misuse(ByPostgres):
    """What a log meets when somebody else works on its tables, or nobody answers."""

    def test_nobody_answers(self) -> None:
        log = self.example.PostgresLog("host=/no/such/folder", self.name)
        with self.assertRaisesRegex(OSError, "PostgreSQL: .*No such file"):
            log.append(b"a")
        with self.assertRaises(OSError):
            next(log.follow(0))

    def test_an_entry_was_deleted(self) -> None:
        log = self.log()
        for it in range(3):
            log.append(b"%d" % it)
        self.run_sql("DELETE FROM pidtab_entry WHERE log = %(log)s AND position = 2")
        with self.assertRaisesRegex(LogFault, f"entry 2 of the log {self.name} was deleted"):
            take(log, 3)

    def test_the_log_was_set_back(self) -> None:
        log = self.log()
        for it in range(3):
            log.append(b"%d" % it)
        self.run_sql("DELETE FROM pidtab_entry WHERE log = %(log)s AND position > 1")
        self.run_sql("UPDATE pidtab_end SET position = 1 WHERE log = %(log)s")
        with self.assertRaisesRegex(LogFault, "gave position 2 behind 3: it was set back"):
            log.append(b"again")

    def test_its_row_was_deleted(self) -> None:
        log = self.log()
        log.append(b"a")
        self.run_sql("DELETE FROM pidtab_end WHERE log = %(log)s")
        with self.assertRaisesRegex(LogFault, f"the row of the log {self.name} was deleted"):
            log.append(b"b")

    def test_a_user_may_not(self) -> None:
        self.log().append(b"a")
        self.run_sql("DROP ROLE IF EXISTS guest")
        self.run_sql("CREATE ROLE guest LOGIN")
        guest = self.example.PostgresLog(self.server.words.replace("user=postgres", "user=guest"), self.name)
        with self.assertRaisesRegex(LogFault, "PostgreSQL refuses: .*permission denied"):
            guest.append(b"b")


class Tables(ByPostgres):
    """A table of some hosts, each call of which is made once, also where the server is killed."""

    def open(self) -> Replicated:
        table = Replicated(self.log(), table=StandIn, patience=SOON)
        self.addCleanup(table.close)
        return table

    def fork_often(self, table: Replicated, roots: list[int]) -> None:
        for _ in range(FORKS):
            roots.append(table.fork(1).root)

    def make_all(self, meanwhile: Callable[[], None]) -> None:
        """Some threads of some hosts fork, and each fork is made once, for the one who is answered."""
        hosts = [self.open() for _ in range(HOSTS)]
        roots: list[int] = []
        threads = [threading.Thread(target=self.fork_often, args=(host, roots)) for host in hosts for _ in range(CLIENTS)]
        for it in threads:
            it.start()
        meanwhile()
        for it in threads:
            it.join()
        self.assertEqual(sorted(roots), list(range(2, 2 + HOSTS * CLIENTS * FORKS)))
        for host in hosts:
            host.catch_up()
        self.assertEqual(len({host.digest for host in hosts}), 1)
        self.assertEqual({host.count(0) for host in hosts}, {1 + len(roots)})

    def test_hosts_share_it(self) -> None:
        self.make_all(lambda: None)

    def test_the_server_is_killed(self) -> None:
        def kill() -> None:
            time.sleep(0.5)
            self.server.kill()
            time.sleep(0.5)
            self.server.start()

        self.make_all(kill)

    def test_a_late_host(self) -> None:
        first = self.open()
        self.assertEqual([first.fork(1).root for _ in range(3)], [2, 3, 4])
        self.assertEqual(self.open().count(0), 4)


if __name__ == "__main__":
    unittest.main()
