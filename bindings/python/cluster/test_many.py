"""Two processes, each with a Cluster of 20 tables on three members of etcd, and plain hosts beside them: answers and digests are those of one thread."""

import re
import signal
import subprocess
import sys
import time
import unittest
from collections.abc import Sequence
from pathlib import Path

from cluster import test_etcd
from cluster.etcds import LONGEST, Etcds, text64
from cluster.load import table_kind
from cluster.test_etcd import PACKAGE, Writer, add_users, environment, start_with_tls
from cluster.test_keep import PROGRAM
from pidtab import Cluster, EtcdLog, LogFault, Process, Replicated, find_library, find_program
from tests.pages import fenced, read_page, section
from tests.programs import run
from tests.ways import need_library

NAME = "many"
TABLES = 20

# How long the users make calls, in seconds.
LOAD = 8

# The table that has plain hosts too.
SHARED = 3


class ManyWriter(Writer):
    """A host of many tables in a process of its own."""

    program: Sequence[str] = (sys.executable, "-B", "-m", "cluster.many_writer")


class Many(test_etcd.Cluster):
    """Members and processes, which end behind the test."""

    def host(self, etcds: Etcds, **wishes: int) -> Writer:
        """Starts a process with a Cluster, and waits until its tables are open."""
        file = self.folder / f"many{len(self.writers)}"
        writer = ManyWriter(etcds.members, NAME, file, threads=TABLES, **{"batch": 4, "seconds": LOAD, **wishes})
        self.addCleanup(writer.end)
        self.writers.append(writer)
        writer.read("open")
        return writer

    def plain(self, etcds: Etcds, **wishes: int) -> Writer:
        """Starts a process with one table of them."""
        writer = Writer(etcds.members, f"{NAME}/{SHARED}", self.folder / f"plain{len(self.writers)}", **{"batch": 4, "seconds": LOAD, **wishes})
        self.addCleanup(writer.end)
        self.writers.append(writer)
        writer.read("open")
        return writer

    def rows_of(self, number: int) -> list[Path]:
        """The files of the answers of a table."""
        files = [it.file for it in self.writers if not isinstance(it, ManyWriter)] if number == SHARED else []
        return files + [it.file.with_name(f"{it.file.name}.{number}") for it in self.writers if isinstance(it, ManyWriter)]

    def replay_one(self, etcds: Etcds, number: int) -> str:
        """What `pidtab-replay` says of the log of a table and of all its rows."""
        log = self.folder / "log.json"
        log.write_bytes(etcds.dump(f"{NAME}/{number}", etcds.leader()))
        words = [it for file in self.rows_of(number) for it in ("--answers", str(file))]
        words += [it for folder in self.archives if number == SHARED for it in ("--archive", str(folder))]
        words += ["--program", find_program()] if table_kind() is Process else ["--library", find_library()]
        command = [sys.executable, "-B", str(PACKAGE / "bin" / "pidtab-replay"), *words, str(log)]
        done = subprocess.run(command, env=environment(), capture_output=True, text=True, check=False)
        self.assertEqual((done.returncode, done.stderr), (0, ""), done.stdout)
        said: str = done.stdout
        return said

    def compare_all(self, etcds: Etcds, hosts: Sequence[Writer], plain: Sequence[Writer] = ()) -> None:
        """Waits until all are done, and compares the tables of all processes with each other and with a replay."""
        for writer in (*hosts, *plain):
            writer.read("done")
        for writer in (*hosts, *plain):
            writer.go()
        ends: list[set[str]] = [set() for _ in range(TABLES)]
        for writer in hosts:
            for end, told in zip(ends, writer.read("at"), strict=True):
                end.add(told)
        for writer in plain:
            ends[SHARED].add(",".join(writer.read("at")[1:]))
        answered = 0
        for number, end in enumerate(ends):
            said = self.replay_one(etcds, number)
            self.assertEqual(len(end), 1, said)
            digest, listed = end.pop().split(",")
            self.assertIn(f"digest {digest}\nlist {listed}\nwriters with another digest: 0\n", said)
            self.assertRegex(said, r"answers [1-9]\d*: 0 lost, 0 wrong, 0 doubled;")
            self.assertRegex(said, r"times [1-9]\d*: 0 out of order")
            found = re.search(r"answers (\d+):", said)
            assert found
            answered += int(found[1])
        for writer in (*hosts, *plain):
            writer.go()
            writer.read("closed")
        print(f"\n{self.id().split('.')[-1]}: {TABLES} tables, {answered} answers", file=sys.stderr)


class Crashes(Many):
    """What goes on through crashes."""

    def test_a_member_is_killed_and_comes_back(self) -> None:
        etcds = self.start()
        hosts, plain = [self.host(etcds), self.host(etcds)], self.plain(etcds)
        time.sleep(2)
        leader = etcds.leader()
        etcds.kill(leader)
        time.sleep(2)
        etcds.start(leader)
        self.compare_all(etcds, hosts, [plain])

    def test_a_compaction_while_a_process_stops(self) -> None:
        etcds = self.start()
        hosts, plain = [self.host(etcds), self.host(etcds)], self.plain(etcds)
        time.sleep(1)
        hosts[1].send(signal.SIGSTOP)
        time.sleep(1)
        # Its watch is cut off with the members, so it has to begin behind what is no more.
        for place in range(3):
            etcds.kill(place)
            etcds.start(place)
            etcds.wait_until_ready()
        etcds.compact()
        time.sleep(1)
        etcds.compact()
        hosts[1].send(signal.SIGCONT)
        late = self.host(etcds, seconds=2)
        self.compare_all(etcds, [*hosts, late], [plain])

    def test_a_keeper_cuts_one_log(self) -> None:
        need_library()
        etcds = self.start()
        self.archives.append(self.folder / "archive")
        self.archives[0].mkdir()
        words = [sys.executable, "-B", PROGRAM, "--alone", "--bytes", "0.02", "--times", "0.1", "--archive", self.archives[0], f"{NAME}/{SHARED}"]
        hosts, plain = [self.host(etcds), self.host(etcds)], self.plain(etcds)
        keeper = subprocess.Popen([*map(str, words), *etcds.members], env=environment(), stdout=subprocess.PIPE, text=True)
        self.addCleanup(keeper.wait)
        self.addCleanup(keeper.kill)
        time.sleep(3)
        hosts[1].send(signal.SIGSTOP)
        time.sleep(2)
        hosts[1].send(signal.SIGCONT)
        time.sleep(2)
        late = self.host(etcds, seconds=2)
        keeper.terminate()
        said = keeper.communicate(timeout=LONGEST)[0]
        self.assertRegex(said, r"[1-9]\d* entries up to position \d+ are cut")
        self.compare_all(etcds, [*hosts, late], [plain])


class Refusals(Many):
    """Users, TLS, and what etcd refuses."""

    def test_a_user(self) -> None:
        etcds = self.start(count=1)
        for path, body in [
            ("/v3/auth/user/add", {"name": "many", "password": "word"}), ("/v3/auth/role/add", {"name": "many"}),
            ("/v3/auth/user/grant", {"user": "many", "role": "many"}),
            ("/v3/auth/role/grant", {"name": "many", "perm": {"permType": "READWRITE", "key": text64("many/"), "range_end": text64("many0")}}),
        ]:  # fmt: skip
            etcds.ask(path, body)
        add_users(etcds)
        with Cluster(etcds.members, NAME, user=("many", "word"), patience=20) as cluster:
            for name in ("a", "b"):
                table = cluster.open(name, table=table_kind())
                self.assertEqual([table.fork(1).root for _ in range(2)], [2, 3])
                table.catch_up()
        with Cluster(etcds.members, "other", user=("many", "word"), patience=20) as cluster, self.assertRaisesRegex(LogFault, "permission denied"):
            cluster.open("a", table=table_kind())

    def test_tls(self) -> None:
        etcds, tls, _ = start_with_tls(self.folder)
        self.addCleanup(etcds.stop)
        with Cluster([f"https://{it}" for it in etcds.members], NAME, tls=tls) as cluster:
            table = cluster.open("a", table=table_kind())
            self.assertEqual([table.fork(1).root for _ in range(3)], [2, 3, 4])
            table.catch_up()

    def test_an_entry_that_was_deleted(self) -> None:
        etcds = self.start(count=1)
        with Cluster(etcds.members, NAME) as cluster:
            table, other = (cluster.open(name, table=table_kind()) for name in ("a", "b"))
            table.fork(1)
            keys = [it["key"] for it in etcds.ask("/v3/kv/range", {"key": text64("many/a:"), "range_end": text64("many/a:~")})["kvs"]]
            etcds.ask("/v3/kv/deleterange", {"key": keys[-1]})
            end = time.monotonic() + LONGEST
            while "closed" not in repr(table):
                self.assertLess(time.monotonic(), end)
                time.sleep(0.05)
            with self.assertRaisesRegex(LogFault, "an entry of the log many/a was deleted"):
                table.fork(1)
            self.assertEqual([other.fork(1).root for _ in range(3)], [2, 3, 4])


class Losses(Many):
    """What a Cluster does without a member of three."""

    def test_a_member_is_lost_for_good(self) -> None:
        etcds = self.start()
        for lost in range(3):
            cluster = Cluster([*etcds.members[lost:], *etcds.members[:lost]], NAME, patience=30)
            self.addCleanup(cluster.close)
            tables = [cluster.open(f"{lost}.{it}", table=table_kind()) for it in range(8)]
            etcds.kill(lost)
            etcds.leader()
            begun = time.monotonic()
            asked = [it.submit(["fork 1"]) for it in tables]
            self.assertEqual({it.result(LONGEST) for it in asked}, {("child 2 root 2",)})
            self.assertLess(time.monotonic() - begun, test_etcd.SOON)
            etcds.start(lost)
            etcds.wait_until_ready()
            cluster.close()

    def test_a_plain_host_of_a_table(self) -> None:
        etcds = self.start()
        with Cluster(etcds.members, NAME) as cluster, Replicated(EtcdLog(etcds.members, f"{NAME}/a"), table=table_kind()) as plain:
            table = cluster.open("a", table=table_kind())
            for number in range(2, 40, 2):
                self.assertEqual((plain.fork(1).root, table.fork(1).root), (number, number + 1))
            for it in (plain, table):
                it.catch_up()
            self.assertEqual((plain.digest, plain.list_text()), (table.digest, table.list_text()))


class Examples(Many):
    """What the page shows."""

    def test_the_page(self) -> None:
        need_library()
        (code,) = fenced(section(read_page("docs/CLUSTER.md"), "## Many tables"), "python")
        etcds = self.start(count=1)
        (self.folder / "many.py").write_text(f"import sys\nimport pidtab\n{code}")
        self.assertEqual(run([sys.executable, "many.py", *etcds.members], self.folder, PYTHONPATH=PACKAGE), "[2, 2]\n")


if __name__ == "__main__":
    unittest.main()
