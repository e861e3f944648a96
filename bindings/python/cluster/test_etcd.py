"""Three members of etcd and three hosts, of which some are killed, stopped or late: no answered call is lost, wrong or doubled."""

import os
import shutil
import signal
import ssl
import subprocess
import sys
import tempfile
import threading
import time
import unittest
from collections.abc import Callable, Sequence
from contextlib import suppress
from pathlib import Path
from typing import Any, TypeVar
from unittest import mock

from cluster.etcds import LONGEST, Etcds, need_etcd, text64
from cluster.load import table_kind
from cluster.relay import HOST, Relay
from pidtab import EtcdLog, LogFault, NotKnown, Process, Replicated, Table, find_library, find_program
from pidtab.commands.replay import read_log
from pidtab.hosts.etcd_cells import read_keys
from pidtab.hosts.etcd_log import TIMEOUT
from pidtab.hosts.etcd_transactions import Newest
from tests.pages import displays, fenced, read_page, section
from tests.programs import need_tool, run
from tests.ways import need_library, need_program

PACKAGE = Path(__file__).resolve().parents[1]

# How long the users of a test make calls, in seconds.
LOAD = 14

# The loss of one member holds no host up for longer, in seconds.
SOON = 2.0

T = TypeVar("T")


class Writer:
    """A host in a process of its own."""

    # What takes the words of `cluster.writer`.
    program: Sequence[str] = (sys.executable, "-B", "-m", "cluster.writer")

    def __init__(self, members: list[str], name: str, file: Path, threads: int = 4, batch: int = 16, calls: int = 10**9, seconds: float = LOAD) -> None:
        words = [",".join(members), name, threads, batch, calls, seconds, file]
        command = [*self.program, *map(str, words)]
        self.file = file
        self._child = subprocess.Popen(command, cwd=PACKAGE, env=environment(), stdin=subprocess.PIPE, stdout=subprocess.PIPE, text=True)

    def read(self, word: str) -> list[str]:
        """The words behind one that it says next."""
        assert self._child.stdout
        said = self._child.stdout.readline().split()
        if said[:1] != [word]:
            raise AssertionError(f"the writer of {self.file.name} says {said} in the place of {word}")
        return said[1:]

    def go(self) -> None:
        """Has it say how far it is, or close."""
        assert self._child.stdin
        self._child.stdin.write("\n")
        self._child.stdin.flush()

    def send(self, number: signal.Signals) -> None:
        """Sends it a signal."""
        self._child.send_signal(number)

    def end(self) -> None:
        """Kills it, where it has not ended."""
        self._child.kill()
        self._child.wait()
        assert self._child.stdin and self._child.stdout
        self._child.stdin.close()
        self._child.stdout.close()


def environment() -> dict[str, str]:
    """The variables of this process, with whole paths: the folder is another."""
    named = {name: os.path.abspath(os.environ[name]) for name in ("PIDTAB", "PIDTAB_LIBRARY") if os.environ.get(name)}
    return {**os.environ, **named}


class Cluster(unittest.TestCase):
    """Members and hosts, which end behind the test."""

    def setUp(self) -> None:
        need_etcd()
        (need_program if table_kind() is Process else need_library)()
        folder = tempfile.TemporaryDirectory(prefix="pidtab-cluster-")
        self.addCleanup(folder.cleanup)
        self.folder = Path(folder.name)
        self.writers: list[Writer] = []
        # Where what is cut off the log is.
        self.archives: list[Path] = []

    def start(self, *words: str, count: int = 3, relayed: bool = False) -> Etcds:
        """Starts members."""
        etcds = Etcds(self.folder, count, *words, relayed=relayed)
        self.addCleanup(etcds.stop)
        return etcds

    def open(self, members: Sequence[str], patience: float = 30.0, timeout: float = TIMEOUT, **wishes: Any) -> Replicated:
        """A host in this process."""
        table = Replicated(EtcdLog(members, "web", timeout=timeout, **wishes), table=table_kind(), patience=patience)
        self.addCleanup(table.close)
        return table

    def insist(self, ask: Callable[[], T]) -> T:
        """What is answered once etcd answers again."""
        end = time.monotonic() + LONGEST
        while True:
            try:
                return ask()
            except NotKnown:
                self.assertLess(time.monotonic(), end)

    def writer(self, etcds: Etcds, kind: type[Writer] = Writer, **wishes: int) -> Writer:
        """Starts a host, and waits until its table is open."""
        writer = kind(etcds.members, "web", self.folder / f"rows{len(self.writers)}", **wishes)
        self.addCleanup(writer.end)
        self.writers.append(writer)
        self.opened = writer.read("open")
        return writer

    def compare(self, etcds: Etcds, *living: Writer) -> str:
        """Waits until the hosts are done, and compares them with each other and all answers with the log: what is said of these."""
        for writer in living:
            writer.read("done")
        for writer in living:
            writer.go()
        # Not the positions: an entry that nobody needs any more may still be put again.
        ends = {tuple(writer.read("at")[1:]) for writer in living}
        said = self.replay(etcds)
        self.assertEqual(len(ends), 1, said)
        ((digest, listed),) = ends
        self.assertIn(f"digest {digest}\nlist {listed}\nwriters with another digest: 0\n", said)
        self.assertRegex(said, r"answers [1-9]\d*: 0 lost, 0 wrong, 0 doubled;")
        self.assertRegex(said, r"times [1-9]\d*: 0 out of order")
        # The writers' logs have troubles of their own.
        self.assertRegex(said, r"calls, [1-9]\d* entries repeated")
        for writer in living:
            writer.go()
            writer.read("closed")
        return said

    def replay(self, etcds: Etcds) -> str:
        """What `pidtab-replay` says of the log and of all rows."""
        log = self.folder / "log.json"
        log.write_bytes(etcds.dump("web", etcds.leader()))
        rows = [it for writer in self.writers for it in ("--answers", writer.file)]
        rows += [it for folder in self.archives for it in ("--archive", folder)]
        way = ("--program", find_program()) if table_kind() is Process else ("--library", find_library())
        command = [sys.executable, "-B", PACKAGE / "bin" / "pidtab-replay", *rows, *way, log]
        done = subprocess.run(command, env=environment(), capture_output=True, text=True, check=False)
        self.assertEqual((done.returncode, done.stderr), (0, ""), done.stdout)
        longest = f"longest wait {self.longest_wait():.1f} s"
        print(f"\n{self.id().split('.')[-1]}:", *done.stdout.splitlines(), longest, sep="\n    ", file=sys.stderr)
        return done.stdout


    def longest_wait(self) -> float:
        """How long the slowest answer took, in seconds."""
        rows = [row.split("\t") for it in self.writers for row in it.file.read_text("utf-8", "surrogateescape").splitlines() if row.count("\t") == 4]
        return max((int(row[4]) - int(row[3])) / 1e9 for row in rows)


class Crashes(Cluster):
    """What goes on through crashes."""

    def test_a_leader_and_a_host_are_killed(self) -> None:
        etcds = self.start()
        one, two, three = (self.writer(etcds) for _ in range(3))
        time.sleep(2)
        leader = etcds.leader()
        etcds.kill(leader)
        time.sleep(2)
        two.send(signal.SIGKILL)
        time.sleep(1)
        again = self.writer(etcds, seconds=6)
        etcds.start(leader)
        self.compare(etcds, one, three, again)
        self.assertRegex(two.file.read_text("utf-8", "surrogateescape"), r"(?m)^\d+ \d+ \d+\t.*\t.*\t\d+\t\d+$")

    def test_a_majority_is_lost_and_a_host_stops(self) -> None:
        etcds = self.start()
        one, two, three = (self.writer(etcds, batch=3) for _ in range(3))
        time.sleep(2)
        three.send(signal.SIGSTOP)
        time.sleep(1)
        for place in (0, 1):
            etcds.kill(place)
        time.sleep(4)
        for place in (0, 1):
            etcds.start(place)
        time.sleep(2)
        three.send(signal.SIGCONT)
        self.compare(etcds, one, two, three)

    def test_a_compaction_while_a_host_stops(self) -> None:
        etcds = self.start()
        one, two, three = (self.writer(etcds, batch=8) for _ in range(3))
        time.sleep(2)
        two.send(signal.SIGSTOP)
        time.sleep(2)
        # Its watches are cut off with the members, so it has to begin behind what is no more.
        for place in range(3):
            etcds.kill(place)
            etcds.start(place)
            etcds.wait_until_ready()
        etcds.compact()
        time.sleep(2)
        etcds.compact()
        three.send(signal.SIGKILL)
        two.send(signal.SIGCONT)
        late = self.writer(etcds, batch=8, seconds=3)
        etcds.compact()
        self.compare(etcds, one, two, late)

    def test_a_member_that_hangs(self) -> None:
        etcds = self.start()
        one, two = (self.writer(etcds) for _ in range(2))
        time.sleep(2)
        leader = etcds.leader()
        etcds.freeze(leader)
        time.sleep(7)
        etcds.thaw(leader)
        self.compare(etcds, one, two)

    def test_a_late_host(self) -> None:
        etcds = self.start()
        calls = 1_000_000
        one = self.writer(etcds, threads=8, batch=500, calls=calls, seconds=240)
        one.read("done")
        late = self.writer(etcds, calls=0)
        print(f"\na late host has {calls} calls after {self.opened[1]} seconds", file=sys.stderr)
        one.go()
        late.read("done")
        late.go()
        self.assertEqual(one.read("at")[1:], late.read("at")[1:])
        said = self.replay(etcds)
        self.assertRegex(said, rf"log: \d+ entries, {calls} calls")
        self.assertIn(f"answers {calls}: 0 lost, 0 wrong, 0 doubled; 0 calls have none\n", said)


class Losses(Cluster):
    """What hosts do without a member of three, and where they are cut off from the others."""

    def test_a_member_is_lost_for_good(self) -> None:
        etcds = self.start()
        # Each names another member first. So whichever is lost, one host asks it, and one watches there.
        hosts = [self.open([*etcds.members[first:], *etcds.members[:first]]) for first in range(3)]
        for lost in range(3):
            etcds.kill(lost)
            etcds.leader()
            end = time.monotonic() + SOON
            asked = [it.submit(["fork 1"]) for it in hosts]
            answers = [it.result(max(0.0, end - time.monotonic()))[0] for it in asked]
            self.assertCountEqual(answers, [f"child {it} root {it}" for it in range(3 * lost + 2, 3 * lost + 5)])
            etcds.start(lost)
            etcds.wait_until_ready()

    def count(self, table: Replicated) -> int:
        """How many tasks a read finds that is not behind the log."""
        table.catch_up()
        return len(table.list().tasks)

    def test_a_read_on_a_host_that_is_cut_off(self) -> None:
        # For so many milliseconds, and then as many more at most, a member that is cut off takes itself for one that has a leader.
        etcds = self.start("--election-timeout=4000", relayed=True)
        lone = (etcds.leader() + 1) % 3
        others = [it for it in etcds.members if it != etcds.members[lone]]
        # From the other members this host is cut off too.
        relays = [Relay(int(it.partition(":")[2])) for it in others]
        for it in relays:
            self.addCleanup(it.close)
        far = self.open([etcds.members[lone], *(f"{HOST}:{it.port}" for it in relays)], patience=3, timeout=1, sync=False)
        near = self.open(others)
        self.assertEqual((near.fork(1).root, self.count(far)), (2, 2))
        etcds.cut_off(lone)
        for it in relays:
            it.cut()
        self.assertEqual(near.fork(1).root, 3)
        # Its member does not know of that call, and must not be believed.
        with self.assertRaisesRegex(NotKnown, "no call was made"):
            self.count(far)
        self.assertEqual(self.count(near), 3)
        etcds.join()
        for it in relays:
            it.join()
        self.assertEqual(self.insist(lambda: self.count(far)), 3)


class Refusals(Cluster):
    """What etcd refuses, and what was done to a log."""

    def wait_for_fault(self, table: Replicated, words: str) -> None:
        """Waits until a replica has stopped, and sees why."""
        end = time.monotonic() + LONGEST
        while "closed" not in repr(table):
            self.assertLess(time.monotonic(), end)
            time.sleep(0.05)
        with self.assertRaisesRegex(LogFault, words):
            table.fork(1)

    def keys(self, etcds: Etcds) -> list[str]:
        """The keys of the log's entries, in the order of these."""
        told = etcds.ask("/v3/kv/range", {"key": text64("web:"), "range_end": text64("web:~"), "sort_target": "CREATE", "sort_order": "ASCEND"})
        return [it["key"] for it in told["kvs"]]

    def test_a_log_that_was_changed(self) -> None:
        etcds = self.start(count=1)
        table = self.open(etcds.members)
        table.fork(1)
        etcds.ask("/v3/kv/put", {"key": self.keys(etcds)[-1], "value": text64("hello")})
        self.wait_for_fault(table, "the entry at revision 4 was overwritten")
        with self.assertRaisesRegex(LogFault, "the entry at revision 4 was overwritten"):
            self.open(etcds.members)

    def test_a_log_that_was_trimmed(self) -> None:
        etcds = self.start(count=1)
        table = self.open(etcds.members)
        for _ in range(5):
            table.fork(1)
        etcds.ask("/v3/kv/deleterange", {"key": self.keys(etcds)[3]})
        self.wait_for_fault(table, "an entry of the log web was deleted")
        # The first revision is 2, that of the settings, and a session is opened by the next.
        with self.assertRaisesRegex(LogFault, "the writer of entry 6 had an entry 5, which the log has no more"):
            self.open(etcds.members)
        etcds.ask("/v3/kv/deleterange", {"key": self.keys(etcds)[0]})
        with self.assertRaisesRegex(LogFault, "the log does not begin with its settings: it was trimmed"):
            self.open(etcds.members)

    def test_a_key_that_is_none_of_an_entry(self) -> None:
        etcds = self.start(count=1)
        etcds.ask("/v3/kv/put", {"key": text64("web:hello"), "value": text64("hello")})
        with self.assertRaisesRegex(LogFault, "the log web has a key that is none of an entry: b'hello'"):
            self.open(etcds.members)
        # Of another log it is none.
        log = EtcdLog(etcds.members, "we")
        with Replicated(log, table=table_kind()) as table:
            self.assertEqual(table.fork(1).root, 2)

    def test_members_of_two_clusters(self) -> None:
        etcds = self.start(count=1)
        (self.folder / "other").mkdir()
        others = Etcds(self.folder / "other", 1)
        self.addCleanup(others.stop)
        log = EtcdLog([*etcds.members, *others.members], "web")
        with self.assertRaisesRegex(LogFault, "the members are not those of one etcd cluster"):
            Replicated(log, table=table_kind())

    def test_another_pid_max(self) -> None:
        etcds = self.start(count=1)
        self.open(etcds.members)
        with self.assertRaisesRegex(LogFault, "the log has form 2, pid_max 32768 and model 1, and this replica form 2, pid_max 400 and model 1"):
            Replicated(EtcdLog(etcds.members, "web"), pid_max=400, table=table_kind())

    def test_no_space(self) -> None:
        etcds = self.start("--quota-backend-bytes=4194304", count=1)
        table = self.open(etcds.members, patience=3)
        with self.assertRaisesRegex(NotKnown, "has not answered for 3 seconds .*etcdserver: mvcc: database space exceeded"):
            for _ in range(2000):
                table.answers(["x" * 200] * 2000)
        # It reads what there is, which takes no space.
        table.catch_up()
        # Where there is room again, it goes on: here by a greater quota.
        etcds.stop()
        etcds._words = ("--quota-backend-bytes=100000000",)
        etcds.start(0)
        etcds.wait_until_ready()
        for alarm in etcds.ask("/v3/maintenance/alarm", {"action": "GET"})["alarms"]:
            etcds.ask("/v3/maintenance/alarm", {"action": "DEACTIVATE", **alarm})
        self.assertEqual(self.insist(lambda: table.fork(1).root), 2)
        table.close()

    def test_queries_that_are_not_behind(self) -> None:
        need_library()
        etcds = self.start()
        one, two = (Replicated(EtcdLog(etcds.members, "web"), table=Table) for _ in range(2))
        self.addCleanup(two.close)
        self.addCleanup(one.close)
        for number in range(2, 60):
            self.assertEqual(one.fork(1).root, number)
            self.assertEqual(two.ask(now=True).getpid(number), number)
            # Others write to etcd too, so its revision alone does not say how far the log is.
            etcds.ask("/v3/kv/put", {"key": text64("other"), "value": text64(str(number))})
            self.assertEqual(two.ask(now=True).count(), number)
            self.assertEqual(two.ask(now=True).stat(number).numbers, (number,))
            self.assertEqual(two.ask(now=True).children(1, start=number), (number,))
            self.assertEqual(two.ask(now=True).space(0).init, 1)
        self.assertEqual(one.mk(), 59)
        self.assertNotIn("kvs", etcds.ask("/v3/kv/range", {"key": text64("web:~mark")}))


class Walks(Cluster):
    """A follower gets each entry once and in order, wherever it begins and however long etcd's history is."""

    def walk(self, log: EtcdLog, after: int, last: int) -> list[tuple[int, bytes]]:
        """The entries behind a position, up to one; none is above the position to which a progress says that all have come."""
        found: list[tuple[int, bytes]] = []
        following = log.follow(after)
        try:
            while not found or found[-1][0] < last:
                progress = next(following)
                self.assertLessEqual([it for it in progress.entries if it[0] > progress.position], [])
                found += progress.entries
                if progress.position >= last:
                    break
            return found
        finally:
            following.close()

    def wait_for_answer(self, log: EtcdLog) -> None:
        """Waits until a member answers at a connection that is good."""
        end = time.monotonic() + LONGEST
        while time.monotonic() < end:
            with suppress(OSError):
                log.end()
                return
            time.sleep(0.05)

    def fill(self, log: EtcdLog, count: int) -> list[tuple[int, bytes]]:
        """Entries of which some come late: their keys have revisions of long ago."""
        entries = []
        self.wait_for_answer(log)
        for number in range(count):
            if number > 5:
                # A host that has read the one before, or one of long ago.
                self.read_up_to(log, entries[number % 5 if number % 3 == 0 else -1][0])
            entries.append((log.append(b"entry %d" % number), b"entry %d" % number))
        return entries

    def read_up_to(self, log: EtcdLog, position: int) -> None:
        """Has a log have read no later entry than one."""
        log.guard.newest = None
        for page in read_keys(log.guard.etcd, log.prefix, log.prefix + b"~", 1000):
            for it in page:
                if it.revision == position:
                    key = it.name[len(log.prefix) :]
                    log.guard.newest = Newest(position, key, int(key[:16], 16))

    def test_each_beginning(self) -> None:
        etcds = self.start(count=1)
        log = EtcdLog(etcds.members, "web")
        entries = self.fill(log, 60)
        log.mark()
        last = entries[-1][0]
        for is_compacted in (False, True):
            for most in (1, 7, 1000):
                with mock.patch("pidtab.hosts.etcd_log.FIRST_PAGE", most), mock.patch("pidtab.hosts.etcd_log.LONGEST_PAGE", most):
                    for begin in (0, 1, 30, 59):
                        after = entries[begin][0] if begin else 0
                        wanted = [it for it in entries if it[0] > after]
                        self.assertEqual(self.walk(log, after, last), wanted, (is_compacted, most, begin))
            etcds.compact()

    def test_what_comes_while_it_walks(self) -> None:
        etcds = self.start()
        log = EtcdLog(etcds.members, "web")
        entries = self.fill(log, 10)
        following = log.follow(0)
        self.addCleanup(following.close)
        found = list(next(following).entries)
        for member in (0, 1, 2):
            etcds.kill(member)
            etcds.start(member)
            etcds.wait_until_ready()
            entries += self.fill(log, 10)
            etcds.compact()
            while not found or found[-1][0] < entries[-1][0]:
                try:
                    found += next(following).entries
                except OSError:
                    following.close()
                    following = log.follow(found[-1][0])
        self.assertEqual(found, entries)

    def test_a_follower_that_is_closed(self) -> None:
        etcds = self.start(count=1)
        log = EtcdLog(etcds.members, "web")
        following = log.follow(0)
        next(following)
        threading.Timer(0.3, following.close).start()
        begun = time.monotonic()
        with suppress(OSError):
            self.assertEqual(list(following), [])
        self.assertLess(time.monotonic() - begun, 3)


def add_users(etcds: Etcds) -> None:
    """Has members ask for users, of whom one may use the log `web`, as docs/CLUSTER.md has it, and another may read it."""
    log = {"key": text64("web:"), "range_end": text64("web;")}
    for name, password, kind in (("web", "word", "READWRITE"), ("reader", "read", "READ")):
        for path, body in [
            ("/v3/auth/user/add", {"name": name, "password": password}), ("/v3/auth/role/add", {"name": name}),
            ("/v3/auth/user/grant", {"user": name, "role": name}),
            ("/v3/auth/role/grant", {"name": name, "perm": {"permType": kind, **log}}),
        ]:  # fmt: skip
            etcds.ask(path, body)
    for path, body in [
        ("/v3/auth/user/add", {"name": "root", "password": "secret"}), ("/v3/auth/role/add", {"name": "root"}),
        ("/v3/auth/user/grant", {"user": "root", "role": "root"}), ("/v3/auth/enable", {}),
    ]:  # fmt: skip
        etcds.ask(path, body)


def start_with_tls(folder: Path) -> tuple[Etcds, ssl.SSLContext, Path]:
    """A member that speaks TLS, what its clients need for that, and its certificate."""
    openssl = need_tool("openssl")
    key, certificate = folder / "key.pem", folder / "certificate.pem"
    words = ["req", "-x509", "-newkey", "rsa:2048", "-nodes", "-days", "1", "-subj", "/CN=127.0.0.1", "-addext", "subjectAltName=IP:127.0.0.1"]
    subprocess.run([openssl, *words, "-keyout", key, "-out", certificate], capture_output=True, check=True)
    tls = ssl.create_default_context(cafile=str(certificate))
    return Etcds(folder, 1, f"--cert-file={certificate}", f"--key-file={key}", scheme="https", tls=tls), tls, certificate


class Secrets(Cluster):
    """Users and TLS."""

    def test_a_user(self) -> None:
        etcds = self.start(count=1)
        add_users(etcds)
        with Replicated(EtcdLog(etcds.members, "web", user=("web", "word")), table=table_kind()) as table:
            self.assertEqual(table.fork(1).root, 2)
            table.catch_up()
        for name, user, words in [
            ("web", None, "etcd refuses: etcdserver: user name is empty"), ("web", ("web", "wrong"), "etcd refuses: .*authentication failed"),
            ("other", ("web", "word"), "etcd refuses: etcdserver: permission denied"),
        ]:  # fmt: skip
            with self.subTest(words), self.assertRaisesRegex(LogFault, words):
                Replicated(EtcdLog(etcds.members, name, user=user), table=table_kind(), patience=10)

    def test_tls(self) -> None:
        etcds, tls, _ = start_with_tls(self.folder)
        self.addCleanup(etcds.stop)
        members = [f"https://{it}" for it in etcds.members]
        with Replicated(EtcdLog(members, "web", tls=tls), table=table_kind()) as table:
            self.assertEqual([table.fork(1).root for _ in range(3)], [2, 3, 4])
            table.catch_up()
        with self.assertRaisesRegex(LogFault, "the log was not opened: .*CERTIFICATE_VERIFY_FAILED"):
            Replicated(EtcdLog(members, "web", tls=ssl.create_default_context()), table=table_kind(), patience=0.5)
        with self.assertRaisesRegex(LogFault, "the log was not opened: .*"):
            Replicated(EtcdLog(etcds.members, "web"), table=table_kind(), patience=0.5)

    def test_a_user_where_there_are_none(self) -> None:
        etcds = self.start(count=1)
        with Replicated(EtcdLog(etcds.members, "web", user=("web", "word")), table=table_kind()) as table:
            self.assertEqual(table.fork(1).root, 2)


class Examples(Cluster):
    """What the pages print."""

    def test_the_page(self) -> None:
        need_library()
        text = section(read_page("docs/CLUSTER.md"), "## An example")
        (code,), (command,), (printed,) = (fenced(text, kind) for kind in ("python", "sh", "text"))
        etcds = self.start(count=1)
        (self.folder / "host.py").write_text(code)
        self.assertIn("127.0.0.1:2379", command)
        said = run(["sh", "-c", command.replace("127.0.0.1:2379", etcds.members[0])], self.folder, PYTHONPATH=PACKAGE)
        self.assertEqual(said, printed)

    def test_the_manual_page(self) -> None:
        (shown,) = displays(read_page("man/pidtab-replay.1"))
        command, _, printed = shown.replace("\\\n", "").partition("\n")
        etcds = self.start(count=1)
        log = EtcdLog(etcds.members, "web")
        with Replicated(log, table=table_kind()) as one, Replicated(log, table=table_kind()) as two:
            for table, name, lines in ((one, "one", ["fork 1 new"]), (two, "two", ["fork 2", "getpid 9"])):
                asked = table.submit(lines)
                asked.result()
                (self.folder / name).write_text("".join(asked.rows()))
            (self.folder / "log").write_bytes(etcds.dump("web"))
        # etcdctl need not be there: what it would write is in a file.
        fed = command.removeprefix("$ ").replace("etcdctl get --prefix web: -w json", "cat log").replace("pidtab-replay", str(PACKAGE / "bin" / "pidtab-replay"))
        self.assertEqual(run(["sh", "-c", fed], self.folder), printed)

    @unittest.skipUnless(shutil.which("etcdctl"), "no etcdctl on PATH (Debian: etcd-client)")
    def test_etcdctl_writes_the_same(self) -> None:
        etcds = self.start(count=1)
        with Replicated(EtcdLog(etcds.members, "web"), table=table_kind()) as table:
            table.answers(["fork 1 new", "mk 0"])
            table.catch_up()
        command = ["etcdctl", "--endpoints", etcds.members[0], "get", "--prefix", "web:", "-w", "json"]
        self.assertEqual(read_log(run(command, self.folder, ETCDCTL_API="3").encode()), read_log(etcds.dump("web")))


if __name__ == "__main__":
    unittest.main()
