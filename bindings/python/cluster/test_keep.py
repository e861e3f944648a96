"""Snapshots with etcd and the real table: each case of `tests.test_snapshots`, the program `pidtab-keep`, and a log that is cut while much is killed."""

import signal
import subprocess
import sys
import tempfile
import time
import unittest
from collections.abc import Sequence
from pathlib import Path

from cluster.etcds import LONGEST, Etcds, need_etcd
from cluster.load import Load
from cluster.test_etcd import PACKAGE, Cluster, add_users, environment, start_with_tls
from pidtab import EtcdLog, MemoryLog, Replicated, Table
from pidtab.hosts.etcd import JSON, Etcd
from pidtab.hosts.log_entries import Settings, write_settings
from pidtab.hosts.snapshots import read_served
from tests import test_snapshots as cases
from tests.keeping import Keeping
from tests.memory_etcd import nothing
from tests.ways import need_library

PROGRAM = PACKAGE / "bin" / "pidtab-keep"

# No step of a keeper takes longer to end behind a signal, in seconds: that is one answer of a member, and what is around it.
SOON = 8.0


class Hooked(Etcd):
    """The calls of one host on members. What is called `before` a call, or `behind` it, may do something or raise."""

    before = behind = staticmethod(nothing)

    def _ask(self, path: str, body: JSON) -> JSON:
        self.before(path, body)
        told = super()._ask(path, body)
        self.behind(path, body)
        return told


class ByEtcd(Keeping):
    """By a member of etcd, and tables by the library."""

    table = Table
    logs = 0
    etcds: Etcds

    @classmethod
    def setUpClass(cls) -> None:
        need_etcd()
        need_library()
        folder = tempfile.TemporaryDirectory(prefix="pidtab-keep-")
        cls.addClassCleanup(folder.cleanup)
        cls.etcds = Etcds(Path(folder.name), 1)
        cls.addClassCleanup(cls.etcds.stop)

    def begin(self) -> None:
        ByEtcd.logs += 1
        self.name = f"log {ByEtcd.logs}"

    def make_log(self, kind: type[EtcdLog] = EtcdLog) -> EtcdLog:
        log = kind(self.etcds.members, self.name)
        log._begin(Hooked(log._etcd.members, None, None, 5.0), self.name)
        return log

    def compact(self) -> None:
        self.etcds.compact()


class CutsByEtcd(ByEtcd, cases.Cuts):
    """What is cut."""


class WalksByEtcd(ByEtcd, cases.Walks):
    """A cut amid a walk."""


class CrashesByEtcd(ByEtcd, cases.Crashes):
    """Crashes of a keeper."""


class TwoByEtcd(ByEtcd, cases.Two):
    """Two keepers."""


class LossesByEtcd(ByEtcd, cases.Losses):
    """Lost pieces."""


class StillByEtcd(ByEtcd, cases.Still):
    """A host that stood still."""


class TimesByEtcd(ByEtcd, cases.Times):
    """When there is a snapshot."""


class Restored(unittest.TestCase):
    """Tables by the library."""

    def test_a_snapshot_of_what_a_snapshot_makes_is_the_same(self) -> None:
        need_library()
        for seed in range(8):
            log = MemoryLog(seed)
            hosts = [Replicated(log, patience=LONGEST) for _ in range(2)]
            for host in hosts:
                self.addCleanup(host.close)
            for place, load in enumerate([Load((seed, it)) for it in range(12)] * 2):
                lines = load.lines(6)
                load.take(lines, hosts[place % 2].answers(lines))
            with self.subTest(f"seed {seed}"):
                cases.check_restored(self, log, Table)


class Programs(Cluster):
    """`pidtab-keep` as it is started."""

    def keep(self, members: Sequence[str], *words: str | Path) -> "subprocess.Popen[str]":
        """Starts a keeper."""
        command: list[str | Path] = [sys.executable, "-B", PROGRAM, *words, "web", *members]
        keeper = subprocess.Popen(command, env=environment(), stdout=subprocess.PIPE, stderr=subprocess.PIPE, text=True)
        self.addCleanup(self.end, keeper)
        return keeper

    def end(self, keeper: "subprocess.Popen[str]") -> None:
        """Kills it, where it has not ended."""
        keeper.kill()
        keeper.communicate()

    def stop(self, keeper: "subprocess.Popen[str]", number: signal.Signals = signal.SIGTERM) -> tuple[int, str, str]:
        """Ends it by a signal, which it does soon: its status and what it has said."""
        begun = time.monotonic()
        keeper.send_signal(number)
        said, fault = keeper.communicate(timeout=LONGEST)
        self.assertLess(time.monotonic() - begun, SOON)
        return keeper.returncode, said, fault

    def test_it_writes_and_ends(self) -> None:
        need_library()
        etcds = self.start(count=1)
        archive = self.folder / "archive"
        archive.mkdir()
        table = self.open(etcds.members)
        keeper = self.keep(etcds.members, "--alone", "--bytes", "0.02", "--archive", archive)
        assert keeper.stdout
        self.assertRegex(keeper.stdout.readline(), r"^pidtab-keep: open at position \d+\n$")
        while len(list(archive.glob("*.json"))) < 2:
            table.answers(["fork 1", "exit 2 0", "wait 1 any"] * 20)
        for number, status in ((signal.SIGTERM, 0), (signal.SIGINT, 130)):
            done, said, fault = self.stop(keeper, number)
            self.assertEqual((done, fault), (status, ""))
            keeper = self.keep(etcds.members, "--alone")
            assert keeper.stdout
            keeper.stdout.readline()
        self.assertEqual(self.stop(keeper)[0], 0)
        self.archives = [archive]
        said = self.replay_alone(etcds)
        self.assertIn(f"digest {table.digest}\n", said)
        self.assertIn("writers with another digest: 0\n", said)

    def positions(self, table: Replicated) -> set[int]:
        """The positions of the entries that are left."""
        assert isinstance(table.log, EtcdLog)
        return {position for page in table.log.entries_to(table.position) for position, _ in page}

    def replay_alone(self, etcds: Etcds) -> str:
        """What `pidtab-replay` says of the log and its archives."""
        log = self.folder / "log.json"
        log.write_bytes(etcds.dump("web"))
        folders: list[str | Path] = [it for folder in self.archives for it in ("--archive", folder)]
        command: list[str | Path] = [sys.executable, "-B", PACKAGE / "bin" / "pidtab-replay", *folders, log]
        return str(subprocess.run(command, env=environment(), capture_output=True, text=True, check=True).stdout)

    def test_a_user_and_tls(self) -> None:
        need_library()
        etcds, tls, certificate = start_with_tls(self.folder)
        self.addCleanup(etcds.stop)
        add_users(etcds)
        members = [f"https://{it}" for it in etcds.members]
        password = self.folder / "password"
        password.write_text("word\n")
        table = Replicated(EtcdLog(members, "web", tls=tls, user=("web", "word")))
        self.addCleanup(table.close)
        words = ("--alone", "--bytes", "0.02", "--user", "web", "--password", password, "--ca", certificate)
        keeper = self.keep(members, *words)
        first = table.position
        while first in self.positions(table):
            table.answers(["fork 1", "exit 2 0", "wait 1 any"] * 20)
        status, said, fault = self.stop(keeper)
        self.assertEqual((status, fault), (0, ""))
        self.assertRegex(said, "[1-9][0-9]* entries up to position [0-9]+ are cut")
        password.write_text("wrong\n")
        keeper = self.keep(members, *words)
        self.assertRegex(keeper.communicate(timeout=LONGEST)[1], "^pidtab-keep: stopped: etcd refuses: .*authentication failed")

    def test_it_says_what_stops_it(self) -> None:
        need_library()
        etcds = self.start(count=1)
        EtcdLog(etcds.members, "web").append(write_settings(Settings(1, 32768, 1)))
        keeper = self.keep(etcds.members)
        said, fault = keeper.communicate(timeout=LONGEST)
        self.assertEqual((keeper.returncode, said), (1, ""))
        self.assertEqual(fault, "pidtab-keep: stopped: the log has form 1, and goes on without snapshots: begin a log of another name with its table, by --salvage and --begin\n")

    def test_an_etcd_that_does_not_answer(self) -> None:
        need_library()
        keeper = self.keep(["127.0.0.1:1"])
        assert keeper.stdout
        self.assertRegex(keeper.stdout.readline(), "^pidtab-keep: the log does not answer, and is asked again: 127.0.0.1:1: .*refused")
        self.assertEqual(self.stop(keeper)[0::2], (0, ""))

    def test_wrong_words(self) -> None:
        need_library()
        wrong: list[tuple[tuple[str | Path, ...], str]] = [
            (("--archive", self.folder / "none"), f"pidtab-keep: no folder {self.folder / 'none'} for an archive\n"),
            (("--alone", "--check"), "not allowed with argument"),
            (("--bytes", "0"), "a number above 0, not 0"),
            (("--user", "web"), "--user and --password go together"),
            (("--key", "file"), "--certificate and --key go together, with --ca"),
            (("--ca", "/no/ca"), "pidtab-keep: cannot read /no/ca: No such file"),
            (("--library", "/no/library"), "pidtab-keep: no table: no library /no/library"),
            (("--user", "web", "--password", "/no/file"), "cannot read /no/file: No such file"),
        ]
        for words, said in wrong:
            with self.subTest(words):
                keeper = self.keep(["127.0.0.1:1"], *words)
                _, fault = keeper.communicate(timeout=LONGEST)
                self.assertEqual(keeper.returncode, 2)
                self.assertIn(said, fault)
        keeper = self.keep(["nowhere"])
        self.assertIn("pidtab-keep: a member is HOST:PORT, not 'nowhere'", keeper.communicate(timeout=LONGEST)[1])

    def test_the_log_is_cut_while_much_is_killed(self) -> None:
        need_library()
        etcds = self.start()
        folders = [self.folder / f"archive{it}" for it in range(2)]
        for folder in folders:
            folder.mkdir()
        self.archives = folders
        one, two, three = (self.writer(etcds, batch=3, seconds=20) for _ in range(3))
        keepers = [self.keep(etcds.members, "--bytes", "0.1", "--archive", it) for it in folders]
        leader = etcds.leader()
        for turn in range(8):
            time.sleep(2.5)
            if turn == 2:
                etcds.kill(leader)
            if turn == 4:
                etcds.start(leader)
                etcds.wait_until_ready()
            if turn == 6:
                two.send(signal.SIGKILL)
            if turn in (1, 5, 7):
                etcds.compact()
            keepers[turn % 2].kill()
            keepers[turn % 2].communicate()
            keepers[turn % 2] = self.keep(etcds.members, "--bytes", "0.1", "--archive", folders[turn % 2])
        late = self.writer(etcds, batch=3, seconds=1)
        said = self.compare(etcds, one, three, late)
        for keeper in keepers:
            self.assertEqual(self.stop(keeper)[0], 0)
        self.assertRegex(said, "log: [0-9]+ entries")
        served = read_served(EtcdLog(etcds.members, "web").cells())
        self.assertEqual(len(served.all), 2)
        self.assertGreater(len([it for folder in folders for it in folder.glob("*.json")]), 0)


if __name__ == "__main__":
    unittest.main()
