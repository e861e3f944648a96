"""Hosts in Go and hosts in Python of one table, of which some are killed, stopped or late: no answered call is lost, wrong or doubled."""

import os
import signal
import subprocess
import sys
import time
import unittest
from collections.abc import Sequence
from pathlib import Path
from unittest import mock

from cluster.etcds import LONGEST, Etcds, text64
from cluster.test_etcd import PACKAGE, Cluster, Writer, environment
from tests.ways import need_library

# The host of `bindings/go/cluster/internal/writer`, which `make bindings-go-cluster` builds.
WRITER = os.environ.get("PIDTAB_GO_WRITER", "")


class GoWriter(Writer):
    """A host in Go."""

    program: Sequence[str] = (WRITER,)


class Hosts(Cluster):
    """Hosts of both languages."""

    def setUp(self) -> None:
        if not WRITER:
            raise unittest.SkipTest("no host in Go: `make bindings-go-cluster` builds one, and runs this")
        need_library()
        super().setUp()

    def pairs(self, etcds: Etcds, count: int = 2, **wishes: int) -> list[Writer]:
        """Some hosts of each language, those in Go first."""
        return [self.writer(etcds, kind, **wishes) for kind in (GoWriter, Writer) for _ in range(count)]

    def answered(self, writer: Writer) -> int:
        """How many rows a host has written."""
        return writer.file.read_bytes().count(b"\n")

    def test_both_make_the_same_table(self) -> None:
        etcds = self.start(count=1)
        go, python = self.pairs(etcds, 1, calls=2000)
        self.compare(etcds, go, python)

    def test_a_host_of_each_is_killed(self) -> None:
        etcds = self.start()
        go, killed_go, python, killed_python = self.pairs(etcds)
        time.sleep(3)
        for it in (killed_go, killed_python):
            it.send(signal.SIGKILL)
        time.sleep(2)
        late_go, late_python = self.pairs(etcds, 1, seconds=5)
        self.compare(etcds, go, python, late_go, late_python)
        for it in (killed_go, killed_python):
            self.assertGreater(self.answered(it), 0)

    def test_a_leader_is_killed(self) -> None:
        etcds = self.start()
        go, other, python = (self.writer(etcds, kind) for kind in (GoWriter, GoWriter, Writer))
        time.sleep(3)
        leader = etcds.leader()
        etcds.kill(leader)
        time.sleep(3)
        etcds.start(leader)
        self.compare(etcds, go, other, python)

    def test_a_leader_hangs(self) -> None:
        etcds = self.start()
        go, python = self.pairs(etcds, 1)
        time.sleep(2)
        leader = etcds.leader()
        etcds.freeze(leader)
        time.sleep(7)
        etcds.thaw(leader)
        self.compare(etcds, go, python)

    def test_a_majority_is_lost_and_a_host_stops(self) -> None:
        etcds = self.start()
        go, stopped, python = (self.writer(etcds, kind, batch=3) for kind in (GoWriter, GoWriter, Writer))
        time.sleep(2)
        stopped.send(signal.SIGSTOP)
        for place in (0, 1):
            etcds.kill(place)
        time.sleep(4)
        for place in (0, 1):
            etcds.start(place)
        etcds.wait_until_ready()
        etcds.compact()
        time.sleep(2)
        stopped.send(signal.SIGCONT)
        self.compare(etcds, go, stopped, python)

    def keep(self, etcds: Etcds, archive: Path) -> "subprocess.Popen[bytes]":
        """Starts a keeper, of which another host has to agree with each snapshot."""
        archive.mkdir()
        self.archives.append(archive)
        words = ["--bytes", "0.02", "--times", "1", "--archive", str(archive), "web", *etcds.members]
        keeper = subprocess.Popen([sys.executable, "-B", str(PACKAGE / "bin" / "pidtab-keep"), *words], env=environment(), stdout=subprocess.PIPE)
        self.addCleanup(keeper.communicate)
        self.addCleanup(keeper.kill)
        return keeper

    def test_the_log_is_cut(self) -> None:
        etcds = self.start()
        go, python = self.pairs(etcds, 1, batch=3, seconds=20)
        keepers = [self.keep(etcds, self.folder / f"archive{it}") for it in range(2)]
        first = self.first_left(etcds)
        end = time.monotonic() + LONGEST
        while self.first_left(etcds) == first and time.monotonic() < end:
            time.sleep(0.2)
        # What the log begins with is no more: so a late host begins with a snapshot, which hosts in Python have written.
        self.assertGreater(self.first_left(etcds), first)
        etcds.compact()
        late = self.writer(etcds, GoWriter, batch=3, seconds=2)
        for it in keepers:
            it.send_signal(signal.SIGTERM)
        self.compare(etcds, go, python, late)

    def test_the_log_is_cut_while_a_host_stands_still(self) -> None:
        etcds = self.start()
        with mock.patch.dict(os.environ, PIDTAB_GOES_ON="1"):
            still = self.writer(etcds, GoWriter, batch=3, seconds=25)
        go, python = self.pairs(etcds, 1, batch=3, seconds=20)
        time.sleep(1)
        still.send(signal.SIGSTOP)
        keepers = [self.keep(etcds, self.folder / f"archive{it}") for it in range(2)]
        end, revision = time.monotonic() + LONGEST, int(etcds.ask("/v3/kv/range", {"key": text64("none")})["header"]["revision"])
        # What it has not read is no more, and neither is the history of that.
        while self.first_left(etcds) <= revision and time.monotonic() < end:
            time.sleep(0.2)
        self.assertGreater(self.first_left(etcds), revision)
        etcds.compact()
        still.send(signal.SIGCONT)
        for it in keepers:
            it.send_signal(signal.SIGTERM)
        self.compare(etcds, go, python, still)

    def first_left(self, etcds: Etcds) -> int:
        """The revision of the oldest entry that is left."""
        told = etcds.ask("/v3/kv/range", {"key": text64("web:"), "range_end": text64("web:~"), "keys_only": True})
        return min(int(it["create_revision"]) for it in told["kvs"])


if __name__ == "__main__":
    unittest.main()
