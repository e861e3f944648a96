"""The parts of the harness do the harm that they say: the switch, the disks and the clocks; and a run leaves nothing behind, however it ends."""

import json
import os
import shutil
import signal
import socket
import subprocess
import sys
import tempfile
import time
import unittest
from collections.abc import Callable
from pathlib import Path
from typing import Any

from chaos import clocks
from chaos.disks import Disk
from chaos.kernel import new_network
from chaos.network import CUT, WELL, Network, Rule, address_of, in_thread
from cluster.etcds import free_ports
from cluster.relay import HOST

PACKAGE = Path(__file__).resolve().parents[1]
SOURCE = Path(__file__).resolve().parent / "switch.c"
PORT = 999

# Longer than any of these tests waits for a process, in seconds.
LONGEST = 30.0


def need_machine(*tools: str) -> None:
    """Skips what needs root, devices or a tool, where they are not there."""
    if os.geteuid():
        raise unittest.SkipTest("no root")
    if not os.path.exists("/dev/net/tun"):
        raise unittest.SkipTest("no TAP devices")
    for it in tools:
        if shutil.which(it) is None:
            raise unittest.SkipTest(f"no {it} on PATH")


def build_switch(folder: Path) -> Path:
    """The switch, built."""
    built = folder / "switch"
    subprocess.run(["cc", "-std=gnu11", "-O2", "-Wall", "-Wextra", "-Werror", "-o", str(built), str(SOURCE)], check=True)
    return built


class Switched(unittest.TestCase):
    """Three places, and datagrams between them."""

    def setUp(self) -> None:
        need_machine("cc", "ip", "nsenter")
        folder = tempfile.TemporaryDirectory(prefix="pidtab-chaos-")
        self.addCleanup(folder.cleanup)
        self.switch = build_switch(Path(folder.name))
        self.network = Network(self.switch, 3)
        self.addCleanup(self.close)
        self.sockets = [self.network.at(place, lambda place=place: self.open(place)) for place in range(3)]  # type: ignore[misc]

    def close(self) -> str:
        """Ends the switch: what it says."""
        said = self.network.close()
        for space in self.network.spaces:
            os.close(space)
        return said

    def open(self, place: int) -> socket.socket:
        """A socket at a place."""
        opened = socket.socket(socket.AF_INET, socket.SOCK_DGRAM)
        self.addCleanup(opened.close)
        opened.bind((address_of(place), PORT))
        opened.settimeout(0.5)
        return opened

    def send(self, one: int, other: int, count: int = 200) -> list[int]:
        """Sends numbered datagrams, and which of them come, in their order."""
        for number in range(count):
            self.sockets[one].sendto(str(number).encode(), (address_of(other), PORT))
            time.sleep(0.0002)
        came = []
        try:
            while True:
                came.append(int(self.sockets[other].recv(100)))
        except TimeoutError:
            return came

    def test_all_come_in_order(self) -> None:
        self.assertEqual(self.send(0, 1), list(range(200)))

    def test_a_cut_is_one_way(self) -> None:
        self.network.set(0, 1, CUT)
        self.assertEqual([len(self.send(*pair, 20)) for pair in ((0, 1), (1, 0), (2, 1), (0, 2))], [0, 20, 20, 20])
        self.network.set(0, 1, WELL)
        self.assertEqual(len(self.send(0, 1, 20)), 20)

    def test_some_are_lost(self) -> None:
        self.network.set(0, 1, Rule(loss=300))
        came = self.send(0, 1)
        self.assertTrue(90 < len(came) < 190, len(came))
        self.assertEqual(came, sorted(set(came)))

    def test_all_are_doubled(self) -> None:
        self.network.set(0, 1, Rule(doubled=1000))
        self.assertEqual(self.send(0, 1, 20), [it for it in range(20) for _ in range(2)])

    def test_all_are_late(self) -> None:
        self.network.set(0, 1, Rule(delay=150_000))
        begun = time.monotonic()
        self.assertEqual(self.send(0, 1, 1), [0])
        # Half a second is that in which nothing more comes.
        self.assertGreater(time.monotonic() - begun, 0.65)

    def test_some_pass_others(self) -> None:
        self.network.set(0, 1, Rule(jitter=50_000))
        came = self.send(0, 1)
        self.assertEqual(sorted(came), list(range(200)))
        self.assertNotEqual(came, sorted(came))

    def test_what_is_none_of_a_place_goes_nowhere(self) -> None:
        self.sockets[0].sendto(b"1", (address_of(0), PORT))
        self.assertEqual(self.sockets[0].recv(100), b"1")
        self.network.at(0, lambda: subprocess.run(["ip", "neigh", "add", address_of(8), "lladdr", "02:00:00:00:00:09", "dev", "tap0"], check=True))
        self.sockets[0].sendto(b"2", (address_of(8), PORT))
        self.assertEqual(self.send(0, 1, 1), [0])

    def test_it_says_what_it_did(self) -> None:
        self.network.set(0, 1, Rule(loss=1000))
        self.send(0, 1, 5)
        self.network.set(0, 1, Rule(delay=1, doubled=1000))
        self.send(0, 1, 5)
        self.assertRegex(self.network.close(), r"^passed \d+ dropped 5 delayed 10 doubled 5$")
        self.network = Network(self.switch, 1)

    def test_a_rule_that_is_none(self) -> None:
        space = in_thread(new_network)
        self.addCleanup(os.close, space)
        command = [str(self.switch), "1", f"/proc/self/fd/{space}"]
        streams: dict[str, Any] = dict.fromkeys(("stdin", "stdout", "stderr"), subprocess.PIPE)
        with subprocess.Popen(command, text=True, pass_fds=[space], **streams) as child:
            _, fault = child.communicate("0 1 0 0 0 0\n", timeout=LONGEST)
        self.assertEqual((child.returncode, fault), (1, "switch: no rule: 0 1 0 0 0 0\n"))


class Disks(unittest.TestCase):
    """A disk that loses power."""

    def setUp(self) -> None:
        need_machine("mkfs.ext4", "mount", "truncate")
        folder = tempfile.TemporaryDirectory(prefix="pidtab-chaos-")
        self.addCleanup(folder.cleanup)
        self.image = Path(folder.name) / "image"
        self.disk = Disk(self.image, Path(folder.name) / "disk")
        self.addCleanup(self.disk.close)

    def write(self, name: str, data: bytes, synced: bool) -> None:
        """Puts bytes behind those of a file."""
        number = os.open(self.disk.folder / name, os.O_WRONLY | os.O_CREAT | os.O_APPEND)
        os.write(number, data)
        if synced:
            os.fsync(number)
        os.close(number)

    def test_what_was_not_synced_is_lost(self) -> None:
        self.write("kept", b"1" * 10_000, True)
        self.write("kept", b"2" * 10_000, False)
        self.write("lost", b"3" * 10_000, False)
        self.disk.lose_power()
        self.assertEqual(sorted(it.name for it in self.disk.folder.iterdir()), ["kept", "lost+found"])
        self.assertEqual((self.disk.folder / "kept").read_bytes(), b"1" * 10_000)

    def test_it_goes_on(self) -> None:
        for turn in range(3):
            self.write("kept", str(turn).encode(), True)
            self.disk.lose_power()
        self.assertEqual((self.disk.folder / "kept").read_text(), "012")


# Says how far the wall clock is ahead of the monotonic one, and the monotonic one, at each line.
CLOCKS = "import sys, time\nfor line in sys.stdin: print(time.time() - time.monotonic(), time.monotonic(), flush=True)"


class Clocks(unittest.TestCase):
    """A clock that jumps."""

    def setUp(self) -> None:
        need_machine()
        if clocks.why_not():
            self.skipTest(clocks.why_not())

    def start(self) -> "subprocess.Popen[str]":
        """A process that says what time it has."""
        child = subprocess.Popen([sys.executable, "-c", CLOCKS], stdin=subprocess.PIPE, stdout=subprocess.PIPE, text=True)
        self.addCleanup(child.communicate)
        self.addCleanup(child.kill)
        self.look(child)
        return child

    def look(self, child: "subprocess.Popen[str]") -> tuple[float, float]:
        """How far its wall clock is ahead, and its monotonic clock."""
        assert child.stdin and child.stdout
        child.stdin.write("\n")
        child.stdin.flush()
        ahead, monotonic = map(float, child.stdout.readline().split())
        return ahead, monotonic

    def test_it_jumps_ahead_and_back(self) -> None:
        child, other = self.start(), self.start()
        true = self.look(child)[0]
        for seconds in (86_400, -31_536_000, 1, 0):
            clocks.jump(child.pid, seconds)
            ahead, monotonic = self.look(child)
            self.assertAlmostEqual(ahead - true, seconds, delta=0.5)
            self.assertAlmostEqual(monotonic, time.monotonic(), delta=0.5)
            self.assertAlmostEqual(self.look(other)[0], true, delta=0.5)

    def test_a_process_that_reads_the_time_without_end(self) -> None:
        code = "import threading, time\ndef run():\n    while True: time.time()\nfor _ in range(3): threading.Thread(target=run).start()"
        child = subprocess.Popen([sys.executable, "-c", code])
        self.addCleanup(child.wait)
        self.addCleanup(child.kill)
        time.sleep(0.3)
        for seconds in range(20):
            clocks.jump(child.pid, seconds)
        self.assertIsNone(child.poll())

    def test_a_member_of_etcd(self) -> None:
        need_machine("etcd")
        with tempfile.TemporaryDirectory(prefix="pidtab-chaos-") as name:
            said = Path(name) / "said"
            with open(said, "wb") as file:
                client, peer = (f"http://{HOST}:{port}" for port in free_ports(2))
                command = ["etcd", "--data-dir", f"{name}/data", "--logger", "zap", "--log-level", "info"]
                command += ["--listen-client-urls", client, "--advertise-client-urls", client, "--listen-peer-urls", peer]
                command += ["--initial-advertise-peer-urls", peer, "--initial-cluster", f"default={peer}"]
                child = subprocess.Popen(command, cwd=name, stdin=subprocess.DEVNULL, stdout=file, stderr=file)
            self.addCleanup(child.wait)
            self.addCleanup(child.kill)
            self.wait_for(lambda: "serving client traffic" in said.read_text())
            clocks.jump(child.pid, 100 * 31_536_000)
            # What it says at its end has the year in which it takes itself to be.
            child.send_signal(signal.SIGTERM)
            self.wait_for(lambda: child.poll() is not None)
            times = [json.loads(line)["ts"][:4] for line in said.read_text().splitlines() if line.startswith("{")]
        self.assertGreater(int(times[-1]) - int(times[0]), 98)

    def wait_for(self, holds: Callable[[], bool]) -> None:
        """Waits for something."""
        end = time.monotonic() + LONGEST
        while not holds():
            self.assertLess(time.monotonic(), end)
            time.sleep(0.05)


# Makes all that a run makes, and says so; the words are the switch, a folder, and how it ends.
ALONE = """\
import subprocess, sys, time
from pathlib import Path
from chaos.disks import Disk
from chaos.kernel import run_alone
from chaos.network import Network

def step():
    network = Network(Path(sys.argv[1]), 2)
    disk = Disk(Path(sys.argv[2]) / "image", Path(sys.argv[2]) / "disk")
    subprocess.Popen(network.command(0, ["sleep", sys.argv[4]]), pass_fds=network.spaces)
    print("ready", flush=True)
    if sys.argv[3] == "fails":
        raise ValueError("it fails")
    time.sleep(0 if sys.argv[3] == "ends" else 600)
    return 7

sys.exit(run_alone(step))
"""

# How long the process sleeps that is looked for: no other one does.
MARK = "98765.4321"


class Leavings(unittest.TestCase):
    """What a run leaves behind."""

    def setUp(self) -> None:
        need_machine("cc", "ip", "nsenter", "mkfs.ext4", "mount")
        folder = tempfile.TemporaryDirectory(prefix="pidtab-chaos-")
        self.addCleanup(folder.cleanup)
        self.folder = Path(folder.name)
        self.switch = build_switch(self.folder)

    def leavings(self) -> list[str]:
        """Processes, mounts, and files of loop devices."""
        found = [it for it in commands() if MARK in it or str(self.switch) in it]
        found += [it for it in Path("/proc/mounts").read_text().splitlines() if str(self.folder) in it]
        backing = [it.read_text() for it in Path("/sys/block").glob("loop*/loop/backing_file")]
        return found + [it for it in backing if str(self.folder) in it]

    def check(self, ends: str, number: signal.Signals | None, status: int) -> None:
        """A run that ends in some way leaves nothing."""
        command = [sys.executable, "-B", "-c", ALONE, str(self.switch), str(self.folder), ends, MARK]
        with subprocess.Popen(command, cwd=PACKAGE, stdout=subprocess.PIPE, stderr=subprocess.PIPE, text=True) as child:
            assert child.stdout
            self.assertEqual(child.stdout.readline(), "ready\n")
            if number is not None:
                self.assertNotEqual(self.leavings(), [])
                child.send_signal(number)
            child.communicate(timeout=LONGEST)
        self.assertEqual(child.returncode, status)
        end = time.monotonic() + LONGEST
        while self.leavings() and time.monotonic() < end:
            time.sleep(0.05)
        self.assertEqual(self.leavings(), [])
        shutil.rmtree(self.folder / "disk")

    def test_it_ends_well(self) -> None:
        self.check("ends", None, 7)

    def test_it_fails(self) -> None:
        self.check("fails", None, 1)

    def test_an_interrupt(self) -> None:
        self.check("waits", signal.SIGINT, 143)

    def test_it_is_asked_to_end(self) -> None:
        self.check("waits", signal.SIGTERM, 143)

    def test_it_is_killed(self) -> None:
        self.check("waits", signal.SIGKILL, -signal.SIGKILL)


def commands() -> list[str]:
    """The words of all processes."""
    found = []
    for path in Path("/proc").glob("[0-9]*/cmdline"):
        try:
            words = path.read_bytes().replace(b"\0", b" ").decode(errors="replace")
        except OSError:
            continue
        if path.parent.name != str(os.getpid()) and "-c import" not in words:
            found.append(words)
    return found


if __name__ == "__main__":
    unittest.main()
