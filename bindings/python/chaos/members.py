"""Three members of etcd, each at a place of its own and with a disk of its own that can lose power."""

import base64
import json
import os
import shutil
import signal
import subprocess
import time
import urllib.error
import urllib.request
from collections.abc import Sequence
from pathlib import Path
from typing import Any

from chaos.disks import Disk
from chaos.network import Network, address_of

CLIENTS, PEERS = 2379, 2380
COUNT = 3
PLACES = range(COUNT)

# So long a start of all may take, in seconds, on a busy machine.
LONGEST_START = 60.0

JSON = dict[str, Any]


# The variables of etcdctl.
CONTROL = {**os.environ, "ETCDCTL_API": "3"}


def words_of(named: dict[str, str]) -> list[str]:
    """Words of a command line."""
    return [f"--{name}={value}" for name, value in named.items()]


def text64(text: str) -> str:
    """A text as the gateway of etcd takes it."""
    return base64.b64encode(text.encode()).decode()


class Members:
    """The members. Each is asked at its own place, so whatever the network does."""

    def __init__(self, network: Network, folder: Path, disks: Path, words: Sequence[str]) -> None:
        self._network = network
        self._folder = folder
        self._words = words
        self._disks = [Disk(disks / f"image{it}", disks / f"m{it}") for it in PLACES]
        self._running: dict[int, subprocess.Popen[bytes]] = {}

    @property
    def names(self) -> list[str]:
        """The members, as a host takes them."""
        return [f"{address_of(it)}:{CLIENTS}" for it in PLACES]

    def start(self, place: int, *more: str) -> None:
        """Starts a member that does not run, with what its disk has; with more words, if there are some."""
        if place in self._running:
            return
        client, peer = f"http://{address_of(place)}:{CLIENTS}", f"http://{address_of(place)}:{PEERS}"
        words = {
            **self._identity(place), "listen-client-urls": client, "advertise-client-urls": client, "listen-peer-urls": peer, "log-level": "error",
            "snapshot-count": "5000",
        }  # fmt: skip
        command = self._network.command(place, ["etcd", *words_of(words), *self._words, *more])
        with open(self._folder / f"m{place}", "ab") as said:
            streams: dict[str, Any] = {"stdin": subprocess.DEVNULL, "stdout": said, "stderr": said}
            self._running[place] = subprocess.Popen(command, pass_fds=self._network.spaces, **streams)

    def _identity(self, place: int) -> dict[str, str]:
        """Which member of which cluster one is."""
        cluster = ",".join(f"m{it}=http://{address_of(it)}:{PEERS}" for it in PLACES)
        folder, peer = str(self._disks[place].folder / "data"), f"http://{address_of(place)}:{PEERS}"
        return {"name": f"m{place}", "data-dir": folder, "initial-advertise-peer-urls": peer, "initial-cluster": cluster}

    def save(self, place: int, backup: Path) -> None:
        """Writes a backup of what a member has."""
        client = f"http://{address_of(place)}:{CLIENTS}"
        command = self._network.command(place, ["etcdctl", f"--endpoints={client}", "snapshot", "save", backup])
        subprocess.run(command, pass_fds=self._network.spaces, check=True, capture_output=True, env=CONTROL)

    def restore(self, backup: Path) -> None:
        """Has all members, none of which runs, be as in a backup."""
        for place in PLACES:
            shutil.rmtree(self._disks[place].folder / "data")
            command = ["etcdctl", "snapshot", "restore", str(backup), *words_of(self._identity(place))]
            subprocess.run(command, check=True, capture_output=True, env=CONTROL)
        self.start_all()

    def start_all(self) -> None:
        """Starts all that do not run."""
        for place in PLACES:
            self.start(place)

    def kill(self, place: int) -> None:
        """Kills a member that runs. One that has ended by itself is none that was to."""
        child = self._running.pop(place, None)
        if child is None:
            return
        if child.poll() is not None:
            raise OSError(f"member {place} has ended by itself, with status {child.returncode}: see said/m{place}")
        child.kill()
        child.wait()

    def lose_power(self, place: int) -> None:
        """Kills a member, of which stays what was synced."""
        self.kill(place)
        self._disks[place].lose_power()

    def send(self, place: int, number: signal.Signals) -> None:
        """Sends a member a signal, if it runs."""
        if place in self._running:
            self._running[place].send_signal(number)

    def pid(self, place: int) -> int | None:
        """The process of a member, if it runs."""
        return self._running[place].pid if place in self._running else None

    def ask(self, place: int, path: str, body: JSON, timeout: float = 2.0) -> JSON:
        """What a member answers."""
        request = urllib.request.Request(f"http://{address_of(place)}:{CLIENTS}{path}", json.dumps(body).encode())

        def step() -> JSON:
            with urllib.request.urlopen(request, timeout=timeout) as reply:
                told: JSON = json.load(reply)
                return told

        return self._network.at(place, step)

    def status(self, place: int) -> JSON:
        """What a member says of itself; nothing where it does not answer."""
        try:
            return self.ask(place, "/v3/maintenance/status", {}, 1.0)
        except OSError:
            return {}

    def leader(self) -> int | None:
        """A member that takes itself for the one that leads."""
        for place in PLACES:
            told = self.status(place)
            if told and told.get("leader") == told["header"]["member_id"]:
                return place
        return None

    def wait_until_ready(self) -> None:
        """Waits until all members that run have a leader."""
        end = time.monotonic() + LONGEST_START
        for place in self._running:
            while self.status(place).get("leader", "0") == "0":
                if time.monotonic() > end:
                    raise TimeoutError("etcd does not start")
                time.sleep(0.1)

    def compact(self, place: int, revision: int) -> None:
        """Drops the history up to a revision. Where that was dropped before, nothing is done."""
        try:
            self.ask(place, "/v3/kv/compaction", {"revision": revision, "physical": True}, 5.0)
        except urllib.error.HTTPError as fault:
            if b"has been compacted" not in fault.read():
                raise
