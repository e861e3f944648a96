"""An etcd cluster on this machine's loopback, whose members can be killed, stopped, and cut off from each other."""

import base64
import json
import os
import shutil
import signal
import socket
import ssl
import subprocess
import time
import unittest
import urllib.error
import urllib.request
from pathlib import Path
from typing import Any

from cluster.relay import ALL, HOST, Relay

# Nothing here takes longer, in seconds, on a busy machine.
LONGEST = 60.0


def need_etcd() -> str:
    """The path of etcd; what needs it is skipped where it is not there."""
    found = shutil.which("etcd")
    if found is None:
        raise unittest.SkipTest("no etcd on PATH (Debian: etcd-server)")
    return found


def free_ports(count: int) -> list[int]:
    """Ports that nobody uses."""
    sockets = [socket.socket() for _ in range(count)]
    for it in sockets:
        it.bind((HOST, 0))
    ports = [it.getsockname()[1] for it in sockets]
    for it in sockets:
        it.close()
    return ports


def text64(text: str) -> str:
    """A text as the gateway of etcd takes it."""
    return base64.b64encode(text.encode()).decode()


def control(*words: str) -> None:
    """Runs etcdctl; what needs it is skipped where it is not there."""
    found = shutil.which("etcdctl")
    if found is None:
        raise unittest.SkipTest("no etcdctl on PATH (Debian: etcd-client)")
    subprocess.run([found, *words], check=True, capture_output=True, env={**os.environ, "ETCDCTL_API": "3"})


class Etcds:
    """Some members, each a process of its own with a folder of its own."""

    def __init__(
        self, folder: Path, count: int = 3, *words: str, scheme: str = "http", tls: ssl.SSLContext | None = None, relayed: bool = False
    ) -> None:
        """Starts them; by relays, where one of them is to be cut off."""
        self._program = need_etcd()
        self._folder = folder
        self._words = words
        self._scheme = scheme
        self._tls = tls
        ports = free_ports(2 * count)
        self._clients, self._peers = ports[:count], ports[count:]
        self._relays = [Relay(port) for port in self._peers] if relayed else []
        # Where a member is called by the others.
        self._called = [it.port for it in self._relays] or self._peers
        # The places of those that belong to the cluster.
        self._places = list(range(count))
        self._running: dict[int, subprocess.Popen[bytes]] = {}
        for place in range(count):
            self.start(place)
        self.wait_until_ready()

    @property
    def members(self) -> list[str]:
        """The members, as `EtcdLog` takes them."""
        return [f"{HOST}:{port}" for port in self._clients]

    def start(self, place: int, *more: str) -> None:
        """Starts a member, again with what it has on disk; with more words, if there are some."""
        client, peer = f"{self._scheme}://{HOST}:{self._clients[place]}", f"http://{HOST}:{self._peers[place]}"
        words = {
            **self._identity(place), "listen-client-urls": client, "advertise-client-urls": client, "listen-peer-urls": peer, "log-level": "error",
        }  # fmt: skip
        command = [self._program, *(f"--{name}={value}" for name, value in words.items()), *self._words, *more]
        with open(self._folder / f"m{place}.log", "ab") as said:
            self._running[place] = subprocess.Popen(command, stdin=subprocess.DEVNULL, stdout=said, stderr=said, start_new_session=True)

    def _identity(self, place: int) -> dict[str, str]:
        """Which member of which cluster one is."""
        called = {it: f"http://{HOST}:{self._called[it]}" for it in self._places}
        cluster = ",".join(f"m{it}={url}" for it, url in called.items())
        folder = str(self._folder / f"m{place}")
        return {"name": f"m{place}", "data-dir": folder, "initial-advertise-peer-urls": called[place], "initial-cluster": cluster}

    def replace(self, place: int) -> None:
        """Has a member leave the cluster, and a new one take its place, at another address."""
        other, new = next(it for it in self._places if it != place), len(self._clients)
        self._insist("/v3/cluster/member/remove", {"ID": self._status(place)["header"]["member_id"]}, other)
        self.kill(place)
        self._places.remove(place)
        client, peer = free_ports(2)
        self._clients.append(client)
        self._peers.append(peer)
        self._insist("/v3/cluster/member/add", {"peerURLs": [f"http://{HOST}:{peer}"]}, other)
        self._places.append(new)
        self.start(new, "--initial-cluster-state=existing")
        self.wait_until_ready()

    def _insist(self, path: str, body: dict[str, Any], place: int) -> None:
        """Asks a member until it does it: a change of the members may have to wait until others know each other."""
        end = time.monotonic() + LONGEST
        while True:
            try:
                self.ask(path, body, place, timeout=5.0)
                return
            except OSError:
                if time.monotonic() > end:
                    raise
                time.sleep(0.5)

    def save(self, backup: Path) -> None:
        """Writes a backup of all."""
        control("--endpoints", self.members[0], "snapshot", "save", str(backup))

    def restore(self, backup: Path) -> None:
        """Has all members be as in a backup, as those of the same cluster."""
        places = list(self._running)
        for place in places:
            self.kill(place)
            shutil.rmtree(self._folder / f"m{place}")
            control("snapshot", "restore", str(backup), *(f"--{name}={value}" for name, value in self._identity(place).items()))
        for place in places:
            self.start(place)
        self.wait_until_ready()

    def put_others(self, count: int, place: int = 0) -> None:
        """Puts a key beside all logs so often."""
        for _ in range(count):
            self.ask("/v3/kv/put", {"key": text64("other"), "value": ""}, place)

    def kill(self, place: int) -> None:
        """Kills a member, as a loss of power would."""
        self._running[place].kill()
        self._running.pop(place).wait()

    def freeze(self, place: int) -> None:
        """Has a member stand still."""
        self._running[place].send_signal(signal.SIGSTOP)

    def thaw(self, place: int) -> None:
        """Has it go on."""
        self._running[place].send_signal(signal.SIGCONT)

    def cut_off(self, place: int) -> None:
        """Cuts a member off from the others, both ways. Its clients still have it."""
        # By this a member says who it is where it calls another.
        name = b"X-Server-From: %x\r\n" % int(self._status(place)["header"]["member_id"])
        for at, relay in enumerate(self._relays):
            relay.cut(ALL if at == place else name)

    def join(self) -> None:
        """Has all members speak with each other again."""
        for relay in self._relays:
            relay.join()

    def stop(self) -> None:
        """Ends all members."""
        for place in list(self._running):
            self.kill(place)
        for relay in self._relays:
            relay.close()

    def ask(self, path: str, body: dict[str, Any], place: int = 0, token: str = "", timeout: float = LONGEST) -> dict[str, Any]:
        """What a member answers."""
        headers = {"Authorization": token} if token else {}
        url = f"{self._scheme}://{self.members[place]}{path}"
        request = urllib.request.Request(url, json.dumps(body).encode(), headers)
        with urllib.request.urlopen(request, timeout=timeout, context=self._tls) as reply:
            told: dict[str, Any] = json.load(reply)
            return told

    def wait_until_ready(self) -> None:
        """Waits until all members have a leader."""
        end = time.monotonic() + LONGEST
        for place in self._running:
            while self._leader_of(place) == "0":
                if time.monotonic() > end:
                    raise TimeoutError("etcd does not start")
                time.sleep(0.1)

    def leader(self) -> int:
        """The member that leads, once there is one."""
        end = time.monotonic() + LONGEST
        while time.monotonic() < end:
            for place in self._running:
                told = self._status(place)
                if told and told.get("leader") == told["header"]["member_id"]:
                    return place
            time.sleep(0.1)
        raise TimeoutError("no member leads")

    def compact(self, place: int = 0) -> None:
        """Drops the history up to now."""
        revision = self.ask("/v3/kv/range", {"key": text64("none")}, place)["header"]["revision"]
        try:
            self.ask("/v3/kv/compaction", {"revision": revision, "physical": True}, place)
        except urllib.error.HTTPError as fault:
            said = fault.read()
            # Nothing was written since the last time.
            if b"has been compacted" not in said:
                raise AssertionError(said) from fault

    def dump(self, name: str, place: int = 0) -> bytes:
        """A log, as `etcdctl get --prefix NAME: -w json` writes it."""
        return json.dumps(self.ask("/v3/kv/range", {"key": text64(f"{name}:"), "range_end": text64(f"{name};")}, place)).encode()

    def _status(self, place: int) -> dict[str, Any]:
        try:
            return self.ask("/v3/maintenance/status", {}, place)
        except OSError:
            return {}

    def _leader_of(self, place: int) -> str:
        return str(self._status(place).get("leader", "0"))
