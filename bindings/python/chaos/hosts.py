"""The hosts and the keepers of a run, each a process at a place of its own, with as many lives as it is killed."""

import queue
import signal
import subprocess
import sys
import threading
import time
from collections.abc import Callable
from pathlib import Path
from typing import Any

from chaos.network import Network
from chaos.record import Row

PACKAGE = Path(__file__).resolve().parents[1]

# What a host says when it has gone, or says nothing.
GONE = "gone"
SILENT = "silent"

# What kind of host it is: one that makes calls, one that checks snapshots too, one that only makes reads of now, and one that asks the log nothing.
PLAIN, CHECKS, READS, LOOKS = "plain", "checks", "reads", "looks"

Note = Callable[[Row], object]


class Child:
    """A process at a place, which can be killed and begun anew."""

    def __init__(self, network: Network, place: int, name: str, folder: Path, note: Note) -> None:
        self.name = name
        self.lives = 0
        self.folder = folder
        self.note = note
        self._network = network
        self._place = place
        self._child: "subprocess.Popen[str] | None" = None

    @property
    def life(self) -> str:
        """The present life's name."""
        return f"{self.name}.{self.lives}"

    @property
    def pid(self) -> int | None:
        """The process, if it runs."""
        return None if self._child is None else self._child.pid

    def send(self, number: signal.Signals) -> None:
        """Sends it a signal, if it runs."""
        if self._child is not None:
            self._child.send_signal(number)

    def kill(self) -> None:
        """Kills it. What it has begun may have no end."""
        if self._child is None:
            return
        if self._child.poll() is None:
            self.note({"what": "killed", "life": self.life})
        else:
            self.note({"what": "fault", "why": f"{self.life} has ended by itself, with status {self._child.returncode}"})
        self.give_up()

    def give_up(self) -> None:
        """Ends it, however it is."""
        if self._child is not None:
            self._child.kill()
            self._child.wait()
            self._child = None

    def begin(self, words: list[object], **streams: Any) -> "subprocess.Popen[str]":
        """Begins a life."""
        command = self._network.command(self._place, words)
        self._child = subprocess.Popen(command, cwd=PACKAGE, text=True, pass_fds=self._network.spaces, **streams)
        return self._child


class Host(Child):
    """A host with clients."""

    def __init__(self, network: Network, place: int, number: int, folder: Path, note: Note, members: list[str]) -> None:
        super().__init__(network, place, f"h{number}", folder, note)
        self._number = number
        self._members = members
        self._said: "queue.SimpleQueue[str]" = queue.SimpleQueue()

    def start(self, patience: float = 60.0, kind: str = PLAIN) -> None:
        """Begins a life, if it does not run. It names another member first than the next host does. It is of some kind."""
        if self.pid is not None:
            return
        self.lives += 1
        members = [*self._members[self._number :], *self._members[: self._number]]
        words = [self.life, self._number, ",".join(members), self.folder, patience, kind]
        with open(self.folder / "said" / self.name, "ab") as said:
            command: list[object] = [sys.executable, "-B", "-m", "chaos.host", *words]
            child = self.begin(command, stdin=subprocess.PIPE, stdout=subprocess.PIPE, stderr=said)
        self._said = queue.SimpleQueue()
        threading.Thread(target=read_words, args=(child, self._said), daemon=True).start()

    def go(self) -> None:
        """Has it do the next thing."""
        assert self._child and self._child.stdin
        try:
            self._child.stdin.write("\n")
            self._child.stdin.flush()
        except OSError:
            # It has gone, which `wait_for` says.
            pass

    def wait_for(self, word: str, end: float) -> None:
        """Waits until it says a word; that it has gone, or says nothing up to a time, is a fault of the run."""
        said = ""
        while said not in (word, GONE, SILENT):
            try:
                said = self._said.get(timeout=max(0.0, end - time.monotonic()))
            except queue.Empty:
                said = SILENT
        if said == GONE:
            # Who asks again finds the same.
            self._said.put(GONE)
        if said != word:
            self.note({"what": "fault", "why": f"{self.life} is {said}, and does not say {word}"})


def read_words(child: "subprocess.Popen[str]", said: "queue.SimpleQueue[str]") -> None:
    """Takes what a host says."""
    assert child.stdout
    for line in child.stdout:
        said.put(line.strip())
    said.put(GONE)


class Keeper(Child):
    """A keeper, which cuts the log."""

    def __init__(self, network: Network, place: int, number: int, folder: Path, note: Note, members: list[str]) -> None:
        super().__init__(network, place, f"k{number}", folder, note)
        self._members = members
        self.put_into(folder / "archives" / self.name)

    def put_into(self, archive: Path) -> None:
        """Has its next life put into this folder what it cuts."""
        self._archive = archive
        archive.mkdir(parents=True)

    def start(self) -> None:
        """Begins a life, if it does not run."""
        if self.pid is not None:
            return
        self.lives += 1
        words = ["--bytes", "0.1", "--times", "1", "--archive", self._archive, "web", *self._members]
        with open(self.folder / "said" / self.name, "ab") as said:
            command: list[object] = [sys.executable, "-B", PACKAGE / "bin" / "pidtab-keep", *words]
            self.begin(command, stdin=subprocess.DEVNULL, stdout=said, stderr=said)

    def stop(self, end: float) -> None:
        """Ends it by a signal, which it does by a time."""
        if self._child is None:
            return
        self.send(signal.SIGTERM)
        try:
            status = self._child.wait(max(0.0, end - time.monotonic()))
        except subprocess.TimeoutExpired:
            status = -1
        if status:
            self.note({"what": "fault", "why": f"{self.life} has ended with status {status} behind a signal"})
