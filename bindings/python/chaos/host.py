"""One host under chaos: its clients make calls and reads, and write down each before it begins and when it is over.

    python3 -m chaos.host LIFE NUMBER MEMBER,MEMBER.. FOLDER PATIENCE KIND

It says `open`. Behind a line of standard input its clients end, and it says `done`; behind a second one it says how its table ends, and `ended`;
behind a third one it closes.
"""

import hashlib
import json
import os
import random
import sys
import threading
import time
from collections.abc import Callable, Sequence
from pathlib import Path

from chaos.hosts import CHECKS, LOOKS, READS
from chaos.record import Row
from chaos.told import Task, Told
from cluster.load import Load
from pidtab import EtcdLog, LogFault, NotKept, NotKnown, Refusal, Replicated

# Numbers are not used again in a run.
PID_MAX = 4_194_304

# Of 1: how often an entry is put again, at once or late, how often its acknowledgement is lost, and how often a batch is cancelled.
TROUBLE = 0.05
CANCELLED = 0.03
LATEST = 3.0

# The most lines of a batch of each client, and how long it may wait before the next one, in seconds: so a run of an hour has some 5,000,000 calls.
BATCHES = (1, 6, 24)
PAUSES = (0.0, 0.05)

# Seconds between two forks of the task that all hosts are told of, and between two rounds of reads.
BEAT = 0.1
READ = 0.02

# So long a host that does not open tries again.
LONGEST_OPENING = 90.0


class TroubledLog(EtcdLog):
    """Puts some entries again, at once or late, and says of some that are there that etcd does not answer."""

    def append(self, entry: bytes) -> int:
        position = super().append(entry)
        if random.random() < TROUBLE:
            late = threading.Timer(random.choice((0.0, random.uniform(0.05, LATEST))), self._again, (entry,))
            late.daemon = True
            late.start()
        if random.random() < TROUBLE:
            raise TimeoutError("the acknowledgement is lost")
        return position

    def _again(self, entry: bytes) -> None:
        try:
            super().append(entry)
        except (OSError, LogFault):
            # Nobody waits for it.
            pass


class Rows:
    """What is written down. A row is there once its call is over, also if the host is killed then."""

    def __init__(self, path: Path) -> None:
        self._file = os.open(path, os.O_WRONLY | os.O_CREAT | os.O_APPEND)
        self._lock = threading.Lock()

    def add(self, what: str, **words: object) -> None:
        """Writes a row."""
        row: Row = {"what": what, **words}
        with self._lock:
            os.write(self._file, (json.dumps(row) + "\n").encode())


class Host:
    """A table with what its clients share."""

    def __init__(self, life: str, number: int, folder: Path, rows: Rows, table: Replicated, kind: str) -> None:
        self.life = life
        self.kind = kind
        self.number = number
        self.rows = rows
        self.table = table
        self.told = Told(folder / "told")
        self.stopping = threading.Event()
        self._lock = threading.Lock()
        self._count = 0

    def name(self) -> str:
        """The name of a new batch."""
        with self._lock:
            self._count += 1
            return f"batch {self.life} {self._count}"

    def ask(self, name: str, lines: Sequence[str], cancels: bool = False) -> Sequence[str] | None:
        """Has lines made, and their answers; None where they are not known, or were cancelled."""
        self.rows.add("asked", id=name, t0=time.monotonic_ns(), lines=[name, *lines])
        try:
            submitted = self.table.submit([name, *lines])
            if cancels and submitted.cancel():
                self.rows.add("cancelled", id=name, t1=time.monotonic_ns())
                return None
            answers = submitted.result()
        except NotKnown as fault:
            self.rows.add("unknown", id=name, t1=time.monotonic_ns(), sent=fault.sent, why=str(fault))
            self.stopping.wait(0.2)
            return None
        self.rows.add("answered", id=name, t1=time.monotonic_ns(), answers=answers)
        return answers[1:]

    def read(self, task: Task, now: bool) -> None:
        """Looks whether a task is there."""
        begun = time.monotonic_ns()
        try:
            self.table.ask(now=now).getpgid(1, task.root)
            seen = True
        except Refusal:
            seen = False
        except NotKnown:
            self.rows.add("unread", t0=begun, t1=time.monotonic_ns())
            return
        self.rows.add("read", of=task.batch, t0=begun, t1=time.monotonic_ns(), now=now, seen=seen)

    def note_place(self) -> None:
        """Writes down how far this host is, and what digest it has there."""
        position = self.table.position
        try:
            self.rows.add("place", position=position, digest=self.table.digest_at(position), t1=time.monotonic_ns())
        except NotKept:
            # A snapshot has come meanwhile.
            pass

    def note_end(self) -> None:
        """Writes down what the table is in the end."""
        self.table.catch_up()
        position = self.table.position
        listed = hashlib.sha256(self.table.list_text().encode()).hexdigest()
        self.rows.add("end", position=position, digest=self.table.digest_at(position), list=listed)


def lines_of(load: Load, count: int) -> list[str]:
    """The next lines of a client, but none that ends the root init, or has its children be in a namespace that may fall: then some would end."""
    return [line for line in load.lines(count) if not line.startswith(("exit 1 ", "join 1 "))]


def make_calls(host: Host, most: int) -> None:
    """A client with tasks of its own."""
    load = Load(host.name())
    while not host.stopping.wait(random.choice(PAUSES)):
        name = host.name()
        lines = lines_of(load, random.randrange(1, most + 1))
        answers = host.ask(name, lines, random.random() < CANCELLED)
        if answers is None:
            # It does not know its tasks any more.
            load = Load(name)
        else:
            load.take(lines, answers)


def beat(host: Host) -> None:
    """Forks a task that never ends, sees it, and tells all hosts of it."""
    while not host.stopping.wait(BEAT):
        name = host.name()
        # Other clients may have moved the root init into a cgroup with a limit.
        answers = host.ask(name, ["move 1 0", "fork 1"])
        if answers is not None:
            task = Task(int(answers[1].split(" ")[3]), name)
            host.read(task, now=False)
            host.told.tell(host.number, task)
        host.note_place()


def make_reads(host: Host) -> None:
    """Looks for what all hosts have told, also while calls wait."""
    while not host.stopping.wait(READ):
        for task in host.told.all():
            host.read(task, now=host.kind != LOOKS)
        if host.kind in (READS, LOOKS):
            host.note_place()


def run_client(host: Host, step: Callable[[], None]) -> None:
    """Runs a client. What it meets that no page speaks of is written down."""
    try:
        step()
    except BaseException as fault:
        host.rows.add("fault", why=repr(fault)[:400])


def open_table(log: EtcdLog, patience: float, checks: bool) -> Replicated:
    """Opens the table, if need be at the second try: etcd may be away."""
    end = time.monotonic() + LONGEST_OPENING
    while True:
        try:
            return Replicated(log, pid_max=PID_MAX, patience=patience, checks=checks)
        except LogFault as fault:
            if "was not opened" not in str(fault) or time.monotonic() > end:
                raise


def say(word: str) -> None:
    """Says something to the harness."""
    print(word, flush=True)


def run(life: str, number: int, members: Sequence[str], folder: Path, rows: Rows, patience: float, kind: str) -> None:
    """Opens a table, has its clients run, and ends."""
    host = Host(life, number, folder, rows, open_table(TroubledLog(members, "web"), patience, kind == CHECKS), kind)
    say("open")
    steps: list[Callable[[], None]] = [lambda: make_reads(host)]
    if kind not in (READS, LOOKS):
        steps += [lambda: beat(host), *(lambda most=most: make_calls(host, most) for most in BATCHES)]  # type: ignore[misc]
    clients = [threading.Thread(target=run_client, args=(host, it), daemon=True) for it in steps]
    for it in clients:
        it.start()
    sys.stdin.readline()
    host.stopping.set()
    for it in clients:
        it.join()
    say("done")
    sys.stdin.readline()
    host.note_end()
    say("ended")
    sys.stdin.readline()
    host.table.close()


def main(life: str, number: str, members: str, folder: str, patience: str, kind: str) -> None:
    """Runs a host; what stops it is written down."""
    rows = Rows(Path(folder) / "rows" / life)
    try:
        run(life, int(number), members.split(","), Path(folder), rows, float(patience), kind)
    except Exception as fault:
        rows.add("fault", why=repr(fault)[:400])
        raise


if __name__ == "__main__":
    main(*sys.argv[1:])
