"""What snapshots gain and cost, by one member of etcd on this machine: `python3 -m cluster.measure_keep late|size|pause`.

`late` is a host behind 1,000,000 calls, without a snapshot and with two. `size` is etcd's file over 2,000,000 calls, with a keeper and compaction, and
without. `pause` is how long a host with clients does not run, and how long its calls take, while a keeper writes snapshots and cuts.
"""

import subprocess
import sys
import tempfile
import threading
import time
from collections import deque
from collections.abc import Callable, Sequence
from pathlib import Path

from cluster.etcds import Etcds
from cluster.measure import Client
from pidtab import EtcdLog, Replicated, Table
from pidtab.hosts.keeper import Keeper, Wishes

KEEP = Path(__file__).resolve().parents[1] / "bin" / "pidtab-keep"
PID_MAX = 4_194_304

LATE = """\
import sys, time, pidtab
log = pidtab.EtcdLog(sys.argv[1].split(","), "web")
begun = time.monotonic()
with pidtab.Replicated(log, pid_max=4_194_304) as table:
    print(f"{time.monotonic() - begun:.2f} s, {table._replica.machine.calls:,} calls, digest {table.digest[:12]}")
"""


def open_host(etcds: Etcds) -> Replicated:
    """A host."""
    return Replicated(EtcdLog(etcds.members, "web"), pid_max=PID_MAX)


def fill(table: Replicated, calls: int, clients: int, batch: int) -> float:
    """Makes calls, by clients that each wait for their answers: how many in a second."""
    left, lock = deque(range(calls // batch)), threading.Lock()

    def run() -> None:
        client = Client(table)
        while left:
            with lock:
                if not left:
                    return
                left.pop()
            answers = table.answers([client.line() for _ in range(batch)])
            client._live += [it.split(" ")[3] for it in answers if it.startswith("child")]

    begun = time.monotonic()
    run_all([run] * clients)
    return calls / (time.monotonic() - begun)


def run_all(steps: Sequence[Callable[[], None]]) -> None:
    """Runs steps side by side."""
    threads = [threading.Thread(target=it) for it in steps]
    for it in threads:
        it.start()
    for it in threads:
        it.join()


def late(etcds: Etcds) -> str:
    """A late host, in a process of its own."""
    return subprocess.run([sys.executable, "-c", LATE, ",".join(etcds.members)], capture_output=True, text=True, check=True).stdout.strip()


def sizes(etcds: Etcds) -> str:
    """The bytes of etcd's file, and those in use."""
    told = etcds.ask("/v3/maintenance/status", {})
    return f"{int(told['dbSize']) / 1e6:.1f} MB, in use {int(told.get('dbSizeInUse', 0)) / 1e6:.1f}"


def measure_late(folder: Path) -> None:
    etcds = Etcds(folder, 1, "--quota-backend-bytes=2000000000")
    try:
        with open_host(etcds) as table:
            print(f"{fill(table, 1_000_000, 16, 256):,.0f} calls a second")
            for _ in range(3):
                print("without a snapshot:", late(etcds), flush=True)
            keeper = Keeper(EtcdLog(etcds.members, "web"), Table, Wishes(alone=True))
            keeper.catch_up()
            for _ in range(2):
                keeper.save()
                fill(table, 20_000, 4, 256)
            for _ in range(5):
                print("with snapshots:", late(etcds), "here", table.digest[:12], flush=True)
            keeper.close()
    finally:
        etcds.stop()


def measure_size(folder: Path) -> None:
    for words in ((), ("--alone", "--bytes", "3", "--times", "1")):
        place = folder / f"with{len(words)}"
        place.mkdir()
        etcds = Etcds(place, 1, "--quota-backend-bytes=4000000000", "--auto-compaction-mode=revision", "--auto-compaction-retention=1000")
        keeper = subprocess.Popen([sys.executable, KEEP, *words, "web", *etcds.members], stdout=subprocess.DEVNULL) if words else None
        try:
            with open_host(etcds) as table:
                for _ in range(8):
                    rate = fill(table, 250_000, 8, 32)
                    # By revision etcd compacts each five minutes: here at once, and by the same call.
                    etcds.compact()
                    print("with" if words else "without", "a keeper:", sizes(etcds), f"{rate:,.0f} calls a second", flush=True)
                print("a late host:", late(etcds), flush=True)
        finally:
            if keeper is not None:
                keeper.terminate()
                keeper.wait()
            etcds.stop()


class Heart:
    """Asks the table of a host again and again, and notes how long it was not there."""

    def __init__(self, table: Replicated) -> None:
        self.table = table
        self.goes = True
        self.waits: list[float] = []

    def run(self) -> None:
        before = time.monotonic()
        while self.goes:
            self.table.ask.getpid(1)
            now = time.monotonic()
            self.waits.append(now - before)
            before = now
            time.sleep(0.001)


def worst(waits: list[float]) -> str:
    """Some of the longest."""
    waits.sort()
    return f"99 of 100 within {waits[len(waits) * 99 // 100] * 1e3:.1f} ms, longest {', '.join(f'{it * 1e3:.0f}' for it in waits[-3:])} ms"


def measure_pause(folder: Path) -> None:
    for tasks in (10_000, 100_000):
        place = folder / f"tasks{tasks}"
        place.mkdir()
        etcds = Etcds(place, 1, "--quota-backend-bytes=4000000000")
        keeper: "subprocess.Popen[bytes] | None" = None
        try:
            with open_host(etcds) as table:
                root = table.fork(1, new=True).root
                for _ in range(tasks // 2000):
                    table.answers([f"fork {root}"] * 2000)
                for words in ((), ("--alone", "--bytes", "1", "--times", "1")):
                    if words:
                        keeper = subprocess.Popen([sys.executable, KEEP, *words, "web", *etcds.members])
                        time.sleep(2)
                    heart, took = Heart(table), list[float]()
                    until = time.monotonic() + 15
                    run = threading.Thread(target=heart.run)
                    run.start()
                    run_all([lambda: Client(table).run(8, until, took)] * 4)
                    heart.goes = False
                    run.join()
                    what = f"{tasks} tasks, {'with' if words else 'without'} a keeper"
                    print(f"{what}: a query by ask, {worst(heart.waits)}; a batch of 8, {worst(took)}", flush=True)
        finally:
            if keeper is not None:
                keeper.terminate()
                keeper.wait()
            etcds.stop()


def main(what: str) -> None:
    with tempfile.TemporaryDirectory(prefix="pidtab-measure-") as folder:
        {"late": measure_late, "size": measure_size, "pause": measure_pause}[what](Path(folder))


if __name__ == "__main__":
    main(*sys.argv[1:])
