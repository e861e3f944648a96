"""What a call costs, by three members of etcd on this machine and one host: `python3 -m cluster.measure` writes the rows of docs/CLUSTER.md.

The lines are forks, exits, waits and queries in equal parts. The clients are threads, each of which waits for its answers before it asks again.
"""

import subprocess
import sys
import tempfile
import threading
import time
from collections import deque
from collections.abc import Iterator
from pathlib import Path

from cluster.etcds import Etcds, text64
from cluster.load import table_kind
from pidtab import EtcdLog, Replicated
from pidtab.hosts.etcd import Etcd

SECONDS = 5.0
# How often others write in a second, and so many reads are made meanwhile.
OTHERS, READS = 200, 1000
WISHES = [(clients, batch) for clients in (1, 16) for batch in (1, 32, 256)]


LATE = """\
import resource, sys, pidtab
def most():
    return resource.getrusage(resource.RUSAGE_SELF).ru_maxrss // 1024
before = most()
with pidtab.Replicated(pidtab.EtcdLog(sys.argv[1].split(","), "web"), pid_max=4_194_304) as table:
    print(table._replica.machine.calls, "calls,", len(table.list().tasks), "tasks, from", before, "MiB to", most(), "MiB")
"""


def size_of(etcds: Etcds) -> int:
    """The bytes of etcd's store."""
    return int(etcds.ask("/v3/maintenance/status", {})["dbSize"])


class Client:
    """Asks for forks, exits, waits and queries in turn, and has few tasks at a time."""

    def __init__(self, table: Replicated) -> None:
        self._table = table
        self._root = table.fork(1, new=True).root
        self._live: deque[str] = deque()
        self._asked = 0

    def line(self) -> str:
        """The next line."""
        self._asked += 1
        if self._asked % 4 == 0 and self._live:
            return f"exit {self._live.popleft()} 0"
        return (f"fork {self._root}", f"wait {self._root} any", f"getpid {self._root}")[self._asked % 4 % 3]

    def run(self, batch: int, until: float, took: list[float]) -> None:
        """Asks until the time is over, and notes how long each answer took."""
        while time.monotonic() < until:
            lines = [self.line() for _ in range(batch)]
            begun = time.monotonic()
            answers = self._table.answers(lines)
            took.append(time.monotonic() - begun)
            self._live += [it.split(" ")[3] for it in answers if it.startswith("child")]


def measure(table: Replicated, clients: int, batch: int) -> str:
    """A row of the page."""
    took: list[float] = []
    begun = time.monotonic()
    until = begun + SECONDS
    threads = [threading.Thread(target=Client(table).run, args=(batch, until, took)) for _ in range(clients)]
    for it in threads:
        it.start()
    for it in threads:
        it.join()
    seconds = time.monotonic() - begun
    took.sort()
    half, most = took[len(took) // 2] * 1e3, took[len(took) * 99 // 100] * 1e3
    return f"| {clients} | {batch} | {len(took) * batch / seconds:,.0f} | {half:.1f} ms | {most:.0f} ms |"


def measure_queries(table: Replicated, name: str, ask: object) -> str:
    """What a query that is no call takes."""
    took = []
    for _ in range(500):
        begun = time.monotonic()
        ask()  # type: ignore[operator]
        took.append(time.monotonic() - begun)
    took.sort()
    return f"{name}: {took[250] * 1e3:.3f} ms, of 100 slowest one {took[495] * 1e3:.3f} ms"


def write_others(etcd: Etcd, stops: threading.Event) -> None:
    """Puts a key beside all logs so often a second."""
    turn = time.monotonic()
    while not stops.wait(max(0.0, turn - time.monotonic())):
        etcd.ask("/v3/kv/put", {"key": text64("other"), "value": text64("x" * 100)})
        turn += 1 / OTHERS


def measure_reads(members: list[str], table: Replicated) -> Iterator[str]:
    """A fresh read beside one of etcd itself, in turns, while others write, and whether a read has put something."""
    etcd, others = (EtcdLog(members, "none")._etcd for _ in range(2))
    stops, wanted = threading.Event(), {"key": text64("web:~head")}
    writer = threading.Thread(target=write_others, args=(others, stops))
    head = etcd.ask("/v3/kv/range", wanted)["kvs"]
    writer.start()
    steps = {"a linearizable read of etcd": lambda: etcd.ask("/v3/kv/range", wanted), "ask(now=True)": lambda: table.ask(now=True).getpid(1)}
    took: dict[str, list[float]] = {name: [] for name in steps}
    for _ in range(READS):
        for name, step in steps.items():
            begun = time.monotonic()
            step()
            took[name].append(time.monotonic() - begun)
    stops.set()
    writer.join()
    for name, times in took.items():
        times.sort()
        yield f"beside {OTHERS} writes of others a second, {name}: {times[READS // 2] * 1e3:.2f} ms, of 100 slowest one {times[READS * 99 // 100] * 1e3:.1f} ms"
    yield f"put by the reads: {'nothing' if etcd.ask('/v3/kv/range', wanted)['kvs'] == head else 'something'}"


def main() -> None:
    with tempfile.TemporaryDirectory(prefix="pidtab-measure-") as folder:
        etcds = Etcds(Path(folder))
        try:
            with Replicated(EtcdLog(etcds.members, "web"), table=table_kind(), pid_max=4_194_304) as table:
                for clients, batch in WISHES:
                    before, calls = size_of(etcds), table._replica.machine.calls
                    row = measure(table, clients, batch)
                    size = (size_of(etcds) - before) / (table._replica.machine.calls - calls)
                    print(row, f"{size:.0f} bytes a call", flush=True)
                print(measure_queries(table, "ask", lambda: table.ask.getpid(1)))
                print(measure_queries(table, "ask(now=True)", lambda: table.ask(now=True).getpid(1)))
                for said in measure_reads(etcds.members, table):
                    print(said, flush=True)
                begun = time.monotonic()
                done = subprocess.run([sys.executable, "-c", LATE, ",".join(etcds.members)], capture_output=True, text=True, check=True)
                print(f"a late host: {done.stdout.strip()}; {time.monotonic() - begun:.2f} s")
        finally:
            etcds.stop()


if __name__ == "__main__":
    main()
