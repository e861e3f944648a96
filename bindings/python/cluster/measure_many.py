"""What many tables cost, by three members of etcd on this machine and one process: `python3 -m cluster.measure_many` writes the figures of docs/CLUSTER.md.

Each table has one client, which waits for its answers before it asks again. Beside the rows of a Cluster are those of as many plain `Replicated`.
"""

import os
import tempfile
import threading
import time
from collections.abc import Callable, Iterator, Sequence
from contextlib import AbstractContextManager, ExitStack, contextmanager
from pathlib import Path

from cluster.etcds import Etcds
from cluster.load import table_kind
from cluster.measure import Client
from pidtab import Cluster, EtcdLog, Replicated

SECONDS = 5.0
IDLE_SECONDS = 10.0
COUNTS = (1, 10, 100)
BATCHES = (1, 32)


@contextmanager
def by_cluster(etcds: Etcds, name: str, count: int) -> Iterator[list[Replicated]]:
    """Tables of one Cluster."""
    with Cluster(etcds.members, name) as cluster:
        yield [cluster.open(str(it), table=table_kind()) for it in range(count)]


@contextmanager
def by_themselves(etcds: Etcds, name: str, count: int) -> Iterator[list[Replicated]]:
    """As many tables, each with threads and a watch of its own."""
    with ExitStack() as stack:
        yield [stack.enter_context(Replicated(EtcdLog(etcds.members, f"{name}/{it}"), table=table_kind())) for it in range(count)]


def members_time(etcds: Etcds) -> float:
    """The seconds of processor that the members took."""
    words = [Path(f"/proc/{it.pid}/stat").read_text().rpartition(")")[2].split() for it in etcds._running.values()]
    return sum(int(it[11]) + int(it[12]) for it in words) / os.sysconf("SC_CLK_TCK")


def measure_idle(etcds: Etcds, tables: Sequence[Replicated]) -> str:
    """What is taken where nobody asks anything."""
    own, theirs, begun, count = time.process_time(), members_time(etcds), time.monotonic(), threading.active_count() - 1
    time.sleep(IDLE_SECONDS)
    seconds = time.monotonic() - begun
    share, other = (time.process_time() - own) / seconds, (members_time(etcds) - theirs) / seconds
    return f"idle with {len(tables)}: {count} threads, {share:.2%} of a processor, and {other:.2%} for the members"


def measure(tables: Sequence[Replicated], batch: int) -> str:
    """A row: calls a second, and how long the answers took."""
    took: list[float] = []
    clients = [Client(it) for it in tables]
    begun, processor = time.monotonic(), time.process_time()
    threads = [threading.Thread(target=it.run, args=(batch, begun + SECONDS, took)) for it in clients]
    for it in threads:
        it.start()
    for it in threads:
        it.join()
    seconds, share = time.monotonic() - begun, time.process_time() - processor
    took.sort()
    half, most = took[len(took) // 2] * 1e3, took[len(took) * 99 // 100] * 1e3
    return f"| {len(tables)} | {batch} | {len(took) * batch / seconds:,.0f} | {half:.1f} ms | {most:.0f} ms | {share / seconds:.0%} of a processor"


def measure_all(etcds: Etcds, way: Callable[[Etcds, str, int], AbstractContextManager[list[Replicated]]], name: str, counts: Sequence[int]) -> None:
    """The rows of one way."""
    for count in counts:
        begun = time.monotonic()
        with way(etcds, f"{name} {count}", count) as tables:
            print(f"{name}: {count} tables were open behind {time.monotonic() - begun:.2f} s")
            for batch in BATCHES:
                print(measure(tables, batch), flush=True)
            print(measure_idle(etcds, tables), flush=True)


def main() -> None:
    with tempfile.TemporaryDirectory(prefix="pidtab-measure-") as folder:
        etcds = Etcds(Path(folder))
        try:
            print("load of the machine:", *os.getloadavg())
            measure_all(etcds, by_cluster, "Cluster", COUNTS)
            measure_all(etcds, by_themselves, "plain", COUNTS)
            print("load of the machine:", *os.getloadavg())
        finally:
            etcds.stop()


if __name__ == "__main__":
    main()
