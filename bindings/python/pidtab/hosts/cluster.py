"""Many tables on many hosts, on one etcd: with one watch and one set of threads."""

import ssl
import threading
from collections.abc import Callable, Sequence

from pidtab.bounds import DEFAULT_PID_MAX, check_seconds
from pidtab.calls import Calls
from pidtab.faults import TableClosed
from pidtab.hosts.cluster_threads import CLUSTER_CLOSED, Feed, SharedCrew
from pidtab.hosts.etcd import User
from pidtab.hosts.etcd_log import TIMEOUT, EtcdLog, check_name, open_etcd
from pidtab.hosts.replicated import PATIENCE, Replicated
from pidtab.owner import Owner
from pidtab.table import Table


class Cluster(Owner):
    """Many tables on one etcd, below one name: each is a `Replicated`, and all have one watch and ten threads, however many they are.

    The log of the table `web` of the Cluster `hosts` is `hosts/web`. So `Replicated(EtcdLog(members, "hosts/web"))` is a host of the same table.
    A table that stops or is closed leaves the others as they are. What a `Future` calls when it is done may hold the others up, and cannot wait for
    any of them.
    """

    def __init__(
        self,
        members: Sequence[str],
        name: str,
        *,
        tls: ssl.SSLContext | None = None,
        user: User | None = None,
        timeout: float = TIMEOUT,
        sync: bool = True,
        patience: float = PATIENCE,
    ) -> None:
        """Names the tables; nothing is asked yet. The arguments are those of `EtcdLog` and `Replicated`."""
        self.name = check_name("cluster", name)
        self.patience = check_seconds("patience", patience)
        self._etcd = open_etcd(members, tls, user, timeout, sync)
        self._crew = SharedCrew(self._etcd, name)
        # It takes no lock, as it may run anywhere; before the start, so that an interrupt leaves no thread.
        self._keep(self._crew.wish)
        self._crew.start()

    def open(self, name: str, *, pid_max: int = DEFAULT_PID_MAX, table: Callable[..., Calls] = Table, checks: bool = False) -> Replicated:
        """Opens a table, or begins one. A second time only once the first one has stopped or was closed.

        It waits, at most as long as the patience, until the table is as the log has it. The table keeps the Cluster open.
        """
        self._check_owner()
        if not isinstance(name, str):
            raise TypeError(f"name is a text, not {type(name).__name__}")
        if not name:
            raise ValueError("a table's name has 1 or more characters")
        if threading.current_thread() in self._crew.threads:
            raise RuntimeError("what is called when a Future is done cannot wait for a table to open: use another thread")
        log = EtcdLog._at(self._etcd, check_name("log", f"{self.name}/{name}"))
        return Replicated._of(self, log, pid_max, table, self.patience, checks, lambda replica: Feed(self._crew, replica, log))

    def close(self) -> None:
        """Closes all tables at once, each as its `close` does, and ends the threads. A second time nothing is done."""
        if not self._left:
            self._crew.close()
            if self._finish is not None:
                self._finish.detach()

    def _settings(self) -> str:
        return f"{self.name!r} at {', '.join(map(str, self._etcd.members))}"

    def _is_open(self) -> bool:
        return not self._crew.router.closing

    def _check_owner(self) -> None:
        if self._left:
            raise TableClosed("this Cluster is that of the parent process: a forked child opens its own")
        if not self._is_open():
            raise TableClosed(CLUSTER_CLOSED)
