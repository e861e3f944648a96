"""Tables on many hosts: each host makes the calls of one log, in its order, on a table of its own."""

from pidtab.lazy import TYPE_CHECKING, names_of

if TYPE_CHECKING:
    from pidtab.hosts.cluster import Cluster
    from pidtab.hosts.etcd_log import EtcdLog
    from pidtab.hosts.log import Following, Log, Progress
    from pidtab.hosts.memory_log import MemoryLog
    from pidtab.hosts.replicated import ReplicaAsk, Replicated
    from pidtab.hosts.submitted import Receipt, Submitted

__all__ = ["Cluster", "EtcdLog", "Following", "Log", "MemoryLog", "Progress", "Receipt", "ReplicaAsk", "Replicated", "Submitted"]

if not TYPE_CHECKING:
    __getattr__ = names_of(
        __name__,
        {
            "cluster": "Cluster",
            "etcd_log": "EtcdLog",
            "log": "Following Log Progress",
            "memory_log": "MemoryLog",
            "replicated": "ReplicaAsk Replicated",
            "submitted": "Receipt Submitted",
        },
    )
