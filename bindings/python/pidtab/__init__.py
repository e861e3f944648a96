"""Linux process identifiers as one table: by the program `pidtab` or in this process, and readers of its language and its list.

Tables on many hosts are in `pidtab.hosts`, simulated containers in `pidtab.sim`, a test kit in `pidtab.testing`, and the programs in `pidtab.commands`.
"""

import sys

# Without words that an earlier Python cannot read.
if sys.version_info < (3, 10):
    raise ImportError("pidtab needs Python 3.10 or later, and this is Python %d.%d" % sys.version_info[:2])

from pidtab.lazy import TYPE_CHECKING, names_of

if TYPE_CHECKING:
    from pidtab.accounts import Accounts
    from pidtab.answers import Forked, Reaped, SpaceStat, Stat
    from pidtab.bounds import ALL, DEFAULT_PID_MAX, GREATEST_PID_MAX, LEAST_PID_MAX
    from pidtab.calls import Calls, Kind, Queries
    from pidtab.connected import Connected, NotServed, connect
    from pidtab.effects import Adopted, Effect, Ended, Gone, GroupGone, SessionGone, SpaceFell, SpaceGone, Told
    from pidtab.faults import (
        BadHistory,
        BadText,
        Diverged,
        LibraryFault,
        LibraryMissing,
        LogFault,
        NoHistory,
        NoThreads,
        NotKept,
        NotKnown,
        OtherSettings,
        ProgramEnded,
        ProgramFault,
        ProgramMissing,
        Refusal,
        SaverEnded,
        SeatsTaken,
        TableBusy,
        TableClosed,
        Unsaved,
        WaitingEnded,
    )
    from pidtab.history import Counts, Entry
    from pidtab.hosts import Cluster, EtcdLog, Following, Log, MemoryLog, Progress, Receipt, ReplicaAsk, Replicated, Submitted
    from pidtab.library import find_library
    from pidtab.listing import BadList, Changes, Control, Listing, Space, Task, read_list, write_list
    from pidtab.native import Ask, Askable, AskableCalls, ToldCalls, Would
    from pidtab.process import Process
    from pidtab.program import find_program
    from pidtab.saved import Saved
    from pidtab.seat import Seat
    from pidtab.table import Table
    from pidtab.tree import draw_list

__version__ = "0.2.0.dev0"

__all__ = [
    "ALL",
    "DEFAULT_PID_MAX",
    "GREATEST_PID_MAX",
    "LEAST_PID_MAX",
    "Accounts",
    "Adopted",
    "Ask",
    "Askable",
    "AskableCalls",
    "BadHistory",
    "BadList",
    "BadText",
    "Calls",
    "Changes",
    "Cluster",
    "Connected",
    "Control",
    "Counts",
    "Diverged",
    "Effect",
    "Ended",
    "Entry",
    "EtcdLog",
    "Following",
    "Forked",
    "Gone",
    "GroupGone",
    "Kind",
    "LibraryFault",
    "LibraryMissing",
    "Listing",
    "Log",
    "LogFault",
    "MemoryLog",
    "NoHistory",
    "NoThreads",
    "NotKept",
    "NotKnown",
    "NotServed",
    "OtherSettings",
    "Process",
    "ProgramEnded",
    "ProgramFault",
    "ProgramMissing",
    "Progress",
    "Queries",
    "Reaped",
    "Receipt",
    "Refusal",
    "ReplicaAsk",
    "Replicated",
    "Saved",
    "SaverEnded",
    "Seat",
    "SeatsTaken",
    "SessionGone",
    "Space",
    "SpaceFell",
    "SpaceGone",
    "SpaceStat",
    "Stat",
    "Submitted",
    "Table",
    "TableBusy",
    "TableClosed",
    "Task",
    "Told",
    "ToldCalls",
    "Unsaved",
    "WaitingEnded",
    "Would",
    "connect",
    "draw_list",
    "find_library",
    "find_program",
    "read_list",
    "write_list",
]

_FOLDERS = ("commands", "hosts", "sim", "testing")

# Each module is loaded when one of its names is first asked for: a table brings no hosts, which have threads and TLS.
if not TYPE_CHECKING:
    __getattr__ = names_of(
        __name__,
        {
            "accounts": "Accounts",
            "answers": "Forked Reaped SpaceStat Stat",
            "bounds": "ALL DEFAULT_PID_MAX GREATEST_PID_MAX LEAST_PID_MAX",
            "calls": "Calls Kind Queries",
            "connected": "Connected NotServed connect",
            "effects": "Adopted Effect Ended Gone GroupGone SessionGone SpaceFell SpaceGone Told",
            "faults": (
                "BadHistory BadText Diverged LibraryFault LibraryMissing LogFault NoHistory NoThreads NotKept NotKnown OtherSettings ProgramEnded "
                "ProgramFault ProgramMissing Refusal SaverEnded SeatsTaken TableBusy TableClosed Unsaved WaitingEnded"
            ),
            "history": "Counts Entry",
            "hosts": "Cluster EtcdLog Following Log MemoryLog Progress Receipt ReplicaAsk Replicated Submitted",
            "library": "find_library",
            "listing": "BadList Changes Control Listing Space Task read_list write_list",
            "native": "Ask Askable AskableCalls ToldCalls Would",
            "process": "Process",
            "program": "find_program",
            "saved": "Saved",
            "seat": "Seat",
            "table": "Table",
            "tree": "draw_list",
        },
        _FOLDERS,
    )


def __dir__() -> list[str]:
    return [*__all__, *_FOLDERS, "__version__"]
