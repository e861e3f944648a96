"""The proved machine for the calls of a host, in the library for C: its numbers, structs and functions, as `bindings/c/host_calls.h` has them."""

import ctypes
import functools
from collections.abc import Callable
from enum import IntEnum

from pidtab.library import load
from pidtab.raw import Function


class State(IntEnum):
    """Where a call is. From the last four it never goes on."""

    QUEUED, ENTERED, ANSWERED, NOT_KNOWN, NOT_MADE, CANCELLED = range(6)


class Put(IntEnum):
    """What is to be put next."""

    REST, OPEN, TAKE, SEAL, ENTRY = range(5)


class Taken(IntEnum):
    """What became of a call that had its turn."""

    REFUSED, PASSES, BEGINS, JOINS, FILLS = range(5)


class LogOutcome(IntEnum):
    """What the log makes of an entry of calls."""

    MADE, REPEATED, GONE, GAP = range(4)


class Reading(IntEnum):
    """What follows from what was read."""

    BUSY, IGNORES, TELLS, RENEWS, MISSES = range(5)


class Told(IntEnum):
    """What a call is told."""

    REFUSED, PASSES, ANSWERS, LOSES, DROPS, ENDS = range(6)


class HostCall(ctypes.Structure):
    """A `struct host_call`."""

    _fields_ = [
        *((name, ctypes.c_uint64) for name in ("ticket", "lines", "size", "deadline", "session", "sequence", "place")),
        ("state", ctypes.c_uint32),
    ]


class HostNumbers(ctypes.Structure):
    """A `struct host_calls`."""

    _fields_ = [
        *((name, ctypes.c_uint64) for name in ("submitted", "taken", "told", "session", "sequence", "made", "lines", "size")),
        *((name, ctypes.c_uint64) for name in ("told_session", "told_sequence", "told_to")),
        ("telling", ctypes.c_uint32),
        *((name, ctypes.c_bool) for name in ("is_filling", "is_full", "is_putting", "is_stopped")),
    ]


class PutStep(ctypes.Structure):
    """A `struct host_put_step`."""

    _fields_ = [("kind", ctypes.c_uint32), ("first", ctypes.c_uint64), ("second", ctypes.c_uint64)]


HOST, CALL, NUMBER, LONG, FLAG = ctypes.POINTER(HostNumbers), ctypes.POINTER(HostCall), ctypes.c_uint32, ctypes.c_uint64, ctypes.c_bool

# What each function answers, and takes.
FUNCTIONS: dict[str, Function] = {
    "host_calls_begin": (None, [HOST]),
    "host_calls_submit": (FLAG, [HOST, CALL, LONG, LONG, LONG]),
    "host_calls_next_put": (None, [HOST, ctypes.POINTER(PutStep)]),
    "host_calls_opened": (FLAG, [HOST, LONG]),
    "host_calls_take": (NUMBER, [HOST, CALL]),
    "host_calls_seal": (FLAG, [HOST]),
    "host_calls_acknowledge": (FLAG, [HOST, LONG, LONG]),
    "host_calls_is_telling": (FLAG, [HOST]),
    "host_calls_read": (NUMBER, [HOST, NUMBER, LONG, LONG]),
    "host_calls_load": (NUMBER, [HOST, LONG, FLAG, LONG]),
    "host_calls_tell": (NUMBER, [HOST, CALL]),
    "host_calls_stop": (None, [HOST]),
    "host_calls_cancel": (FLAG, [CALL]),
    "host_calls_give_up": (None, [CALL]),
    "host_calls_expire": (FLAG, [CALL, LONG]),
}


@functools.cache
def load_calls(path: str) -> ctypes.CDLL:
    """The functions of a library. A PyDLL keeps the interpreter's lock: each takes less time than to give it up."""
    return load(ctypes.PyDLL, path, {"pidtab_version": (NUMBER, []), **FUNCTIONS})


class HostCalls:
    """A host: its struct, with the functions on it and on its calls, without `host_calls_` before their names. One thread at a time uses it."""

    submit: Callable[[HostCall, int, int, int], bool]
    next_put: Callable[[PutStep], None]
    opened: Callable[[int], bool]
    # A `Taken`.
    take: Callable[[HostCall], int]
    seal: Callable[[], bool]
    acknowledge: Callable[[int, int], bool]
    is_telling: Callable[[], bool]
    # Both a `Reading`.
    read: Callable[[LogOutcome, int, int], int]
    load: Callable[[int, bool, int], int]
    # A `Told`.
    tell: Callable[[HostCall], int]
    stop: Callable[[], None]
    cancel: Callable[[HostCall], bool]
    give_up: Callable[[HostCall], None]
    expire: Callable[[HostCall, int], bool]

    def __init__(self, path: str) -> None:
        library = load_calls(path)
        # All that the machine knows, to be looked at.
        self.numbers = HostNumbers()
        library.host_calls_begin(self.numbers)
        for name, (_, takes) in FUNCTIONS.items():
            function = getattr(library, name)
            setattr(self, name.removeprefix("host_calls_"), functools.partial(function, self.numbers) if takes[0] is HOST else function)
