"""Calls of the kernel that Python has no functions for, and a run that is alone with what it starts."""

import ctypes
import os
import signal
import sys
from collections.abc import Callable, Iterator
from contextlib import contextmanager
from types import FrameType

LIBC = ctypes.CDLL(None, use_errno=True)

NEW_MOUNTS = 0x00020000
NEW_PIDS = 0x20000000
NEW_NETWORK = 0x40000000

MS_NOSUID, MS_NODEV, MS_NOEXEC = 2, 4, 8
MS_REC, MS_PRIVATE = 0x4000, 0x40000
PR_SET_PDEATHSIG = 1

ENDS = (signal.SIGINT, signal.SIGTERM, signal.SIGHUP)


class Ended(BaseException):
    """A signal has asked for the end."""


def check(status: int, what: str) -> None:
    """Raises what a call of the C library says."""
    if status:
        raise OSError(ctypes.get_errno(), f"{what}: {os.strerror(ctypes.get_errno())}")


def new_network() -> int:
    """A network namespace, as an open file. It goes when nobody is in it and nobody has it open. The calling thread is in it then."""
    check(LIBC.unshare(NEW_NETWORK), "no network namespace")
    return os.open("/proc/thread-self/ns/net", os.O_RDONLY | os.O_CLOEXEC)


def enter_network(space: int) -> None:
    """Has the calling thread be in a network namespace."""
    check(LIBC.setns(space, NEW_NETWORK), "setns")


def mount(source: str, target: str, kind: str, flags: int = 0, data: str = "") -> None:
    """Mounts something."""
    check(LIBC.mount(source.encode(), target.encode(), kind.encode(), flags, data.encode()), f"mount {target}")


def unmount(target: str) -> None:
    """Takes a mount away."""
    check(LIBC.umount2(target.encode(), 0), f"umount {target}")


def end_by_signal(number: int, frame: FrameType | None) -> None:
    """A handler: the first signal ends what runs, and those behind it do nothing."""
    for it in ENDS:
        signal.signal(it, signal.SIG_IGN)
    raise Ended


@contextmanager
def ends_by_signals() -> Iterator[None]:
    """Meanwhile the signals that ask for an end raise `Ended`."""
    before = {it: signal.signal(it, end_by_signal) for it in ENDS}
    try:
        yield
    finally:
        for number, handler in before.items():
            signal.signal(number, handler)


def run_alone(step: Callable[[], int]) -> int:
    """Runs a step in a process with PIDs and mounts of its own: its status.

    However that process or this one ends, all that it has started ends with it, and its mounts go. This one can start no others behind it.
    """
    check(LIBC.unshare(NEW_PIDS), "no namespace of PIDs")
    child = os.fork()
    if child == 0:
        run_as_first(step)
    try:
        with ends_by_signals():
            return os.waitstatus_to_exitcode(os.waitpid(child, 0)[1])
    except Ended:
        os.kill(child, signal.SIGTERM)
        return os.waitstatus_to_exitcode(os.waitpid(child, 0)[1])


def run_as_first(step: Callable[[], int]) -> None:
    """Runs a step as the first process of its namespace, and ends it. The signals of a terminal do not come here."""
    status = 1
    try:
        with ends_by_signals():
            check(LIBC.prctl(PR_SET_PDEATHSIG, signal.SIGKILL), "prctl")
            os.setsid()
            check(LIBC.unshare(NEW_MOUNTS), "no namespace of mounts")
            mount("none", "/", "none", MS_REC | MS_PRIVATE)
            mount("proc", "/proc", "proc", MS_NOSUID | MS_NODEV | MS_NOEXEC)
            status = step()
    except Ended:
        status = 128 + signal.SIGTERM
    except BaseException:
        sys.excepthook(*sys.exc_info())
    finally:
        sys.stdout.flush()
        sys.stderr.flush()
        os._exit(status)
