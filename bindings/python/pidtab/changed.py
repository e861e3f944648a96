"""A lock with what wakes those that wait for a change. No interrupt leaves the lock taken."""

import queue
import threading
import time
from collections.abc import Callable


class Changed(type(threading.RLock())):  # type: ignore[misc]
    """A lock for what threads change, and a wait for such a change.

    The handler of a signal runs after any call in Python code, and may raise there, as Ctrl-C does. The `Condition` of the library is entered by
    such code: an interrupt after it has its inner lock leaves that taken for ever. This is a lock of C, and `with` takes and gives it up in one step.
    Who waits does not have it, and waits by a queue of C.
    """

    def __init__(self) -> None:
        self._gates: list[queue.SimpleQueue[None]] = []

    def notify_all(self) -> None:
        """Wakes all that wait, after a change. It takes no lock."""
        for gate in tuple(self._gates):
            # One word is enough for who has not looked yet.
            if gate.empty():
                gate.put(None)

    def wait_for(self, holds: Callable[[], object], timeout: float | None = None) -> bool:
        """Waits until something holds, or the time is over: whether it holds. Who asks this does not have the lock."""
        end = None if timeout is None else time.monotonic() + timeout
        gate: queue.SimpleQueue[None] = queue.SimpleQueue()
        # Before it is looked at, so that no change is missed.
        self._gates.append(gate)
        try:
            while not holds():
                gate.get(timeout=None if end is None else max(0.0, end - time.monotonic()))
            return True
        except queue.Empty:
            return bool(holds())
        finally:
            self._gates.remove(gate)
