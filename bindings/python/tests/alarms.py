"""A signal that comes again and again, for tests of what it may interrupt."""

import signal
from collections.abc import Callable, Iterator
from contextlib import contextmanager
from types import FrameType


@contextmanager
def alarms(handler: Callable[[int, FrameType | None], object], first: float, every: float = 0.0) -> Iterator[None]:
    """Calls the handler of a signal in so many seconds, and then again and again."""
    before = signal.signal(signal.SIGALRM, handler)
    try:
        signal.setitimer(signal.ITIMER_REAL, first, every)
        yield
    finally:
        signal.setitimer(signal.ITIMER_REAL, 0)
        signal.signal(signal.SIGALRM, before)


class Awaiting:
    """Raises a KeyboardInterrupt at a signal while one is awaited. Where nobody would catch it, it comes later."""

    awaited = False

    def interrupt(self, number: int, frame: FrameType | None) -> None:
        if self.awaited:
            self.awaited = False
            raise KeyboardInterrupt
