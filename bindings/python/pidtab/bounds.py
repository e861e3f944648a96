"""The ranges of what tables are made with and asked."""

import math
import threading
from operator import index
from typing import SupportsIndex

# Written by tools/interface: bounds.
DEFAULT_PID_MAX = 32768
LEAST_PID_MAX = 301
GREATEST_PID_MAX = 4194304
# The end of bounds.


GREATEST_NUMBER = 2**64 - 1

# The bound of a history that keeps all of it.
ALL = GREATEST_NUMBER


def check_range(name: str, number: SupportsIndex, least: int, greatest: int) -> int:
    """The same, if it is an integer in the range."""
    number = index(number)
    if not least <= number <= greatest:
        raise ValueError(f"{name} is {least} to {greatest}, not {number}")
    return number


def check_setting(name: str, number: SupportsIndex, least: int, greatest: int) -> int:
    """The same, if it is no truth value either: `keep=True` would keep one entry, which nobody means."""
    if isinstance(number, bool):
        raise TypeError(f"{name} is a number, not {number}")
    return check_range(name, number, least, greatest)


def check_seconds(name: str, seconds: float) -> float:
    """The same, if it is a number of seconds above 0, and not without an end."""
    if isinstance(seconds, bool) or not isinstance(seconds, (int, float)):
        raise TypeError(f"{name} is a number of seconds, not {type(seconds).__name__}")
    if not (0 < seconds < threading.TIMEOUT_MAX and math.isfinite(seconds)):
        raise ValueError(f"{name} is a number of seconds above 0, not {seconds}")
    return float(seconds)


def check_timeout(name: str, seconds: float) -> float:
    """A number of seconds to wait, as it is or the most that a thread can; below 0 it is over already."""
    if isinstance(seconds, bool) or not isinstance(seconds, (int, float)):
        raise TypeError(f"{name} is a number of seconds or None, not {type(seconds).__name__}")
    # What is no number is no number itself. An integer may be above all numbers with a point.
    if seconds != seconds:
        raise ValueError(f"{name} is a number of seconds or None, not {seconds}")
    return float(max(0, min(seconds, threading.TIMEOUT_MAX)))


def check_pid_max(pid_max: SupportsIndex) -> int:
    """The same, if it is an integer in its range."""
    return check_setting("pid_max", pid_max, LEAST_PID_MAX, GREATEST_PID_MAX)
