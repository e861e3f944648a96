"""What a table is opened with."""

from collections.abc import Sequence
from typing import NamedTuple, SupportsIndex

from pidtab.bounds import ALL, DEFAULT_PID_MAX, GREATEST_NUMBER, check_pid_max, check_range, check_setting
from pidtab.raw import MOST_WORKERS, PidtabSettings

NEEDS_A_HISTORY = "{} count the calls of a history: open it with keep"


class Settings(NamedTuple):
    """The settings of a table, each in its range."""

    pid_max: int = DEFAULT_PID_MAX
    keep: int = 0
    workers: int = 1
    threads: bool = False
    first_stamp: int = 1

    def __str__(self) -> str:
        """As a table shows them: those that are not as they are where nobody names them."""
        keep = "pidtab.ALL" if self.keep == ALL else self.keep
        named = {"keep": keep, "workers": self.workers, "threads": self.threads}
        told = [f" {name}={value}" for name, value in named.items() if getattr(self, name) != self._field_defaults[name]]
        return f"pid_max={self.pid_max}{''.join(told)}"

    def packed(self) -> PidtabSettings:
        """The same for the library."""
        return PidtabSettings(self.pid_max, self.workers, self.first_stamp, self.keep, self.threads)


def check_keep(keep: SupportsIndex, least: int = 0) -> int:
    """How many entries are kept."""
    return check_setting("keep", keep, least, ALL)


def check_threads(threads: bool) -> bool:
    """Whether many threads may be in the table. How many they are is no setting."""
    if not isinstance(threads, bool):
        raise TypeError(f"threads is True or False, not {threads!r}")
    return threads


def check_settings(pid_max: SupportsIndex, keep: SupportsIndex, workers: SupportsIndex, threads: bool, first_stamp: SupportsIndex) -> Settings:
    """The settings, if each is in its range and they fit together."""
    found = Settings(
        check_pid_max(pid_max),
        check_keep(keep),
        check_setting("workers", workers, 1, MOST_WORKERS),
        check_threads(threads),
        check_setting("first_stamp", first_stamp, 1, GREATEST_NUMBER),
    )
    if found.workers > 1 and found.keep == 0:
        raise ValueError(NEEDS_A_HISTORY.format("workers"))
    return found


def check_counts(keep: int, workers: SupportsIndex | None, recorded: Sequence[SupportsIndex] | None) -> list[int]:
    """How many calls of each worker were recorded before."""
    if isinstance(recorded, (str, bytes, bytearray)):
        raise TypeError(f"recorded is a number for each worker, not {type(recorded).__name__}")
    counted = None if workers is None else check_setting("workers", workers, 1, MOST_WORKERS)
    counts = [0] * (counted or 1) if recorded is None else [check_setting("recorded", it, 0, GREATEST_NUMBER) for it in recorded]
    check_range("the numbers of `recorded`", len(counts), 1, MOST_WORKERS)
    if counted not in (None, len(counts)):
        raise ValueError(f"recorded has {len(counts)} numbers, and workers is {counted}")
    if keep == 0 and (len(counts) > 1 or recorded is not None):
        raise ValueError(NEEDS_A_HISTORY.format("workers" if recorded is None else "the numbers of `recorded`"))
    return counts
