"""A table in this process, by the library of C."""

import ctypes
import os
import threading
import warnings
import weakref
from collections.abc import Callable, Sequence
from contextlib import AbstractContextManager, nullcontext
from functools import partial
from itertools import islice
from threading import get_ident

from pidtab.bounds import ALL, DEFAULT_PID_MAX, GREATEST_NUMBER, check_range
from pidtab.faults import NotKept, OtherSettings, SeatsTaken
from pidtab.hold import Hold
from pidtab.labels import Labels
from pidtab.library import find_library, function_of, load_library
from pidtab.lock import Lock
from pidtab.native import check, check_loaded, head_of, read_written, text_bytes
from pidtab.number_calls import NumberCalls
from pidtab.owner import TABLES
from pidtab.raw import MOST_WORKERS, OUT_OF_RANGE, Pidtab, PidtabFault
from pidtab.saved import FilePath, SavedFile
from pidtab.saving import Saving
from pidtab.seat import Seat
from pidtab.settings import Settings, check_counts, check_keep, check_settings, check_threads
from pidtab.waiting import Waiting
from pidtab.watch import Watch

Library = str | os.PathLike[str] | None


class Table(Saving, Waiting, NumberCalls):
    """A table of this process. Its calls are worker 0's, and each other worker makes its calls by a `seat`.

    Without `keep` it has no history, and the memory of what stands in it. With it each call is recorded with its reply, in 64 bytes, until it is cut: by a
    checkpoint, or where there are more entries than `keep`, which costs the cut call once more. `keep=pidtab.ALL` keeps all. The calls, made again in
    their order by one thread, have the same answers.

    Without `threads` the interpreter's lock is kept through each call, so threads may share the table, and a long call makes all of them wait. With it the
    library has a lock around the table, for which a thread waits without the interpreter's lock: each call is made alone, and its ordinal is its place among
    all. Where there is no interpreter's lock, a second thread in a table without `threads` has a `TableBusy`.

    One that nobody has any more, by a seat or otherwise, is closed.
    """

    # Whether the number of workers is that of a file.
    _is_loaded = False
    # What it was opened with.
    _settled = Settings()

    def __init__(
        self,
        pid_max: int = DEFAULT_PID_MAX,
        library: Library = None,
        *,
        keep: int = 0,
        workers: int = 1,
        threads: bool = False,
        first_stamp: int = 1,
    ) -> None:
        """Opens it with process 1 alone.

        `keep` is 0 for no history, 1 to `pidtab.ALL` entries, and 1 to 16 workers count the calls of a history. The first call has the first stamp, 1 to
        2^64 - 1, as the id of what it makes; each later one has the next. A setting out of its range is a ValueError.
        """
        settings = check_settings(pid_max, keep, workers, threads, first_stamp)
        self.library = find_library(library)
        # A library of an earlier release has tables without settings.
        if settings == Settings(settings.pid_max):
            hold = self._open(settings, "pidtab_open", settings.pid_max)
        else:
            hold = self._open(settings, "pidtab_open_with", settings.packed())
        check(hold.status, "open")
        self._begin(hold, settings)

    @classmethod
    def from_dump(
        cls,
        text: str | bytes | bytearray | memoryview,
        library: Library = None,
        *,
        keep: int = 0,
        workers: int | None = None,
        recorded: Sequence[int] | None = None,
        threads: bool = False,
    ) -> "Table":
        """A table as a text of `dump` says: each later call has the answer, and the stamp, that it would have had there.

        Any text may be given. One that is that of no table is a `BadText`, which has the line and what is wrong with it.

        With `keep` a history begins there. Ordinals begin at 0, or where `recorded` says how many calls of each worker were recorded before, at their sum;
        then there are as many workers as numbers. Such a history is in no file: see `save`.
        """
        written = text_bytes(text)
        keep, threads = check_keep(keep), check_threads(threads)
        counts = check_counts(keep, workers, recorded)
        table, fault = cls.__new__(cls), PidtabFault()
        table.library = find_library(library)
        settings = Settings(DEFAULT_PID_MAX, keep, len(counts), threads)
        before = (ctypes.c_uint64 * len(counts))(*counts)
        hold = table._open(settings, "pidtab_load_with", written, len(written), settings.packed(), before, fault)
        if hold.status == OUT_OF_RANGE:
            raise ValueError(f"recorded: {sum(counts)} calls are as many as the stamp of the text, or more")
        check_loaded(hold.status, fault)
        pid_max, stamp = head_of(written)
        table._opening, table._first_ordinal = written if keep else b"", sum(counts)
        table._begin(hold, settings._replace(pid_max=pid_max, first_stamp=stamp - sum(counts)))
        return table

    @classmethod
    def load(cls, path: FilePath, *, keep: int = ALL, threads: bool = False, library: Library = None) -> "Table":
        """A table of a saved history: its calls are made again, and their replies compared with the saved ones. The file stays as it is.

        A torn end, which is that of a writer that was stopped, is left out: `saved` has its length. Any other byte that is not the one that was
        written is a `BadHistory`, and so is a reply that is another one now. The settings are those of the file, and no seat is taken. The history is cut
        whenever it has `keep` entries; later all is kept. With `threads` others may go on meanwhile. Ctrl-C waits.
        """
        settings = Settings(keep=check_keep(keep, 1), threads=check_threads(threads))
        return cls._load(path, library, os.O_RDONLY, settings, SavedFile.load)

    @classmethod
    def resume(
        cls,
        path: FilePath,
        *,
        pid_max: int | None = None,
        keep: int = ALL,
        workers: int | None = None,
        threads: bool = False,
        first_stamp: int | None = None,
        library: Library = None,
    ) -> "Table":
        """The same, with a torn end cut off the file, so that `save` goes on with it.

        A file that is not there, is empty, or ends within its head is begun, and the table has these settings, or those of a `Table`. Any other keeps its
        own: then one of these that is another is an `OtherSettings`, which is a warning.
        """
        check_keep(keep, 1)
        named = {"pid_max": pid_max, "workers": workers, "first_stamp": first_stamp}
        given = {name: it for name, it in named.items() if it is not None}
        settings = check_settings(**{"pid_max": DEFAULT_PID_MAX, "workers": 1, "first_stamp": 1, **given}, keep=keep, threads=threads)
        table = cls._load(path, library, os.O_RDWR | os.O_CREAT, settings, SavedFile.resume)
        other = [f"{name} is {getattr(table, name)}, and not {getattr(settings, name)}" for name in given if getattr(table, name) != getattr(settings, name)]
        if other:
            warnings.warn(f"{os.fsdecode(path)}: the settings of a saved history stay: {', '.join(other)}", OtherSettings, stacklevel=2)
        return table

    @classmethod
    def _load(
        cls, path: FilePath, library: Library, flags: int, settings: Settings, open_at: Callable[[SavedFile, Pidtab, Settings], int]
    ) -> "Table":
        """A table by its file."""
        table = cls.__new__(cls)
        table.library = find_library(library)
        functions = load_library(table.library, settings.threads)
        function_of(functions, table.library, "pidtab_saved_load")
        file = SavedFile(functions, os.path.abspath(os.fsdecode(path)), flags)
        hold = Hold(functions, lambda at: open_at(file, at, settings))
        file.check(hold.status, "load")
        head = file.at.head
        table._file, table._is_loaded = file, True
        table._begin(hold, Settings(head.pid_max, ALL, head.workers, settings.threads, head.first_stamp))
        return table

    def _open(self, settings: Settings, name: str, *given: object) -> Hold:
        """What holds a table that a function opens."""
        functions = load_library(self.library, settings.threads)
        open_at = function_of(functions, self.library, name)
        return Hold(functions, lambda at: open_at(at, *given))

    def _begin(self, hold: Hold, settings: Settings) -> None:
        """Has the table."""
        self._settled = settings
        self.pid_max, self.keep, self.workers, self.threads, self.first_stamp = settings
        self._saving, self._labels = threading.RLock(), Labels()
        if self.threads:
            self._watch = Watch()
            self._ask_by_name()
        else:
            # With no function of Python around it, since each call goes through here. The interpreter's lock is kept, so no close comes amid it.
            self._call, self._line = partial(hold.functions.pidtab_call, hold.at), partial(hold.functions.pidtab_line, hold.at)
        self._hold = hold
        TABLES.add(self)

    def _ask_by_name(self) -> None:
        """Has calls find the table, if it is open. They do not keep it."""
        ask = partial(Table._bounded, weakref.proxy(self))
        self._call, self._line = partial(ask, "pidtab_call"), partial(ask, "pidtab_line")

    def close(self) -> None:
        """Frees the table. A second time nothing is done. Calls that other threads are in are made before, and the saver and all waits end."""
        hold = None if self._is_left() else self._hold
        if hold is not None:
            hold.check_free()
        self._hold = self._file = None
        if hold is not None:
            # From here on no call finds it, not even where somebody has the hold yet.
            self._ask_by_name()
            self._end_saver(hold)
            self._end_waits(hold)

    def seat(self) -> Seat:
        """The seat of the next worker, from 0 on; `SeatsTaken` where each has its own. An interrupt amid it may lose a seat."""
        worker = ctypes.c_uint32()
        status = self._status("pidtab_seat", worker)
        if status == OUT_OF_RANGE:
            raise SeatsTaken(f"{'the one worker' if self.workers == 1 else f'each of the {self.workers} workers'} has its seat: {self._more_seats()}")
        check(status, "seat")
        return Seat(self, worker.value)

    def _more_seats(self) -> str:
        """What to do for one more."""
        if self._is_loaded:
            return "the saved history has no more, and threads may share a seat"
        return f"open the table with {'more' if self.keep else 'keep and more workers'}, at most {MOST_WORKERS}"

    def lock(self) -> Lock:
        """The lock of the table, for several calls in one go: within `with table.lock():` no other thread is in the table, and this one asks it, and makes its
        calls, as ever.

        All others wait meanwhile, and Ctrl-C for them too. What may wait for another thread, as `wait_changed` and `save`, and `close` are a RuntimeError
        within it. Of a table of one thread it is a `NoThreads`.
        """
        self._check_waits()
        return Lock(self)

    def dump(self) -> str:
        """All that there is to know of the table, as text (docs/SCRIPT.md), of which `from_dump` makes the table again. It has no history, and no workers.

        One table has one text, on every machine. It costs a copy of the table, while all threads wait.
        """
        self._check_owner()
        return read_written(self._question("dump"), "dump")

    def copy(self) -> "Table":
        """Another table that stands as this one does, with its settings and labels, and goes its own way from here on. Its history begins here, at 0.

        It costs what a dump and a load do.
        """
        workers = self.workers if self.keep else None
        copied = Table.from_dump(self.dump(), self.library, keep=self.keep, workers=workers, threads=self.threads)
        copied._labels = self._labels.copy()
        return copied

    def at(self, ordinal: int) -> "Table":
        """The table as it was before the call with the ordinal, as one without a history: as many calls were made, of those since it was opened.

        `NotKept` is raised where the history was cut, or where the call before is not reached yet. It costs the calls up to there, and where the
        table was made by `from_dump`, a load of its text, which is kept for this.
        """
        ordinal = check_range("ordinal", ordinal, 0, GREATEST_NUMBER)
        first = self._first_ordinal
        entries = self.entries(first)
        if not first <= ordinal <= self.counts().recorded:
            raise NotKept(f"the table before call {ordinal} is not kept: the calls of this one begin with {first}, or it is not reached yet")
        table = self._as_opened()
        try:
            table.answers(entry.line for entry in islice(entries, ordinal - first))
        except BaseException:
            table.close()
            raise
        return table

    def _as_opened(self) -> "Table":
        """The table before its first call, as one without a history."""
        if self._opening:
            return Table.from_dump(self._opening, self.library)
        return Table(self.pid_max, self.library, first_stamp=self.first_stamp)

    def _settings(self) -> str:
        return str(self._settled)

    def _alone(self) -> AbstractContextManager[object]:
        hold = self._check_open()
        return self.lock() if self.threads and get_ident() not in hold.inside else nullcontext()

    def _made(self, name: str, *given: object, told: tuple[object, ...] = ()) -> int:
        return self._bounded(f"pidtab_{name}", *given, *told)

    def _made_calls(self, *given: object) -> int:
        return self._bounded("pidtab_calls", 0, *given, ctypes.c_uint64())
