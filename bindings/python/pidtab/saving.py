"""The saved history of a table, and the saver of one that many threads use."""

import ctypes
import os
from contextlib import AbstractContextManager

from pidtab.bounds import GREATEST_NUMBER, check_range
from pidtab.faults import NotKept, SaverEnded, Unsaved
from pidtab.history import History
from pidtab.hold import Hold
from pidtab.raw import DEVICE, DONE, ENDED, NOT_KEPT, TORN, PidtabSavedHead
from pidtab.saved import FilePath, Saved, SavedFile
from pidtab.settings import check_keep

# What a call answers that the bound does not let be made: the status of the saver.
OF_SAVER = (DEVICE, ENDED, NOT_KEPT, TORN)


class Saving(History):
    """What saves the history of a table to a file. Each of these is a `NoHistory` of a table without one."""

    pid_max: int
    first_stamp: int = 1

    # One thread at a time is at the file. A handler of a signal may come between two steps of a save, and save too.
    _saving: AbstractContextManager[object]
    # None where it was neither loaded nor saved.
    _file: SavedFile | None = None
    # Whether a thread saves, or may wait for one that does.
    _has_saver = False
    # The text that it was made of, and the ordinal of its first call then; empty where its history begins with the root init.
    _opening = b""
    _first_ordinal = 0

    @property
    def saved(self) -> Saved | None:
        """What the table's file has, by the last `save` or as it was loaded; None where there is none."""
        file = self._file
        return None if file is None or not self._is_open() else file.told

    def save(self, path: FilePath, *, sync: bool = False) -> Saved:
        """Writes the calls that the file does not have yet, and tells what it has then. Other threads may make calls meanwhile.

        The file of the table is the one that it was loaded from or saved to last; a torn end is cut off it. Another is begun, if it is not there
        or empty, and is the table's from then on; else it is a FileExistsError. `NotKept` is raised where the next call to be saved was cut away, and
        of a table that was made by `from_dump`: a file has all calls from the first on.
        With `sync` the machine may crash: that is fsync(2).

        A device that fails is an OSError. After it, and after an interrupt, the next save goes on with the same byte.
        """
        functions, path = self._check_free().functions, os.path.abspath(os.fsdecode(path))
        with self._saving:
            file = self._file_at(path, functions)
            file.make_ready()
            file.check(self._append(file), "save")
            if sync:
                file.sync()
            return file.told

    def serve(self, path: FilePath, *, keep: int = 0, sync: bool = False) -> Saved:
        """The saver, for a thread of its own: it saves what is recorded, and sleeps until more is, until `end_saving` or `close`. What the file has then.

        With `sync` it ends each time with fdatasync(2), so one serves all that wait, and only after it the calls count as saved. Where `keep` is not
        0, it cuts the history whenever that has so many entries: all others wait while the last calls are written and the kept ones made once more.

        It raises what `save` does, and `wait_saved` raises it too. It may be called again; but where fdatasync failed, nobody knows what the disk has:
        load the file. Ctrl-C waits for its end. Of a table of one thread it is a `NoThreads`, as is all else that is about the saver.
        """
        keep = check_keep(keep)
        hold, path = self._with_saver(), os.path.abspath(os.fsdecode(path))
        with self._saving:
            file = self._file_at(path, hold.functions)
            file.make_ready()
            if sync:
                file.sync()
            file.check(int(hold.functions.pidtab_saved_serve(file.at, hold.at, keep, sync)), "serve")
            return file.told

    def wait_saved(self, ordinal: int) -> None:
        """Waits until the call with the ordinal is saved: after the `save`, the load or the write of `serve` that has it, each of which wakes all that wait.

        What the saver's last write has raised is raised, at once until one does better: whether the call is saved is not known. `SaverEnded` is
        raised after `end_saving`. Before the first one it waits, and Ctrl-C does so too.
        """
        ordinal = check_range("ordinal", ordinal, 0, GREATEST_NUMBER)
        hold = self._with_saver()
        status = int(hold.functions.pidtab_saved_wait(hold.at, ordinal))
        if status != DONE:
            raise self._saver_fault(status)

    def bound_unsaved(self, most: int) -> None:
        """Has at most so many calls be recorded and not saved from now on; 0, as at first, is any number.

        A call that would be one more waits for the saver, as `wait_saved` does. Where the saver's last write failed, or it has ended, the call is
        not made, and is an `Unsaved`. The thread that saves makes no call then.
        """
        most = check_range("most", most, 0, GREATEST_NUMBER)
        hold = self._with_saver()
        hold.functions.pidtab_saved_bound(hold.at, most)

    def end_saving(self) -> None:
        """Ends the saver, for good: `serve` saves what was recorded, and answers.

        What waits, or comes to wait, for a call that is not saved is a `SaverEnded`. So it is called when no thread waits any more.
        """
        hold = self._check_waits()
        hold.functions.pidtab_saved_end(hold.at)

    def _with_saver(self) -> Hold:
        """The open table, of which a close ends the saver first."""
        hold = self._check_waits()
        self._has_saver = True
        return hold

    def _end_saver(self, hold: Hold) -> None:
        """Ends the saver of a table that is closed."""
        if self._has_saver:
            hold.functions.pidtab_saved_end(hold.at)

    def _saver_fault(self, status: int) -> Exception:
        """What the saver raised; that the table is closed where that has ended it."""
        self._check_open()
        file = self._file
        if status == ENDED or file is None:
            return SaverEnded("the saver has ended, and whether the call is saved is not known")
        return file.fault_of(status, "save")

    def _bounded(self, name: str, *arguments: object) -> int:
        """What a function answers that makes a call, where the bound lets it be made."""
        status = self._status(name, *arguments)
        if status != DONE and status in OF_SAVER:
            raise Unsaved("too many calls are not saved, and the saver has ended or failed") from self._saver_fault(status)
        return status

    def _file_at(self, path: str, functions: ctypes.CDLL) -> SavedFile:
        """The file at the path, which has a head."""
        before = file = self._file
        if file is None or not file.is_at(path):
            if self._opening:
                raise NotKept(f"the table was made of the text of another one, whose calls it does not have to save to {path}")
            if self.counts().first_kept != 0:
                raise NotKept(f"call 0 is not kept: it was cut away before it was saved to {path}")
            file = self._file = SavedFile(functions, path, os.O_RDWR | os.O_CREAT)
        try:
            if not file.is_begun:
                file.begin(PidtabSavedHead(self.pid_max, self.workers, self.first_stamp))
        finally:
            if not file.is_begun:
                self._file = before
        return file

    def _append(self, file: SavedFile) -> int:
        """The status of an append."""
        hold = self._check_open()
        return int(hold.functions.pidtab_saved_append(file.at, hold.at))
