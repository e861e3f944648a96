"""What is raised: refusals of the table, as the kernel's errors, and faults of the program or the library."""

import errno
from typing import Any

# More of a line is not told.
MOST_TOLD = 200


class TableClosed(RuntimeError):
    """The table was closed, or is that of the process of which this one is a fork."""


class TableBusy(RuntimeError):
    """Another thread is in a function of a table that was opened without `threads`. Nothing was done."""


class NoHistory(RuntimeError):
    """What needs a history was asked of a table that was opened without `keep`."""


class NoThreads(RuntimeError):
    """What needs a lock, or waits for another thread, was asked of a table that was opened without `threads`."""


class SeatsTaken(RuntimeError):
    """Each worker of a table has its seat already."""


class OtherSettings(UserWarning):
    """A saved history was resumed with settings that are not its own, which stay."""


class NotKept(LookupError):
    """The history has no entry with the ordinal: it was cut away, or there is no such call yet."""


class SaverEnded(RuntimeError):
    """The saver of a table has ended, and whether the call is saved is not known."""


class Unsaved(RuntimeError):
    """As many calls are recorded and not saved as the bound lets there be, and the saver has ended or failed, which is the cause. The call was not made."""


class WaitingEnded(RuntimeError):
    """The waits for calls of a table were ended, and the call is not recorded."""


class BadHistory(ValueError):
    """A file that is no saved history, or not the one that was written, or whose calls have other replies now.

    The first `calls` are whole and good, and what is wrong stands in what is saved at the byte `place`, which is 0 for the head.
    """

    calls: int = 0
    place: int = 0


class BadText(ValueError):
    """A text that is that of no table. `why` says what is wrong with the line, which counts from 1."""

    line: int = 0
    why: str = ""


class NotKnown(RuntimeError):
    """Whether calls on many hosts were made is not known: the log did not answer within the patience, or the replica was closed or stopped.

    Where `sent` is False, nothing of them was put into the log: they were not made, and may be asked again. Else they were made, or were not, or
    will be made yet. Read the table once the log answers again, and then decide: `ask(now=True)`, `catch_up` and `list`. The cause, where there
    is one, is what stopped the replica.
    """

    def __init__(self, what: str, sent: bool = True) -> None:
        super().__init__(what)
        self.sent = sent


class Diverged(RuntimeError):
    """Two hosts have answered the same calls otherwise, or have other tables, and this replica has stopped. It does not say which of them is wrong.

    Stop all replicas of the log. `pidtab-replay` plays it by one thread, and names the entries whose writers had answered otherwise: the hosts
    that wrote them have another version of pidtab, or memory that fails. Repair them, and open all replicas again.
    """


class LogFault(RuntimeError):
    """The log cannot be used, and this replica has stopped or was not opened. No call was put into it after that.

    - It has other settings: open it with the `pid_max` that the sentence has, or by the release that has its model, or take another name.
    - It was trimmed, changed or lost an entry: nothing can be built from it any more. Take another name, and make a new table there.
    - An entry cannot be read: a later release has written it, or something else writes below the log's name.
    - It refuses what it is asked, or did not answer when the replica was opened: the sentence has its reason.
    """


class ProgramFault(RuntimeError):
    """The program does not do what it should."""


class ProgramMissing(ProgramFault):
    """The program is not there, or cannot be started."""


class ProgramEnded(ProgramFault):
    """The program answers no more."""


class LibraryFault(RuntimeError):
    """The library is not the one that this package is written for, or does not do what it should."""


class LibraryMissing(LibraryFault):
    """The library is not there, or cannot be loaded."""


class Refusal(OSError):
    """A call that the table refused, with the kernel's errno and, as `why`, the word and the id that may stand after it.

    `word` is the word alone, as "pids-limit", and `id` the number after it: that of the namespace of a "no-number", and of the control group of a
    "pids-limit". None has no id.
    """

    why: str = ""
    word: str = ""
    id: int | None = None

    def to_object(self) -> dict[str, Any]:
        """The name of its errno, its word and its id as docs/list.schema.json has them, for `json`."""
        return {"error": errno.errorcode[self.errno or 0], "word": self.word, "id": self.id}


class ProcessLookupRefusal(Refusal, ProcessLookupError):
    """ESRCH."""


class ChildProcessRefusal(Refusal, ChildProcessError):
    """ECHILD."""


class BlockingRefusal(Refusal, BlockingIOError):
    """EAGAIN."""


class PermissionRefusal(Refusal, PermissionError):
    """EPERM and EACCES."""


class NotFoundRefusal(Refusal, FileNotFoundError):
    """ENOENT."""


# An error that is not here has no class of its own in Python.
REFUSALS: dict[int, type[Refusal]] = {
    errno.ESRCH: ProcessLookupRefusal,
    errno.ECHILD: ChildProcessRefusal,
    errno.EAGAIN: BlockingRefusal,
    errno.EPERM: PermissionRefusal,
    errno.EACCES: PermissionRefusal,
    errno.ENOENT: NotFoundRefusal,
}


# Written by tools/interface: refusals.
# The words of the refusals, by their numbers from 1 on.
WORDS = (
    "no-caller", "no-task", "no-child", "no-number", "pids-limit", "space-fallen", "too-deep", "elsewhere", "bad-group", "other-session",
    "is-leader", "no-group", "executed", "root-init", "no-control", "control-busy", "root-control", "bad-limit", "control-depth",
)  # fmt: skip

# After these words is the id of the namespace, or the control group, that refuses.
WORDS_WITH_ID = ("no-number", "pids-limit")
# The end of refusals.


# Written by tools/interface: faults.
# What a text is that of no table for, by the numbers of the faults from 1 on.
TEXT_FAULTS = (
    "bad line", "wrong digest", "bad settings", "out of order", "unknown parent", "unknown namespace", "unknown control group", "bad name",
    "number in use twice", "namespace without an init", "no number left", "impossible line",
)  # fmt: skip
# The end of faults.


def bad_text(line: int, kind: int) -> BadText:
    """The fault of a text."""
    why = TEXT_FAULTS[kind - 1]
    fault = BadText(f"line {line}: {why}")
    fault.line, fault.why = line, why
    return fault


def shorten(text: str) -> str:
    """The text, or its first 200 characters where it has more."""
    return text if len(text) <= MOST_TOLD else f"{text[:MOST_TOLD]}.."


def say_why(number: int, id: int) -> str:
    """What a refusal says: the word of its number, and the id where it has one."""
    word = WORDS[number - 1]
    return f"{word} {id}" if word in WORDS_WITH_ID else word


def refusal_of(number: int, line: str, why: str) -> Refusal:
    """The refusal with the errno, of the call on the line."""
    refusal = REFUSALS.get(number, Refusal)(number, f"{line}: {why}")
    refusal.why = why
    refusal.word, _, id = why.partition(" ")
    refusal.id = int(id) if id else None
    return refusal


def read_refusal(line: str, answer: str) -> Refusal | None:
    """The refusal that an answer is; None for any other answer."""
    name, _, why = answer.partition(" ")
    # No other answer begins so: all others are lower case or digits.
    number = getattr(errno, name, None) if name.startswith("E") else None
    return None if number is None else refusal_of(number, line, why)


def read_fault(line: str, answer: str) -> Exception | None:
    """What an answer raises; None for one that only answers."""
    line = shorten(line)
    if answer == "bad line":
        return ValueError(f"bad line: {line}")
    if answer == "no memory":
        return MemoryError(f"{line}: no memory")
    if answer == "spent":
        return OverflowError(f"{line}: spent")
    return read_refusal(line, answer)
