"""What is compared with a table of pidtab: an object with some of its methods, or a command that speaks the script language."""

import errno
import os
import select
import subprocess
import tempfile
from collections.abc import Iterable, Sequence
from typing import Protocol

from pidtab.answers import Forked, Reaped
from pidtab.faults import WORDS, ProgramMissing, shorten
from pidtab.forms import ALL_FORMS, TELLS_NOTHING, Form, Method, method_of, say_answer
from pidtab.listing import Listing, write_list
from pidtab.testing.methods import check_names, forms_of

# How long a command may take to answer a line, and to end once its input has.
PATIENCE = 10.0

ROOM = 65536

# What a command answers, perhaps with a reason after it, where it has made no such call.
NOT_ASKED = "n/a"

# The commands whose first number is the id of a control group, and the place of the id among the arguments where it is not the first.
OF_CONTROL = ("mk", "rm", "limit", "count")


class LeftOut(Exception):
    """The call is one that the other table does not have."""


class Peer(Protocol):
    """A table that is asked lines, each of which has an answer, also where it breaks at it."""

    # What it broke with, for the one who has to mend it.
    cause: BaseException | None

    def answer(self, line: str) -> str:
        """The answer to a line; `LeftOut` where it has no such call."""

    def list_text(self) -> str | None:
        """Its list, where it has one."""

    def forms(self, left_out: Iterable[Form] = ()) -> list[Form]:
        """The forms that it can be asked. `Misnamed` where one that was not left out would be missed by a slip."""

    def close(self) -> None:
        """Ends it."""


class ObjectPeer:
    """An object. It may tell less than a table of pidtab does: the child's number alone for a fork, and the errno alone for a refusal.

    Its ids of control groups are its own: what its `mk` tells is what its other methods get.
    """

    def __init__(self, table: object) -> None:
        self.table = table
        self.cause: BaseException | None = None
        self._calls = 0
        self._controls: dict[int, object] = {0: 0}

    def answer(self, line: str) -> str:
        """What the method tells or raises, in the words of the script language."""
        method = self._own(method_of(line))
        try:
            told = method.call(self.table)
        except NotImplementedError:
            raise LeftOut from None
        except OSError as refusal:
            answer = say_refusal(refusal)
        except Exception as fault:
            answer = self._broken(fault)
        else:
            answer = self._say(method.name, told)
        self._calls += 1
        return answer

    def _broken(self, fault: Exception) -> str:
        """What differs from all answers."""
        self.cause = fault
        return shorten(f"{type(fault).__name__}: {fault}")

    def _own(self, method: Method) -> Method:
        """The same call with the ids that the object has."""
        place = 0 if method.name in OF_CONTROL else 1 if method.name == "move" else None
        if place is None:
            return method
        words = list(method.positional)
        words[place] = self._controls.get(words[place], words[place])
        return method._replace(positional=tuple(words))

    def _say(self, name: str, told: object) -> str:
        """What the object tells, which may be a plain pair or number."""
        if name in TELLS_NOTHING:
            return "ok"
        if name == "mk":
            # The id that pidtab gives, which is the number of the call.
            self._controls[self._calls + 1] = told
            return f"control {self._calls + 1}"
        if name == "fork" and isinstance(told, int):
            return f"child {told}"
        if name in ("fork", "wait") and isinstance(told, tuple) and len(told) == 2:
            told = Forked(*told) if name == "fork" else Reaped(*told)
        return say_answer(name, told)

    def list_text(self) -> str | None:
        """What `list` tells as a `Listing`, where there is such a method."""
        told = self.table.list() if callable(getattr(self.table, "list", None)) else None  # type: ignore[attr-defined]
        return write_list(told) if isinstance(told, Listing) else None

    def forms(self, left_out: Iterable[Form] = ()) -> list[Form]:
        """Those whose method it has, with such arguments."""
        found = forms_of(self.table)
        check_names(self.table, found, left_out)
        return found

    def close(self) -> None:
        """Closes it, where it can be closed."""
        close = getattr(self.table, "close", None)
        if callable(close):
            close()


class LinePeer(ObjectPeer):
    """An object whose method `answer` takes a line of the script language. Its ids of control groups are those of pidtab."""

    def answer(self, line: str) -> str:
        """What the method answers, or how it breaks."""
        try:
            return str(self.table.answer(line))  # type: ignore[attr-defined]
        except NotImplementedError:
            raise LeftOut from None
        except Exception as fault:
            return self._broken(fault)

    def forms(self, left_out: Iterable[Form] = ()) -> list[Form]:
        """All: what it does not know, it refuses."""
        return list(ALL_FORMS.values())


def say_refusal(refusal: OSError) -> str:
    """The errno's name, with the word where the error has one of pidtab's."""
    name = errno.errorcode.get(refusal.errno or 0, f"errno {refusal.errno}")
    said = str(getattr(refusal, "why", "") or refusal.strerror or "").split(" ")[0]
    return f"{name} {said}" if said in WORDS else name


class CommandPeer:
    """A command that reads lines of the script language, and answers each with a line at once."""

    def __init__(self, words: Sequence[str], list_words: Sequence[str] = ()) -> None:
        self.cause: BaseException | None = None
        self._list_words = list_words
        self._asked: list[str] = []
        self._read = b""
        self._complaints = tempfile.TemporaryFile()
        try:
            self._child = subprocess.Popen(
                list(words), bufsize=0, stdin=subprocess.PIPE, stdout=subprocess.PIPE, stderr=self._complaints, start_new_session=True
            )
        except OSError as fault:
            self._complaints.close()
            raise ProgramMissing(f"cannot start {words[0]}: {fault.strerror}") from fault

    def answer(self, line: str) -> str:
        """Its answer, or how it ended, or that it did not answer."""
        assert self._child.stdin
        try:
            os.write(self._child.stdin.fileno(), f"{line}\n".encode())
        except BrokenPipeError:
            return self._end()
        answer = self._receive()
        if answer.partition(" ")[0] == NOT_ASKED:
            raise LeftOut
        self._asked.append(line)
        return answer

    def _receive(self) -> str:
        """The next line that it writes."""
        assert self._child.stdout
        pipe = self._child.stdout.fileno()
        while b"\n" not in self._read:
            if not select.select([pipe], [], [], PATIENCE)[0]:
                return f"no answer in {PATIENCE:g} s"
            part = os.read(pipe, ROOM)
            if not part:
                return self._end()
            self._read += part
        answer, _, self._read = self._read.partition(b"\n")
        return answer.decode("latin-1")

    def _end(self) -> str:
        """How it ended, with the last line that it complained of."""
        try:
            status = self._child.wait(PATIENCE)
        except subprocess.TimeoutExpired:
            return "its output ended"
        self._complaints.seek(0)
        said = self._complaints.read().decode("utf-8", "replace").strip().splitlines()
        return shorten(f"ended with status {status}" + (f": {said[-1]}" if said else ""))

    def list_text(self) -> str | None:
        """What the other command writes, which reads the whole script and then lists."""
        if not self._list_words:
            return None
        script = "".join(f"{line}\n" for line in self._asked)
        try:
            done = subprocess.run(list(self._list_words), input=script.encode(), capture_output=True, check=False, timeout=PATIENCE)
        except OSError as fault:
            raise ProgramMissing(f"cannot start {self._list_words[0]}: {fault.strerror}") from fault
        except subprocess.TimeoutExpired:
            return f"no list in {PATIENCE:g} s\n"
        return done.stdout.decode("latin-1") if done.returncode == 0 else f"the list ended with status {done.returncode}\n"

    def forms(self, left_out: Iterable[Form] = ()) -> list[Form]:
        """All: what it does not know, it refuses."""
        return list(ALL_FORMS.values())

    def close(self) -> None:
        """Ends it: by the end of its input, or else by force."""
        for file in (self._child.stdin, self._child.stdout, self._complaints):
            assert file
            file.close()
        try:
            self._child.wait(PATIENCE)
        except subprocess.TimeoutExpired:
            self._child.kill()
            self._child.wait()
