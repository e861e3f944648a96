"""One table, kept by the program `pidtab run` at the other end of a pipe."""

import os
import subprocess
import tempfile
import threading
from collections.abc import Sequence
from contextlib import suppress
from typing import IO, TypeVar

from pidtab.answers import Form
from pidtab.bounds import DEFAULT_PID_MAX, check_pid_max
from pidtab.calls import Call, Calls
from pidtab.faults import ProgramEnded, ProgramFault, ProgramMissing, TableClosed
from pidtab.program import find_program
from pidtab.exchange import Exchange

# More lines than this in the pipe, and both ends might wait for each other.
LINES_AHEAD = 100

# Calls that are answered so were not made, so a replay leaves them out.
NOT_MADE = (b"bad line", b"no memory", b"spent")

# For how many seconds a program may go on that nobody can ask any more.
PATIENCE = 5

T = TypeVar("T")


def close_files(child: "subprocess.Popen[bytes]", complaints: IO[bytes]) -> None:
    """Closes this end of the pipes, and what the program has complained into."""
    assert child.stdin and child.stdout
    for file in (child.stdin, child.stdout, complaints):
        file.close()


def end_dropped(child: "subprocess.Popen[bytes]", complaints: IO[bytes]) -> None:
    """Ends a program that nobody can ask any more."""
    close_files(child, complaints)
    try:
        child.wait(PATIENCE)
    except subprocess.TimeoutExpired:
        child.kill()
        child.wait()


class Process(Calls):
    """One run of the program. A program that ends by itself raises `ProgramEnded`. One that nobody has any more is closed.

    The program is in a session of its own, so Ctrl-C does not end it. A call that is interrupted was made or was not, as `transcript`
    tells; its answer is given to no other.
    """

    def __init__(self, pid_max: int = DEFAULT_PID_MAX, program: str | os.PathLike[str] | None = None) -> None:
        self.pid_max = check_pid_max(pid_max)
        self.program = find_program(program)
        self._asked: list[bytes] = []
        self._lock = threading.Lock()
        self._closed = False
        # What is being asked; an interrupt leaves it here.
        self._exchange: Exchange | None = None
        # Why nothing more can be asked; empty where it can.
        self._lost = ""
        # A file and not a pipe, so that nobody needs to read while the program runs.
        self._complaints = tempfile.TemporaryFile()
        try:
            self._child = subprocess.Popen(
                self._words("run"), bufsize=0, stdin=subprocess.PIPE, stdout=subprocess.PIPE, stderr=self._complaints, start_new_session=True
            )
        except OSError as fault:
            self._complaints.close()
            raise ProgramMissing(f"cannot start {self.program}: {fault.strerror}") from fault
        self._keep(end_dropped, self._child, self._complaints)

    def close(self) -> int:
        """Ends the program, and answers its exit status. A second time it only answers; in a forked child it answers 0."""
        if self._left:
            return 0
        with self._lock:
            with suppress(ProgramFault, TableClosed):
                self._settle()
            self._closed = True
            assert self._child.stdin and self._finish
            self._child.stdin.close()
            self._child.wait()
            close_files(self._child, self._complaints)
            self._finish.detach()
        return self._child.returncode

    def _leave(self) -> None:
        super()._leave()
        # The program is no child of this process, so nobody here waits for it.
        self._child.returncode = 0
        close_files(self._child, self._complaints)

    @property
    def transcript(self) -> str:
        """The script of all calls that were made."""
        self._check_owner()
        with self._lock:
            with suppress(ProgramFault, TableClosed):
                self._settle()
            return b"".join(self._asked).decode()

    def _make(self, call: Call, form: Form[T]) -> T:
        return form.read(self.line(call.line))

    def _answers(self, lines: Sequence[bytes]) -> tuple[str, ...]:
        self._check_owner()
        answers: list[bytes] = []
        with self._lock:
            self._settle()
            for start in range(0, len(lines), LINES_AHEAD):
                self._exchange = Exchange(lines[start : start + LINES_AHEAD], len(self._asked))
                answers += self._play(self._exchange)
        return tuple([answer.decode("latin-1") for answer in answers])

    def _words(self, command: str) -> tuple[str, ...]:
        return (str(self.program), command, "--pid-max", str(self.pid_max))

    def _settle(self) -> None:
        """Sees to it that the next answer is that of the next line: reads those of an exchange that was interrupted, if it was begun."""
        if self._closed:
            raise TableClosed("the process was closed")
        if self._exchange and self._exchange.begun:
            self._play(self._exchange)
        self._exchange = None
        if self._lost:
            raise ProgramEnded(self._lost)

    def _play(self, exchange: Exchange) -> list[bytes]:
        """The answers of an exchange, of which it does what is left to do, and keeps the lines whose calls were made."""
        assert self._child.stdin and self._child.stdout
        # Where the program has ended, what it wrote before is still to be read.
        if not self._child.stdin.closed:
            with suppress(BrokenPipeError):
                exchange.send(self._child.stdin.fileno())
        whole = exchange.receive(self._child.stdout.fileno())
        answers = exchange.answers
        # Not added but put, as an interrupt may have this done twice.
        self._asked[exchange.place :] = [line + b"\n" for line, answer in zip(exchange.lines, answers) if answer not in NOT_MADE]
        if not whole:
            self._lost = self._end()
        self._exchange = None
        if self._lost:
            raise ProgramEnded(self._lost)
        if len(answers) > len(exchange.lines):
            raise ProgramFault("the program has answered more than it was asked")
        return answers

    def _end(self) -> str:
        """How the program ended, and what it said."""
        assert self._child.stdin
        self._child.stdin.close()
        status = self._child.wait()
        self._complaints.seek(0)
        said = self._complaints.read().decode("utf-8", "replace").strip()
        return f"{self.program} ended with status {status}" + (f": {said}" if said else "")

    def _list_text(self) -> str:
        """`pidtab list` plays the transcript again, so it costs what all calls cost."""
        self._check_owner()
        with self._lock:
            self._settle()
            script = b"".join(self._asked)
        done = subprocess.run(self._words("list"), input=script, capture_output=True, check=False, start_new_session=True)
        if done.returncode != 0:
            said = done.stderr.decode("utf-8", "replace").strip()
            raise ProgramFault(f"{self.program} list ended with status {done.returncode}: {said}")
        return done.stdout.decode("latin-1")
