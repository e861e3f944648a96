"""The table of a service, `pidtabd`, by its socket."""

import errno
import os
import re
import socket
import threading
from collections.abc import Sequence
from contextlib import suppress
from typing import SupportsIndex, TypeAlias, TypeVar

from pidtab.answers import Form
from pidtab.bounds import check_range, check_seconds
from pidtab.calls import Call, Calls
from pidtab.faults import TableClosed, shorten
from pidtab.language import judge

# More requests than this are not sent before answers are read, or both ends might wait for each other.
AHEAD = 100

UNIX = "unix:"

# The longest time to live of a lease, in ms: a day.
LONGEST_TTL = 86_400_000

LEASE_NAME = re.compile(r"[!-~]{1,64}")

# A refusal of the table, in the words of the script language.
REFUSAL = re.compile(r"E[A-Z]+ [a-z-]+( [0-9]+)?")

# What a call is answered in RESP when it was not made.
NOT_MADE = {"OOM no-memory": "no memory", "ERR spent": "spent"}

READ_AT_ONCE = 65536

# No answer of a service has a longer line, in bytes, or arrays that stand deeper in one another.
LONGEST_LINE = 65536
DEEPEST = 8

# An answer of RESP: a number, a text, an array, None for nil, or an error.
Answer: TypeAlias = "int | str | list[Answer] | None | NotServed"

T = TypeVar("T")


class NotServed(OSError):
    """What the service does not do for this connection, and why, as `NOPERM this user may only ask`: `word` is the first word. No call was made."""

    def __init__(self, said: str) -> None:
        super().__init__(said)
        self.word = said.split(" ")[0]


def connect(address: "str | os.PathLike[str]", timeout: float | None = None) -> "Connected":
    """The table of the service at `unix:/run/pidtab.sock`, or at a path alone.

    Each part of an answer is waited for up to so many seconds, or as long as it takes. What cannot be connected to is an OSError.
    """
    return Connected(address, timeout)


def path_of(address: "str | os.PathLike[str]") -> str:
    """The path of a socket."""
    path = os.fspath(address) if isinstance(address, (str, os.PathLike)) else address
    if not isinstance(path, str):
        raise TypeError(f"connect takes the path of a socket, as 'unix:/run/pidtab.sock', not {type(address).__name__}")
    path = path.removeprefix(UNIX)
    if not path or "\0" in path:
        raise ValueError(f"connect takes the path of a socket, as 'unix:/run/pidtab.sock', not {path!r}")
    return path


def open_socket(path: str, timeout: float | None) -> socket.socket:
    """A socket that is connected. What is raised has the path."""
    connection = socket.socket(socket.AF_UNIX)
    try:
        connection.settimeout(timeout)
        connection.connect(path)
    except OSError as fault:
        connection.close()
        # Python gives a path that is too long no number.
        number = fault.errno or errno.ENAMETOOLONG
        raise OSError(number, os.strerror(number), path) from None
    except BaseException:
        connection.close()
        raise
    return connection


class Stream:
    """What comes by a socket. It has no lock, which a forked child could find taken for ever."""

    def __init__(self, connection: socket.socket) -> None:
        self._socket = connection
        self._came = bytearray()

    def line(self) -> bytes:
        """The bytes up to the next end of a line."""
        while (end := self._came.find(b"\r\n")) < 0:
            if len(self._came) > LONGEST_LINE:
                raise no_service(self._came)
            self._receive()
        line = self._take(end)
        self._take(2)
        return line

    def text(self, size: int) -> bytes:
        """So many bytes, after which the line ends."""
        while len(self._came) < size + 2:
            self._receive()
        text = self._take(size)
        self._take(2)
        return text

    def _take(self, size: int) -> bytes:
        taken = bytes(self._came[:size])
        del self._came[:size]
        return taken

    def _receive(self) -> None:
        more = self._socket.recv(READ_AT_ONCE)
        if not more:
            raise ConnectionResetError("the service has ended")
        self._came += more


class Connected(Calls):
    """A connection to a service: its calls are those of the one table of all clients, and are saved there as the service is told to save.

    Its methods are those of a table. What the service does not do is a `NotServed`. If the service ends, or an answer is not waited for to its end, it is
    closed: the last call was made or was not. So it is after an interrupt amid an answer. `close` by another thread ends the wait of a call by
    `TableClosed`.
    """

    def __init__(self, address: "str | os.PathLike[str]", timeout: float | None = None) -> None:
        self.path = path_of(address)
        seconds = None if timeout is None else check_seconds("timeout", timeout)
        # One thread asks at a time. It may take it again, for a handler of a signal.
        self._asking = threading.RLock()
        self._is_amid = self._is_ending = False
        # Who shuts the socket down knows that it is not closed meanwhile, and that its number is not another file's.
        self._end = threading.RLock()
        self._socket = open_socket(self.path, seconds)
        self._stream = Stream(self._socket)
        self._keep(self._socket.close)
        try:
            self.pid_max = read_pid_max(self._ask(b"CONFIG", b"GET", b"pid-max"))
        except BaseException:
            self.close()
            raise

    def close(self) -> None:
        """Ends the connection. The table stays. A call that another thread waits for raises `TableClosed`."""
        if self._left or self._finish is None:
            return
        with self._end, suppress(OSError):
            if self._is_open():
                self._is_ending = True
                self._socket.shutdown(socket.SHUT_RDWR)
        with self._asking, self._end:
            self._finish()

    def _leave(self) -> None:
        super()._leave()
        self._socket.close()

    def position(self) -> int:
        """How many calls are recorded."""
        return self._ask_for(int, b"POSITION")

    def lease(self, name: str, ttl: SupportsIndex) -> None:
        """What this connection forks from now on ends `ttl` ms after the last connection with the lease has gone: 0 to a day.

        Its name has 1 to 64 visible characters of ASCII.
        """
        self._ask(b"LEASE", name_of(name), b"%d" % check_range("ttl", ttl, 0, LONGEST_TTL))

    def release(self, name: str) -> bool:
        """Forgets the lease, whose tasks stay. Whether there was one."""
        return self._ask_for(int, b"RELEASE", name_of(name)) == 1

    def _list_text(self) -> str:
        return self._ask_for(str, b"LIST")

    def _make(self, call: Call, form: Form[T]) -> T:
        return form.read(self.line(call.line))

    def _answers(self, lines: Sequence[bytes]) -> tuple[str, ...]:
        good = [line for line in lines if judge(line) is None]
        told = iter(self._exchange([(b"PIDTAB.CALL", *line.split(b" ")) for line in good]))
        return tuple(say(line, next(told)) if judge(line) is None else "bad line" for line in lines)

    def _ask(self, *words: bytes) -> Answer:
        (answer,) = self._exchange([(b"PIDTAB." + words[0], *words[1:])])
        if isinstance(answer, NotServed):
            raise answer
        return answer

    def _ask_for(self, kind: type[T], *words: bytes) -> T:
        """An answer of the kind, as each service has it."""
        answer = self._ask(*words)
        if not isinstance(answer, kind):
            self.close()
            raise no_service(repr(answer).encode())
        return answer

    def _exchange(self, requests: Sequence[tuple[bytes, ...]]) -> list[Answer]:
        """The answers to requests, in their order."""
        self._check_owner()
        with self._asking:
            if not self._is_open():
                raise TableClosed("the connection was closed")
            if self._is_amid:
                self.close()
                raise RuntimeError("a handler of a signal asks amid a call of its thread, or such a call was interrupted: the connection is closed")
            # So it stays if the call does not end: after that the next answer would be that of another request.
            self._is_amid = True
            try:
                parts = [requests[start : start + AHEAD] for start in range(0, len(requests), AHEAD)]
                answers = [answer for part in parts for answer in self._exchange_some(part)]
            except BaseException as fault:
                is_closed_by_another = self._is_ending
                self.close()
                if isinstance(fault, OSError) and is_closed_by_another:
                    raise TableClosed("the connection was closed amid a call, which was made or was not") from None
                raise
            self._is_amid = False
            return answers

    def _exchange_some(self, requests: Sequence[tuple[bytes, ...]]) -> list[Answer]:
        """No more of them than the socket has room for, with their answers."""
        try:
            self._socket.sendall(b"".join(map(encode, requests)))
        except (BrokenPipeError, ConnectionResetError):
            # Who is turned away is told why before.
            answer = read_answer(self._stream)
            raise answer if isinstance(answer, NotServed) else ConnectionResetError("the service has ended") from None
        return [read_answer(self._stream) for _ in requests]


def read_pid_max(answer: Answer) -> int:
    """Of the answer to CONFIG GET pid-max: a name, and its value."""
    match answer:
        case [_, str(number)] if number.isdecimal():
            return int(number)
    raise no_service(repr(answer).encode())


def name_of(lease: str) -> bytes:
    """The name of a lease as the service takes it."""
    if not isinstance(lease, str):
        raise TypeError(f"the name of a lease is a str, not {type(lease).__name__}")
    if not LEASE_NAME.fullmatch(lease):
        raise ValueError(f"the name of a lease has 1 to 64 visible characters of ASCII, and not {shorten(lease)!r}")
    return lease.encode()


def no_service(said: bytes) -> ConnectionError:
    """What comes is no answer of RESP, or none to what was asked."""
    return ConnectionError(f"what answers is no service of pidtab: {shorten(said.decode('latin-1'))!r}")


def encode(words: Sequence[bytes]) -> bytes:
    """A request of RESP."""
    return b"*%d\r\n" % len(words) + b"".join(b"$%d\r\n%s\r\n" % (len(word), word) for word in words)


def read_answer(stream: Stream, depth: int = 0) -> Answer:
    """The next answer, which stands so deep in others."""
    head = stream.line()
    kind, rest = head[:1], head[1:].decode("latin-1")
    if kind == b"+":
        return rest
    if kind == b"-":
        return NotServed(rest)
    if not re.fullmatch("-1|[0-9]{1,19}", rest) or depth == DEEPEST:
        raise no_service(head)
    number = int(rest)
    if kind == b":":
        return number
    if kind == b"*":
        return [read_answer(stream, depth + 1) for _ in range(number)]
    if kind != b"$":
        raise no_service(head)
    return None if number < 0 else stream.text(number).decode("latin-1")


def say(line: bytes, answer: Answer) -> str:
    """The answer to a line as the script language has it; what is none of a call is raised."""
    if isinstance(answer, NotServed):
        said = str(answer)
        if REFUSAL.fullmatch(said):
            return said
        with suppress(KeyError):
            return NOT_MADE[said]
        raise answer
    verb = line.split(b" ")[0]
    if isinstance(answer, list):
        return say_numbers(verb, answer)
    if verb == b"mk":
        return f"control {answer}"
    return "end" if answer is None else str(answer).lower()


def say_numbers(verb: bytes, answer: "list[Answer]") -> str:
    """Of an array; an empty one is nil."""
    if not answer:
        return "none"
    if verb == b"fork" and len(answer) == 2:
        return "child {} root {}".format(*answer)
    if verb == b"wait" and len(answer) == 2:
        child, status = answer
        return f"reaped {child} {status if status == 'killed' else f'exit {status}'}"
    return " ".join(map(str, answer))
