"""A relay on this machine's loopback, in the place of a port: by it a test cuts some off from each other."""

import socket
import threading
from contextlib import suppress

HOST = "127.0.0.1"

# A caller says who it is in the head of its first request, and so much is read in one go.
HEAD_END = b"\r\n\r\n"
ROOM = 65536

# All callers.
ALL = b""


class Relay:
    """Passes on what is said over HTTP to a port, but of those who are cut off."""

    def __init__(self, port: int) -> None:
        self._target = port
        self._listener = socket.create_server((HOST, 0))
        self.port: int = self._listener.getsockname()[1]
        self._lock = threading.Lock()
        # What the head of a caller has that is cut off; None where nobody is.
        self._cut: bytes | None = None
        # The head of each caller that is passed on, and its connection with the one behind it.
        self._passed: list[tuple[bytes, socket.socket, socket.socket]] = []
        threading.Thread(target=self._accept, daemon=True).start()

    def cut(self, head: bytes = ALL) -> None:
        """Ends the connections of all callers whose heads have these bytes, and takes no others of them until it is joined."""
        with self._lock:
            self._cut = head
            for found, *pair in self._passed:
                if head in found:
                    hang_up(*pair)

    def join(self) -> None:
        """Passes all on again."""
        with self._lock:
            self._cut = None

    def close(self) -> None:
        """Ends all."""
        self.cut()
        # Who waits for callers is woken by this, and not by a close alone.
        with suppress(OSError):
            self._listener.shutdown(socket.SHUT_RDWR)
        self._listener.close()

    def _accept(self) -> None:
        with suppress(OSError):
            while True:
                caller, _ = self._listener.accept()
                threading.Thread(target=self._serve, args=(caller,), daemon=True).start()

    def _serve(self, caller: socket.socket) -> None:
        """Passes one caller on, if it is not cut off."""
        with caller, socket.socket() as behind, suppress(OSError):
            head = read_head(caller)
            with self._lock:
                if self._cut is not None and self._cut in head:
                    return
                passed = (head, caller, behind)
                self._passed.append(passed)
            behind.connect((HOST, self._target))
            behind.sendall(head)
            back = threading.Thread(target=pass_on, args=(behind, caller), daemon=True)
            back.start()
            pass_on(caller, behind)
            back.join()
            with self._lock:
                self._passed.remove(passed)


def read_head(caller: socket.socket) -> bytes:
    """What a caller says, up to the end of its first head or further."""
    head = b""
    while HEAD_END not in head:
        said = caller.recv(ROOM)
        if not said:
            raise ConnectionError("the caller says nothing more")
        head += said
    return head


def pass_on(one: socket.socket, other: socket.socket) -> None:
    """Passes on what one says to the other, until one of them ends; then both end."""
    with suppress(OSError):
        while said := one.recv(ROOM):
            other.sendall(said)
    hang_up(one, other)


def hang_up(*connections: socket.socket) -> None:
    """Ends connections that other threads may wait at."""
    for it in connections:
        with suppress(OSError):
            it.shutdown(socket.SHUT_RDWR)
