"""Asks the service for its list, by Redis's protocol."""

import re
import socket
import time
from collections.abc import Iterator

from pidtab.listing import BadList

LIST, POSITION = b"*1\r\n$11\r\nPIDTAB.LIST\r\n", b"*1\r\n$15\r\nPIDTAB.POSITION\r\n"


class Service:
    """A connection to the service with a socket. What it does not answer is a `BadList`."""

    def __init__(self, path: str) -> None:
        self.path = path
        self._socket = socket.socket(socket.AF_UNIX)
        try:
            self._socket.connect(path)
        except OSError as fault:
            self._socket.close()
            raise self._fault(fault.strerror or str(fault)) from None
        self._answers = self._socket.makefile("rb")

    def __enter__(self) -> "Service":
        return self

    def __exit__(self, *_: object) -> None:
        self._answers.close()
        self._socket.close()

    def _fault(self, said: str) -> BadList:
        return BadList(f"{self.path}: {said}")

    def _ask(self, request: bytes, kind: str) -> int:
        """The number at the head of an answer of a kind."""
        try:
            self._socket.sendall(request)
            head = self._answers.readline().decode("latin-1")
        except OSError:
            head = ""
        if not head:
            raise self._fault("the service has ended")
        found = re.fullmatch(rf"{re.escape(kind)}([0-9]+)\r\n", head)
        if not found:
            raise self._fault(f"the service says {head[1:].strip()}")
        return int(found[1])

    def position(self) -> int:
        """How many calls were recorded."""
        return self._ask(POSITION, ":")

    def list_text(self) -> str:
        """The list, as `pidtab list` writes it."""
        size = self._ask(LIST, "$")
        try:
            text = self._answers.read(size + 2)
        except OSError:
            text = b""
        if len(text) < size:
            raise self._fault("the service has ended")
        return text[:size].decode("latin-1")

    def each_list(self, pause: float) -> Iterator[str]:
        """The list of now, and then each time that calls were recorded, with so many seconds between two looks."""
        drawn = None
        while True:
            # It is asked first, so that what is recorded meanwhile is drawn by the next look.
            position = self.position()
            if position != drawn:
                yield self.list_text()
            drawn = position
            time.sleep(pause)
