"""Lines that are asked of the program in one go, and the bytes of their answers."""

import os
from collections.abc import Sequence

# As much as a pipe holds.
ROOM = 65536


class Exchange:
    """What was written of some lines, and what was read of their answers.

    An interrupt, as by Ctrl-C, may come wherever a function of C has just answered, and then its answer is lost. So here a list takes
    what each `write` and each `read` answers, which is one step with it. Whatever was interrupted can then go on where it stood.
    """

    def __init__(self, lines: Sequence[bytes], place: int) -> None:
        self.lines = lines
        # How many lines were kept before these.
        self.place = place
        self._text = b"".join([line + b"\n" for line in lines])
        self._written: list[int] = []
        self._read: list[bytes] = []

    @property
    def begun(self) -> bool:
        """Whether the program has any byte of the lines."""
        return bool(self._written)

    @property
    def answers(self) -> list[bytes]:
        """The answers that were read to their ends."""
        return b"".join(self._read).split(b"\n")[:-1]

    def send(self, pipe: int) -> None:
        """Writes what is left of the lines."""
        while (sent := sum(self._written)) < len(self._text):
            self._written.extend(map(os.write, [pipe], [memoryview(self._text)[sent:]]))

    def receive(self, pipe: int) -> bool:
        """Reads until each line has its answer; False where the answers end before."""
        while len(self.answers) < len(self.lines):
            self._read.extend(map(os.read, [pipe], [ROOM]))
            if not self._read[-1]:
                return False
        return True
