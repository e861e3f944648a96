"""What hosts tell each other beside the log, by memory that all have: the task that each has forked last, which from then on no read may miss."""

import mmap
import os
import struct
from collections.abc import Iterator
from pathlib import Path
from typing import NamedTuple

# The task, the name of the batch that has forked it, and the task once more: where both are equal, nobody is writing.
SLOT = struct.Struct("<Q112sQ")
ROOM = 4096


class Task(NamedTuple):
    """A task that never ends, by its number, and the batch that has forked it."""

    root: int
    batch: str


class Told:
    """A slot for each host. What a host that was killed has told stays."""

    def __init__(self, path: Path) -> None:
        number = os.open(path, os.O_RDWR | os.O_CREAT)
        os.ftruncate(number, ROOM)
        self._memory = mmap.mmap(number, ROOM)
        os.close(number)

    def tell(self, host: int, task: Task) -> None:
        """Tells all hosts."""
        SLOT.pack_into(self._memory, host * SLOT.size, task.root, task.batch.encode(), task.root)

    def all(self) -> Iterator[Task]:
        """What was told."""
        for host in range(ROOM // SLOT.size):
            root, batch, again = SLOT.unpack_from(self._memory, host * SLOT.size)
            if root and root == again:
                yield Task(root, batch.rstrip(b"\0").decode())
