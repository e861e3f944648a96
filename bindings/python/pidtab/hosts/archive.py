"""A folder with the entries that were cut off a log: files as `etcdctl get --prefix NAME: -w json` writes them."""

import base64
import json
import os
import tempfile
from collections.abc import Iterable, Iterator, Sequence
from contextlib import contextmanager
from itertools import count
from pathlib import Path
from urllib.parse import quote

# Of a file that is not whole.
PART = ".part"
WHOLE = ".json"


class ArchiveFault(RuntimeError):
    """The archive cannot be written, so nothing is to be cut."""


@contextmanager
def in_folder(folder: Path) -> Iterator[None]:
    """Tells what goes wrong with files from what goes wrong with the log."""
    try:
        yield
    except OSError as fault:
        raise ArchiveFault(f"the archive {folder} cannot be written: {fault.strerror or fault}") from fault


def encode(data: bytes) -> str:
    """Bytes as etcdctl writes them."""
    return base64.b64encode(data).decode()


class Archive:
    """Takes the entries of one log. Some of them may come again: who reads the folder takes each once."""

    def __init__(self, folder: Path, name: str) -> None:
        if not folder.is_dir():
            raise ArchiveFault(f"no folder {folder} for an archive")
        self._folder = folder
        self._name = name
        with in_folder(folder):
            # Of one that was killed: nobody else writes here.
            for part in folder.glob(f"*{PART}"):
                part.unlink(missing_ok=True)

    def put(self, pages: Iterable[Sequence[tuple[int, bytes]]]) -> int:
        """Puts entries into a new file, which is on disk then: how many. Where there are none, there is no file."""
        with in_folder(self._folder):
            number, name = tempfile.mkstemp(PART, "", self._folder)
        positions: list[int] = []
        try:
            with open(number, "w", encoding="ascii") as file:
                for page in pages:
                    with in_folder(self._folder):
                        file.write("".join(map(self._row, page, [bool(positions), *[True] * len(page)])))
                    positions += [position for position, _ in page]
                with in_folder(self._folder):
                    file.write("]}\n" if positions else "")
                    file.flush()
                    os.fsync(file.fileno())
            if positions:
                with in_folder(self._folder):
                    self._add(name, min(positions), max(positions))
        finally:
            Path(name).unlink(missing_ok=True)
        return len(positions)

    def _row(self, entry: tuple[int, bytes], is_behind: bool) -> str:
        """An entry, behind another one or the beginning of a file."""
        position, data = entry
        row = {"key": encode(f"{self._name}:{position:016x}".encode()), "create_revision": position, "value": encode(data)}
        return (",\n" if is_behind else '{"kvs":[\n') + json.dumps(row)

    def _add(self, part: str, first: int, last: int) -> None:
        """Gives a file its name, which no other has. The name of a log has any characters, but that of a file has not."""
        name = f"{quote(self._name, safe='')}-{first:020d}-{last:020d}"
        places = (self._folder / f"{name}{'.' * bool(it)}{it or ''}{WHOLE}" for it in count())
        os.rename(part, next(it for it in places if not it.exists()))
        folder = os.open(self._folder, os.O_RDONLY)
        try:
            os.fsync(folder)
        finally:
            os.close(folder)
