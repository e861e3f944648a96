"""A disk of its own for each member, which loses what was not synced: an ext4 in a file, which is shut down as a loss of power would."""

import fcntl
import os
import struct
import subprocess
from pathlib import Path

from chaos.kernel import unmount

# What ext4 is asked by: `_IOR('X', 125, __u32)`, and that the journal is not flushed before.
SHUT_DOWN = 0x8004587D
NO_FLUSH = 2

SIZE = "700M"


class Disk:
    """A file system that is there until it is closed, or the process ends whose mounts it is among."""

    def __init__(self, image: Path, folder: Path) -> None:
        self.folder = folder
        self._image = image
        folder.mkdir()
        with open(image, "wb"):
            pass
        subprocess.run(["truncate", "-s", SIZE, str(image)], check=True)
        subprocess.run(["mkfs.ext4", "-q", "-F", str(image)], check=True)
        self._mount()

    def lose_power(self) -> None:
        """Only what the file system has given to its disk stays. Who has written must be gone."""
        top = os.open(self.folder, os.O_RDONLY)
        try:
            fcntl.ioctl(top, SHUT_DOWN, struct.pack("I", NO_FLUSH))
        finally:
            os.close(top)
        unmount(str(self.folder))
        self._mount()

    def close(self) -> None:
        """Takes it away."""
        unmount(str(self.folder))
        self._image.unlink()

    def _mount(self) -> None:
        # What is given up is given back to the file's folder.
        subprocess.run(["mount", "-o", "loop,discard", str(self._image), str(self.folder)], check=True)
