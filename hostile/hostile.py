"""What the tests share: the built programs, and how one is run under the library of refuse.c."""

import os
import pathlib
import struct
import subprocess
import tempfile

TOP = pathlib.Path(__file__).resolve().parent.parent
LIBRARY = TOP / "hostile" / "build" / "refuse.so"

# The gate builds each program by two compilers; `rt run` builds the first alone.
BUILDS = ("", ".by-rattle")

# More growths than there are.
ALL = 10**9

NO_MEMORY = b"pidtab: no memory\n"


def builds_of(name):
    """The built programs of a crate."""
    paths = [TOP / "crates" / name / "out" / f"{name}{build}" for build in BUILDS]
    built = [path for path in paths if os.access(path, os.X_OK)]
    if not built:
        raise SystemExit(f"no program {paths[0]}: `rt run < /dev/null` in crates/{name}, or `rt ci`, builds it")
    return built


def environment(**settings):
    """The environment of a program under the library."""
    return {"LD_PRELOAD": str(LIBRARY), **{name: str(value) for name, value in settings.items()}}


def run(program, *words, given=b"", settings=None, **more):
    """Runs a program: its status and what it wrote."""
    env = {} if settings is None else environment(**settings)
    if "stdin" not in more:
        more["input"] = given
    for stream in ("stdout", "stderr"):
        more.setdefault(stream, subprocess.PIPE)
    return subprocess.run([str(program), *words], env=env, timeout=60, **more)


class Report:
    """A file in which the library counts."""

    def __init__(self):
        self.room = tempfile.TemporaryDirectory()
        self.path = f"{self.room.name}/report"

    def refused(self):
        """How many growths were refused in the last run."""
        with open(self.path, "rb") as file:
            return struct.unpack("=qq", file.read())[1]

    def close(self):
        self.room.cleanup()
