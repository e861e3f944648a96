"""A server of PostgreSQL on a Unix socket of its own, which can be killed and started again; and the example that has a log in it."""

import importlib.util
import os
import shutil
import signal
import subprocess
import sys
import time
import unittest
from pathlib import Path
from types import ModuleType

EXAMPLE = Path(__file__).resolve().parents[1] / "examples" / "postgres_log.py"

# Debian has the server's programs beside the path.
FOLDERS = os.pathsep.join([os.environ.get("PATH", ""), *map(str, sorted(Path("/usr/lib/postgresql").glob("*/bin"), reverse=True))])

# It runs as nobody does: as its own user, where root starts it.
USER = "postgres"

# No start takes longer, in seconds, on a busy machine.
LONGEST = 60.0

SETTINGS = ("listen_addresses=", "max_connections=100", "shared_buffers=16MB")


def need_postgres() -> str:
    """The path of the server; what needs it is skipped where it is not there."""
    found = shutil.which("postgres", path=FOLDERS)
    if found is None or shutil.which("initdb", path=FOLDERS) is None:
        raise unittest.SkipTest("no postgres and initdb (Debian: postgresql)")
    if importlib.util.find_spec("psycopg2") is None:
        raise unittest.SkipTest("no psycopg2 (Debian: python3-psycopg2)")
    return found


def load_example() -> ModuleType:
    """The example as a module."""
    spec = importlib.util.spec_from_file_location("postgres_log", EXAMPLE)
    assert spec is not None and spec.loader is not None
    module = importlib.util.module_from_spec(spec)
    # A class that is generic, or a pickle, looks for its module here.
    sys.modules["postgres_log"] = module
    spec.loader.exec_module(module)
    return module


class Postgres:
    """A server with an empty database, in a folder."""

    def __init__(self, folder: Path) -> None:
        self._program = need_postgres()
        self._folder = folder
        self._data = folder / "data"
        self._as_user = {"user": USER, "group": USER, "extra_groups": []} if os.geteuid() == 0 else {}
        if self._as_user:
            shutil.chown(folder, USER, USER)
        initdb = shutil.which("initdb", path=FOLDERS)
        assert initdb is not None
        words = [initdb, "--pgdata", self._data, "--auth", "trust", "--username", USER, "--no-sync", "--encoding", "UTF8", "--no-locale"]
        subprocess.run(words, cwd=folder, check=True, capture_output=True, **self._as_user)
        self._child: "subprocess.Popen[bytes] | None" = None
        self.words = f"host={folder} user={USER} dbname=postgres"
        self.start()

    def start(self) -> None:
        """Starts it, and waits until it answers."""
        words = [self._program, "-D", self._data, "-k", self._folder, *(word for it in SETTINGS for word in ("-c", it))]
        with (self._folder / "log").open("ab") as log:
            self._child = subprocess.Popen(words, cwd=self._folder, stdin=subprocess.DEVNULL, stdout=log, stderr=log, **self._as_user)
        end = time.monotonic() + LONGEST
        while not self.answers():
            if self._child.poll() is not None or time.monotonic() > end:
                raise AssertionError((self._folder / "log").read_text(errors="replace")[-2000:])
            time.sleep(0.1)

    def answers(self) -> bool:
        """Whether it takes connections."""
        import psycopg2

        try:
            psycopg2.connect(self.words).close()
        except psycopg2.OperationalError:
            return False
        return True

    def kill(self) -> None:
        """Has it end as by a crash: nothing is written any more."""
        # SIGQUIT ends its children too, and the next start recovers.
        self.end(signal.SIGQUIT)

    def stop(self) -> None:
        """Ends it."""
        self.end(signal.SIGINT)

    def end(self, number: signal.Signals) -> None:
        """Sends it a signal, and waits for its end."""
        if self._child is not None:
            self._child.send_signal(number)
            self._child.wait(LONGEST)
            self._child = None
