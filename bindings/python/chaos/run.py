"""A run of chaos: `python3 -m chaos.run --switch PATH [--seconds N] [--seed N] [--troubles NAME,..] [--folder FOLDER]`, as root.

Its last line is the judge's verdict, and its status is 0 where all is well. What it has made is gone then, but the files in the folder of a run that
is not well.
"""

import argparse
import json
import os
import random
import shutil
import sys
import time
from collections.abc import Iterator, Sequence
from contextlib import contextmanager, suppress
from pathlib import Path

from chaos import clocks
from chaos.hosts import GONE, PLAIN, Host, Keeper
from chaos.judge import judge
from chaos.kernel import mount, run_alone
from chaos.members import COUNT, Members
from chaos.network import WELL, Network
from chaos.record import Row
from chaos.recorder import Recorder
from chaos.troubles import PATIENCES, Trouble, World, all_troubles

HOSTS, KEEPERS = 3, 2

# How long a trouble lasts, in seconds: most are short; and for how long all is well behind it.
SHORT, LONG, VERY_LONG, WELL_FOR = (1.0, 4.0), (6.0, 11.0), (25.0, 30.0), (0.3, 2.5)

# How often it is a short one, and how often there are two at once, of 1.
SHORT_ONES, TWO = 0.6, 0.25

# So long hosts may take to begin and to end, in seconds.
LONGEST_BEGIN, LONGEST_END = 120.0, 150.0

# The disks are in memory, of which they take no more.
DISKS = "size=2400m"

TOOLS = {"etcd": "etcd-server", "etcdctl": "etcd-client", "ip": "iproute2", "nsenter": "util-linux", "mkfs.ext4": "e2fsprogs", "mount": "mount", "truncate": "coreutils"}


def what_is_missing(given: argparse.Namespace) -> str:
    """What this machine lacks, in a sentence; empty where all is there."""
    for name in ("PIDTAB", "PIDTAB_LIBRARY"):
        if not os.path.exists(os.environ.get(name, "")):
            return f"no {os.environ.get(name) or name}: build it with `make build` and `make lib`"
    if os.geteuid():
        return "it needs root, for namespaces, devices and mounts"
    for tool, package in TOOLS.items():
        if shutil.which(tool) is None:
            return f"no {tool} on PATH (Debian: {package})"
    if not os.path.exists("/dev/net/tun"):
        return "no /dev/net/tun: this kernel has no TAP devices"
    if not os.path.exists(given.switch):
        return f"no {given.switch}: `make chaos` builds it with a C compiler"
    return ""


class Run:
    """One run, in a folder."""

    # The kinds of its hosts as it begins.
    kinds: Sequence[str] = (PLAIN, PLAIN, PLAIN)

    def __init__(self, given: argparse.Namespace) -> None:
        self.folder: Path = given.folder
        self.given = given
        self.random = random.Random(given.seed)
        self.events = open(self.folder / "events", "w", buffering=1, encoding="ascii")

    def note(self, row: Row) -> None:
        """Writes down what happens."""
        self.events.write(json.dumps(row) + "\n")

    def go(self) -> int:
        """Runs, and judges."""
        disks = self.folder / "disks"
        mount("tmpfs", str(disks), "tmpfs", 0, DISKS)
        network = Network(self.given.switch, COUNT + HOSTS + KEEPERS, self.given.seed)
        members = Members(network, self.folder / "said", disks, self.given.member)
        recorder = Recorder(network, members, self.folder / "log")
        hosts = [Host(network, COUNT + it, it, self.folder, self.note, members.names) for it in range(HOSTS)]
        keepers = [Keeper(network, COUNT + HOSTS + it, it, self.folder, self.note, members.names) for it in range(KEEPERS)]
        is_well, verdict = self.run(World(self.random, network, members, hosts, keepers, recorder))
        (self.folder / "verdict").write_text(verdict + "\n")
        print(f"chaos, {self.title()}, seed {self.given.seed}: {verdict}", flush=True)
        return 0 if is_well else 1

    def title(self) -> str:
        """What kind of run it is."""
        return f"{self.given.seconds:g} s"

    def run(self, world: World) -> tuple[bool, str]:
        """Runs in a world: whether all was well, and the verdict."""
        with self.notes_faults():
            self.begin(world)
            self.make_troubles(world)
        with self.notes_faults():
            self.heal(world)
            self.end(world)
        self.note({"what": "switch", "said": world.network.close()})
        return judge(self.folder, os.environ["PIDTAB"])

    @contextmanager
    def notes_faults(self) -> Iterator[None]:
        """What the harness meets is a fault of the run."""
        try:
            yield
        except Exception as fault:
            self.note({"what": "fault", "why": f"the harness: {fault!r}"[:400]})

    def begin(self, world: World) -> None:
        """Starts all, and waits for the hosts."""
        world.members.start_all()
        world.members.wait_until_ready()
        end = time.monotonic() + LONGEST_BEGIN
        for host, patience, kind in zip(world.hosts, PATIENCES, self.kinds):
            host.start(patience, kind)
        for keeper in world.keepers:
            keeper.start()
        for host in world.hosts:
            host.wait_for("open", end)

    def make_troubles(self, world: World) -> None:
        """Makes troubles until the time is over: each kind in turn, in an order by chance."""
        end = time.monotonic() + self.given.seconds
        names = self.order()
        while time.monotonic() < end:
            first = next(names)
            # One that lasts for long comes alone: with another one it might hold calls up.
            lasts = VERY_LONG if first == "lost_member" else SHORT if self.random.random() < SHORT_ONES else LONG
            second = [next(names)] if lasts != VERY_LONG and self.random.random() < TWO else []
            self.make(world, [first, *second], min(self.random.uniform(*lasts), max(0.0, end - time.monotonic())))
            time.sleep(self.random.uniform(*WELL_FOR))

    def order(self) -> Iterator[str]:
        """The names of troubles, without an end."""
        names: list[str] = list(self.given.troubles)
        while True:
            self.random.shuffle(names)
            yield from names

    def make(self, world: World, names: Sequence[str], seconds: float) -> None:
        """Makes a trouble, or two at once, of which calls may wait for both; and heals them."""
        begun = time.monotonic_ns()
        made: list[Trouble] = []
        try:
            made += [all_troubles()[name](world) for name in names]
            if names != ["compact"]:
                time.sleep(seconds)
        finally:
            for it in made:
                it.heal()
            for name, it in zip(names, made):
                row = {"what": "trouble", "name": name, "of": it.what, "holds": it.holds or len(names) > 1}
                self.note({**row, "from": begun, "to": time.monotonic_ns()})

    def heal(self, world: World) -> None:
        """Has all be as it should."""
        world.network.set_all(WELL)
        world.members.start_all()
        for host in world.hosts:
            host.start()
        for keeper in world.keepers:
            keeper.start()

    def end(self, world: World) -> None:
        """Ends all hosts and keepers, and writes down what is left of the log."""
        end = time.monotonic() + LONGEST_END
        world.members.wait_until_ready()
        for word in ("done", "ended", GONE):
            for host in world.hosts:
                host.go()
            for host in world.hosts:
                host.wait_for(word, end)
        for keeper in world.keepers:
            keeper.stop(end)
        member = world.leader()
        world.recorder.record(member)
        left = [{"at": it} for it in world.recorder.left(member)]
        (self.folder / "left").write_text("".join(json.dumps(it) + "\n" for it in left))


def make_folder(folder: Path) -> None:
    """A folder for a run, in the place of what was there."""
    shutil.rmtree(folder, ignore_errors=True)
    for name in ("rows", "said", "archives", "disks"):
        (folder / name).mkdir(parents=True)


def clear_folder(folder: Path, kept: Sequence[str]) -> None:
    """Removes all files of a folder but some."""
    for path in folder.iterdir():
        if path.name in kept:
            continue
        if path.is_dir():
            shutil.rmtree(path)
        else:
            path.unlink()


def read_command_line() -> argparse.Namespace:
    """The words of the command line."""
    parser = argparse.ArgumentParser(prog="chaos", description="Runs a table on many hosts under troubles, and judges it.")
    parser.add_argument("--switch", type=Path, required=True, help="the built switch")
    parser.add_argument("--folder", type=Path, default=Path("out/chaos"), help="where the files of the run are")
    parser.add_argument("--seconds", type=float, default=180.0, help="for so long there are troubles")
    parser.add_argument("--seed", type=int, default=1, help="another one has other troubles")
    parser.add_argument("--troubles", type=lambda it: it.split(","), default=[], help="names of troubles, with commas; all by default")
    parser.add_argument("--way", default="restored_ahead", help="how etcd goes back, of chaos.set_back: restored, or alone, and with _ahead")
    parser.add_argument("--member", action="append", default=[], help="a word more for each member of etcd")
    given = parser.parse_args()
    given.troubles = given.troubles or list(all_troubles())
    unknown = set(given.troubles) - set(all_troubles())
    if unknown:
        parser.error(f"no trouble is called {', '.join(sorted(unknown))}")
    return given


def main(kind: type[Run] = Run) -> int:
    """Runs what the command line names."""
    given = read_command_line()
    for name in ("PIDTAB", "PIDTAB_LIBRARY"):
        if os.environ.get(name):
            os.environ[name] = os.path.abspath(os.environ[name])
    missing = what_is_missing(given)
    if missing:
        print(f"chaos: {missing}", file=sys.stderr)
        return 2
    if clocks.why_not() and "clock" in given.troubles:
        print(f"chaos: {clocks.why_not()}", file=sys.stderr)
        given.troubles.remove("clock")
    given.folder = given.folder.absolute()
    make_folder(given.folder)
    try:
        status = run_alone(lambda: kind(given).go())
    finally:
        with suppress(OSError):
            os.rmdir(given.folder / "disks")
    if status == 0:
        clear_folder(given.folder, ("events", "verdict"))
    elif status > 1:
        print("chaos: it was ended, and has no verdict", file=sys.stderr)
        clear_folder(given.folder, ())
    return status


if __name__ == "__main__":
    sys.exit(main())
