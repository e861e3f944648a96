"""A run in which etcd goes back in time: `python3 -m chaos.set_back --switch PATH [--way WAY] [--seed N] [--folder FOLDER]`, as root.

Hosts and keepers run on a while, and etcd has not the last of it any more. Each of them has to stop by a `LogFault` that says so, none may answer or
put anything more, and new hosts have to open the log that is left and go on with it. What was before and what was behind it are two runs, judged one by
one as others are.
"""

import base64
import json
import os
import shutil
import signal
import sys
import time
from collections.abc import Callable, Iterable
from pathlib import Path
from typing import NamedTuple

from chaos.hosts import LOOKS, PLAIN, READS, Host
from chaos.judge import NAMES, Faults, judge
from chaos.members import PLACES, text64
from chaos.record import Row, read_rows
from chaos.recorder import Recorder
from chaos.run import LONGEST_BEGIN, Run, main
from chaos.troubles import World

# How etcd goes back: all members by a backup, or the one that has hung by itself; and whether others write until it is further than it was.
WAYS = {"restored": (False, False), "restored_ahead": (False, True), "alone": (True, False), "alone_ahead": (True, True)}

# So long the log goes on before, and so long behind the state that is left. So long an old host may take to stop, and so long new ones run.
BEFORE, LOST, NOTICED, AFTER = 6.0, 3.0, 25.0, 6.0

# What who has stopped says.
WORDS = "was set back"


class State(NamedTuple):
    """When it was known no more what the old hosts did, in nanoseconds, and the revision that etcd has gone back to."""

    lost_at: int
    left_at: int
    # Whether a new host has written then; else one that asks the log nothing has nothing to notice.
    is_new_first: bool



class SetBack(Run):
    """One run, in a folder: first with hosts of the old etcd, and then with new ones of the other."""

    kinds = (LOOKS, READS, PLAIN)

    def title(self) -> str:
        return str(self.given.way)

    def run(self, world: World) -> tuple[bool, str]:
        """Runs, and judges."""
        before, after = (make_part(self.folder / it) for it in ("before", "after"))
        with self.notes_faults():
            self.begin(world)
            time.sleep(BEFORE)
            state = self.go_back(world)
            self.wait_for_ends(world, state)
            self.split(world, state, before, after)
            self.go_on(world, state, after)
        return self.judge_both(before, after)

    def go_back(self, world: World) -> State:
        """Has etcd go back."""
        alone, ahead = WAYS[self.given.way]
        member = next(it for it in PLACES if it != world.leader())
        keep = self.keep_one if alone else self.keep_backup
        bring_back = keep(world, member)
        time.sleep(LOST)
        ends = [world.place_of(it) for it in world.hosts] + list(world.places)[-len(world.keepers) :]
        heals = {end: world.cut((one, other) for place in PLACES for one, other in ((end, place), (place, end))) for end in ends}
        # What was on its way is there.
        time.sleep(1.0)
        reached = world.recorder.record(next(it for it in PLACES if it != member))
        lost_at = time.monotonic_ns()
        for it in PLACES:
            world.members.kill(it)
        bring_back()
        world.members.wait_until_ready()
        left_at = int(world.members.ask(member, "/v3/kv/range", {"key": text64("none")})["header"]["revision"])
        put_others(world, member, reached - left_at + 200 if ahead else 0)
        self.note({"what": "set back", "from": reached, "to": left_at})
        is_new_first = self.random.random() < 0.5
        if is_new_first:
            # A new host writes before the old ones hear of anything.
            first = world.hosts[1]
            first.give_up()
            heals[world.place_of(first)]()
            first.start()
            first.wait_for("open", time.monotonic() + NOTICED)
            time.sleep(1.0)
        for heal in heals.values():
            heal()
        return State(lost_at, left_at, is_new_first)

    def keep_backup(self, world: World, member: int) -> Callable[[], None]:
        """Keeps what all members have now: what brings it back."""
        backup = self.folder / "backup"
        world.members.save(member, backup)
        return lambda: world.members.restore(backup)

    def keep_one(self, world: World, member: int) -> Callable[[], None]:
        """Has a member hang, which goes on alone with what it has."""
        world.members.send(member, signal.SIGSTOP)
        return lambda: world.members.start(member, "--force-new-cluster")

    def wait_for_ends(self, world: World, state: State) -> None:
        """Waits until each old host that has lost something has said that it has noticed; and ends all old ones."""
        log = read_rows(self.folder / "log")
        places = places_of(log)
        known = {row["at"] for row in log}
        old = [it for it in world.hosts if it.lives == 1]
        asked = old if state.is_new_first else [it for it, kind in zip(world.hosts, self.kinds) if kind != LOOKS]
        losers = [it for it in asked if self.newest(it, places, state) > state.left_at]
        self.note({"what": "losers", "lives": [it.life for it in losers]})
        end = time.monotonic() + NOTICED
        while time.monotonic() < end and not all(map(self.has_noticed, losers)):
            time.sleep(0.2)
        for it in losers:
            if not self.has_noticed(it):
                self.note({"what": "unnoticed", "life": it.life})
            if any(goes_on(row, state.lost_at, places, known) for row in read_rows(self.folder / "rows" / it.life)):
                self.note({"what": "goes on", "life": it.life})
        for child in [*old, *world.keepers]:
            child.give_up()

    def newest(self, host: Host, places: dict[str, int], state: State) -> int:
        """The last revision at which a host has read something, as far as it has said."""
        rows = read_rows(self.folder / "rows" / host.life)
        answered = [places.get(it["id"], 0) for it in rows if it["what"] == "answered"]
        return max([0, *answered, *(it["position"] for it in rows if it["what"] == "place" and it["t1"] <= state.lost_at)])

    def has_noticed(self, host: Host) -> bool:
        """Whether a host has stopped, and has said why."""
        return any(row["what"] == "fault" and WORDS in row["why"] for row in read_rows(self.folder / "rows" / host.life))

    def split(self, world: World, state: State, before: Path, after: Path) -> None:
        """Splits what there is: what the old hosts had up to then, and what of them may be in the log that is left."""
        for host in world.hosts:
            life = f"{host.name}.1"
            rows = read_rows(self.folder / "rows" / life)
            write_rows(before / "rows" / life, [it for it in rows if time_of(it) <= state.lost_at and WORDS not in it.get("why", "")])
            write_rows(after / "rows" / life, [it for it in rows if it["what"] == "asked"])
        log = read_rows(self.folder / "log")
        write_rows(before / "log", log)
        write_rows(before / "left", [{"at": it} for it in left_of(log)])
        for part in (before, after):
            write_rows(part / "events", [{"what": "killed", "life": f"{it.name}.1"} for it in world.hosts])
            for keeper in world.keepers:
                os.symlink(self.folder / "archives" / keeper.name, part / "archives" / keeper.name)

    def go_on(self, world: World, state: State, after: Path) -> None:
        """Has new hosts and keepers go on with what is left, and end."""
        recorder = Recorder(world.network, world.members, after / "rest", state.left_at)
        for keeper in world.keepers:
            keeper.put_into(after / "archives" / f"new-{keeper.name}")
            keeper.start()
        end = time.monotonic() + LONGEST_BEGIN
        for host in world.hosts:
            if host.pid is None:
                host.start()
                host.wait_for("open", end)
        time.sleep(AFTER)
        self.end(world._replace(recorder=recorder))
        prefix = [it for it in read_rows(self.folder / "log") if it["at"] <= state.left_at]
        write_rows(after / "log", [*prefix, *read_rows(after / "rest")])
        shutil.copy(self.folder / "left", after / "left")
        for host in world.hosts:
            shutil.copy(self.folder / "rows" / host.life, after / "rows")

    def judge_both(self, before: Path, after: Path) -> tuple[bool, str]:
        """Whether both runs are well, and the old hosts have noticed, and did nothing."""
        verdicts = [judge(it, os.environ["PIDTAB"]) for it in (before, after)]
        faults = Faults()
        for row in read_rows(self.folder / "events"):
            if row["what"] in ("unnoticed", "goes on", "fault"):
                faults.add(row["what"], row.get("life") or row.get("why"))
        for is_well, verdict in verdicts:
            if not is_well:
                faults.add(*first_of(verdict))
        said = f"before: {verdicts[0][1]}; behind: {verdicts[1][1]}"
        return (False, f"{faults.say()}; {said}") if faults.found else (True, f"well: {said}")


def make_part(folder: Path) -> Path:
    """The folder of one of the two runs."""
    for name in ("rows", "archives"):
        (folder / name).mkdir(parents=True)
    return folder


def put_others(world: World, member: int, count: int) -> None:
    """Puts a key beside the log so often."""
    for _ in range(count):
        world.members.ask(member, "/v3/kv/put", {"key": text64("~other"), "value": ""}, 10.0)


def first_of(verdict: str) -> tuple[str, str]:
    """The first kind of faults of a verdict, and the first of these."""
    kind, _, rest = verdict.removeprefix("NOT WELL: ").partition(" (")
    return kind.rpartition(" ")[0], rest.partition(")")[0]


def places_of(log: Iterable[Row]) -> dict[str, int]:
    """Where each batch is first, by its name."""
    places: dict[str, int] = {}
    for row in log:
        for line in base64.b64decode(row.get("value", "")).split(b"\n"):
            if line.startswith(NAMES):
                places.setdefault(line.decode("utf-8", "replace"), row["at"])
    return places


def goes_on(row: Row, lost_at: int, places: dict[str, int], known: set[int]) -> bool:
    """Whether a host has had something that is not of the old etcd, of which some may still have been on its way."""
    if row["what"] == "place":
        return row["t1"] > lost_at and row["position"] not in known
    if row["what"] == "read":
        return bool(row["now"]) and row["t0"] > lost_at
    return row["what"] == "answered" and row["t1"] > lost_at and row["id"] not in places


def time_of(row: Row) -> int:
    """When a row was written, at least."""
    return int(row.get("t1", row.get("t0", 0)))


def left_of(log: Iterable[Row]) -> list[int]:
    """The revisions of what was put and not deleted."""
    puts: dict[str, int] = {}
    for row in log:
        if "value" in row:
            puts[row["key"]] = row["at"]
        else:
            puts.pop(row["key"], None)
    return sorted(puts.values())


def write_rows(path: Path, rows: Iterable[Row]) -> None:
    """Writes rows, as the judge reads them."""
    path.write_text("".join(json.dumps(it) + "\n" for it in rows), "ascii")


if __name__ == "__main__":
    sys.exit(main(SetBack))
