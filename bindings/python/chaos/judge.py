"""Judges a run of the chaos harness: `python3 -m chaos.judge FOLDER PROGRAM`. Its verdict is one line, and status 0 where all is well.

It knows docs/CLUSTER.md and the files of a run (`README.md`), and nothing of the package. `pidtab run` plays the log.
"""

import subprocess
import sys
from bisect import bisect_left
from collections.abc import Iterable, Iterator, Sequence
from pathlib import Path
from typing import NamedTuple

from chaos.record import Delete, Put, Row, read_archive, read_changes, read_rows
from chaos.rules import BadLog, Log, Played

# No call or read waits for longer, in nanoseconds, beside what the troubles hold up.
LONGEST_WAIT = 18 * 10**9

# A line of a batch that says which one it is. It is a bad line of the script language, and changes nothing.
NAMES = b"batch "

# A longer line is bad, and the log has its first bytes.
LONGEST_LINE = 200


class Batch:
    """Lines that a host has asked, and what became of them."""

    def __init__(self, life: str, row: Row) -> None:
        self.life = life
        self.name: str = row["id"]
        self.asked: int = row["t0"]
        self.lines: list[str] = row["lines"]
        # None where the host was killed before it was over, or has never said.
        self.outcome: Row | None = None

    @property
    def is_answered(self) -> bool:
        """Whether the host has the answers."""
        return self.outcome is not None and self.outcome["what"] == "answered"

    @property
    def is_excluded(self) -> bool:
        """Whether the host was told that no call of it was or will be made."""
        it = self.outcome
        return it is not None and (it["what"] == "cancelled" or (it["what"] == "unknown" and not it["sent"]))

    @property
    def answered(self) -> float:
        """When the answers were there."""
        return float(self.outcome["t1"]) if self.outcome is not None and self.is_answered else float("inf")


class Life:
    """The rows of one life of a host."""

    def __init__(self, name: str, rows: Sequence[Row]) -> None:
        self.name = name
        self.rows = rows
        self.batches = {row["id"]: Batch(name, row) for row in rows if row["what"] == "asked"}
        for row in rows:
            if row["what"] in ("answered", "unknown", "cancelled"):
                self.batches[row["id"]].outcome = row

    def all(self, *whats: str) -> Iterator[Row]:
        """The rows of some kinds."""
        return (row for row in self.rows if row["what"] in whats)


class Run(NamedTuple):
    """What a folder has of a run."""

    puts: Sequence[Put]
    deletes: Sequence[Delete]
    left: Sequence[int]
    lives: Sequence[Life]
    events: Sequence[Row]
    archives: Sequence[dict[int, bytes]]


def read_run(folder: Path) -> Run:
    """Reads a run."""
    changes = list(read_changes(folder / "log"))
    puts = sorted(it for it in changes if isinstance(it, Put))
    deletes = [it for it in changes if isinstance(it, Delete)]
    left = [row["at"] for row in read_rows(folder / "left")]
    lives = [Life(path.name, read_rows(path)) for path in sorted((folder / "rows").glob("*"))]
    archives = [read_archive(it) for it in sorted((folder / "archives").glob("*"))]
    return Run(puts, deletes, left, lives, read_rows(folder / "events"), archives)


def judge(folder: Path, program: str) -> tuple[bool, str]:
    """Whether a run is well, and the verdict."""
    run = read_run(folder)
    faults = Faults()
    check_record(faults, run)
    try:
        played = Played(Log([(it.revision, it.value) for it in run.puts]), program)
    except (BadLog, OSError, subprocess.CalledProcessError) as fault:
        faults.add("log", str(fault))
        return False, faults.say()
    check_cuts(faults, run, played.log)
    check_lives(faults, run)
    check_digests(faults, run, played)
    batches = [batch for life in run.lives for batch in life.batches.values()]
    places = find_batches(played.log)
    check_made(faults, batches, places)
    check_answers(faults, batches, places, played)
    check_order(faults, batches, places)
    check_reads(faults, run, batches)
    waits = check_waits(faults, run)
    if not any(it.is_answered for it in batches):
        faults.add("nothing", "no call was answered")
    said = describe(run, batches, played, waits)
    return (False, f"{faults.say()}; {said}") if faults.found else (True, f"well: {said}")


class Faults:
    """What is wrong, by kinds."""

    def __init__(self) -> None:
        self.found: dict[str, list[str]] = {}

    def add(self, kind: str, what: object) -> None:
        """Notes one."""
        self.found.setdefault(kind, []).append(str(what))

    def say(self) -> str:
        """All kinds, with the first of each."""
        return "NOT WELL: " + ", ".join(f"{kind} {len(all)} ({all[0]})" for kind, all in self.found.items())


def check_record(faults: Faults, run: Run) -> None:
    """What was put and not deleted is what is left, and no key was put twice."""
    keys: set[str] = set()
    for it in run.puts:
        if it.key in keys:
            faults.add("overwritten", it.key)
        keys.add(it.key)
    gone = {it.key for it in run.deletes}
    expected = {it.revision for it in run.puts if it.key not in gone}
    for revision in sorted(expected ^ set(run.left)):
        faults.add("record", f"revision {revision} is {'not left' if revision in expected else 'left and not recorded'}")


def check_cuts(faults: Faults, run: Run, log: Log) -> None:
    """An entry is deleted only behind two snapshots that have it, and is in an archive then."""
    puts = {it.key: it for it in run.puts}
    archived = {position: data for it in run.archives for position, data in it.items()}
    bounds = cut_bounds(log)
    for it in run.deletes:
        put = puts.get(it.key)
        if put is None:
            faults.add("record", f"{it.key} is deleted, and was never put")
            continue
        _, bound = bounds[bisect_left(bounds, (it.revision, 0)) - 1]
        if put.revision > bound:
            faults.add("cut", f"entry {put.revision} is deleted at {it.revision}, and the older snapshot is of {bound}")
        if run.archives and archived.get(put.revision) != put.value:
            faults.add("archive", f"entry {put.revision} is deleted, and in no archive as it was")
    for position, of in log.announced:
        if of not in log.wanted:
            faults.add("snapshot", f"entry {position} announces one of {of}, where none was asked for")


def cut_bounds(log: Log) -> list[tuple[int, int]]:
    """Behind which position entries may be deleted, and up to which: that of the older one of the newest two snapshots that are announced by then."""
    bounds, newest = [(0, 0)], [0, 0]
    for position, of in log.announced:
        newest = sorted([*newest, of])[1:]
        bounds.append((position, newest[0]))
    return bounds


def check_lives(faults: Faults, run: Run) -> None:
    """Each host ends well that was not killed, and then each batch has an outcome. What else they say of faults is one."""
    killed = {row["life"] for row in run.events if row["what"] == "killed"}
    for life in run.lives:
        for row in life.all("fault"):
            faults.add("fault", f"{life.name}: {row['why']}")
        if life.name in killed:
            continue
        if not any(life.all("end")):
            faults.add("no end", life.name)
        for batch in life.batches.values():
            if batch.outcome is None:
                faults.add("no outcome", batch.name)
    for row in run.events:
        if row["what"] == "fault":
            faults.add("fault", row["why"])


def check_digests(faults: Faults, run: Run, played: Played) -> None:
    """At equal positions the digests are equal: those of hosts, of writers and of the log; and so is the list at the end."""
    for it in played.wrong_claims():
        faults.add("writer", f"entry {it.position} has another digest of {it.at}")
    for life in run.lives:
        for row in life.all("place", "end"):
            if played.digests.get(row["position"]) != row["digest"]:
                faults.add("digest", f"{life.name} at {row['position']}")
        for row in life.all("end"):
            if played.list_sum(row["position"]) != row["list"]:
                faults.add("list", f"{life.name} at {row['position']}")


def find_batches(log: Log) -> dict[str, list[int]]:
    """Where the log has each batch: the places of its first line among those that count."""
    places: dict[str, list[int]] = {}
    for place, line in enumerate(log.lines):
        if line.startswith(NAMES):
            places.setdefault(line.decode("utf-8", "replace"), []).append(place)
    return places


def check_made(faults: Faults, batches: Iterable[Batch], places: dict[str, list[int]]) -> None:
    """Each batch that was answered is in the log once, and what is said not to be made is not. None is there twice, and none that nobody asked."""
    asked = set()
    for batch in batches:
        asked.add(batch.name)
        found = places.get(batch.name, [])
        if batch.is_answered and not found:
            faults.add("lost", batch.name)
        if batch.is_excluded and found:
            faults.add("made", f"{batch.name}, of which its host was told that it is not")
        if len(found) > 1:
            faults.add("doubled", batch.name)
    for name in places.keys() - asked:
        faults.add("foreign", name)


def check_answers(faults: Faults, batches: Iterable[Batch], places: dict[str, list[int]], played: Played) -> None:
    """The lines are those that were asked, and the answers those of one table."""
    for batch in batches:
        if not batch.is_answered or batch.name not in places:
            continue
        assert batch.outcome
        first, count = places[batch.name][0], len(batch.lines)
        if [as_kept(it) for it in batch.lines] != played.log.lines[first : first + count]:
            faults.add("changed", batch.name)
        if [it.encode() for it in batch.outcome["answers"]] != played.answers[first : first + count]:
            faults.add("wrong", batch.name)


def as_kept(line: str) -> bytes:
    """A line as the log has it."""
    return line.encode("utf-8", "surrogateescape")[: LONGEST_LINE + 1]


def check_order(faults: Faults, batches: Iterable[Batch], places: dict[str, list[int]]) -> None:
    """What was answered before another batch was asked stands before it."""
    latest = 0
    for batch in sorted((it for it in batches if it.name in places), key=lambda it: places[it.name][0]):
        if batch.answered < latest:
            faults.add("disorder", batch.name)
        latest = max(latest, batch.asked)


def check_reads(faults: Faults, run: Run, batches: Iterable[Batch]) -> None:
    """A read misses nothing that was answered before it: anywhere, where it is one of now; else on its own host."""
    found = {it.name: it for it in batches}
    for life in run.lives:
        for row in life.all("read"):
            batch = found.get(row["of"])
            if row["seen"] or batch is None or batch.answered >= row["t0"]:
                continue
            if row["now"] or batch.life == life.name:
                faults.add("stale", f"{life.name} misses {batch.name} at {row['t0']}")


def check_waits(faults: Faults, run: Run) -> tuple[int, int]:
    """The longest wait, and the longest beside what the troubles hold up: none of these is longer than a bound."""
    troubles = join((row["from"], row["to"]) for row in run.events if row["what"] == "trouble" and row["holds"])
    longest = most = 0
    for life in run.lives:
        for begun, over, what in waits_of(life):
            beside = over - begun - sum(max(0, min(over, end) - max(begun, start)) for start, end in troubles)
            longest, most = max(longest, over - begun), max(most, beside)
            if beside > LONGEST_WAIT:
                faults.add("late", f"{what} of {life.name} waits {beside / 1e9:.1f} s beside what holds it up")
    return longest, most


def join(spans: Iterable[tuple[int, int]]) -> list[tuple[int, int]]:
    """Spans of time, as ones that do not meet."""
    joined: list[tuple[int, int]] = []
    for start, end in sorted(spans):
        if joined and start <= joined[-1][1]:
            joined[-1] = (joined[-1][0], max(end, joined[-1][1]))
        else:
            joined.append((start, end))
    return joined


def waits_of(life: Life) -> Iterator[tuple[int, int, str]]:
    """When each batch and each read began, and was over, with an answer or without."""
    for batch in life.batches.values():
        if batch.outcome is not None:
            yield batch.asked, batch.outcome["t1"], batch.name
    for row in life.all("read", "unread"):
        yield row["t0"], row["t1"], "a read"


def describe(run: Run, batches: Sequence[Batch], played: Played, waits: tuple[int, int]) -> str:
    """What was run."""
    answered = [it for it in batches if it.is_answered]
    unknown = sum(it.outcome is not None and it.outcome["what"] == "unknown" for it in batches)
    reads = sum(row["what"] == "read" for life in run.lives for row in life.rows)
    troubles = [row["name"] for row in run.events if row["what"] == "trouble"]
    return (
        f"{sum(len(it.lines) for it in answered)} calls answered in {len(answered)} batches, {reads} reads, {unknown} not known, "
        f"{played.log.repeated} entries repeated, {len(played.log.announced)} snapshots, {len(run.deletes)} of {len(run.puts)} entries cut, "
        f"{len(troubles)} troubles of {len(set(troubles))} kinds, {len(run.lives)} lives of hosts; "
        f"longest wait {waits[0] / 1e9:.1f} s, and {waits[1] / 1e9:.1f} s beside what held it up"
    )


def main() -> int:
    """Judges what the command line names."""
    if len(sys.argv) != 3:
        print("usage: python3 -m chaos.judge FOLDER PROGRAM", file=sys.stderr)
        return 2
    is_well, verdict = judge(Path(sys.argv[1]), sys.argv[2])
    print(verdict)
    return 0 if is_well else 1


if __name__ == "__main__":
    sys.exit(main())
