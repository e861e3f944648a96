"""`pidtab-replay`: plays the log of a table on many hosts by one thread, and compares it with answers that were recorded.

The rules of docs/CLUSTER.md are written here once more, and apart from the replicas, so that a fault of theirs is found.
"""

import argparse
import base64
import hashlib
import json
from collections.abc import Iterable, Iterator, Sequence
from pathlib import Path
from typing import NamedTuple

from pidtab.calls import Calls
from pidtab.commands.common import STATUS_DONE, STATUS_FAULT, STATUS_USAGE, cannot_read, complain, finish, open_script, parser_of
from pidtab.faults import LibraryFault, ProgramFault
from pidtab.process import Process
from pidtab.table import Table

ABOUT = "Plays a log, as `etcdctl get --prefix NAME: -w json` writes it, and compares it with answers that were recorded. Status 1 where they differ."

FORM, MODEL = "2", "1"
# The form without snapshots is a part of the other one.
FORMS = ("1", FORM)
MOST_SESSIONS = 4096
SHORT_DIGEST, DIGEST = 16, 64
NO_MEMORY = "no memory"


class Place(NamedTuple):
    """Where a call is: the session, the number of its entry, and its place in that, counted from 0."""

    session: int
    sequence: int
    place: int


class Made(NamedTuple):
    """A call as the log has it, with what one thread is answered."""

    line: str
    answer: str


class Row(NamedTuple):
    """A recorded answer, with the times at which it was asked and answered, where they are known."""

    where: Place
    made: Made
    times: tuple[int, int] | None


class BadLog(ValueError):
    """What is no log of this form, or no row of an answer."""


def read_log(text: bytes) -> list[tuple[int, bytes]]:
    """The entries of a log with their positions, in their order: all keys but those after `NAME:~`."""
    try:
        kvs = json.loads(text).get("kvs", [])
        keys = [base64.b64decode(it["key"]).partition(b":")[2] for it in kvs]
        found = [(int(it["create_revision"]), base64.b64decode(it.get("value", ""))) for it, key in zip(kvs, keys) if not key.startswith(b"~")]
    except (ValueError, KeyError, TypeError, AttributeError) as fault:
        raise BadLog(f"it is not what `etcdctl get --prefix NAME: -w json` writes: {fault!r}") from None
    return sorted(found)


def read_archive(folder: str) -> list[tuple[int, bytes]]:
    """The entries of all files of an archive."""
    found: list[tuple[int, bytes]] = []
    for path in sorted(Path(folder).iterdir()):
        if path.suffix == ".json":
            try:
                found += read_log(path.read_bytes())
            except BadLog as fault:
                raise BadLog(f"{path.name}: {fault}") from None
    return found


def join(some: list[tuple[int, bytes]]) -> list[tuple[int, bytes]]:
    """Entries in their order, each once."""
    found = dict(some)
    for position, data in some:
        if found[position] != data:
            raise BadLog(f"two entries have the position {position}: they are those of two logs")
    return sorted(found.items())


def read_row(text: str) -> Row:
    """A recorded answer. A bad line may have tabs of its own, and `bad line` is no time."""
    head, *words = text.removesuffix("\n").split("\t")
    times = None
    try:
        where = Place(*map(int, head.split(" ")))
        if len(words) > 3 and words[-2].isdigit() and words[-1].isdigit():
            times = (int(words[-2]), int(words[-1]))
            words = words[:-2]
        if len(words) < 2:
            raise ValueError
        return Row(where, Made("\t".join(words[:-1]), words[-1]), times)
    except (ValueError, TypeError):
        raise BadLog(f"it has a row that is none: {text[:60]!r}") from None


class Replay:
    """A table that one thread makes of a log."""

    def __init__(self, entries: list[tuple[int, bytes]]) -> None:
        if not entries:
            raise BadLog("it has no entries")
        self._entries = entries
        words = entries[0][1].decode("latin-1").split(" ")
        if len(words) != 6 or words[::2] != ["pidtab-log", "pid_max", "model"] or words[1] not in FORMS or words[5] != MODEL:
            raise BadLog(f"it does not begin with `pidtab-log {FORM} pid_max N model {MODEL}`: one that was cut needs its --archive")
        self.form, self.pid_max = words[1], int(words[3])
        self.digest = hashlib.sha256(entries[0][1]).digest()
        self.made: dict[Place, Made] = {}
        self.repeated = 0
        # The entries that say of an earlier position what is not so here.
        self.differing: list[int] = []
        # The number of each session's last entry. What was used last is at the end.
        self._last: dict[int, int] = {}
        self._digests = {entries[0][0]: self.digest}

    def play(self, table: Calls) -> None:
        """Makes all calls."""
        for position, data in self._entries[1:]:
            head, *lines = data.decode("utf-8", "surrogateescape").split("\n")
            words = head.split(" ")
            if words == ["open"]:
                self._open(position)
            elif words[0] == "end":
                self._last.pop(int(words[1]), None)
            elif words[0] == "calls":
                self._call(table, position, words, lines)
            elif words[0] == "snapshot" and len(words) == 6 and self.form == FORM:
                self._compare(position, words[1], words[2], DIGEST)
            elif words[0] != "pidtab-log" and (words != ["snap"] or self.form != FORM):
                raise BadLog(f"entry {position} cannot be read")
            self._digests[position] = self.digest

    def _open(self, position: int) -> None:
        if len(self._last) == MOST_SESSIONS:
            del self._last[next(iter(self._last))]
        self._last[position] = 0

    def _compare(self, position: int, at: str, digest: str, digits: int) -> None:
        """Notes an entry whose writer had another digest at some position; the entry has so many digits of it."""
        if self._digests.get(int(at), b"").hex()[:digits] != digest:
            self.differing.append(position)

    def _call(self, table: Calls, position: int, words: list[str], lines: list[str]) -> None:
        session, sequence, count = map(int, words[1:4])
        if count != len(lines) or not all(lines):
            raise BadLog(f"entry {position} cannot be read")
        self._compare(position, words[4], words[5], SHORT_DIGEST)
        if self._last.get(session) != sequence - 1:
            self.repeated += 1
            return
        del self._last[session]
        self._last[session] = sequence
        answers = table.answers(lines)
        if NO_MEMORY in answers:
            raise MemoryError("no memory for a call")
        total = hashlib.sha256(self.digest)
        for place, (line, answer) in enumerate(zip(lines, answers)):
            total.update(f"{line}\n{answer}\n".encode("utf-8", "surrogateescape"))
            self.made[Place(session, sequence, place)] = Made(line, answer)
        self.digest = total.digest()


class Comparison:
    """Recorded answers beside the log."""

    def __init__(self, made: dict[Place, Made]) -> None:
        self._made = made
        self._seen: set[Place] = set()
        self._times: dict[Place, tuple[int, int]] = {}
        self.lost = self.wrong = self.doubled = 0

    def take(self, row: Row) -> None:
        """Compares an answer."""
        self.doubled += row.where in self._seen
        self._seen.add(row.where)
        self.lost += row.where not in self._made
        self.wrong += row.where in self._made and self._made[row.where] != row.made
        if row.times:
            self._times[row.where] = row.times

    @property
    def early(self) -> int:
        """How many calls are after one in the log that was asked only after they were answered."""
        latest = count = 0
        for where in self._made:
            asked, answered = self._times.get(where, (0, 0))
            count += 0 < answered < latest
            latest = max(latest, asked)
        return count

    def say(self) -> list[str]:
        """What was found."""
        unknown = len(self._made.keys() - self._seen)
        said = [f"answers {len(self._seen)}: {self.lost} lost, {self.wrong} wrong, {self.doubled} doubled; {unknown} calls have none"]
        if self._times:
            said.append(f"times {len(self._times)}: {self.early} out of order")
        return said

    @property
    def is_well(self) -> bool:
        """Whether the answers are those of the log."""
        return not (self.lost or self.wrong or self.doubled or self.early)


def read_command_line(called: str, words: Sequence[str] | None) -> argparse.Namespace:
    """The words of the command line."""
    parser = parser_of(called, ABOUT)
    parser.add_argument("--answers", action="append", default=[], metavar="FILE", help="rows of answers, as `Submitted.rows` has them; may be given again")
    parser.add_argument("--archive", action="append", default=[], metavar="DIRECTORY", help="read what was cut off the log, too; may be given again")
    parser.add_argument("--list", action="store_true", help="write the table that the log leaves, and nothing else")
    ways = parser.add_mutually_exclusive_group()
    ways.add_argument("--program", metavar="PATH", help="have the table by this program")
    ways.add_argument("--library", metavar="PATH", help="have the table by this library")
    parser.add_argument("log", help="the log; - is standard input")
    return parser.parse_args(words)


def open_table(given: argparse.Namespace, pid_max: int) -> Calls:
    """A table by what was named, or else by the library, or else by the program."""
    if given.program is not None:
        return Process(pid_max, given.program)
    try:
        return Table(pid_max, given.library)
    except LibraryFault:
        if given.library is not None:
            raise
    return Process(pid_max)


def read_rows(name: str) -> Iterator[Row]:
    """The rows of a file; a last one without an end was being written when its writer was killed."""
    with open(name, encoding="utf-8", errors="surrogateescape", newline="\n") as rows:
        for row in rows:
            if row.endswith("\n"):
                yield read_row(row)


def say_replay(replay: Replay, table: Calls, count: int) -> list[str]:
    """What the log is, and the table that it leaves."""
    listed = hashlib.sha256(table.list_text().encode()).hexdigest()
    return [
        f"log: {count} entries, {len(replay.made)} calls, {replay.repeated} entries repeated",
        f"digest {replay.digest.hex()}",
        f"list {listed}",
        f"writers with another digest: {len(replay.differing)}" + "".join(f" {it}" for it in replay.differing[:10]),
    ]


def compare(replay: Replay, names: Iterable[str]) -> Comparison:
    """The answers of files beside the log."""
    comparison = Comparison(replay.made)
    for name in names:
        for row in read_rows(name):
            comparison.take(row)
    return comparison


def play(given: argparse.Namespace) -> int:
    """Plays the log, and says what was found."""
    with open_script(given.log) as log:
        entries = read_log(log.read())
    # After the log: what is cut meanwhile was in the archive before.
    entries = join([*entries, *(it for folder in given.archive for it in read_archive(folder))])
    replay = Replay(entries)
    with open_table(given, replay.pid_max) as table:
        replay.play(table)
        if given.list:
            print(table.list_text(), end="")
            return STATUS_DONE
        said = say_replay(replay, table, len(entries))
    comparison = compare(replay, given.answers)
    if given.answers:
        said += comparison.say()
    print("\n".join(said))
    return STATUS_DONE if comparison.is_well and not replay.differing else STATUS_FAULT


def run(called: str = "pidtab-replay", words: Sequence[str] | None = None) -> int:
    """Plays what the command line names."""
    given = read_command_line(called, words)
    try:
        return play(given)
    except OSError as fault:
        return cannot_read(given.called, fault, fault.filename or given.log)
    except BadLog as fault:
        return complain(f"{given.called}: {given.log}: {fault}", STATUS_USAGE)
    except (ProgramFault, LibraryFault, MemoryError) as fault:
        return complain(f"{given.called}: no table: {fault}", STATUS_USAGE)


def main() -> None:
    """The program `pidtab-replay`."""
    finish(run)


if __name__ == "__main__":
    main()
