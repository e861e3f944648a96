"""A log as docs/CLUSTER.md has it, played by the program `pidtab run`. Nothing here knows how a host of the package does that."""

import hashlib
import re
import subprocess
from collections import OrderedDict
from collections.abc import Iterable, Sequence
from typing import NamedTuple

SETTINGS = re.compile(rb"pidtab-log ([12]) pid_max (\d+) model 1")
CALLS = re.compile(rb"calls (\d+) (\d+) (\d+) (\d+) ([0-9a-f]{16})")
END = re.compile(rb"end (\d+)")
SNAPSHOT = re.compile(rb"snapshot (\d+) ([0-9a-f]{64}) \d+ [0-9a-f]{64} [0-9a-f]{16}-[0-9a-f]{16}")

MOST_SESSIONS = 4096


class BadLog(ValueError):
    """What no host may put into a log."""


class Claim(NamedTuple):
    """What an entry says of an earlier position: the first digits of the digest there."""

    position: int
    at: int
    digest: str


class Counted(NamedTuple):
    """An entry that counts: its position, and the places of its lines among all, from the first one on and before the last one."""

    position: int
    first: int
    last: int


class Log:
    """Which entries of a log count, and the lines that they make."""

    def __init__(self, entries: Sequence[tuple[int, bytes]]) -> None:
        found = SETTINGS.fullmatch(entries[0][1]) if entries else None
        if not found:
            raise BadLog("it does not begin with its settings")
        self.pid_max = int(found[2])
        self.settings = entries[0][1]
        self.positions = [position for position, _ in entries]
        self.lines: list[bytes] = []
        self.counted: list[Counted] = []
        self.claims: list[Claim] = []
        # The positions that ask for a snapshot; and what is announced: at which position, of which.
        self.wanted: set[int] = set()
        self.announced: list[tuple[int, int]] = []
        self.repeated = 0
        # The number of each session's last entry that counted. The session that was used last is at the end.
        self._sessions: OrderedDict[int, int] = OrderedDict()
        for position, data in entries[1:]:
            self._take(position, data)

    def _take(self, position: int, data: bytes) -> None:
        head, *lines = data.split(b"\n")
        if found := CALLS.fullmatch(head):
            self._call(position, found, lines)
        elif lines:
            raise BadLog(f"entry {position} cannot be read")
        elif head == b"open":
            self._open(position)
        elif head == b"snap":
            self.wanted.add(position)
        elif found := END.fullmatch(head):
            self._sessions.pop(int(found[1]), None)
        elif found := SNAPSHOT.fullmatch(head):
            self.claims.append(Claim(position, int(found[1]), found[2].decode()))
            self.announced.append((position, int(found[1])))
        elif not SETTINGS.fullmatch(head):
            raise BadLog(f"entry {position} cannot be read")

    def _open(self, position: int) -> None:
        if len(self._sessions) >= MOST_SESSIONS:
            self._sessions.popitem(last=False)
        self._sessions[position] = 0

    def _call(self, position: int, found: "re.Match[bytes]", lines: Sequence[bytes]) -> None:
        session, number, count = map(int, found.groups()[:3])
        if count != len(lines) or b"" in lines:
            raise BadLog(f"entry {position} cannot be read")
        if self._sessions.get(session) != number - 1:
            self.repeated += 1
            return
        self._sessions[session] = number
        self._sessions.move_to_end(session)
        self.claims.append(Claim(position, int(found[4]), found[5].decode()))
        self.counted.append(Counted(position, len(self.lines), len(self.lines) + count))
        self.lines += lines


def ask_program(program: str, command: str, pid_max: int, lines: Iterable[bytes]) -> bytes:
    """What a command of the program answers to lines."""
    text = b"".join(line + b"\n" for line in lines)
    return subprocess.run([program, command, "--pid-max", str(pid_max)], input=text, capture_output=True, check=True).stdout


class Played:
    """A log with its answers: one for each line, and the digest behind each position."""

    def __init__(self, log: Log, program: str) -> None:
        self.log = log
        self._program = program
        self.answers = ask_program(program, "run", log.pid_max, log.lines).split(b"\n")[:-1]
        if len(self.answers) != len(log.lines):
            raise BadLog(f"the program has {len(self.answers)} answers to {len(log.lines)} lines")
        self.digests = self._make_digests()
        self._lists: dict[int, str] = {}

    def list_sum(self, position: int) -> str:
        """The SHA-256 of the list of the table behind a position."""
        made = max((it.last for it in self.log.counted if it.position <= position), default=0)
        if made not in self._lists:
            listed = ask_program(self._program, "list", self.log.pid_max, self.log.lines[:made])
            self._lists[made] = hashlib.sha256(listed).hexdigest()
        return self._lists[made]

    def wrong_claims(self) -> list[Claim]:
        """The entries that say of a position what is not so."""
        return [it for it in self.log.claims if self.digests.get(it.at, "")[: len(it.digest)] != it.digest or it.at >= it.position]

    def _make_digests(self) -> dict[int, str]:
        """The digest behind each position."""
        counted = {it.position: it for it in self.log.counted}
        digest = hashlib.sha256(self.log.settings).digest()
        digests = {}
        for position in self.log.positions:
            it = counted.get(position)
            if it is not None:
                digest = hashlib.sha256(digest + self._shown(it)).digest()
            digests[position] = digest.hex()
        return digests

    def _shown(self, it: Counted) -> bytes:
        """The lines of an entry, each with its answer behind it."""
        pairs = zip(self.log.lines[it.first : it.last], self.answers[it.first : it.last])
        return b"".join(line + b"\n" + answer + b"\n" for line, answer in pairs)
