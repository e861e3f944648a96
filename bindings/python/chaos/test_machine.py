"""The host in Python beside one that only does what the proved machine says: both have the same calls, log, times and ends, and the same becomes of each
call. So the host uses the machine as it is to be used.

The log is made here, by the rules of docs/CLUSTER.md: entries come late, twice or never, answers are lost, sessions end, and snapshots take the
place of entries.
"""

import random
import re
import unittest
from collections.abc import Callable, Sequence
from pathlib import Path
from typing import NamedTuple
from unittest import mock

from chaos.machine import MachineHost
from pidtab import MemoryLog, NotKnown, find_library
from pidtab.hosts import replica as replica_module
from pidtab.hosts import submitted as submitted_module
from pidtab.hosts.calls import FUNCTIONS, HostCall, HostNumbers, LogOutcome, Put, PutStep, Reading, State, Taken, Told
from pidtab.hosts.crew import Crew
from pidtab.hosts.log import Progress
from pidtab.hosts.log_entries import OPEN, Asked, Ended, Opened, Settings, read_entry, write_calls, write_end, write_settings
from pidtab.hosts.machine import Machine, NoMemory
from pidtab.hosts.replica import Replica
from pidtab.hosts.submitted import Part, Submitted
from tests.stand_in import StandIn
from tests.ways import need_calls

HEADER = Path(__file__).resolve().parents[3] / "bindings" / "c" / "host_calls.h"

SETTINGS = Settings(2, 32768, 1)

# Bytes that a part has at most in these runs; and so many bytes of the machine, whose bound for an entry is 512 KiB, are one here.
PART_BYTES, SCALE = 24, 512 * 1024 // 64

RUNS, STEPS = 300, 120


class Nobody(Crew):
    """The crew of a replica whose steps the test does."""

    threads = ()

    def watch_time(self) -> None: ...
    def follow_log(self) -> None: ...
    def leave_log(self) -> None: ...
    def tell(self) -> None: ...
    def expect(self, position: int) -> None: ...
    def wish(self) -> None: ...
    def wait(self) -> None: ...
    def do(self, job: object) -> None: ...


class Both(NamedTuple):
    """Calls that were submitted to both hosts, and the time until which they wait."""

    submitted: Submitted
    calls: Sequence[HostCall]
    deadline: int


class SessionRule:
    """What the log makes of entries, as docs/CLUSTER.md says: the last number of each session that is open."""

    def __init__(self) -> None:
        self.last: dict[int, int] = {}

    def take(self, position: int, data: bytes) -> LogOutcome | None:
        """Takes the next entry: what is made of it, if it has calls."""
        entry = read_entry(data)
        if isinstance(entry, Opened):
            self.last[position] = 0
        elif isinstance(entry, Ended):
            self.last.pop(entry.session, None)
        elif isinstance(entry, Asked):
            return self._ask(entry)
        return None

    def _ask(self, asked: Asked) -> LogOutcome:
        last = self.last.get(asked.session)
        if last is None:
            return LogOutcome.GONE
        if asked.sequence == last + 1:
            self.last[asked.session] = asked.sequence
            return LogOutcome.MADE
        return LogOutcome.REPEATED if asked.sequence <= last else LogOutcome.GAP


class OneLog:
    """A log with what each of its places has made: a snapshot, and the sessions."""

    def __init__(self) -> None:
        self.items: list[tuple[int, bytes]] = []
        self.outcomes: list[LogOutcome | None] = []
        self.snapshots: list[bytes] = []
        self.sessions: list[dict[int, int]] = []
        self._rule, self._keeper = SessionRule(), Machine(StandIn(), SETTINGS)

    def land(self, data: bytes, gap: int) -> int:
        """An entry comes: its position."""
        position = (self.items[-1][0] if self.items else 0) + gap
        self._keeper.apply(position, data)
        self.outcomes.append(self._rule.take(position, data))
        self.items.append((position, data))
        self.snapshots.append(self._keeper.write())
        self.sessions.append(dict(self._rule.last))
        return position

    def digest_at(self, position: int) -> str:
        """The digest behind an entry."""
        return self._keeper.digest_at(position) or ""


class Game:
    """One generated run: the same comes to both hosts, and what they decide is compared after each step."""

    def __init__(self, test: unittest.TestCase, seed: int) -> None:
        self.test, self.random, self.now = test, random.Random(seed), 0
        self.python = Replica(MemoryLog(), 32768, StandIn, 1.0, lambda _: Nobody())
        self.machine = MachineHost(find_library())
        self.log, self.read = OneLog(), 0
        self.log.land(write_settings(SETTINGS), 1)
        self.read_on()
        self.all: list[Both] = []
        # Entries that were tried, and may come yet; and which steps came.
        self.late: list[bytes] = []
        self.came: set[str] = set()

    def play(self) -> None:
        """Plays steps by chance, and then has all calls over: by a log that goes well, or by a stop."""
        steps = [self.submit, self.submit, self.send, self.send, self.send, self.read_on, self.read_on, self.read_on, self.come_late, self.others]
        steps += [self.cancel, self.pass_time, self.end_session, self.load, self.begin_anew]
        weights = [4, 4, 4, 4, 4, 4, 4, 4, 3, 1, 2, 1, 1, 1, 1]
        for _ in range(STEPS):
            step = self.random.choices(steps, weights)[0]
            if step():
                self.came.add(step.__name__)
            self.compare()
        self.random.choice([self.settle, self.stop])()
        self.test.assertEqual([it for it in self.all if not it.submitted.done()], [])

    def settle(self) -> None:
        """The log goes well, and all is read."""
        for _ in range(4 * STEPS):
            if not self.send(well=True) and not self.read_on():
                break
            self.compare()

    def stop(self) -> None:
        """Both end."""
        self.python.stop(None, "the table was closed")
        self.machine.stop()
        self.compare()

    def submit(self) -> bool:
        """Some lines are submitted, that go into one part or several."""
        lines = [b"fork %d" % self.random.randint(1, 9) for _ in range(self.random.choice([1, 1, 2, 5, 9]))]
        deadline = self.now + self.random.randint(40, 60) if not self.all else max(self.all[-1].deadline, self.now + 40)
        submitted = Submitted(lines, deadline, self.python.calls, lambda: False)
        self.python.submit(submitted)
        calls = [self.machine.submit(len(it.texts), it.entry_size, deadline) for it in submitted.parts]
        self.all.append(Both(submitted, calls, deadline))
        return True

    def send(self, well: bool = False) -> bool:
        """Both say what is put, which is tried once: it comes, or comes later, or never, and the log answers or not."""
        wanted = self.python.next_entry() if self.python.has_to_send() else None
        kind, session, sequence = self.machine.next_entry()
        if wanted is None:
            # What is cancelled before the host looks at it never gets to its machine; here it is in the queue, and has a session opened.
            self.test.assertIn(kind, (Put.REST, Put.OPEN))
            return False
        if wanted == OPEN:
            self.test.assertIs(kind, Put.OPEN)
            self.try_entry(wanted, well, lambda position: (self.python.sent(position), self.test.assertTrue(self.machine.opened(position))))
            return True
        self.test.assertIs(kind, Put.ENTRY)
        asked = read_entry(wanted)
        assert isinstance(asked, Asked)
        self.test.assertEqual((asked.session, asked.sequence), (session, sequence))
        self.test.assertEqual(asked.lines, [line for it in self.machine.entry for line in self.lines_of(it)])
        self.try_entry(wanted, well, lambda position: (self.python.sent(position), self.test.assertTrue(self.machine.acknowledge(session, sequence))))
        return True

    def lines_of(self, ticket: int) -> Sequence[bytes]:
        """The lines of a call."""
        parts = [part for it in self.all for part in it.submitted.parts]
        return parts[ticket].texts

    def try_entry(self, data: bytes, well: bool, answer: Callable[[int], object]) -> None:
        """Puts an entry by one try."""
        chance = 1.0 if well else self.random.random()
        if chance <= 0.55:
            self.python.trouble = ConnectionError("the log does not answer")
        if chance < 0.2:
            return
        if chance < 0.4:
            self.late.append(data)
            return
        position = self.log.land(data, self.random.randint(1, 3))
        if self.random.random() < 0.1:
            self.log.land(data, 1)
        if chance > 0.55:
            answer(position)

    def come_late(self) -> bool:
        """An entry that was tried comes; it may come again."""
        if not self.late:
            return False
        data = self.random.choice(self.late)
        if self.random.random() < 0.7:
            self.late.remove(data)
        self.log.land(data, 1)
        return True

    def others(self) -> bool:
        """Another host opens a session and makes a call in it."""
        session = self.log.land(OPEN, 1)
        self.log.land(write_calls(Asked(session, 1, session, self.log.digest_at(session)[:16], [b"fork 1"])), 2)
        return True

    def end_session(self) -> bool:
        """The session of this host ends in the log, as for one more."""
        if self.machine.session:
            self.log.land(write_end(self.machine.session), 1)
        return bool(self.machine.session)

    def read_on(self) -> bool:
        """Both read the next entry of the log."""
        if self.read >= len(self.log.items):
            return False
        (position, data), outcome = self.log.items[self.read], self.log.outcomes[self.read]
        self.read += 1
        self.python.take(Progress(position, [(position, data)]))
        if outcome is not None:
            asked = read_entry(data)
            assert isinstance(asked, Asked)
            self.test.assertEqual(self.machine.read(outcome, asked.session, asked.sequence), [])
        return True

    def load(self) -> bool:
        """Both load a snapshot that is further on."""
        if self.read >= len(self.log.items):
            return False
        at = self.random.randrange(self.read, len(self.log.items))
        self.read = at + 1
        position = self.log.items[at][0]
        self.python.take(Progress(position, (), self.log.snapshots[at]))
        lost = self.machine.load(position, self.log.sessions[at].get(self.machine.session))
        # Who has lost a part waits for none of the others.
        tickets = {it.ticket for it in lost}
        for both in self.all:
            if tickets & {it.ticket for it in both.calls}:
                self.machine.give_up(both.calls)
        return True

    def begin_anew(self) -> bool:
        """The host in Python has lost its table, and both read the log from its first entry on."""
        self.python.lost = NoMemory("no memory for a call")
        self.python.replay()
        self.read = 0
        return True

    def cancel(self) -> bool:
        """Somebody cancels."""
        if not self.all:
            return False
        both = self.random.choice(self.all)
        if both.submitted.done():
            return False
        self.test.assertEqual(both.submitted.cancel(), self.machine.cancel(both.calls))
        return True

    def pass_time(self) -> bool:
        """A time passes, and who is late waits no more."""
        self.now += self.random.randint(1, 25)
        with mock.patch.object(replica_module.time, "monotonic", lambda: float(self.now)):
            self.python.expire()
        return any([self.machine.expire(it.calls, self.now) for it in self.all if State.QUEUED <= it.calls[0].state])

    def compare(self) -> None:
        """What became of each call is the same."""
        self.test.assertEqual(self.python.calls.session, self.machine.session)
        for both in self.all:
            self.test.assertEqual(seen_of(both.submitted), told_of(both.calls), [State(it.state).name for it in both.calls])


def size_of(part: Part) -> int:
    """The bytes of a part in an entry, as the machine is told in these runs."""
    return SCALE * (sum(map(len, part.texts)) + len(part.texts))


def seen_of(submitted: Submitted) -> object:
    """What the host in Python has made of a submit."""
    if submitted.cancelled():
        return "cancelled"
    if not submitted.done():
        return ("waits", submitted.sent)
    fault = submitted.exception(0)
    if fault is None:
        return [tuple(it)[:3] for it in submitted.receipts]
    assert isinstance(fault, NotKnown)
    return ("not known", fault.sent)


def told_of(calls: Sequence[HostCall]) -> object:
    """What the machine has made of the calls of a submit."""
    states = {State(it.state) for it in calls}
    if State.CANCELLED in states:
        return "cancelled"
    if states == {State.ANSWERED}:
        return [(it.session, it.sequence, it.place) for it in calls]
    if states & {State.NOT_KNOWN, State.NOT_MADE}:
        return ("not known", bool(states & {State.NOT_KNOWN, State.ANSWERED}))
    return ("waits", states != {State.QUEUED})


class Header(unittest.TestCase):
    """What C has of the machine is what is used here."""

    def setUp(self) -> None:
        text = HEADER.read_text(encoding="utf-8")
        self.text = re.sub(r"/\*.*?\*/", "", text, flags=re.DOTALL)

    def body_of(self, what: str) -> str:
        """What is between the braces of an enum or a struct."""
        found = re.search(rf"{what} \{{(.*?)\}};", self.text, re.DOTALL)
        assert found
        return found[1]

    def test_the_choices(self) -> None:
        choices = {"host_call_state": State, "host_put": Put, "host_taken": Taken, "host_outcome": LogOutcome, "host_reading": Reading, "host_told": Told}
        for name, choice in choices.items():
            found = {words.rpartition("_")[2]: int(number) for words, number in re.findall(r"HOST_(\w+) = (\d+)", self.body_of(f"enum {name}"))}
            self.assertEqual(found, {it.name.rpartition("_")[2]: it.value for it in choice}, name)

    def test_the_fields(self) -> None:
        for name, fields in {"host_call": HostCall, "host_calls": HostNumbers, "host_put_step": PutStep}.items():
            found = re.findall(r"\w+(?=[,;])", self.body_of(f"struct {name}"))
            self.assertEqual(found, [it[0] for it in fields._fields_], name)

    def test_the_functions(self) -> None:
        self.assertEqual(set(re.findall(r"host_calls_\w+(?=\()", self.text)), set(FUNCTIONS))


class Beside(unittest.TestCase):
    """The machine and the host in Python."""

    def setUp(self) -> None:
        need_calls()
        for where, name, value in ((submitted_module, "PART_BYTES", PART_BYTES), (Part, "entry_size", property(size_of))):
            patch = mock.patch.object(where, name, value)
            patch.start()
            self.addCleanup(patch.stop)

    def test_they_decide_the_same(self) -> None:
        came: set[str] = set()
        for seed in range(RUNS):
            game = Game(self, seed)
            try:
                game.play()
            except AssertionError as fault:
                raise AssertionError(f"by the seed {seed}: {fault}") from fault
            came |= game.came
        self.assertEqual(came, {"submit", "send", "read_on", "come_late", "others", "cancel", "pass_time", "end_session", "load", "begin_anew"})


if __name__ == "__main__":
    unittest.main()
