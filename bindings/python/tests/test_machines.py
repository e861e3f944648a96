"""What makes the entries of a log: the library, and the same rules in Python, which know nothing of each other, on seeded logs with much that is wrong."""

import hashlib
import random
import unittest
from collections.abc import Iterator
from unittest import mock

from pidtab import Diverged, LogFault, Table
from pidtab.hosts.library_machine import LibraryMachine, has_replicas
from pidtab.hosts.log_entries import Announced, Asked, Settings, write_announced, write_calls, write_end, write_settings
from pidtab.hosts.machine import Machine, NoMemory, Outcome
from pidtab.hosts.machines import AnyMachine, open_machine
from tests.ways import need_library

SETTINGS = Settings(2, 32768, 1)
# Faults that are told alike by both, in the same words.
FAULTS = (LogFault, Diverged)
LINES = (b"fork 1", b"fork 2", b"fork 1 new", b"exit 2 0", b"wait 1 any", b"getpid 3", b"count 0", b"mk 0", b"nspid 1 2", b"no line", b" ", b"\xff\x00", b"x" * 201)


def need_replicas() -> None:
    """Skips what needs replicas in the library, where there are none."""
    need_library()
    with Table() as table:
        if not has_replicas(table):
            raise unittest.SkipTest("the library has no replicas")


def step(machine: AnyMachine, position: int, data: bytes) -> Outcome | tuple[type[Exception], str] | None:
    """What becomes of an entry, with its answers as a list; or the fault, with its words."""
    try:
        outcome = machine.apply(position, data)
    except FAULTS as fault:
        return type(fault), str(fault)
    return outcome and outcome._replace(answers=list(outcome.answers))


class Writer:
    """Entries as hosts write them, and others: repeats, gaps, sessions that are gone, digests of others, texts of nothing."""

    def __init__(self, seed: int, machine: Machine) -> None:
        self.random = random.Random(seed)
        self.machine = machine
        self.sessions: dict[int, int] = {}
        self.position = 0
        self.written: list[bytes] = []

    def __iter__(self) -> Iterator[tuple[int, bytes]]:
        # The machine is asked for what a host would know: its digest, and where it is.
        yield 3, write_settings(SETTINGS)
        self.position = 3
        for _ in range(150):
            data = self.random.choice((self.opened, self.asked, self.asked, self.asked, self.asked, self.again, self.ended, self.wrong, self.announced))()
            position = self.position + self.random.choice((0, 1, 1, 1, 2, 5))
            self.written.append(data)
            yield position, data
            self.position = max(self.position, self.machine.position)

    def session(self) -> int:
        return self.random.choice([*self.sessions, 1])

    def opened(self) -> bytes:
        self.sessions[self.position + 1] = 0
        return b"open"

    def asked(self) -> bytes:
        session = self.session()
        last = self.machine.last_of(session) or 0
        sequence = max(0, last + self.random.choice((1, 1, 1, 1, 0, 2)))
        position = self.machine.position if self.random.random() < 0.9 else self.random.randrange(self.machine.position + 2)
        digest = self.machine.digest_at(position) or "0" * 64
        lines = [self.random.choice(LINES) for _ in range(self.random.randrange(1, 5))]
        return write_calls(Asked(session, sequence, position, digest[:16] if self.random.random() < 0.95 else "f" * 16, lines))

    def again(self) -> bytes:
        return self.random.choice([*self.written, b"open"])

    def ended(self) -> bytes:
        return write_end(self.session())

    def wrong(self) -> bytes:
        data = self.asked()
        at = self.random.randrange(len(data))
        return self.random.choice((b"", b"open ", b"snap", data[:at], data[:at] + b"\n" + data[at:], data.replace(b" ", b"  ", 1), data + b"\n", b"end 18446744073709551616", b"end 99999999999999999999"))

    def announced(self) -> bytes:
        position = self.random.randrange(self.machine.position + 2)
        digest = self.machine.digest_at(position) or "1" * 64
        wrong = hashlib.sha256(digest.encode()).hexdigest()
        return write_announced(Announced(position, digest if self.random.random() < 0.9 else wrong, 7, wrong, "0" * 16 + "-" + "f" * 16))


class Same(unittest.TestCase):
    """Both machines say the same of each entry."""

    def setUp(self) -> None:
        need_replicas()

    def pair(self) -> tuple[Machine, LibraryMachine]:
        tables = Table(), Table()
        for it in tables:
            self.addCleanup(it.close)
        return Machine(tables[0], SETTINGS), LibraryMachine(tables[1], SETTINGS)

    def check(self, one: AnyMachine, other: AnyMachine) -> None:
        told = [(it.settings, it.begun, it.position, it.digest, it.calls, it.last_of(4), it.digest_at(it.position)) for it in (one, other)]
        self.assertEqual(told[0], told[1])

    def test_seeds(self) -> None:
        faults = made = 0
        for seed in range(40):
            one, other = self.pair()
            for position, data in Writer(seed, one):
                with self.subTest(seed=seed, position=position, data=data):
                    became = step(one, position, data)
                    self.assertEqual(step(other, position, data), became)
                    self.check(one, other)
                faults += isinstance(became, tuple) and not isinstance(became, Outcome)
                made += isinstance(became, Outcome) and became.what == "made"
            self.assertEqual(one.write(), other.write())
        self.assertGreater(min(faults, made), 300)

    def test_first_entries(self) -> None:
        for data in (b"open", b"snap", b"end 1", write_settings(Settings(3, 32768, 1)), write_settings(Settings(2, 301, 1)), write_settings(Settings(2, 32768, 2)), b"", b"x"):
            one, other = self.pair()
            with self.subTest(data=data):
                became = step(one, 1, data)
                self.assertIsInstance(became, tuple)
                self.assertEqual(step(other, 1, data), became)
                self.check(one, other)

    def test_the_first_form(self) -> None:
        one, other = self.pair()
        for position, data in enumerate((write_settings(Settings(1, 32768, 1)), b"open", b"snap", b"calls 2 1 1 9 0000000000000000\ncount 0"), start=1):
            self.assertEqual(step(one, position, data), step(other, position, data))
            self.check(one, other)
        self.assertEqual(other.settings.form, 1)

    def test_sessions_go_where_there_are_too_many(self) -> None:
        one, other = self.pair()
        for position in range(1, 4200):
            data = write_settings(SETTINGS) if position == 1 else b"open"
            self.assertEqual(step(one, position, data), step(other, position, data))
        self.assertEqual([one.last_of(it) for it in range(2, 300)], [other.last_of(it) for it in range(2, 300)])
        self.assertEqual(one.write(), other.write())

    def test_a_snapshot_of_one_is_loaded_by_the_other(self) -> None:
        one, other = self.pair()
        for position, data in Writer(7, one):
            step(one, position, data)
            step(other, position, data)
        text, (late, later) = other.write(), self.pair()
        late.load(one.position, one.write())
        later.load(one.position, text)
        self.check(late, later)
        for position, data in ((one.position + 1, b"open"), (one.position + 2, b"calls %d 1 1 %d %s\nfork 1" % (one.position + 1, one.position, one.digest[:16].encode()))):
            self.assertEqual(step(late, position, data), step(later, position, data))
        self.assertEqual(late.write(), later.write())

    def test_bad_snapshots(self) -> None:
        source = self.pair()[0]
        for position, data in ((1, write_settings(SETTINGS)), (2, b"open"), (3, b"open")):
            source.apply(position, data)
        good = source.write()
        bad = (b"", good[:20], good.replace(b"pidtab-snapshot 2", b"pidtab-snapshot 3"), good.replace(b"pid_max 32768", b"pid_max 301", 1), good.replace(b"2 0\n", b"2 x\n", 1), good[:-3], good + b"x")
        for text in bad:
            with self.subTest(text=text[:60]):
                for machine in self.pair():
                    with self.assertRaises(LogFault):
                        machine.load(3, text)
                    self.assertEqual((machine.begun, machine.position, machine.table.ask.count()), (False, 0, 1))  # type: ignore[attr-defined]
        for machine in self.pair():
            with self.assertRaisesRegex(LogFault, "it is that of entry 3"):
                machine.load(4, good)
            machine.load(3, good)
            with self.assertRaisesRegex(LogFault, "behind entry 3"):
                machine.load(3, good)

    def test_which_machine(self) -> None:
        class Odd(Table):
            """A kind of table that may answer otherwise."""

        for kind, machine in ((Table, LibraryMachine), (Odd, Machine)):
            found = open_machine(kind, SETTINGS)
            self.assertIs(type(found), machine)
            found.table.close()
        with mock.patch("pidtab.hosts.machines.has_replicas", return_value=False), Table() as table:
            self.assertIs(type(open_machine(lambda: table, SETTINGS)), Machine)

    def test_no_memory_is_said(self) -> None:
        for status in (12, 131):
            machine = self.pair()[1]
            with mock.patch.object(machine, "_apply", return_value=status), self.assertRaises(NoMemory):
                machine.apply(1, write_settings(SETTINGS))


if __name__ == "__main__":
    unittest.main()
