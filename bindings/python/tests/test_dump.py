"""A table as text, and a table that is made of it again, beside one that never was saved. What is loaded and what is not is in interface/cases."""

import gc
import hashlib
import os
import random
import unittest
from types import SimpleNamespace
from typing import Any
from unittest import mock

from pidtab import ALL, BadText, LibraryFault, NotKept, Refusal, Table, TableClosed, raw
from pidtab.language import FORMS
from tests.ways import for_threads, need_library

SEED = 40
RANDOM_LINES = 400

# The text of docs/SCRIPT.md.
BODY = """pidtab table 1 pid-max 32768 stamp 7
task 1@0 parent - group 1@0 session 1@0 control 0 children 0 live
task 2@0 parent 1@0 group 3,1@2 session 1@0 control 0 children 0 live
space 0 parent - cursor 4
space 2 parent 0 cursor 2 fallen
control 0 parent - limit max
"""
TEXT = BODY + "end sha256 43e4b011666adfc0327747421276975e151ed4aaf6d8c75e33dcc6843cccb951\n"


def closed(body: str) -> str:
    """The body with its digest."""
    return body + f"end sha256 {hashlib.sha256(body.encode()).hexdigest()}\n"


def random_lines(chance: random.Random, count: int) -> list[str]:
    """Lines with small numbers, so that most calls name what is there."""
    numbers = {letter: range(-1 if letter == "G" else 0, 12) for letter in "CTPNSGI"}
    forms = [chance.choice(FORMS).split(" ") for _ in range(count)]
    return [" ".join(str(chance.choice(numbers[word])) if word in numbers else word for word in form) for form in forms]


class Texts(unittest.TestCase):
    """A table is made of its text."""

    @classmethod
    def setUpClass(cls) -> None:
        need_library()

    def table(self, text: Any = None, **settings: Any) -> Table:
        """A table of the text, or a new one."""
        table = Table(**settings) if text is None else Table.from_dump(text)
        self.addCleanup(table.close)
        return table

    def test_texts_of_each_kind(self) -> None:
        for text in (TEXT, TEXT.encode(), bytearray(TEXT.encode()), memoryview(TEXT.encode())):
            loaded = self.table(text)
            self.assertEqual((loaded.pid_max, loaded.getpgid(2), loaded.mk()), (32768, 3, 8))
            self.assertEqual(Table.from_dump(text).dump(), TEXT)

    def test_random_calls_behind_it(self) -> None:
        chance = random.Random(SEED)
        for _ in range(10):
            table = self.table(pid_max=301)
            table.answers(random_lines(chance, RANDOM_LINES))
            text, behind = table.dump(), random_lines(chance, RANDOM_LINES)
            loaded = self.table(text)
            self.assertEqual((loaded.pid_max, loaded.dump(), loaded.list()), (301, text, table.list()))
            self.assertEqual(loaded.answers(behind), table.answers(behind))
            self.assertEqual(loaded.dump(), table.dump())

    def test_a_body_changed_beside_its_digest(self) -> None:
        # It is refused, or it is the text of the table that it makes.
        made = 0
        for place in range(len(BODY)):
            for byte in "0129,@-a\n":
                text = closed(BODY[:place] + byte + BODY[place + 1 :])
                try:
                    table = Table.from_dump(text)
                except BadText:
                    continue
                self.assertEqual(table.dump(), text)
                made += 1
        self.assertGreater(made, 5)

    def test_what_is_no_text(self) -> None:
        for text in ("", "\n", "\0", "fork 1\n", "\N{SNOWMAN}", "\udc80", b"\xff" * 100, TEXT * 2, TEXT + "\n", TEXT.replace("\n", "\r\n")):
            with self.assertRaisesRegex(BadText, "^line [0-9]+: "):
                Table.from_dump(text)
        for kind in (None, 7, ["pidtab"], TEXT.splitlines()):
            with self.assertRaisesRegex(TypeError, "text of a table is a str or bytes, not"):
                Table.from_dump(kind)  # type: ignore[arg-type]

    def test_a_closed_table(self) -> None:
        table = Table()
        table.close()
        with self.assertRaisesRegex(TableClosed, "was closed"):
            table.dump()

    def test_a_table_that_nobody_has(self) -> None:
        table = Table.from_dump(TEXT)
        at = table._check_open().at
        self.assertTrue(at.is_open)
        del table
        gc.collect()
        self.assertFalse(at.is_open)

    def test_a_forked_child(self) -> None:
        table = self.table()
        child = os.fork()
        if child == 0:
            try:
                table.dump()
            except TableClosed:
                # It has tables of its own.
                os._exit(0 if Table.from_dump(TEXT).dump() == TEXT else 2)
            os._exit(1)
        self.assertEqual(os.waitpid(child, 0)[1], 0)

    def test_the_library_of_an_earlier_release(self) -> None:
        names = ("pidtab_open", "pidtab_close", "pidtab_call", "pidtab_line", "pidtab_list")
        earlier = SimpleNamespace(**{name: mock.Mock(return_value=raw.DONE) for name in names})
        with mock.patch("pidtab.table.load_library", return_value=earlier):
            table = self.table()
            with self.assertRaisesRegex(LibraryFault, "no function pidtab_dump, as the library of an earlier release"):
                table.dump()
            with self.assertRaisesRegex(LibraryFault, "no function pidtab_load"):
                Table.from_dump(TEXT)

    def test_no_memory(self) -> None:
        poor = SimpleNamespace(**{name: mock.Mock(return_value=raw.DONE) for name in raw.FUNCTIONS})
        poor.pidtab_load_with = poor.pidtab_dump = mock.Mock(return_value=raw.NO_MEMORY)
        with mock.patch("pidtab.table.load_library", return_value=poor):
            with self.assertRaisesRegex(MemoryError, "load: no memory"):
                Table.from_dump(TEXT)
            with self.assertRaisesRegex(MemoryError, "dump: no memory"):
                self.table().dump()


class TextsOfHistories(unittest.TestCase):
    """A table with a history is made of a text, and its history begins there."""

    @classmethod
    def setUpClass(cls) -> None:
        need_library()

    def table(self, text: str, **settings: Any) -> Table:
        """A table of the text."""
        table = Table.from_dump(text, **{"keep": ALL, "threads": True, **settings})
        self.addCleanup(table.close)
        return table

    def test_the_history_begins_there(self) -> None:
        table = self.table(TEXT, workers=2)
        self.assertEqual((table.workers, table.pid_max, table.first_stamp, table.dump()), (2, 32768, 7, TEXT))
        seat = table.seat()
        self.assertEqual((tuple(table.counts()), seat.ordinal), ((0, 0), None))
        self.assertEqual((seat.getpgid(2), seat.mk(), seat.fork(1).root, seat.ordinal), (3, 8, 4, 2))
        self.assertEqual([it.line for it in table.entries()], ["getpgid 2 0", "mk 0", "fork 1"])

    def test_the_same_as_the_one_that_was_never_saved(self) -> None:
        chance = random.Random(SEED)
        with for_threads(1, pid_max=301) as never_saved:
            seat = never_saved.seat()
            seat.answers(random_lines(chance, RANDOM_LINES))
            recorded = [never_saved.worker(0)]
            loaded = self.table(never_saved.dump(), recorded=recorded)
            other, behind = loaded.seat(), random_lines(chance, RANDOM_LINES)
            self.assertEqual(other.answers(behind), seat.answers(behind))
            self.assertEqual((loaded.dump(), loaded.counts().recorded), (never_saved.dump(), never_saved.counts().recorded))
            self.assertEqual(list(loaded.entries()), list(never_saved.entries(recorded[0])))

    def test_counts_that_do_not_fit(self) -> None:
        for recorded in ([7], [6, 1], [2**64 - 1, 2**64 - 1]):
            with self.assertRaisesRegex(ValueError, "recorded: .* as many as the stamp"):
                Table.from_dump(TEXT, recorded=recorded, keep=1)
        for recorded in ([], [0] * 17):
            with self.assertRaisesRegex(ValueError, "1 to 16, not"):
                Table.from_dump(TEXT, recorded=recorded, keep=1)
        with self.assertRaisesRegex(ValueError, "^recorded is 0 to 18446744073709551615, not -1$"):
            Table.from_dump(TEXT, recorded=[-1], keep=1)
        with self.assertRaisesRegex(ValueError, "^workers is 1 to 16, not 17$"):
            Table.from_dump(TEXT, workers=17, keep=1)
        with self.assertRaisesRegex(ValueError, "^recorded has 2 numbers, and workers is 3$"):
            Table.from_dump(TEXT, workers=3, recorded=[1, 1], keep=1)
        for wrong in ("12", [1.5], [None], [True]):
            with self.assertRaises(TypeError):
                Table.from_dump(TEXT, recorded=wrong, keep=1)  # type: ignore[arg-type]
        # As many of both are no fault.
        self.assertEqual(self.table(TEXT, workers=2, recorded=[1, 0]).worker(0), 1)

    def test_counts_without_a_history(self) -> None:
        for workers, words in ((4, "workers count"), (None, "the numbers of `recorded` count")):
            with self.assertRaisesRegex(ValueError, f"^{words} the calls of a history: open it with keep$"):
                Table.from_dump(TEXT, workers=workers, recorded=None if workers else [0])

    def test_it_is_in_no_file(self) -> None:
        for recorded in ([0], [6]):
            table = self.table(TEXT, recorded=recorded)
            table.seat().mk()
            path = f"/nowhere/{os.getpid()}"
            with self.assertRaisesRegex(NotKept, "text of another one"):
                table.save(path)
            self.assertIsNone(table.saved)

    def test_it_cuts_what_it_has(self) -> None:
        table = self.table(TEXT, keep=2, threads=False)
        seat = table.seat()
        for _ in range(5):
            seat.getpid(1)
        self.assertEqual(tuple(table.counts()), (3, 5))
        self.assertRaises(Refusal, seat.rm, 99)

    def test_a_closed_one(self) -> None:
        table = self.table(TEXT)
        table.close()
        self.assertRaises(TableClosed, table.dump)

    def test_the_library_of_an_earlier_release(self) -> None:
        table = self.table(TEXT)
        earlier = SimpleNamespace()
        with mock.patch("pidtab.table.load_library", return_value=earlier), self.assertRaisesRegex(LibraryFault, "no function pidtab_load_with"):
            self.table(TEXT)
        with mock.patch.object(table._hold, "functions", earlier), self.assertRaisesRegex(LibraryFault, "no function pidtab_dump"):
            table.dump()


if __name__ == "__main__":
    unittest.main()
