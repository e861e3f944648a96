"""A saved history: its bytes are those of docs/SAVED.md, it loads as what was saved, and what is wrong with a file is told with its place."""

import errno
import gc
import os
import re
import resource
import struct
import subprocess
import tempfile
import threading
import time
import unittest
import warnings
from pathlib import Path
from types import FrameType
from typing import Any
from unittest import mock

from pidtab import ALL, BadHistory, Counts, Entry, NotKept, OtherSettings, Saved, Seat, SeatsTaken, Table, TableClosed
from tests.alarms import Awaiting, alarms
from tests.pages import fenced, read_page, section
from tests.programs import ARCHIVE, BUILT, STRICT, need_archive, need_tool
from tests.test_arguments import NO_INTEGERS
from tests.test_ends import OTHERS, in_child
from tests.test_history import run_all
from tests.ways import for_threads, need_library

BLOCK = 48

# A task in six namespaces, and one in seventeen: its `nspid` has one block more, and two.
DEEP = 17

# The polynomial of docs/SAVED.md with its bits reflected, and its check value.
POLYNOMIAL = 0xC96C5795D7870F42
CHECK = 0x995DC9BBDF1939FA


def crc(data: bytes) -> int:
    """The CRC-64/XZ, a bit at a time."""
    found = 2**64 - 1
    for byte in data:
        found ^= byte
        for _ in range(8):
            found = found >> 1 ^ (POLYNOMIAL if found & 1 else 0)
    return found ^ (2**64 - 1)


def seal(blocks: bytes) -> bytes:
    """The same blocks with the checksums that belong there."""
    summed, sealed = b"", b""
    for at in range(0, len(blocks), BLOCK):
        summed += blocks[at : at + 40]
        sealed += blocks[at : at + 40] + struct.pack("<Q", crc(summed))
    return sealed


def changed(saved: bytes, at: int, put: bytes) -> bytes:
    """The file with other bytes at a place, and the checksums of these."""
    return seal(saved[:at] + put + saved[at + len(put) :])


def size_of(entry: Entry) -> int:
    """How many bytes an entry has, by its levels."""
    levels = len(entry.answer.split(" ")) if entry.line.startswith("nspid") and not entry.answer.startswith("E") else 0
    return BLOCK * (1 if levels <= 4 else 2 if levels <= 14 else 3 if levels <= 24 else 4)


def page_bytes() -> bytes:
    """The bytes of the example of docs/SAVED.md."""
    (text,) = fenced(section(read_page("docs/SAVED.md"), "## An example"), "hex")
    return bytes.fromhex(text)


def make_calls(seats: list[Seat]) -> None:
    """Calls of each kind, good and refused, by two workers, with replies of one block to three."""
    one, other = seats
    for number in range(1, DEEP):
        one.line(f"fork {number} new")
    lines = [f"nspid 1 {DEEP}", "nspid 1 6", "exec 2", "setsid 3", "setpgid 3 0 -1", "setpgid 1 0 0", "mk 0", "mk 17", "limit 17 5", "limit 17 max", "move 4 17"]
    lines += ["count 17", "count 99", "getpid 9", "getpid 99", "getppid 2", "getpgid 1 0", "getsid 1 0", "next 1 task 2", "next 1 group 999", "join 1 2"]
    lines += ["subreaper 1 on", "subreaper 1 off", "exit 17 7", "wait 16 any", "wait 1 any", "exit 5 0", "wait 4 own", "wait 4 pid 9", "wait 1 group 7", "rm 17"]
    other.answers(lines)


class Files(unittest.TestCase):
    """A folder for files, and tables that are closed after the test."""

    @classmethod
    def setUpClass(cls) -> None:
        need_library()

    def setUp(self) -> None:
        folder = tempfile.TemporaryDirectory()
        self.addCleanup(folder.cleanup)
        self.folder = Path(folder.name)
        self.path = self.folder / "history"

    def closed_behind(self, table: Table) -> Table:
        """The same table, which is closed after the test."""
        self.addCleanup(table.close)
        return table

    def open(self, workers: int = 2, **settings: Any) -> tuple[Table, list[Seat]]:
        """A new table, with its seats."""
        table = self.closed_behind(for_threads(workers, **settings))
        return table, [table.seat() for _ in range(workers)]

    def load(self, **settings: Any) -> Table:
        """The table of the file, for threads."""
        return self.closed_behind(Table.load(self.path, **{"threads": True, **settings}))

    def whole(self) -> tuple[bytes, list[Entry], str]:
        """The bytes of a saved history with calls of each kind, its entries, and the list that they leave."""
        table, seats = self.open()
        make_calls(seats)
        table.save(self.folder / "whole")
        return (self.folder / "whole").read_bytes(), list(table.entries()), table.list_text()

    def check_bad(self, words: str, calls: int, place: int) -> None:
        """The file is refused with these words and this place, and stays as it is."""
        before = self.path.read_bytes()
        for load in (Table.load, Table.resume):
            with self.assertRaisesRegex(BadHistory, f"^{re.escape(str(self.path))}: {words}$") as caught:
                load(self.path)
            self.assertEqual((caught.exception.calls, caught.exception.place), (calls, place))
        self.assertEqual(self.path.read_bytes(), before)


class Bytes(Files):
    """The form is that of docs/SAVED.md."""

    def test_the_example_is_written(self) -> None:
        table, (one, other) = self.open()
        self.assertEqual((one.line("fork 1 new"), other.line("nspid 1 2")), ("child 2 root 2", "2 1"))
        self.assertEqual(other.answers(["setpgid 1 0 -1"]), ("EINVAL bad-group",))
        self.assertEqual(table.save(self.path), Saved(3, 192, 0))
        self.assertEqual(self.path.read_bytes(), page_bytes())

    def test_the_example_is_read(self) -> None:
        self.path.write_bytes(page_bytes())
        table = self.load()
        self.assertEqual((table.workers, table.pid_max, table.first_stamp, table.keep), (2, 32768, 1, ALL))
        wanted = [Entry(0, 0, "fork 1 new", "child 2 root 2"), Entry(1, 1, "nspid 1 2", "2 1"), Entry(2, 1, "setpgid 1 0 -1", "EINVAL bad-group")]
        self.assertEqual((list(table.entries()), table.saved), (wanted, Saved(3, 192, 0)))

    def test_the_checksum(self) -> None:
        self.assertEqual(crc(b"123456789"), CHECK)
        self.assertEqual(seal(page_bytes()), page_bytes())

    def test_calls_of_each_kind(self) -> None:
        saved, entries, _ = self.whole()
        self.assertEqual({it.line.split(" ")[0] for it in entries}, {line.split(" ")[0] for line in COMMANDS})
        self.assertEqual({size_of(it) // BLOCK for it in entries}, {1, 2, 3})
        self.assertEqual(len(saved), BLOCK + sum(map(size_of, entries)))
        self.assertEqual(seal(saved), saved)


# A line of each kind.
COMMANDS = [
    "fork 1", "getpid 1", "nspid 1 1", "exec 1", "exit 2 0", "wait 1 any", "getppid 1", "setpgid 1 0 0", "setsid 1", "mk 0", "rm 1", "limit 1 max",
    "move 1 0", "count 0", "getpgid 1 0", "getsid 1 0", "next 1 task 0", "join 1 1", "subreaper 1 on",
]  # fmt: skip


class Loads(Files):
    """A file loads as what was saved, and goes on."""

    def check_loaded(self, table: Table, entries: list[Entry], list_text: str) -> None:
        """The table has these entries and this list."""
        self.assertEqual(list(table.entries()), entries)
        self.assertEqual(table.list_text(), list_text)
        self.assertEqual([table.worker(it) for it in range(2)], [len([each for each in entries if each.worker == it]) for it in range(2)])

    def test_a_whole_file(self) -> None:
        saved, entries, list_text = self.whole()
        self.path.write_bytes(saved)
        table = self.load()
        self.check_loaded(table, entries, list_text)
        self.assertEqual((table.saved, table.save(self.path)), (Saved(len(entries), len(saved), 0),) * 2)
        self.assertEqual(self.path.read_bytes(), saved)
        self.assertEqual(table.seat().worker, 0)

    def test_what_goes_on_is_what_one_table_saves(self) -> None:
        saved, entries, _ = self.whole()
        table, seats = self.open()
        seats[0].answers([it.line for it in entries[:5]])
        table.save(self.path)
        again = self.load()
        make_again([again.seat(), again.seat()], entries[5:9])
        again.save(self.path)
        last = self.load()
        make_again([last.seat(), last.seat()], entries[9:])
        last.save(self.path)
        # Worker 0 made the first calls there too.
        self.assertEqual(self.path.read_bytes(), saved)

    def test_cut_at_each_byte(self) -> None:
        saved, entries, _ = self.whole()
        ends = [BLOCK]
        for entry in entries:
            ends.append(ends[-1] + size_of(entry))
        for length in range(len(saved)):
            self.path.write_bytes(saved[:length])
            if length < BLOCK:
                self.check_torn_head(saved[:length])
                continue
            calls = len([end for end in ends if end <= length]) - 1
            with Table.load(self.path) as table:
                told = Saved(calls, ends[calls], length - ends[calls])
                self.assertEqual((table.saved, list(table.entries())), (told, entries[:calls]))
                self.assertEqual(self.path.read_bytes(), saved[:length])
                self.assertEqual(table.save(self.path), told)
                self.assertEqual(self.path.read_bytes(), saved[: ends[calls]])
            if length == ends[calls] + BLOCK // 2:
                self.check_goes_on(saved[:length], entries[calls:], saved)

    def check_torn_head(self, torn: bytes) -> None:
        """A file that ends within its head has no history, and is begun where that is asked for."""
        with self.assertRaisesRegex(BadHistory, "^[^:]*: the file ends within its head: there is no history yet$") as caught:
            Table.load(self.path)
        self.assertEqual((caught.exception.calls, caught.exception.place), (0, 0))
        self.assertEqual(self.path.read_bytes(), torn)
        with Table.resume(self.path, workers=2) as table:
            self.assertEqual((table.saved, table.counts()), (Saved(0, BLOCK, len(torn)), Counts(0, 0)))
        self.assertEqual(self.path.read_bytes(), page_bytes()[:BLOCK])

    def check_goes_on(self, torn: bytes, entries: list[Entry], saved: bytes) -> None:
        """After a torn end the calls that it lacks make the whole file."""
        for load in (Table.load, Table.resume):
            self.path.write_bytes(torn)
            with load(self.path) as table:
                make_again([table.seat(), table.seat()], entries)
                table.save(self.path)
            self.assertEqual(self.path.read_bytes(), saved)

    def test_zeroes_at_the_end(self) -> None:
        # As a file system leaves them that has a file's length before its bytes.
        saved, entries, _ = self.whole()
        for zeroes in (1, 47, 48, 49, 4096):
            self.path.write_bytes(saved + bytes(zeroes))
            with Table.load(self.path) as table:
                self.assertEqual((table.saved, len(list(table.entries()))), (Saved(len(entries), len(saved), zeroes), len(entries)))
            Table.resume(self.path).close()
            self.assertEqual(self.path.read_bytes(), saved)
        self.path.write_bytes(saved + bytes(48) + b"\1")
        self.check_bad(f"call {len(entries)}, saved at byte {len(saved)}: a byte is not the one that was written", len(entries), len(saved))

    def test_stamps_go_on(self) -> None:
        table, (one, _) = self.open(first_stamp=1000, pid_max=301)
        self.assertEqual(one.mk(), 1000)
        table.save(self.path)
        again = self.load()
        self.assertEqual((again.pid_max, again.first_stamp, again.seat().mk()), (301, 1000, 1001))

    def test_entries_that_are_cut_as_it_loads(self) -> None:
        table, (one, _) = self.open()
        one.answers(["fork 1"] * 100)
        table.save(self.path)
        again = self.load(keep=10)
        self.assertGreater(again.counts().first_kept, 80)
        self.assertEqual((again.counts().recorded, again.keep, again.list()), (100, ALL, table.list()))
        again.seat().fork(1)
        self.assertEqual((again.save(self.path), self.load().counts()), (Saved(101, BLOCK * 102, 0), Counts(0, 101)))

    def test_an_empty_history(self) -> None:
        table, _ = self.open()
        self.assertEqual(table.save(self.path), Saved(0, BLOCK, 0))
        self.assertEqual(self.load().counts(), Counts(0, 0))


def make_again(seats: list[Seat], entries: list[Entry]) -> None:
    """Makes the calls of the entries."""
    for entry in entries:
        seats[entry.worker].answers([entry.line])


class Resumes(Files):
    """A file that is loaded, or begun."""

    def test_one_that_is_not_there(self) -> None:
        for made in (False, True):
            if made:
                self.path.write_bytes(b"")
            with Table.resume(self.path, workers=3, pid_max=400, first_stamp=9) as table:
                self.assertEqual((table.workers, table.pid_max, table.first_stamp, table.saved), (3, 400, 9, Saved(0, BLOCK, 0)))
                self.assertEqual((table.seat().mk(), table.save(self.path)), (9, Saved(1, 2 * BLOCK, 0)))
            self.path.unlink()

    def test_the_settings_of_a_file_are_its_own(self) -> None:
        Table.resume(self.path, workers=3, pid_max=400, first_stamp=9).close()
        with self.assertWarnsRegex(OtherSettings, f"^{re.escape(str(self.path))}: the settings of a saved history stay: workers is 3, and not 2$") as warned:
            again = Table.resume(self.path, workers=2, pid_max=400)
        self.assertEqual((warned.filename, again.workers, again.pid_max, again.first_stamp), (__file__, 3, 400, 9))
        again.close()
        with self.assertWarnsRegex(OtherSettings, "stay: pid_max is 400, and not 32768, first_stamp is 9, and not 1$"):
            Table.resume(self.path, pid_max=32768, first_stamp=1).close()
        with warnings.catch_warnings():
            warnings.simplefilter("error")
            Table.resume(self.path).close()
            Table.resume(self.path, workers=3, pid_max=400, first_stamp=9, keep=5).close()

    def test_more_seats_than_the_file_has_workers(self) -> None:
        Table.resume(self.path, workers=1).close()
        for again in (self.load(), Table.resume(self.path)):
            again.seat()
            with self.assertRaisesRegex(SeatsTaken, "^the one worker has its seat: the saved history has no more, and threads may share a seat$"):
                again.seat()
            again.close()

    def test_numbers(self) -> None:
        for name, least, greatest in (("workers", 1, 16), ("pid_max", 301, 4194304), ("first_stamp", 1, 2**64 - 1), ("keep", 1, 2**64 - 1)):
            for value in (least - 1, greatest + 1):
                with self.assertRaisesRegex(ValueError, f"^{name} is {least} to {greatest}, not {value}$"):
                    Table.resume(self.path, **{name: value})  # type: ignore[arg-type]
            # None is a setting that is not named.
            for value in (*NO_INTEGERS, True):
                if value is not None or name == "keep":
                    with self.assertRaisesRegex(TypeError, f"cannot be interpreted as an integer|^{name} is a number, not True$"):
                        Table.resume(self.path, **{name: value})
        self.assertFalse(self.path.exists())


class Wrong(Files):
    """What is not as it was written is refused with its place."""

    def test_changed_at_each_byte(self) -> None:
        saved, entries, _ = self.whole()
        places = [(place, BLOCK + sum(map(size_of, entries[:place]))) for place in range(len(entries))]
        for at in range(len(saved)):
            self.path.write_bytes(saved[:at] + bytes([saved[at] ^ (1 << at % 8)]) + saved[at + 1 :])
            if at < 8:
                self.check_bad("the bytes are no saved history", 0, 0)
            elif at < 12:
                self.check_bad("the saved history is of another version", 0, 0)
            elif at < BLOCK:
                self.check_bad("a byte of the head is not the one that was written", 0, 0)
            else:
                calls, place = [it for it in places if it[1] <= at][-1]
                self.check_bad(f"call {calls}, saved at byte {place}: a byte is not the one that was written", calls, place)

    def test_an_entry_that_is_dropped_doubled_or_moved(self) -> None:
        saved = page_bytes()
        head, one, two, three = (saved[at : at + BLOCK] for at in range(0, len(saved), BLOCK))
        for blocks, calls in (([head, two, three], 0), ([head, one, three], 1), ([head, one, one, two, three], 1), ([head, one, three, two], 1)):
            self.path.write_bytes(b"".join(blocks))
            self.check_bad(f"call {calls}, saved at byte {BLOCK * (1 + calls)}: a byte is not the one that was written", calls, BLOCK * (1 + calls))

    def test_another_reply(self) -> None:
        # The child's number, a level, and the word of the refusal, each with its right checksum.
        for at, put, calls in ((72, b"\3", 0), (124, b"\2", 1), (149, b"\5", 2)):
            self.path.write_bytes(changed(page_bytes(), at, put))
            self.check_bad(f"call {calls}, saved at byte {BLOCK * (1 + calls)}: its reply is another one now", calls, BLOCK * (1 + calls))

    def test_no_call_and_no_worker(self) -> None:
        for at, put in ((96, b"\x13"), (98, b"\2")):
            self.path.write_bytes(changed(page_bytes(), at, put))
            self.check_bad("call 1, saved at byte 96: there is no such call, or no such worker", 1, 96)

    def test_settings(self) -> None:
        for at, put in ((12, struct.pack("<I", 300)), (12, struct.pack("<I", 4194305)), (16, bytes(8)), (24, bytes(4)), (24, b"\x11")):
            self.path.write_bytes(changed(page_bytes(), at, put))
            self.check_bad("no table has the settings of the head", 0, 0)

    def test_the_last_stamp(self) -> None:
        # The second call would have the stamp 2^64 - 1.
        self.path.write_bytes(changed(page_bytes(), 16, struct.pack("<Q", 2**64 - 2)))
        self.check_bad("call 1, saved at byte 96: it is behind the call with the last stamp", 1, 96)

    def test_what_is_no_saved_history(self) -> None:
        for text in (b"fork 1\n", b"\0", bytes(100), page_bytes()[1:]):
            self.path.write_bytes(text)
            self.check_bad("the bytes are no saved history", 0, 0)

    def test_want_of_memory(self) -> None:
        self.path.write_bytes(page_bytes())
        with mock.patch("pidtab.saved.SavedFile.load", return_value=12), self.assertRaisesRegex(MemoryError, "no memory"):
            Table.load(self.path)


class OtherLanguages(Files):
    """What C writes is read here, and what is written here is read by C."""

    def build(self, code: str) -> Path:
        """A program in C."""
        (self.folder / "program.c").write_text(code)
        program = self.folder / "program"
        command = [need_tool("cc"), *STRICT, "-pthread", "-o", program, self.folder / "program.c", f"-I{BUILT}", ARCHIVE]
        subprocess.run(command, check=True)
        return program

    def test_written_by_c(self) -> None:
        need_archive()
        subprocess.run([self.build(C_WRITER), self.path], check=True)
        table = self.load()
        self.assertEqual((table.workers, table.pid_max, table.first_stamp), (3, 400, 7))
        answers = ["child 2 root 2", *(f"child 2 root {number}" for number in range(3, 8)), "7 6 5 4 3 2", "ESRCH no-caller", "control 15"]
        lines = ["fork 1 new", *(f"fork {number} new" for number in range(2, 7)), "nspid 1 7", "getpid 99", "mk 0"]
        self.assertEqual([it.line for it in table.entries()], lines)
        self.assertEqual([it.worker for it in table.entries()], [place % 3 for place in range(9)])
        self.assertEqual([it.answer for it in table.entries()][7:], answers[7:])

    def test_read_by_c(self) -> None:
        need_archive()
        saved, entries, _ = self.whole()
        code = read_page("bindings/c/examples/lines.c")
        done = subprocess.run([self.build(code)], input=saved, stdout=subprocess.PIPE, check=True)
        wanted = ["pid_max 32768 workers 2 first stamp 1", *(f"{it.ordinal} {it.worker} {it.line}" for it in entries)]
        self.assertEqual(done.stdout.decode().splitlines(), wanted)


C_WRITER = r"""
#include <fcntl.h>
#include <pidtab_saved.h>
#include <string.h>

int main(int count, char **words)
{
	static const char *const lines[] = {
		"fork 1 new", "fork 2 new", "fork 3 new", "fork 4 new", "fork 5 new", "fork 6 new", "nspid 1 7", "getpid 99", "mk 0"
	};
	const struct pidtab_saved_head head = { .pid_max = 400, .workers = 3, .first_stamp = 7 };
	const struct pidtab_settings settings = { .pid_max = 400, .workers = 3, .first_stamp = 7, .keep = PIDTAB_KEEP_ALL };
	struct pidtab table = PIDTAB_INIT;
	struct pidtab_saved saved;
	char answer[PIDTAB_LONGEST_ANSWER];
	size_t size;
	uint64_t ordinal;
	uint32_t status = pidtab_open_with(&table, &settings) | pidtab_saved_begin(&saved, open(words[count - 1], O_RDWR | O_CREAT, 0600), &head);

	for (uint32_t i = 0; i < 9; i++)
		status |= pidtab_line_by(&table, i % 3, lines[i], strlen(lines[i]), answer, sizeof answer, &size, &ordinal);
	return (int)(status | pidtab_saved_append(&saved, &table));
}
"""


class Misuse(Files):
    """What is no use of a file has its error, and leaves the table and the file."""

    def test_what_is_no_path(self) -> None:
        table, _ = self.open()
        for path in (None, 3, 1.0, ["history"]):
            for use in (table.save, Table.load, Table.resume):
                with self.assertRaisesRegex(TypeError, "expected str, bytes or os.PathLike object"):
                    use(path)  # type: ignore[arg-type, operator]
        with self.assertRaisesRegex(ValueError, "null"):
            table.save("a\0b")
        self.assertEqual((table.saved, os.listdir(self.folder)), (None, []))

    def test_what_is_no_integer(self) -> None:
        self.path.write_bytes(page_bytes())
        for value in NO_INTEGERS:
            with self.assertRaisesRegex(TypeError, "cannot be interpreted as an integer"):
                Table.load(self.path, keep=value)
        for value in (-1, 0, 2**64):
            with self.assertRaisesRegex(ValueError, "^keep is 1 to "):
                Table.load(self.path, keep=value)
        for value in (1, None, "no"):
            with self.assertRaisesRegex(TypeError, "^threads is True or False, not "):
                Table.load(self.path, threads=value)  # type: ignore[arg-type]

    def test_paths_of_each_kind(self) -> None:
        table, (one, _) = self.open()
        before = os.getcwd()
        self.addCleanup(os.chdir, before)
        os.chdir(self.folder)
        for path in ("history", b"history", Path("history"), self.path, str(self.path)):
            one.getpid(1)
            table.save(path)  # type: ignore[arg-type]
        self.assertEqual((os.listdir("."), self.load(library=table.library).counts()), (["history"], Counts(0, 5)))

    def test_a_file_of_others(self) -> None:
        table, (one, _) = self.open()
        one.fork(1)
        for text in (b"x", page_bytes(), page_bytes()[:20]):
            self.path.write_bytes(text)
            with self.assertRaisesRegex(FileExistsError, "the file has bytes, and is not the one of this table"):
                table.save(self.path)
            self.assertEqual((self.path.read_bytes(), table.saved), (text, None))
        table.save(self.folder / "own")
        with self.assertRaises(FileExistsError):
            table.save(self.path)
        one.fork(1)
        self.assertEqual(table.save(self.folder / "own"), Saved(2, 3 * BLOCK, 0))

    def test_a_file_after_another(self) -> None:
        # A file that was moved away is gone on with by no one; the next has all calls.
        table, (one, _) = self.open()
        one.fork(1)
        table.save(self.path)
        self.path.rename(self.folder / "moved")
        one.fork(1)
        self.assertEqual(table.save(self.path), Saved(2, 3 * BLOCK, 0))
        self.assertEqual(self.path.read_bytes()[: 2 * BLOCK], (self.folder / "moved").read_bytes())
        with self.assertRaises(FileExistsError):
            table.save(self.folder / "moved")

    def test_two_tables_at_one_file(self) -> None:
        self.path.write_bytes(page_bytes())
        one, other = self.load(), self.load()
        one.seat().getpid(1)
        one.save(self.path)
        saved = self.path.read_bytes()
        other.seat().fork(1)
        with self.assertRaisesRegex(BadHistory, "the file has 240 bytes where this table left 192: another has written to it$"):
            other.save(self.path)
        self.assertEqual(self.path.read_bytes(), saved)

    def test_what_is_no_file(self) -> None:
        table, _ = self.open()
        for use in (table.save, Table.load, Table.resume):
            with self.assertRaises(IsADirectoryError):
                use(self.folder)
            with self.assertRaises((FileNotFoundError, NotADirectoryError)):
                use(self.folder / "none" / "history")
        with self.assertRaises(FileNotFoundError):
            Table.load(self.path)
        self.assertEqual(os.listdir(self.folder), [])

    def test_a_device_that_is_full(self) -> None:
        table, _ = self.open()
        with self.assertRaises(OSError) as caught:
            table.save("/dev/full")
        self.assertEqual((caught.exception.errno, caught.exception.filename, table.saved), (errno.ENOSPC, "/dev/full", None))
        self.assertEqual(table.save(self.path), Saved(0, BLOCK, 0))

    def test_a_file_that_may_not_grow(self) -> None:
        # A write is cut short at each length in turn, and the next save goes on after it.
        saved, entries, _ = self.whole()
        limits = resource.getrlimit(resource.RLIMIT_FSIZE)
        self.addCleanup(resource.setrlimit, resource.RLIMIT_FSIZE, limits)
        for length in range(0, len(saved), 7):
            table, seats = self.open()
            make_again(seats, entries)
            resource.setrlimit(resource.RLIMIT_FSIZE, (length, limits[1]))
            with self.assertRaises(OSError) as caught:
                table.save(self.path)
            self.assertEqual((caught.exception.errno, self.path.stat().st_size), (errno.EFBIG, length if length >= BLOCK else 0))
            resource.setrlimit(resource.RLIMIT_FSIZE, limits)
            if length >= BLOCK:
                # As many calls count as the file loads.
                assert table.saved is not None
                with Table.load(self.path) as again:
                    self.assertEqual(table.saved.calls, again.counts().recorded)
            table.save(self.path)
            self.assertEqual(self.path.read_bytes(), saved)
            table.close()
            self.path.unlink()

    def test_calls_that_were_cut_away(self) -> None:
        table, (one, _) = self.open()
        one.fork(1)
        table.checkpoint()
        with self.assertRaisesRegex(NotKept, f"^call 0 is not kept: it was cut away before it was saved to {self.path}$"):
            table.save(self.path)
        self.assertEqual((os.listdir(self.folder), table.saved), ([], None))

    def test_calls_that_are_cut_behind_a_save(self) -> None:
        table, (one, _) = self.open()
        one.fork(1)
        self.assertTrue(table.checkpoint_at(table.save(self.path).calls))
        one.fork(1)
        self.assertTrue(table.checkpoint_at(table.save(self.path).calls))
        one.fork(1)
        table.checkpoint()
        with self.assertRaisesRegex(NotKept, "^call 2 is not kept"):
            table.save(self.path)
        self.assertEqual([it.answer for it in self.load().entries()], ["child 2 root 2", "child 3 root 3"])

    def test_closed(self) -> None:
        table, (one, _) = self.open()
        one.fork(1)
        table.save(self.path)
        table.close()
        with self.assertRaisesRegex(TableClosed, "^the table was closed$"):
            table.save(self.path)
        with self.assertRaisesRegex(TableClosed, "^the table was closed$"):
            table.save(self.folder / "other")
        self.assertEqual((table.saved, os.listdir(self.folder)), (None, ["history"]))

    def test_in_a_forked_child(self) -> None:
        table, (one, _) = self.open()
        table.save(self.path)
        one.fork(1)
        self.assertEqual(in_child(lambda: table.save(self.path)), f"closed: {OTHERS}")
        self.assertEqual(in_child(lambda: Table.load(self.path).counts()), "Counts(first_kept=0, recorded=0)")
        self.assertEqual(table.save(self.path), Saved(1, 2 * BLOCK, 0))


class Ends(Files):
    """Descriptors are closed with their tables, also where a load fails."""

    def test_no_descriptor_is_left(self) -> None:
        before = len(os.listdir("/proc/self/fd"))
        for _ in range(3):
            with Table.resume(self.path) as table:
                table.seat().fork(1)
                table.save(self.path)
            with Table.load(self.path) as table:
                table.seat().fork(1)
                table.save(self.path)
                table.save(self.folder / "other")
            (self.folder / "other").unlink()
        (self.folder / "bad").write_bytes(b"x")
        for use in (Table.load, Table.resume, for_threads().save):
            with self.assertRaises((BadHistory, FileExistsError)):
                use(self.folder / "bad")
        del table, use
        gc.collect()
        self.assertEqual(len(os.listdir("/proc/self/fd")), before)

    def test_what_survives_the_machine(self) -> None:
        table, (one, _) = self.open()
        with mock.patch("os.fsync", side_effect=lambda it: kinds.append(os.path.isdir(f"/proc/self/fd/{it}"))):
            kinds: list[bool] = []
            table.save(self.path)
            self.assertEqual(kinds, [])
            for _ in range(2):
                one.fork(1)
                table.save(self.path, sync=True)
        # The file, and its folder once.
        self.assertEqual(kinds, [False, True, False])


class Threads(Files):
    """Saves amid calls."""

    def test_calls_of_many_threads(self) -> None:
        table, seats = self.open(8)
        work = [threading.Thread(target=lambda it=seat: it.answers(["fork 1", f"fork {it.worker + 1}"] * 500)) for seat in seats]
        savers = [threading.Thread(target=lambda: [table.save(self.path) for _ in range(50)]) for _ in range(2)]
        run_all([*work, *savers])
        self.assertEqual(table.save(self.path).calls, 8000)
        again = self.load()
        self.assertEqual((list(again.entries()), again.list()), (list(table.entries()), table.list()))

    def test_a_close_amid_saves(self) -> None:
        table, seats = self.open()
        told: list[str] = []

        def save_till_closed() -> None:
            try:
                while True:
                    seats[0].fork(1)
                    table.save(self.path)
            except TableClosed as fault:
                told.append(str(fault))

        thread = threading.Thread(target=save_till_closed)
        thread.start()
        while not self.path.exists():
            time.sleep(0)
        time.sleep(0.05)
        table.close()
        thread.join(60)
        self.assertEqual(told, ["the table was closed"])
        self.assertEqual(self.load().counts().first_kept, 0)


class Interrupts(Awaiting, Files):
    """Ctrl-C amid a save or a load: nothing is lost or doubled."""

    def check_file(self, table: Table) -> None:
        """The file is what a save without interrupts writes."""
        table.save(self.path)
        path = self.folder / "again"
        table.save(path)
        self.assertEqual(self.path.read_bytes(), path.read_bytes())

    def test_many_in_a_second(self) -> None:
        table, (one, _) = self.open()
        interrupted = 0
        end = time.monotonic() + 1.5
        with alarms(self.interrupt, 0.003, 0.003):
            while time.monotonic() < end:
                try:
                    self.save_for_ever(table, one)
                except KeyboardInterrupt:
                    interrupted += 1
        self.assertGreater(interrupted, 20)
        self.check_file(table)

    def save_for_ever(self, table: Table, seat: Seat) -> None:
        """Makes calls and saves them, until it is interrupted."""
        self.awaited = True
        while True:
            seat.answers(["getpid 1"] * 3)
            table.save(self.path)

    def test_new_files(self) -> None:
        # An interrupt as a file is begun leaves one that is empty or begun, and the next save goes on.
        table, (one, _) = self.open()
        one.fork(1)
        begun = interrupted = 0
        end = time.monotonic() + 1.5
        with alarms(self.interrupt, 0.0007, 0.0007):
            while time.monotonic() < end:
                path = self.folder / f"file{begun}"
                begun += 1
                # The end of the file before is not interrupted, since nobody would catch that.
                before = table._file
                try:
                    self.awaited = True
                    table.save(path)
                except KeyboardInterrupt:
                    interrupted += 1
                self.awaited = False
                self.assertEqual(table.save(path), Saved(1, 2 * BLOCK, 0))
                self.assertIsNot(table._file, before)
        self.assertGreater(interrupted, 20)
        self.assertEqual({(self.folder / f"file{number}").stat().st_size for number in range(begun)}, {2 * BLOCK})

    def test_a_load(self) -> None:
        table, (one, _) = self.open()
        one.answers(["getpid 1"] * 20000)
        table.save(self.path)
        before = len(os.listdir("/proc/self/fd"))
        interrupted = 0
        loaded: Table | None = None
        with alarms(self.interrupt, 0.001, 0.001):
            for _ in range(50):
                try:
                    self.awaited = True
                    loaded = Table.load(self.path)
                except KeyboardInterrupt:
                    interrupted += 1
                # Its end is not interrupted, since nobody would catch that.
                self.awaited = False
                loaded = None
        gc.collect()
        self.assertIsNone(loaded)
        self.assertGreater(interrupted, 20)
        self.assertEqual((len(os.listdir("/proc/self/fd")), self.load().counts()), (before, Counts(0, 20000)))

    def test_saves_of_a_handler(self) -> None:
        table, (one, other) = self.open()

        def save(number: int, frame: FrameType | None) -> None:
            other.fork(1)
            table.save(self.path)

        made = 0
        with alarms(save, 0.002, 0.002):
            # On a busy machine the handler comes later.
            while made < 300 or table.worker(1) <= 5:
                one.fork(1)
                table.save(self.path)
                made += 1
        self.assertEqual(table.worker(0), made)
        self.check_file(table)


if __name__ == "__main__":
    unittest.main()
