"""`pidtab-replay`: a log by hand, played by one thread, and answers of which each fault is found."""

import base64
import hashlib
import json
import subprocess
import sys
import tempfile
import unittest
from collections.abc import Sequence
from pathlib import Path

from pidtab import LibraryFault, MemoryLog, Process, Replicated, Table, find_library, find_program
from pidtab.hosts.log_entries import MOST_SESSIONS
from pidtab.library import load_library
from tests.ways import need_calls, need_library, need_program

SCRIPT = Path(__file__).resolve().parents[1] / "bin" / "pidtab-replay"
SETTINGS = b"pidtab-log 1 pid_max 32768 model 1"

# The digests after the settings and after the first calls, as docs/CLUSTER.md has them.
AT_FIRST = hashlib.sha256(SETTINGS).digest()
AT_SECOND = hashlib.sha256(AT_FIRST + b"fork 1 new\nchild 2 root 2\ngetpid 9\nESRCH no-caller\n").digest()

# A session at 5; its first entry, which comes again at 9; a second session at 8, which is ended; a third entry without a second.
LOG = [
    (3, SETTINGS),
    (5, b"open"),
    (6, b"calls 5 1 2 3 " + AT_FIRST.hex()[:16].encode() + b"\nfork 1 new\ngetpid 9"),
    (8, b"open"),
    (9, b"calls 5 1 2 3 " + AT_FIRST.hex()[:16].encode() + b"\nfork 1 new\ngetpid 9"),
    (11, b"calls 5 2 1 9 " + AT_SECOND.hex()[:16].encode() + b"\nfork 2"),
    (12, b"end 8"),
    (14, b"calls 8 1 1 9 " + AT_SECOND.hex()[:16].encode() + b"\nfork 1"),
    (15, b"calls 5 4 1 9 " + AT_SECOND.hex()[:16].encode() + b"\nfork 1"),
]
ROWS = ["5 1 0\tfork 1 new\tchild 2 root 2\t10\t20\n", "5 1 1\tgetpid 9\tESRCH no-caller\t10\t20\n", "5 2 0\tfork 2\tchild 2 root 3\t30\t40\n"]
AT_LAST = hashlib.sha256(AT_SECOND + b"fork 2\nchild 2 root 3\n").hexdigest()
LIST = """\
task 1 space 0 parent 0 group 1 session 1 control 0 live
task 2,1 space 1 parent 1 group 1 session 1 control 0 live
task 3,2 space 1 parent 2 group 1 session 1 control 0 live
space 0 parent - cursor 4
space 1 parent 0 cursor 3
control 0 parent - limit max count 3
"""


# A log of form 2, with the snapshot that the entry at 6 has asked for. What is up to there may be cut.
FORM_2 = b"pidtab-log 2 pid_max 32768 model 1"
BEGUN = hashlib.sha256(FORM_2).digest()
ONCE = hashlib.sha256(BEGUN + b"fork 1\nchild 2 root 2\n").digest()
TWICE = hashlib.sha256(ONCE + b"getpid 2\n2\n").hexdigest()
CUT_LOG = [
    (3, FORM_2),
    (4, b"open"),
    (5, b"calls 4 1 1 3 " + BEGUN.hex()[:16].encode() + b"\nfork 1"),
    (6, b"snap"),
    (7, b"snapshot 6 " + ONCE.hex().encode() + b" 90 " + b"a" * 64 + b" 0000000000000006-0123456789abcdef"),
    (9, b"calls 4 2 1 7 " + ONCE.hex()[:16].encode() + b"\ngetpid 2"),
]


def text64(data: bytes) -> str:
    return base64.b64encode(data).decode()


def as_json(entries: Sequence[tuple[int, bytes]]) -> str:
    """A log as etcdctl writes it, in the order of its keys."""
    kvs = [{"key": text64(b"web:%016x-0" % (999 - at)), "create_revision": at, "value": text64(data)} for at, data in entries]
    return json.dumps({"header": {"revision": 99}, "kvs": [*reversed(kvs), {"key": text64(b"web:~mark"), "create_revision": 4}], "count": len(kvs)})


class Replays(unittest.TestCase):
    """By the library, or else by the program."""

    def setUp(self) -> None:
        folder = tempfile.TemporaryDirectory()
        self.addCleanup(folder.cleanup)
        self.folder = Path(folder.name)
        try:
            load_library(find_library())
        except LibraryFault:
            need_program()
            self.way = ["--program", find_program()]
        else:
            self.way = ["--library", find_library()]

    def run_it(self, log: str, *words: str | Path, rows: Sequence[str] = ()) -> tuple[int, str, str]:
        """The status, and what it writes."""
        (self.folder / "log").write_text(log)
        (self.folder / "rows").write_text("".join(rows))
        words = ("--answers", self.folder / "rows", *words) if rows else words
        command = [sys.executable, "-B", SCRIPT, *self.way, *words, self.folder / "log"]
        done = subprocess.run(command, capture_output=True, text=True, check=False)
        return done.returncode, done.stdout, done.stderr

    def test_a_log_by_hand(self) -> None:
        status, said, fault = self.run_it(as_json(LOG), rows=ROWS)
        self.assertEqual((status, fault), (0, ""))
        self.assertEqual(said.splitlines(), [
            "log: 9 entries, 3 calls, 3 entries repeated", f"digest {AT_LAST}", f"list {hashlib.sha256(LIST.encode()).hexdigest()}",
            "writers with another digest: 0", "answers 3: 0 lost, 0 wrong, 0 doubled; 0 calls have none", "times 3: 0 out of order",
        ])  # fmt: skip

    def test_the_list(self) -> None:
        self.assertEqual(self.run_it(as_json(LOG), "--list"), (0, LIST, ""))

    def test_without_answers(self) -> None:
        status, said, _ = self.run_it(as_json(LOG))
        self.assertEqual((status, len(said.splitlines())), (0, 4))

    def check(self, words: str, rows: Sequence[str], entries: Sequence[tuple[int, bytes]] = LOG) -> None:
        """A fault that is found."""
        status, said, fault = self.run_it(as_json(entries), rows=rows)
        self.assertEqual((status, fault), (1, ""))
        self.assertIn(words, said)

    def test_each_fault_of_an_answer(self) -> None:
        self.check("answers 3: 0 lost, 1 wrong, 0 doubled;", [ROWS[0].replace("root 2", "root 3"), *ROWS[1:]])
        self.check("answers 3: 0 lost, 1 wrong, 0 doubled;", [ROWS[0].replace("fork 1 new", "fork 1"), *ROWS[1:]])
        self.check("answers 3: 1 lost, 0 wrong, 0 doubled; 1 calls have none", [*ROWS[:2], ROWS[2].replace("5 2 0", "5 3 0")])
        self.check("answers 4: 1 lost, 0 wrong, 0 doubled; 0 calls have none", [*ROWS, "8 1 0\tfork 1\tchild 4 root 4\n"])
        self.check("answers 3: 0 lost, 0 wrong, 1 doubled;", [*ROWS, ROWS[0]])
        # The last call in the log was answered before the others were asked.
        self.check("times 3: 1 out of order", [*ROWS[:2], ROWS[2].replace("\t30\t40", "\t1\t9")])

    def test_a_line_with_tabs(self) -> None:
        entries = [*LOG, (20, b"calls 5 3 1 9 " + AT_SECOND.hex()[:16].encode() + b"\na\t1\t2")]
        for times in ("", "\t50\t60"):
            status, said, _ = self.run_it(as_json(entries), rows=[*ROWS, f"5 3 0\ta\t1\t2\tbad line{times}\n"])
            self.assertEqual(status, 0)
            self.assertIn("answers 4: 0 lost, 0 wrong, 0 doubled; 0 calls have none", said)

    def test_a_call_without_an_answer(self) -> None:
        status, said, _ = self.run_it(as_json(LOG), rows=[*ROWS[:2], ROWS[2][:-1]])
        self.assertEqual(status, 0)
        self.assertIn("answers 2: 0 lost, 0 wrong, 0 doubled; 1 calls have none", said)

    def test_a_writer_with_another_digest(self) -> None:
        wrong = [(at, data.replace(AT_SECOND.hex()[:16].encode(), b"0" * 16) if at == 11 else data) for at, data in LOG]
        self.check("writers with another digest: 1 11\n", ROWS, wrong)

    def test_what_is_no_log(self) -> None:
        for log, words in [
            ("", "it is not what `etcdctl get --prefix NAME: -w json` writes"), ("[]", "it is not what"), ('{"kvs": [{}]}', "it is not what"),
            ("{}", "it has no entries"), (as_json(LOG[1:]), "it does not begin with `pidtab-log 2 pid_max N model 1`: one that was cut needs its --archive"),
            (as_json([(3, SETTINGS[:-1] + b"2")]), "it does not begin"), (as_json([*LOG[:2], (6, b"hello")]), "entry 6 cannot be read"),
            (as_json([*LOG[:2], (6, LOG[2][1] + b"\nfork 1")]), "entry 6 cannot be read"),
        ]:  # fmt: skip
            with self.subTest(words):
                status, said, fault = self.run_it(log)
                self.assertEqual((status, said), (2, ""))
                self.assertIn(f"pidtab-replay: {self.folder / 'log'}: {words}", fault)
        status, said, fault = self.run_it(as_json(LOG), rows=["hello\n"])
        self.assertEqual((status, said), (2, ""))
        self.assertIn("it has a row that is none: 'hello", fault)

    def archive(self, name: str, *entries: tuple[int, bytes]) -> Path:
        """A folder with a file of entries, and one that is not whole."""
        folder = self.folder / name
        folder.mkdir(exist_ok=True)
        (folder / f"{name}.json").write_text(as_json(entries))
        (folder / "torn.part").write_text('{"kvs":[')
        return folder

    def test_a_log_that_was_cut(self) -> None:
        whole = self.run_it(as_json(CUT_LOG))
        said = "log: 6 entries, 2 calls, 0 entries repeated\ndigest " + TWICE
        self.assertEqual((whole[0], whole[1][: len(said)], whole[2]), (0, said, ""))
        self.assertIn("writers with another digest: 0\n", whole[1])
        # Cut by two keepers, of which one had not come to its end.
        folders = (self.archive("one", *CUT_LOG[:2]), self.archive("two", *CUT_LOG[1:4]))
        words = [it for folder in folders for it in ("--archive", folder)]
        for left in (CUT_LOG[4:], CUT_LOG[3:], CUT_LOG):
            self.assertEqual(self.run_it(as_json(left), *words), whole)
        status, said, fault = self.run_it(as_json(CUT_LOG[4:]))
        self.assertEqual((status, said), (2, ""))
        self.assertIn("it does not begin with `pidtab-log 2 pid_max N model 1`: one that was cut needs its --archive", fault)

    def test_an_archive_of_another_log(self) -> None:
        folder = self.archive("other", *CUT_LOG[:3], (6, b"open"))
        self.assertIn("two entries have the position 6: they are those of two logs", self.run_it(as_json(CUT_LOG[3:]), "--archive", folder)[2])
        (folder / "other.json").write_text("[]")
        self.assertIn("other.json: it is not what `etcdctl get", self.run_it(as_json(CUT_LOG), "--archive", folder)[2])
        self.assertEqual(self.run_it(as_json(CUT_LOG), "--archive", "/no/archive")[::2], (2, "pidtab-replay: cannot read /no/archive: No such file or directory\n"))

    def test_what_an_archive_lacks(self) -> None:
        # The entry at 5 is in none: the snapshot's digest shows that.
        folder = self.archive("some", *CUT_LOG[:2])
        status, said, _ = self.run_it(as_json(CUT_LOG[3:]), "--archive", folder)
        self.assertEqual(status, 1)
        self.assertIn("writers with another digest: 2 7 9\n", said)

    def test_a_snapshot_in_the_form_before(self) -> None:
        for at in (3, 4):
            entries = [(3, SETTINGS), (4, b"open"), CUT_LOG[at]]
            self.assertIn("cannot be read", self.run_it(as_json(entries))[2])

    def test_files_that_are_not_there(self) -> None:
        self.assertEqual(self.run_it(as_json(LOG), "--answers", "/no/rows")[::2], (2, "pidtab-replay: cannot read /no/rows: No such file or directory\n"))
        status, _, fault = self.run_it(as_json(LOG), "--no-such-word")
        self.assertEqual(status, 2)
        self.assertIn("usage: pidtab-replay", fault)

    def test_too_many_sessions(self) -> None:
        many = [(20 + it, b"open") for it in range(MOST_SESSIONS)]
        behind = (99_999, b"calls 5 3 1 9 " + AT_SECOND.hex()[:16].encode() + b"\nfork 1")
        self.assertIn(", 3 calls, 4 entries", self.run_it(as_json([*LOG, *many, behind]))[1])
        self.assertIn(", 4 calls, 3 entries", self.run_it(as_json([*LOG, *many[1:], behind]))[1])

    def test_what_replicas_write(self) -> None:
        kind = Process if self.way[0] == "--program" else Table
        (need_program if kind is Process else need_library)()
        need_calls()
        log, rows = MemoryLog(7), []
        with Replicated(log, table=kind) as one, Replicated(log, table=kind) as two:
            for table in (one, two, one, two):
                asked = table.submit(["fork 1 new", "mk 0", "getpid 9", "x" * 300, "\udcff", "a\t1\t2", "\r"])
                asked.result()
                rows += asked.rows()
            two.catch_up()
            listed = two.list_text()
        (self.folder / "answers").write_text("".join(rows), "utf-8", "surrogateescape")
        status, said, fault = self.run_it(as_json(log.entries), "--answers", self.folder / "answers")
        self.assertEqual((status, fault), (0, ""))
        self.assertIn("answers 28: 0 lost, 0 wrong, 0 doubled; 0 calls have none", said)
        self.assertEqual(self.run_it(as_json(log.entries), "--list")[1], listed)


if __name__ == "__main__":
    unittest.main()
