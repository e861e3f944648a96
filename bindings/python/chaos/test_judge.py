"""The judge finds each kind of fault where it is planted in a run that is well; and nothing where none is."""

import json
import subprocess
import sys
import tempfile
import unittest
from collections.abc import Callable
from pathlib import Path

from chaos.judge import LONGEST_WAIT, judge
from chaos.record import Delete, Put, Row, read_rows, write_change
from chaos.rules import MOST_SESSIONS, Log

PACKAGE = Path(__file__).resolve().parents[1]

# Stands in for `pidtab`: the judge has to know no answer. Each fork makes the next task, and all else is a bad line.
PROGRAM = f"""\
#!{sys.executable}
import sys
tasks = 1
for line in sys.stdin:
    tasks += line.startswith("fork ")
    if sys.argv[1] == "run":
        print(f"child {{tasks}} root {{tasks}}" if line.startswith("fork ") else "bad line")
if sys.argv[1] == "list":
    print("tasks", tasks)
"""

# The digests behind these positions, and the sum of the list at the end: by `sha256sum`, of what docs/CLUSTER.md says.
DIGESTS = {
    5: "71c1a1ec6994864c95fb29bc2b08612b36876803275ca2232d64c533af96c99b",
    9: "b579c08d588f85083561b1dfefa6772818456496307a84b071744ea83beaef90",
    10: "63f99f946031bf82a0748a7078d5873b5e7eae9c5d28973c032324af84ae4c2d",
    13: "4aadf5663031dcc740a18be36504225e10b50117180a19f640c8e6338724dd26",
    17: "6bc65461c316646b44dc5feea6f28eb5baf97eef0fb798b31111d9a157a58244",
}
LIST = "1e6d16ef414d7ecfb515a7fafc485d45d06c88bee3927d44513470fc129ca70f"

# Of something that the judge does not know.
SUM = 64 * "0"
KEY = "0000000000000001-0000000000000001"


def calls(session: int, number: int, at: int, *lines: str) -> str:
    """An entry of calls."""
    return "\n".join([f"calls {session} {number} {len(lines)} {at} {DIGESTS[at][:16]}", *lines])


def snapshot(of: int, at: int) -> str:
    """An entry that announces a snapshot, of a position at which the digest is that of another one."""
    return f"snapshot {of} {DIGESTS[at]} 100 {SUM} {KEY}"


ENTRIES = {
    5: "pidtab-log 2 pid_max 32768 model 1",
    7: "open",
    8: "open",
    9: calls(7, 1, 5, "batch h0.1 1", "fork 1"),
    10: calls(8, 1, 5, "batch h1.1 1", "fork 1"),
    11: calls(7, 1, 5, "batch h0.1 1", "fork 1"),
    12: "snap",
    13: calls(8, 2, 10, "batch h1.1 2", "fork 2"),
    14: snapshot(12, 10),
    15: "snap",
    16: snapshot(15, 13),
    17: calls(7, 2, 13, "batch h0.1 2"),
}
CUT = (5, 7, 8, 9, 10, 11, 12)


def asked(name: str, time: int, *lines: str) -> Row:
    """A batch that is asked."""
    return {"what": "asked", "id": name, "t0": time, "lines": [name, *lines]}


def answered(name: str, time: int, *answers: str) -> Row:
    """A batch that is answered."""
    return {"what": "answered", "id": name, "t1": time, "answers": ["bad line", *answers]}


def read(of: str, begun: int, over: int, now: bool) -> Row:
    """A read that finds what a batch has made."""
    return {"what": "read", "of": of, "t0": begun, "t1": over, "now": now, "seen": True}


END: Row = {"what": "end", "position": 17, "digest": DIGESTS[17], "list": LIST}

ROWS = {
    "h0.1": [
        asked("batch h0.1 1", 100, "fork 1"),
        answered("batch h0.1 1", 200, "child 2 root 2"),
        read("batch h0.1 1", 210, 220, False),
        read("batch h1.1 2", 410, 420, True),
        asked("batch h0.1 2", 500),
        answered("batch h0.1 2", 600),
        {"what": "place", "position": 13, "digest": DIGESTS[13]},
        END,
    ],
    "h1.1": [
        asked("batch h1.1 1", 150, "fork 1"),
        answered("batch h1.1 1", 250, "child 3 root 3"),
        asked("batch h1.1 2", 300, "fork 2"),
        answered("batch h1.1 2", 400, "child 4 root 4"),
    ],
}

EVENTS: list[Row] = [{"what": "trouble", "name": "kill_host", "from": 450, "to": 460, "holds": False}, {"what": "killed", "life": "h1.1"}]


class Folder:
    """A run that is well, in files, in which faults are planted."""

    def __init__(self, path: Path) -> None:
        self.path = path
        (path / "rows").mkdir()
        (path / "archives" / "k0").mkdir(parents=True)
        self.puts = {it: Put(it, f"web:{it}", data.encode()) for it, data in ENTRIES.items()}
        self.deletes = [Delete(20, f"web:{it}") for it in CUT]
        self.left = [it for it in ENTRIES if it not in CUT]
        self.archived = set(CUT)
        self.rows = {life: [dict(row) for row in rows] for life, rows in ROWS.items()}
        self.events = [dict(row) for row in EVENTS]
        self.program = path / "program"
        self.program.write_text(PROGRAM)
        self.program.chmod(0o755)

    def row(self, life: str, what: str, name: str = "") -> Row:
        """The first row of a kind, of a batch if one is named."""
        return next(it for it in self.rows[life] if it["what"] == what and name in (it.get("id", ""), it.get("of", ""), ""))

    def put(self, position: int, data: str, key: str = "") -> None:
        """Has one more entry, or another one."""
        self.puts[position] = Put(position, key or f"web:{position}", data.encode())
        if position not in self.left:
            self.left.append(position)

    def write(self) -> None:
        """Writes the files."""
        changes: list[Put | Delete] = [*self.puts.values(), *self.deletes]
        (self.path / "log").write_text("".join(map(write_change, changes)))
        write_rows(self.path / "left", [{"at": it} for it in self.left])
        write_rows(self.path / "events", self.events)
        for life, rows in self.rows.items():
            write_rows(self.path / "rows" / life, rows)
        kvs = [json.loads(write_change(self.puts[it])) for it in sorted(self.archived)]
        archive = {"kvs": [{"key": "", "create_revision": it["at"], "value": it["value"]} for it in kvs]}
        (self.path / "archives" / "k0" / "web.json").write_text(json.dumps(archive))


def write_rows(path: Path, rows: list[Row]) -> None:
    """Writes rows."""
    path.write_text("".join(json.dumps(row) + "\n" for row in rows))


class Judged(unittest.TestCase):
    """Runs in which something is planted."""

    def judge(self, plant: Callable[[Folder], object]) -> tuple[bool, str]:
        """What is said of a run."""
        with tempfile.TemporaryDirectory(prefix="pidtab-judge-") as name:
            folder = Folder(Path(name))
            plant(folder)
            folder.write()
            return judge(folder.path, str(folder.program))

    def check_well(self, plant: Callable[[Folder], object]) -> str:
        """Nothing is found."""
        is_well, verdict = self.judge(plant)
        self.assertTrue(is_well, verdict)
        return verdict

    def check(self, kinds: str, plant: Callable[[Folder], object]) -> None:
        """Just these kinds are found, each once."""
        is_well, verdict = self.judge(plant)
        self.assertFalse(is_well, verdict)
        self.assertRegex(verdict, "^NOT WELL: ")
        found = verdict.removeprefix("NOT WELL: ").partition("; ")[0]
        self.assertEqual([part.split(" (")[0] for part in found.split("), ")], [f"{kind} 1" for kind in kinds.split(", ")], verdict)


class Well(Judged):
    """What is no fault."""

    def test_nothing(self) -> None:
        verdict = self.check_well(lambda it: None)
        self.assertEqual(
            verdict,
            "well: 7 calls answered in 4 batches, 2 reads, 0 not known, 1 entries repeated, 2 snapshots, 7 of 12 entries cut, 1 troubles of 1 kinds, "
            "2 lives of hosts; longest wait 0.0 s, and 0.0 s beside what held it up",
        )

    def test_a_host_is_killed_before_its_answer(self) -> None:
        self.check_well(lambda it: it.rows["h1.1"].pop())

    def test_a_read_that_began_before_the_answer(self) -> None:
        self.check_well(lambda it: it.row("h0.1", "read", "batch h1.1 2").update(seen=False, t0=399))

    def test_a_read_of_this_host_alone_of_what_another_was_answered(self) -> None:
        self.check_well(lambda it: it.row("h0.1", "read", "batch h1.1 2").update(seen=False, now=False))

    def test_cut_just_behind_the_second_snapshot(self) -> None:
        self.check_well(lambda it: it.deletes.__setitem__(6, Delete(17, "web:12")))

    def test_calls_that_are_not_known(self) -> None:
        self.check_well(lambda it: it.rows["h1.1"].__setitem__(3, {"what": "unknown", "id": "batch h1.1 2", "t1": 400, "sent": True}))

    def test_a_wait_that_a_trouble_holds_up(self) -> None:
        def plant(it: Folder) -> None:
            it.row("h0.1", "answered", "batch h0.1 2").update(t1=500 + 3 * LONGEST_WAIT)
            it.events.append({"what": "trouble", "name": "cut_off", "from": 600, "to": 600 + 2 * LONGEST_WAIT, "holds": True})

        self.assertIn("longest wait 54.0 s, and 18.0 s beside", self.check_well(plant))

    def test_other_settings_behind_the_first(self) -> None:
        def plant(it: Folder) -> None:
            it.put(18, "pidtab-log 2 pid_max 400 model 1")
            it.row("h0.1", "end").update(position=18)

        self.check_well(plant)


class Found(Judged):
    """What is one, of calls."""

    def test_lost(self) -> None:
        self.check("digest, lost", lambda it: it.puts.__setitem__(17, Put(17, "web:17", b"open")))

    def test_lost_as_its_number_is_not_the_next(self) -> None:
        self.check("digest, lost", lambda it: it.put(17, calls(7, 3, 13, "batch h0.1 2")))

    def test_doubled(self) -> None:
        self.check("doubled", lambda it: it.put(18, calls(7, 3, 13, "batch h0.1 2")))

    def test_wrong(self) -> None:
        self.check("wrong", lambda it: it.row("h1.1", "answered", "batch h1.1 2").update(answers=["bad line", "child 5 root 5"]))

    def test_fewer_answers(self) -> None:
        self.check("wrong", lambda it: it.row("h1.1", "answered", "batch h1.1 2").update(answers=["bad line"]))

    def test_other_lines(self) -> None:
        self.check("changed", lambda it: it.row("h1.1", "asked", "batch h1.1 2").update(lines=["batch h1.1 2", "fork 3"]))

    def test_out_of_order(self) -> None:
        self.check("disorder", lambda it: it.row("h0.1", "answered", "batch h0.1 2").update(t1=299))

    def test_made_though_it_was_cancelled(self) -> None:
        self.check("made", lambda it: it.rows["h1.1"].__setitem__(3, {"what": "cancelled", "id": "batch h1.1 2", "t1": 400}))

    def test_made_though_it_is_said_not_to_be_sent(self) -> None:
        self.check("made", lambda it: it.rows["h1.1"].__setitem__(3, {"what": "unknown", "id": "batch h1.1 2", "t1": 400, "sent": False}))

    def test_what_nobody_asked(self) -> None:
        self.check("foreign", lambda it: it.put(18, calls(8, 3, 13, "batch h2.1 1")))

    def test_no_answer_on_a_host_that_ends_well(self) -> None:
        self.check("no outcome", lambda it: it.rows["h0.1"].remove(it.row("h0.1", "answered", "batch h0.1 2")))

    def test_a_host_that_has_gone(self) -> None:
        self.check("no end", lambda it: it.rows["h0.1"].pop())

    def test_what_a_host_says(self) -> None:
        self.check("fault", lambda it: it.rows["h0.1"].append({"what": "fault", "why": "Diverged"}))

    def test_what_the_harness_says(self) -> None:
        self.check("fault", lambda it: it.events.append({"what": "fault", "why": "a host does not begin"}))

    def test_nothing_was_answered(self) -> None:
        def plant(it: Folder) -> None:
            it.rows = {"h0.1": [END]}
            it.puts = {place: Put(place, put.key, put.value.replace(b"batch ", b"butch ")) for place, put in it.puts.items()}

        is_well, verdict = self.judge(plant)
        self.assertFalse(is_well)
        self.assertIn("nothing 1 (no call was answered)", verdict)

    def test_late(self) -> None:
        self.check("late", lambda it: it.row("h0.1", "answered", "batch h0.1 2").update(t1=501 + LONGEST_WAIT))

    def test_late_without_an_answer(self) -> None:
        row = {"what": "unknown", "id": "batch h0.1 2", "t1": 501 + LONGEST_WAIT, "sent": True}
        self.check("late", lambda it: it.rows["h0.1"].__setitem__(5, row))

    def test_late_beside_what_does_not_hold_it_up(self) -> None:
        def plant(it: Folder) -> None:
            it.row("h0.1", "answered", "batch h0.1 2").update(t1=501 + LONGEST_WAIT)
            it.events[0].update({"from": 500, "to": 500 + LONGEST_WAIT})

        self.check("late", plant)


class Read(Judged):
    """What is one, of reads, digests and the log."""

    def test_a_stale_read_of_now(self) -> None:
        self.check("stale", lambda it: it.row("h0.1", "read", "batch h1.1 2").update(seen=False))

    def test_a_stale_read_of_what_this_host_was_answered(self) -> None:
        self.check("stale", lambda it: it.row("h0.1", "read", "batch h0.1 1").update(seen=False))

    def test_another_digest(self) -> None:
        self.check("digest", lambda it: it.row("h0.1", "place").update(digest=DIGESTS[10]))

    def test_a_digest_of_no_position(self) -> None:
        self.check("digest", lambda it: it.row("h0.1", "place").update(position=6))

    def test_another_digest_at_the_end(self) -> None:
        self.check("digest", lambda it: it.row("h0.1", "end").update(digest=DIGESTS[13]))

    def test_another_list_at_the_end(self) -> None:
        self.check("list", lambda it: it.row("h0.1", "end").update(list=SUM))

    def test_a_writer_with_another_digest(self) -> None:
        self.check("writer", lambda it: it.put(17, calls(7, 2, 13, "batch h0.1 2").replace(DIGESTS[13][:16], DIGESTS[10][:16])))

    def test_a_writer_that_knows_what_comes(self) -> None:
        self.check("writer", lambda it: it.put(17, calls(7, 2, 17, "batch h0.1 2")))

    def test_a_snapshot_with_another_digest(self) -> None:
        self.check("writer", lambda it: it.put(16, snapshot(15, 10)))

    def test_a_snapshot_that_nobody_asked_for(self) -> None:
        self.check("snapshot", lambda it: it.put(16, snapshot(13, 13)))

    def test_cut_too_far(self) -> None:
        def plant(it: Folder) -> None:
            it.deletes.append(Delete(20, "web:13"))
            it.left.remove(13)
            it.archived.add(13)

        self.check("cut", plant)

    def test_cut_before_the_second_snapshot(self) -> None:
        self.check("cut", lambda it: it.deletes.__setitem__(0, Delete(16, "web:5")))

    def test_cut_and_in_no_archive(self) -> None:
        self.check("archive", lambda it: it.archived.remove(9))

    def test_deleted_and_never_put(self) -> None:
        self.check("record", lambda it: it.deletes.append(Delete(21, "web:99")))

    def test_gone_and_never_deleted(self) -> None:
        self.check("record", lambda it: it.left.remove(14))

    def test_left_and_never_put(self) -> None:
        self.check("record", lambda it: it.left.append(99))

    def test_overwritten(self) -> None:
        self.check("overwritten", lambda it: it.put(18, "open", "web:17"))

    def test_what_is_no_entry(self) -> None:
        for data in ("hello", "calls 7 3 2 13 0123456789abcdef\ngetpid 1", "open\nopen", "calls 7 3 1 13 0123456789abcdef\n"):
            with self.subTest(data):
                self.check("log", lambda it: it.put(18, data))

    def test_no_settings(self) -> None:
        self.check("log", lambda it: it.puts.__setitem__(5, Put(5, "web:5", b"open")))

    def test_a_program_that_answers_less(self) -> None:
        self.check("log", lambda it: it.program.write_text(PROGRAM.replace('else "bad line")', 'else "bad line", end="")')))

    def test_no_program(self) -> None:
        self.check("log", lambda it: it.program.unlink())


class Rules(unittest.TestCase):
    """Which entries count."""

    def count(self, *entries: str) -> list[int]:
        """The positions of those that count, behind the settings at 1."""
        return [it.position for it in Log([(at, it.encode()) for at, it in enumerate([ENTRIES[5], *entries], start=1)]).counted]

    def call(self, session: int, number: int) -> str:
        """An entry with one line."""
        return f"calls {session} {number} 1 1 {DIGESTS[5][:16]}\ngetpid 1"

    def test_the_next_number_of_an_open_session(self) -> None:
        self.assertEqual(self.count("open", self.call(2, 1), self.call(2, 1), self.call(2, 3), self.call(2, 2), self.call(9, 1)), [3, 6])

    def test_a_session_that_has_ended(self) -> None:
        self.assertEqual(self.count("open", self.call(2, 1), "end 2", self.call(2, 2)), [3])

    def test_the_session_that_was_used_the_longest_ago_ends(self) -> None:
        # The session 2 is used at 4, and 3 never. With so many behind them one more ends the session 3, and the one behind that ends 2.
        opened = ["open", "open", self.call(2, 1), *["open"] * (MOST_SESSIONS - 2), "open"]
        at = len(opened) + 2
        self.assertEqual(MOST_SESSIONS, 4096)
        self.assertEqual(self.count(*opened, self.call(3, 1), self.call(2, 2), self.call(5, 1)), [4, at + 1, at + 2])
        self.assertEqual(self.count(*opened, "open", self.call(5, 1), self.call(2, 2)), [4, at + 1])


class Program(unittest.TestCase):
    """The judge as it is started."""

    def run_judge(self, folder: Folder) -> "subprocess.CompletedProcess[str]":
        """What it says."""
        folder.write()
        command = [sys.executable, "-B", "-m", "chaos.judge", str(folder.path), str(folder.program)]
        return subprocess.run(command, cwd=PACKAGE, capture_output=True, text=True, check=False)

    def test_one_line_and_a_status(self) -> None:
        with tempfile.TemporaryDirectory(prefix="pidtab-judge-") as name:
            folder = Folder(Path(name))
            done = self.run_judge(folder)
            self.assertEqual((done.returncode, done.stdout.count("\n"), done.stdout[:5]), (0, 1, "well:"))
            folder.row("h0.1", "end").update(list=SUM)
            done = self.run_judge(folder)
            self.assertEqual((done.returncode, done.stdout.count("\n"), done.stdout[:9]), (1, 1, "NOT WELL:"))

    def test_it_knows_nothing_of_the_package(self) -> None:
        code = "import sys, chaos.judge; sys.exit(any(it.split('.')[0] == 'pidtab' for it in sys.modules))"
        self.assertEqual(subprocess.run([sys.executable, "-B", "-c", code], cwd=PACKAGE, check=False).returncode, 0)

    def test_a_row_without_an_end_is_none(self) -> None:
        with tempfile.TemporaryDirectory(prefix="pidtab-judge-") as name:
            path = Path(name) / "rows"
            path.write_text('{"what": "fault", "why": ""}\n{"what": "end", "pos')
            self.assertEqual([row["what"] for row in read_rows(path)], ["fault"])


if __name__ == "__main__":
    unittest.main()
