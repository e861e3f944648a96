"""`pidtab-top`, and what it counts beside a table: peaks, refusals and keys, by a saved history and by a stand-in of a service."""

import os
import socket
import subprocess
import sys
import tempfile
import threading
import unittest
from pathlib import Path

from pidtab import BadHistory, Entry, Table
from pidtab.accounts import Accounts
from pidtab.commands.history_stream import follow_file, follow_service
from tests.pages import REPOSITORY
from tests.ways import for_threads, need_library

PROGRAM = REPOSITORY / "bindings" / "python" / "bin" / "pidtab-top"

# A container of at most 2 tasks below a group of at most 3, a bomb in it, a child that ends, and a call that nobody may make.
LINES = ("mk 0", "limit 1 3", "mk 1", "limit 3 2", "fork 1 new", "move 2 3", "fork 2", "fork 2", "fork 3", "exit 3 0", "getpid 9")
SHOWN = """\
calls 11  tasks 3  zombies 1
refused  pids-limit 2  no-caller 1

CGROUP             TASKS    LIMIT    PEAK  REFUSED
0                      3      max       3        0
  1                    2        3       2        0
    3                  2        2       2        2

NAMESPACE          TASKS  ZOMBIES  CURSOR
0                      1        0       4
5                      2        1       3
"""
METRICS = """\
pidtab_calls_total 11
pidtab_refusals_total{word="no-caller"} 1
pidtab_refusals_total{word="pids-limit"} 2
pidtab_control_tasks{control="0"} 3
pidtab_control_limit{control="0"} +Inf
pidtab_control_limit{control="3"} 2
pidtab_control_peak{control="3"} 2
pidtab_control_refusals_total{control="3"} 2
pidtab_namespace_tasks{space="5"} 2
pidtab_namespace_zombies{space="5"} 1
"""


def launch(*words: str) -> "subprocess.CompletedProcess[str]":
    """Runs pidtab-top."""
    return subprocess.run([sys.executable, "-B", str(PROGRAM), *words], capture_output=True, text=True, check=False, timeout=60)


class Histories(unittest.TestCase):
    """A folder with a saved history."""

    def setUp(self) -> None:
        need_library()
        folder = tempfile.TemporaryDirectory()
        self.addCleanup(folder.cleanup)
        self.path = Path(folder.name, "history")
        self.table = for_threads(1)
        self.addCleanup(self.table.close)
        self.seat = self.table.seat()

    def save(self, *lines: str) -> None:
        """Makes calls, and saves them."""
        self.seat.answers(lines)
        self.table.save(self.path)


class Counts(Histories):
    def accounts(self, *lines: str) -> Accounts:
        """What these calls come to."""
        self.seat.answers(lines)
        accounts = Accounts(Table())
        self.addCleanup(accounts.table.close)
        accounts.add(self.table.entries())
        return accounts

    def test_peaks_and_refusals(self) -> None:
        accounts = self.accounts(*LINES, "wait 2 any")
        # The wait has freed a place, and the peak stays.
        self.assertEqual((accounts.peaks, accounts.table.count(3)), ({0: 3, 1: 2, 3: 2}, 1))
        self.assertEqual((accounts.limited, accounts.refused), ({3: 2}, {"pids-limit": 2, "no-caller": 1}))

    def test_a_peak_stays_where_fewer_come_later(self) -> None:
        ends = [line for task in (2, 3, 4) for line in (f"exit {task} 0", f"wait 1 pid {task}")]
        accounts = self.accounts("fork 1", "fork 1", "fork 1", *ends, "fork 1")
        self.assertEqual((accounts.peaks, accounts.table.count()), ({0: 4}, 2))

    def test_a_refusal_by_a_group_around(self) -> None:
        # Linux 6.18 has `pids.peak` 3 of the inner group 2 here, and 2 of the outer.
        refused = "mk 0", "mk 1", "fork 1", "move 2 2", "fork 2", "limit 1 2", "fork 2"
        accounts = self.accounts(*refused)
        self.assertEqual((accounts.peaks, accounts.limited), ({0: 3, 1: 2, 2: 2}, {1: 1}))
        # Where both are full, the nearest one refuses alone.
        self.seat.answers(("limit 2 2", "fork 2"))
        accounts.add(self.table.entries(len(refused)))
        self.assertEqual((accounts.peaks, accounts.limited), ({0: 3, 1: 2, 2: 2}, {1: 1, 2: 1}))

    def test_a_group_that_was_removed(self) -> None:
        self.assertEqual(self.accounts("mk 0", "mk 1", "rm 2", "fork 1").peaks, {0: 2, 1: 0})

    def test_keys_are_never_used_again(self) -> None:
        seat = self.seat
        accounts = Accounts(Table(301))
        self.addCleanup(accounts.table.close)
        with for_threads(1, pid_max=301) as table:
            seat, keys = table.seat(), set()
            for _ in range(400):
                child = seat.fork(1).root
                seat.exit(child)
                seat.wait(1)
                accounts.add(table.entries(seat.ordinal - 2))
                keys.add((child, accounts.keys[child]))
        self.assertLess(len({number for number, _ in keys}), 301)
        self.assertEqual((len(keys), max(key for _, key in keys)), (400, 1198))

    def test_behind_a_text(self) -> None:
        with Table() as table:
            table.answers(("mk 0", "fork 1", "move 2 1"))
            accounts = Accounts(table.copy(), 4)
        self.addCleanup(accounts.table.close)
        self.assertEqual((accounts.peaks, accounts.keys), ({0: 2, 1: 1}, {}))
        accounts.add([Entry(0, 0, "fork 2", "child 3 root 3")])
        self.assertEqual((accounts.peaks, accounts.keys), ({0: 3, 1: 2}, {3: 4}))

    def test_another_answer(self) -> None:
        accounts = Accounts(Table())
        self.addCleanup(accounts.table.close)
        with self.assertRaisesRegex(BadHistory, "^call 7: `fork 1` was answered `child 9 root 9`, and is answered `child 2 root 2` now$"):
            accounts.add([Entry(7, 0, "fork 1", "child 9 root 9")])


class Files(Histories):
    def test_a_file_that_grows(self) -> None:
        self.save("fork 1", "nspid 1 2")
        followed = follow_file(self.path)
        self.addCleanup(followed.table.close)
        self.assertEqual([it.line for it in next(followed.calls)], ["fork 1", "nspid 1 2"])
        self.assertEqual(next(followed.calls), [])
        self.save("mk 0")
        self.assertEqual([it.answer for it in next(followed.calls)], ["control 3"])
        followed.calls.close()  # type: ignore[attr-defined]

    def test_an_entry_in_parts(self) -> None:
        self.save("fork 1", *["fork 2 new", "fork 3 new", "fork 4 new", "fork 5 new", "nspid 1 6"])
        whole = self.path.read_bytes()
        part = self.path.with_name("part")
        part.write_bytes(whole[:60])
        followed = follow_file(part)
        self.addCleanup(followed.table.close)
        entries = list(next(followed.calls))
        for start in range(60, len(whole), 7):
            with open(part, "ab") as file:
                file.write(whole[start : start + 7])
            entries += next(followed.calls)
        self.assertEqual(entries, list(self.table.entries()))
        followed.calls.close()  # type: ignore[attr-defined]

    def test_bad_files(self) -> None:
        self.save("fork 1")
        whole = self.path.read_bytes()
        for data, said in [
            (b"", "call 0: the file ends within its head: there is no history yet"),
            (b"x" * 96, "call 0: the bytes are no saved history"),
            (whole[:50] + b"x" + whole[51:], "call 0: a byte is not the one that was written"),
        ]:
            with self.subTest(said):
                self.path.write_bytes(data)
                done = launch("--once", str(self.path))
                self.assertEqual((done.returncode, done.stderr), (1, f"pidtab-top: {self.path}: {said}\n"))


class Service(Histories):
    """By a stand-in of the service, which sends what docs/SERVICE.md says of FOLLOW."""

    def serve(self, *parts: bytes) -> str:
        """A socket that sends these parts to who follows, and then ends."""
        path = str(self.path.with_name("socket"))
        listening = socket.socket(socket.AF_UNIX)
        listening.bind(path)
        listening.listen()

        def send() -> None:
            served, _ = listening.accept()
            with served, listening:
                self.assertEqual(served.recv(100), b"*1\r\n$13\r\nPIDTAB.FOLLOW\r\n")
                for part in parts:
                    served.sendall(part)

        thread = threading.Thread(target=send)
        thread.start()
        self.addCleanup(thread.join)
        return path

    def bulk(self, data: bytes) -> bytes:
        return b"$%d\r\n%s\r\n" % (len(data), data)

    def test_a_text_and_the_calls_behind_it(self) -> None:
        self.save("fork 1")
        head, text = self.path.read_bytes(), self.table.dump().encode()
        self.save("fork 2", "mk 0")
        blocks = self.path.read_bytes()[len(head) :]
        sum = int.from_bytes(head[-8:], "little")
        path = self.serve(self.bulk(text), self.bulk(b"%016x" % sum), self.bulk(blocks[:48]), self.bulk(blocks[48:]))
        followed = follow_service(path)
        self.addCleanup(followed.table.close)
        lines: list[str] = []
        with self.assertRaisesRegex(BadHistory, "the service has ended"):
            while True:
                lines += [entry.line for entry in next(followed.calls)]
        self.assertEqual((lines, followed.first_stamp), (["fork 2", "mk 0"], 2))

    def test_a_service_that_has_begun_another_log(self) -> None:
        text = self.table.dump().encode()
        self.save("fork 1")
        # The checksum goes on from the new head, whatever it was before.
        path = self.serve(self.bulk(text), self.bulk(b"%016x" % 7), self.bulk(self.path.read_bytes()))
        followed = follow_service(path)
        self.addCleanup(followed.table.close)
        # What has not come yet is an empty list.
        self.assertEqual([entry.answer for entry in next(filter(None, followed.calls))], ["child 2 root 2"])
        followed.calls.close()  # type: ignore[attr-defined]

    def test_one_that_refuses(self) -> None:
        path = self.serve(b"-NOPERM none of your business\r\n")
        done = launch("--socket", path)
        self.assertEqual((done.returncode, done.stderr), (1, f"pidtab-top: {path}: the service says -NOPERM none of your business\n"))

    def test_none(self) -> None:
        done = launch("--socket", "/no/such")
        self.assertEqual((done.returncode, done.stderr), (2, "pidtab-top: /no/such: No such file or directory\n"))


class Program(Histories):
    def test_a_moment(self) -> None:
        self.save(*LINES)
        done = launch(str(self.path))
        self.assertEqual((done.returncode, done.stdout, done.stderr), (0, SHOWN, ""))

    def test_prometheus(self) -> None:
        self.save(*LINES)
        done = launch("--prometheus", "-", str(self.path))
        self.assertEqual((done.returncode, done.stderr), (0, ""))
        lines = done.stdout.splitlines()
        self.assertEqual([line for line in METRICS.splitlines() if line not in lines], [])
        # Each metric has its help and its type before its values, as the text format wants it.
        kinds = [line.split(" ")[2:] for line in lines if line.startswith("# TYPE ")]
        self.assertEqual({line.partition("{")[0].partition(" ")[0] for line in lines if line[0] != "#"}, {name for name, _ in kinds})
        self.assertTrue(all((kind == "counter") == name.endswith("_total") for name, kind in kinds))

    def test_a_file_for_prometheus(self) -> None:
        self.save(*LINES)
        told = self.path.with_name("metrics")
        self.assertEqual(launch("--once", "--prometheus", str(told), str(self.path)).returncode, 0)
        self.assertEqual(told.read_text(), launch("--prometheus", "-", str(self.path)).stdout)
        self.assertEqual(sorted(os.listdir(told.parent)), ["history", "metrics"])

    def test_again_and_again_until_an_interrupt(self) -> None:
        self.save(*LINES)
        told = self.path.with_name("metrics")
        words = [sys.executable, "-B", str(PROGRAM), "--every", "0.05", "--prometheus", str(told), str(self.path)]
        with subprocess.Popen(words, stderr=subprocess.PIPE, text=True) as child:
            try:
                self.wait_for(told, "pidtab_calls_total 11\n")
                self.save("getpid 1")
                self.wait_for(told, "pidtab_calls_total 12\n")
                child.send_signal(2)
                self.assertEqual(child.communicate(timeout=60)[1], "")
                self.assertEqual(child.returncode, 0)
            finally:
                # One that has ended gets no signal. Without this the end of a failure would wait for it.
                child.kill()

    def wait_for(self, path: Path, text: str) -> None:
        """Waits until a file has the text."""
        for _ in range(600):
            if path.is_file() and text in path.read_text():
                return
            threading.Event().wait(0.05)
        self.fail(f"{path} has no {text}")

    def test_misuse(self) -> None:
        for words, said in [
            ((), "pidtab-top: error: no table: name the FILE of a saved history, or --socket PATH\n"),
            (("--every", "0", "x"), "a number of seconds above 0, not 0"),
            (("--socket", "a", "b"), "not allowed with argument"),
            (("/no/such",), "pidtab-top: /no/such: No such file or directory"),
        ]:
            with self.subTest(words):
                done = launch(*words)
                self.assertEqual((done.returncode, done.stdout), (2, ""))
                self.assertIn(said, done.stderr)


if __name__ == "__main__":
    unittest.main()
