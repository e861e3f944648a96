"""`pidtab-play --serve`: a line for each line, and what a look is answered."""

import json
import subprocess
import sys
import unittest

from pidtab import Table
from tests.pages import EXAMPLES, REPOSITORY, script_lines
from tests.test_changes import validator
from tests.ways import need_library

PROGRAM = REPOSITORY / "bindings" / "python" / "bin" / "pidtab-play"


def launch(text: str | bytes, *words: str) -> "subprocess.CompletedProcess[bytes]":
    """Runs pidtab-play."""
    given = text.encode() if isinstance(text, str) else text
    return subprocess.run([sys.executable, "-B", str(PROGRAM), *words], input=given, capture_output=True, check=False)


class Serves(unittest.TestCase):
    def setUp(self) -> None:
        need_library()

    def answers(self, *lines: str) -> list[str]:
        """What lines are answered, one each."""
        done = launch("".join(f"{line}\n" for line in lines), "--serve")
        self.assertEqual((done.returncode, done.stderr), (0, b""))
        found = done.stdout.decode().splitlines()
        self.assertEqual(len(found), len(lines))
        return found

    def test_the_scripts_of_the_examples(self) -> None:
        for name in ("shell", "fall", "limit"):
            self.assertEqual(self.answers(*script_lines(EXAMPLES / f"{name}.script")), script_lines(EXAMPLES / f"{name}.answers"))

    def test_looks_between_calls(self) -> None:
        _, listed, asked, dumped, made, again = self.answers("fork 1 new", "list", "ask getpid 2", "dump", "mk 0", "list")
        with Table() as table:
            table.line("fork 1 new")
            self.assertEqual((listed, json.loads(dumped), asked), (table.list().to_json(), table.dump(), "1"))
        # The looks were no calls, so this is the second.
        self.assertEqual(made, "control 2")
        self.assertEqual(len(json.loads(again)["controls"]), 2)

    def test_a_task(self) -> None:
        *_, seen, inner, none, gone = self.answers("fork 1 new", "fork 2", "exit 3 7", "stat 1 3", "stat 2 2", "stat 2 9", "stat 9 1")
        self.assertEqual(json.loads(seen), {"numbers": [3, 2], "root": 3, "parent": 2, "group": 1, "session": 1, "space": 1, "control": 0,
                                            "state": "exited", "status": 7, "executed": False, "subreaper": False})  # fmt: skip
        # Inside, the group and the session cannot be seen.
        self.assertEqual([json.loads(inner)[it] for it in ("numbers", "parent", "group", "session")], [[2], 1, 0, 0])
        self.assertEqual((none, gone), ("ESRCH no-task", "ESRCH no-caller"))
        for line in (seen, inner):
            validator().validate(json.loads(line))

    def test_each_query(self) -> None:
        lines = ["getpid 1", "getppid 1", "getpgid 1 0", "getsid 1 0", "nspid 1 1", "next 1 task 2", "count 0", "getpid 9"]
        asked = self.answers(*(f"ask {line}" for line in lines))
        self.assertEqual(asked, ["1", "0", "1", "1", "1", "end", "1", "ESRCH no-caller"])

    def test_bad_lines(self) -> None:
        bad = ["ask", "ask fork 1", "ask getpid", "ask  getpid 1", "stat", "stat 1", "stat 1 2 3", "stat 01 1", "lists", "list ", "frok"]
        self.assertEqual(self.answers(*bad), ["bad line"] * len(bad))

    def test_empty_lines_and_bytes(self) -> None:
        done = launch(b"\n\nfork 1\n\xff\xfe\n\nlist\nmk 0", "--serve")
        lines = done.stdout.decode().splitlines()
        self.assertEqual((done.returncode, lines[0], lines[1], lines[3], len(lines)), (0, "child 2 root 2", "bad line", "control 2", 4))

    def test_each_answer_comes_at_once(self) -> None:
        with subprocess.Popen([sys.executable, "-B", str(PROGRAM), "--serve"], stdin=subprocess.PIPE, stdout=subprocess.PIPE, text=True) as child:
            assert child.stdin and child.stdout
            for line, wanted in (("fork 1", "child 2 root 2"), ("ask count 0", "2")):
                child.stdin.write(f"{line}\n")
                child.stdin.flush()
                self.assertEqual(child.stdout.readline(), f"{wanted}\n")

    def test_who_reads_has_seen_enough(self) -> None:
        words = f"'{sys.executable}' -B '{PROGRAM}' --serve | head -n 1"
        done = subprocess.run(["sh", "-c", words], input=b"getpid 1\n" * 5000, capture_output=True, check=False)
        self.assertEqual((done.stdout, done.stderr), (b"1\n", b""))

    def test_misuse(self) -> None:
        for words, said in [
            (("--serve", "file"), b"--serve answers a program on standard input, by the library"),
            (("--serve", "--program", "x"), b"--serve answers a program on standard input, by the library"),
            (("--serve", "--library", "/no/such"), b"pidtab-play: no table: no library /no/such"),
            (("--serve", "--pid-max", "5"), b"pidtab-play: pid_max is 301 to 4194304, not 5"),
        ]:
            with self.subTest(words):
                done = launch("", *words)
                self.assertEqual((done.returncode, done.stdout), (2, b""))
                self.assertIn(said, done.stderr)


if __name__ == "__main__":
    unittest.main()
