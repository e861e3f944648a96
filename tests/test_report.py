"""What tools/report writes of a command and of what was built, and what packaging/dist makes of such a report."""

import shutil
import subprocess
import sys
import tempfile
import unittest
from pathlib import Path

from tests.pages import REPOSITORY
from tests.programs import need_tool

# As sha256sum(1) has it for the three bytes "abc": FIPS 180-2, B.1.
ABC = "ba7816bf8f01cfea414140de5dae2223b00361a396177a9cb410ff61f20015ad"

CHECK = """\
import pathlib, sys
sys.path.insert(0, sys.argv[1])
from release.built import check_report
from release.faults import Fault
try:
    check_report(pathlib.Path("out/report.txt"), "test", sys.argv[2], [pathlib.Path("built")])
except Fault as fault:
    print(fault)
"""


class Reports(unittest.TestCase):
    """A repository with a commit, and a file that was built."""

    def setUp(self) -> None:
        need_tool("git")
        folder = tempfile.TemporaryDirectory()
        self.addCleanup(folder.cleanup)
        self.top = Path(folder.name)
        (self.top / "tools").mkdir()
        shutil.copy(REPOSITORY / "tools" / "report", self.top / "tools")
        (self.top / ".gitignore").write_text("out/\nbuilt\n")
        (self.top / "built").write_bytes(b"abc")
        self.git("init", "-q")
        self.commit = self.commit_all()

    def git(self, *words: str) -> str:
        """Asks git there."""
        named = ["-c", "user.name=A tester", "-c", "user.email=tester@example.org"]
        return subprocess.run(["git", *named, *words], cwd=self.top, capture_output=True, text=True, check=True).stdout.strip()

    def commit_all(self) -> str:
        """Commits all: the commit."""
        self.git("add", "-A")
        self.git("commit", "-q", "-m", "All", "--allow-empty")
        return self.git("rev-parse", "HEAD")

    def report(self, *command: str) -> "subprocess.CompletedProcess[str]":
        """Runs the script for a command."""
        words = ["--", *command] if command else []
        tool = [sys.executable, "-B", str(self.top / "tools" / "report"), "out/report.txt", "built", *words]
        return subprocess.run(tool, cwd="/", capture_output=True, text=True, check=False)

    def written(self) -> "str | None":
        """The report, if there is one."""
        file = self.top / "out" / "report.txt"
        return file.read_text() if file.exists() else None

    def head(self, tree: str) -> str:
        """The first lines of a report."""
        return f"commit {self.commit}\ntree {tree}\nsha256 {ABC} built\n"

    def test_a_command_that_ends_well(self) -> None:
        done = self.report("sh", "-c", "seq 30; echo last >&2")
        lines = [f"{it}\n" for it in range(1, 31)] + ["last\n"]
        self.assertEqual((done.returncode, done.stdout, done.stderr), (0, "".join(lines), ""))
        self.assertEqual(self.written(), f"{self.head('clean')}\n{''.join(lines[-20:])}")

    def test_no_command(self) -> None:
        self.assertEqual(self.report().returncode, 0)
        self.assertEqual(self.written(), self.head("clean"))

    def test_a_command_that_fails_leaves_no_report(self) -> None:
        self.report()
        for command, status in (("exit 3", 3), ("kill -9 $$", 137)):
            done = self.report("sh", "-c", f"echo said; {command}")
            self.assertEqual((done.returncode, done.stdout, self.written()), (status, "said\n", None))

    def test_what_is_not_committed(self) -> None:
        (self.top / "more").touch()
        self.report()
        self.assertEqual(self.written(), self.head("changed"))

    def test_a_change_while_it_runs(self) -> None:
        self.report("touch", "more")
        self.assertEqual(self.written(), f"{self.head('changed')}")

    def test_a_commit_while_it_runs(self) -> None:
        self.report("git", "-c", "user.name=A", "-c", "user.email=a@example.org", "commit", "-q", "-m", "More", "--allow-empty")
        self.assertEqual(self.written(), f"{self.head('changed')}")

    def test_a_file_that_was_not_built(self) -> None:
        done = self.report("rm", "built")
        self.assertEqual((done.returncode, done.stderr, self.written()), (1, "tools/report: no built\n", None))

    def test_usage(self) -> None:
        done = subprocess.run([sys.executable, REPOSITORY / "tools" / "report"], capture_output=True, text=True, check=False)
        self.assertEqual(done.returncode, 2)
        self.assertIn("tools/report REPORT FILE..", done.stderr)

    def check(self, commit: str) -> str:
        """What packaging/dist says of the report for a release of a commit."""
        command = [sys.executable, "-B", "-c", CHECK, str(REPOSITORY / "packaging"), commit]
        return subprocess.run(command, cwd=self.top, capture_output=True, text=True, check=True).stdout

    def test_what_a_release_takes(self) -> None:
        self.assertEqual(self.check(self.commit), "no out/report.txt: `make test` writes it\n")
        for command in ((), ("echo", "\nsha256 0 built\ncommit 0\ntree changed")):
            self.report(*command)
            self.assertEqual(self.check(self.commit), "")

    def test_what_a_release_refuses(self) -> None:
        self.report()
        another = self.commit_all()
        self.assertEqual(self.check(another), f"out/report.txt is of the commit {self.commit}, and this is {another}: run `make test`\n")
        (self.top / "built").write_bytes(b"abd")
        self.assertEqual(self.check(self.commit), "built is not the file of out/report.txt: run `make test`\n")
        (self.top / "more").touch()
        self.report()
        self.assertEqual(self.check(another), "out/report.txt is of a tree with changes that are not committed: commit them and run `make test`\n")


if __name__ == "__main__":
    unittest.main()
