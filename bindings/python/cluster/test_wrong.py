"""Wrong versions of the package, each of which a test finds: an edit of `wrong/` is planted in a copy, and the test that it names fails there.

An edit has the name of a test, files of the package, and pairs of lines, each `old:` with what is there once, and `new:` with what takes its place.
"""

import shutil
import subprocess
import sys
import tempfile
import unittest
from pathlib import Path

from cluster.etcds import need_etcd
from cluster.load import table_kind
from cluster.postgres import need_postgres
from cluster.test_etcd import environment
from pidtab import Process
from tests.ways import need_calls, need_library, need_program

PACKAGE = Path(__file__).resolve().parents[1]
EDITS = sorted((PACKAGE / "cluster" / "wrong").glob("*.edit"))

# Longer than any of these tests takes, in seconds. One that hangs has not found anything.
LONGEST = 240


def plant(edit: str, package: Path) -> str:
    """Plants an edit in a package: the test that is to find it."""
    found = ""
    file, old = package, ""
    for line in edit.splitlines():
        name, _, text = line.partition(":")
        if name == "found by":
            found = text.strip()
        elif name == "file":
            file = package / text.strip()
        elif name == "old":
            old = text
        elif name == "new":
            before = file.read_text(encoding="utf-8")
            if before.count(old) != 1:
                raise AssertionError(f"{file.name} has {before.count(old)} times {old!r}")
            file.write_text(before.replace(old, text), encoding="utf-8")
        else:
            raise AssertionError(f"no line of an edit: {line}")
    return found


class Wrong(unittest.TestCase):
    """Each edit in a copy of its own."""

    def run_test(self, folder: Path, test: str) -> "subprocess.CompletedProcess[str]":
        """Runs a test of a copy."""
        command = [sys.executable, "-B", "-m", "unittest", test]
        return subprocess.run(command, cwd=folder, env=environment(), capture_output=True, text=True, check=False, timeout=LONGEST)

    def check(self, edit: Path) -> None:
        """The test fails, and by an assertion or a fault of what was planted, not for want of anything."""
        with tempfile.TemporaryDirectory(prefix="pidtab-wrong-") as name:
            folder = Path(name) / "python"
            shutil.copytree(PACKAGE, folder, ignore=shutil.ignore_patterns("__pycache__"))
            test = plant(edit.read_text(encoding="utf-8"), folder / "pidtab")
            need_calls()
            if test.startswith("cluster.test_postgres."):
                need_postgres()
            elif test.startswith("cluster."):
                need_etcd()
                (need_program if table_kind() is Process else need_library)()
            done = self.run_test(folder, test)
        self.assertEqual(done.returncode, 1, f"{test} does not find it:\n{done.stderr[-2000:]}")
        self.assertRegex(done.stderr, r"\nFAILED \((failures|errors)=")
        self.assertNotRegex(done.stderr, r"SyntaxError|NameError|ImportError|_FailedTest")

    def test_each_is_found(self) -> None:
        self.assertGreater(len(EDITS), 77)
        for edit in EDITS:
            with self.subTest(edit.stem):
                self.check(edit)


if __name__ == "__main__":
    unittest.main()
