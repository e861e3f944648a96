"""What tools/gate measures and writes: the processes of a toolchain that proves nothing, and the table of a page."""

import importlib.machinery
import importlib.util
import os
import shutil
import subprocess
import sys
import tempfile
import unittest
from pathlib import Path
from types import ModuleType

from tests.pages import REPOSITORY

# It takes two processor seconds in the folder of a crate, and one in a folder as of an edit, and is looked at once more after each.
TOOLCHAIN = f"""\
#!{sys.executable}
import os, subprocess, sys
BUSY = "import sys, time\\nwhile time.process_time() < float(sys.argv[1]): pass\\ntime.sleep(1.5)"
os.makedirs("rt-edit-1-x", exist_ok=True)
for folder, seconds in () if "STATUS" in os.environ else (("crates/low", "2"), ("rt-edit-1-x", "1")):
    subprocess.run([sys.executable, "-c", BUSY, seconds, "--crate-name", "low"], cwd=folder, check=True)
print(" ".join(sys.argv[1:]))
if "PLAIN" in os.environ and sys.argv[1:] != ["ci"]:
    sys.exit(2)
print("3 passed, 0 failed")
sys.exit(int(os.environ.get("STATUS", "0")))
"""

TABLE = "# cores: 2\n# wall: 120\n# processor: 180\n# closing: 3 passed, 0 failed\ncrate\tproofs\ttests\tedits\tnumber\nlow\t5\t1\t7\t1\ntop\t60\t\t\t0\n"

# A test and an edit, which a wrong body keeps.
BODIES = """\
<!-- The wrong bodies: tools/gate looks for each name. -->

| Wrong body | Edits and tests |
|---|---|
| One is two | `low/one`, `tests/test_one.py::test_one` |

<!-- The end of the wrong bodies. -->
"""

PAGE = f"# Gate\n\n<!-- This table is written by tools/gate. -->\n<!-- The end of the table. -->\n\n{BODIES}"

WRITTEN = f"""\
# Gate

<!-- This table is written by tools/gate. -->

The whole took 2 minutes on 2 cores.
It took 3 minutes of processor time.
Its last line was `3 passed, 0 failed`.

| Crate | Proofs | Tests | Edits | Number of edits |
|---|---|---|---|---|
| `top` | 60 |  |  |  |
| `low` | 5 | 1 | 7 | 1 |
| all 2 | 65 | 1 | 7 | 1 |

<!-- The end of the table. -->

{BODIES}"""

# The words of a command, its folder, and what it is about.
COMMANDS = [
    (["rattle", "build", "--crate-name", "low", "src/lib.rt", "-o", "/top/crates/low/out/rlib/low.rlib"], "/top/crates/low", "low", "proofs"),
    (["rattle", "build", "--crate-name", "low", "src/lib.rt", "--test", "-o", "out/low_tests.o"], "/top/crates/low", "low", "tests"),
    (["rattle", "check", "--crate-name", "low", "--incremental", "/tmp/rt-edits-12-ab/seed"], "/tmp/rt-edit-12-cd", "low", "edits"),
    (["rattle", "check", "--crate-name", "low", "src/lib.rt"], "/tmp/rt-edit-12-cd", "low", "edits"),
    (["rattle", "check", "--crate-name", "low", "src/lib.rt"], "/tmp/rt-edit-h8_iw", "low", "edits"),
    (["clang", "-o", "out/low"], "/top/crates/low", "low", "proofs"),
    (["/tmp/rt-run-12-ef/bin/low"], "/tmp/rt-run-12-ef/data", "low", "proofs"),
    (["/tmp/rt-run-12-ef/bin/low_tests"], "/tmp/rt-run-12-ef/data", "low", "tests"),
    (["python3", "/usr/bin/rt", "ci"], "/top", "", "proofs"),
]


def load_gate() -> ModuleType:
    """The script as a module."""
    loader = importlib.machinery.SourceFileLoader("gate", str(REPOSITORY / "tools" / "gate"))
    spec = importlib.util.spec_from_loader("gate", loader)
    assert spec is not None
    module = importlib.util.module_from_spec(spec)
    writes, sys.dont_write_bytecode = sys.dont_write_bytecode, True
    loader.exec_module(module)
    sys.dont_write_bytecode = writes
    return module


# Four crates of the yardstick, by what their proofs took there, and the sum of no sources (SHA-256 of nothing).
NOTHING = "e3b0c44298fc1c14"
YARDSTICK = f"# Of one run.\ncrate\tproofs\tsources\na\t40\t{NOTHING}\nb\t30\t{NOTHING}\nc\t20\t{NOTHING}\nd\t10\t{NOTHING}\n"


class Commands(unittest.TestCase):
    """What a process of the gate is about."""

    def test_each(self) -> None:
        gate = load_gate()
        for words, folder, crate, kind in COMMANDS:
            with self.subTest(words):
                self.assertEqual((gate.crate_of(words, folder), gate.kind_of(words, folder)), (crate, kind))

    def test_the_line_of_a_process(self) -> None:
        # proc_pid_stat(5): fields 4, 22, and 14 with 15, after a name that has spaces and parentheses.
        line = "7 (a b) c) S 3 1 1 0 -1 0 0 0 0 0 200 100 9 9 20 0 1 0 4242 0"
        self.assertEqual(load_gate().parse_stat(line), (3, 4242, 300 / os.sysconf("SC_CLK_TCK")))


class Checkout(unittest.TestCase):
    """A checkout with two crates, of which one has an edit."""

    def setUp(self) -> None:
        folder = tempfile.TemporaryDirectory()
        self.addCleanup(folder.cleanup)
        self.top = Path(folder.name)
        for name in ("tools", "docs", "bin", "tests", "crates/low/src", "crates/low/must-fail", "crates/top/src"):
            (self.top / name).mkdir(parents=True)
        (self.top / "crates/low/must-fail/one.edit").touch()
        (self.top / "tests/test_one.py").write_text("def test_one():\n")
        shutil.copy(REPOSITORY / "tools" / "gate", self.top / "tools")
        tool = self.top / "bin" / "rt"
        tool.write_text(TOOLCHAIN)
        tool.chmod(0o755)
        self.page, self.table = self.top / "docs" / "GATE.md", self.top / "docs" / "gate.tsv"
        self.page.write_text(PAGE)
        self.table.write_text(TABLE)
        self.yardstick = self.top / "docs" / "yardstick.tsv"
        self.yardstick.write_text(YARDSTICK)

    def run_gate(self, *words: str, **variables: str) -> tuple[int, str, str]:
        """The status of the script, and what it writes."""
        known = {**os.environ, "PATH": f"{self.top / 'bin'}:{os.environ['PATH']}", **variables}
        done = subprocess.run([sys.executable, "-B", self.top / "tools" / "gate", *words], env=known, capture_output=True, text=True, check=False)
        return done.returncode, done.stdout, done.stderr

    def test_the_page_of_the_repository(self) -> None:
        done = subprocess.run([sys.executable, "-B", REPOSITORY / "tools" / "gate", "--check"], capture_output=True, text=True, check=False)
        self.assertEqual((done.returncode, done.stderr), (0, ""))

    def test_write_and_check(self) -> None:
        self.assertEqual(self.run_gate("--check")[0], 1)
        self.assertEqual(self.run_gate("write"), (0, "", ""))
        self.assertEqual(self.page.read_text(), WRITTEN)
        self.assertEqual(self.run_gate("--check"), (0, "", ""))

    def test_one_edit_more(self) -> None:
        self.run_gate("write")
        (self.top / "crates/low/must-fail/two.edit").touch()
        status, _, said = self.run_gate("--check")
        self.assertEqual((status, said.count("\n")), (1, 1))
        self.run_gate("write")
        self.assertIn("| `low` | 5\\* | 1\\* | 7\\* | 2 |\n", self.page.read_text())

    def test_the_texts_of_an_edit(self) -> None:
        code, edit = self.top / "crates/low/src/lib.rt", self.top / "crates/low/must-fail/one.edit"
        self.run_gate("write")
        code.write_text("fn f() {\n    first();\n    second();\n}\n")
        edit.write_text("# why\nfile: src/lib.rt\nold:     first();\nnew:\nold:     second();\nnew:     second(); first();\n")
        self.assertEqual(self.run_gate("--check"), (0, "", ""))
        for text, times in (("    third();", 0), ("();", 2)):
            edit.write_text(f"file: src/lib.rt\nold:     first();\nnew: second();\nold: {text}\nnew:\n")
            said = f"crates/low/must-fail/one.edit: its text is in crates/low/src/lib.rt {times} times, and not once: {text.strip()}\n"
            self.assertEqual(self.run_gate("--check"), (1, "", said))
        edit.write_text("file: src/other.rt\nold: first\nnew: second\n")
        self.assertEqual(self.run_gate("--check")[0], 1)
        for text, said in (("old: first\n", "old: has no file:"), ("new: second\n", "new: has no file:"), ("file: src/lib.rt\nnew: second\n", "new: has no old:")):
            edit.write_text(text)
            self.assertEqual(self.run_gate("--check"), (1, "", f"crates/low/must-fail/one.edit: {said} before it\n"))

    def test_what_wrong_bodies_keep(self) -> None:
        self.run_gate("write")
        whole = self.page.read_text()
        for old, new, said in (
            ("`low/one`", "`low/gone`", "low/gone is gone: One is two"),
            ("::test_one", "::test_other", "tests/test_one.py::test_other is gone: One is two"),
            ("tests/test_one.py", "tests/none.py", "tests/none.py::test_one is gone: One is two"),
            ("`low/one`, `tests/test_one.py::test_one`", "none", "`One is two` has neither an edit nor a test"),
            ("| One is two | `low/one`, `tests/test_one.py::test_one` |\n", "", "no wrong body is named"),
        ):
            self.page.write_text(whole.replace(old, new))
            self.assertEqual(self.run_gate("--check"), (1, "", f"docs/GATE.md: {said}\n"))

    def test_measure(self) -> None:
        self.assertEqual(self.run_gate("measure"), (0, "3 passed, 0 failed\n", ""))
        facts = self.table.read_text().splitlines()
        self.assertEqual(facts[0], f"# cores: {os.cpu_count()}")
        self.assertGreaterEqual(int(facts[2].removeprefix("# processor: ")), 3)
        self.assertEqual(facts[3:], ["# closing: 3 passed, 0 failed", "crate\tproofs\ttests\tedits\tnumber", "low\t2\t\t1\t1"])
        self.assertEqual((self.top / "out/gate.log").read_text().splitlines()[0], "ci --anew")

    def test_measure_one(self) -> None:
        self.assertEqual(self.run_gate("measure", "low")[0], 0)
        self.assertEqual(self.table.read_text(), TABLE.replace("low\t5\t1\t7\t1", "low\t2\t\t1\t1"))
        self.assertEqual((self.top / "out/gate.log").read_text().splitlines()[0], "ci --anew low")

    def test_measure_by_a_toolchain_that_keeps_nothing(self) -> None:
        self.assertEqual(self.run_gate("measure", PLAIN="1"), (0, "3 passed, 0 failed\n", ""))
        self.assertEqual((self.top / "out/gate.log").read_text().splitlines()[0], "ci")

    def test_a_gate_that_fails(self) -> None:
        status, _, said = self.run_gate("measure", STATUS="1")
        self.assertEqual((status, self.table.read_text()), (1, TABLE))
        self.assertIn("rt ci ended with status 1", said)
        self.assertEqual((self.top / "out/gate.tsv").read_text().splitlines()[3:], ["# closing: 3 passed, 0 failed", "crate\tproofs\ttests\tedits\tnumber"])

    def test_a_budget(self) -> None:
        # 73 seconds of the crates that are there: 73 * 2 / 60 = 2.4 minutes.
        self.table.write_text("# scale: 2.000\n# by: a, b\n" + TABLE + "gone\t9000\t\t\t0\n")
        self.assertEqual(self.run_gate("--budget", "3"), (0, "", ""))
        said = "docs/gate.tsv: the gate takes 2.4 processor minutes by the yardstick, and may take 2\n"
        self.assertEqual(self.run_gate("--budget", "2"), (1, "", said))
        self.run_gate("write")
        self.assertIn("\nBy the yardstick, of 2 crates, it is 2 processor minutes.\n", self.page.read_text())

    def test_a_budget_without_the_yardstick(self) -> None:
        said = "docs/gate.tsv: fewer than 4 crates of docs/yardstick.tsv were measured as they were, so machines do not compare\n"
        self.assertEqual(self.run_gate("--budget", "1000"), (1, "", said))

    def write_crates(self, *names: str) -> None:
        """Makes crates without sources, which the toolchain proves as `low`."""
        tool = self.top / "bin" / "rt"
        told = "".join(f'    subprocess.run([sys.executable, "-c", BUSY, "1", "--crate-name", "{it}"], check=True)\n' for it in names)
        tool.write_text(TOOLCHAIN.replace("print(", f"if 'STATUS' not in os.environ:\n{told}print(", 1))
        for name in names:
            (self.top / "crates" / name / "src").mkdir(parents=True)

    def test_the_yardstick_is_measured(self) -> None:
        # One second each where the yardstick has 100 for the four.
        self.write_crates("a", "b", "c", "d")
        self.assertEqual(self.run_gate("measure")[0], 0)
        facts = self.table.read_text().splitlines()
        self.assertEqual(facts[4:6], ["# scale: 25.000", "# by: a, b, c, d"])
        # Of some crates: the quotient stays that of the whole.
        self.assertEqual(self.run_gate("measure", "low")[0], 0)
        self.assertIn("# scale: 25.000\n", self.table.read_text())

    def test_a_changed_crate_is_no_yardstick(self) -> None:
        gate, rows = load_gate(), {it: ["1", "", "", "0"] for it in "abcd"}
        gate.TOP = self.top
        self.assertEqual(gate.yardstick_facts(rows), {"scale": "25.000", "by": "a, b, c, d"})
        (self.top / "crates/d/src").mkdir(parents=True)
        (self.top / "crates/d/src/lib.rt").touch()
        self.assertEqual(gate.yardstick_facts(rows), {})

    def test_what_a_change_is(self) -> None:
        for name in ("src/lib.rt", "specs/Words.antt", "proofs/f/Answers.antt", "must-fail/two.edit", "proofs/notes.txt"):
            (self.top / "crates/low" / name).parent.mkdir(parents=True, exist_ok=True)
        gate, sums = load_gate(), []
        gate.TOP = self.top
        for name, text in (("src/lib.rt", ""), ("src/lib.rt", "a"), ("src/a.rt", "a"), ("specs/Words.antt", ""), ("proofs/f/Answers.antt", "")):
            (self.top / "crates/low" / name).write_text(text)
            sums.append(gate.sources_sum("low"))
        self.assertEqual(len(set(sums)), 5)
        (self.top / "crates/low/proofs/notes.txt").touch()
        self.assertEqual((gate.sources_sum("low"), gate.sources_sum("top")), (sums[4], NOTHING))

    def test_another_yardstick(self) -> None:
        # Of a machine twice as fast as the yardstick's: its minutes stay those of the first.
        rows = "a\t5\t\t\t0\nb\t6\t\t\t0\nc\t7\t\t\t0\n"
        self.write_crates("a", "b", "c")
        self.table.write_text("# scale: 2.000\n# by: a, b\n" + TABLE + rows)
        self.assertEqual(self.run_gate("yardstick", "a", "b", "c", "top"), (0, "", ""))
        written = [it.split("\t") for it in self.yardstick.read_text().splitlines()[1:]]
        self.assertEqual(written, [["crate", "proofs", "sources"], *([name, seconds, NOTHING] for name, seconds in (("a", "10"), ("b", "12"), ("c", "14"), ("top", "120")))])
        for words, said in ((("a", "b", "c"), "name 4 crates or more, of a whole measurement"), (("a", "b", "c", "d"), "d was not measured")):
            self.assertEqual(self.run_gate("yardstick", *words), (1, "", f"tools/gate: {said}\n"))

    def test_the_yardstick_of_the_repository(self) -> None:
        gate = load_gate()
        _, rows = gate.parse_table((REPOSITORY / "docs" / "yardstick.tsv").read_text())
        same = [it for it in rows if gate.sources_sum(it) == rows[it][1]]
        self.assertGreaterEqual(len(same), gate.FEWEST_CRATES)

    def keep(self, name: str, second: int) -> None:
        """Puts a file into what a check of the crate keeps, as of a second."""
        file = self.top / "crates/low/out/incremental/antt-1" / name
        file.parent.mkdir(parents=True, exist_ok=True)
        file.touch()
        os.utime(file, (second, second))

    def test_what_is_slow(self) -> None:
        said = "tools/gate: nothing is kept of low: run rt check in its folder\n"
        self.assertEqual(self.run_gate("slow", "low"), (1, "", said))
        for name, second in (("Words", 1000), ("a.f.Lts", 1002), ("a.f.Proof", 1021), ("a.f.Tie", 1022), ("a.g.Met", 1030), ("g.Answers", 1033), ("h.Lts", 1333)):
            self.keep(f"Rattle-low-proofs.{name}.oantt", second)
        told = ["  19.0 s  a::f: goals without an answer", "   3.0 s  g: stored answers", "   2.0 s  a::f: borrow checker"]
        self.assertEqual(self.run_gate("slow", "low"), (0, "\n".join([*told, ""]), ""))
        self.assertEqual(self.run_gate("slow", "low", "10"), (0, told[0] + "\n", ""))
        self.assertEqual(self.run_gate("slow", "none")[0], 1)

    def test_the_words_of_the_command_line(self) -> None:
        self.assertEqual(self.run_gate("measure", "none"), (2, "", "tools/gate: no crate none\n"))
        for words in ((), ("check",), ("write", "low"), ("--budget",), ("--budget", "2.5"), ("--budget", "2", "3"), ("slow",), ("slow", "low", "x")):
            status, _, said = self.run_gate(*words)
            self.assertEqual((status, said.splitlines()[0]), (2, "What the gate costs, by crate: measures it, and writes the table of docs/GATE.md."))


if __name__ == "__main__":
    unittest.main()
