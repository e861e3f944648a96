"""The examples of the pages and of the manual pages, run as printed."""

import ctypes
import ctypes.util
import errno
import re
import subprocess
import tempfile
import unittest
from collections.abc import Callable
from pathlib import Path

from pidtab import Process, find_program
from tests.pages import REPOSITORY, displays, fenced, read_page, section
from tests.programs import ARCHIVE, BUILT, STRICT, need_archive, need_tool, run, run_c, run_go, run_python, run_rust, run_shell
from tests.ways import need_hypothesis, need_library, need_program

PACKAGES = REPOSITORY / "bindings" / "python"
MANUAL = REPOSITORY / "man"
C_EXAMPLES = REPOSITORY / "bindings" / "c" / "examples"

# Where each example stands: the page, the title and the language.
EXAMPLES = [
    ("README.md", "### By a pipe", "sh"),
    ("README.md", "### From C", "c"),
    ("README.md", "### From Python", "python"),
    ("bindings/python/README.md", "## By the program", "python"),
    ("bindings/c/README.md", "## Example", "c"),
    ("bindings/rust/README.md", "## Example", "rust"),
    ("bindings/go/README.md", "## Example", "go"),
]

# What a supervisor asks, as the examples that are run have it in C, Python, Rust, Go and JavaScript. Where there is a `-`, there is no such function.
ASKED = """
PIDTAB_CHILDREN          .children(          .children(          .Children(         .children(
PIDTAB_GROUP_MEMBERS     .group_members(     .group_members(     .GroupMembers(     .groupMembers(
PIDTAB_SESSION_MEMBERS   .session_members(   .session_members(   .SessionMembers(   .sessionMembers(
PIDTAB_NAMESPACE_MEMBERS .namespace_members( .namespace_members( .NamespaceMembers( .namespaceMembers(
PIDTAB_NAMESPACE_OWN     .namespace_own(     .namespace_own(     .NamespaceOwn(     .namespaceOwn(
pidtab_space(            .space(             .space(             .Space(            .space(
PIDTAB_SPACES            .spaces_inside(     .spaces_inside(     .SpacesInside(     .spacesInside(
PIDTAB_CONTROLS          .controls_inside(   .controls_inside(   .ControlsInside(   .controlsInside(
pidtab_control_tasks(    .control_tasks(     .control_tasks(     .ControlTasks(     .controlTasks(
pidtab_call_told(        .told.              .told(              .Told(             .told.
pidtab_would(            .would.             .would(             .Would(            .would.
pidtab_fork_at(          .fork_at(           .fork_at(           .ForkAt(           .forkAt(
pidtab_reply_line(       -                   reply.line(         reply.Line(        -
pidtab_await(            .wait_changed(      .wait_changed(      .WaitChanged(      -
"""

# The pages of the library's functions.
LIBRARY_PAGES = sorted(path.name for path in MANUAL.glob("*.3"))

STATUSES = {"DONE", "NOT_KEPT", "CLOSED", "AGAIN", "NO_MEMORY", "BUSY", "OUT_OF_RANGE", "NO_ROOM", "EMPTY_LINE", "BAD_LINE", "DIFFERS", "SPENT", "BAD_TEXT"}
STATUSES |= {"NO_HISTORY", "NO_THREADS", "DEVICE", "NOT_SAVED", "NOT_EMPTY", "ENDED", "TORN", "WRONG_BYTE", "OTHER_VERSION"}

# What the header says of this by the name of another, and what it says once of many.
INNER = {"pidtab_opening": "pidtab_list"}
SAID_ONCE = {"BUSY", "NO_HISTORY", "NO_THREADS"}


def printed_by(code: str) -> str:
    """What an example in a file of C or Python says at its end that it prints."""
    _, _, shown = re.split(r"^(/\*|#) It prints$", code, maxsplit=1, flags=re.MULTILINE)
    return "".join(f"{line}\n" for line in re.findall(r"^(?: \*|#)     (.*)$", shown, re.MULTILINE))


def statuses_in(header: str) -> list[tuple[str, str, str]]:
    """The statuses of a header: the name, the number, and the errno that the comment begins with."""
    enums = re.findall(r"^enum pidtab_\w*status \{(.*?)^\};", read_page(f"bindings/c/{header}"), re.MULTILINE | re.DOTALL)
    return re.findall(r"^\tPIDTAB_(\w+) = (\d+),?(?: +/\* (E[A-Z]+)\b.*)?$", "".join(enums), re.MULTILINE)


def statuses_of(name: str) -> set[str]:
    """The statuses that the header lists with a function, or with the one whose work it does."""
    header = read_page(f"bindings/c/{'pidtab_saved' if name.startswith('pidtab_saved_') else 'pidtab'}.h")
    before = header.partition(f"\nuint32_t {name}(")[0]
    words = re.findall(r"\b[A-Z_]{4,}\b", before[before.rindex("/*") :])
    return {it.removeprefix("PIDTAB_") for it in words} & STATUSES if "DONE" in words else statuses_of(INNER[name])


class Examples(unittest.TestCase):
    """Each example prints what its page says."""

    def check(self, kind: str, run_example: Callable[[str, Path], str], title: str = "") -> None:
        """Runs the examples in a language, of one title or of all."""
        chosen = [it for it in EXAMPLES if it[2] == kind and it[1].endswith(title)]
        self.assertTrue(chosen)
        for page, head, _ in chosen:
            text = section(read_page(page), head)
            with self.subTest(f"{page}: {head}"), tempfile.TemporaryDirectory() as folder:
                (code,), (printed,) = fenced(text, kind), fenced(text, "text")
                self.assertEqual(run_example(code, Path(folder)), printed)

    def test_all_of_the_pages_are_here(self) -> None:
        for page in ("README.md", "docs/LIBRARY.md", *(f"bindings/{it}/README.md" for it in ("c", "go", "python", "rattle", "rust"))):
            for kind in ("sh", "c", "python", "rust", "go"):
                here = [it for it in EXAMPLES if (it[0], it[2]) == (page, kind)]
                self.assertEqual(len(fenced(read_page(page), kind)), len(here), (page, kind))

    def test_rattle(self) -> None:
        # The gate proves the example, and compares the answers. tools/pages sees that its file is there.
        text = section(read_page("bindings/rattle/README.md"), "## Example")
        self.assertIn("crates/test_public/src/first.rt", text)
        used = re.findall(r"^use (\w+)::", read_page("crates/test_public/src/first.rt"), re.MULTILINE)
        self.assertIn(f"`first: {' '.join(sorted({*used} - {'std'}))}`", text)

    def test_the_shell(self) -> None:
        need_program()
        self.check("sh", run_shell)

    def test_python_by_the_program(self) -> None:
        need_program()
        self.check("python", run_python, "## By the program")
        # The first page says that the other way answers the same.
        self.check("python", lambda code, folder: run_python(code.replace("pidtab.Table()", "pidtab.Process()"), folder), "### From Python")

    def test_python_in_its_own_process(self) -> None:
        need_library()
        self.check("python", run_python, "### From Python")
        # The page says that the other way prints the same.
        self.check("python", lambda code, folder: run_python(code.replace("pidtab.Process()", "pidtab.Table()"), folder), "## By the program")

    def test_python_in_files(self) -> None:
        need_library()
        # One needs a server, which `cluster.test_postgres` has.
        shown = sorted(it for it in (PACKAGES / "examples").glob("*.py") if it.stem != "postgres_log")
        self.assertEqual([it.stem for it in shown], ["controls", "effects", "end_group", "follow", "hang_up", "history", "reach", "reserve", "saved", "spaces", "text"])
        for path in shown:
            with self.subTest(path.name), tempfile.TemporaryDirectory() as folder:
                code = path.read_text(encoding="utf-8")
                self.assertEqual(run_python(code, Path(folder)), printed_by(code))

    def test_c(self) -> None:
        need_archive()
        self.check("c", run_c)

    def test_c_in_files(self) -> None:
        need_archive()
        shown = sorted(C_EXAMPLES.glob("*.c"))
        names = ["controls", "effects", "end_group", "follow", "hang_up", "lines", "reach", "replica", "reserve", "saver", "spaces", "text"]
        self.assertEqual([it.stem for it in shown], names)
        # That of lines.c is run by SavedHistory.
        for path in (it for it in shown if it.stem != "lines"):
            with self.subTest(path.name), tempfile.TemporaryDirectory() as folder:
                code = path.read_text(encoding="utf-8")
                words = ["-pthread", f"-I{C_EXAMPLES}", f"-I{BUILT}", str(ARCHIVE)]
                self.assertEqual(run_c(code, Path(folder), words), printed_by(code))

    def test_what_a_supervisor_asks(self) -> None:
        # Each language runs its own: those of Rust are in its comments.
        files = ("c/examples/*.[ch]", "python/examples/*.py", "rust/src/*.rs", "go/example_test.go", "js/examples/*.js")
        texts = ["".join(it.read_text(encoding="utf-8") for it in sorted((REPOSITORY / "bindings").glob(found))) for found in files]
        blocks = re.findall(r"^ */// ```([\w,]*)\n(.*?)^ */// ```$", texts[2], re.MULTILINE | re.DOTALL)
        texts[2] = "".join(text for words, text in blocks if not words)
        for row in ASKED.splitlines()[1:]:
            for name, text, found in zip(row.split(), texts, files):
                with self.subTest(f"{found}: {name}"):
                    self.assertTrue(name == "-" or name in text)

    def test_rust(self) -> None:
        need_archive()
        self.check("rust", run_rust)

    def test_go(self) -> None:
        need_archive()
        self.check("go", run_go)


class Readers(unittest.TestCase):
    """The pages for those whom the first page names: each example of a page prints what it says, in one folder for all of the page."""

    RUN = {"python": run_python, "sh": run_shell}
    MOST_LINES = 60

    def setUp(self) -> None:
        need_program()
        need_library()

    def test_each_page(self) -> None:
        pages = sorted((REPOSITORY / "docs" / "for").glob("*.md"))
        self.assertEqual(len(pages), 4)
        for page in pages:
            with self.subTest(page.name):
                text = page.read_text(encoding="utf-8")
                self.assertIn(f"(docs/for/{page.name})", read_page("README.md"))
                self.assertLessEqual(len(text.splitlines()), self.MOST_LINES)
                self.check(text)

    def check(self, text: str) -> None:
        """Runs the examples of a page."""
        if "pidtab.testing" in text:
            need_hypothesis()
        found = re.findall(r"^```(python|sh)\n(.*?)^```\n```text\n(.*?)^```$", text, re.MULTILINE | re.DOTALL)
        self.assertEqual(4 * len(found), len(re.findall("^```", text, re.MULTILINE)))
        self.assertTrue(found)
        with tempfile.TemporaryDirectory() as folder:
            for kind, code, printed in found:
                self.assertEqual(self.RUN[kind](code, Path(folder)), printed)


class Manuals(unittest.TestCase):
    """Each manual page is well formed, and its examples print what it says."""

    def test_their_form(self) -> None:
        mandoc = need_tool("mandoc")
        pages = sorted(MANUAL.iterdir())
        done = subprocess.run([mandoc, "-T", "lint", *pages], capture_output=True, text=True, check=False)
        # The pages that one refers to need not be installed.
        said = [line for line in done.stdout.splitlines() if "STYLE: referenced manual not found: Xr " not in line]
        self.assertEqual(said, [])
        # 1 is a matter of style, as those pages are; 2 and more are faults.
        self.assertIn(done.returncode, (0, 1))
        self.assertGreaterEqual(len(pages), 9)

    def test_the_language(self) -> None:
        need_program()
        script, answers = displays((MANUAL / "pidtab.5").read_text())
        with Process() as process:
            self.assertEqual(list(process.answers(script.splitlines())), answers.splitlines())

    def test_the_programs(self) -> None:
        need_program()
        shown = 0
        for name in ("pidtab.1", "pidtab-tree.1", "pidtab-check.1", "pidtab-play.1"):
            for display in displays((MANUAL / name).read_text()):
                # A backslash at its end has a line go on.
                command, *printed = re.sub(r"\\\n *", "", display).splitlines()
                shown += 1
                with self.subTest(command):
                    said = self.run_command(command.removeprefix("$ "))
                    # One display only shows how programs are put together.
                    self.assertEqual(said.splitlines() if printed else bool(said), printed or True)
        self.assertEqual(shown, 6)

    def run_command(self, command: str) -> str:
        """What a command of the shell writes, with the programs of this repository."""
        words = {"pidtab": find_program(), **{name: PACKAGES / "bin" / name for name in ("pidtab-tree", "pidtab-check", "pidtab-play")}}
        found = re.sub(r"(?<=\| )pidtab[-a-z]*", lambda it: f"'{words[it[0]]}'", command)
        return subprocess.run(["sh", "-c", found], capture_output=True, text=True, check=False).stdout

    def test_the_examples_of_the_library(self) -> None:
        need_archive()
        for page in LIBRARY_PAGES:
            *_, code, printed = displays((MANUAL / page).read_text())
            with self.subTest(page), tempfile.TemporaryDirectory() as folder:
                self.assertEqual(run_c(code, Path(folder), ["-pthread", f"-I{BUILT}", str(ARCHIVE)]), printed)


class LibraryManuals(unittest.TestCase):
    """The manual pages of the library's functions, by the headers."""

    def test_each_status(self) -> None:
        for page, least in (("pidtab_history.3", 15), ("pidtab_threads.3", 2)):
            sections = re.split(r"^\.S[sh] ", (MANUAL / page).read_text(), flags=re.MULTILINE)
            shown = {it.split()[0]: re.findall(r"^\.It Dv PIDTAB_(\w+)", it, re.MULTILINE) for it in sections if it.startswith("pidtab_") and "\n.It Dv" in it}
            self.assertGreaterEqual(len(shown), least)
            for name, statuses in shown.items():
                with self.subTest(name):
                    self.assertEqual(len(statuses), len(set(statuses)))
                    self.assertEqual(set(statuses) - SAID_ONCE, statuses_of(name) - SAID_ONCE)

    def test_each_status_of_a_saved_history(self) -> None:
        text = (MANUAL / "pidtab_saved.3").read_text()
        found = re.findall(r'^\.\\" Written by tools/interface: statuses of (saved_\w+)\.\n(.*?)^\.El$', text, re.MULTILINE | re.DOTALL)
        shown = {name: set(re.findall(r"^\.It Dv PIDTAB_(\w+)", body, re.MULTILINE)) for name, body in found}
        wanted = {name: statuses_of(f"pidtab_{name}") for name in shown}
        # The header says these by others: a saver waits where another is BUSY, and a resume begins a TORN head.
        wanted["saved_serve"] |= wanted["saved_append"] - {"BUSY"}
        wanted["saved_wait"] |= wanted["saved_serve"]
        wanted["saved_resume"] = wanted["saved_load"] - {"TORN"}
        # What waits is ENDED then, and not this.
        wanted["saved_end"] -= {"ENDED"}
        self.assertEqual(len(shown), 14)
        self.assertEqual(shown, wanted)

    def test_the_statuses_together(self) -> None:
        # A page has all of its header, and others only of the header below.
        known: dict[str, str] = {}
        for header, page in (("pidtab.h", "pidtab.3"), ("pidtab_saved.h", "pidtab_saved.3"), ("pidtab_replica.h", "pidtab_replica.3")):
            own = {name: number for name, number, _ in statuses_in(header)}
            known.update(own)
            text = (MANUAL / page).read_text().partition("\n.Sh RETURN VALUES\n")[2]
            told = {name: str(getattr(errno, it, it)) for name, it in re.findall(r"^\.It Dv PIDTAB_(\w+)\n(?:\.Er )?(\w+)", text, re.MULTILINE)}
            with self.subTest(page):
                self.assertTrue(own)
                self.assertEqual([str(getattr(errno, it, 0)) for _, _, it in statuses_in(header)], list(own.values()))
                self.assertLessEqual(own.items(), told.items())
                self.assertLessEqual(told.items(), known.items())


class SavedHistory(unittest.TestCase):
    """The example of docs/SAVED.md: its bytes, their checksums, and the program that shows them."""

    def blocks(self) -> list[bytes]:
        """The blocks of the page."""
        (shown,) = fenced(section(read_page("docs/SAVED.md"), "## An example"), "hex")
        return [bytes.fromhex(it) for it in shown.split("\n\n")]

    def test_the_bytes_are_those_of_the_tests(self) -> None:
        code = read_page("bindings/c/test_saved.c").partition("example[4][PIDTAB_SAVED_BLOCK] = {")[2].partition("};")[0]
        self.assertEqual(b"".join(self.blocks()), bytes(int(it, 16) for it in re.findall(r"0x([0-9a-f]{2})", code)))
        self.assertEqual([len(it) for it in self.blocks()], [48] * 4)

    def test_the_checksums_are_those_of_xz(self) -> None:
        name = ctypes.util.find_library("lzma")
        if name is None:
            raise unittest.SkipTest("no liblzma")
        crc64 = ctypes.CDLL(name).lzma_crc64
        crc64.argtypes, crc64.restype = (ctypes.c_char_p, ctypes.c_size_t, ctypes.c_uint64), ctypes.c_uint64
        total = 0
        for block in self.blocks():
            total = crc64(block[:40], 40, total)
            self.assertEqual(block[40:], total.to_bytes(8, "little"))

    def test_the_program_that_shows_it(self) -> None:
        need_archive()
        code = (C_EXAMPLES / "lines.c").read_text(encoding="utf-8")
        with tempfile.TemporaryDirectory() as name:
            folder = Path(name)
            (folder / "history").write_bytes(b"".join(self.blocks()))
            (folder / "show.c").write_text(code)
            run([need_tool("cc"), *STRICT, "-pthread", "-o", "show", "show.c", f"-I{BUILT}", str(ARCHIVE)], folder)
            self.assertEqual(run(["sh", "-c", "./show < history"], folder), printed_by(code))


if __name__ == "__main__":
    unittest.main()
