"""What the Makefile says and does, in a checkout of its own where nothing is built, with a toolchain that proves nothing."""

import os
import re
import shutil
import signal
import subprocess
import sys
import tempfile
import time
import unittest
from pathlib import Path

from tests.pages import EXAMPLES, REPOSITORY

CRATES = "# A product.\nlow:\nmid: low slab\npidtab: mid\npidtab_c staticlib: mid low\n"

NO_TOOLCHAIN = "The Rattle toolchain (its command is `rt`) is not on the PATH"
NOT_PROVED = "this build is not proved, `make build` proves it\n"
COMPILES = "compiling the program without proofs: some two minutes\n"

# It compiles a program that tells its words and its input.
UNPROVED = """\
#!/bin/sh
printf '#!/bin/sh\\necho "%s $*: $(cat)"\\n' "$1" > "$2"
chmod +x "$2"
exit ${STATUS:-0}
"""

# It tells its words, its folder and its input, and for a proof makes the libraries one after the other.
TOOLCHAIN = """\
#!/bin/sh
echo "rt $* in $(basename "$PWD"): $(cat)"
for it in low mid; do mkdir -p ../$it/out/rlib; sleep 0.7; touch ../$it/out/rlib/stamp; done
sleep 0.7
exit ${STATUS:-0}
"""

# The modules of tests beside this one, and those of the package.
HERE = Path(__file__).parent
OTHERS = sorted(it.stem for it in HERE.glob("test_*.py") if it.stem != Path(__file__).stem)
PACKAGE = REPOSITORY / "bindings" / "python"
OF_PACKAGE = sorted(f"tests.{it.stem}" for it in (PACKAGE / "tests").glob("test_*.py"))


def paths_without(name: str) -> str:
    """The folders of PATH that have no such command."""
    return os.pathsep.join(it for it in os.environ["PATH"].split(os.pathsep) if not shutil.which(name, path=it))


class Checkouts(unittest.TestCase):
    """A checkout with the Makefile, the tools and the examples, and three crates."""

    def setUp(self) -> None:
        folder = tempfile.TemporaryDirectory()
        self.addCleanup(folder.cleanup)
        self.top = Path(folder.name)
        for name in ("tools", "examples"):
            shutil.copytree(REPOSITORY / name, self.top / name)
        shutil.copy(REPOSITORY / "Makefile", self.top)
        (self.top / "crates.txt").write_text(CRATES)
        for name in ("low", "mid", "pidtab", "pidtab_c"):
            (self.top / "crates" / name).mkdir(parents=True)
        self.path = paths_without("rt")

    def add_toolchain(self) -> None:
        """Puts the toolchain on the PATH."""
        tool = self.top / "bin" / "rt"
        tool.parent.mkdir()
        tool.write_text(TOOLCHAIN)
        tool.chmod(0o755)
        (self.top / "tools" / "unproved").write_text(UNPROVED)
        self.path = f"{tool.parent}{os.pathsep}{self.path}"

    def add_program(self) -> None:
        """Puts a program where the built one lies, which tells its words and its input."""
        program = self.top / "crates" / "pidtab" / "out" / "pidtab"
        program.parent.mkdir()
        program.write_text('#!/bin/sh\necho "$*: $(cat)"\n')
        program.chmod(0o755)

    def make(self, *words: str, **variables: str) -> "subprocess.CompletedProcess[str]":
        """Runs make there."""
        return subprocess.run(
            [shutil.which("make") or "make", "-s", *words], cwd=self.top, env={"PATH": self.path, **variables},
            stdin=subprocess.DEVNULL, capture_output=True, text=True, check=False,
        )  # fmt: skip

    def assert_fault(self, done: "subprocess.CompletedProcess[str]", words: str) -> None:
        """Says one sentence, after which make tells where it stopped."""
        self.assertEqual((done.returncode, done.stdout), (2, ""))
        sentence, *rest = done.stderr.splitlines()
        self.assertIn(words, sentence)
        self.assertTrue(all(it.startswith("make") for it in rest), done.stderr)


class Help(Checkouts):
    """What `make` alone does."""

    def test_make_alone_shows_the_targets(self) -> None:
        for words in ((), ("help",)):
            done = self.make(*words)
            self.assertEqual((done.returncode, done.stderr), (0, ""))
            for target in ("run", "build", "try", "check", "test", "lib", "list", "page", "bindings", "install", "clean"):
                self.assertRegex(done.stdout, rf"(?m)^  {target} +\S")

    def test_each_target_shown_is_there(self) -> None:
        shown = re.findall(r"^  ([a-z-]+) ", self.make().stdout, re.MULTILINE)
        self.assertGreater(len(shown), 15)
        phony = " ".join(re.findall(r"^\.PHONY: (.*)$", (REPOSITORY / "Makefile").read_text(), re.MULTILINE)).split()
        self.assertEqual([it for it in shown if it not in phony], [])

    def test_each_crate_of_the_makefile_is_there(self) -> None:
        text = (REPOSITORY / "Makefile").read_text()
        named = set(re.findall(r"crates/(\w+)", text)) | set(re.findall(r"demo_\w+|refused_\w+", text))
        self.assertEqual([it for it in sorted(named) if not (REPOSITORY / "crates" / it).is_dir()], [])


class Toolchain(Checkouts):
    """What needs the toolchain."""

    def test_without_it(self) -> None:
        for target in ("run", "list", "try", "try-lib", "build", "lib", "page", "check", "test"):
            with self.subTest(target):
                self.assert_fault(self.make(target), NO_TOOLCHAIN)

    def test_a_try_plays_a_script(self) -> None:
        self.add_toolchain()
        (self.top / "my own.script").write_text("fork 1\n")
        for script, said in (("my own.script", COMPILES + NOT_PROVED), (str(self.top / "my own.script"), NOT_PROVED)):
            done = self.make("try", f"SCRIPT={script}")
            self.assertEqual((done.returncode, done.stdout, done.stderr), (0, "pidtab run: fork 1\n", said))

    def test_a_try_compiles_what_has_changed(self) -> None:
        self.add_toolchain()
        self.assertEqual([self.make("try").stderr for _ in range(2)], [COMPILES + NOT_PROVED, NOT_PROVED])
        # The program is older than the last change of a source, and than no other.
        now = time.time()
        source = self.top / "crates" / "low" / "src" / "lib.rt"
        source.parent.mkdir()
        source.touch()
        for file, age in ((self.top / "crates.txt", 90), (self.top / "out/unproved/pidtab", 60), (source, 30)):
            os.utime(file, (now - age, now - age))
        self.assertEqual(self.make("try").stderr, COMPILES + NOT_PROVED)

    def test_a_try_that_does_not_compile(self) -> None:
        self.add_toolchain()
        done = self.make("try", STATUS="1")
        self.assertEqual((done.returncode, done.stdout), (2, ""))
        self.assertIn("make try failed: see out/try.log\n", done.stderr)

    def test_what_is_not_built_is_tried(self) -> None:
        self.add_toolchain()
        first = (EXAMPLES / "first.script").read_text()
        for command, said in (("run", COMPILES + NOT_PROVED), ("list", NOT_PROVED)):
            done = self.make(command)
            self.assertEqual((done.returncode, done.stdout, done.stderr), (0, f"pidtab {command}: {first}", said))

    def test_what_is_built_is_run(self) -> None:
        self.add_program()
        fall = (EXAMPLES / "fall.script").read_text()
        for command in ("run", "list"):
            done = self.make(command, "SCRIPT=examples/fall.script")
            self.assertEqual((done.returncode, done.stdout, done.stderr), (0, f"{command}: {fall}", ""))

    def test_a_script_that_is_not_there(self) -> None:
        self.add_toolchain()
        for target in ("run", "list", "try"):
            for script in ("no such.script", "examples"):
                with self.subTest(target):
                    self.assert_fault(self.make(target, f"SCRIPT={script}"), f"no script {script}")


class Proofs(Checkouts):
    """Which crate of how many is being proved."""

    def setUp(self) -> None:
        super().setUp()
        self.add_toolchain()

    def test_a_build_says_where_it_is(self) -> None:
        done = self.make("build")
        self.assertEqual((done.returncode, done.stdout), (0, "crates/pidtab/out/pidtab\n"))
        self.assertEqual(done.stderr, "1 of 3: low\n2 of 3: mid\n3 of 3: pidtab\n")
        self.assertEqual((self.top / "out" / "build.log").read_text(), "rt run -- run in pidtab: \n")

    def test_a_failure_names_its_log(self) -> None:
        for target, log in (("build", "out/build.log"), ("lib", "out/lib.log")):
            done = self.make(target, STATUS="1")
            self.assertEqual((done.returncode, done.stdout), (2, ""))
            self.assertIn(f"make {target} failed: see {log}\n", done.stderr)

    def test_a_library_that_is_not_proved(self) -> None:
        out, prefix = self.top / "out", self.top / "prefix"
        out.mkdir()
        for name, text in (("libpidtab.a", ""), ("libpidtab.so.1", ""), ("library.txt", "not proved: `make try-lib` has compiled it\n")):
            (out / name).write_text(text)
        said = "the library in out/ is not proved: build it with `make lib`, or install it with UNPROVED=1"
        self.assert_fault(self.make("install-library", f"PREFIX={prefix}"), said)
        self.assertFalse(prefix.exists())
        self.assertNotIn(said, self.make("install-library", f"PREFIX={prefix}", "UNPROVED=1").stderr)
        # The proved one is made anew: here its proof is refused.
        self.make("lib", STATUS="1")
        self.assertEqual(sorted(it.name for it in out.iterdir()), ["lib.log"])

    def test_an_interrupt(self) -> None:
        command = [sys.executable, "tools/prove", "pidtab", "log", "sleep", "60"]
        with subprocess.Popen(command, cwd=self.top, stderr=subprocess.PIPE, text=True, start_new_session=True) as child:
            while child.poll() is None and not (self.top / "log").exists():
                time.sleep(0.05)
            time.sleep(0.5)
            self.assertIsNone(child.poll())
            os.killpg(child.pid, signal.SIGINT)
            _, said = child.communicate(timeout=10)
        self.assertEqual((child.returncode, said), (130, ""))

    def test_usage(self) -> None:
        done = subprocess.run([sys.executable, REPOSITORY / "tools" / "prove"], capture_output=True, text=True, check=False)
        self.assertEqual(done.returncode, 2)
        self.assertIn("tools/prove CRATE LOG COMMAND..", done.stderr)


class Checks(Checkouts):
    """`make check`, with a toolchain that says what its case asks for."""

    def setUp(self) -> None:
        super().setUp()
        self.add_toolchain()
        (self.top / "bin" / "rt").write_text('#!/bin/sh\nif [ "$2" = --test ]; then exit ${STATUS:-0}; fi\ncat\n')
        tests, program = self.top / "crates" / "low" / "src", self.top / "crates" / "mid" / "src"
        tests.mkdir()
        (tests / "lib.rt").write_text("#[test]\nfn passes() {}\n")
        program.mkdir()
        (program / "main.rt").write_text("fn main() {}\n")
        for name in ("stdin", "stdout"):
            (program.parent / name).write_text("as it was\n")

    def test_what_passes(self) -> None:
        done = self.make("check", "CHECK=--jobs 1")
        self.assertEqual((done.returncode, done.stderr), (0, ""))
        lines = re.sub(r"\(\d+ s\)", "", done.stdout).splitlines()
        self.assertEqual([it.strip() for it in lines], ["low: tests: ok", "mid: stored run: ok", "2 ok, 0 failed; nothing is proved"])

    def test_what_fails(self) -> None:
        (self.top / "crates" / "mid" / "stdout").write_text("otherwise\n")
        done = self.make("check", "CHECK=--jobs 2 mid")
        self.assertEqual(done.returncode, 2)
        self.assertRegex(done.stdout, r"^mid: stored run: FAILED \(\d+ s\)\nstandard output is not that of the file stdout\n0 ok, 1 failed")
        done = self.make("check", "CHECK=low", STATUS="1")
        self.assertEqual(done.returncode, 2)
        self.assertRegex(done.stdout, r"^low: tests: FAILED \(\d+ s\)\nstatus 1\n0 ok, 1 failed")

    def test_the_words_of_the_command_line(self) -> None:
        for words, fault in (("none", "no crate none"), ("--jobs 0", "--jobs is 1 or more, not 0")):
            done = self.make("check", f"CHECK={words}")
            self.assertEqual((done.returncode, done.stdout), (2, ""))
            self.assertIn(fault, done.stderr)


class LibraryFolders(Checkouts):
    """Where `make install-library` puts what is built, which here are empty files."""

    def setUp(self) -> None:
        super().setUp()
        for name in ("man", "bindings/c"):
            shutil.copytree(REPOSITORY / name, self.top / name)
        shutil.copy(REPOSITORY / "VERSION", self.top)
        (self.top / "out").mkdir()
        for name in ("libpidtab.a", "libpidtab.so.1", "pidtab.h", "pidtab_saved.h", "pidtab_replica.h", "host_calls.h"):
            (self.top / "out" / name).touch()

    def install(self, *words: str) -> list[str]:
        """Installs and removes: the head of the description for pkg-config, as it was between."""
        words = (f"DESTDIR={self.top / 'system'}", "PREFIX=/opt/pid tab", *words)
        done = self.make("install-library", *words)
        self.assertEqual((done.returncode, done.stdout, done.stderr), (0, "", ""))
        (described,) = (self.top / "system").rglob("pidtab.pc")
        text = described.read_text()
        self.assertTrue((described.parent.parent / "libpidtab.so").exists())
        # As `pkg-config --modversion` has it.
        self.assertIn(f"\nVersion: {(REPOSITORY / 'VERSION').read_text()}", text)
        self.make("uninstall", *words)
        self.assertEqual([it for it in (self.top / "system").rglob("*") if not it.is_dir()], [])
        return [str(described.relative_to(self.top / "system")), *text.splitlines()[:3]]

    def test_by_default(self) -> None:
        wanted = ["opt/pid tab/lib/pkgconfig/pidtab.pc", "prefix=/opt/pid tab", "libdir=${prefix}/lib", "includedir=${prefix}/include"]
        self.assertEqual(self.install(), wanted)

    def test_of_their_own(self) -> None:
        told = self.install("LIBDIR=/opt/pid tab/lib/x86_64-linux-gnu", "INCLUDEDIR=/usr/include", "MANDIR=/usr/man")
        place = "opt/pid tab/lib/x86_64-linux-gnu"
        wanted = [f"{place}/pkgconfig/pidtab.pc", "prefix=/opt/pid tab", "libdir=${prefix}/lib/x86_64-linux-gnu", "includedir=/usr/include"]
        self.assertEqual(told, wanted)


class NothingBuilt(unittest.TestCase):
    """Tests where there is neither a program nor a library: what needs one is skipped."""

    def run_nowhere(self, folder: Path, modules: list[str]) -> str:
        """The last line of what the tests say."""
        nowhere = {**os.environ, "PYTHONPATH": str(PACKAGE), "PIDTAB": "/no/such/pidtab", "PIDTAB_LIBRARY": "/no/such/library"}
        command = [sys.executable, "-B", "-m", "unittest", *modules]
        done = subprocess.run(command, cwd=folder, env=nowhere, capture_output=True, text=True, check=False)
        return done.stderr.splitlines()[-1]

    def test_of_the_repository(self) -> None:
        self.assertRegex(self.run_nowhere(HERE, OTHERS), r"^OK \(skipped=\d+\)$")

    def test_of_the_package(self) -> None:
        self.assertRegex(self.run_nowhere(PACKAGE, OF_PACKAGE), r"^OK \(skipped=\d+\)$")


if __name__ == "__main__":
    unittest.main()
