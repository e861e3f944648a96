"""`make install` and `make uninstall`, in a folder of their own; and what `make bindings` says where it has nothing to test."""

import os
import re
import shlex
import subprocess
import sys
import tempfile
import unittest
from pathlib import Path

from pidtab import find_program
from tests.pages import REPOSITORY, displays, fenced, read_page, section
from tests.programs import need_archive, need_tool, run, run_c, run_go, run_make
from tests.ways import need_library, need_program

# A folder whose name has a space.
PREFIX = "/opt/pid tab"

PROGRAM = ["bin/pidtab", "bin/pidtab-check", "bin/pidtab-compare", "bin/pidtab-keep", "bin/pidtab-play", "bin/pidtab-replay", "bin/pidtab-top",
           "bin/pidtab-tree", "bin/pidtabctl", "share/bash-completion/completions/pidtabctl", "share/fish/vendor_completions.d/pidtabctl.fish",
           "share/man/man1/pidtab-check.1", "share/man/man1/pidtab-compare.1", "share/man/man1/pidtab-keep.1",
           "share/man/man1/pidtab-play.1", "share/man/man1/pidtab-replay.1", "share/man/man1/pidtab-top.1", "share/man/man1/pidtab-tree.1",
           "share/man/man1/pidtab.1", "share/man/man1/pidtabctl.1", "share/man/man5/pidtab.5", "share/pidtab/LICENSE",
           "share/zsh/site-functions/_pidtabctl"]  # fmt: skip
# The library has a manual page for each function, by its name, beside the pages on all of them.
HEADERS = [REPOSITORY / "bindings" / "c" / "host_calls.h", *sorted((REPOSITORY / "bindings" / "c").glob("pidtab*.h"))]
FUNCTIONS = re.findall(r"^(?:static inline )?[a-z].*[ *](pidtab_[a-z_]+)\(", "".join(path.read_text(encoding="utf-8") for path in HEADERS), re.MULTILINE)
WHOLE = [path.stem for path in (REPOSITORY / "man").glob("*.3")]
PAGES = sorted(f"share/man/man3/{name}.3" for name in [*WHOLE, *FUNCTIONS] if name not in ("pidtab_value", "pidtab_do"))
LIBRARY = [*(f"include/{path.name}" for path in HEADERS), "lib/libpidtab.a", "lib/libpidtab.so", "lib/libpidtab.so.1", "lib/pkgconfig/pidtab.pc", *PAGES]

# Both ways to a table, from the package that was installed.
BOTH = """\
import pidtab
with pidtab.Process() as process, pidtab.Table() as table:
    print(process.program, process.fork(1))
    print(table.library, table.fork(1))
"""


class Installs(unittest.TestCase):
    """A folder to install to."""

    def setUp(self) -> None:
        folder = tempfile.TemporaryDirectory()
        self.addCleanup(folder.cleanup)
        self.folder = Path(folder.name)
        self.prefix = Path(folder.name + PREFIX)

    def stage(self, target: str, *words: str) -> "subprocess.CompletedProcess[str]":
        """Runs a target for a folder that stands for the root of a system."""
        return run_make(target, f"DESTDIR={self.folder}", f"PREFIX={PREFIX}", *words)

    def files(self) -> list[str]:
        """All files that are there, without the modules of the package."""
        files = [str(path.relative_to(self.prefix)) for path in self.prefix.rglob("*") if path.is_file()]
        return sorted(file for file in files if not file.startswith("share/pidtab/python/"))

    def all_files(self) -> list[Path]:
        """All that is left but folders."""
        return [path for path in self.folder.rglob("*") if path.is_symlink() or not path.is_dir()]


class Programs(Installs):
    """All that is installed works where it lies, and all of it goes."""

    def setUp(self) -> None:
        need_program()
        super().setUp()

    def test_install_and_uninstall(self) -> None:
        done = self.stage("install", f"PIDTAB={find_program()}", "BUILT_LIBRARY=")
        self.assertEqual((done.returncode, done.stdout, done.stderr), (0, "", ""))
        self.assertEqual(self.files(), PROGRAM)
        kept = self.prefix / "bin" / "another"
        kept.touch()
        self.run_installed()
        self.assertTrue(list(self.prefix.rglob("*.pyc")))
        self.assertEqual(self.stage("uninstall").returncode, 0)
        self.assertEqual(self.all_files(), [kept])

    def run_installed(self) -> None:
        """The programs, from another folder and without the variables of this one."""
        binaries = self.prefix / "bin"
        command = "printf 'a = fork 1\\nlist\\n' | ./pidtab-play | sed 1d | ./pidtab-tree && echo frok | ./pidtab-check"
        # Python may keep its compiled modules beside the package, and these have to go too.
        clean = {"PATH": os.environ["PATH"]}
        done = subprocess.run(["sh", "-c", command], cwd=binaries, env=clean, capture_output=True, text=True, check=False)
        self.assertEqual((done.returncode, done.stderr), (1, ""))
        self.assertIn("    1 group 1 session 1 control 0 live\n      2 group 1", done.stdout)
        self.assertIn("-:1:1: expected a command: the nearest is `fork`", done.stdout)
        completion = run([binaries / "pidtabctl", "completion", "bash"], binaries)
        self.assertEqual((self.prefix / "share/bash-completion/completions/pidtabctl").read_text(), completion)
        self.assertIn("complete -o default -F _pidtabctl pidtabctl\n", completion)

    def test_folders_of_their_own(self) -> None:
        folders = {"MANDIR": "/usr/man", "PYTHONDIR": "/usr/lib/python"}
        words = [f"{name}={folder}" for name, folder in folders.items()]
        self.assertEqual(self.stage("install", f"PIDTAB={find_program()}", "BUILT_LIBRARY=", *words).stderr, "")
        placed = sorted(str(path.relative_to(self.folder)) for path in self.all_files())
        self.assertIn("usr/man/man1/pidtab-play.1", placed)
        self.assertIn("usr/lib/python/pidtab/commands/play.py", placed)
        shared = [f"opt/pid tab/{it}" for it in PROGRAM if it.startswith("share/") and not it.startswith("share/man/")]
        self.assertEqual([it for it in placed if "opt/pid tab/share" in it], shared)
        self.assertEqual(self.stage("uninstall", *words).returncode, 0)
        self.assertEqual(self.all_files(), [])

    def test_a_package_elsewhere_is_found(self) -> None:
        package = self.folder / "python"
        words = ["BUILT_LIBRARY=", f"PREFIX={self.prefix}", f"PYTHONDIR={package}", f"PIDTAB={find_program()}"]
        self.assertEqual(run_make("install", *words).stderr, "")
        self.assertTrue((package / "pidtab" / "commands" / "tree.py").is_file())
        self.assertIn("usage: pidtab-tree", run([self.prefix / "bin" / "pidtab-tree", "--help"], self.folder, PYTHONPATH=""))


class Missing(Installs):
    """What is not built is not installed."""

    def test_without_the_program(self) -> None:
        done = self.stage("install", "PIDTAB=/no/such/pidtab")
        self.assertNotEqual(done.returncode, 0)
        self.assertIn("no program /no/such/pidtab", done.stderr)
        self.assertFalse(self.prefix.exists())

    def test_without_the_library(self) -> None:
        done = self.stage("install-library", "BUILT_LIBRARY=")
        self.assertNotEqual(done.returncode, 0)
        self.assertIn("make lib", done.stderr)
        self.assertFalse(self.prefix.exists())


class Libraries(Installs):
    """The library with its header, and who finds it."""

    def setUp(self) -> None:
        need_archive()
        super().setUp()

    def place(self, prefix: Path) -> None:
        """Installs the library where it stays."""
        done = run_make("install-library", f"PREFIX={prefix}")
        self.assertEqual((done.returncode, done.stdout, done.stderr), (0, "", ""))

    def test_install_and_uninstall(self) -> None:
        done = self.stage("install-library")
        self.assertEqual((done.returncode, done.stdout, done.stderr), (0, "", ""))
        self.assertEqual(self.files(), LIBRARY)
        self.assertEqual((self.prefix / "lib" / "libpidtab.so").readlink(), Path("libpidtab.so.1"))
        self.assertEqual((self.prefix / "lib/pkgconfig/pidtab.pc").read_text().splitlines()[0], f"prefix={PREFIX}")
        self.check_manuals()
        kept = self.prefix / "lib" / "libpidtab.so.0"
        kept.touch()
        self.assertEqual(self.stage("uninstall").returncode, 0)
        self.assertEqual(self.all_files(), [kept])

    def check_manuals(self) -> None:
        """A function's page leads to the one that has a section on it."""
        manuals = self.prefix / "share/man/man3"
        for page, name in (("pidtab", "ask"), ("pidtab_history", "checkpoint_at"), ("pidtab_threads", "lock"), ("pidtab_saved", "saved_put_head")):
            self.assertEqual((manuals / f"pidtab_{name}.3").read_text(), f".so man3/{page}.3\n")
            self.assertEqual((manuals / f"{page}.3").read_bytes(), (REPOSITORY / "man" / f"{page}.3").read_bytes())

    def test_with_the_program(self) -> None:
        need_program()
        need_library()
        self.assertEqual(run_make("install", f"PREFIX={self.prefix}", f"PIDTAB={find_program()}").stderr, "")
        self.assertEqual(self.files(), sorted(PROGRAM + LIBRARY))
        clean = {"PATH": os.environ["PATH"], "PYTHONPATH": str(self.prefix / "share/pidtab/python")}
        done = subprocess.run([sys.executable, "-c", BOTH], cwd=self.folder, env=clean, capture_output=True, text=True, check=False)
        forked = "Forked(child=2, root=2)"
        self.assertEqual((done.stderr, done.stdout), ("", f"{self.prefix}/bin/pidtab {forked}\n{self.prefix}/lib/libpidtab.so.1 {forked}\n"))
        self.assertEqual(run_make("uninstall", f"PREFIX={self.prefix}").returncode, 0)
        self.assertEqual(self.all_files(), [])

    def test_c_finds_it_by_pkg_config(self) -> None:
        self.place(self.prefix)
        flags = run([need_tool("pkg-config"), "--cflags", "--libs", "pidtab"], self.folder, PKG_CONFIG_PATH=self.prefix / "lib/pkgconfig")
        *_, code, printed = displays((REPOSITORY / "man" / "pidtab.3").read_text())
        self.assertEqual(run_c(code, self.folder, shlex.split(flags), LD_LIBRARY_PATH=self.prefix / "lib"), printed)

    def test_go_finds_it_by_pkg_config(self) -> None:
        need_tool("pkg-config")
        # Go 1.19 takes what pkg-config says apart at each space.
        prefix = self.folder / "prefix"
        self.place(prefix)
        text = section(read_page("bindings/go/README.md"), "## Example")
        (code,), (printed,) = fenced(text, "go"), fenced(text, "text")
        (self.folder / "go").mkdir()
        # Go keeps what pkg-config has said, as long as its own flags are the same.
        flag = f"-DFOLDER_{self.folder.name}"
        places: dict[str, str | Path] = {"PKG_CONFIG_PATH": prefix / "lib/pkgconfig", "LD_LIBRARY_PATH": prefix / "lib", "CGO_CFLAGS": flag}
        self.assertEqual(run_go(code, self.folder / "go", "pkgconfig", **places), printed)


class Skipped(unittest.TestCase):
    """Tests of a binding are skipped with a word, and name their log where they fail."""

    def test_without_a_compiler(self) -> None:
        done = run_make("bindings-c", "CC=no-such-compiler")
        self.assertEqual((done.returncode, done.stdout, done.stderr), (0, "bindings-c: skipped: no no-such-compiler\n", ""))

    def test_without_the_library(self) -> None:
        done = run_make("bindings-c", "CC=true", "LIBRARY=/no/such/library")
        self.assertEqual((done.returncode, done.stdout, done.stderr), (0, "bindings-c: skipped: no /no/such/library\n", ""))

    def test_a_failure(self) -> None:
        done = run_make("bindings-c", "CC=false", "LIBRARY=Makefile")
        self.assertNotEqual(done.returncode, 0)
        self.assertIn("make bindings-c failed: see out/bindings-c.log\n", done.stderr)


if __name__ == "__main__":
    unittest.main()
