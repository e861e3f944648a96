"""What pip installs from a checkout, without an index: the package, with what is built there."""

import ast
import json
import shutil
import subprocess
import sys
import tempfile
import unittest
from pathlib import Path

import build_wheel
from pidtab import __version__
from tests.ways import find_library, need_library

PACKAGE = Path(__file__).resolve().parents[1]
TOLD = "import json, os, pidtab\nprint(json.dumps([pidtab.__version__, pidtab.__file__, pidtab.find_library()]))\nprint(pidtab.Table().fork(1))"


class Installed(unittest.TestCase):
    """A checkout of its own, in which a library may be built."""

    def setUp(self) -> None:
        if subprocess.run([sys.executable, "-m", "pip", "--version"], capture_output=True, check=False).returncode:
            self.skipTest("no pip")
        folder = tempfile.TemporaryDirectory()
        self.addCleanup(folder.cleanup)
        self.checkout, self.site = Path(folder.name) / "checkout", Path(folder.name) / "site"
        self.package = self.checkout / "bindings" / "python"
        shutil.copytree(PACKAGE, self.package, ignore=shutil.ignore_patterns("__pycache__", "tests", "cluster", "chaos"))
        (self.checkout / "out").mkdir()

    def build(self, report: str) -> None:
        """Has a library built, with its report."""
        need_library()
        shutil.copy(find_library(), self.checkout / "out" / "libpidtab.so.1")
        (self.checkout / "out" / "library.txt").write_text(report)

    def install(self) -> list[str]:
        """Installs the package: which distributions there are then."""
        words = ["install", "--no-index", "--quiet", "--no-cache-dir", "--target", str(self.site), str(self.package)]
        done = self.run_python("-m", "pip", *words)
        self.assertEqual(done.returncode, 0, done.stderr)
        return sorted(it.name for it in self.site.glob("*.dist-info"))

    def run_python(self, *words: str) -> "subprocess.CompletedProcess[str]":
        environment = {"PYTHONPATH": str(self.site), "PATH": "/usr/bin:/bin", "HOME": str(self.site)}
        return subprocess.run([sys.executable, "-B", *words], cwd=self.checkout.parent, env=environment, capture_output=True, text=True, check=False)

    def test_with_a_library(self) -> None:
        self.build("gate: proved\n")
        self.assertEqual(self.install(), [f"pidtab-{__version__}.dist-info"])
        done = self.run_python("-c", TOLD)
        told = [__version__, str(self.site / "pidtab/__init__.py"), str(self.site / "pidtab/libpidtab.so.1")]
        self.assertEqual((json.loads(done.stdout.partition("\n")[0]), done.stdout.partition("\n")[2]), (told, "Forked(child=2, root=2)\n"), done.stderr)
        self.assertIn("usage: pidtab-tree", self.run_python(str(self.site / "bin/pidtab-tree"), "--help").stdout)
        for name in ("hosts", "sim", "testing", "commands"):
            self.assertEqual(self.run_python("-c", f"import pidtab.{name}").stderr, "")
        # Nothing is left in the checkout but what Python itself keeps.
        left = sorted(it.name for it in self.package.iterdir() if it.name != "__pycache__")
        self.assertEqual(left, sorted(["README.md", "bin", "build_wheel.py", "examples", "pidtab", "pyproject.toml"]))

    def test_with_one_that_is_not_proved(self) -> None:
        self.build("not proved: `make try-lib` has compiled it\n")
        self.assertEqual(self.install(), [f"pidtab-{__version__}+not.proved.dist-info"])

    def test_without_a_library(self) -> None:
        self.assertEqual(self.install(), [f"pidtab-{__version__}.dist-info"])
        done = self.run_python("-c", "import pidtab; pidtab.Table(library='/no/such')")
        self.assertIn("no library /no/such: build it with `make lib`, or name it by the variable PIDTAB_LIBRARY", done.stderr)

    def test_an_editable_one(self) -> None:
        name = build_wheel.build_editable(str(self.checkout))
        self.assertEqual(name, f"pidtab-{__version__}-py3-none-any.whl")
        shutil.unpack_archive(self.checkout / name, self.site, "zip")
        self.assertEqual((self.site / "pidtab.pth").read_text(), f"{PACKAGE}\n")

    def test_the_settings(self) -> None:
        text = (PACKAGE / "pyproject.toml").read_text(encoding="utf-8")
        sections = build_wheel.read_sections(text)
        self.assertEqual(sections["project"]["name"], "pidtab")
        self.assertEqual(sections["project.optional-dependencies"], {"testing": ["hypothesis>=6"]})
        # All that has a value is read, none of it as text that Python does not know.
        values = [line.partition(" = ")[2] for line in text.splitlines() if " = " in line]
        self.assertEqual([ast.literal_eval(it) for it in values if it not in ("true", "false")], [
            it for section in sections.values() for it in section.values() if it not in ("true", "false")
        ])  # fmt: skip
        if sys.version_info >= (3, 11):
            import tomllib

            read = tomllib.loads(text)
            self.assertEqual(sections["project.scripts"], read["project"]["scripts"])
            self.assertEqual({**sections["project"], **{it: read["project"][it] for it in ("scripts", "optional-dependencies")}}, read["project"])


if __name__ == "__main__":
    unittest.main()
