"""The numbers of docs/STABLE.md: the version of a release, and that of the interface, wherever they are written."""

import ast
import re
import unittest

from tests.pages import REPOSITORY, read_page, section

VERSION = r"(\d+\.\d+\.\d+(?:-dev)?)"

# Where the version is written beside the file VERSION.
VERSIONS = {
    "bindings/python/pyproject.toml": r'^version = "(.*)"$',
    "bindings/python/pidtab/__init__.py": r'^__version__ = "(.*)"$',
    "bindings/rust/Cargo.toml": rf'^version = "{VERSION}"$',
    "service/Cargo.toml": rf'^version = "{VERSION}"$',
    "bindings/js/package.json": rf'^  "version": "{VERSION}",$',
    "README.md": rf"\bversion {VERSION}[ ,]",
}

# What Python's packages call what is not released.
DEV = "-dev", ".dev0"

# Where the number of the interface is written.
INTERFACES = {
    "docs/STABLE.md": r"^- The \*interface\* is (\d+)\.",
    "bindings/c/pidtab.h": r"^#define PIDTAB_VERSION (\d+) ",
    "bindings/c/pidtab.pc.in": r"^interface=(\d+)$",
    "bindings/c/pidtab.map": r"^PIDTAB_(\d+) \{$",
    "bindings/python/pidtab/raw.py": r"^VERSION = (\d+)$",
    "bindings/rust/src/raw.rs": r"\bVERSION: u32 = (\d+),",
    "Makefile": r"-soname,libpidtab\.so\.(\d+)",
}

# Where the number of the model is written.
MODELS = {
    "docs/STABLE.md": r"^- The \*model\* is (\d+)\.",
    "docs/CLUSTER.md": r"and the model, which is (\d+) \|$",
    "bindings/python/pidtab/hosts/log_entries.py": r"^MODEL = (\d+)$",
    "bindings/python/pidtab/commands/replay.py": r'^FORM, MODEL = "\d+", "(\d+)"$',
}

# Where that of the form of a log is.
FORMS = {
    "docs/CLUSTER.md": r"the settings: the form, which is (\d+),",
    "bindings/python/pidtab/hosts/log_entries.py": r"^FORM = (\d+)$",
    "bindings/python/pidtab/commands/replay.py": r'^FORM, MODEL = "(\d+)", "\d+"$',
}

# Where the least Python of the package is written, and where that of the gate.
PYTHONS = {
    "bindings/python/pyproject.toml": r'^requires-python = ">=(\d+\.\d+)"$',
    "bindings/python/README.md": r"of Python (\d+\.\d+) or later",
    "README.md": r"\bPython (\d+\.\d+)\b",
    "CONTRIBUTING.md": r"\bPython (\d+\.\d+) or later",
    "docs/LIBRARY.md": r"\bPython (\d+\.\d+) or later",
    "linux/README.md": r"\bPython (\d+\.\d+) or later",
}
PYTHONS_OF_THE_GATE = {
    "CONTRIBUTING.md": r"\bPython (\d+\.\d+) is enough for the gate",
    "docs/GATE.md": r"\bPython (\d+\.\d+) or later",
}

# The folders of what the gate runs by Python.
OF_THE_GATE = "tools", "hostile", "interface", "interface/written", "interface/compared"

# What the first library of interface 1 exported, and so each later one.
RELEASED = {"pidtab_version", "pidtab_open", "pidtab_close", "pidtab_line", "pidtab_list", "pidtab_call"}


def found(page: str, pattern: str) -> list[str]:
    """The numbers that a page has where the pattern says."""
    return re.findall(pattern, read_page(page), re.MULTILINE)


class Versions(unittest.TestCase):
    """Each number is the same wherever it is written."""

    def test_the_version(self) -> None:
        version = read_page("VERSION")
        self.assertRegex(version, rf"\A{VERSION}\n\Z")
        for page, pattern in VERSIONS.items():
            with self.subTest(page):
                self.assertEqual([it.replace(DEV[1], DEV[0]) for it in found(page, pattern)], [version.strip()])

    def test_the_changes(self) -> None:
        heads = re.findall(r"^## (.*)$", read_page("CHANGELOG.md"), re.MULTILINE)
        self.assertEqual(heads[0], "[Unreleased]")
        self.assertRegex(heads[1], r"\A\[\d+\.\d+\.\d+\] - \d{4}-\d\d-\d\d\Z")
        released, version = heads[1].split("]")[0].strip("["), read_page("VERSION").strip()
        if version.endswith("-dev"):
            self.assertGreater(*([int(it) for it in name.removesuffix("-dev").split(".")] for name in (version, released)))
        else:
            self.assertEqual(released, version)

    def test_the_interface(self) -> None:
        (interface,) = found("docs/STABLE.md", INTERFACES["docs/STABLE.md"])
        for page, pattern in INTERFACES.items():
            with self.subTest(page):
                self.assertEqual(set(found(page, pattern)), {interface})

    def test_the_log(self) -> None:
        for places, number in ((MODELS, "1"), (FORMS, "2")):
            self.assertEqual({tuple(found(page, pattern)) for page, pattern in places.items()}, {(number,)})

    def test_python(self) -> None:
        for places, least in ((PYTHONS, "3.10"), (PYTHONS_OF_THE_GATE, "3.8")):
            self.assertEqual({page: set(found(page, pattern)) for page, pattern in places.items()}, {page: {least} for page in places})

    def test_the_gate_is_for_an_old_python(self) -> None:
        files = [REPOSITORY / "bindings/c/test_guard", *(it for folder in OF_THE_GATE for it in (REPOSITORY / folder).iterdir() if it.is_file())]
        texts = {file: file.read_text(encoding="utf-8") for file in files}
        scripts = {file: text for file, text in texts.items() if file.suffix == ".py" or text.startswith("#!/usr/bin/env python3")}
        self.assertGreater(len(scripts), 10)
        for file, text in scripts.items():
            with self.subTest(file.name):
                ast.parse(text, feature_version=(3, 8))
                # Methods of str that came later.
                self.assertNotRegex(text, r"\.remove(?:prefix|suffix)\(")

    def test_the_functions_that_stay(self) -> None:
        # Those that the header declares and does not define are exported.
        exported = re.findall(r"^(?:uint32_t|void) (pidtab_\w+)\(", read_page("bindings/c/pidtab.h"), re.MULTILINE)
        self.assertEqual(RELEASED - set(exported), set())
        self.assertIn("- The exported functions, ", section(read_page("docs/STABLE.md"), "## What stays while the interface is 1"))


if __name__ == "__main__":
    unittest.main()
