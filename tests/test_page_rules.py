"""What tools/pages finds: nothing in this repository, and each fault that is planted in pages of its own."""

import subprocess
import sys
import tempfile
import unittest
from pathlib import Path

from tests.pages import REPOSITORY

PAGES = {
    "README.md": "# First\n\nSee [the second](docs/SECOND.md#a-part), [below](#below), [a site](https://example.com/none.md) and `[no](link)`.\n\n## Below\n",
    "docs/SECOND.md": "# Second\n\n[Up](../README.md), [again](#a-part-1), and what is\n[here](.).\n\n## A part\n\n## A `part`\n\n```sh\n# no heading\n```\n",
    "out/BUILT.md": "[nowhere](NOWHERE.md)\n",
    "Makefile": ".PHONY: run\nrun:\n\t@echo run\n",
}

LONG = "word " * 31

# A page, what is written after it, and the fault, with its line.
FAULTS = [
    ("README.md", "\n[x](docs/THIRD.md)\n", "README.md:7: no file docs/THIRD.md"),
    ("README.md", "\nSee [two\nlines](docs/THIRD.md).\n", "README.md:7: no file docs/THIRD.md"),
    ("README.md", '\n![x](THIRD.png "a title")\n', "README.md:7: no file THIRD.png"),
    ("README.md", "\n[x](docs/SECOND.md#part)\n", "README.md:7: no heading for docs/SECOND.md#part"),
    ("docs/SECOND.md", "\n[x](#a-part-2)\n", "docs/SECOND.md:14: no heading for #a-part-2"),
    ("docs/SECOND.md", "\n[x](#no-heading)\n", "docs/SECOND.md:14: no heading for #no-heading"),
    ("docs/SECOND.md", "\n[x](../../README.md)\n", "docs/SECOND.md:14: the link ../../README.md leads out of the repository"),
    ("docs/SECOND.md", "\n[x](/README.md)\n", "docs/SECOND.md:14: the link /README.md leads out of the repository"),
    ("docs/SECOND.md", "\n# Third\n", "docs/SECOND.md:14: a second title: Third"),
    ("docs/SECOND.md", "\n#### Deep\n", "docs/SECOND.md:14: a level of headings is left out above: Deep"),
    ("docs/THIRD.md", "\n# Third\n", "docs/THIRD.md:1: the first line is not the title"),
    (".github/FAULT.md", "---\nname: A fault\n---\n\nSay `make walk`.\n", ".github/FAULT.md:5: no target of make: walk"),
    ("docs/SECOND.md", "\nSee D12.\n", "docs/SECOND.md:14: a number that no page explains: D12"),
    ("docs/SECOND.md", "\n    cd /home/me/pidtab\n", "docs/SECOND.md:14: a path of one machine: /home/m"),
    ("README.md", "\nSay `make run` or `make walk`.\n", "README.md:7: no target of make: walk"),
    ("README.md", "\n```sh\nmake run\nmake walk  # slowly\n```\n", "README.md:9: no target of make: walk"),
    ("README.md", f"\nThis is short. {LONG}\n", "README.md:7: a sentence of 31 words, above 30: " + LONG[:60]),
    ("README.md", f"\n- An item,\n  {LONG}\n- Another.\n", f"README.md:7: a sentence of 33 words, above 30: An item, {LONG[:51]}"),
    ("README.md", f"\n| a | b |\n|---|---|\n| c | {LONG}|\n", "README.md:9: a sentence of 31 words, above 30: " + LONG[:60]),
    ("README.md", "\nA page tells it.\n", "README.md:7: not a plain word: tells"),
    ("docs/MODEL.md", f"# Model\n\n{LONG}\n", "docs/MODEL.md:3: a sentence of 31 words, above 30: " + LONG[:60]),
    ("docs/MODEL.md", f"# Model\n\n- An item,\n  {LONG}\n", f"docs/MODEL.md:3: a sentence of 33 words, above 30: An item, {LONG[:51]}"),
    ("docs/MODEL.md", "# Model\n\nIt stands here.\n", "docs/MODEL.md:3: not a plain word: stands"),
    ("docs/SECOND.md", "\nIt is behind\nthe end.\n", "docs/SECOND.md:14: a word that has a better one: behind, after"),
    ("docs/SECOND.md", "\nThis is\nall but one.\n", "docs/SECOND.md:15: a word that has a better one: all but, except"),
    ("tools/two.py", "import sys\n# first\n# Behind it.\n", "tools/two.py:3: a word that has a better one: Behind, after"),
    ("tools/two", '#!/usr/bin/env python3\ndef two():\n    """Two.\n\n    Nothing\n    but that."""\n', "tools/two:5: a word that has a better one: Nothing but, except"),
    ("page/two.js", 'const a = "// x";\n/* All\n * behind\n * it. */\n', "page/two.js:3: a word that has a better one: behind, after"),
    ("bindings/two.rs", "//! One.\nfn two() {} // but for\n", "bindings/two.rs:2: a word that has a better one: but for, except"),
    ("docs/SECOND.md", "\nMeasured on 2026-11-24.\n", "docs/SECOND.md:14: a date: 2026-11-24"),
    ("README.md", "\n" * 126, "README.md:131: 131 lines, above 130"),
    ("README.md", "\n    " + "x" * 7000 + "\n", f"README.md:7: {len(PAGES['README.md']) + 7006} bytes, above 7000"),
]

# What is no fault.
GOOD = [
    ("README.md", f"\n> {LONG}\n> tells\n"),
    ("README.md", f"\n```text\n{LONG} tells\n```\n"),
    ("README.md", "\nIt writes `pidtab tells`, and " + "`two words` " * 20 + "\n"),
    ("README.md", f"\n| a | b |\n|---|---|\n| {LONG[:75]} | {LONG[:75]} |\n"),
    ("docs/SECOND.md", f"\n{LONG} tells\n"),
    ("docs/MODEL.md", f"# Model\n\n<!-- {LONG} -->\n\n| a | b |\n|---|---|\n| c | {LONG} tells |\n\nShort.\n"),
    ("docs/SECOND.md", "\nA table behind a lock, and behind\nits lock, lags behind. `behind`, and\n\n    behind\n"),
    ("docs/PROVED.md", "# Proved\n\nWhat is behind it.\n"),
    ("tools/two.py", 'print("behind", """all but""")\nbehind = 1\n'),
    ("crates/two.rs", "// behind\n"),
    ("bindings/go/cluster/two.go", "// behind\n"),
    ("page/two.js", 'const behind = "// behind";\n// A thing behind a\n// lock.\n'),
    ("tools/two.txt", "# behind\n"),
    ("docs/SECOND.md", "\n    touch -d 2026-11-24 file\n"),
    ("README.md", "\nSince 2026-11-24.\n"),
    ("docs/SECOND.md", "\n    make run\n\nThe commands `make -C low all` and `make PREFIX=/opt run`\nmake much.\n"),
    ("docs/SECOND.md", "\nSee /usr/local/bin, /proc and 2D12.\n"),
    (".github/FAULT.md", "---\nname: A fault\n---\n\nSay `make run`.\n"),
]


def check(*words: str | Path) -> tuple[int, str]:
    """The status of the script, and what it writes to standard error."""
    command = [sys.executable, "-B", REPOSITORY / "tools" / "pages", *words]
    done = subprocess.run(command, capture_output=True, text=True, check=False)
    return done.returncode, done.stdout + done.stderr


class Rules(unittest.TestCase):
    """Pages with one thing more in them."""

    def check_with(self, name: str, more: str) -> tuple[int, str]:
        """What the script finds in the pages, one of which has more."""
        with tempfile.TemporaryDirectory() as folder:
            for page, text in (PAGES | {name: PAGES.get(name, "") + more}).items():
                file = Path(folder) / page
                file.parent.mkdir(exist_ok=True, parents=True)
                file.write_text(text)
            return check("--check", folder)

    def test_the_pages_of_the_repository(self) -> None:
        self.assertEqual(check("--check"), (0, ""))

    def test_what_is_no_fault(self) -> None:
        for name, more in [("README.md", ""), *GOOD]:
            with self.subTest(name + more):
                self.assertEqual(self.check_with(name, more), (0, ""))

    def test_each_fault(self) -> None:
        for name, more, fault in FAULTS:
            with self.subTest(name + more[:80]):
                self.assertEqual(self.check_with(name, more), (1, fault + "\n"))

    def test_several_faults(self) -> None:
        status, said = self.check_with("docs/SECOND.md", "\n[x](THIRD.md)\n\n# Third\n")
        self.assertEqual((status, said.splitlines()), (1, ["docs/SECOND.md:14: no file docs/THIRD.md", "docs/SECOND.md:16: a second title: Third"]))

    def test_bytes_that_are_no_text(self) -> None:
        with tempfile.TemporaryDirectory() as folder:
            (Path(folder) / "README.md").write_bytes(b"# First\n\n\xff\n")
            self.assertEqual(check("--check", folder), (1, "README.md:3: what is not UTF-8: \ufffd\n"))

    def test_no_first_page(self) -> None:
        with tempfile.TemporaryDirectory() as folder:
            self.assertEqual(check("--check", folder), (1, "README.md: no such page\n"))

    def test_the_words_of_the_command_line(self) -> None:
        for words in ([], ["check"], ["--check", ".", "."]):
            status, said = check(*words)
            self.assertEqual((status, said.splitlines()[0]), (2, "Checks the pages of the repository: all files *.md."))


if __name__ == "__main__":
    unittest.main()
