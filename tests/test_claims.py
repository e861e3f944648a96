"""What the pages on proofs and tests name is there: the fields of the headline, the crates of the product, names of the code, and an edit."""

import re
import unittest

from tests.pages import REPOSITORY, fenced, quoted, read_page, section

CRATES = REPOSITORY / "crates"

# The page names no contract of theirs. docs/TESTED.md says so of the words of the command line.
WITHOUT = {"pidtab", "pid_words"}

NAME = re.compile(r"[A-Za-z_]\w*(?:::[A-Za-z_]\w*)*")


def part(title: str) -> str:
    """What the page has below a title, its smaller titles too, to the next one as large."""
    _, found, behind = read_page("docs/PROVED.md").partition(f"\n## {title}\n")
    if not found:
        raise ValueError(f"no part {title}")
    return behind.split("\n## ")[0]


class Claims(unittest.TestCase):
    """The page by the code."""

    def test_the_fields_of_the_headline(self) -> None:
        promise = read_page("crates/kept_table/specs/Promise.antt").split("record KeepsPromise")[1]
        fields = re.findall(r"^  pub (\w+) :", promise, re.MULTILINE)
        self.assertEqual(len(fields), 12)
        self.assertLessEqual(set(fields), set(quoted(part("The headline"))))

    def test_the_crates_of_the_product(self) -> None:
        product, *_ = read_page("crates.txt").partition("\n\n")
        crates = {line.split()[0].rstrip(":") for line in product.splitlines() if not line.startswith("#")}
        self.assertGreater(len(crates), 20)
        heads = re.findall(r"^- \*\*(.*?)\*\*", part("Crate by crate"), re.MULTILINE)
        named = {name for head in heads for name in quoted(head)}
        self.assertEqual(crates - named, WITHOUT)
        self.assertEqual({name for name in named if not (CRATES / name).is_dir()}, {"teardown", "selection", "stat", "page", "residents", "space", "inside", "threads"})

    def test_the_names_of_the_code(self) -> None:
        files = [it for it in CRATES.rglob("*") if it.suffix in (".rt", ".antt") and "out" not in it.parts]
        # One function of the crates has two names for C.
        files += (REPOSITORY / "bindings" / "c").glob("*.h")
        words = {word for it in files for word in re.findall(r"\w+", it.read_text(encoding="utf-8"))}
        words |= {it.name for folder in (CRATES, REPOSITORY) for it in folder.iterdir()}
        names = {it for it in quoted(read_page("docs/PROVED.md") + read_page("docs/TESTED.md")) if NAME.fullmatch(it)}
        self.assertGreater(len(names), 150)
        self.assertEqual({it for it in names if not set(it.split("::")) <= words}, set())

    def test_the_edit_of_the_page(self) -> None:
        text = section(read_page("CONTRIBUTING.md"), "## Write a must-fail edit")
        (path,), (shown,) = re.findall(r"\((crates/.*\.edit)\)", text), fenced(text, "text")
        self.assertEqual(shown, read_page(path))


if __name__ == "__main__":
    unittest.main()
