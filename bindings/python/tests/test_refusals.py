"""The refusals of docs/SCRIPT.md as errors of Python. How each comes about is in interface/cases."""

import errno
import pickle
import unittest

from pidtab import Refusal
from pidtab.faults import read_refusal
from tests.pages import quoted, read_page, rows, section
from tests.ways import ByLibrary, ByProgram, Cases

# The classes that Python has for an error of the kernel. Of a bare refusal OSError is all that it has.
KINDS = {
    "ESRCH": ProcessLookupError, "ECHILD": ChildProcessError, "EAGAIN": BlockingIOError, "EPERM": PermissionError, "EACCES": PermissionError,
    "ENOENT": FileNotFoundError,
}  # fmt: skip


def answers() -> list[list[str]]:
    """The answers of the page that are refusals: an error, a word, and perhaps a letter for an id."""
    return [quoted(row[0])[0].split(" ") for row in rows(section(read_page("docs/SCRIPT.md"), "## Refusals"))]


class Classes(unittest.TestCase):
    """The table of bindings/python/README.md: which words have which class."""

    def test_each_word_has_its_errno_and_its_class(self) -> None:
        told = {word: (quoted(row[1])[0], quoted(row[2])[0])
                for row in rows(section(read_page("bindings/python/README.md"), "## Refusals")) for word in quoted(row[0])}  # fmt: skip
        wanted = {word: (name, KINDS[name].__name__ if name in KINDS else "Refusal") for name, word, *_ in answers()}
        self.assertEqual(told, wanted)

    def test_what_has_no_class_is_a_bare_refusal(self) -> None:
        for name, word, *ids in answers():
            refusal = read_refusal("the line", " ".join([name, word, *["7" for _ in ids]]))
            self.assertEqual((type(refusal) is Refusal, refusal.id), (name not in KINDS, 7 if ids else None), word)
            self.assertIsInstance(refusal, KINDS.get(name, OSError))


class RefusalCases(Cases):
    """What is refused raises the kernel's error."""

    def test_what_it_says(self) -> None:
        table = self.open()
        with self.assertRaises(BlockingIOError) as raised:
            table.answers(["mk 0", "limit 1 1", "move 1 1"])
            table.fork(1)
        refusal = raised.exception
        assert isinstance(refusal, Refusal)
        self.assertEqual((refusal.errno, refusal.why, refusal.word, refusal.id), (errno.EAGAIN, "pids-limit 1", "pids-limit", 1))
        self.assertEqual(str(refusal), f"[Errno {errno.EAGAIN}] fork 1: pids-limit 1")

    def test_it_can_be_sent_to_another_process(self) -> None:
        with self.assertRaises(Refusal) as raised:
            self.open().exit(1)
        copy = pickle.loads(pickle.dumps(raised.exception))
        self.assertEqual((type(copy), copy.errno, copy.why), (Refusal, errno.EBUSY, "root-init"))
        self.assertEqual((copy.word, copy.id), ("root-init", None))


class RefusalsByProgram(RefusalCases, ByProgram):
    pass


class RefusalsByLibrary(RefusalCases, ByLibrary):
    pass


if __name__ == "__main__":
    unittest.main()
