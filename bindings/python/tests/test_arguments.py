"""What is given to a table: integers and lines, and what is none of them; what is exported for types; and what a table shows of itself."""

import subprocess
import sys
import unittest
from collections.abc import Callable
from pathlib import Path
from types import SimpleNamespace
from typing import Any, get_args
from unittest import mock

import pidtab
from pidtab import Calls
from pidtab.faults import read_fault
from tests.ways import ByLibrary, ByProgram, Cases, Way, open_stand_in

PACKAGE = Path(__file__).resolve().parents[1]

# Words of a caller, numbers that are no integers, and nothing at all.
NO_INTEGERS: list[Any] = ["1", "1 new", b"1", 1.0, [1], None]

# Each place of an integer, by a call that is good with a 1 there.
PLACES: list[Callable[[Calls, Any], object]] = [
    lambda table, it: table.fork(it), lambda table, it: table.fork(it, new=True), lambda table, it: table.exec(it),
    lambda table, it: table.exit(it), lambda table, it: table.exit(2, it), lambda table, it: table.wait(it),
    lambda table, it: table.setpgid(it), lambda table, it: table.setpgid(1, it), lambda table, it: table.setpgid(1, 0, it),
    lambda table, it: table.setsid(it), lambda table, it: table.getpid(it), lambda table, it: table.getppid(it),
    lambda table, it: table.getpgid(it), lambda table, it: table.getpgid(1, it), lambda table, it: table.getsid(it),
    lambda table, it: table.getsid(1, it), lambda table, it: table.nspid(it, 1), lambda table, it: table.nspid(1, it),
    lambda table, it: table.next(it), lambda table, it: table.next(1, "task", it), lambda table, it: table.join(it, 1),
    lambda table, it: table.join(1, it), lambda table, it: table.subreaper(it), lambda table, it: table.mk(it), lambda table, it: table.rm(it),
    lambda table, it: table.limit(it), lambda table, it: table.move(it, 0), lambda table, it: table.move(1, it), lambda table, it: table.count(it),
]  # fmt: skip

# Here None has a meaning.
PLACES_OR_NONE: list[Callable[[Calls, Any], object]] = [
    lambda table, it: table.wait(1, it), lambda table, it: table.wait(1, group=it), lambda table, it: table.limit(1, it),
]  # fmt: skip


class One:
    """An integer of another kind, as those of a library for arrays."""

    def __index__(self) -> int:
        return 1


class ByStandIn(Way):
    """By a library that may not be asked."""

    def open(self, pid_max: int = 32768) -> Calls:
        asked = mock.Mock(side_effect=AssertionError("the library was asked"))
        functions = SimpleNamespace(pidtab_open=mock.Mock(return_value=0), pidtab_close=mock.Mock(), pidtab_call=asked, pidtab_line=asked)
        table = open_stand_in(functions, pid_max)
        self.addCleanup(table.close)
        return table


class TypeCases(Cases):
    """What is no integer is a TypeError, and so is a line that is no str."""

    def test_no_integers(self) -> None:
        table = self.open()
        for place, call in enumerate(PLACES):
            for value in NO_INTEGERS:
                with self.subTest(place=place, value=value), self.assertRaisesRegex(TypeError, "cannot be interpreted as an integer"):
                    call(table, value)
        for call in PLACES_OR_NONE:
            for value in NO_INTEGERS[:-1]:
                with self.subTest(value=value), self.assertRaisesRegex(TypeError, "cannot be interpreted as an integer"):
                    call(table, value)

    def test_a_bound_that_is_no_integer(self) -> None:
        for value in ("400", 400.5, None, [400]):
            with self.subTest(value), self.assertRaisesRegex(TypeError, "cannot be interpreted as an integer"):
                self.open(value)  # type: ignore[arg-type]

    def test_no_lines(self) -> None:
        table = self.open()
        lines: list[Any] = [b"fork 1", 1, None, ["fork 1"]]
        for value in lines:
            with self.subTest(value), self.assertRaisesRegex(TypeError, f"^a line is a str, not {type(value).__name__}$"):
                table.line(value)
            with self.subTest(value), self.assertRaisesRegex(TypeError, f"^a line is a str, not {type(value).__name__}$"):
                table.answers([value])

    def test_one_text_for_many_lines(self) -> None:
        table = self.open()
        texts: list[Any] = ["fork 1", "", b"fork 1", bytearray(b"fork 1")]
        for text in texts:
            with self.subTest(text), self.assertRaisesRegex(TypeError, "answers takes many lines, each a str, not one "):
                table.answers(text)


class IntegerCases(Cases):
    """Integers of all kinds."""

    def test_no_call_is_made_of_what_is_no_integer(self) -> None:
        table = self.open()
        for call in [*PLACES, *PLACES_OR_NONE]:
            with self.assertRaises(TypeError):
                call(table, "1")
        # The id is the number of the call, so none was made before.
        self.assertEqual(table.mk(), 1)

    def test_other_integers(self) -> None:
        table = self.open()
        one: Any = One()
        self.assertEqual([table.getpid(it) for it in (1, True, one)], [1, 1, 1])
        self.assertEqual([table.nspid(it, it) for it in (True, one)], [(1,), (1,)])
        # As an OSError tells the number that was meant.
        with self.assertRaisesRegex(OSError, "^.Errno 16. exit 1 1: root-init$"):
            table.exit(one, True)

    def test_a_bound_of_another_kind(self) -> None:
        bound: Any = type("Bound", (), {"__index__": lambda it: 301})()
        table = self.open(bound)
        self.assertEqual((table.pid_max, type(table.pid_max)), (301, int))


class LongCases(Cases):
    """A long bad line."""

    def test_it_is_cut(self) -> None:
        table = self.open()
        with self.assertRaises(ValueError) as raised:
            table.line("x" * 10_000_000)
        self.assertEqual(str(raised.exception), f"bad line: {'x' * 200}..")
        with self.assertRaises(ValueError) as raised:
            table.line("y" * 10_000_000 + "\n")
        self.assertEqual(str(raised.exception), f"more than one line: {'y' * 200 + '..'!r}")
        self.assertEqual(table.getpid(1), 1)


class ShownCases(Cases):
    """What a table shows of itself."""

    def test_open_and_closed(self) -> None:
        table = self.open(301)
        kind = type(table).__name__
        self.assertEqual(repr(table), f"<pidtab.{kind} pid_max=301, open>")
        table.close()
        self.assertEqual(repr(table), f"<pidtab.{kind} pid_max=301, closed>")

    def test_one_that_is_not_made(self) -> None:
        kind = type(self.open())
        self.assertEqual(repr(kind.__new__(kind)), f"<pidtab.{kind.__name__} pid_max=32768, closed>")


class Package(unittest.TestCase):
    """What the package has for those who write types, and for an earlier Python."""

    def test_names_for_types(self) -> None:
        self.assertEqual(get_args(pidtab.Kind), ("task", "group", "session"))
        self.assertEqual((pidtab.LEAST_PID_MAX, pidtab.DEFAULT_PID_MAX, pidtab.GREATEST_PID_MAX), (301, 32768, 4194304))
        self.assertLessEqual({"Kind", "LEAST_PID_MAX", "DEFAULT_PID_MAX", "GREATEST_PID_MAX"}, set(pidtab.__all__))

    def test_all_names_are_there(self) -> None:
        self.assertEqual([name for name in pidtab.__all__ if not hasattr(pidtab, name)], [])

    def test_an_earlier_python(self) -> None:
        # Another version by its name alone: what stands before the check is read by any.
        code = "import sys; sys.version_info = (3, 9, 18, 'final', 0)\ntry: import pidtab\nexcept ImportError as fault: print(fault)"
        done = subprocess.run([sys.executable, "-c", code], cwd=PACKAGE, capture_output=True, text=True, check=False)
        self.assertEqual((done.stdout, done.stderr), ("pidtab needs Python 3.10 or later, and this is Python 3.9\n", ""))

    def test_a_line_of_200_characters_is_told_whole(self) -> None:
        self.assertEqual(str(read_fault("x" * 200, "bad line")), f"bad line: {'x' * 200}")
        self.assertEqual(str(read_fault("x" * 201, "no memory")), f"{'x' * 200}..: no memory")


class TypesByProgram(TypeCases, ByProgram):
    pass


class TypesByLibrary(TypeCases, ByLibrary):
    pass


class TypesByStandIn(TypeCases, ByStandIn):
    pass


class IntegersByProgram(IntegerCases, ByProgram):
    pass


class IntegersByLibrary(IntegerCases, ByLibrary):
    pass


class LongByProgram(LongCases, ByProgram):
    pass


class LongByLibrary(LongCases, ByLibrary):
    pass


class ShownByProgram(ShownCases, ByProgram):
    pass


class ShownByLibrary(ShownCases, ByLibrary):
    pass


class ShownByStandIn(ShownCases, ByStandIn):
    pass


if __name__ == "__main__":
    unittest.main()
