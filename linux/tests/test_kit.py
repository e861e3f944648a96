"""The test kit of the Python package on real processes."""

import importlib.util
import unittest
from unittest import mock

from harness.known import DIFFERENCES
from harness.machine import Unable, look
from harness.world import World
from pidtab.faults import ProgramMissing
from pidtab.program import find_program


class Kit(unittest.TestCase):
    def setUp(self) -> None:
        if importlib.util.find_spec("hypothesis") is None:
            raise unittest.SkipTest("no Hypothesis")
        try:
            self.machine, self.program = look(), find_program()
        except (Unable, ProgramMissing) as reason:
            raise unittest.SkipTest(str(reason)) from reason

    def test_what_differs_is_listed(self) -> None:
        from harness.kit import compare_cases

        tally = compare_cases(self.machine, self.program, 25)
        self.assertGreater(tally.calls, 100)
        self.assertLessEqual(set(tally.declared), {known.name for known in DIFFERENCES})

    def test_a_difference_that_is_not_listed_is_shrunk(self) -> None:
        from harness.kit import compare_cases
        from pidtab.testing import Different

        # A kernel that says of each process that nobody is its parent.
        with mock.patch.object(World, "do_getppid", create=True, new=lambda world, call: "0"), self.assertRaises(Different) as found:
            compare_cases(self.machine, self.program, 60)
        self.assertEqual([line.split(" ")[0] for line in found.exception.lines], ["fork", "getppid"])
        self.assertEqual((found.exception.met.yours, found.exception.met.pidtab), ("0", "1"))

    def test_a_call_that_is_not_asked_is_none(self) -> None:
        from harness.kit import Kernel

        kernel = Kernel(self.machine)
        self.addCleanup(kernel.close)
        with self.assertRaises(NotImplementedError):
            kernel.answer("exit 1 0")
        self.assertEqual((kernel.answer("getpid 1"), kernel.world.stamp), ("1", 1))


if __name__ == "__main__":
    unittest.main()
