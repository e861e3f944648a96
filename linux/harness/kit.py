"""The test kit of the Python package on real processes: a difference that is not listed is shrunk to a short script."""

from collections.abc import Callable
from pathlib import Path

from harness.comparison import MOVED_BY
from harness.known import DIFFERENCES, Known, Meeting
from harness.machine import Machine
from harness.script import DEFAULT_PID_MAX, parse_line
from harness.sight import look_before
from harness.world import World
from pidtab.process import Process
from pidtab.testing import Met, Tally, compare

GROUP_CALLS = ("mk", "rm", "limit", "move", "count")


class Kernel:
    """A world that answers lines, as the kit takes one. It keeps what a listed difference looks at."""

    def __init__(self, machine: Machine) -> None:
        self.world = World(machine.settings(DEFAULT_PID_MAX, b""))
        self.moved: dict[str, set[int]] = {}
        self.meet: Callable[[str, str], Meeting]

    def answer(self, line: str) -> str:
        """The kernel's answer. NotImplementedError where it was not asked: then the table is not asked either."""
        call = parse_line(line.encode())
        assert call
        sight = look_before(self.world, call, self.moved)
        self.meet = lambda kernel, table: Meeting(call, kernel, table, sight)
        answer = self.world.answer(call)
        if answer.startswith("n/a "):
            # No call of either then.
            self.world.stamp -= 1
            raise NotImplementedError(answer)
        if call.name == "fork" and answer.startswith("E") and answer != "ESRCH no-caller":
            self.set_back(call.numbers[0])
        return answer

    def set_back(self, caller: int) -> None:
        """Sets the cursors back that a refused fork has moved, or remembers that they moved."""
        if not self.world.set_cursors_back(caller):
            spaces = set(self.world.outwards(self.world.tasks[caller].children_space))
            self.moved = {cause: self.moved.get(cause, set()) | spaces for cause in MOVED_BY.values()}

    def close(self) -> None:
        """Ends its processes."""
        self.world.close()


def compare_cases(machine: Machine, program: Path, cases: int) -> Tally:
    """Compares so many cases with the program. A difference that is not listed is a `Different`."""
    worlds: list[Kernel] = []

    def open_world() -> Kernel:
        worlds[:] = [Kernel(machine)]
        return worlds[0]

    def declare(known: Known) -> Callable[[Met], bool]:
        return lambda met: known.explains(worlds[0].meet(met.yours, met.pidtab))

    without = () if machine.place else GROUP_CALLS
    declared = {known.name: declare(known) for known in DIFFERENCES}
    return compare(open_world, open_table=lambda: Process(program=program), declared=declared, without=without, cases=cases)
