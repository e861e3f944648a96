"""One script by the program and by real processes, line by line."""

from collections import Counter
from collections.abc import Callable, Iterable, Iterator
from dataclasses import dataclass, field
from pathlib import Path

from harness.kernel_list import differing_lines, kernel_list
from harness.known import Known, Meeting, agree, explain
from harness.script import BadLine, Call, parse_line
from harness.sight import Sight, look_before
from harness.table import Table, list_lines
from harness.world import Settings, World, WorldFault

SAME = "same"
LISTED = "listed"
NEW = "new"
SKIPPED = "skipped"


@dataclass(frozen=True)
class Difference:
    """A line that was answered otherwise, with the name of the listed difference, or None."""

    at: int
    line: str
    kernel: str
    table: str
    known: Known | None

    def text(self) -> str:
        """The difference as a reader is told it."""
        name = self.known.name if self.known else "NEW"
        return f"line {self.at}: {self.line}\n  kernel {self.kernel}\n  table  {self.table}\n  {name}"


@dataclass
class Report:
    """What came of a script: its lines as they were run, all differences, how often cursors were set back, and why it was
    skipped or came to no end."""

    lines: list[str] = field(default_factory=list)
    differences: list[Difference] = field(default_factory=list)
    answers: list[tuple[str, str]] = field(default_factory=list)
    cursors_set_back: int = 0
    skipped: str = ""
    broke: str = ""
    refusals: Counter[str] = field(default_factory=Counter)

    @property
    def verdict(self) -> str:
        """`new` where one difference is not listed or the world broke, else `listed`, `skipped` or `same`."""
        if self.broke or any(difference.known is None for difference in self.differences):
            return NEW
        if self.skipped:
            return SKIPPED
        return LISTED if self.differences else SAME


# The table's words for a refused fork, and the difference that a cursor which the kernel has moved comes to.
MOVED_BY = {
    "EAGAIN pids-limit": "cursor-after-limit",
    "EAGAIN no-number": "cursor-after-outer-want",
    "ENOMEM space-fallen": "cursor-after-fallen",
}


def moved_spaces(world: World, caller: int, table: str) -> list[int]:
    """The namespaces whose cursors a refused fork of a caller moves: all that the child would have been in, except for want of a
    number only those inside of the one that has none, which draw first."""
    spaces = list(world.outwards(world.tasks[caller].children_space))
    words = table.split(" ")
    full = int(words[2]) if words[1] == "no-number" else None
    return spaces[: spaces.index(full)] if full in spaces else spaces


class Comparison:
    """A run of one script by both. Lines may come from anywhere, also from one who looks at the world before each."""

    def __init__(self, program: Path, settings: Settings, sets_back: bool) -> None:
        self.program = program
        self.pid_max = settings.pid_max or 32768
        self.sets_back = sets_back
        self.report = Report()
        self.moved: dict[str, set[int]] = {}
        self.world = World(settings)
        try:
            self.table = Table(program, self.pid_max)
        except BaseException:
            self.world.close()
            raise

    def close(self) -> None:
        """Ends both."""
        self.table.close()
        try:
            self.world.close()
        except WorldFault as fault:
            self.report.broke = self.report.broke or str(fault)

    def __enter__(self) -> "Comparison":
        return self

    def __exit__(self, *fault: object) -> None:
        self.close()

    def run(self, lines: Iterable[bytes]) -> Report:
        """Has both answer the lines, until the states part; then compares what they leave."""
        try:
            if all(self.step(line) for line in lines if line):
                self.compare_lists()
        except WorldFault as fault:
            self.report.broke = str(fault)
        return self.report

    def step(self, line: bytes) -> bool:
        """Has both answer one line, and tells whether to go on."""
        self.report.lines.append(line.decode("latin-1"))
        try:
            call = parse_line(line)
        except BadLine:
            call = None
        kernel, sight = "bad line", Sight()
        if call is not None:
            sight = look_before(self.world, call, self.moved)
            kernel = self.world.answer(call)
        if kernel == "n/a too-many-tasks":
            self.report.skipped = "too many tasks at once"
            return False
        table = self.table.answer(line)
        self.report.answers.append((kernel, table))
        if call is not None:
            self.note_refusal(call, kernel, table)
        if agree(kernel, table):
            return True
        known = explain(Meeting(call, kernel, table, sight)) if call is not None else None
        return self.note_difference(Difference(len(self.report.lines), self.report.lines[-1], kernel, table, known))

    def note_difference(self, difference: Difference) -> bool:
        """Keeps a difference, and tells whether the two states are the same after it."""
        self.report.differences.append(difference)
        return difference.known is not None and not difference.known.parts

    def note_refusal(self, call: Call, kernel: str, table: str) -> None:
        """Keeps which refusals came; after that of a fork, sets the kernel's cursors back or remembers that they moved."""
        if table[0] == "E":
            self.report.refusals[" ".join(table.split(" ")[:2])] += 1
        moved = next((name for words, name in MOVED_BY.items() if table.startswith(words)), None)
        if call.name != "fork" or moved is None or not kernel.startswith("E"):
            return
        if self.sets_back and self.world.set_cursors_back(call.numbers[0]):
            self.report.cursors_set_back += 1
        else:
            self.moved.setdefault(moved, set()).update(moved_spaces(self.world, call.numbers[0], table))

    def compare_lists(self) -> None:
        """Compares the table that the script leaves with what the kernel shows; nothing where a cause of differences is open."""
        if any(self.moved.values()) or self.world.open_causes():
            return
        script = "".join(line + "\n" for line in self.report.lines).encode("latin-1")
        wanted = list_lines(self.program, self.pid_max, script)
        for kernel, table in differing_lines(kernel_list(self.world), wanted):
            self.report.differences.append(Difference(len(self.report.lines) + 1, "(the list)", kernel, table, None))


def run_online(comparison: Comparison, choose: Callable[[World], str], count: int) -> Report:
    """Runs lines that are chosen one by one, each with a look at the world."""

    def lines() -> Iterator[bytes]:
        for _ in range(count):
            yield choose(comparison.world).encode()

    return comparison.run(lines())
