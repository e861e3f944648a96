"""The files of linux/differences: one listed difference each. linux/README.md tells their form."""

import re
from dataclasses import dataclass
from pathlib import Path

FOLDER = Path(__file__).resolve().parent.parent / "differences"
CHAPTERS = ("Falls", "Fork and its numbers", "Wait", "The rest")
# How a script is run that is not run as any other: where the kernel's fall never ends, and where the init leads nothing.
ENDLESS = "endless"
NO_SESSION = "no-session"
RUNS = ("", ENDLESS, NO_SESSION)
FIELDS = ("chapter", "place", "what", "seen", "pid-max", "run", "shows")
REPEATED = re.compile(r"([1-9][0-9]*) times (.*)")


class BadFile(ValueError):
    """A file that is not of the form."""


@dataclass(frozen=True)
class Step:
    """A line of a script with its answers; None for an answer that the file does not give. `times` more than 1 repeats it."""

    line: str
    times: int
    kernel: str | None
    table: str | None


@dataclass(frozen=True)
class Row:
    """A listed difference. `shows` is the name by which `known` tells it, mostly its own. `run` is one of RUNS, or says why it
    cannot be run."""

    name: str
    chapter: str
    place: int
    what: str
    seen: str
    pid_max: int | None
    run: str
    shows: str
    steps: tuple[Step, ...]

    @property
    def can_run(self) -> bool:
        """Whether the row is a script that processes can be asked."""
        return bool(self.steps) and self.run in RUNS

    def lines(self) -> list[str]:
        """The script's lines."""
        return [step.line for step in self.steps for _ in range(step.times)]

    def answers(self) -> list[tuple[str | None, str | None]]:
        """What the file says of both answers to each line; of a repeated line, to the last."""
        answers: list[tuple[str | None, str | None]] = []
        for step in self.steps:
            answers += [(None, None)] * (step.times - 1) + [(step.kernel, step.table)]
        return answers


def parse_step(text: str, where: str) -> Step:
    """A line `LINE`, `LINE => ANSWER` or `LINE => KERNEL | TABLE`, with `N times ` before it where it is repeated."""
    line, arrow, both = text.partition(" => ")
    kernel, bar, table = both.partition(" | ")
    if arrow and not kernel:
        raise BadFile(f"{where}: no answer behind =>: {text}")
    times = 1
    repeated = REPEATED.fullmatch(line)
    if repeated:
        times, line = int(repeated[1]), repeated[2]
    return Step(line, times, kernel or None, (table if bar else kernel) or None)


def parse_fields(head: str, where: str) -> dict[str, str]:
    """The fields before the script, `name: value` each; an indented line goes on with the one before."""
    fields: dict[str, str] = {}
    last = ""
    for line in head.splitlines():
        if line.startswith("  ") and last:
            fields[last] += " " + line.strip()
            continue
        last, colon, value = line.partition(": ")
        if not colon or last not in FIELDS or last in fields:
            raise BadFile(f"{where}: no field, or twice: {line}")
        fields[last] = value.strip()
    return fields


def parse_row(name: str, text: str) -> Row:
    """The row that a file's text is."""
    head, _, script = text.partition("script:\n")
    fields = parse_fields(head, name)
    missing = [field for field in ("chapter", "place", "what") if field not in fields]
    if missing:
        raise BadFile(f"{name}: no {', '.join(missing)}")
    if fields["chapter"] not in CHAPTERS:
        raise BadFile(f"{name}: no such chapter: {fields['chapter']}")
    steps = tuple(parse_step(line, name) for line in script.splitlines())
    if steps and "seen" not in fields:
        raise BadFile(f"{name}: a script without the kernel it was seen on")
    if steps and all(step.kernel == step.table for step in steps):
        raise BadFile(f"{name}: a script without a difference")
    pid_max = int(fields["pid-max"]) if "pid-max" in fields else None
    seen, run, shows = fields.get("seen", ""), fields.get("run", ""), fields.get("shows", name)
    return Row(name, fields["chapter"], int(fields["place"]), fields["what"], seen, pid_max, run, shows, steps)


def read_rows(folder: Path = FOLDER) -> list[Row]:
    """All rows, in the order of the page."""
    rows = [parse_row(path.stem, path.read_text(encoding="utf-8")) for path in folder.glob("*.row")]
    return sorted(rows, key=lambda row: (CHAPTERS.index(row.chapter), row.place, row.name))
