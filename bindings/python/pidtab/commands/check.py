"""`pidtab-check`: says which lines of scripts are bad, and what was expected, as a compiler does."""

import json
import subprocess
import sys
from collections.abc import Iterable, Iterator, Sequence
from contextlib import suppress
from itertools import islice
from typing import NamedTuple

from pidtab.bounds import LEAST_PID_MAX
from pidtab.commands.common import STANDARD_INPUT, STATUS_DONE, STATUS_FAULT, Progress, cannot_read, finish, open_script, parser_of
from pidtab.faults import ProgramMissing
from pidtab.language import Fault, judge
from pidtab.program import find_program

ABOUT = "Says for each bad line of the scripts FILE:LINE:COLUMN and what was expected. Status 1 where there is one."

# So many lines are handed to the program at once.
BLOCK = 100_000

BAD = b"bad line"

# The program may be of another release than this package.
UNKNOWN = Fault(1, "a line that the program takes")


class Found(NamedTuple):
    """A bad line: the name of its script, its place in that, counted from 1, and what is wrong with it."""

    name: str
    place: int
    fault: Fault

    def __str__(self) -> str:
        return f"{self.name}:{self.place}:{self.fault.column}: expected {self.fault.expected}"

    def to_json(self) -> str:
        """The same as JSON in one line."""
        return json.dumps({"file": self.name, "line": self.place, "column": self.fault.column, "expected": self.fault.expected}, separators=(",", ":"))


def answers_of(lines: Sequence[bytes]) -> list[bytes] | None:
    """What the program answers to each line that is not empty; None without a program that answers them all."""
    with suppress(ProgramMissing, OSError):
        # Which lines are bad is the same in each table, and a small one is quick.
        words = [str(find_program()), "run", "--pid-max", str(LEAST_PID_MAX)]
        answers = subprocess.run(words, input=b"".join(lines), capture_output=True, check=False).stdout.split(b"\n")[:-1]
        if len(answers) == len(lines) - lines.count(b"\n"):
            return answers
    return None


def judge_block(lines: Sequence[bytes]) -> Iterator[tuple[int, Fault | None]]:
    """The places of lines that may be bad, counted from 0, and what is wrong with them: by the program, and of all lines where there is none."""
    answers = answers_of(lines)
    if answers is None:
        yield from ((place, judge(line.removesuffix(b"\n"))) for place, line in enumerate(lines))
    elif BAD in answers:
        asked = (place for place, line in enumerate(lines) if line != b"\n")
        bad = (place for place, answer in zip(asked, answers) if answer == BAD)
        yield from ((place, judge(lines[place].removesuffix(b"\n")) or UNKNOWN) for place in bad)


def find_bad(name: str, lines: Iterable[bytes], progress: Progress | None = None) -> Iterator[Found]:
    """The bad lines of a script."""
    left, before = iter(lines), 0
    while block := list(islice(left, BLOCK)):
        for place, fault in judge_block(block):
            if progress:
                progress.say(f"{name}: line {before + place + 1}")
            if fault is not None:
                yield Found(name, before + place + 1, fault)
        before += len(block)
        if progress:
            progress.say(f"{name}: line {before}")


def check(name: str, as_json: bool) -> int:
    """Says what is bad in a script: the exit status."""
    status, at_terminal = STATUS_DONE, sys.stdout.isatty()
    with open_script(name) as script, Progress() as progress:
        for found in find_bad(name, script, progress):
            if at_terminal:
                # Both may be one terminal.
                progress.clear()
            print(found.to_json() if as_json else found)
            status = STATUS_FAULT
    return status


def run(called: str = "pidtab-check", words: Sequence[str] | None = None) -> int:
    """Judges the files of the command line, or standard input."""
    parser = parser_of(called, ABOUT)
    parser.add_argument("--json", action="store_true", help="write a line of JSON for each bad line")
    parser.add_argument("file", nargs="*", default=[STANDARD_INPUT], help="a script; - is standard input")
    given = parser.parse_args(words)
    status = STATUS_DONE
    for name in given.file:
        try:
            status = max(status, check(name, given.json))
        except OSError as fault:
            return cannot_read(called, fault, name)
    return status


def main() -> None:
    """The program `pidtab-check`."""
    finish(run)


if __name__ == "__main__":
    main()
