"""The calls that the lines of a script say. Which lines are good is told by the Python package's `pidtab.language`."""

import argparse
from dataclasses import dataclass

from pidtab.language import FORMS, KINDS, is_number, judge

DEFAULT_PID_MAX = 32768
LEAST_PID_MAX = 301
GREATEST_PID_MAX = 4194304

# The words of the forms that choose one among those of a command.
CHOICES = {word for form in FORMS for word in form.split(" ")[1:] if word not in KINDS}


class BadLine(ValueError):
    """A line that is neither empty nor a call."""


@dataclass(frozen=True)
class Call:
    """A call: its line, its command's word, its numbers in order, and the word that chooses a form ("" for none)."""

    line: str
    name: str
    numbers: tuple[int, ...]
    form: str

    @property
    def caller(self) -> int | None:
        """The caller's root number, for the calls that have one."""
        return None if self.name in ("mk", "rm", "limit", "move", "count") else self.numbers[0]


def parse_line(line: bytes) -> Call | None:
    """The call of a line without its newline; None for an empty line, BadLine for any other."""
    if not line:
        return None
    fault = judge(line)
    if fault is not None:
        raise BadLine(f"column {fault.column}: {fault.expected}")
    text = line.decode("ascii")
    name, *words = text.split(" ")
    numbers = tuple(int(word) for word in words if word not in CHOICES)
    return Call(text, name, numbers, next((word for word in words if word in CHOICES), ""))


def split_lines(script: bytes) -> list[bytes]:
    """The lines of a script; bytes after the last newline are one too."""
    lines = script.split(b"\n")
    return lines[:-1] if lines[-1] == b"" else lines


def count_forks(script: bytes) -> int:
    """How many lines of a script ask for a fork: no number in it is greater by more than one."""
    return sum(line.startswith(b"fork ") for line in split_lines(script))


def pid_max_of(word: str) -> int:
    """A word of the command line that is a pid_max which the program takes."""
    if not is_number(word.encode(), KINDS["N"]) or not LEAST_PID_MAX <= int(word) <= GREATEST_PID_MAX:
        raise argparse.ArgumentTypeError(f"a number from {LEAST_PID_MAX} to {GREATEST_PID_MAX}")
    return int(word)
