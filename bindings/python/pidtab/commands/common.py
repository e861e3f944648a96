"""What the programs beside `pidtab` have in common."""

import argparse
import io
import os
import sys
import time
from collections.abc import Callable
from contextlib import AbstractContextManager, nullcontext
from typing import BinaryIO

from pidtab.bounds import GREATEST_PID_MAX, LEAST_PID_MAX, check_pid_max, check_seconds

STANDARD_INPUT = "-"

STATUS_DONE = 0
STATUS_FAULT = 1
STATUS_USAGE = 2
STATUS_INTERRUPTED = 130

# What a terminal takes for an empty screen, and for an empty line.
CLEAR = "\x1b[H\x1b[2J"
CLEAR_LINE = "\r\x1b[K"

# After how many seconds a program says how far it has come, and how often.
SILENT, OFTEN = 1.0, 0.2


def parser_of(name: str, about: str) -> argparse.ArgumentParser:
    """Reads the words of a command line; wrong ones end the program with status 2. Its sentences begin with the name, `called`."""
    parser = argparse.ArgumentParser(prog=name, description=about, allow_abbrev=False)
    parser.set_defaults(called=name)
    return parser


def pid_max_of(word: str) -> int:
    """A `pid_max` of the command line."""
    try:
        return check_pid_max(int(word))
    except ValueError:
        raise argparse.ArgumentTypeError(f"a number from {LEAST_PID_MAX} to {GREATEST_PID_MAX}, not {word}") from None


def seconds_of(word: str) -> float:
    """A number of seconds of the command line."""
    try:
        return check_seconds("--every", float(word))
    except ValueError:
        raise argparse.ArgumentTypeError(f"a number of seconds above 0, not {word}") from None


def open_script(name: str) -> AbstractContextManager[BinaryIO]:
    """A file, or standard input, which stays open as it may be named twice."""
    if name == STANDARD_INPUT:
        return nullcontext(sys.stdin.buffer)
    return open(name, "rb")


class Progress:
    """Says at a terminal, on standard error, how far a long work has come; when it ends, the line is empty again."""

    def __init__(self) -> None:
        self._next = time.monotonic() + SILENT
        self._shown = False

    def __enter__(self) -> "Progress":
        return self

    def __exit__(self, *raised: object) -> None:
        self.clear()

    def say(self, text: str) -> None:
        """Says it, if it is time to."""
        now = time.monotonic()
        if now >= self._next and sys.stderr.isatty():
            print(CLEAR_LINE + text, end="", file=sys.stderr, flush=True)
            self._next, self._shown = now + OFTEN, True

    def clear(self) -> None:
        """Takes away what it has said."""
        if self._shown:
            print(CLEAR_LINE, end="", file=sys.stderr, flush=True)
            self._shown = False


def complain(text: str, status: int) -> int:
    """Says what went wrong, and answers the exit status."""
    print(text, file=sys.stderr)
    return status


def cannot_read(called: str, fault: OSError, name: str) -> int:
    """Says which file cannot be read, and answers the exit status. That nobody reads what is written is raised again, for `finish`."""
    if isinstance(fault, BrokenPipeError):
        raise fault
    return complain(f"{called}: cannot read {name}: {fault.strerror}", STATUS_USAGE)


def finish(run: Callable[[], int]) -> None:
    """Ends the program with the status of what it runs."""
    for stream in (sys.stdout, sys.stderr):
        # The name of a file may be any bytes.
        if isinstance(stream, io.TextIOWrapper):
            stream.reconfigure(errors="surrogateescape")
    try:
        status = run()
        sys.stdout.flush()
    except BrokenPipeError:
        # Who reads has seen enough; without this, Python would complain of it at its end.
        os.dup2(os.open(os.devnull, os.O_WRONLY), sys.stdout.fileno())
        status = STATUS_FAULT
    sys.exit(status)
