"""`run`, `list` and `work` of `pidtabctl`: they start the program `pidtab` on scripts."""

import argparse
import os
import shutil
import signal
import subprocess
from collections.abc import Sequence
from contextlib import ExitStack, suppress
from io import BytesIO
from typing import BinaryIO, NoReturn

from pidtab.commands.check import Found, find_bad
from pidtab.commands.common import STANDARD_INPUT, STATUS_FAULT, STATUS_INTERRUPTED, STATUS_USAGE, cannot_read, complain, open_script, parser_of, pid_max_of
from pidtab.faults import ProgramMissing
from pidtab.listing import read_list
from pidtab.program import find_program

RUN = "Writes an answer for each line of the scripts, which are played one after the other on one table."
LIST = "Writes the table that the scripts leave, which are played one after the other."
WORK = "Plays 2 to 16 scripts at once on one table, each by a thread of its own, and writes their answers and the list."
LEAST_WORKERS, GREATEST_WORKERS = 2, 16

# How the shell has a status of a program that a signal ended.
SIGNALLED = 128


def program_words(given: argparse.Namespace, command: str) -> list[str]:
    """The program with its command and its option."""
    return [str(find_program()), command, *([] if given.pid_max is None else ["--pid-max", str(given.pid_max)])]


def become(words: list[str]) -> NoReturn:
    """Is the program from here on, with standard input as it is."""
    # Python ignores these, and who starts a program expects what they do by default.
    for number in (signal.SIGPIPE, signal.SIGXFSZ):
        signal.signal(number, signal.SIG_DFL)
    try:
        os.execv(words[0], words)
    except OSError as fault:
        raise ProgramMissing(f"cannot start {words[0]}: {fault.strerror}") from fault


def cut(names: Sequence[str], scripts: Sequence[BinaryIO]) -> tuple[bytes, Found | None]:
    """What stands in the scripts before their first bad line, and that line."""
    kept: list[bytes] = []
    for name, script in zip(names, scripts):
        lines = script.readlines()
        found = next(find_bad(name, lines), None)
        kept += [*(lines if found is None else lines[: found.place - 1]), b"\n"]
        if found is not None:
            return b"".join(kept), found
    return b"".join(kept), None


def feed(child: "subprocess.Popen[bytes]", scripts: Sequence[BinaryIO]) -> None:
    """Hands the scripts on, each with an end of its last line. A program that has ended reads no more."""
    assert child.stdin
    with suppress(BrokenPipeError), child.stdin:
        for script in scripts:
            shutil.copyfileobj(script, child.stdin)
            child.stdin.write(b"\n")


def play(words: Sequence[str], scripts: Sequence[BinaryIO], as_json: bool) -> int:
    """Starts the program on the scripts: its status. A list is written as JSON, if that is asked for."""
    try:
        begun = subprocess.Popen(words, stdin=subprocess.PIPE, stdout=subprocess.PIPE if as_json else None)
    except OSError as fault:
        raise ProgramMissing(f"cannot start {words[0]}: {fault.strerror}") from fault
    with begun as child:
        try:
            feed(child, scripts)
            # The program writes a list once it has read all.
            text = child.stdout.read().decode("latin-1") if child.stdout else ""
        except BaseException:
            child.kill()
            raise
    if as_json and child.returncode == 0:
        print(read_list(text).to_json())
    return child.returncode if child.returncode >= 0 else SIGNALLED - child.returncode


def play_strictly(words: Sequence[str], given: argparse.Namespace, scripts: Sequence[BinaryIO]) -> int:
    """Plays the lines before the first bad one, which it names. Of scripts with one, no list is written."""
    script, found = cut(given.file, scripts)
    if found is None or words[1] == "run":
        status = play(words, [BytesIO(script)], given.json)
        if found is None or status != 0:
            return status
    return complain(str(found), STATUS_FAULT)


def read_command_line(called: str, command: str, words: Sequence[str]) -> argparse.Namespace:
    """The words of the command line of `run` or `list`."""
    parser = parser_of(called, RUN if command == "run" else LIST)
    parser.add_argument("--pid-max", type=pid_max_of, metavar="N", help="301 to 4194304, 32768 by default")
    parser.add_argument("--strict", action="store_true", help="read all first, and end at the first bad line, with status 1 and the reason")
    parser.set_defaults(json=False)
    if command == "list":
        parser.add_argument("--json", action="store_true", help="write the list as JSON in one line")
    parser.add_argument("file", nargs="*", default=[STANDARD_INPUT], help="a script; - is standard input")
    return parser.parse_args(words)


def run(command: str, called: str, words: Sequence[str]) -> int:
    """Starts `pidtab run` or `pidtab list` on the files of the command line, or on standard input."""
    given = read_command_line(called, command, words)
    try:
        started = program_words(given, command)
        if given.file == [STANDARD_INPUT] and not given.strict and not given.json:
            become(started)
        with ExitStack() as opened:
            # All are opened before the first is played.
            scripts = [opened.enter_context(open_script(name)) for name in given.file]
            status = play_strictly(started, given, scripts) if given.strict else play(started, scripts, given.json)
        return status
    except KeyboardInterrupt:
        return STATUS_INTERRUPTED
    except OSError as fault:
        return cannot_read(called, fault, fault.filename or STANDARD_INPUT)
    except ProgramMissing as fault:
        return complain(f"{called}: {fault}", STATUS_USAGE)


def work(called: str, words: Sequence[str]) -> int:
    """Starts `pidtab work` on the files of the command line."""
    parser = parser_of(called, WORK)
    parser.add_argument("--pid-max", type=pid_max_of, metavar="N", help="301 to 4194304, 32768 by default")
    parser.add_argument("file", nargs="+", help="a script of one worker")
    given = parser.parse_args(words)
    if not LEAST_WORKERS <= len(given.file) <= GREATEST_WORKERS:
        parser.error(f"{LEAST_WORKERS} to {GREATEST_WORKERS} files, one for each worker, not {len(given.file)}")
    try:
        become([*program_words(given, "work"), "--", *given.file])
    except ProgramMissing as fault:
        return complain(f"{called}: {fault}", STATUS_USAGE)
