"""`pidtab-play`: plays scripts with comments and names, from files or at a prompt."""

import argparse
import signal
import sys
from collections.abc import Callable, Iterable, Iterator, Sequence
from contextlib import contextmanager

from pidtab.bounds import DEFAULT_PID_MAX
from pidtab.calls import Calls
from pidtab.commands.common import (
    STANDARD_INPUT,
    STATUS_DONE,
    STATUS_FAULT,
    STATUS_INTERRUPTED,
    STATUS_USAGE,
    cannot_read,
    complain,
    finish,
    open_script,
    parser_of,
)
from pidtab.commands.prompt import COMMANDS, begin
from pidtab.commands.serve import serve
from pidtab.commands.session import Mistake, Session, read_words
from pidtab.faults import LibraryFault, ProgramFault
from pidtab.language import FORMS, KINDS
from pidtab.listing import write_list
from pidtab.process import Process
from pidtab.table import Table
from pidtab.tree import draw_list

PROMPT = "pidtab> "
ABOUT = "Plays scripts, which may have comments, blank lines and names for numbers. Without a file, standard input; at a terminal with a prompt."

HELP = f"""\
Calls: {", ".join(FORMS)}.
{"; ".join(f"{letter} is {kind}" for letter, kind in KINDS.items())}.
Callers and tasks are root numbers, and other process numbers those of the caller's namespace.
`web = fork 1 new` gives a name: `$web` is the number that its place wants, and `$web.root` the root number. # begins a comment.
""" + "".join(f"{name}  {about}\n" for name, about in COMMANDS.items())


class Quit(Exception):
    """The line `quit`."""


def undo(session: Session) -> str:
    """Takes the last call back, and says which."""
    line = session.undo()
    return "no call to take back\n" if line is None else f"taken back: {line}\n"


def command_of(text: str) -> str | None:
    """The command of a line that makes no call."""
    words = read_words(text)
    if not words or words[0].text not in COMMANDS:
        return None
    if len(words) > 1:
        raise Mistake(words[1].column, "the end of the line")
    return words[0].text


def play_line(session: Session, text: str) -> str:
    """What a line writes. A bad line raises a Mistake, and `quit` a Quit."""
    command = command_of(text)
    if command == "quit":
        raise Quit
    if command == "help":
        return HELP
    if command == "undo":
        return undo(session)
    if command is not None:
        listing = session.table.list()
        return draw_list(listing.with_names(session.labels)) if command == "tree" else write_list(listing)
    reply = session.ask(text)
    if reply is None:
        return ""
    if reply.unset is not None:
        complain(f"no number for the name {reply.unset}: {reply.answer}", STATUS_DONE)
    return f"{reply.answer}\n"


def write(text: str) -> None:
    """Writes at once, as who drives this by a pipe waits for it."""
    sys.stdout.write(text)
    sys.stdout.flush()


def play_script(session: Session, name: str, lines: Iterable[bytes], given: argparse.Namespace) -> int:
    """Plays the lines of a script: the exit status."""
    status = STATUS_DONE
    for place, line in enumerate(lines, start=1):
        text = line.removesuffix(b"\n").decode("latin-1")
        if given.echo and text.strip():
            write(f"> {text.strip()}\n")
        try:
            write(play_line(session, text))
        except Mistake as mistake:
            write("bad line\n")
            status = complain(f"{name}:{place}:{mistake.column}: expected {mistake.expected}", STATUS_FAULT)
        if given.strict and status != STATUS_DONE:
            break
    return status


def play_files(session: Session, given: argparse.Namespace) -> int:
    """Plays the files one after the other on one table: the exit status."""
    status = STATUS_DONE
    for name in given.file or [STANDARD_INPUT]:
        try:
            with open_script(name) as script:
                status = max(status, play_script(session, name, script, given))
        except OSError as fault:
            return cannot_read(given.called, fault, name)
        except Quit:
            break
        if given.strict and status != STATUS_DONE:
            break
    return status


def play_prompt(session: Session) -> int:
    """Asks for lines until their end. An interrupt drops the line that is being written, and nothing else."""
    begin(session)
    while True:
        try:
            text = input(PROMPT if sys.stdout.isatty() else "")
            write(play_line(session, text.encode("utf-8", "surrogateescape").decode("latin-1")))
        except Mistake as mistake:
            write(f"bad line: {mistake}\n")
        except KeyboardInterrupt:
            session.lose()
            write("\n")
        except (ProgramFault, LibraryFault, MemoryError) as fault:
            session.lose()
            write(f"{fault}\n")
        except EOFError:
            write("\n")
            return STATUS_DONE
        except Quit:
            return STATUS_DONE


@contextmanager
def spared() -> Iterator[None]:
    """What is started here does not get the interrupts of the terminal, which are for the prompt."""
    before = signal.signal(signal.SIGINT, signal.SIG_IGN)
    try:
        yield
    finally:
        signal.signal(signal.SIGINT, before)


def opener(kind: type[Process] | type[Table], pid_max: int, place: str | None) -> Callable[[], Calls]:
    """Opens tables of a kind."""

    def open_table() -> Calls:
        with spared():
            return kind(pid_max, place)

    return open_table


def open_session(given: argparse.Namespace) -> Session:
    """A table by what was named, or else by the library, or else by the program."""
    if given.program is not None:
        return Session(opener(Process, given.pid_max, given.program))
    try:
        return Session(opener(Table, given.pid_max, given.library))
    except LibraryFault:
        if given.library is not None:
            raise
    return Session(opener(Process, given.pid_max, None))


def read_command_line(called: str, words: Sequence[str] | None) -> argparse.Namespace:
    """The words of the command line."""
    parser = parser_of(called, ABOUT)
    parser.add_argument("--strict", action="store_true", help="end at the first bad line of a script")
    parser.add_argument("--echo", action="store_true", help="write each line of a script before what it is answered")
    parser.add_argument("--pid-max", type=int, default=DEFAULT_PID_MAX, metavar="N", help="301 to 4194304, 32768 by default")
    ways = parser.add_mutually_exclusive_group()
    ways.add_argument("--program", metavar="PATH", help="have the table by this program")
    ways.add_argument("--library", metavar="PATH", help="have the table by this library")
    parser.add_argument("--serve", action="store_true", help="answer each line of standard input with one line, also `list`, `dump`, `stat` and `ask`")
    parser.add_argument("file", nargs="*", help="a script; - is standard input")
    given = parser.parse_args(words)
    if given.serve and (given.file or given.strict or given.echo or given.program):
        parser.error("--serve answers a program on standard input, by the library")
    return given


def run_server(given: argparse.Namespace) -> int:
    """Serves a table of its own: the exit status."""
    try:
        with Table(given.pid_max, given.library) as table:
            serve(table)
    except ValueError as fault:
        return complain(f"{given.called}: {fault}", STATUS_USAGE)
    except (LibraryFault, MemoryError) as fault:
        return complain(f"{given.called}: no table: {fault}", STATUS_USAGE)
    except KeyboardInterrupt:
        return STATUS_INTERRUPTED
    return STATUS_DONE


def run(called: str = "pidtab-play", words: Sequence[str] | None = None) -> int:
    """Plays what the command line names."""
    given = read_command_line(called, words)
    if given.serve:
        return run_server(given)
    try:
        session = open_session(given)
    except ValueError as fault:
        return complain(f"{given.called}: {fault}", STATUS_USAGE)
    except (ProgramFault, LibraryFault, MemoryError) as fault:
        return complain(f"{given.called}: no table: {fault}", STATUS_USAGE)
    try:
        if not given.file and sys.stdin.isatty():
            return play_prompt(session)
        return play_files(session, given)
    except KeyboardInterrupt:
        return STATUS_INTERRUPTED
    except (ProgramFault, LibraryFault, MemoryError) as fault:
        return complain(f"{given.called}: {fault}", STATUS_FAULT)
    finally:
        session.close()


def main() -> None:
    """The program `pidtab-play`."""
    finish(run)


if __name__ == "__main__":
    main()
