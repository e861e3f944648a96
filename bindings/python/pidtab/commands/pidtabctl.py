"""`pidtabctl`: one command for the program `pidtab` and for what stands beside it."""

import difflib
import sys
from collections.abc import Callable, Sequence
from importlib import import_module
from typing import NamedTuple

from pidtab import __version__
from pidtab.commands import start
from pidtab.commands.common import STATUS_DONE, STATUS_USAGE, complain, finish, parser_of
from pidtab.commands.completion import SHELLS, complete
from pidtab.faults import ProgramMissing
from pidtab.hosts.log_entries import MODEL
from pidtab.program import find_program
from pidtab.raw import VERSION

DIFF = "Compares two lists, as `pidtab list` writes them, and writes a line for each difference."
COMPLETION = "Writes what completes the words of pidtabctl in a shell."
HELP_FLAGS = ("-h", "--help")


class Command(NamedTuple):
    """A command: what it does, in one line, and what does it, with what it is called and the words after it."""

    about: str
    run: Callable[[str, Sequence[str]], int]


def beside(module: str) -> Callable[[str, Sequence[str]], int]:
    """A program of this package, which is loaded once it is asked for."""

    def run(called: str, words: Sequence[str]) -> int:
        return int(import_module(f"pidtab.commands.{module}").run(called, words))

    return run


def started(command: str) -> Callable[[str, Sequence[str]], int]:
    """A command of the program `pidtab` that reads scripts."""

    def run(called: str, words: Sequence[str]) -> int:
        return start.run(command, called, words)

    return run


def diff(called: str, words: Sequence[str]) -> int:
    """`pidtab-tree --diff` by another name."""
    parser = parser_of(called, DIFF)
    parser.add_argument("--json", action="store_true", help="write the differences as JSON in one line")
    parser.add_argument("before", help="the file of a list; - is standard input")
    parser.add_argument("now", help="the file of a later one")
    given = parser.parse_args(words)
    return beside("tree")(called, ["--diff", given.before, given.now, *(["--json"] if given.json else [])])


def say_completion(called: str, words: Sequence[str]) -> int:
    """Writes the completion for a shell."""
    parser = parser_of(called, COMPLETION)
    parser.add_argument("shell", choices=SHELLS)
    shell = parser.parse_args(words).shell
    print(complete(shell, {word: command.about for word, command in COMMANDS.items()}), end="")
    return STATUS_DONE


def say_help(called: str, words: Sequence[str]) -> int:
    """Says what a command takes, or which commands there are."""
    if not words or words[0] in HELP_FLAGS:
        print(HELP, end="")
        return STATUS_DONE
    if len(words) > 1:
        return complain(f"{called}: one command, not {len(words)}", STATUS_USAGE)
    return run([words[0], HELP_FLAGS[-1]])


COMMANDS = {
    "run": Command("answers scripts, by the program pidtab", started("run")),
    "list": Command("writes the table that scripts leave", started("list")),
    "work": Command("plays scripts at once on one table", start.work),
    "check": Command("says which lines of scripts are bad, and why", beside("check")),
    "tree": Command("draws a list", beside("tree")),
    "play": Command("plays scripts with comments and names, or asks for lines", beside("play")),
    "top": Command("shows a saved history, or the table of a service", beside("top")),
    "diff": Command("compares two lists", diff),
    "replay": Command("plays the log of a table on many hosts", beside("replay")),
    "compare": Command("compares a command of yours with a table", beside("compare")),
    "conform": Command("says which calls of a command or a class agree with a table", beside("conform")),
    "keep": Command("writes snapshots of a table on many hosts", beside("keep")),
    "whatif": Command("plays a log again under other bounds", beside("whatif")),
    "completion": Command("completes these words in bash, zsh or fish", say_completion),
    "help": Command("says what a command takes", say_help),
}

USAGE = """\
usage: pidtabctl COMMAND [WORD ..]
       pidtabctl help COMMAND
       pidtabctl --version
"""
HELP = USAGE + "\ncommands:\n" + "".join(f"  {word:<12}{command.about}\n" for word, command in COMMANDS.items())


def say_version() -> str:
    """The version, the interface and the model, and which program is started."""
    try:
        program = f"program {find_program()}"
    except ProgramMissing as fault:
        program = str(fault)
    return f"pidtabctl {__version__} (interface {VERSION}, model {MODEL})\n{program}\n"


def say_unknown(word: str) -> str:
    """What to say of a word that is no command."""
    near = difflib.get_close_matches(word, [*COMMANDS, "--help", "--version"], 1)
    return f'pidtabctl: no command "{word}": ' + (f"did you mean {near[0]}?" if near else f"the commands are {', '.join(COMMANDS)}")


def run(words: Sequence[str] | None = None) -> int:
    """Does what the command line says."""
    if not (words := sys.argv[1:] if words is None else words):
        return complain(USAGE.rstrip("\n"), STATUS_USAGE)
    first, *rest = words
    if first in HELP_FLAGS or first == "--version":
        print(HELP if first in HELP_FLAGS else say_version(), end="")
        return STATUS_DONE
    if first not in COMMANDS:
        return complain(say_unknown(first), STATUS_USAGE)
    return COMMANDS[first].run(f"pidtabctl {first}", rest)


def main() -> None:
    """The program `pidtabctl`."""
    finish(run)


if __name__ == "__main__":
    main()
