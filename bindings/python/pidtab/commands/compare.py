"""`pidtab-compare`: compares a command that speaks the script language with a table of pidtab."""

import argparse
import re
from collections.abc import Sequence

from pidtab.commands.common import STATUS_DONE, STATUS_FAULT, STATUS_INTERRUPTED, STATUS_USAGE, complain, finish, parser_of
from pidtab.faults import LibraryFault, ProgramFault
from pidtab.forms import ALL_FORMS

ABOUT = """Starts COMMAND again and again, asks it and a table of pidtab the same lines of the script language, and looks for an answer that
differs. What it finds is shrunk to a short script. Status 1 where there is one."""
COMMENT = "#"


def count_of(word: str) -> int:
    """A number of the command line."""
    if not re.fullmatch("[1-9][0-9]{0,8}", word):
        raise argparse.ArgumentTypeError(f"a number from 1 on, not {word}")
    return int(word)


def names_of(word: str) -> list[str]:
    """The names of calls, between commas."""
    names = [name.strip() for name in word.split(",")]
    known = {*ALL_FORMS, *(form.command for form in ALL_FORMS.values())}
    unknown = next((name for name in names if name not in known), None)
    if unknown is not None:
        raise argparse.ArgumentTypeError(f"no call {unknown!r}: the calls are {', '.join(ALL_FORMS)}")
    return names


def read_declared(name: str) -> dict[str, str]:
    """The declared differences of a file, by their names."""
    declared = {}
    with open(name, encoding="utf-8") as file:
        for place, line in enumerate(file, start=1):
            if not line.strip() or line.startswith(COMMENT):
                continue
            word, colon, pattern = line.strip().partition(": ")
            if not colon or not word:
                raise ValueError(f"{name}:{place}: expected NAME: LINE => YOURS | PIDTAB")
            declared[word] = pattern.strip()
    return declared


def add_wishes(parser: argparse.ArgumentParser) -> None:
    """The options for what is compared, and how often."""
    parser.add_argument("--calls", type=names_of, default=[], metavar="NAME,..", help="only these calls, as fork,exit,'wait any'")
    parser.add_argument("--without", type=names_of, default=[], metavar="NAME,..", help="all calls except these")
    parser.add_argument("--cases", type=count_of, default=300, metavar="N", help="how many cases are tried, 300 by default")
    parser.add_argument("--steps", type=count_of, default=40, metavar="N", help="at most so many calls in a case, 40 by default")
    parser.add_argument("--declared", metavar="FILE", help="differences that are none, one a line: NAME: LINE => YOURS | PIDTAB")


def read_command_line(called: str, words: Sequence[str] | None) -> argparse.Namespace:
    """The words of the command line."""
    parser = parser_of(called, ABOUT)
    add_wishes(parser)
    parser.add_argument("--seed", type=count_of, metavar="N", help="the same cases in each run")
    parser.add_argument("--list", default="", metavar="COMMAND", help="a command that reads a script and writes the list, which is compared too")
    parser.add_argument("--save", metavar="FILE", help="write the script that is found there, for pidtab run")
    parser.add_argument("command", nargs=argparse.REMAINDER, metavar="COMMAND", help="the command with its words")
    given = parser.parse_args(words)
    # What ends the options, which is left among the rest.
    given.command = given.command[given.command[:1] == ["--"] :]
    if not given.command:
        parser.error("no COMMAND")
    return given


def compare(given: argparse.Namespace) -> int:
    """Compares, and says what was found."""
    # Here, so that the words of the command line are read without Hypothesis too.
    from pidtab import testing

    declared = read_declared(given.declared) if given.declared else {}
    wishes = {"calls": given.calls, "without": given.without, "declared": declared, "list_command": given.list}
    try:
        tally = testing.compare(given.command, save=given.save, cases=given.cases, steps=given.steps, begin_at=given.seed, **wishes)
    except (testing.Different, testing.Unsteady) as found:
        print(found)
        return STATUS_FAULT
    print(f"{tally.cases} cases, {tally.calls} calls: no difference")
    if tally.not_compared:
        print(f"not compared: {', '.join(tally.not_compared)}")
    for name, times in sorted(tally.declared.items()):
        print(f"declared {name}: {times} times")
    return STATUS_DONE


def run(called: str = "pidtab-compare", words: Sequence[str] | None = None) -> int:
    """Compares what the command line names."""
    given = read_command_line(called, words)
    try:
        return compare(given)
    except KeyboardInterrupt:
        return STATUS_INTERRUPTED
    except OSError as fault:
        return complain(f"{given.called}: {fault.filename}: {fault.strerror}", STATUS_USAGE)
    except (ImportError, ValueError, ProgramFault, LibraryFault) as fault:
        return complain(f"{given.called}: {fault}", STATUS_USAGE)


def main() -> None:
    """The program `pidtab-compare`."""
    finish(run)


if __name__ == "__main__":
    main()
