"""`pidtab-tree`: draws the text of `pidtab list` as trees."""

import argparse
import gc
import re
import sys
from collections.abc import Iterator, Mapping, Sequence

from pidtab.commands.common import (
    CLEAR,
    STANDARD_INPUT,
    STATUS_DONE,
    STATUS_FAULT,
    STATUS_USAGE,
    cannot_read,
    complain,
    finish,
    open_script,
    parser_of,
    seconds_of,
)
from pidtab.commands.service import Service
from pidtab.listing import BadList, Listing, read_list
from pidtab.tree import ASCII, INDENTED, Wishes, draw_trees, read_trees

ABOUT = "Reads what `pidtab list` writes, in a file or on standard input, and draws its processes, namespaces and control groups as trees."
COMMENT = "#"


class BadLabels(ValueError):
    """A file of labels with a line that is none."""


def read_labels(name: str) -> dict[str, str]:
    """The labels of a file by root numbers; the last one holds."""
    labels = {}
    with open(name, encoding="utf-8", errors="surrogateescape") as file:
        for place, line in enumerate(file, start=1):
            number, _, label = line.strip().partition(" ")
            if not number or number.startswith(COMMENT):
                continue
            if not re.fullmatch("[1-9][0-9]*", number) or not label:
                raise BadLabels(f"{name}:{place}: expected a root number and its label")
            labels[number] = " ".join(label.split())
    return labels


def at_least_one(word: str) -> int:
    """A number of the command line."""
    if not re.fullmatch("[1-9][0-9]{0,9}", word):
        raise argparse.ArgumentTypeError(f"a number from 1 on, not {word}")
    return int(word)


def read_command_line(called: str, words: Sequence[str] | None) -> argparse.Namespace:
    """The words of the command line."""
    parser = parser_of(called, ABOUT)
    parser.add_argument("--root", type=at_least_one, metavar="NUMBER", help="only the task with this root number, and what is below it")
    parser.add_argument("--depth", type=at_least_one, metavar="N", help="only so many levels of each tree, and how many are below")
    parser.add_argument("--ascii", action="store_true", help="with lines of ASCII characters for branches")
    parser.add_argument("--counts", action="store_true", help="with the tasks and the zombies of each namespace")
    parser.add_argument("--labels", metavar="FILE", help="with labels of tasks, from lines NUMBER WORD ..")
    parser.add_argument("--socket", metavar="PATH", help="the table of the service there, in the place of standard input")
    parser.add_argument("--follow", action="store_true", help="draw the table of the service anew when it has changed, until an interrupt")
    parser.add_argument("--every", type=seconds_of, default=1.0, metavar="SECONDS", help="how long a drawing stays at least, 1 by default")
    parser.add_argument("--json", action="store_true", help="write JSON in the place of a drawing")
    parser.add_argument("--diff", nargs=2, metavar=("BEFORE", "NOW"), help="write what has changed between the lists of two files; - is standard input")
    parser.add_argument("file", nargs="?", help="the file of a list; standard input, or -, by default")
    given = parser.parse_args(words)
    if given.counts and given.root is not None:
        parser.error("--counts is of namespaces, which --root leaves out")
    if (given.json or given.diff) and (given.root or given.depth or given.ascii or given.counts):
        parser.error("--json and --diff draw no tree")
    if given.diff and given.labels:
        parser.error("--diff has no labels")
    if given.diff and given.socket:
        parser.error("--diff is of two files, and --socket of none")
    if given.file and (given.socket or given.diff):
        parser.error("a FILE is one list, in the place of --socket and --diff")
    if given.follow and not given.socket:
        parser.error("--follow is of a service: --socket names it")
    return given


def read_texts(given: argparse.Namespace) -> Iterator[str]:
    """The lists that are to be drawn: that of standard input, or of a service, where there may be more to come."""
    if given.socket is None:
        with open_script(given.file or STANDARD_INPUT) as script:
            yield script.read().decode("latin-1")
        return
    with Service(given.socket) as service:
        if given.follow:
            yield from service.each_list(given.every)
        else:
            yield service.list_text()


def read_file(name: str) -> Listing:
    """The list of a file, which says its name where it is none."""
    try:
        with open_script(name) as file:
            return read_list(file.read().decode("latin-1"))
    except BadList as fault:
        raise BadList(f"{name}: {fault}") from None


def drawn(text: str, labels: Mapping[str, str], given: argparse.Namespace) -> list[str]:
    """The lines of a list, as they are asked for."""
    if given.json:
        named = read_list(text).with_names({int(root): label for root, label in labels.items()})
        return [f"{named.to_json()}\n"]
    wishes = Wishes(ASCII if given.ascii else INDENTED, given.depth, given.root, given.counts, labels)
    return draw_trees(read_trees(text), wishes)


def written(given: argparse.Namespace) -> Iterator[list[str]]:
    """The lines that are asked for, of one list after the other."""
    if given.diff:
        changes = read_file(given.diff[1]) - read_file(given.diff[0])
        yield [f"{changes.to_json()}\n" if given.json else str(changes)]
        return
    labels = read_labels(given.labels) if given.labels else {}
    # A terminal is cleared; elsewhere drawings have an empty line between them, and lines of JSON have none.
    before = CLEAR if given.follow and sys.stdout.isatty() else ""
    for text in read_texts(given):
        yield [before, *drawn(text, labels, given)]
        before = before or "\n" * (not given.json)


def run(called: str = "pidtab-tree", words: Sequence[str] | None = None) -> int:
    """Draws standard input, or the table of a service."""
    given = read_command_line(called, words)
    if not given.follow:
        # All that is made here is kept to the end.
        gc.disable()
    try:
        for lines in written(given):
            # By lines, as Python without buffers loses what one long write leaves over.
            sys.stdout.writelines(lines)
            sys.stdout.flush()
    except KeyboardInterrupt:
        if not given.follow:
            raise
    except OSError as fault:
        return cannot_read(given.called, fault, fault.filename)
    except BadLabels as fault:
        return complain(f"{given.called}: {fault}", STATUS_USAGE)
    except BadList as fault:
        return complain(f"{given.called}: {fault}", STATUS_FAULT)
    return STATUS_DONE


def main() -> None:
    """The program `pidtab-tree`."""
    finish(run)


if __name__ == "__main__":
    main()
