"""`pidtabctl whatif`: plays a log of calls again under other bounds, and says which calls would be refused."""

import argparse
import itertools
import json
from collections.abc import Iterator, Sequence
from typing import Any, NamedTuple

from pidtab.bounds import DEFAULT_PID_MAX, check_range
from pidtab.commands.common import STANDARD_INPUT, STATUS_DONE, STATUS_FAULT, STATUS_USAGE, Progress, cannot_read, complain, open_script, parser_of, pid_max_of
from pidtab.commands.history_stream import follow_file
from pidtab.faults import BadHistory, LibraryFault, Refusal
from pidtab.language import FORMS, fits
from pidtab.native import GREATEST_ID, GREATEST_PID, ROOT_INIT
from pidtab.process import NOT_MADE
from pidtab.table import Table

ABOUT = """Plays a log again under each of the bounds, and says how many forks would be refused, and which first. A log is a script of calls, as
the box writes it, or the file of a saved history."""

# The bytes that a saved history begins with, and no script.
SAVED = b"\x89pidtab\n"

GREATEST_LIMIT = 4194304

# The refusals of a fork that has met a bound.
BOUNDED = ("pids-limit", "no-number")

FORM_WORDS = [form.split(" ") for form in FORMS]


class Logged(NamedTuple):
    """A call of a log: its line in the script, or its ordinal in the history; and the answer that it had, if that was recorded."""

    place: int
    line: str
    answer: str | None


class Log(NamedTuple):
    """A log: what its places are, the table that it begins with, and its calls."""

    places: str
    table: Table
    calls: Iterator[Logged]


class Bound(NamedTuple):
    """What is other than it was: the limit of the control group, and `pid_max`; None for as it was."""

    pids_max: int | None
    pid_max: int | None

    def __str__(self) -> str:
        said = [f"{name} {it}" for name, it in (("pids.max", self.pids_max), ("pid_max", self.pid_max)) if it is not None]
        return ", ".join(said) or "as it was"


class NotForked(Exception):
    """A line of a task, or on one, that was not forked here."""


def form_of(words: Sequence[str]) -> list[str]:
    """The words of the form of a line, with letters for numbers; none for a bad line."""
    named = (form for form in FORM_WORDS if form[0] == words[0] and len(form) == len(words))
    return next((form for form in named if all(fits(word.encode("utf-8", "surrogateescape"), letter) for word, letter in zip(words, form))), [])


class World:
    """A table under a bound, what has come of the calls on it, and which of its tasks and control groups are those of the log."""

    def __init__(self, bound: Bound, control: int, table: Table) -> None:
        self.bound, self.control, self.table = bound, control, table
        self.peak = self.refused = self.not_made = 0
        self.first: tuple[Logged, str] | None = None
        self._roots: dict[int, int | None] = {ROOT_INIT: ROOT_INIT}
        self._controls = {0: 0}
        self._differs = False
        if bound.pids_max is not None and control == 0:
            # The root has no limit: so all is below a group that has one.
            self._controls[0] = table.mk(0)
            self._set_limit()
            table.move(ROOT_INIT, self._controls[0])
        self._rise()

    def translate(self, line: str, log: Table) -> str | None:
        """The same line on this table, while the call is still to be made on that of the log; None where it is of a task that is not here."""
        words = line.split(" ")
        form = form_of(words)
        # A bad line stays one, and what is refused for the root is refused here too.
        if not form or words[:2] in (["limit", "0"], ["rm", "0"]):
            return line
        try:
            return " ".join(self._word(word, letter, words, log) for word, letter in zip(words, form))
        except NotForked:
            return None

    def make(self, call: Logged, line: str | None, answer: str) -> None:
        """Makes a call that the log's table has answered so, and counts."""
        if self._sets_bound(call.line):
            return
        here = None if line is None else self.table.answers([line])[0]
        self.note(answer, here)
        if here is None:
            self.not_made += 1
        else:
            self.count(call, here)

    def count(self, call: Logged, answer: str) -> None:
        """Counts a call that was made here, and had this answer."""
        error, *word = answer.split(" ")[:2]
        if error == "EAGAIN" and word[0] in BOUNDED:
            self.refused += 1
            self.first = self.first or (call, word[0])
        elif call.line.startswith(("fork", "move")):
            self._rise()

    def _sets_bound(self, line: str) -> bool:
        """Whether a line of the log sets the limit that the bound stands for."""
        return self.bound.pids_max is not None and line.split(" ")[:2] == ["limit", str(self.control)] and self.control != 0

    def note(self, answer: str, here: str | None) -> None:
        """Notes which task or control group here is the one that the log has made."""
        made, words = answer.split(" "), (here or "").split(" ")
        if "child" in (made[0], words[0]):
            self._differs = self._differs or made != words
        if made[0] == "child":
            self._roots[int(made[3])] = int(words[3]) if words[0] == "child" else None
        elif made[0] == "control" and words[0] == "control":
            self._controls[int(made[1])] = int(words[1])
            if int(made[1]) == self.control and self.bound.pids_max is not None:
                self._set_limit()

    def _set_limit(self) -> None:
        """Sets the limit of the bound."""
        self.table.limit(self._controls[self.control], self.bound.pids_max)

    def _rise(self) -> None:
        """Looks how many tasks the control group has."""
        if self.control in self._controls:
            try:
                self.peak = max(self.peak, self.table.ask.count(self._controls[self.control]))
            except Refusal:
                # It was removed.
                return

    def _word(self, word: str, letter: str, words: Sequence[str], log: Table) -> str:
        """What a word of a line is here, of which the form has this letter."""
        if letter not in ("I", "C", "T", "P", "G"):
            return word
        number = int(word)
        if letter == "I":
            return str(self._controls.get(number, GREATEST_ID))
        if letter in "CT" and self._differs:
            return str(self._task(log, number))
        if letter in "PG" and self._differs and number > 0 and words[0] != "next":
            return str(self._seen(log, int(words[1]), number))
        return word

    def _task(self, log: Table, root: int) -> int:
        """The root number of a task of the log here; one that nobody has, if nobody has it there."""
        try:
            log.ask.stat(ROOT_INIT, root)
        except Refusal:
            return GREATEST_PID
        here = self._roots.get(root)
        if here is None:
            raise NotForked
        return here

    def _seen(self, log: Table, caller: int, number: int) -> int:
        """A number of a task of the log here, in the namespace of the caller; one that no task has stays."""
        try:
            root = log.ask.stat(caller, number).root
        except Refusal:
            return number
        try:
            level = len(self.table.ask.nspid(ROOT_INIT, self._task(log, caller)))
            return self.table.ask.nspid(ROOT_INIT, self._task(log, root))[level - 1]
        except (Refusal, IndexError):
            return GREATEST_PID

    @property
    def has_control(self) -> bool:
        """Whether the control group was made."""
        return self.control in self._controls

    def say(self, places: str) -> str:
        """What has come of it, in one line."""
        not_made = f", {self.not_made} not made" if self.not_made else ""
        first = f", the first at {places} {self.first[0].place}: {self.first[0].line}: {self.first[1]}" if self.first else ""
        return f"{self.bound}: peak {self.peak}, {self.refused} refused{not_made}{first}\n"

    def to_object(self, places: str) -> dict[str, Any]:
        """The same for `json`."""
        first = None
        if self.first:
            call, word = self.first
            first = {places: call.place, "call": call.line, "word": word}
        return {**self.bound._asdict(), "peak": self.peak, "refused": self.refused, "not_made": self.not_made, "first": first}


def read_log(name: str, pid_max: int) -> Log:
    """The log of a file, or of standard input, of which a script has this `pid_max`."""
    with open_script(name) as script:
        begin = script.read(len(SAVED)) if name != STANDARD_INPUT else b""
        if begin == SAVED:
            followed = follow_file(name)
            entries = next(followed.calls)
            return Log("ordinal", followed.table, (Logged(it.ordinal, it.line, it.answer) for it in entries))
        lines = (begin + script.read()).split(b"\n")
    calls = (Logged(place, line.decode("utf-8", "surrogateescape"), None) for place, line in enumerate(lines, start=1) if line)
    return Log("line", Table(pid_max), calls)


def play(log: Log, bounds: Sequence[Bound], control: int) -> tuple[int, list[World]]:
    """How many calls the log has, and what comes of them as it was and under each bound."""
    was = World(Bound(None, None), control, log.table)
    others = [World(bound, control, Table(log.table.pid_max if bound.pid_max is None else bound.pid_max)) for bound in bounds]
    made = 0
    for call in log.calls:
        lines = [other.translate(call.line, log.table) for other in others]
        (answer,) = log.table.answers([call.line])
        if answer.encode() in NOT_MADE:
            continue
        if call.answer not in (None, answer):
            raise BadHistory(f"call {call.place}: `{call.line}` was answered `{call.answer}`, and is answered `{answer}` now")
        made += 1
        was.note(answer, answer)
        was.count(call, answer)
        for other, line in zip(others, lines):
            other.make(call, line, answer)
    return made, [was, *others]


def watched(log: Log, name: str, progress: Progress) -> Iterator[Logged]:
    """The calls of a log, of which a terminal shows how many were made."""
    for call in log.calls:
        progress.say(f"{name}: {log.places} {call.place}")
        yield call


def bounds_of(given: argparse.Namespace) -> list[Bound]:
    """Each limit with each `pid_max`."""
    if not given.pids_max and not given.pid_max:
        return []
    return [Bound(*pair) for pair in itertools.product(given.pids_max or [None], given.pid_max or [None])]


def limits_of(word: str) -> list[int]:
    """Limits of the command line, between commas."""
    try:
        return [check_range("a limit", int(it), 0, GREATEST_LIMIT) for it in word.split(",")]
    except ValueError:
        raise argparse.ArgumentTypeError(f"numbers from 0 to {GREATEST_LIMIT} with commas between, not {word}") from None


def pid_maxes_of(word: str) -> list[int]:
    """The same of `pid_max`."""
    return [pid_max_of(it) for it in word.split(",")]


def control_of(word: str) -> int:
    """The id of a control group."""
    try:
        return check_range("an id", int(word), 0, GREATEST_ID)
    except ValueError:
        raise argparse.ArgumentTypeError(f"the id of a control group, not {word}") from None


def read_command_line(called: str, words: Sequence[str] | None) -> argparse.Namespace:
    """The words of the command line."""
    parser = parser_of(called, ABOUT)
    parser.add_argument("--pids-max", type=limits_of, default=[], metavar="N,..", help="limits of the control group, each of which is tried")
    parser.add_argument("--control", type=control_of, default=0, metavar="I", help="the control group, as the log has it; 0, which has all tasks, by default")
    parser.add_argument("--pid-max", type=pid_maxes_of, default=[], metavar="N,..", help="each of which is tried, 301 to 4194304")
    parser.add_argument("--logged-pid-max", type=pid_max_of, default=DEFAULT_PID_MAX, metavar="N", help="what it was for a script, 32768 by default")
    parser.add_argument("--json", action="store_true", help="write JSON in one line")
    parser.add_argument("file", nargs="?", default=STANDARD_INPUT, help="the log; - is standard input, for a script")
    return parser.parse_args(words)


def report(given: argparse.Namespace) -> int:
    """Plays the log, and says what has come of it."""
    log = read_log(given.file, given.logged_pid_max)
    with Progress() as progress:
        made, worlds = play(log._replace(calls=watched(log, given.file, progress)), bounds_of(given), given.control)
    if not worlds[0].has_control:
        return complain(f"{given.called}: {given.file}: no call makes the control group {given.control}", STATUS_FAULT)
    if given.json:
        was, *bounds = (world.to_object(log.places) for world in worlds)
        print(json.dumps({"calls": made, "control": given.control, "was": was, "bounds": bounds}, separators=(",", ":")))
    else:
        print(f"{made} calls, control group {given.control}\n" + "".join(world.say(log.places) for world in worlds), end="")
    return STATUS_DONE


def run(called: str, words: Sequence[str] | None = None) -> int:
    """Plays what the command line names."""
    given = read_command_line(called, words)
    try:
        return report(given)
    except OSError as fault:
        return cannot_read(called, fault, given.file)
    except (LibraryFault, MemoryError) as fault:
        return complain(f"{called}: no table: {fault}", STATUS_USAGE)
    except BadHistory as fault:
        return complain(f"{called}: {given.file}: {fault}", STATUS_FAULT)
