"""A session of `pidtab-play`: a table whose last call can be taken back, and names for the numbers that calls told."""

import difflib
import re
from collections.abc import Callable
from dataclasses import dataclass
from typing import Literal

from pidtab.calls import Calls
from pidtab.faults import ProgramEnded
from pidtab.language import FORMS, KINDS, judge
from pidtab.sight import Sight

SIGN = "$"
ROOT = ".root"
EQUALS = "="
COMMENT = "#"

NAME = re.compile(r"[A-Za-z_][A-Za-z0-9_]*")
CHILD = re.compile(r"child (\d+) root (\d+)")
CONTROL = re.compile(r"control (\d+)")
NUMBER = re.compile(r"\d+")
CALLER = re.compile(r"[0-9]{1,10}")

# What stands for a call that was not made.
NOT_MADE = ("bad line", "no memory", "spent")

# Only these calls may free a number.
FREEING = ("exit ", "wait ")


class Mistake(ValueError):
    """A line that is not asked: the column of the byte where it goes wrong, counted from 1, and what was expected there."""

    def __init__(self, column: int, expected: str) -> None:
        super().__init__(f"column {column}: expected {expected}")
        self.column = column
        self.expected = expected


@dataclass(frozen=True)
class Word:
    """A word and its column."""

    text: str
    column: int


@dataclass(frozen=True)
class Value:
    """What a name stands for: a task by its number in the namespace of who forked it, a control group, or a number as it is."""

    kind: Literal["task", "control", "number"]
    number: int
    root: int = 0
    parent: int = 0
    frees: int = 0


@dataclass(frozen=True)
class Made:
    """A call that was made, the name that it gave, and the root number of a child that it made."""

    line: str
    name: str | None = None
    value: Value | None = None
    child: int = 0


@dataclass(frozen=True)
class Reply:
    """The answer to a line, and a name that it did not give."""

    answer: str
    unset: str | None = None


def read_words(text: str) -> list[Word]:
    """The words of a line before a comment."""
    words = [Word(found[0], found.start() + 1) for found in re.finditer(r"\S+", text, re.ASCII)]
    ends = [place for place, word in enumerate(words) if word.text.startswith(COMMENT)]
    return words[: ends[0]] if ends else words


def kind_at(words: list[str], place: int) -> str:
    """The letter of the number that stands after these words at a place; none where no form has a number there."""
    for form in FORMS:
        parts = form.split(" ")
        if len(parts) > place and parts[place] in KINDS and fits_before(parts[:place], words):
            return parts[place]
    return ""


def fits_before(parts: list[str], words: list[str]) -> bool:
    """Whether the words of a form are those of a line; its numbers may be any."""
    return all(part in KINDS or part == word for part, word in zip(parts, words))


def read_value(line: str, answer: str, frees: int) -> Value | None:
    """What an answer lets a name stand for."""
    if found := CHILD.fullmatch(answer):
        return Value("task", int(found[1]), int(found[2]), int(line.split(" ")[1]), frees)
    if found := CONTROL.fullmatch(answer):
        return Value("control", int(found[1]))
    return Value("number", int(answer)) if NUMBER.fullmatch(answer) else None


class Session:
    """A table, the calls that were made on it, and the names that they gave."""

    def __init__(self, open_table: Callable[[], Calls]) -> None:
        self._open = open_table
        self._table = open_table()
        self._made: list[Made] = []
        self.names: dict[str, Value] = {}
        # How many calls may have freed a number.
        self._frees = 0
        self._lost = False

    def close(self) -> None:
        """Ends the table."""
        self._table.close()

    def lose(self) -> None:
        """Says that a call may have been broken off: the table is had again by the calls that were made."""
        self._lost = True

    @property
    def table(self) -> Calls:
        """The table, as the calls that were made leave it."""
        if self._lost:
            self._replay(self._made)
            self._lost = False
        return self._table

    def ask(self, text: str) -> Reply | None:
        """Makes the call on a line; None for one that has none. What is wrong with a line is raised."""
        words = read_words(text)
        if not words:
            return None
        name, words = self._take_name(words)
        line = self._resolve(words)
        answer = self._answer(line)
        if answer in NOT_MADE:
            return Reply(answer, name)
        value = read_value(line, answer, self._frees) if name else None
        child = CHILD.fullmatch(answer)
        self._made.append(Made(line, name if value else None, value, int(child[2]) if child else 0))
        if name and value:
            self.names[name] = value
        self._frees += line.startswith(FREEING)
        return Reply(answer, None if value else name)

    @property
    def labels(self) -> dict[int, str]:
        """The names of tasks by their root numbers, where no later fork has drawn the number again."""
        labels: dict[int, str] = {}
        for made in self._made:
            labels.pop(made.child, None)
            if made.child and made.name:
                labels[made.child] = made.name
        return {root: name for root, name in labels.items() if self.names.get(name) and self.names[name].root == root}

    def undo(self) -> str | None:
        """Takes the last call back, with the name that it gave: its line, or None where there is none."""
        if not self._made:
            return None
        self._replay(self._made[:-1])
        self._lost = False
        return self._made.pop().line

    def _replay(self, calls: list[Made]) -> None:
        """Has a new table by these calls, and then the old one is closed."""
        table = self._open()
        try:
            table.answers([made.line for made in calls])
        except BaseException:
            table.close()
            raise
        before, self._table = self._table, table
        self.names = {made.name: made.value for made in calls if made.name and made.value}
        before.close()

    def _answer(self, line: str) -> str:
        """The answer to a good line."""
        try:
            (answer,) = self.table.answers([line])
        except ProgramEnded:
            # Somebody has ended it: the next one gets the same calls.
            self.lose()
            (answer,) = self.table.answers([line])
        return answer

    def _take_name(self, words: list[Word]) -> tuple[str | None, list[Word]]:
        """The name that is given, and the words after it."""
        if len(words) < 2 or words[1].text != EQUALS:
            return None, words
        if not NAME.fullmatch(words[0].text):
            raise Mistake(words[0].column, "a name: letters, digits and _, and no digit first")
        if len(words) == 2:
            raise Mistake(words[1].column + 1, f"a call behind `{EQUALS}`")
        return words[0].text, words[2:]

    def _resolve(self, words: list[Word]) -> str:
        """The line with numbers in the place of names, if it is a good one."""
        line: list[str] = []
        for word in words:
            line.append(self._number(word, line) if word.text.startswith(SIGN) else word.text)
        text = " ".join(line)
        fault = judge(text.encode("latin-1"))
        if fault is not None:
            # The columns of a line with names, or with other spaces, are not those that were judged.
            place = text[: fault.column - 1].count(" ")
            end = words[-1].column + len(words[-1].text)
            raise Mistake(words[place].column if place < len(words) and fault.column <= len(text) else end, fault.expected)
        return text

    def _number(self, word: Word, before: list[str]) -> str:
        """The number that a name stands for after these words."""
        name = word.text.removeprefix(SIGN).removesuffix(ROOT)
        value = self.names.get(name)
        if value is None:
            near = difflib.get_close_matches(name, self.names, 1)
            raise Mistake(word.column, "a name that was given" + (f": the nearest is `{SIGN}{near[0]}`" if near else f", and not `{SIGN}{name}`"))
        kind = kind_at(before, len(before))
        if word.text.endswith(ROOT):
            return self._root(word, value)
        if value.kind == "number" or not kind:
            return str(value.number)
        wanted = "control" if kind == "I" else "task" if kind in "CTPG" else "number"
        if value.kind != wanted:
            raise Mistake(word.column, f"{KINDS[kind]}, and `{name}` is a {'control group' if value.kind == 'control' else 'task'}")
        return str(self._task(word, value, before) if kind in "PG" else value.root or value.number)

    def _root(self, word: Word, value: Value) -> str:
        """The root number of a task."""
        if value.kind != "task":
            raise Mistake(word.column, f"a task before `{ROOT}`")
        return str(value.root)

    def _task(self, word: Word, value: Value, before: list[str]) -> int:
        """The number of a task in the namespace of the line's caller."""
        caller = int(before[1]) if CALLER.fullmatch(before[1]) else 0
        if caller == value.parent and value.frees == self._frees:
            return value.number
        seen = Sight(self.table.list()).number(value.root, caller)
        if seen is None:
            raise Mistake(word.column, f"a task with a number in the namespace of {caller}")
        return seen
