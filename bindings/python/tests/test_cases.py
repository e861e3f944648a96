"""The cases of interface/cases, whose README says what each step is: by lines and by methods, on tables, on programs and on one for threads."""

import errno
import json
import unittest
from collections.abc import Callable, Iterator
from typing import Any

from pidtab import (
    ALL,
    Adopted,
    Ask,
    BadList,
    BadText,
    Calls,
    Effect,
    Ended,
    Gone,
    GroupGone,
    NotKept,
    Process,
    ProgramMissing,
    Queries,
    Refusal,
    Seat,
    SeatsTaken,
    SessionGone,
    SpaceFell,
    SpaceGone,
    SpaceStat,
    Stat,
    Table,
    find_program,
    read_list,
)
from pidtab.calls import Call
from pidtab.forms import QUERIES, say_answer
from pidtab.history import Entry
from tests.pages import REPOSITORY
from tests.ways import ask, for_threads, make_call, need_library

FILES = sorted((REPOSITORY / "interface" / "cases").glob("*.cases"))
DEFAULT_BOUND = 32768

# What this package has no function for: a replay, the list of the opening, and what is no call as a value.
LEFT_OUT = ("differs", "stranger", "opening")


def read_steps(text: str) -> Iterator[tuple[str, str, str]]:
    """Each step, what it must tell, and the text below it."""
    for line in text.replace("\n\t", "\1").split("\n"):
        if line and not line.startswith("#"):
            said, below, under = line.partition("\1")
            step, _, wanted = said.partition(" -> ")
            yield step.replace(r"\r", "\r").replace(r"\0", "\0"), wanted, (under.replace("\1", "\n") + "\n").replace(r"\r", "\r") if below else ""


def say_fault(fault: Exception) -> str:
    """A refusal as its answer, and another fault by its name in interface/statuses.tbl."""
    if isinstance(fault, Refusal):
        return f"{errno.errorcode[fault.errno or 0]} {fault.why}"
    if isinstance(fault, BadText):
        return str(fault)
    if isinstance(fault, ValueError):
        return {"bad line": "BAD_LINE", "an empty": "EMPTY_LINE"}.get(str(fault)[:8], "OUT_OF_RANGE")
    return {NotKept: "NOT_KEPT", OverflowError: "SPENT"}[type(fault)]


def say_task(task: Stat) -> str:
    """A task that was read, in the words of the list."""
    end = "live" if task.live else "killed" if task.killed else f"exit {task.status}"
    marks = " executed" * task.executed + " subreaper" * task.subreaper
    family = f"root {task.root} space {task.space} parent {task.parent} group {task.group} session {task.session} control {task.control}"
    return f"{','.join(map(str, task.numbers))} {family} {end}{marks}"


def say_space(space: SpaceStat) -> str:
    """A namespace that was read, in the words of the list."""
    parent, init = ("-" if it is None else it for it in (space.parent, space.init))
    return f"space {space.id} parent {parent} level {space.level} init {init}{' fallen' * space.fallen}"


def say_numbers(numbers: tuple[int, ...]) -> str:
    """Numbers, or ids, or `none`."""
    return " ".join(map(str, numbers)) or "none"


def say_answer_of(found: Stat | SpaceStat | tuple[int, ...]) -> str:
    """What a question tells."""
    if isinstance(found, Stat):
        return say_task(found)
    return say_space(found) if isinstance(found, SpaceStat) else say_numbers(found)


def say_effect(effect: Effect) -> str:
    """What became of a task, a process group, a session or a namespace."""
    match effect:
        case Ended(number, status):
            return f"ended {number} killed" if effect.killed else f"ended {number} exit {status}"
        case Adopted(number, parent):
            return f"adopted {number} {parent}"
        case Gone(number):
            return f"gone {number}"
        case GroupGone(number):
            return f"group-gone {number}"
        case SessionGone(number):
            return f"session-gone {number}"
        case SpaceFell(id):
            return f"space-fell {id}"
        case SpaceGone(id):
            return f"space-gone {id}"


def say_told(table: Table | Seat, line: str) -> list[str]:
    """The answer to a good line, and what the call did to tasks."""
    told = value_of(table.told, line)
    if isinstance(told, Refusal):
        return [say_fault(told)]
    return [say_answer(line.split(" ")[0], told.answer), *map(say_effect, told.effects)]


def value_of(table: Any, line: str) -> Any:
    """What the method of a good line tells, or the refusal."""
    try:
        return make_call(table, line)
    except Refusal as refusal:
        return refusal


class World:
    """What a case has open: tables by lines, by methods and by calls that tell what they did, programs by lines, and one for threads."""

    def __init__(self, test: unittest.TestCase) -> None:
        self.test = test
        self.tables: list[Calls] = []
        self.table: Table | None = None
        self.is_whole = False
        self.told: Any = None

    def begin(self, table: Table) -> None:
        """All seats are taken, and there is no other."""
        self.close()
        self.table, self.at = table, 0
        self.seats = [table.seat() for _ in range(table.workers)]
        self.test.assertEqual([seat.worker for seat in self.seats], list(range(table.workers)))
        self.test.assertRaises(SeatsTaken, table.seat)

    def close(self) -> None:
        """Closes what is open, and makes a whole history again on another table."""
        if self.table is not None:
            if self.is_whole and self.table.counts().first_kept == 0:
                self.make_again(self.table)
            self.table.close()
        for table in self.tables:
            table.close()
        self.tables, self.table, self.is_whole = [], None, False

    def make_again(self, table: Table) -> None:
        """The same answers, counts and list."""
        entries = list(table.entries())
        with for_threads(table.workers, pid_max=table.pid_max) as again:
            seats = [again.seat() for _ in range(again.workers)]
            self.test.assertEqual([seats[it.worker].answers([it.line])[0] for it in entries], [it.answer for it in entries])
            self.test.assertEqual((again.counts(), again.list_text()), (table.counts(), table.list_text()))

    def open(self, pid_max: int, workers: int, first_stamp: int, keep: int) -> None:
        """Opens what the settings say."""
        is_alone = (workers, first_stamp, keep) == (1, 1, 0)
        if is_alone and not 301 <= pid_max <= 4194304:
            self.test.assertRaises(ValueError, Table, pid_max)
        self.begin(for_threads(workers, pid_max=pid_max, first_stamp=first_stamp, keep=keep or ALL))
        self.tables = [Table(pid_max) for _ in range(3)] if is_alone else []
        self.is_whole = first_stamp == 1
        try:
            find_program()
        except ProgramMissing:
            return
        self.tables += [Process(pid_max)] if is_alone and pid_max != DEFAULT_BOUND * 128 else []

    def load(self, text: str, counts: list[int], keep: int = 0) -> None:
        """Opens what the text says."""
        if counts == [0]:
            try:
                Table.from_dump(text).close()
            except BadText as fault:
                with self.test.assertRaisesRegex(BadText, f"^{fault}$"):
                    Table.from_dump(text, recorded=counts, keep=ALL)
                raise
        self.begin(Table.from_dump(text, recorded=counts, keep=keep or ALL, threads=True))
        self.tables = [Table.from_dump(text) for _ in range(3)] if counts == [0] and not keep else []

    def reload(self) -> None:
        """Goes on with what is made of the texts."""
        assert self.table is not None
        text, at, tables = self.table.dump(), self.at, [it for it in self.tables if isinstance(it, Table)]
        self.test.assertEqual([it.dump() for it in tables], [text] * len(tables))
        counts = [self.table.worker(it) for it in range(self.table.workers)]
        self.load(text, counts, self.table.keep)
        self.tables, self.at = [Table.from_dump(text) for _ in tables], at
        self.test.assertEqual(self.table.dump(), text)

    def call(self, line: str) -> str:
        """The answer, which is the same by each way."""
        assert self.table is not None
        seat, answers = self.seats[self.at], set()
        for table in [seat, *self.tables[:1], *self.tables[3:]]:
            try:
                answers.add(table.line(line))
            except (ValueError, Refusal, OverflowError) as fault:
                answers.add(say_fault(fault))
        (answer,) = answers
        if answer.isupper():
            return answer
        assert seat.ordinal is not None
        self.test.assertEqual(self.table.entry(seat.ordinal), Entry(seat.ordinal, self.at, line, answer))
        asked: list[Queries] = [self.table.ask, seat.ask, *[it.ask for it in self.tables if isinstance(it, Table)][1:]]
        for queries in asked:
            if line.split(" ")[0] in QUERIES:
                self.test.assertEqual(ask(queries, line), answer)  # type: ignore[arg-type]
            else:
                self.test.assertFalse(hasattr(queries, line.split(" ")[0]))
        if len(self.tables) > 1:
            self.test.assertEqual((line, ask(self.tables[1].would, line)), (line, answer))  # type: ignore[arg-type, attr-defined]
            self.told = value_of(self.tables[1], line)
            said = say_fault(self.told) if isinstance(self.told, Refusal) else say_answer(line.split(" ")[0], self.told)
            self.test.assertEqual((line, said), (line, answer))
            self.test.assertEqual((line, say_told(self.tables[2], line)[0]), (line, answer))  # type: ignore[arg-type]
        return answer

    def call_told(self, line: str) -> str:
        """The answer and the effects, which are the same by each table that tells them."""
        seat = self.seats[self.at]
        said, *others = [say_told(it, line) for it in [seat, *self.tables] if isinstance(it, (Seat, Table))]
        others += [[it.answers([line])[0], *said[1:]] for it in self.tables if isinstance(it, Process)]
        for other in others:
            self.test.assertEqual(other, said)
        assert self.table is not None and seat.ordinal is not None
        self.test.assertEqual(self.table.entry(seat.ordinal), Entry(seat.ordinal, self.at, line, said[0]))
        return ", ".join(said)

    def asked(self, say: Callable[[Ask], str]) -> str:
        """What is read, which is the same of each table."""
        assert self.table is not None
        told = set()
        for queries in [self.table.ask, *[it.ask for it in self.tables if isinstance(it, Table)]]:
            try:
                told.add(say(queries))
            except Refusal as fault:
                told.add(say_fault(fault))
            except LookupError:
                told.add("OUT_OF_RANGE")
        (found,) = told
        return found

    def look(self, question: str, numbers: list[int]) -> str:
        """What a step asks that is no call."""
        return self.asked(lambda it: say_answer_of(getattr(it, question)(*numbers)))

    def read(self, word: str, numbers: list[int]) -> str:
        """What a step of a history tells."""
        assert self.table is not None
        if word == "counts":
            return " ".join(map(str, self.table.counts()))
        if word == "worker":
            return str(self.table.worker(*numbers))
        if word == "entry":
            entry = self.table.entry(*numbers)
            return f"{entry.worker} {entry.line}: {entry.answer}"
        if word == "read":
            start, most = numbers
            return str(min(most, len(list(self.table.entries(start)))))
        if word == "checkpoint_at":
            return "DONE" if self.table.checkpoint_at(*numbers) else "AGAIN"
        self.table.checkpoint()
        return "DONE"

    def make(self, step: str, text: str) -> str:
        """What a step tells."""
        word, *words = step.split(" ")
        numbers = [int(it) for it in words if it.lstrip("-").isdigit()]
        if word == "case":
            self.close()
        elif word == "open":
            self.open(*numbers)
        elif word == "load":
            self.load(text, numbers)
        elif word == "reload":
            self.reload()
        elif word == "damage":
            self.damage(text)
        elif word == "numbers":
            return Call(*[numbers[at] for at in (0, 1, 2, 3, 4, 5, 6)]).line
        elif word == "parse":
            with self.test.assertRaises(BadList) as raised:
                read_list(text)
            return str(raised.exception).partition(":")[0]
        elif word == "seat":
            (self.at,) = numbers
        elif word == "each":
            for number in range(numbers[0], numbers[1] + 1):
                self.test.assertFalse(self.call(" ".join(words[2:]).replace("#", str(number)))[0].isupper())
        elif word == "json":
            self.call(" ".join(words))
            return json.dumps(self.told.to_object() if hasattr(self.told, "to_object") else self.told, separators=(",", ":"))
        elif word == "told":
            return self.call_told(" ".join(words))
        elif hasattr(Ask, word) and word not in QUERIES:
            return self.look(word, numbers)
        elif word in ("list", "dump"):
            assert self.table is not None
            for table in [self.table, *self.tables]:
                if word == "list" or isinstance(table, Table):
                    self.test.assertEqual(table.list_text() if word == "list" else table.dump(), text)  # type: ignore[union-attr]
        elif word in ("counts", "worker", "entry", "read", "checkpoint", "checkpoint_at"):
            return self.read(word, numbers)
        else:
            return self.call(step)
        return ""

    def damage(self, text: str) -> None:
        """No table is made of the text with a byte changed, or with its end cut off."""
        for place in range(len(text)):
            for wrong in (text[:place], text[:place] + chr(ord(text[place]) ^ 1) + text[place + 1 :]):
                self.test.assertRaises(BadText, Table.from_dump, wrong)


class Cases(unittest.TestCase):
    """All that each package must do."""

    @classmethod
    def setUpClass(cls) -> None:
        need_library()

    def test_each_file(self) -> None:
        self.assertGreater(len(FILES), 5)
        for path in FILES:
            world = World(self)
            self.addCleanup(world.close)
            for step, wanted, text in read_steps(path.read_text(encoding="utf-8")):
                if step.split(" ")[0] in LEFT_OUT or (step.startswith("numbers") and wanted == "OUT_OF_RANGE"):
                    continue
                try:
                    told = world.make(step, text)
                except (ValueError, NotKept) as fault:
                    told = say_fault(fault)
                self.assertEqual((path.name, step, told), (path.name, step, wanted))
            world.close()


if __name__ == "__main__":
    unittest.main()
