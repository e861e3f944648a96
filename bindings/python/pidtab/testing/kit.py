"""What the kit does: it draws calls, asks both tables, and shrinks what differs, by Hypothesis."""

import os
import shlex
import sys
import warnings
from collections import Counter
from collections.abc import Callable, Iterable, Mapping, Sequence
from dataclasses import dataclass, field
from fnmatch import fnmatchcase
from typing import Any, NamedTuple

try:
    from hypothesis import Verbosity, seed, settings, strategies
    from hypothesis.errors import Flaky, StopTest
    from hypothesis.stateful import RuleBasedStateMachine, rule, run_state_machine_as_test
except ImportError as missing:
    raise ImportError("pidtab.testing needs Hypothesis: `pip install pidtab[testing]`, or python3-hypothesis of Debian") from missing

from pidtab.calls import Calls
from pidtab.faults import LibraryFault
from pidtab.forms import ALL_FORMS, QUERIES, Form, form_of, select_forms
from pidtab.process import Process
from pidtab.sight import Sight
from pidtab.table import Table
from pidtab.testing.aim import GREATEST_PICK, Aim
from pidtab.testing.methods import name_missing
from pidtab.testing.peer import CommandPeer, LeftOut, LinePeer, ObjectPeer, Peer

DEFAULT_CASES = 300
DEFAULT_STEPS = 40

# How often a form is drawn, for one of the others.
OFTEN = {"fork": 4, "exit": 3}

# Between a line and its two answers, in a declared difference.
ARROW, BAR = " => ", " | "

# The line of a difference that no call showed.
THE_LIST = "(the list)"

# Some versions of Hypothesis have no types for it.
run_machine: Callable[..., None] = run_state_machine_as_test


class Met(NamedTuple):
    """A line that both were asked, and the two answers. It is what a declared difference looks at."""

    line: str
    yours: str
    pidtab: str


Declared = Callable[[Met], bool]


class Different(AssertionError):
    """A difference that was not declared, shrunk. `lines` are the calls up to the one that shows it, and `script` is their text for `pidtab run`."""

    def __init__(self, met: Met, lines: Sequence[str]) -> None:
        script = "".join(f"\n  {line}" for line in lines)
        super().__init__(f"{met.line}\n  yours  {met.yours}\n  pidtab {met.pidtab}\nthe script:{script}")
        self.met = met
        self.lines = tuple(lines)

    @property
    def script(self) -> str:
        """The calls, one line each."""
        return "".join(f"{line}\n" for line in self.lines)


class Unsteady(AssertionError):
    """A table that does not answer the same calls the same each time, so that no difference can be shrunk."""


def agree(yours: str, pidtab: str) -> bool:
    """Whether two answers are the same, where yours may leave out the end of a refusal, and the root number of a child."""
    is_part = pidtab.startswith("E") or pidtab.startswith("child ")
    return yours == pidtab or (is_part and pidtab.startswith(f"{yours} ") and yours != "child")


def read_declared(text: str) -> Declared:
    """The difference that `LINE => YOURS | PIDTAB` means, where a `*` is any text."""
    line, arrow, both = text.partition(ARROW)
    yours, bar, pidtab = both.partition(BAR)
    if not (arrow and bar and line and yours and pidtab):
        raise ValueError(f"a declared difference is `LINE{ARROW}YOURS{BAR}PIDTAB`, not {text!r}")
    patterns = line, yours, pidtab
    return lambda met: all(fnmatchcase(part, pattern) for part, pattern in zip(met, patterns))


class NotCompared(UserWarning):
    """Calls of pidtab that a comparison does not make, as yours has none of them."""


@dataclass
class Tally:
    """What a comparison has seen: the whole cases, the calls in them, how often each declared difference came, and the calls that were never compared.

    A difference takes more cases than were asked for: those that led to a smaller one.
    """

    cases: int = 0
    calls: int = 0
    declared: Counter[str] = field(default_factory=Counter)
    not_compared: tuple[str, ...] = ()


@dataclass(frozen=True)
class Rig:
    """What is compared, and how."""

    open_yours: Callable[[], Peer]
    open_table: Callable[[], Calls]
    declared: Mapping[str, Declared]
    # What was asked for, by its names or as all that there is.
    wanted: Sequence[Form]
    tally: Tally = field(default_factory=Tally)
    # The names of the forms that both have answered.
    answered: set[str] = field(default_factory=set)

    def finish(self) -> Tally:
        """The tally, with what was asked for and never compared."""
        if not self.tally.calls:
            raise ValueError("nothing was compared: yours has left each call out")
        self.tally.not_compared = tuple(name_missing([it for it in self.wanted if it.name in self.answered], self.wanted))
        return self.tally


class Aimed(NamedTuple):
    """A call whose numbers are picks: `line` is the call that they mean on a table as it stands."""

    form: str
    picks: tuple[int, ...]

    def line(self, sight: Sight) -> str:
        """The line of the script language, for a list that is seen."""
        return Aim(ALL_FORMS[self.form], self.picks, sight).line()


class Case:
    """One case: a new table of either kind, which are asked the same calls."""

    def __init__(self, rig: Rig) -> None:
        self.rig = rig
        self.lines: list[str] = []
        # Whether the two states part by a declared difference; then nothing more is asked.
        self.parted = False
        self.table = rig.open_table()
        try:
            self.yours = rig.open_yours()
        except BaseException:
            self.table.close()
            raise
        self.sight = Sight(self.table.list())

    def step(self, call: Aimed) -> None:
        """Asks both a call."""
        form = ALL_FORMS[call.form]
        pidtab = self.ask(call.line(self.sight), form)
        if pidtab and form.command not in QUERIES and not pidtab.startswith("E"):
            self.sight = Sight(self.table.list())

    def ask(self, line: str, form: Form) -> str | None:
        """Asks both a line: what pidtab answers, or None where it was not asked."""
        if self.parted:
            return None
        try:
            yours = self.yours.answer(line)
        except LeftOut:
            return None
        (pidtab,) = self.table.answers([line])
        self.lines.append(line)
        self.rig.answered.add(form.name)
        self._judge(Met(line, yours, pidtab), form)
        return pidtab

    def _judge(self, met: Met, form: Form) -> None:
        """Raises a difference, if it was not declared."""
        if agree(met.yours, met.pidtab):
            return
        name = next((name for name, is_it in self.rig.declared.items() if is_it(met)), None)
        if name is None:
            self.parted = True
            raise Different(met, self.lines) from self.yours.cause
        self.rig.tally.declared[name] += 1
        self.parted = not (form.command in QUERIES or (met.yours.startswith("E") and met.pidtab.startswith("E")))

    def end(self, is_whole: bool) -> None:
        """Compares the lists, where yours has one, and closes both. A case that is not whole is one that Hypothesis gave up, and is not counted."""
        if is_whole:
            self.rig.tally.cases += 1
            self.rig.tally.calls += len(self.lines)
        try:
            yours = None if self.parted else self.yours.list_text()
            if yours is not None and yours != self.table.list_text():
                raise Different(self._first_difference(yours), self.lines)
        finally:
            self.yours.close()
            self.table.close()

    def _first_difference(self, yours: str) -> Met:
        """The first line of the lists that is not in both."""
        both = [*zip(yours.splitlines(), self.table.list_text().splitlines())]
        first = next((pair for pair in both if pair[0] != pair[1]), ("one is longer", "the lists begin with the same lines"))
        return Met(THE_LIST, *first)


def play_again(rig: Rig, lines: Iterable[str]) -> Different | None:
    """The difference that these lines show, of two new tables."""
    case = Case(rig)
    try:
        try:
            for line in lines:
                case.ask(line, form_of(line))
        finally:
            case.end(False)
    except Different as found:
        return found
    return None


def leave_out(rig: Rig, found: Different) -> Different:
    """A difference without the lines that it does not need. Hypothesis leaves some: without a call, a later one may be aimed elsewhere."""
    for place in reversed(range(len(found.lines) - 1)):
        if place < len(found.lines) - 1:
            shorter = play_again(rig, found.lines[:place] + found.lines[place + 1 :])
            found = shorter if shorter and len(shorter.lines) < len(found.lines) else found
    return found


def aimed(forms: Iterable[Form]) -> strategies.SearchStrategy[Aimed]:
    """Calls of the forms, more of those that make tasks and end them. Their picks shrink to the first task or control group that is there."""
    pick = strategies.integers(0, GREATEST_PICK)
    kinds = {form: strategies.tuples(strategies.just(form.name), strategies.tuples(*[pick] * len(form.kinds))) for form in forms}
    often = [it for form, it in kinds.items() for _ in range(OFTEN.get(form.name, 1))]
    return strategies.one_of(often).map(Aimed._make)


def calls(names: Iterable[str] = tuple(ALL_FORMS)) -> strategies.SearchStrategy[Aimed]:
    """A strategy of calls for machines of your own. A name is that of a form, as "wait pid", or of a command, as "wait"."""
    return aimed(select_forms(names))


class Comparison(RuleBasedStateMachine):
    """The machine below all comparisons. Its rules are those of a class that `machine` makes."""

    rig: Rig

    def __init__(self) -> None:
        super().__init__()
        self.case = Case(self.rig)

    def teardown(self) -> None:
        """Closes both tables."""
        self.case.end(not isinstance(sys.exc_info()[1], StopTest))


def open_default() -> Calls:
    """A table by the library, or where there is none by the program."""
    try:
        return Table()
    except LibraryFault:
        return Process()


Yours = Callable[[], object] | str | Sequence[str]


def opener_of(yours: Yours, list_command: str | Sequence[str]) -> Callable[[], Peer]:
    """What opens your table: a command, or what makes an object."""
    if isinstance(yours, (str, Sequence)):
        words, list_words = words_of(yours), words_of(list_command)
        return lambda: CommandPeer(words, list_words)
    if not callable(yours):
        raise TypeError(f"what is compared is a class, a function that makes a table, or a command, not {type(yours).__name__}")
    make = yours
    return lambda: peer_of(make())


def peer_of(table: object) -> Peer:
    """An object by its method for lines, where it has one, or else by its methods."""
    return LinePeer(table) if callable(getattr(table, "answer", None)) else ObjectPeer(table)


def words_of(command: str | Sequence[str]) -> list[str]:
    """The words of a command."""
    return shlex.split(command) if isinstance(command, str) else [os.fspath(word) for word in command]


def forms_of_yours(open_yours: Callable[[], Peer], wanted: Sequence[Form], left_out: Sequence[Form]) -> list[Form]:
    """The forms that a table of yours has of those that are wanted. What it lacks is a warning."""
    peer = open_yours()
    try:
        found = [form for form in peer.forms(left_out) if form in wanted]
    finally:
        peer.close()
    missing = name_missing(found, wanted)
    if found and missing:
        warnings.warn(f"not compared, as yours has no such method: {', '.join(missing)}", NotCompared, stacklevel=level_of_user())
    return found


def level_of_user() -> int:
    """How many calls above the caller of this the first is that is not of this module."""
    frame, level = sys._getframe(1), 1
    while frame.f_back and frame.f_globals["__name__"] == __name__:
        frame, level = frame.f_back, level + 1
    return level


def machine(
    yours: Yours,
    *,
    calls: Iterable[str] = (),
    without: Iterable[str] = (),
    declared: Mapping[str, str | Declared] | None = None,
    list_command: str | Sequence[str] = (),
    open_table: Callable[[], Calls] = open_default,
) -> type[Comparison]:
    """A state machine for Hypothesis that compares your table with one of pidtab, call by call. Its `TestCase` is one for unittest and pytest.

    `yours` makes an object with some of the methods of `pidtab.Calls`, or is a command that speaks the script language. `list_command` is one that
    reads a script and writes the list. Only `calls` are made, or else all that the object has, but those of `without`. What it lacks is a warning, and a
    method that seems to be one of them by another name is a `Misnamed`. A difference that is `declared` by its name, as `LINE => YOURS | PIDTAB` or as a
    function of a `Met`, is counted, and ends its case if the two states part by it.
    """
    open_yours = opener_of(yours, list_command)
    known = {name: read_declared(it) if isinstance(it, str) else it for name, it in (declared or {}).items()}
    named, left_out = select_forms(calls), select_forms(without)
    wanted = [form for form in named or ALL_FORMS.values() if form not in left_out]
    forms = wanted if named else forms_of_yours(open_yours, wanted, left_out)
    if not forms:
        raise ValueError("nothing to compare: your table has no method of pidtab.Calls, or all were left out")
    strategy = aimed(forms)

    class Compared(Comparison):
        """Asks both one call after the other."""

        rig = Rig(open_yours, open_table, known, wanted)

        @rule(call=strategy)
        def ask(self, call: Aimed) -> None:
            """Asks both a call."""
            self.case.step(call)

    return Compared


def compare(
    yours: Yours,
    *,
    save: str | os.PathLike[str] | None = None,
    cases: int = DEFAULT_CASES,
    steps: int = DEFAULT_STEPS,
    begin_at: int | None = None,
    **wishes: Any,
) -> Tally:
    """Compares your table with one of pidtab by so many cases of up to so many calls, and tells what it has seen. `wishes` are those of `machine`.

    A difference that was not declared is a `Different`, which Hypothesis has shrunk; `save` names a file for its script. `begin_at` is a seed, so that the
    same cases come again. A table of yours that raises anything except an OSError differs by that, with its fault as the cause.
    """
    compared = machine(yours, **wishes)
    if begin_at is not None:
        compared = seed(begin_at)(compared)
    wanted = settings(
        max_examples=cases, stateful_step_count=steps, deadline=None, database=None, report_multiple_bugs=False, verbosity=Verbosity.quiet
    )
    try:
        run_machine(compared, settings=wanted)
    except Different as first:
        found = leave_out(compared.rig, first)
        if save is not None:
            with open(save, "w", encoding="ascii") as file:
                file.write(found.script)
        raise found from found.__cause__
    except Flaky:
        raise Unsteady("yours differed once, and not when it was asked the same calls again: make it steady, or declare by what it differs") from None
    return compared.rig.finish()
