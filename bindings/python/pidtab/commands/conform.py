"""`pidtabctl conform`: which calls of a command or a class agree with a table of pidtab, by scripts where not."""

import argparse
import importlib
import json
import os
import re
import sys
import warnings
from collections.abc import Callable, Sequence
from dataclasses import dataclass, field
from typing import NamedTuple

from pidtab.commands.common import STATUS_DONE, STATUS_FAULT, STATUS_INTERRUPTED, STATUS_USAGE, Progress, complain, finish, parser_of
from pidtab.commands.compare import add_wishes, count_of, read_declared
from pidtab.faults import LibraryFault, ProgramFault
from pidtab.forms import ALL_FORMS, Form, form_of, select_forms
from pidtab.testing.peer import CommandPeer, LeftOut

ABOUT = """Asks a process table of yours and one of pidtab the same calls. A call that differs is set aside with a
script of few lines, and the others are compared without it, until they agree. COMMAND answers lines of the script
language; MODULE:CLASS is a class of Python with methods of pidtab.Calls. Status 0 where all calls agree, 1 where one
does not, and 2 where nothing could be compared."""
CLASS = re.compile(r"[A-Za-z_][\w.]*:[A-Za-z_]\w*")

# What is asked first, which each table answers.
FIRST_LINE = "getpid 1"

# The beginnings of what a command of pidtab.testing.peer answers where it is there no more, or is silent.
SILENT, ENDED = "no answer in ", ("ended with status ", "its output ended")

# After so many calls without an answer nothing more is asked, as each takes its time.
MOST_SILENT = 3


class Unfit(Exception):
    """Why nothing can be compared, in a sentence."""


class NoAnswer(BaseException):
    """A line without an answer. It is no Exception, or Hypothesis would wait again for each shorter script."""

    def __init__(self, lines: Sequence[str], answer: str) -> None:
        super().__init__(answer)
        self.lines, self.answer = tuple(lines), answer


class Found(NamedTuple):
    """A call that differs: the line that shows it, both answers, and the lines up to it."""

    call: str
    line: str
    yours: str
    pidtab: str
    script: tuple[str, ...]


@dataclass
class Report:
    """What was compared, and what differs."""

    found: list[Found] = field(default_factory=list)
    # The forms that were not compared: yours has left them out, or nobody came to them.
    missing: list[Form] = field(default_factory=list)
    declared: dict[str, int] = field(default_factory=dict)
    cases: int = 0
    calls: int = 0

    def compared(self, wanted: Sequence[Form]) -> list[str]:
        """The calls of which a form was compared."""
        return list(dict.fromkeys(form.command for form in wanted if form not in self.missing))

    def differing(self) -> list[str]:
        """The calls that differ."""
        return list(dict.fromkeys(it.call for it in self.found))


class Asked:
    """A command that is asked lines. `answer` is what pidtab.testing asks of a table."""

    def __init__(self, words: Sequence[str]) -> None:
        self._peer = CommandPeer(words)
        self._lines: list[str] = []

    def answer(self, line: str) -> str:
        """The answer to a line."""
        self._lines.append(line)
        try:
            answer = self._peer.answer(line)
        except LeftOut:
            self._lines.pop()
            raise NotImplementedError from None
        if answer.startswith(SILENT):
            self._peer._child.kill()
            raise NoAnswer(self._lines, answer)
        return answer

    def close(self) -> None:
        """Ends it."""
        self._peer.close()


def read_command_line(called: str, words: Sequence[str] | None) -> argparse.Namespace:
    """The words of the command line."""
    parser = parser_of(called, ABOUT)
    parser.add_argument("--json", action="store_true", help="write the report as JSON in one line")
    add_wishes(parser)
    parser.add_argument("--seed", type=count_of, default=1, metavar="N", help="other cases, 1 by default")
    parser.add_argument("yours", nargs=argparse.REMAINDER, metavar="COMMAND|MODULE:CLASS", help="the command with its words, or a class")
    given = parser.parse_args(words)
    given.yours = given.yours[given.yours[:1] == ["--"] :]
    if not given.yours:
        parser.error("no COMMAND and no MODULE:CLASS")
    return given


def load_class(name: str) -> Callable[[], object]:
    """The class of a module, which may be in the working directory."""
    module, _, word = name.partition(":")
    sys.path.insert(0, os.getcwd())
    try:
        made = getattr(importlib.import_module(module), word, None)
    except Exception as fault:
        raise Unfit(f"{module} cannot be imported: {fault}") from fault
    if not callable(made):
        raise Unfit(f"{module} has no class {word}")
    try:
        close = getattr(made(), "close", None)
        if callable(close):
            close()
    except Exception as fault:
        raise Unfit(f"{name} makes no table: {type(fault).__name__}: {fault}") from fault
    return made  # type: ignore[no-any-return]


def probe(words: Sequence[str]) -> Callable[[], object]:
    """What opens the command, once it has answered a first line."""
    peer = CommandPeer(words)
    try:
        answer = peer.answer(FIRST_LINE)
    except LeftOut:
        answer = ""
    finally:
        if peer._child.poll() is None:
            peer._child.kill()
        peer.close()
    if answer.startswith((SILENT, *ENDED)):
        raise Unfit(f"{words[0]} has no answer to `{FIRST_LINE}`: {answer}")
    return lambda: Asked(words)


def opener_of(yours: Sequence[str]) -> Callable[[], object]:
    """What opens your table."""
    if len(yours) == 1 and CLASS.fullmatch(yours[0]):
        return load_class(yours[0])
    return probe(yours)


class Comparing:
    """Compares, sets aside what differs, and compares the rest."""

    def __init__(self, given: argparse.Namespace, yours: Callable[[], object]) -> None:
        self.given, self.yours = given, yours
        left_out = select_forms(given.without)
        self.wanted = [form for form in select_forms(given.calls) or ALL_FORMS.values() if form not in left_out]
        self.declared = read_declared(given.declared) if given.declared else {}
        self.report = Report()
        self.silent = 0

    def run(self) -> Report:
        """The report, once a round has found no difference."""
        left = list(self.wanted)
        with Progress() as progress:
            while left and self.silent < MOST_SILENT:
                progress.say(f"{len(self.wanted) - len(left)} forms of calls differ so far")
                found = self.round(left)
                if found is None:
                    return self.report
                self.report.found.append(found)
                if not found.script:
                    break
                left.remove(form_of(found.script[-1]))
        self.report.missing += left
        return self.report

    def round(self, forms: Sequence[Form]) -> Found | None:
        """What a comparison of these forms finds first."""
        from pidtab.testing import kit

        given = self.given
        try:
            with warnings.catch_warnings():
                warnings.simplefilter("ignore", kit.NotCompared)
                named = self.has([form.name for form in forms])
                tally = kit.compare(self.yours, calls=named, declared=self.declared, cases=given.cases, steps=given.steps, begin_at=given.seed)
        except kit.Different as different:
            return found_of(different.lines, *different.met)
        except NoAnswer as silent:
            self.silent += 1
            return found_of(silent.lines, silent.lines[-1], silent.answer, "")
        self.report.cases, self.report.calls, self.report.declared = tally.cases, tally.calls, dict(tally.declared)
        self.report.missing += [form for form in forms if {form.name, form.command} & set(tally.not_compared)]
        return None

    def has(self, names: Sequence[str]) -> list[str]:
        """Of the forms those that a class has; what it has not is missing."""
        from pidtab.testing import kit

        open_yours = kit.opener_of(self.yours, "")
        there = {form.name for form in kit.forms_of_yours(open_yours, [ALL_FORMS[name] for name in names], [])}
        lacking = [ALL_FORMS[name] for name in names if name not in there]
        self.report.missing += [form for form in lacking if form not in self.report.missing]
        return [name for name in names if name in there]


def found_of(lines: Sequence[str], line: str, yours: str, pidtab: str) -> Found:
    """What differs, of the call that shows it: of a list the last one before it."""
    call = form_of(lines[-1]).command if lines else "list"
    return Found(call, line, yours, pidtab, tuple(lines))


def as_json(report: Report, wanted: Sequence[Form]) -> str:
    """The report as JSON in one line."""
    compared, differing = report.compared(wanted), report.differing()
    told = {
        "agree": [it for it in compared if it not in differing],
        "differ": differing,
        "not_compared": [form.name for form in report.missing],
        "cases": report.cases,
        "calls": report.calls,
        "declared": report.declared,
        "differences": [{**it._asdict(), "script": list(it.script)} for it in report.found],
    }
    return json.dumps(told)


def as_text(report: Report, wanted: Sequence[Form]) -> str:
    """The report as text."""
    compared, differing = report.compared(wanted), report.differing()
    agree, count = len([it for it in compared if it not in differing]), len(report.found)
    scripts = "is one script" if count == 1 else f"are {count} scripts"
    behind = f"; here {scripts}" if count else f": {report.cases} cases, {report.calls} calls"
    lines = [f"{agree} of {len(compared)} calls agree{behind}"]
    if report.missing:
        lines.append(f"not compared: {', '.join(form.name for form in report.missing)}")
    lines += [f"declared {name}: {times} times" for name, times in sorted(report.declared.items())]
    for found in report.found:
        pidtab = [f"  pidtab {found.pidtab}"] if found.pidtab else []
        lines += ["", f"{found.call}: {found.line}", f"  yours  {found.yours}", *pidtab]
        lines += ["  script", *(f"    {line}" for line in found.script)]
    return "\n".join(lines)


def conform(given: argparse.Namespace) -> int:
    """Compares, and says what was found."""
    comparing = Comparing(given, opener_of(given.yours))
    report = comparing.run()
    if not report.compared(comparing.wanted):
        raise Unfit("nothing was compared: yours has none of the calls, or has left out each")
    print((as_json if given.json else as_text)(report, comparing.wanted))
    return STATUS_FAULT if report.found else STATUS_DONE


def run(called: str = "pidtabctl conform", words: Sequence[str] | None = None) -> int:
    """Compares what the command line names."""
    given = read_command_line(called, words)
    try:
        return conform(given)
    except KeyboardInterrupt:
        return complain(f"{given.called}: interrupted: nothing is said of what was compared", STATUS_INTERRUPTED)
    except OSError as fault:
        return complain(f"{given.called}: {fault.filename or given.yours[0]}: {fault.strerror}", STATUS_USAGE)
    except AssertionError as unsteady:
        return complain(f"{given.called}: {unsteady}", STATUS_USAGE)
    except (ImportError, ValueError, ProgramFault, LibraryFault, Unfit) as fault:
        return complain(f"{given.called}: {fault}", STATUS_USAGE)


def main() -> None:
    """The program by itself."""
    finish(run)


if __name__ == "__main__":
    main()
