"""`pidtab-top`: shows a table that others use, by its saved history or by the service."""

import argparse
import os
import sys
import time
from collections import Counter
from collections.abc import Iterable, Sequence
from dataclasses import dataclass

from pidtab.accounts import Accounts
from pidtab.commands.common import CLEAR, STATUS_DONE, STATUS_FAULT, STATUS_USAGE, complain, finish, parser_of, seconds_of
from pidtab.commands.history_stream import Followed, follow_file, follow_service
from pidtab.faults import BadHistory, BadText, LibraryFault
from pidtab.listing import Control, Listing

ABOUT = """Shows the namespaces and control groups of a table that others use: their tasks, limits, peaks and refusals. At a terminal it shows them
anew each second, until an interrupt; else once."""

STANDARD_OUTPUT = "-"


@dataclass(frozen=True)
class View:
    """What is shown of one moment."""

    accounts: Accounts
    listing: Listing

    @property
    def zombies(self) -> Counter[int]:
        """How many tasks of each namespace have ended."""
        return Counter(task.space for task in self.listing.tasks if not task.live)

    @property
    def tasks(self) -> Counter[int]:
        """How many tasks each namespace has."""
        return Counter(task.space for task in self.listing.tasks)


def below(controls: Iterable[Control]) -> list[tuple[int, Control]]:
    """Control groups with their depths, each after the one that it is below."""
    children: dict[int | None, list[Control]] = {}
    for control in controls:
        children.setdefault(control.parent, []).append(control)
    found, left = [], [(0, it) for it in reversed(children.get(None, []))]
    while left:
        depth, control = left.pop()
        found.append((depth, control))
        left += [(depth + 1, it) for it in reversed(children.get(control.id, []))]
    return found


def limit_of(control: Control, none: str) -> str:
    """The limit, or the word for none."""
    return none if control.limit is None else str(control.limit)


def say_view(view: View) -> str:
    """What a terminal shows."""
    accounts, zombies, tasks = view.accounts, view.zombies, view.tasks
    refused = "  ".join(f"{word} {count}" for word, count in accounts.refused.most_common()) or "none"
    total = len(view.listing.tasks)
    lines = [f"calls {accounts.calls}  tasks {total}  zombies {zombies.total()}", f"refused  {refused}", ""]
    lines.append(f"{'CGROUP':<16}{'TASKS':>8}{'LIMIT':>9}{'PEAK':>8}{'REFUSED':>9}")
    for depth, it in below(view.listing.controls):
        name, limit = "  " * depth + str(it.id), limit_of(it, "max")
        lines.append(f"{name:<16}{it.count:>8}{limit:>9}{accounts.peaks[it.id]:>8}{accounts.limited[it.id]:>9}")
    lines += ["", f"{'NAMESPACE':<16}{'TASKS':>8}{'ZOMBIES':>9}{'CURSOR':>8}"]
    lines += [f"{it.id:<16}{tasks[it.id]:>8}{zombies[it.id]:>9}{it.cursor:>8}{' fallen' * it.fallen}" for it in view.listing.spaces]
    return "".join(f"{line}\n" for line in lines)


def metric(name: str, kind: str, about: str, values: Iterable[tuple[str, object]]) -> str:
    """A metric in the text format of Prometheus, with a value for each set of labels."""
    lines = [f"# HELP pidtab_{name} {about}", f"# TYPE pidtab_{name} {kind}"]
    return "".join(f"{line}\n" for line in [*lines, *(f"pidtab_{name}{labels} {value}" for labels, value in values)])


def say_prometheus(view: View) -> str:
    """The same in the text format of Prometheus."""
    accounts, zombies, tasks = view.accounts, view.zombies, view.tasks
    controls = [(f'{{control="{it.id}"}}', it) for it in view.listing.controls]
    spaces = [(f'{{space="{it.id}"}}', it.id) for it in view.listing.spaces]
    words = sorted(accounts.refused.items())
    parts = [
        metric("calls_total", "counter", "Calls that were recorded.", [("", accounts.calls)]),
        metric("refusals_total", "counter", "Refused calls by their words.", [(f'{{word="{word}"}}', count) for word, count in words]),
        metric("control_tasks", "gauge", "Tasks of a control group and those below it.", [(it, control.count) for it, control in controls]),
        metric("control_limit", "gauge", "Its limit, +Inf for none.", [(it, limit_of(control, "+Inf")) for it, control in controls]),
        metric("control_peak", "gauge", "The most tasks that it has had.", [(it, accounts.peaks[control.id]) for it, control in controls]),
        metric("control_refusals_total", "counter", "Forks that its limit refused.", [(it, accounts.limited[control.id]) for it, control in controls]),
        metric("namespace_tasks", "gauge", "Tasks of a namespace, without those inside.", [(it, tasks[id]) for it, id in spaces]),
        metric("namespace_zombies", "gauge", "Those of them that have ended.", [(it, zombies[id]) for it, id in spaces]),
    ]
    return "".join(parts)


def write_file(path: str, text: str) -> None:
    """Has the file be this text, at each moment whole, also for one who reads it meanwhile."""
    with open(f"{path}.new", "w", encoding="ascii") as file:
        file.write(text)
    os.replace(f"{path}.new", path)


def show(view: View, given: argparse.Namespace) -> None:
    """Shows a moment where it is asked for."""
    if given.prometheus not in (None, STANDARD_OUTPUT):
        write_file(given.prometheus, say_prometheus(view))
    elif given.prometheus:
        sys.stdout.write(say_prometheus(view))
    else:
        sys.stdout.write(CLEAR * given.again + say_view(view))
    sys.stdout.flush()


def watch(followed: Followed, given: argparse.Namespace) -> None:
    """Shows a table once, or again and again."""
    accounts = Accounts(followed.table, followed.first_stamp)
    for entries in followed.calls:
        accounts.add(entries)
        show(View(accounts, followed.table.list()), given)
        if not given.again:
            break
        time.sleep(given.every)


def read_command_line(called: str, words: Sequence[str] | None) -> argparse.Namespace:
    """The words of the command line."""
    parser = parser_of(called, ABOUT)
    parser.add_argument("--every", type=seconds_of, default=1.0, metavar="SECONDS", help="how long a moment is shown, 1 by default")
    parser.add_argument("--once", action="store_true", help="show one moment, also at a terminal")
    parser.add_argument("--prometheus", metavar="FILE", help="write the text format of Prometheus to this file; - is standard output, once")
    ways = parser.add_mutually_exclusive_group()
    ways.add_argument("--socket", metavar="PATH", help="the table of the service there")
    ways.add_argument("history", nargs="?", metavar="FILE", help="the file of a saved history, which may grow")
    given = parser.parse_args(words)
    if not given.socket and not given.history:
        parser.error("no table: name the FILE of a saved history, or --socket PATH")
    to_file = given.prometheus not in (None, STANDARD_OUTPUT)
    given.again = not given.once and (to_file or (given.prometheus is None and sys.stdout.isatty()))
    return given


def run(called: str = "pidtab-top", words: Sequence[str] | None = None) -> int:
    """Shows what the command line names."""
    given = read_command_line(called, words)
    try:
        watch(follow_service(given.socket) if given.socket else follow_file(given.history), given)
    except KeyboardInterrupt:
        return STATUS_DONE
    except BrokenPipeError:
        raise
    except OSError as fault:
        return complain(f"{given.called}: {fault.filename}: {fault.strerror}", STATUS_USAGE)
    except LibraryFault as fault:
        return complain(f"{given.called}: {fault}", STATUS_USAGE)
    except (BadHistory, BadText) as fault:
        return complain(f"{given.called}: {given.socket or given.history}: {fault}", STATUS_FAULT)
    return STATUS_DONE


def main() -> None:
    """The program `pidtab-top`."""
    finish(run)


if __name__ == "__main__":
    main()
