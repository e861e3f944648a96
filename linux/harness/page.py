"""docs/LINUX.md, made from linux/page.md and the files of linux/differences."""

import re
from pathlib import Path

from harness.differences import CHAPTERS, RUNS, Row, read_rows
from harness.known import agree
from harness.world import NOT_ASKED

LINUX = Path(__file__).resolve().parent.parent
FRAME = LINUX / "page.md"
PAGE = LINUX.parent / "docs" / "LINUX.md"
HEAD = "| What | Smallest script | Kernel; table |\n|---|---|---|\n"
# Where most rows were seen, which the head of the page says once.
USUAL = ("", "6.18, 6.1", "6.18 (version 1), 6.1 (version 2)")
SHORTEST_RUN = 5


def shown_runs(lines: list[str]) -> list[str]:
    """The lines as a reader is shown them: equal ones in a row as `N times`, and those that count up as one with K."""
    shown: list[str] = []
    at = 0
    while at < len(lines):
        same = run_length(lines, at, 0)
        rising = run_length(lines, at, 1)
        if same >= SHORTEST_RUN:
            shown.append(f"`{lines[at]}` {same} times")
        elif rising >= SHORTEST_RUN:
            first, last = number_of(lines[at]), number_of(lines[at + rising - 1])
            shown.append(f"`{re.sub('[0-9]+', 'K', lines[at], count=1)}` for K = {first} to {last}")
        else:
            shown.append(f"`{lines[at]}`")
        at += max(same if same >= SHORTEST_RUN else 1, rising if rising >= SHORTEST_RUN else 1)
    return shown


def number_of(line: str) -> int:
    """The first number of a line."""
    found = re.search("[0-9]+", line)
    return int(found[0]) if found else 0


def run_length(lines: list[str], start: int, step: int) -> int:
    """How many lines from one on are the same except for the first number, which grows by a step."""
    at = start
    while at + 1 < len(lines) and is_next(lines[at], lines[at + 1], step):
        at += 1
    return at - start + 1


def is_next(line: str, other: str, step: int) -> bool:
    """Whether a line is another with its first number grown by a step."""
    return other == re.sub("[0-9]+", str(number_of(line) + step), line, count=1)


def shown_answers(row: Row) -> str:
    """Both answers to the first line that differs."""
    for step in row.steps:
        if step.kernel and step.table and not agree(step.kernel, step.table):
            kernel = "not run" if step.kernel.startswith(NOT_ASKED) else f"`{step.kernel}`"
            return f"{kernel}; `{step.table}`"
    return ""


def shown_row(row: Row) -> str:
    """The row's line of the page."""
    script = ", ".join(shown_runs(row.lines()))
    if row.pid_max is not None:
        script = f"pid_max {row.pid_max}: {script}"
    seen = "" if row.seen in USUAL else ". It was not run" if row.seen == "not run" else f" ({row.seen} alone)"
    reason = f" ({row.run})" if row.run not in RUNS else ""
    return f"| *{row.name}*: {row.what}{seen}{reason} | {script} | {shown_answers(row)} |\n"


def make_page(rows: list[Row]) -> str:
    """The page's text."""
    text = FRAME.read_text(encoding="utf-8")
    for chapter in CHAPTERS:
        table = HEAD + "".join(shown_row(row) for row in rows if row.chapter == chapter)
        text = text.replace(f"[[{chapter}]]\n", table)
    return text


def write_page() -> None:
    """Writes the page anew."""
    PAGE.write_text(make_page(read_rows()), encoding="utf-8")


def page_is_current() -> bool:
    """Whether the page is what the files make."""
    return PAGE.read_text(encoding="utf-8") == make_page(read_rows())
