"""`pidtab-play --serve`: a table for a program at the other end of a pipe, which may look at it between its calls."""

import errno
import json
import sys

from pidtab.faults import Refusal
from pidtab.forms import QUERIES, method_of, say_answer
from pidtab.language import judge
from pidtab.table import Table

BAD_LINE = "bad line"
ASK = "ask "


def compact(value: object) -> str:
    """A value as JSON, in one line."""
    return json.dumps(value, separators=(",", ":"))


def say_refusal(refusal: Refusal) -> str:
    """A refusal, as the script language has it."""
    return f"{errno.errorcode[refusal.errno or 0]} {refusal.why}"


def ask(table: Table, line: str) -> str:
    """The answer to a query that is no call."""
    if judge(line.encode()) is not None or line.split(" ")[0] not in QUERIES:
        return BAD_LINE
    method = method_of(line)
    return say_answer(method.name, method.call(table.ask))


def stat(table: Table, words: list[str]) -> str:
    """A task as the caller's namespace sees it, by the numbers that a query takes."""
    if judge(f"getpgid {' '.join(words)}".encode()) is not None:
        return BAD_LINE
    return compact(table.ask.stat(int(words[0]), int(words[1])).to_object())


def look(table: Table, line: str) -> str | None:
    """What a line is answered that makes no call; None for any other."""
    if line == "list":
        return table.list().to_json()
    if line == "dump":
        return compact(table.dump())
    if line.startswith(ASK):
        return ask(table, line.removeprefix(ASK))
    if line.startswith("stat "):
        return stat(table, line.split(" ")[1:])
    return None


def answer(table: Table, line: str) -> str:
    """The one line that a line is answered."""
    try:
        seen = look(table, line)
    except Refusal as refusal:
        return say_refusal(refusal)
    except MemoryError:
        return "no memory"
    return table.answers([line])[0] if seen is None else seen


def serve(table: Table) -> None:
    """Answers standard input, line by line, to its end. An empty line has no answer."""
    for line in sys.stdin.buffer:
        text = line.removesuffix(b"\n").decode("latin-1")
        if text:
            sys.stdout.write(f"{answer(table, text)}\n")
            sys.stdout.flush()
