"""What the calls take and tell, as the languages have it."""

import re
from typing import NamedTuple

from names import TYPED, camel
from tables import Row, words_of

# The fields of `struct pidtab_call` after the operation, in their order.
FIELDS = ("caller", "id", "number", "choice", "pid", "pgid")


class Argument(NamedTuple):
    """An argument of a call: its name, the field that it is, its kind, and whether it may be left out."""

    name: str
    field: str
    kind: str
    is_optional: bool


def arguments_of(row):
    """The arguments of a call. The caller is a number in a field of its own."""
    found = [re.fullmatch(r"(\w+)(?:=(\w+)/(\w+)(\?)?)?", it).groups() for it in row.arguments.split(", ")]
    return [Argument(name, field or name, kind or "number", bool(mark)) for name, field, kind, mark in found]


def said(row, quoted="{}", page=lambda text: text):
    """What the call does, as a sentence with its page. Its arguments are quoted so."""
    sentence = re.sub(r"\{(\w+)\}", lambda it: quoted.format(it[1]), row.sentence)
    return f"{sentence[0].upper()}{sentence[1:]}." if row.page == "-" else f"{page(row.page)}: {sentence}."


def refused(row, quoted="{}", form=camel):
    """For which reasons a call is refused, each once."""
    return ", ".join(dict.fromkeys(quoted.format(form(word)) for word in words_of(row.refusals)))


def queries(tables):
    """The words of the queries."""
    return [row.call for row in tables["calls"] if row.query == "yes"]


def tells(row):
    """The kinds of its replies."""
    return words_of(row.tells)


# The release in which the first functions of C for such queries came.
SINCE = "0.2.0"

# The replies that are one number, or none.
ONE_NUMBER = ("NUMBER", "COUNTED", "CONTROL", "END")


def with_numbers(tables):
    """The queries that tell one number, each of which has a function of its own in the library. Those with a caller come first."""
    found = [row for row in tables["calls"] if row.query == "yes" and all(kind in ONE_NUMBER for kind in tells(row))]
    return sorted(found, key=lambda it: arguments_of(it)[0].field != "caller")


def functions_of(tables):
    """These functions, as rows of functions.tbl."""
    packages = dict.fromkeys(("python", "rust", "go", "javascript"), "-")
    rows = []
    for row in with_numbers(tables):
        bound = "OUT_OF_RANGE, " if any(it.field == "choice" for it in arguments_of(row)) else ""
        cells = {"functions": f"{row.call}{TYPED}", "since": SINCE, **packages, "statuses": f"CLOSED, {bound}SPENT, DONE", "sentence": f"makes a {row.call}, and tells its number alone"}
        rows.append(Row(row.at, {**cells, "table": "calls"}))
    return rows
