"""What the questions take and tell, as the languages have it."""

import re
from typing import NamedTuple

from names import camel
from tables import Row, TableFault, words_of

# A question whose answer is the reply of a call is asked by a call, which is a value.
REPLY = "reply"


class Argument(NamedTuple):
    """An argument of a question: its name, its name in C, its kind, and whether it may be left out; or a choice of the function alone."""

    name: str
    place: str
    kind: str
    is_optional: bool = False
    choice: str = ""


def read_argument(text):
    """An argument, as `pid=number/number?`, or a choice, as `whom=CHILDREN`."""
    name, place, kind, mark, choice = re.fullmatch(r"(\w+?)(?:=(\w+)/(\w+)(\?)?|=([A-Z_]+))?", text).groups()
    return Argument(name, name, "choice", choice=choice) if choice else Argument(name, place or name, kind or "number", bool(mark))


def all_arguments(row):
    """The arguments of the function in their order, its choice too."""
    return [read_argument(it) for it in row.arguments.split(", ")]


def arguments_of(row):
    """The arguments of the question."""
    return [it for it in all_arguments(row) if not it.choice]


def shown(row):
    """The arguments that name what is asked: all except the one that a list goes on from."""
    return [it for it in arguments_of(row) if it.name != "from"]


def by_function(tables):
    """The functions of C, each with its questions."""
    found = {}
    for row in tables["questions"]:
        found.setdefault(row.exports, []).append(row)
    return found


def has(row, status):
    """Whether the status is one of its own."""
    return status in words_of(row.statuses)


def said(text, form):
    """A text whose words in braces are in the form of a language."""
    return re.sub(r"\{(\w+)\}", lambda it: form(it[1]), text)


def memory(row):
    """That the question takes memory, as a sentence with a space after it."""
    return "It takes memory for a list. " if has(row, "NO_MEMORY") else ""


def sentences(row, form):
    """What the question asks, as sentences."""
    return f"{said(row.says, form)} {memory(row)}".strip()


def packages_of(row):
    """What has the question in each package."""
    name = row.question
    asked = "Table" if row.tells == REPLY else "Ask"
    script = camel(name)[0].lower() + camel(name)[1:]
    return {"python": f"{asked}.{name}", "rust": f"Table::{name}", "go": f"Table.{camel(name)}", "javascript": f"{asked}.{script}"}


def functions_of(rows):
    """The functions that answer questions, as rows of functions.tbl."""
    return [
        Row(it.at, {"functions": it.exports, "since": it.since, **packages_of(it), "statuses": it.statuses, "sentence": it.sentence, "table": "questions"})
        for it in rows
    ]


def check(rows, kinds):
    """Each choice is one of kinds.tbl, each word in braces an argument or a question, and numbers are always there. Raises TableFault for the first fault."""
    choices, names = {(it.of, it.name) for it in kinds}, {it.question for it in rows}
    for row in rows:
        own = all_arguments(row)
        for it in own:
            if it.choice and (it.name, it.choice) not in choices:
                raise TableFault(f"interface/questions.tbl:{row.at}: {it.name} {it.choice} is not in interface/kinds.tbl")
        if row.of != "-" and row.tells == "numbers":
            raise TableFault(f"interface/questions.tbl:{row.at}: numbers of a {row.of} that may not be there: say so by a word of refusals.tbl")
        for word in re.findall(r"\{(\w+)\}", row.says):
            if word not in names | {it.name for it in own}:
                raise TableFault(f"interface/questions.tbl:{row.at}: {{{word}}} is no argument and no question")
