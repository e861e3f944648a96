"""The forms of a name and of a list that the languages have."""

import re
import textwrap


def capitals(word):
    """NO_CALLER of no-caller."""
    return word.upper().replace("-", "_")


def camel(word):
    """NoCaller of no-caller, and of NO_CALLER."""
    return "".join(part.capitalize() for part in word.replace("_", "-").split("-"))


def snake(word):
    """A name of a type as the name of a function: `get_pid` for `GetPid`."""
    return re.sub(r"(?<!^)(?=[A-Z])", "_", word).lower()


def with_id(sentence):
    """A sentence that says "with the id"."""
    return sentence.replace("{id}", "with the id")


# How the name of a query of C with arguments of its own ends. The packages make it by call.
TYPED = "_of"

FIELDS = ("caller", "id", "number", "choice", "pid", "pgid")


def takes(row, **said):
    """What a call takes, its fields by these names or their own, and whether it is a query."""
    return row.takes.format(**{**{field: field for field in FIELDS}, **said}) + ("; a query" if row.query == "yes" else "")


def sentence(text):
    """With a capital letter and a full stop."""
    return f"{text[0].upper()}{text[1:]}." if text[0].isalpha() else f"{text}."


def strings(words):
    """Words between quotes, with commas."""
    return ", ".join(f'"{word}"' for word in words)


def wrapped(text, indent, width, first=None):
    """The lines of a list of words, which is broken after commas alone. The first line may have another indent."""
    held, begin = text.replace(", ", ",\0").replace(" ", "\1").replace("\0", " "), indent if first is None else first
    lines = textwrap.wrap(held, width, initial_indent=begin, subsequent_indent=indent, break_long_words=False, break_on_hyphens=False)
    return [line.replace("\1", " ") for line in lines]


def columns(rows, between=" "):
    """Rows of cells as lines, each cell but the last as wide as the widest of its column."""
    widths = [max(len(cell) for cell in column) for column in zip(*rows)]
    return [between.join([cell.ljust(width) for cell, width in zip(row[:-1], widths)] + [row[-1]]).rstrip() for row in rows]
