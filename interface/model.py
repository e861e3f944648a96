"""The calls as the crates have them."""

from arguments import arguments_of

# The calls that came last. They stand after the others where those are in the order of their lines.
LATER = ("join", "subreaper")


def named(row):
    """The arguments of a call, each with the name of its field. What is the number of a task is a target there."""
    return [(it, "target" if it.name == "number" else it.name) for it in arguments_of(row)]


def fields(row):
    """The names of the fields of a call."""
    return [name for _, name in named(row)]


def call(row):
    """A call with its fields, in a definition."""
    return f"({' '.join([row.model, *fields(row)])})"


def code(row):
    """A call with its fields, in code."""
    return f"Call::{row.model} {{ {', '.join(fields(row))} }}"


def caller_of(row):
    """Who makes a call or is moved by it, or 0."""
    return next((name for it, name in named(row) if it.field == "caller"), "0")


def in_lines(tables):
    """The calls in the order of their lines."""
    order = [word.split(" ")[0] for row in tables["lines"] for word in row.calls.split(", ")]
    return sorted(tables["calls"], key=lambda it: (it.call in LATER, order.index(it.call)))


def of(tables, name):
    """What a wait selects, `which`, or what a next looks for, `use`."""
    return [it for it in tables["kinds"] if it.of == name]


def is_numbered(kind):
    """Whether what a wait selects has a number."""
    return "the number" in kind.tells


def imported(path, names):
    """The import of all variants of an enum in one line."""
    return f"use Rattle.{path}.TheVariants.{{{', '.join(names)}}}"
