"""The lines of the list and of the text of a table: in the pages by their fields, and for the readers that go by a table of them."""

import textwrap
from itertools import groupby

from names import sentence
from written.lines import sentences
from written.markdown import said

SCRIPT = "docs/SCRIPT.md"
MANUAL = "man/pidtab.5"
PYTHON = "bindings/python/pidtab/listing.py"
JAVASCRIPT = "bindings/js/src/listing.js"
TYPED = "bindings/js/pidtab.d.ts"
KERNEL = "linux/harness/kernel_list.py"

# What the pages say after a field of a type.
BEHIND = {
    "numbers": ", with commas between", "mark": "; else it is left out", "apart": "; left out for {none}", "root": ", `-` for {none}", "first": ", `-` for {none}",
    "limit": ", `max` for {none}",
}  # fmt: skip
STATES = ("live", "exit S", "killed")
AS_IN_THE_LIST = "as in the list"

# The types of TypeScript; a state is two fields.
TYPES = {"numbers": "number[]", "id": "bigint", "root": "bigint | null", "apart": "bigint | null", "limit": "number | null", "mark": "boolean"}
STATE = ("  /** Whether it lives. */", "  live: boolean;", "  /** That of its exit, null where there was none. */", "  status: number | null;")


def fields_of(tables, of, line=None):
    """The fields of the list or of the text, of one line or of all."""
    return [it for it in tables["list"] if it.of == of and line in (it.line, None)]


def lines_of(tables, of):
    """Each line with its fields."""
    return [(line, list(rows)) for line, rows in groupby(fields_of(tables, of), lambda it: it.line)]


def written(row, is_first):
    """How a field is written; a name that is told first has no word."""
    word = "" if is_first and row.line in ("task", "space", "control") else row.field
    return STATES if row.type == "state" else (" ".join(filter(None, (word, row.letter.strip("-")))),)


def what(row):
    """What a field says, for the pages."""
    return row.sentence + BEHIND.get(row.type, "").format(none=row.none)


def page(of):
    """The lists of a page, one for each line. Fields in a row that are as in the list are one item."""

    def part(tables):
        lines = []
        for line, fields in lines_of(tables, of):
            told = []
            for place, it in enumerate(fields):
                text = it.sentence if it.sentence == AS_IN_THE_LIST else said(what(it))
                told.append((text, ", ".join(f"`{form}`" for form in written(it, place == 0))))
            lines += [f"- `{line}`"]
            lines += [f"  - {', '.join(form for _, form in same)}: {text}" for text, same in groupby(told, lambda it: it[0])]
        return ["", *lines, ""]

    return part


def manual(of):
    """The lists of the manual page, one for each line."""

    def part(tables):
        lines = []
        for line, fields in lines_of(tables, of):
            lines += [f".It Ic {line}", ".Bl -tag -width Ds -compact"]
            for place, it in enumerate(fields):
                lines += [*[f".It Li {form}" for form in written(it, place == 0)], *sentences(f"{what(it)[0].upper()}{what(it)[1:]}.")]
            lines += [".El"]
        return [".Bl -tag -width Ds", *lines, ".El"]

    return part


def readable(tables, line):
    """The fields that a package has of a line, each with its type: a state is whether it lives, and the status of its exit."""
    told = {it.field: it.type for it in fields_of(tables, "list", line)}
    return {name: kind for field, type_ in told.items() for name, kind in ({"live": "state", "status": "status"} if type_ == "state" else {field: type_}).items()}


def python(tables):
    """A dictionary of dictionaries."""
    lines = []
    for line, _ in lines_of(tables, "list"):
        told = [f'"{name}": "{kind}"' for name, kind in readable(tables, line).items()]
        lines += [f'    "{line}": {{', *[f"        {it}," for it in told], "    },"]
    return ["FIELDS: dict[str, dict[str, str]] = {", *lines, "}"]


def javascript(tables):
    """An object of objects."""
    lines = [f"  {line}: {{ {', '.join(f'{name}: {chr(34)}{kind}{chr(34)}' for name, kind in readable(tables, line).items())} }}," for line, _ in lines_of(tables, "list")]
    return ["const LINE_FIELDS = {", *lines, "};"]


def typed(line):
    """The fields of an interface of TypeScript."""

    def part(tables):
        lines = []
        for it in fields_of(tables, "list", line):
            text = f"whether {it.sentence}" if it.type == "mark" else it.sentence if it.none == "-" else f"{it.sentence}, null for {it.none}"
            lines += STATE if it.type == "state" else (f"  /** {sentence(text)} */", f"  {it.field}: {TYPES.get(it.type, 'number')};")
        return lines

    return part


def formed(tables, line):
    """A line with a place for each field."""
    told = []
    for place, it in enumerate(fields_of(tables, "list", line)):
        word = line if place == 0 else it.field
        told.append(f"{{{it.field}}}" if it.type in ("mark", "apart") else f" {{{it.field}}}" if it.type == "state" else f"{' ' if place else ''}{word} {{{it.field}}}")
    return "".join(told)


def kernel(tables):
    """The lines with a place for each field."""
    lines = []
    for line, _ in lines_of(tables, "list"):
        told = textwrap.wrap(formed(tables, line), 100, drop_whitespace=False)
        lines += [f'{line.upper()} = "{told[0]}"'] if len(told) == 1 else [f"{line.upper()} = (", *[f'    "{it}"' for it in told], ")"]
    return lines


PARTS = {
    (SCRIPT, "fields of the list"): page("list"),
    (SCRIPT, "fields of the text"): page("text"),
    (MANUAL, "fields of the list"): manual("list"),
    (MANUAL, "fields of the text"): manual("text"),
    (PYTHON, "fields"): python,
    (JAVASCRIPT, "fields"): javascript,
    **{(TYPED, f"fields of {line}"): typed(line) for line in ("task", "space", "control")},
    (KERNEL, "lines"): kernel,
}
