"""The crates: the rows of calls that are read from numbers."""

from model import is_numbered, named, of
from places import arms, definition, imports
from written.rattle_lines import all_calls
from written.rattle_numbers import arm, operation

READS = "crates/foreign_numbers/src/numbers.rt"
READS_MODEL = "crates/foreign_numbers/specs/Numbers.antt"

# What reads an argument of a kind: after read_ in code, and before _of in the model. And the fields that say it.
FROM = {
    "new": ("switch", "n.choice"), "on": ("switch", "n.choice"), "byte": ("status", "n.number"), "which": ("which", "n.choice n.number"), "use": ("kind", "n.choice"),
    "most": ("limit", "n.choice n.number"),
}  # fmt: skip

# The functions that read a call, each with its first operation, and what stands for itself in its code.
READERS = (("call", 0, ("caller",)), ("control_call", 9, ("id",)), ("later_call", 14, ("caller", "number")))


def chosen(function, rows, form):
    """The rows of a function from choices, in the model."""
    first, *others = rows
    ways = [f"    if choice == {first.number} then Some {form(first)}", *[f"    else (if choice == {it.number} then Some {form(it)}" for it in others]]
    return [f"{function} =", *ways[:-1], f"{ways[-1]} else None{')' * len(others)}"]


def which_of(tables):
    """What a wait selects, in the model."""
    return chosen("which_of choice number", of(tables, "which"), lambda it: f"({it.model} number)" if is_numbered(it) else it.model)


def kind_of(tables):
    """What a next looks for, in the model."""
    return chosen("kind_of choice", of(tables, "use"), lambda it: f"kind.{it.model}")


def read_choice(name, of_kind):
    """The arms of a function from choices, in code."""
    return lambda tables: [
        *[f"        choices::{it.name} => Some({of_kind}::{it.model}{'(number)' if name == 'which' and is_numbered(it) else ''})," for it in of(tables, name)], "        _ => None,",
    ]  # fmt: skip


def part_of(tables, first):
    """The calls of a function that reads them, and the function that reads those after."""
    begins = [it[1] for it in READERS] + [len(tables["calls"])]
    place = begins.index(first)
    return tables["calls"][first : begins[place + 1]], READERS[place + 1][0] if place + 1 < len(READERS) else ""


def reader_of(row):
    """What reads an argument of a call, the fields that say it, and the name of what it reads; or nothing."""
    return next(((*FROM[it.kind], name) for it, name in named(row) if it.kind in FROM), (None, None, None))


def values_of(row, read, known=()):
    """The fields of a call with their values: what is read, what stands for itself, or a number."""
    return [(name, name if name == read else it.field if it.field in known else f"n.{it.field}") for it, name in named(row)]


def said(row):
    """The call that numbers say, in the model."""
    reader, taken, read = reader_of(row)
    told = " ".join([row.model, *(value for _, value in values_of(row, read))])
    return f"option_map (λ {read}. {told}) ({reader}_of {taken})" if reader else f"Some ({told})"


def read_model(first, name):
    """The calls from an operation on, in the model."""

    def rows(tables):
        those, behind = part_of(tables, first)
        ways = [f"    {'else (' if row.number > first else ''}if n.operation == {row.number} then {said(row)}" for row in those]
        return [f"{name} n =", *ways, f"    else {behind + '_of n' if behind else 'None'}{')' * (len(ways) - 1)}"]

    return rows


def arm_of(row, known):
    """The call that numbers say, in code: fields of more than 18 columns are broken."""
    reader, taken, read = reader_of(row)
    told = [name if name == value else f"{name}: {value}" for name, value in values_of(row, read, known)]
    head = f"read_{reader}({taken.replace(' ', ', ')}).map(|{read}| " if reader else "Some("
    begin, struct = f"        {operation(row)} => ", f"{head}Call::{row.model} {{"
    if len(", ".join(told)) <= 18:
        return arm(begin, f"{struct} {', '.join(told)} }})")
    return [begin + struct, *[f"            {it}," for it in told], "        }),"]


def read_code(first, known):
    """The calls from an operation on, in code."""

    def rows(tables):
        those, behind = part_of(tables, first)
        return [*[line for row in those for line in arm_of(row, known)], f"        _ => {f'read_{behind}(n)' if behind else 'None'},"]

    return rows


ROWS = {
    (READS_MODEL, "imports of Call"): (imports("Call"), all_calls),
    (READS_MODEL, "which_of"): (definition("which_of"), which_of),
    (READS_MODEL, "kind_of"): (definition("kind_of"), kind_of),
    (READS, "read_which"): (arms("read_which("), read_choice("which", "Which")),
    (READS, "read_kind"): (arms("read_kind("), read_choice("use", "Kind")),
    **{(READS_MODEL, f"{name}_of"): (definition(f"{name}_of"), read_model(first, f"{name}_of")) for name, first, _ in READERS},
    **{(READS, f"read_{name}"): (arms(f"read_{name}("), read_code(first, known)) for name, first, known in READERS},
}
