"""The crates: the rows of calls as numbers."""

import re

from model import call, caller_of, code, fields, imported, is_numbered, named, of
from names import capitals, wrapped
from places import Place, arms, definition, imports

SAVED = "crates/saved_form/src/numbers.rt"
TELLS = "crates/foreign_numbers/src/call_numbers.rt"
TELLS_MODEL = "crates/foreign_numbers/specs/CallNumbers.antt"

# What an argument is as a number in the model.
NUMBERS = {"new": "switch_number {}", "on": "switch_number {}", "use": "kind_number {}"}


def numbers(tables):
    """Each call as numbers, in the model."""
    lines = []
    for row in tables["calls"]:
        held, blank = {it.kind: name for it, name in named(row)}, f"call_blank {row.number} {caller_of(row)}"
        told = "; ".join(f"{it.field} = {NUMBERS.get(it.kind, '{}').format(name)}" for it, name in named(row) if it.field != "caller")
        said = "wait_numbers caller which" if "which" in held else "limit_numbers id limit" if "most" in held else f"record ({blank}) {{ {told} }}" if told else blank
        lines.append(f"call_numbers {call(row)} = {said}".replace(" kind ", " what ").replace(" kind;", " what;"))
    return lines


def operations(tables):
    """What each operation takes, in the documentation of the numbers."""
    said = {name: "choice`: " + ", ".join(f"{it.number} {it.word}" for it in of(tables, name)) for name in ("which", "use")}
    lines = []
    for row in tables["calls"]:
        takes = re.sub(r"\{choice\}: \{(\w+)\}", lambda it: f"`{said[it[1]]}", row.takes)
        lines.append(f"/// | {row.number} | `{row.call}` | {re.sub(r'[{}]', '`', takes)} |")
    return lines


def operation(row):
    """The name of an operation in code."""
    return f"operations::{capitals(row.call)}"


def arm(head, told):
    """An arm, which is broken where it is too long."""
    one = f"{head}{told},"
    return [one] if len(one) <= 100 else [f"{head}{{", f"            {told}", "        }"]


def struct(row, first):
    """The numbers of a `setpgid`, which has a struct of its own."""
    return [f"        {code(row)} => CallNumbers {{", *[f"            {it}," for it in fields(row)[1:]], f"            ..blank_call({first})", "        },"]


def by_use(row, first, tables):
    """The numbers of a `next`, for each thing that it looks for."""
    return [f"        {code(row)} => match kind {{", *[f"            Kind::{it.model} => numbered({first}, choices::{it.name}, from)," for it in of(tables, "use")], "        },"]


def tells(tables):
    """Each call as numbers, in code."""
    lines = []
    for row in tables["calls"]:
        kinds, last, first = [it.kind for it, _ in named(row)], fields(row)[-1], f"{operation(row)}, {caller_of(row)}"
        if "signed" in kinds or "use" in kinds:
            lines += struct(row, first) if "signed" in kinds else by_use(row, first, tables)
            continue
        told = f"blank_call({first})" if kinds == ["number"] else {
            "which": f"tell_wait(caller, {last})", "most": f"tell_limit(id, {last})", "id": f"identified({first}, {last})",
            "new": f"numbered({first}, u32::from({last}), 0)", "on": f"numbered({first}, u32::from({last}), 0)", "byte": f"numbered({first}, 0, u32::from({last}))",
        }.get(kinds[-1], f"numbered({first}, 0, {last})")  # fmt: skip
        lines += arm(f"        {code(row)} => ", told)
    return lines


def wait_numbers(tables):
    """A wait as numbers, in the model."""
    lines = []
    for it in of(tables, "which"):
        told = [*([f"choice = {it.number}"] if it.number else []), *(["number = number"] if is_numbered(it) else [])]
        name = f"({it.model} number)" if is_numbered(it) else it.model
        lines.append(f"wait_numbers caller {name} = " + (f"record (call_blank 5 caller) {{ {'; '.join(told)} }}" if told else "call_blank 5 caller"))
    return lines


def tell_wait(tables):
    """A wait as numbers, in code."""
    lines = []
    for it in of(tables, "which"):
        told = f"numbered(operations::WAIT, caller, choices::{it.name}, {'number' if is_numbered(it) else 0})"
        lines += arm(f"        Which::{it.model}{'(number)' if is_numbered(it) else ''} => ", told if it.number else "blank_call(operations::WAIT, caller)")
    return lines


def broken_imports(tables):
    """The imports of all calls, broken after so many columns."""
    return [imported("pid_types.specs.declared.call.Call", [line.strip().strip(",")]) for line in wrapped(", ".join(it.model for it in tables["calls"]), "", 61)]


ROWS = {
    (SAVED, "operations"): (Place(r"/// \| Operation \| Call \| Takes \|", r"/// \|---\|---\|---\|", r"///|#\[.*"), operations),
    (TELLS_MODEL, "imports of Call"): (imports("Call"), broken_imports),
    (TELLS_MODEL, "wait_numbers"): (definition("wait_numbers"), wait_numbers),
    (TELLS_MODEL, "kind_number"): (definition("kind_number"), lambda tables: [f"kind_number kind.{it.model} = {it.number}" for it in of(tables, "use")]),
    (TELLS_MODEL, "call_numbers"): (definition("call_numbers"), numbers),
    (TELLS, "tell_wait"): (arms("tell_wait("), tell_wait),
    (TELLS, "tell_call"): (arms("tell_call("), tells),
}
