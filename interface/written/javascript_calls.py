"""The calls as methods of the package for JavaScript, and their types."""

from arguments import arguments_of, queries, refused, said, tells
from names import capitals, strings

CALLS = "bindings/js/src/calls.js"
TYPES = "bindings/js/pidtab.d.ts"

# Names of the package for arguments, the types of their kinds, and what is there where one is left out.
NAMES = {"id": "control", "number": "pid", "pgid": "group", "from": "start", "limit": "most", "kind": "use"}
KINDS = {"id": "Long", "most": "number | null", "use": "Use", "on": "boolean", "which": "Which"}
LEFT_OUT = {"id": "0n", "most": "null", "use": '"task"', "on": "true"}
CHECKED = {
    "byte": 'checkRange("{0}", {0}, 0, 255)', "signed": 'checkSigned("{0}", {0})', "use": "choiceOf({0})", "on": "{0} ? 1 : 0",
    "most": '{0} === null ? 0 : checkNumber("{0}", {0})',
}  # fmt: skip

# What reads the answer, and its type.
ANSWERS = {
    "FORKED": (None, "Forked"), "REAPED": (None, "Reaped | null"), "OK": ("nothing", "void"), "NUMBER": ("aNumber", "number"),
    "LEVELS": ("theNumbers", "number[]"), "COUNTED": ("aNumber", "number"), "CONTROL": ("anId", "bigint"), "NUMBER, END": ("theNext", "number | null"),
}  # fmt: skip


def name_of(argument):
    """Its name here."""
    return NAMES.get(argument.name, argument.name)


def answer_of(row):
    """What reads the answer, and its type."""
    return ANSWERS.get(row.tells) or ANSWERS[tells(row)[0]]


def taken(argument):
    """What the method takes."""
    return f"{name_of(argument)} = {LEFT_OUT.get(argument.kind, '0')}" if argument.is_optional else name_of(argument)


def method(row):
    """A method. The caller, or the id, is checked where the call is made."""
    found = arguments_of(row)
    values = {it.field: CHECKED.get(it.kind, 'checkNumber("{0}", {0})').format(name_of(it)) for it in found}
    most = next((name_of(it) for it in found if it.kind == "most"), None)
    if most:
        values["choice"] = f"{most} === null ? 0 : 1"
    first = "id" if "id" in values else "caller"
    order = ["caller", "number", "choice"] if first == "id" else ["number", "choice"]
    last = max((place for place, field in enumerate(order) if field in values), default=-1)
    passed = [next(name_of(it) for it in found if it.field == first), *[values.get(field, "0") for field in order[: last + 1]]]
    groups = [f"    this._open().writeGroups({values['pid']}, {values['pgid']});"] if "pgid" in values else []
    make = f"this._make{'Of' if first == 'id' else ''}({answer_of(row)[0]}, OPERATION.{capitals(row.call)}, {', '.join(passed)})"
    return [f"  {row.call}({', '.join(taken(it) for it in found)}) {{", *groups, f"    return {make};", "  }", ""]


def methods(tables, query):
    """The methods of the queries, or of the other calls. A fork and a wait are by hand, as they take objects."""
    return [line for row in tables["calls"] if row.query == query and answer_of(row)[0] for line in method(row)][:-1]


def declared(argument):
    """An argument with its type."""
    if argument.kind == "new":
        return "options?: { newSpace?: boolean }"
    return f"{name_of(argument)}{'?' if argument.is_optional else ''}: {KINDS.get(argument.kind, 'number')}"


def types(tables, query):
    """The methods with what they take and tell."""
    lines = []
    for row in (it for it in tables["calls"] if it.query == query):
        text = f"{said(row, '`{}`')} {refused(row, form=lambda word: word)}."
        for it in arguments_of(row):
            text = text.replace(f"`{it.name}`", f"`{name_of(it)}`")
        taken_here = ", ".join(declared(it) for it in arguments_of(row))
        lines += [f"  /** {text} */", f"  {row.call}({taken_here}): {answer_of(row)[1]};"]
    return lines


PARTS = {
    ("bindings/js/tests/cases.test.js", "queries"): lambda tables: [f"const QUERIES = [{strings(queries(tables))}];"],
    (CALLS, "queries"): lambda tables: methods(tables, "yes"),
    (CALLS, "calls"): lambda tables: methods(tables, "no"),
    (TYPES, "queries"): lambda tables: types(tables, "yes"),
    (TYPES, "calls"): lambda tables: types(tables, "no"),
}
