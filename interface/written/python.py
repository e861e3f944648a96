"""The package for Python."""

from arguments import arguments_of
from names import capitals, strings, wrapped

FAULTS = "bindings/python/pidtab/faults.py"
RAW = "bindings/python/pidtab/raw.py"


def listed(name, words):
    """A tuple of words."""
    return [f"{name} = (", *wrapped(f"{strings(words)},", "    ", 140), ")  # fmt: skip"]


def refusals(tables):
    """The words of refusals."""
    rows = tables["refusals"]
    return [
        "# The words of the refusals, by their numbers from 1 on.",
        *listed("WORDS", [it.word for it in rows]),
        "",
        "# After these words is the id of the namespace, or the control group, that refuses.",
        f"WORDS_WITH_ID = ({strings([it.word for it in rows if it.id != '-'])})",
    ]


def statuses(tables):
    """What the functions answer."""
    values = {it.name: it.value for it in tables["errnos"]}
    heads = {"table": [], "saved": ["", "# Of a saved history besides."], "replica": ["", "# Of a replica besides."]}
    lines = []
    for owner, head in heads.items():
        lines += [*head, *[f"{it.name} = {values.get(it.error, 0)}" for it in tables["statuses"] if it.of == owner]]
    return lines


def faults(tables):
    """The words of the faults of a text."""
    return ["# What a text is that of no table for, by the numbers of the faults from 1 on.", *listed("TEXT_FAULTS", [it.words for it in tables["faults"]])]


def kinds(tables):
    """What a choice says, and the kinds of a reply."""
    lines = []
    for name in ("which", "use", "whom", "tree", "what", "outcome", "reply"):
        names = [it.name for it in tables["kinds"] if it.of == name]
        lines += ["", f"{', '.join(names)} = range({len(names)})"]
    return lines[1:]


def bounds_of(tables, owner):
    """The bounds of an owner."""
    return [f"{it.name} = {it.value}" for it in tables["bounds"] if it.of == owner]


def operations(tables):
    """The calls as numbers."""
    names = [capitals(it.call) for it in tables["calls"]]
    return [f"{', '.join(names[:10])} = range(10)", f"{', '.join(names[10:])} = range(10, {len(names)})"]


def endings(tables, argument):
    """What an argument may be in a line, by the number of its choice."""
    choices = [it for it in tables["kinds"] if it.of == argument.kind]
    if choices:
        return [f" {it.word} {{number}}" if argument.kind == "which" and "number" in it.tells else f" {it.word}" for it in choices]
    return {"new": ["", " new"], "on": [" off", " on"], "most": [" max", " {number}"]}.get(argument.kind, [f" {{{argument.field}}}"])


def lines_of_calls(tables):
    """The line of each call, by its operation and its choice."""
    lines = ["LINES: dict[int, tuple[str, ...]] = {"]
    for row in tables["calls"]:
        forms = [row.call]
        for it in arguments_of(row):
            forms = [form + ending for form in forms for ending in endings(tables, it)]
        lines.append(f"    raw.{capitals(row.call)}: ({', '.join(f'{chr(34)}{form}{chr(34)}' for form in forms)}{',' if len(forms) == 1 else ''}),")
    return [*lines, "}"]


PARTS = {
    ("bindings/python/pidtab/calls.py", "lines"): lines_of_calls,
    (RAW, "operations"): operations,
    ("bindings/python/pidtab/bounds.py", "bounds"): lambda tables: bounds_of(tables, "packages"),
    (RAW, "bounds"): lambda tables: bounds_of(tables, "interface"),
    (RAW, "kinds"): kinds,
    (FAULTS, "refusals"): refusals,
    (RAW, "statuses"): statuses,
    (FAULTS, "faults"): faults,
}
