"""The lines of a list in the package for Go: its structs, the forms of the lines, and what reads them."""

from names import columns
from written.fields import fields_of

PATH = "bindings/go/listing.go"
KINDS = {"task": "a task", "space": "a namespace", "control": "a control group"}

TYPES = {"numbers": "[]uint32", "number": "uint32", "id": "uint64", "count": "uint64", "root": "*uint64", "limit": "*uint32", "mark": "bool", "apart": "*uint64"}

# How a field is written after its word, and what reads the group with that number.
FORMS = {"numbers": r"(\d+(?:,\d+)*)", "root": r"(-|\d+)", "limit": r"(max|\d+)"}
READS = {
    "numbers": "read.numbers(found[{}])", "number": "uint32(read.number(found[{}], 32))", "id": "read.number(found[{}], 64)", "count": "read.number(found[{}], 64)",
    "root": 'read.id(found[{}], "-")', "limit": "read.limit(found[{}])", "mark": 'found[{}] != ""', "apart": 'read.id(found[{}], "")',
}  # fmt: skip

# What a task has of its state, and besides.
STATE = (("Live", "bool", "a task that is not has ended, and was not yet waited for"), ("Killed", "bool", "it ended by the fall of its namespace"),
         ("Status", "uint8", "of its exit, where it ended by one"))  # fmt: skip
LABEL = ("Label", "string", "a name from outside of the table, empty for none: WithLabels gives it")


def exported(row):
    """The name of a field."""
    return "ID" if row.field == "id" else row.field.capitalize()


def said(row):
    """What a field is."""
    return row.sentence if row.none == "-" else f"{row.sentence}, nil for {row.none}"


def struct(tables, line):
    """A struct. Except a task, its fields have their names in JSON."""
    rows = []
    for it in fields_of(tables, "list", line):
        if it.type == "state":
            rows += [(f"\t{name}", kind, f"// {text}") for name, kind, text in STATE]
        else:
            rows.append((f"\t{exported(it)}", TYPES[it.type], *([] if line == "task" else [f'`json:"{it.field}"`']), f"// {said(it)}"))
    rows += [(f"\t{LABEL[0]}", LABEL[1], f"// {LABEL[2]}")] if line == "task" else []
    return [f"// {line.capitalize()} is {KINDS[line]} of a list.", f"type {line.capitalize()} struct {{", *columns(rows), "}"]


def part_of(line):
    """The part of a struct."""
    return lambda tables: struct(tables, line)


def task_object(tables):
    """A task in JSON."""
    rows = []
    for it in fields_of(tables, "list", "task"):
        rows += [("State", "string", "state"), ("Status", "*uint8", "status")] if it.type == "state" else [(exported(it), TYPES[it.type], it.field)]
    told = [(f"\t{name}", kind, f'`json:"{field}"`') for name, kind, field in [*rows, ("Label", "string", "label,omitempty")]]
    return ["// A taskObject is a task as docs/list.schema.json has it.", "type taskObject struct {", *columns(told), "}"]


def form(row, word):
    """How a field is written."""
    if row.type == "state":
        return r" (live|killed|exit (\d+))"
    if row.type in ("mark", "apart"):
        return f"({word})?" if row.type == "mark" else rf"(?:{word} (\d+))?"
    return f"{word} {FORMS.get(row.type, chr(40) + chr(92) + 'd+)')}"


def forms(tables):
    """The forms of the lines. That of a task is broken before its state."""
    lines = {}
    for line in KINDS:
        rows = fields_of(tables, "list", line)
        lines[line] = "".join(form(it, f" {it.field}" if place else line) for place, it in enumerate(rows))
    first, _, second = lines["task"].partition(" (live")
    others = columns([(f"\t{line}Line", f"= regexp.MustCompile(`^{lines[line]}$`)") for line in ("space", "control")])
    return ["var (", f"\ttaskLine = regexp.MustCompile(`^{first}` +", f"\t\t` (live{second}$`)", *others, ")"]


def reader(tables, line):
    """What reads the groups of a line."""
    rows, group = [], 1
    for it in fields_of(tables, "list", line):
        if it.type == "state":
            rows += [("\t\tLive:", f'found[{group}] == "live",'), ("\t\tKilled:", f'found[{group}] == "killed",'), ("\t\tStatus:", f"read.status(found[{group + 1}]),")]
        else:
            rows.append((f"\t\t{exported(it)}:", f"{READS[it.type].format(group)},"))
        group += 2 if it.type == "state" else 1
    name = line.capitalize()
    return ["", f"func (read *reader) {line}(found []string) {name} {{", f"\treturn {name}{{", *columns(rows), "\t}", "}"]


def readers(tables):
    """What reads each line."""
    return [text for line in KINDS for text in reader(tables, line)] + [""]


def apart(function):
    """A part with an empty line on both sides, so that its first comment is that of what it declares."""
    return lambda tables: ["", *function(tables), ""]


PARTS = {
    **{(PATH, f"struct of {named}"): apart(part_of(line)) for line, named in KINDS.items()},
    (PATH, "object of a task"): apart(task_object),
    (PATH, "forms"): apart(forms),
    (PATH, "readers"): readers,
}
