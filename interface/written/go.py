"""The package for Go, whose other numbers are those of the headers of C."""

from arguments import arguments_of, queries
from names import camel, capitals, columns, strings, takes, with_id, wrapped


def constants(rows):
    """A block of constants: the name, its type and value, and a comment."""
    return ["const (", *[f"\t{line}" for line in columns(rows)], ")"]


def refusals(tables):
    """The words of refusals."""
    rows = tables["refusals"]
    having = " || ".join(f"word == {camel(it.word)}" for it in rows if it.id != "-")
    return [
        "",
        "// The words, in the order of their numbers. After NoNumber is the id of a namespace, after PidsLimit that of a control group.",
        *constants([(camel(it.word), f'Word = "{it.word}"', f"// {with_id(it.sentence)}") for it in rows]),
        "",
        "// The words of the refusals, by their numbers from 1 on.",
        "var words = [...]Word{",
        *wrapped(", ".join(['""', *[camel(it.word) for it in rows]]) + ",", "\t", 140),
        "}",
        "",
        "// hasID is whether an id is after the word.",
        "func (word Word) hasID() bool {",
        f"\treturn {having}",
        "}",
        "",
        "// The errors of the words: errors.Is finds each in a Refusal that has its word.",
        "var (",
        *[f"\t{line}" for line in columns([(f"Err{camel(it.word)}", f'= errors.New("pidtab: {it.word}: {with_id(it.sentence)}")') for it in rows])],
        ")",
        "",
        "// The error of each word.",
        "var wordErrors = map[Word]error{",
        *columns([(f"\t{camel(it.word)}:", f"Err{camel(it.word)},") for it in rows]),
        "}",
        "",
    ]


def faults(tables):
    """The words of the faults of a text."""
    rows = columns([(f"{it.number}:", f'"{it.words}",') for it in tables["faults"]])
    return ["", "// The words of the faults, by their numbers.", "var textFaults = [...]string{", *[f"\t{row}" for row in rows], "}", ""]


def kinds(tables):
    """The kinds of a reply."""
    names = {"error": "Errno", **{name: name.capitalize() for name in ("first", "second", "count", "levels", "refusal")}}
    rows = [(f"Reply{'OK' if it.name == 'OK' else camel(it.name)}", f"ReplyKind = C.PIDTAB_{it.name}", f"// {it.tells.format(killed='256', **names)}")
            for it in tables["kinds"] if it.of == "reply"]  # fmt: skip
    return ["", "// The kinds of a Reply, with its fields that each tells.", *constants(rows), ""]


def operations(tables):
    """The calls as numbers."""
    which = ", ".join(f"{it.number} for {it.tells}" for it in tables["kinds"] if it.of == "which")
    fields = {"caller": "Caller", "id": "ID", "number": "Number", "choice": "Choice", "pid": "Pid", "pgid": "Pgid", "which": which, "use": "a Kind"}
    return [
        "", "// The operations, by their names in the script language, with the fields of a Call that each takes; the others are not looked at. A query is",
        "// one that Ask answers too.",
        *constants([(f"Op{camel(it.call)}", f"Operation = C.PIDTAB_{capitals(it.call)}", f"// {takes(it, **fields)}") for it in tables["calls"]]), "",
    ]  # fmt: skip


# What the package has another error for, and what its functions take care of themselves.
OTHER_ERRORS = {"DONE": "nil", "ENDED": "ErrUnsaved"}
NO_ERRORS = ("NO_ROOM", "BAD_TEXT", "DEVICE", "NOT_EMPTY")


def errors(tables):
    """The error of each status."""
    rows = [it for it in tables["statuses"] if it.name not in NO_ERRORS and it.of != "replica"]
    return [line for it in rows for line in (f"\tcase C.PIDTAB_{it.name}:", f"\t\treturn {OTHER_ERRORS.get(it.name, 'Err' + camel(it.name))}")]


# What the fields of a call that have a bound are called, and the greatest value of each, by the kind of the argument.
SWITCHES = ("new", "on", "most")


def greatest(kind, tables):
    """The field of a call that an argument of the kind bounds, and its greatest value; none where the kind has no bound."""
    if kind == "byte":
        return "Number", 255
    if kind in SWITCHES:
        return "Choice", 1
    if kind in ("which", "use"):
        return "Choice", max(int(it.number) for it in tables["kinds"] if it.of == kind)
    return None


# The bounds of pid_max, and what stands for a 0.
PID_MAX = (("defaultPidMax", "DEFAULT_PID_MAX"), ("leastPidMax", "LEAST_PID_MAX"), ("greatestPidMax", "GREATEST_PID_MAX"))


def ranges(tables):
    """The bounds of what opens a table, and of the fields of calls."""
    bounds = {it.name: it.value for it in tables["bounds"]}
    rows = []
    for row in tables["calls"]:
        found = [(argument.name, *it) for argument in arguments_of(row) if (it := greatest(argument.kind, tables))]
        rows += [(f"\tOp{camel(row.call)}:", f'{{"{field}", "{name}", {most}}},') for name, field, most in found]
    return [
        "", "// The bounds of pid_max, and what it is where none is given.",
        *constants([(name, f"= {bounds[bound]}") for name, bound in PID_MAX]), "",
        "// The greatest operation.", f"const lastOperation = Op{camel(tables['calls'][-1].call)}", "",
        "// The field of a call that is bounded, by its operation. All others may have any value.",
        "var bounded = map[Operation]bound{", *columns(rows), "}", "",
    ]  # fmt: skip


def used_errnos(tables):
    """The errors of the kernel that refusals have."""
    return [it.name for it in tables["errnos"] if it.name in {row.error for row in tables["refusals"]}]


def errnos(tables):
    """The names of the errors of refusals."""
    rows = columns([(f"\tsyscall.{name}:", f'"{name}",') for name in used_errnos(tables)])
    return ["", "// The names of the errnos that a refusal may have.", "var errnoNames = map[syscall.Errno]string{", *rows, "}", ""]


def names(tables):
    """The names of statuses, and the queries, in the test of the cases."""
    rows = [it for it in tables["statuses"] if it.name not in NO_ERRORS and it.of in ("table", "record")]
    return [
        "", "// The names of statuses, in the tables of the interface.", "var statusNames = map[error]string{",
        *columns([(f"\t{OTHER_ERRORS.get(it.name, 'Err' + camel(it.name))}:", f'"{it.name}",') for it in rows]), "}", "",
        f"var queryWords = []string{{{strings(queries(tables))}}}", "",
    ]  # fmt: skip


PARTS = {
    ("bindings/go/refusal.go", "errors"): errors, ("bindings/go/ranges.go", "ranges"): ranges,
    ("bindings/go/json.go", "errnos"): errnos,
    ("bindings/go/cases_test.go", "names"): names,
    ("bindings/go/values.go", "operations"): operations, ("bindings/go/values.go", "kinds"): kinds, ("bindings/go/refusal.go", "refusals"): refusals, ("bindings/go/dump.go", "faults"): faults}
