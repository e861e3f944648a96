"""The calls as methods of the package for Go, and the test that makes them."""

import textwrap

from arguments import arguments_of, refused, said, tells
from names import camel, capitals

CALLS = "bindings/go/calls.go"
TEST = "bindings/go/cases_test.go"

TYPES = {"number": "uint32", "byte": "uint8", "new": "bool", "on": "bool", "id": "uint64", "signed": "int32", "which": "Which", "use": "Kind", "most": "uint32"}
FIELDS = {"caller": "uint32_t", "id": "uint64_t", "number": "uint32_t", "choice": "uint32_t", "pid": "int32_t", "pgid": "int32_t"}

# What reads the reply, and what it answers.
ANSWERS = {
    "FORKED": ("childOf", "(Child, error)"), "OK": ("nothingOf", "error"), "NUMBER": ("numberOf", "(uint32, error)"), "LEVELS": ("levelsOf", "([]uint32, error)"),
    "REAPED": ("endedOf", "(*Reaped, error)"), "COUNTED": ("longOf", "(uint64, error)"), "CONTROL": ("longOf", "(uint64, error)"),
}  # fmt: skip


def lower(name):
    """newSpace of new_space."""
    word = camel(name)
    return word[0].lower() + word[1:]


def typed(found):
    """Names with their types: names of one type have it together."""
    return ", ".join(name if place + 1 < len(found) and found[place + 1][1] == kind else f"{name} {kind}" for place, (name, kind) in enumerate(found))


def taken(row):
    """What the method takes."""
    return typed([(lower(it.name), TYPES[it.kind]) for it in arguments_of(row)])


def put(row):
    """The fields of the call."""
    fields = [f"operation: C.PIDTAB_{capitals(row.call)}"]
    for it in arguments_of(row):
        name = lower(it.name)
        fields += {
            "which": [f"number: {name}.number", f"choice: {name}.choice"], "new": [f"choice: number({name})"], "on": [f"choice: number({name})"],
            "most": [f"number: C.uint32_t({name})", "choice: 1"],
        }.get(it.kind, [f"{it.field}: C.{FIELDS[it.field]}({name})"])  # fmt: skip
    return ", ".join(fields)


def comment(text):
    """A comment."""
    return textwrap.wrap(text, 140, initial_indent="// ", subsequent_indent="// ", break_on_hyphens=False)


def method(row, name, sentence, arguments, fields):
    """A method."""
    reads, answer = ANSWERS[tells(row)[0]]
    memory = "; ErrNoMemory" if row.memory == "yes" else ""
    words = refused(row, form=lambda word: word)
    return [
        *comment(f"{name} is {sentence} Refused as {words}{memory}."), f"func (it calls) {name}({arguments}) {answer} {{",
        f"\treturn {reads}(it.do(C.struct_pidtab_call{{{fields}}}))", "}", "",
    ]  # fmt: skip


def methods(tables):
    """The methods of the calls. One that takes a number or none has two."""
    lines = [""]
    for row in tables["calls"]:
        sentence = said(row) if row.page != "-" else f"the call {row.call}: {said(row)[0].lower()}{said(row)[1:]}"
        lines += method(row, camel(row.call), sentence, taken(row), put(row))
        if any(it.kind == "most" for it in arguments_of(row)):
            name, least = f"{camel(row.call)}Max", put(row).partition(", number")[0]
            lines += method(row, name, f"the call {row.call} for no limit.", taken(row).partition(",")[0], least)
    return lines


def by_methods(tables):
    """The call by its method."""
    lines = ["", "// byItsMethod is what the method of the call tells.", "func byItsMethod(it calls, call Call) told {", "\tswitch call.Operation {"]
    names = {"caller": "call.Caller", "id": "call.ID", "number": "call.Number", "choice": "call.Choice", "pid": "call.Pid", "pgid": "call.Pgid"}
    for row in tables["calls"]:
        passed = [{
            "byte": "uint8(call.Number)", "new": "call.Choice == 1", "on": "call.Choice == 1", "use": "Kind(call.Choice)", "most": "call.Number",
            "which": "[]Which{Any(), Pid(call.Number), OwnGroup(), Group(call.Number)}[call.Choice]",
        }.get(it.kind, names[it.field]) for it in arguments_of(row)]  # fmt: skip
        wrap = "only" if tells(row) == ["OK"] else "of"
        lines.append(f"\tcase Op{camel(row.call)}:")
        if any(it.kind == "most" for it in arguments_of(row)):
            lines += ["\t\tif call.Choice == 0 {", f"\t\t\treturn {wrap}(it.{camel(row.call)}Max({passed[0]}))", "\t\t}"]
        lines.append(f"\t\treturn {wrap}(it.{camel(row.call)}({', '.join(passed)}))")
    return [*lines, "\t}", "\treturn told{}", "}", ""]


PARTS = {(CALLS, "calls"): methods, (TEST, "calls"): by_methods}
