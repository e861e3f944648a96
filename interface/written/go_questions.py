"""The questions as methods of the package for Go, of a table and of one on many hosts."""

from names import camel
from questions import REPLY, all_arguments, arguments_of, has, sentences
from written.go_calls import TYPES, comment, lower, typed

QUESTIONS = "bindings/go/questions.go"
HOSTS = "bindings/go/cluster/queries.go"

# The errors for an id that nothing has: what a caller compares with, and what is told.
ABSENT = {"namespace": ("ErrNoNamespace", "noSpace"), "control group": ("ErrNoControl", "noControl")}

KINDS = {**TYPES, "call": "Call", "query": "Call"}
RANGES = {"call": "rangeFault", "query": "queryFault"}
LISTS = {
    "numbers": ("[]uint32", "numbers *C.uint32_t, room C.size_t, reply *C.struct_pidtab_reply", "numbers, room, reply"),
    "ids": ("[]uint64", "ids *C.uint64_t, room C.size_t, count *C.uint64_t", "ids, room, count"),
}  # fmt: skip


def answer_of(row):
    """The type of the answer. Any struct has one of its own, but that of a task."""
    return {"task": "Stat", REPLY: "Reply"}.get(row.tells) or (LISTS[row.tells][0] if row.tells in LISTS else f"{camel(row.tells)}Stat")


def taken(row):
    """What the method takes."""
    return typed([(lower(it.name), KINDS[it.kind]) for it in arguments_of(row)])


def passed(row):
    """What the function of the library takes."""
    casts = {"number": "C.uint32_t({})", "id": "C.uint64_t({})", "call": "&numbers", "query": "&numbers"}
    return ", ".join(["&held.raw", *[f"C.PIDTAB_{it.choice}" if it.choice else casts[it.kind].format(lower(it.name)) for it in all_arguments(row)]])


def begin(text):
    """A sentence that goes on after a name."""
    first, _, rest = text.partition(" ")
    return f"{first.lower()} {rest}" if first in ("Reads", "Answers") else f"tells {first.lower()} {rest}"


def errors(row):
    """What the method answers in place of the answer."""
    told = ["" if row.refusals == "-" else f"Refused as {row.refusals}."]
    told += [] if row.of == "-" else [f"{ABSENT[row.of][0]}, by errors.Is, where no {row.of} has the id, or it is gone."]
    kinds = [it.kind for it in arguments_of(row)]
    told += ["The operations say which are queries; ErrOutOfRange for each other call."] if "query" in kinds else ["ErrOutOfRange for what is no call."] if "call" in kinds else []
    named = [name for status, name in (("SPENT", "ErrSpent"), ("NO_MEMORY", "ErrNoMemory")) if has(row, status)]
    return " ".join(filter(None, [*told, f"{', '.join([*named, 'ErrClosed', 'ErrBusy'])}."]))


def said(tables, row):
    """What the method does: a question of a table is no call, and costs no stamp."""
    names = {it.name: lower(it.name) for it in arguments_of(row)} | {it.question: camel(it.question) for it in tables["questions"]}
    no_call = "" if row.question == "ask" else "It is no call, as Ask makes none. "
    return f"{camel(row.question)} {begin(sentences(row, lambda word: names[word]))} {no_call}{errors(row)}"


def asked(row):
    """What is asked, in the words of a refusal: the name of the question and its numbers."""
    return ", ".join([f'"{row.question.replace("_", " ")}"', *[it.name if it.kind == "id" else f"uint64({lower(it.name)})" for it in arguments_of(row)]])


def absent(row):
    """The error for an id that nothing has."""
    return f"{ABSENT[row.of][1]}({lower(next(it.name for it in arguments_of(row) if it.kind == 'id'))})"


def beside(row, place):
    """The lines that read an answer into its place, beside other queries."""
    return [
        "\tstatus := table.beside(func(held *heldTable) C.uint32_t {", f"\t\treturn C.pidtab_{row.exports}({passed(row)}, {place})", "\t})",
    ]  # fmt: skip


def body(row):
    """The code of a method, by what it tells."""
    if row.tells == REPLY:
        query = arguments_of(row)[0]
        return [
            f"\tnumbers, reply := {lower(query.name)}.numbers(), new(C.struct_pidtab_reply)", *beside(row, "reply"),
            f"\tif err := named(status, {lower(query.name)}.{RANGES[query.kind]}); err != nil {{", "\t\treturn Reply{}, err", "\t}", "\treturn replyOf(reply), nil",
        ]  # fmt: skip
    may_be_absent = f"{absent(row)}, " if row.of != "-" else ""
    if row.tells in LISTS:
        _, places, given = LISTS[row.tells]
        page, call = f"table.{row.tells}({may_be_absent}func(held *heldTable, {places}) C.uint32_t {{", f"\t\treturn C.pidtab_{row.exports}({passed(row)}, {given})"
        return told(row, [f"{page}", call, "\t})"])
    reads = f"{'stat' if row.tells == 'task' else lower(row.tells)}Of({may_be_absent}status, {row.tells})"
    return [f"\t{row.tells} := new(C.struct_pidtab_{row.tells})", *beside(row, row.tells), *told(row, [reads])]


def told(row, lines):
    """The lines of what is told, with what was asked where that may be refused."""
    if row.refusals == "-":
        return [f"\treturn {lines[0]}", *lines[1:]]
    return [f"\tfound, err := {lines[0]}", *lines[1:], f"\treturn found, withCall(err, {asked(row)})"]


def methods(tables):
    """The methods of a table."""
    lines = [""]
    for row in tables["questions"]:
        head = f"func (table *Table) {camel(row.question)}({taken(row)}) ({answer_of(row)}, error) {{"
        lines += [*comment(said(tables, row)), head, *body(row), "}", ""]
    return lines


def of_hosts(tables):
    """The methods of a table on many hosts, which ask this host's own."""
    lines = [""]
    for row in tables["questions"]:
        name = camel(row.question)
        types = {kind: f"pidtab.{kind}" for kind in ("Call", "Reply", "Stat", "SpaceStat")}
        answer = types.get(answer_of(row), answer_of(row))
        given = typed([(lower(it.name), types.get(KINDS[it.kind], KINDS[it.kind])) for it in arguments_of(row)])
        call = f"own.{name}({', '.join(lower(it.name) for it in arguments_of(row))})"
        lines += [*comment(f"{name} is {name} of a pidtab.Table, of this host's own table. It is no call, and nothing goes into the log."),
                  f"func (table *Replicated) {name}({given}) ({answer}, error) {{",
                  f"\treturn read(table, func(own *pidtab.Table) ({answer}, error) {{ return {call} }})", "}", ""]  # fmt: skip
    return lines


PARTS = {(QUESTIONS, "questions"): methods, (HOSTS, "questions"): of_hosts}
