"""The crates: the rows of refusals and of the faults of a text."""

from model import imported
from names import camel, wrapped
from places import arms, definition, imports, variants

CODE = "crates/pid_types/src/refusal.rt"
MODEL = "crates/pid_types/specs/Refusals.antt"
ANSWER = "crates/pid_script/src/answer.rt"
ANSWERS = "crates/pid_script/specs/Answers.antt"
FAULT = "crates/table_load/src/fault.rt"
FAULTS = "crates/table_load/specs/Faults.antt"
NUMBERS = "crates/foreign_numbers/src/numbers.rt"
NUMBERS_MODEL = "crates/foreign_numbers/specs/Numbers.antt"
REPLIES = "crates/foreign_numbers/src/replies.rt"
REPLIES_MODEL = "crates/foreign_numbers/specs/Replies.antt"
SAVED = "crates/foreign_calls/src/saved_table.rt"
SAVED_MODEL = "crates/foreign_calls/specs/Saved.antt"

# What has the id of a refusal, by the letter of its answer.
IDS = {"S": "space", "I": "control"}
# The fault that only a whole table has, and no line of it.
OF_ALL = ("NO_INIT",)


def used(tables):
    """The errors that refusals have, by their values."""
    return sorted((it for it in tables["errnos"] if it.name in {row.error for row in tables["refusals"]}), key=lambda it: it.value)


def refusal(row, id_of="_"):
    """A refusal in a pattern."""
    return f"Refusal::{camel(row.word)}{'' if row.id == '-' else f'({id_of})'}"


def errors(tables):
    """The error of each refusal: one arm for each error, whose refusals are broken where they are too long."""
    lines = []
    for errno in tables["errnos"]:
        those = " | ".join(refusal(it) for it in tables["refusals"] if it.error == errno.name)
        one = f"            {those} => Errno::{camel(errno.name)},"
        lines += [] if not those else [one] if len(one) <= 100 else [f"            {those} =>", f"                Errno::{camel(errno.name)},"]
    return lines


def of_each(form, id_of="_"):
    """A row for each refusal."""
    return lambda tables: [form.format(code=refusal(it, id_of), number=it.number, word=it.word, error=it.error) for it in tables["refusals"]]


def of_errnos(form):
    """A row for each error."""
    return lambda tables: [form.format(name=camel(it.name), word=it.name, value=it.value) for it in used(tables)]


def entries(tables):
    """The refusals in the model."""
    told = [(camel(it.word) if it.id == "-" else f"({camel(it.word)} {IDS[it.id]})", it) for it in tables["refusals"]]
    return [f'refusal_entry {name} = record {{ number = {it.number}; error = {camel(it.error)}; word = codes "{it.word}" }}' for name, it in told]


def of_numbers(tables):
    """The refusal with each number."""
    return [*of_each("        {number} => Some({code}),", "id")(tables), "        _ => None,"]


def listed(tables):
    """All refusals as a list in the model, which is broken in front of one."""
    told = [camel(it.word) if it.id == "-" else f"{camel(it.word)} id" for it in tables["refusals"]]
    return ["refusals_of id =", *[line.replace(",", "") for line in wrapped(", ∷ ".join([*told, "[]"]), "    ", 130)]]


def all_refusals(tables):
    """The import of all refusals."""
    return [imported("pid_types.specs.declared.reply.Refusal", [camel(it.word) for it in tables["refusals"]])]


def refused_by(function, form, otherwise):
    """The id of what refused the call."""
    return lambda tables: [*[f"{function} ({camel(it.word)} {IDS[it.id]}) = {form.format(IDS[it.id])}" for it in tables["refusals"] if it.id != "-"], f"{function} _ = {otherwise}"]


def first_of(tables):
    """The id of what refused the call, or 0."""
    return [f"        {' | '.join(refusal(it, 'id') for it in tables['refusals'] if it.id != '-')} => id,", "        _ => 0,"]


def of_faults(form, part=("form", "table"), without=(), memory=()):
    """A row for each fault of a text, after that of want of memory."""
    return lambda tables: [*memory, *[form.format(name=camel(it.name), number=it.number) for it in tables["faults"] if it.of in part and it.name not in without]]


def held(source, part, without=()):
    """A fault of a part as one of a load, in code."""
    return of_faults(f"            {source}::{{name}}(line) => RestoreFault::{{name}}(line),", part, without, [f"            {source}::NoMemory => RestoreFault::NoMemory,"])


def held_model(function, source, part, without=()):
    """The same in the model."""
    return of_faults(f"{function} ({source}.{{name}} line) = {{name}} line", part, without, [f"{function} {source}.NoMemory = NoMemory"])


ROWS = {
    (CODE, "Errno"): (variants("Errno"), of_errnos("    {name},")),
    (CODE, "name"): (arms("name("), of_errnos('            Errno::{name} => b"{word}",')),
    (CODE, "value"): (arms("value("), of_errnos("            Errno::{name} => {value},")),
    (CODE, "number"): (arms("number("), of_each("            {code} => {number},")),
    (CODE, "error"): (arms("error("), errors),
    (CODE, "word"): (arms("word("), of_each('            {code} => b"{word}",')),
    (MODEL, "imports of Errno"): (imports("Errno"), lambda tables: [imported("pid_types.specs.declared.refusal.Errno", [camel(it.name) for it in used(tables)])]),
    **{(path, "imports of Refusal"): (imports("Refusal"), all_refusals) for path in (MODEL, REPLIES_MODEL)},
    (MODEL, "errno_entry"): (definition("errno_entry"), of_errnos('errno_entry {name} = record {{ name = codes "{word}"; value = {value} }}')),
    (MODEL, "refusal_entry"): (definition("refusal_entry"), entries),
    (ANSWER, "push_refusal_words"): (arms("push_refusal_words<"), of_each('        {code} => push_bytes(text, b"{error} {word}"),')),
    (ANSWERS, "refuser_text"): (definition("refuser_text"), refused_by("refuser_text", 'codes " " ++ decimal {}', "[]")),
    (NUMBERS, "put_refusal"): (arms("put_refusal("), first_of),
    (NUMBERS_MODEL, "refused_by"): (definition("refused_by"), refused_by("refused_by", "{}", "0")),
    (REPLIES, "read_refusal"): (arms("read_refusal("), of_numbers),
    (REPLIES_MODEL, "refusals_of"): (definition("refusals_of"), listed),
    (FAULT, "from LoadFault"): (arms("from(fault: LoadFault)"), held("LoadFault", ["form"])),
    (FAULT, "from BuildFault"): (arms("from(fault: BuildFault)"), held("BuildFault", ["table"], OF_ALL)),
    (FAULTS, "of_load"): (definition("of_load"), held_model("of_load", "text", ["form"])),
    (FAULTS, "of_build"): (definition("of_build"), held_model("of_build", "build", ["table"], OF_ALL)),
    (SAVED, "tell_fault"): (arms("tell_fault("), of_faults("        RestoreFault::{name}(line) => (line, {number}),", memory=["        RestoreFault::NoMemory => (0, 0),"])),
    (SAVED_MODEL, "fault_numbers"): (
        definition("fault_numbers"), of_faults("fault_numbers (why.{name} n) = record {{ line = n; kind = {number} }}", memory=["fault_numbers why.NoMemory = no_fault"]),
    ),
}  # fmt: skip
