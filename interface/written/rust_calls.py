"""The calls in the package for Rust: as values, as numbers, and as methods."""

import re
import textwrap

from arguments import arguments_of, queries, refused, said, tells
from names import camel, capitals, strings

CALLS = "bindings/rust/src/calls.rs"
SEAT = "bindings/rust/src/seat.rs"
CONNECTED = "bindings/rust/src/connected.rs"
NUMBERS = "bindings/rust/src/numbers.rs"
LIB = "bindings/rust/src/lib.rs"
TEST = "bindings/rust/src/cases.rs"

TYPES = {"number": "u32", "byte": "u8", "new": "bool", "on": "bool", "id": "u64", "signed": "i32", "which": "Which", "use": "Kind", "most": "Option<u32>"}

# What an argument is as a number, and what it is of the numbers: {} is its name, or its field.
PUT = {"byte": "u32::from({})", "new": "u32::from({})", "on": "u32::from({})", "use": "choice_of({})", "which": "which_choice({})", "most": "{}.unwrap_or(0)"}
TAKEN = {"byte": "it.{} as u8", "new": "it.{} == 1", "on": "it.{} == 1", "use": "kind_of(it.{})", "which": "which_of(it.{}, it.number)", "most": "(it.choice == 1).then_some(it.{})"}
# A second field of an argument.
BESIDES = {"which": "number: which_number({})", "most": "choice: u32::from({}.is_some())"}

# What a method answers, by the replies, and which function of a reply reads it.
ANSWERS = {
    "FORKED": ("Child", "child"), "OK": ("()", "nothing"), "NUMBER": ("u32", "number"), "LEVELS": ("Vec<u32>", "levels"), "CONTROL": ("u64", "control"),
    "REAPED": ("Option<Reaped>", "reaped"), "COUNTED": ("u64", "counted"), "NUMBER, END": ("Option<u32>", "next_one"),
}  # fmt: skip
# The replies that the answers of a method are.
BACK = {
    "FORKED": "map(Reply::Forked)", "OK": "map(|()| Reply::Done)", "NUMBER": "map(Reply::Number)", "LEVELS": "map(Reply::Levels)", "CONTROL": "map(Reply::Control)",
    "REAPED": "map(|it| it.map_or(Reply::NoneYet, Reply::Reaped))", "COUNTED": "map(Reply::Counted)", "NUMBER, END": "map(|it| it.map_or(Reply::End, Reply::Number))",
}  # fmt: skip


def told(row):
    """The key of its replies."""
    return row.tells if row.tells in ANSWERS else tells(row)[0]


def value(row, **fixed):
    """The value with its fields by their names, of which some are fixed."""
    return f"Call::{camel(row.call)} {{ {', '.join(f'{it.name}: {fixed[it.name]}' if it.name in fixed else it.name for it in arguments_of(row))} }}"


def method(row):
    """The name of the method: `move` is a word of the language."""
    return "move_task" if row.call == "move" else row.call


def comment(text, indent="    "):
    """A comment of documentation."""
    return textwrap.wrap(text, 140, initial_indent=f"{indent}/// ", subsequent_indent=f"{indent}/// ", break_on_hyphens=False)


def switch(row):
    """The name of the argument that makes two methods of a call, one for each of its values; nothing for most calls."""
    return next((it.name for it in arguments_of(row) if it.kind == "new"), None)


def ways(row):
    """The methods of a call: the name of each, and its value."""
    found = switch(row)
    if found is None:
        return [(method(row), value(row))]
    return [(method(row), value(row, **{found: "false"})), (f"{method(row)}_new", value(row, **{found: "true"}))]


def values(tables):
    """The variants of a call."""
    lines = []
    for row in tables["calls"]:
        fields = ", ".join(f"{it.name}: {TYPES[it.kind]}" for it in arguments_of(row))
        named = ", ".join(f"[`Table::{name}`]" for name, _ in ways(row))
        lines += [f"    /// {named}{'; a query' if row.query == 'yes' else ''}.", f"    {camel(row.call)} {{ {fields} }},"]
    return lines


def sentence_of(row, name):
    """What a method of a table does. Of a call with a switch, each method has its part of the page and of the sentence."""
    page = re.sub(r"\w+\(\d\)|[A-Z]+_\w+|WNOHANG", lambda it: f"`{it[0]}`", row.page)
    text = said(row, "`{}`", lambda _: page)
    if switch(row) is None:
        return text
    (old_page, new_page), old = page.split(", or "), text.partition(": ")[2].partition(", or ")[0]
    return f"{old_page}: {old}." if name == method(row) else f"{new_page}: as [`Table::{method(row)}`], and the child is the init of a new namespace."


def of_table(row, name):
    """The documentation of a method of a table."""
    errors = f"`Refused` as {refused(row, '`{}`')}{'; `NoMemory`' if row.memory == 'yes' else ''}."
    return [*comment(sentence_of(row, name)), "    ///", "    /// # Errors", f"    /// {errors}"]


def rows(tables, itself):
    """The methods of the calls, of what is lent so: the call and the name of each, its head, and its code."""
    for row in tables["calls"]:
        (answer, reader), fixed = ANSWERS[told(row)], switch(row)
        taken = ", ".join([itself, *[f"{it.name}: {TYPES[it.kind]}" for it in arguments_of(row) if it.name != fixed]])
        for name, made in ways(row):
            yield row, name, f"    pub fn {name}({taken}) -> Result<{answer}, Error> {{", f"self.made({made}, Reply::{reader})"


def methods(tables):
    """The methods of a table, each with what it does."""
    return [line for row, name, head, code in rows(tables, "&self") for line in ("", *of_table(row, name), head, f"        {code}", "    }")][1:]


def forwards(tables):
    """Those of what makes the same calls, a line each."""
    return [line for _, name, head, code in rows(tables, "&mut self") for line in (f"    /// As [`Table::{name}`](crate::Table::{name}), with its errors.", f"{head} {code} }}")]


def literal(head, fields):
    """A struct with its fields: short ones in one line, as rustfmt has it."""
    if len(", ".join(fields)) <= 18:
        return [f"{head} {{ {', '.join(fields)} }},"]
    return [f"{head} {{", *[f"                {it}," for it in fields], "            },"]


def numbers(tables):
    """The call as numbers, and the call that numbers say."""
    lines = ["    /// The call as numbers.", "    pub(crate) fn numbers(self) -> raw::Call {", "        match self {"]
    for row in tables["calls"]:
        found = arguments_of(row)
        put = [f"{it.field}: {PUT.get(it.kind, '{}').format(it.name)}" for it in found] + [BESIDES[it.kind].format(it.name) for it in found if it.kind in BESIDES]
        put = [re.sub(r"^(\w+): \1$", r"\1", it) for it in put]
        made = literal(f"            {value(row)} => raw::Call", [f"operation: raw::{capitals(row.call)}", *put, "..raw::Call::BLANK"])
        lines += [it.replace("BLANK,", "BLANK") for it in made]
    lines += ["        }", "    }", "", "    /// The call that the numbers of an entry say.", "    pub(crate) fn of(it: &raw::Call) -> Call {", "        match it.operation {"]
    for row in tables["calls"]:
        lines += literal(f"            raw::{capitals(row.call)} => Call::{camel(row.call)}", [f"{it.name}: {TAKEN.get(it.kind, 'it.{}').format(it.field)}" for it in arguments_of(row)])
    return [*lines, '            other => unreachable!("no call has the number {other}"),', "        }", "    }"]


def matched(name, taken, answer, arms, last=()):
    """A function that is a match."""
    return ["", f"fn {name}({taken}) -> {answer} {{", f"    match {taken.split(':')[0]} {{", *[f"        {arm}," for arm in (*arms, *last)], "    }", "}"]


def choices(tables):
    """The choices as numbers, and back."""
    which, use = [[(it.model, it.name, name == "which" and "number" in it.tells) for it in tables["kinds"] if it.of == name] for name in ("which", "use")]
    none = ('other => unreachable!("no choice has the number {other}")',)
    numbered = [f"Which::{model}(number)" for model, _, has_number in which if has_number]
    others = [f"Which::{model}" for model, _, has_number in which if not has_number]
    lines = matched("which_choice", "which: Which", "u32", [f"Which::{model}{'(_)' if has else ''} => raw::{name}" for model, name, has in which])
    lines += matched("which_number", "which: Which", "u32", [f"{' | '.join(numbered)} => number", f"{' | '.join(others)} => 0"])
    lines += ["", "fn which_of(choice: u32, number: u32) -> Which {", "    match choice {"]
    lines += [f"        raw::{name} => Which::{model}{'(number)' if has else ''}," for model, name, has in which] + [f"        {none[0]},", "    }", "}"]
    lines += matched("choice_of", "kind: Kind", "u32", [f"Kind::{model} => raw::{name}" for model, name, _ in use])
    return [*lines, *matched("kind_of", "choice: u32", "Kind", [f"raw::{name} => Kind::{model}" for model, name, _ in use], none)][1:]


def by_methods(tables):
    """The call by its method."""
    asked = queries(tables)
    lines = ["#[rustfmt::skip]", f"const QUERIES: [&str; {len(asked)}] = [{strings(asked)}];", ""]
    lines += ["#[rustfmt::skip]", "fn by_its_method(table: &Table, call: Call) -> Result<Reply, Error> {", "    match call {"]
    for row in tables["calls"]:
        passed = ", ".join(it.name for it in arguments_of(row) if it.name != switch(row))
        lines += [f"        {made} => table.{name}({passed}).{BACK[told(row)]}," for name, made in ways(row)]
    return [*lines, "    }", "}"]


def all_calls(tables):
    """A match of all calls, in the example that shows that more may come."""
    names = " | ".join(f"{camel(row.call)} {{ .. }}" for row in tables["calls"])
    return [*textwrap.wrap(names, 140, initial_indent="///         ", subsequent_indent="///         "), "///         => {}"]


PARTS = {
    (CALLS, "values"): values,
    (CALLS, "methods"): methods,
    (SEAT, "methods"): forwards,
    (CONNECTED, "methods"): forwards,
    (NUMBERS, "choices"): choices,
    (NUMBERS, "calls"): numbers,
    (LIB, "calls"): all_calls,
    (TEST, "calls"): by_methods,
}
