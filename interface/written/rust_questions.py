"""The questions as methods of the package for Rust."""

from names import camel
from questions import REPLY, all_arguments, arguments_of, has, sentences
from tables import words_of
from written.foreign import broken
from written.rust_calls import TYPES, comment

QUESTIONS = "bindings/rust/src/questions.rs"
# A file of each question that has an example.
EXAMPLES = "interface/examples"

KINDS = {**TYPES, "call": "Call", "query": "Call"}
LISTS = {"numbers": ("Vec<u32>", "page::all", "|numbers, reply|", "numbers, reply"), "ids": ("Vec<u64>", "space::inside", "|ids, count|", "ids, count")}
CHECKS = {"call": "unless_done", "query": "unless_asked"}


def struct_of(row):
    """The type of an answer that is a struct of the library."""
    return "Stat" if row.tells == "task" else f"{camel(row.tells)}Stat"


def answer_of(row):
    """The type of the answer, which may not be there."""
    told = "Reply" if row.tells == REPLY else LISTS[row.tells][0] if row.tells in LISTS else struct_of(row)
    return told if row.of == "-" else f"Option<{told}>"


def signature(row):
    """The head of a method."""
    taken = ["&self", *[f"{it.name}: {KINDS[it.kind]}" for it in arguments_of(row)]]
    return broken("    ", f"pub fn {row.question}", taken, f" -> Result<{answer_of(row)}, Error> {{")


def errors(row):
    """What the method answers in place of the answer."""
    refused = "" if row.refusals == "-" else "`Refused` as " + ", ".join(f"`{camel(it)}`" for it in words_of(row.refusals)) + "; "
    asked = "`NoQuery` for each other call, " if any(it.kind == "query" for it in arguments_of(row)) else ""
    named = [name for status, name in (("SPENT", "Spent"), ("NO_MEMORY", "NoMemory")) if has(row, status)]
    return ["    ///", "    /// # Errors", f"    /// {refused}{asked}{', '.join(f'`{it}`' for it in [*named, 'Busy'])}."]


def said(tables, row):
    """What a method of a table does, with its example where there is one."""
    names = {it.name: f"`{it.name}`" for it in arguments_of(row)} | {it.question: f"[`Table::{it.question}`]" for it in tables["questions"]}
    lines = comment(sentences(row, lambda word: names[word]))
    lines += ["    ///", *comment(f"None where no {row.of} has the id, or it is gone.")] if row.of != "-" else []
    lines += ["    ///", *comment("[`Call`] says which are queries." if row.question == "ask" else "It is no call, as [`Table::ask`] makes none.")]
    return [*lines, *example(tables["top"] / EXAMPLES / f"{row.question}.rs"), *errors(row)]


def example(path):
    """The example of a question, as its comment has it."""
    lines = ["", "```", *path.read_text(encoding="utf-8").splitlines(), "```"] if path.exists() else []
    return [f"    /// {line}".rstrip() for line in lines]


def given(row):
    """What the function of the library takes, before the places of the answer."""
    casts = {"call": "&{}.numbers()", "query": "&{}.numbers()"}
    return [f"raw::{it.choice}" if it.choice else casts.get(it.kind, "{}").format(it.name) for it in all_arguments(row)]


def listed(row, name):
    """The code of a list: a closure in one line, or as rustfmt breaks it."""
    _, reads, places, rest = LISTS[row.tells]
    taken = f"{name}({', '.join([*given(row), rest])})"
    one = f"        {reads}({places} self.raw.{taken})"
    if len(one) <= 100 and len(f"self.raw.{taken}") <= 60:
        return [one]
    inner = [f"            self.raw.{taken}"] if len(f"self.raw.{taken}") <= 60 else ["            self.raw", f"                .{taken}"]
    return [f"        {reads}({places} {{", *inner, "        })"]


def body(row, name):
    """The code of a method, by what it tells."""
    if row.tells in LISTS:
        return listed(row, name)
    if row.tells == REPLY:
        check = next(CHECKS[it.kind] for it in arguments_of(row))
        return [
            "        let mut reply = raw::Reply::BLANK;", f"        Error::{check}(self.raw.{name}({', '.join([*given(row), '&mut reply'])}))?;",
            "        Ok(Reply::of(&reply))",
        ]  # fmt: skip
    taken = ", ".join([*given(row), f"&mut {row.tells}"])
    return [f"        let mut {row.tells} = raw::{camel(row.tells)}::BLANK;", f"        {struct_of(row)}::of(self.raw.{name}({taken}), {row.tells})"]


def methods(tables):
    """The methods of a table. Each waits for its turn as calls do."""
    lines = []
    for row in tables["questions"]:
        lines += ["", *said(tables, row), *signature(row), "        let _query = self.for_query();", *body(row, words_of(row.exports)[0]), "    }"]
    return lines[1:]


PARTS = {(QUESTIONS, "questions"): methods}
