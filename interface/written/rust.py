"""The package for Rust."""

import textwrap

from names import camel, capitals, sentence, with_id, wrapped

FAULT = "bindings/rust/src/fault.rs"
RAW = "bindings/rust/src/raw.rs"
LIB = "bindings/rust/src/lib.rs"

ERROR_HEAD = ["#[derive(Clone, Copy, Debug, PartialEq, Eq, Hash)]", "#[non_exhaustive]"]


def variant(row, inner):
    """A refusal with what stands for its id, where it has one."""
    return f"Refusal::{camel(row.word)}" + ("" if row.id == "-" else f"({inner})")


def matched(arms, depth=2):
    """The arms of a match."""
    return ["    " * (depth + 1) + f"{pattern} => {value}," for pattern, value in arms]


def refusals(tables):
    """Why the table refuses a call."""
    rows = tables["refusals"]
    having = " | ".join(variant(it, "id") for it in rows if it.id != "-")
    lines = ["/// Why the table refuses a call. Nothing has changed then, but that the call is counted. More refusals may come.", *ERROR_HEAD,
             "pub enum Refusal {"]  # fmt: skip
    for it in rows:
        lines += [f"    /// {sentence(with_id(it.sentence))}", f"    {variant(it, 'u64').split('::')[1]},"]
    return [
        *lines, "}", "", "impl Refusal {", "    /// The refusal with the number, of whatever has the id.",
        "    pub(crate) fn of(number: u32, id: u64) -> Refusal {", "        match number {",
        *matched([(it.number, variant(it, "id")) for it in rows]),
        '            _ => unreachable!("no refusal has the number {number}"),', "        }", "    }", "",
        "    /// The number and the word.", "    fn row(self) -> (u32, &'static str) {", "        match self {",
        *matched([(variant(it, "_"), f'({it.number}, "{it.word}")') for it in rows]), "        }", "    }", "",
        "    /// The id of what refuses, where it has one.", "    fn id_behind(self) -> Option<u64> {", "        match self {",
        f"            {having} => Some(id),", "            _ => None,", "        }", "    }", "}",
    ]  # fmt: skip


def all_names(names):
    """A match of all that there are, for an example."""
    return textwrap.wrap(f"{' | '.join(names)} => {{}}", 120, initial_indent="///         ", subsequent_indent="///         ")


def all_refusals(tables):
    """A match of all refusals."""
    return all_names([variant(it, "_").split("::")[1] for it in tables["refusals"]])


def all_faults(tables):
    """A match of all faults of a text."""
    return all_names([it.rust for it in tables["faults"]])


def numbers(comment, rows):
    """Constants: names, types and values."""
    listed = ", ".join(f"{word}: {kind} = {number}" for word, kind, number in rows)
    return [f"// {comment}", "numbers! {", *wrapped(f"{listed},", "    ", 120), "}"]


def statuses(tables):
    """What the functions answer."""
    values = {it.name: it.value for it in tables["errnos"]}
    return numbers("What the functions answer.", [(it.name, "u32", values.get(it.error, 0)) for it in tables["statuses"] if it.of != "replica"])


def faults(tables):
    """Why a text is that of no table."""
    rows = tables["faults"]
    lines = ["/// What is wrong with a text, or with its line: the text is that of no table. More may come.", *ERROR_HEAD, "pub enum TextFault {"]
    for it in rows:
        lines += [f"    /// {sentence(it.sentence.replace('pid_max', '`pid_max`', 1))}", f"    {it.rust},"]
    return [
        *lines, "}", "", "impl TextFault {", "    /// The fault with the number.", "    pub(crate) fn of(number: u32) -> TextFault {",
        "        match number {", *matched([(it.number, f"TextFault::{it.rust}") for it in rows]),
        '            _ => unreachable!("no fault of a text has the number {number}"),', "        }", "    }", "}", "",
        "impl fmt::Display for TextFault {", "    fn fmt(&self, to: &mut fmt::Formatter<'_>) -> fmt::Result {", "        to.write_str(match self {",
        *matched([(f"TextFault::{it.rust}", f'"{it.words}"') for it in rows]), "        })", "    }", "}",
    ]  # fmt: skip


def kinds(tables):
    """The kinds of a reply, and what a choice says."""
    return numbers("The kinds of a reply, and what a choice says.", [(it.name, "u32", it.number) for it in tables["kinds"] if it.of != "outcome"])


# What is in no header, and a package names in its errors.
OF_PID_MAX = ("LEAST_PID_MAX", "GREATEST_PID_MAX")


def bounds(tables):
    """The bounds of the headers."""
    types = {"number": "u32", "long": "u64", "size": "usize"}
    rows = [(it.name, types[it.type], it.value) for it in tables["bounds"] if it.of in ("interface", "saved") or it.name in OF_PID_MAX]
    return numbers("The bounds of the headers.", rows)


def operations(tables):
    """The calls as numbers."""
    return numbers("The operations.", [(capitals(it.call), "u32", it.number) for it in tables["calls"]])


def errnos(tables):
    """The names of the errors of refusals."""
    used = {row.error for row in tables["refusals"]}
    arms = [f'        {it.value} => "{it.name}",' for it in tables["errnos"] if it.name in used]
    return [
        "/// The name of an errno that a refusal may have.", "pub(crate) fn errno_name(errno: i32) -> &'static str {", "    match errno {", *arms,
        '        _ => unreachable!("no refusal has the errno {errno}"),', "    }", "}",
    ]  # fmt: skip


def refusals_by_words(tables):
    """The refusal that an answer has, by the words of its error and its reason."""
    names = {it.name: it.value for it in tables["errnos"]}
    rows = [(f'("{it.error}", "{it.word}")', f"({names[it.error]}, {variant(it, 'id')})") for it in tables["refusals"]]
    return [
        "/// The errno and the refusal that an answer names, of whatever has the id.",
        "fn refusal_by(errno: &str, word: &str, id: u64) -> Option<(i32, Refusal)> {", "    Some(match (errno, word) {",
        *matched(rows, 1), "        _ => return None,", "    })", "}",
    ]  # fmt: skip


# The statuses that a function of an open table may have, and those of a line.
OF_TABLES = ("NO_MEMORY", "BUSY", "OUT_OF_RANGE", "SPENT", "NOT_KEPT", "AGAIN", "NO_HISTORY", "DIFFERS")
OF_LINES = {"NO_MEMORY": "NoMemory", "BUSY": "Busy", "EMPTY_LINE": "Empty", "BAD_LINE": "Bad", "SPENT": "Spent"}


def errors(tables):
    """The error of each status."""
    return [f"            raw::{it.name} => Error::{camel(it.name)}," for it in tables["statuses"] if it.name in OF_TABLES]


def errors_of_lines(tables):
    """The same of a line."""
    return [f"            raw::{it.name} => LineError::{OF_LINES[it.name]}," for it in tables["statuses"] if it.name in OF_LINES]


PARTS = {
    (FAULT, "errors"): errors,
    (FAULT, "errors of lines"): errors_of_lines,
    ("bindings/rust/src/json.rs", "errnos"): errnos,
    ("bindings/rust/src/connected.rs", "refusals by words"): refusals_by_words,
    (RAW, "operations"): operations,
    (RAW, "kinds"): kinds,
    (RAW, "bounds"): bounds,
    (FAULT, "refusals"): refusals,
    (LIB, "refusals"): all_refusals,
    (RAW, "statuses"): statuses,
    (FAULT, "faults"): faults,
    (LIB, "faults"): all_faults,
}
