"""The questions in the tests of the cases that have no call by a name: in C, Rust and Go."""

from names import camel
from questions import REPLY, all_arguments, arguments_of
from written.go_questions import answer_of, taken

C = "bindings/c/test_cases.c"
RUST = "bindings/rust/src/cases.rs"
GO = "bindings/go/cases_test.go"

# Where an answer of each kind goes in C, and what says it in Rust.
PLACES = {"numbers": "to->numbers, room, &to->reply", "ids": "to->ids, room, &to->count"}
SAYS = {"numbers": "say_page", "ids": "say_ids", "task": "say_stat"}


def asked(tables):
    """The questions that are no calls."""
    return [row for row in tables["questions"] if row.tells != REPLY]


def numbers(row, form):
    """The arguments of a question by the numbers of a step; one of 32 bits in this form."""
    return [form.format(place) if it.kind == "number" else f"n[{place}]" for place, it in enumerate(arguments_of(row))]


def in_c(tables):
    """The question by the numbers of a step."""
    lines = ["static bool ask_question(const char *word, const struct pidtab *table, const uint64_t *n, size_t room, struct answered *to)", "{"]
    for row in asked(tables):
        given = iter(numbers(row, "(uint32_t)n[{}]"))
        passed = [f"PIDTAB_{it.choice}" if it.choice else next(given) for it in all_arguments(row)]
        ask = f"pidtab_{row.exports}({', '.join(['table', *passed, PLACES.get(row.tells, f'&to->{row.tells}')])})"
        lines += [f'\tif (strcmp(word, "{row.question}") == 0) {{', f"\t\tto->tells = TELLS_{row.tells.upper()};", f"\t\tto->status = {ask};", "\t\treturn true;", "\t}"]
    return [*lines, "\treturn false;", "}"]


def in_rust(tables):
    """The same as what it tells, in words."""
    lines = ["/// What a question tells; none for a step that is no question.", "#[rustfmt::skip]", "fn question(table: &Table, word: &str, n: &[u64]) -> Option<String> {", "    Some(match word {"]
    for row in asked(tables):
        given = ", ".join(numbers(row, "n[{}] as u32"))
        lines.append(f'        "{row.question}" => {SAYS.get(row.tells, f"say_{row.tells}_stat")}(table.{row.question}({given})),')
    return [*lines, "        _ => return None,", "    })", "}"]


def in_go(tables):
    """The same as a value and an error."""
    lines = ["", "// questions are what a table answers that is no call.", "type questions interface {"]
    lines += [f"\t{camel(row.question)}({taken(row)}) ({answer_of(row)}, error)" for row in asked(tables)]
    lines += ["}", "", "// byQuestion is what the question of this name tells, and whether there is one.", "func byQuestion(it questions, word string, n []uint64) (told, bool) {", "\tswitch word {"]
    for row in asked(tables):
        lines += [f'\tcase "{row.question}":', f"\t\treturn of(it.{camel(row.question)}({', '.join(numbers(row, 'uint32(n[{}])'))})), true"]
    return [*lines, "\t}", "\treturn told{}, false", "}", ""]


PARTS = {(C, "questions"): in_c, (RUST, "questions"): in_rust, (GO, "questions"): in_go}
