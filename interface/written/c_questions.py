"""The functions of C that answer questions, as the headers declare them."""

import textwrap

from questions import all_arguments, by_function, memory, said
from tables import words_of

HEADER = "bindings/c/pidtab.h"

# An argument of each kind, and the places for what a question tells. Any other is a struct.
KINDS = {"number": "uint32_t {}", "choice": "uint32_t {}", "id": "uint64_t {}", "call": "const struct pidtab_call *{}", "query": "const struct pidtab_call *{}"}
PLACES = {
    "numbers": ["uint32_t *numbers", "size_t room", "struct pidtab_reply *reply"], "ids": ["uint64_t *ids", "size_t room", "uint64_t *count"],
}  # fmt: skip

# Columns of a comment.
WIDTH = 150


def declared(name, rows):
    """The declaration of a function."""
    first = rows[0]
    places = PLACES.get(first.tells, [f"struct pidtab_{first.tells} *{first.tells}"])
    taken = ["const struct pidtab *table", *[KINDS[it.kind].format(it.place) for it in all_arguments(first)], *places]
    return f"uint32_t pidtab_{name}({', '.join(taken)});"


def choice_of(row):
    """The argument that says which question of a function is asked, if there is one."""
    return next((it for it in all_arguments(row) if it.choice), None)


def out_of_range(rows):
    """When a question is out of range."""
    choice, kinds = choice_of(rows[0]), [it.kind for it in all_arguments(rows[0])]
    what = {it.of for it in rows} - {"-"}
    absent = "where no " + " or no ".join(sorted(what, key=[it.of for it in rows].index)) + " has the id, or it is gone" if what else ""
    other = f"for another {choice.name}" if choice else "for a call that is no query" if "query" in kinds else "for what is no call" if "call" in kinds else ""
    return "OUT_OF_RANGE " + ", and ".join(filter(None, (other, absent)))


def statuses(rows):
    """The statuses of a function, as a sentence."""
    found = ["DONE", *[it for it in words_of(rows[0].statuses) if it != "DONE"]]
    return "; ".join(out_of_range(rows) if it == "OUT_OF_RANGE" else it for it in found) + "."


def in_words(tables, row):
    """What a question asks, in the words of C: its arguments have other names there, and another question may be a choice."""
    places = {it.name: f"`{it.place}`" for it in all_arguments(row)}
    asked = {it.question: choice_of(it) for it in tables["questions"]}
    names = {it.question: f"PIDTAB_{asked[it.question].choice}" if asked[it.question] else f"pidtab_{it.exports}" for it in tables["questions"]}
    return said(row.says, lambda word: places.get(word) or names[word])


def comment(paragraphs):
    """A comment of paragraphs, each of texts that begin a line."""
    lines = []
    for texts in paragraphs:
        lines += ["", *[line for text in texts for line in textwrap.wrap(text, WIDTH - 3, break_on_hyphens=False)]]
    first, *others = lines[1:]
    told = [f"/* {first}", *[f" * {line}".rstrip() for line in others]]
    return [*told[:-1], f"{told[-1]} */"]


def paragraphs(tables, rows):
    """What a function answers: a question, or as many as it has choices."""
    choice, ends = choice_of(rows[0]), f"{memory(rows[0])}{statuses(rows)}"
    if not choice:
        return [[f"{in_words(tables, rows[0])} {ends}"]]
    return [[f"What {choice.name} says, an enum pidtab_{choice.name}."], [f"PIDTAB_{choice_of(it).choice}: {in_words(tables, it)}" for it in rows], [ends]]


def functions(tables):
    """The functions, each with what it answers."""
    return [line for name, rows in by_function(tables).items() for line in (*comment(paragraphs(tables, rows)), declared(name, rows), "")][:-1]


PARTS = {(HEADER, "questions"): functions}
