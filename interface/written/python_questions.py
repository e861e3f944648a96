"""The questions as methods of the package for Python."""

import textwrap

from questions import REPLY, all_arguments, arguments_of, sentences, shown
from tables import words_of
from written.python_calls import NAMES

NATIVE = "bindings/python/pidtab/native.py"

# What a list goes on from has the name that it has in calls.
FROM = {"from": NAMES["from"]}

# What reads the answer of each kind, and its type.
ANSWERS = {"numbers": ("read_numbers", "tuple[int, ...]"), "ids": ("read_ids", "tuple[int, ...]"), "task": ("read_task", "Stat"), "space": ("read_space", "SpaceStat")}
GREATEST = {"number": "GREATEST_PID", "id": "GREATEST_ID"}


def name_of(argument):
    """Its name here."""
    return FROM.get(argument.name, argument.name)


def documented(row, tables):
    """What the question asks: its sentences, what it raises, and why it is refused."""
    names = {it.name: f"`{name_of(it)}`" for it in arguments_of(row)}
    first, _, others = sentences(row, lambda word: names.get(word, f"`{word}`")).replace("takes memory for a list", "takes memory for a list: where there is none, it is a MemoryError").partition(". ")
    first = f"{first.rstrip('.')}." if row.of == "-" else f"{first.rstrip('.')}; LookupError where no {row.of} has it, or it is gone."
    refused = "" if row.refusals == "-" else f"{row.refusals}."
    whole = f'        """{" ".join(filter(None, (first, others, refused)))}"""'
    if len(whole) <= 150:
        return [whole]
    more = [text for text in (others, refused) if text]
    return [*wrapped(f'"""{first}'), "", *[line for text in [" ".join(more)] for line in wrapped(text)], '        """']


def wrapped(text):
    """A text in lines of at most 150 columns."""
    return textwrap.wrap(text, 150, initial_indent=" " * 8, subsequent_indent=" " * 8, break_on_hyphens=False)


def method(row, tables):
    """A method: what it takes is checked, and then a function of the library is asked."""
    reads, answer = ANSWERS[row.tells]
    found = arguments_of(row)
    taken = ", ".join(f"{name_of(it)}: int{' = 0' if it.is_optional else ''}" for it in found)
    checked = ", ".join(f'check_range("{name_of(it)}", {name_of(it)}, 0, {GREATEST[it.kind]})' for it in found)
    passed = ", ".join(f"raw.{it.choice}" if it.choice else name_of(it) for it in all_arguments(row))
    asked = " ".join([row.question, *[f"{{{name_of(it)}}}" for it in shown(row)]])
    told = ", ".join([f'f"{asked}"', *([f'"{row.of}"'] if row.of != "-" else []), f'partial(self._table._question("{words_of(row.exports)[0]}"), {passed})'])
    return [
        f"    def {row.question}(self, {taken}) -> {answer}:", *documented(row, tables), "        self._table._check_owner()",
        f"        {', '.join(name_of(it) for it in found)} = {checked}", f"        return {reads}({told})", "",
    ]  # fmt: skip


def methods(tables):
    """The methods of `Ask`. A question about a call has an object of its own: `Ask` itself, and `Would`."""
    return [line for row in tables["questions"] if row.tells != REPLY for line in method(row, tables)][:-1]


PARTS = {(NATIVE, "questions"): methods}
