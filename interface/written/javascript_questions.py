"""The questions as methods of the package for JavaScript, and their types."""

from names import camel, strings
from questions import REPLY, all_arguments, arguments_of, by_function, has, sentences, shown
from written.javascript_calls import NAMES

CALLS = "bindings/js/src/calls.js"
INSTANCE = "bindings/js/src/instance.js"
TYPES = "bindings/js/pidtab.d.ts"

# What a list goes on from has the name that it has in calls.
FROM = {"from": NAMES["from"]}

# What reads the answer of each kind, and its type. Any struct has one of its own, but that of a task.
ANSWERS = {"numbers": ("_numbers", "number[]"), "ids": ("_ids", "bigint[]"), "task": ("_task", "Stat")}
CHECKS = {"number": "checkNumber", "id": "checkLong"}
LEFT_OUT = {"number": "0", "id": "0n"}
DECLARED = {"number": "number", "id": "Long"}


def name_of(argument):
    """Its name here."""
    return FROM.get(argument.name, argument.name)


def method_of(name):
    """The name of the method: `controlTasks` of control_tasks."""
    word = camel(name)
    return word[0].lower() + word[1:]


def answer_of(row):
    """What reads the answer, and its type."""
    return ANSWERS.get(row.tells) or (f"_{method_of(row.tells)}", f"{camel(row.tells)}Stat")


def told(tables):
    """The questions that are methods of `Ask`. One about a call has an object of its own: `Ask` itself, and `Would`."""
    return [row for row in tables["questions"] if row.tells != REPLY]


def method(row):
    """A method. Numbers of 64 bits are given beside the others; all are checked before they are shown."""
    taken = ", ".join(f"{name_of(it)} = {LEFT_OUT[it.kind]}" if it.is_optional else name_of(it) for it in arguments_of(row))
    numbers, longs = [
        [f"{it.name.upper()}.{it.choice}" if it.choice else f'{CHECKS[it.kind]}("{name_of(it)}", {name_of(it)})' for it in all_arguments(row) if (it.kind == "id") == is_long]
        for is_long in (False, True)
    ]  # fmt: skip
    asked = " ".join([method_of(row.question), *[f"${{{name_of(it)}}}" for it in shown(row)]])
    given = ", ".join([f'"{row.exports}"', f"[{', '.join(numbers)}]", f"[{', '.join(longs)}]", f"`{asked}`", *([f'"{row.of}"'] if row.of != "-" else [])])
    return [f"  {method_of(row.question)}({taken}) {{", f"    return this.{answer_of(row)[0]}({given});", "  }", ""]


def methods(tables):
    """The methods."""
    return [line for row in told(tables) for line in method(row)][:-1]


def functions(tables):
    """The names of the functions that answer them."""
    return [f"const QUESTIONS = [{strings(by_function(tables))}];"]


def types(tables):
    """The methods with what they take and tell."""
    lines = []
    for row in told(tables):
        names = {it.name: f"`{name_of(it)}`" for it in arguments_of(row)} | {it.question: f"`{method_of(it.question)}`" for it in tables["questions"]}
        text = sentences(row, lambda word, names=names: names[word])
        text += "" if row.of == "-" else f" A RangeError where no {row.of} has the id, or it is gone."
        ends = ", ".join(filter(None, ("" if row.refusals == "-" else row.refusals, "NoMemory" if has(row, "NO_MEMORY") else "")))
        taken = ", ".join(f"{name_of(it)}{'?' if it.is_optional else ''}: {DECLARED[it.kind]}" for it in arguments_of(row))
        lines += [f"  /** {text}{f' {ends}.' if ends else ''} */", f"  {method_of(row.question)}({taken}): {answer_of(row)[1]};"]
    return lines


PARTS = {(CALLS, "questions"): methods, (INSTANCE, "questions"): functions, (TYPES, "questions"): types}
