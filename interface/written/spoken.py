"""The calls as those have them that speak them: the commands of the service, the program that checks its log, and the page's reader of saved histories."""

from arguments import arguments_of, queries
from model import is_numbered, of
from names import camel, capitals, strings, wrapped

COMMANDS = "service/src/commands.rs"
CHECK = "service/tests/check.c"
PAGE = "page/saved.js"

# The columns of service/rustfmt.toml.
WIDTH = 120

# What the argument of a call is of the values that the service has read, by its kind or by its field.
VALUES = {"byte": "number as u8", "new": "values.choice", "on": "values.choice", "which": "values.which", "use": "values.kind", "most": "values.limit", "signed": "values.{field}"}

# What is written of an argument by its kind, and of what: a form of printf, and the text of JavaScript.
FORMATS = {
    "number": ("%u", "c->{field}"), "byte": ("%u", "c->{field}"), "signed": ("%d", "c->{field}"), "on": ("%s", 'c->choice ? "ON" : "OFF"'),
    "id": ('%" PRIu64 "', "c->{field}"), "use": ("%s", "(const char *[]){{ {words} }}[c->choice]"), "which": ("%s", "(const char *[]){{ {words} }}[c->choice]"),
}  # fmt: skip
TEXTS = {
    "new": '${it.choice ? " new" : ""}', "on": ' ${it.choice ? "on" : "off"}', "which": " ${waited(it)}", "use": " ${USES[it.choice]}", "most": ' ${it.choice ? it.number : "max"}',
}  # fmt: skip


def verbs(tables):
    """The calls as an enum."""
    return [f"    {camel(it.call)}," for it in tables["calls"]]


def asks(tables):
    """Which of them are queries, as rustfmt has it."""
    told = " | ".join(camel(it) for it in queries(tables))
    one = f"        matches!(self, {told})"
    return [one] if len(one) <= WIDTH else ["        matches!(", "            self,", *broken(told, "            "), "        )"]


def broken(alternatives, indent):
    """Alternatives in one line, or in one line each."""
    if len(indent + alternatives) <= WIDTH:
        return [indent + alternatives]
    first, *others = alternatives.split(" | ")
    return [indent + first, *[f"{indent}    | {it}" for it in others]]


def value(argument):
    """A field of a call with what the service has read for it."""
    told = VALUES.get(argument.kind, "{field}").format(field=argument.field)
    return told if told == argument.name else f"{argument.name}: {told}"


def calls(tables):
    """The call of each verb."""
    return [f"            Verb::{camel(row.call)} => Call::{camel(row.call)} {{ {', '.join(value(it) for it in arguments_of(row))} }}," for row in tables["calls"]]


def names(tables):
    """The words of the calls, by their numbers."""
    return ["static const char *const names[] = {", *wrapped(strings([it.call.upper() for it in tables["calls"]]) + ",", "\t", 130), "};"]


def words(tables, kind):
    """The words of a choice, by their numbers."""
    return strings([it.word.upper() for it in of(tables, kind)])


def ends(tables, row):
    """What prints the end of a call, which is not there for each choice."""
    numbered = " || ".join(f"c->choice == PIDTAB_{it.name}" for it in of(tables, "which") if is_numbered(it))
    known = {
        "new": ["if (c->choice)", '\tprintf(" NEW");'], "which": [f"if ({numbered})", '\tprintf(" %u", c->number);'],
        "most": ["if (c->choice)", '\tprintf(" %u", c->number);', "else", '\tprintf(" MAX");'],
    }  # fmt: skip
    return [line for it in arguments_of(row) for line in known.get(it.kind, [])]


def printed(tables, row):
    """What prints the words of a call after its name."""
    found = [(it, FORMATS[it.kind]) for it in arguments_of(row) if it.kind in FORMATS]
    form = f'"{" ".join(told for _, (told, _) in found)}"'.replace(' ""', "")
    taken = [told.format(field=it.field, words=words(tables, it.kind)) for it, (_, told) in found]
    return (f"printf({', '.join([form, *taken])});", *ends(tables, row))


def prints(tables):
    """The same of each call. Those with the same words are together."""
    found = {}
    for row in tables["calls"]:
        found.setdefault(printed(tables, row), []).append(f"\tcase PIDTAB_{capitals(row.call)}:")
    return ["\tswitch (c->operation) {", *[line for lines, cases in found.items() for line in (*cases, *[f"\t\t{it}" for it in lines], "\t\tbreak;")], "\t}"]


def page_lines(tables):
    """The line of each call by the fields of its entry."""
    lines = []
    for row in tables["calls"]:
        told = "".join(TEXTS.get(it.kind, f" ${{it.{it.field}}}") for it in arguments_of(row))
        lines.append(f"  [OPERATION.{capitals(row.call)}, (it) => `{row.call}{told}`],")
    return lines


PARTS = {
    (COMMANDS, "verbs"): verbs,
    (COMMANDS, "queries"): asks,
    (COMMANDS, "calls"): calls,
    (CHECK, "names"): names,
    (CHECK, "words of calls"): prints,
    (PAGE, "calls"): page_lines,
}
