"""That those who speak calls know each of them: the service, real processes, gVisor and the box. What they do for it is their own."""

import re

from arguments import arguments_of
from compared.sources import Source
from names import camel, capitals

COMMANDS = "service/src/commands.rs"
RIGHTS = "service/src/rights.rs"
RANDOM = "service/tests/test_calls.py"
WORLD = "linux/world.c"
HARNESS = "linux/harness/world.py"
CHOOSER = "linux/harness/chooser.py"
LINUX = "linux/README.md"
GVISOR = "linux/gvisor/calls.go"
OF_BOX = tuple(f"box/src/{name}.c" for name in ("controls", "forks", "groups", "table", "tracer"))
PATHS = (COMMANDS, RIGHTS, RANDOM, WORLD, HARNESS, CHOOSER, LINUX, GVISOR, *OF_BOX)

# What a command of the service takes for an argument, by its kind.
TAKES = {"number": "Process", "byte": "Status", "id": "Control", "new": "New", "which": "Which", "use": "Kind", "on": "Switch", "most": "Limit"}


def taken(argument):
    """What a command of the service takes for it."""
    if argument.field == "caller":
        return "Caller" if argument.name == "caller" else "Task"
    return camel(argument.field) if argument.kind == "signed" else TAKES[argument.kind]


def compare_commands(source, calls):
    """The table of commands has each call by its word, with what it takes."""
    _, start = source.body("\npub const COMMANDS")
    rows = {name: (line, verb, arguments) for line, (name, verb, arguments) in source.found(r'^    row\("([A-Z]+)", A::Call\(Verb::(\w+)\), &\[([^\]]*)\]')}
    for it in calls:
        line, verb, arguments = rows.get(it.call.upper(), (start, "", ""))
        wanted = ", ".join(taken(argument) for argument in arguments_of(it))
        if (verb, arguments) != (camel(it.call), wanted):
            source.say(line, f"no row of COMMANDS is {it.call.upper()} with Verb::{camel(it.call)} and &[{wanted}]")


def compare_words(source, begin, end, form, calls, what):
    """Between two lines, or anywhere, there is a text of the form for each call."""
    text, start = source.body(begin, end) if begin else (source.text, 1)
    for it in calls:
        if not re.search(form.format(call=it.call, name=camel(it.call), operation=capitals(it.call)), text):
            source.say(start, f"{what} `{it.call}`")


def compare_linux(world, harness, calls):
    """A process, or the harness, does each call."""
    orders = {word for _, (word,) in world.found(r'\{"(\w+)", order_\w+\}')} | {name for _, (name,) in harness.found(r"^    def do_(\w+)\(")}
    _, start = world.body("\nstatic const struct { const char *word;")
    for it in calls:
        if it.call not in orders:
            world.say(start, f"no order is `{it.call}`, and {HARNESS} has no `do_{it.call}`")


def compare_gvisor(source, page, calls):
    """gVisor's kernel makes each call, or the page says that it is not asked."""
    left_out, _ = page.body("\n## The kernel of gVisor\n", " answered `n/a`")
    text, start = source.body("\nvar forms = ")
    for it in calls:
        if not re.search(rf'^\t"{it.call}[" ]', text, re.MULTILINE) and f"`{it.call}`" not in left_out:
            source.say(start, f"no form is `{it.call}`, and {LINUX} does not say that it is answered `n/a`")


def compare_box(sources, calls):
    """The calls that change the table, and that the box makes nowhere. What it reads it may ask by questions."""
    text = "".join(it.text for it in sources)
    lacking = [it for it in calls if it.query == "no" and not re.search(rf"\bPIDTAB_{capitals(it.call)}\b", text)]
    return [f"interface/calls.tbl:{it.at}: the box makes no `{it.call}`" for it in lacking]


def differences(tables, top):
    """What differs, as sentences with file and line."""
    calls = tables["calls"]
    commands, rights, dice, world, harness, chooser, linux, gvisor, *box = sources = [Source(top, path) for path in PATHS]
    compare_commands(commands, calls)
    compare_words(rights, "\n    fn may_make(&mut self, call: Call) -> bool {\n", "\n    }\n", r"\bCall::{name}\b", calls, "nobody says who may make")
    compare_words(dice, "\ndef random_line(", "\n\n\n", r"\b{call}\b", calls, "no random line is")
    compare_linux(world, harness, calls)
    compare_words(chooser, "", "", r"[\"']{call}[\"' ]", calls, "no random line is")
    compare_words(linux, "\n## How lines are asked\n", "\n## ", r"`{call}`", calls, "no row says how Linux is asked for")
    compare_gvisor(gvisor, linux, calls)
    return [fault for source in sources for fault in source.faults] + compare_box(box, calls)
