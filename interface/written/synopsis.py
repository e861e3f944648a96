"""What the manual pages have of the functions: their names, what they take, and their statuses."""

import re
import textwrap

from names import wrapped
from tables import words_of
from written.c_calls import prototype

# The pages, each with its header, how its functions begin, and what is a table there.
PAGES = {
    "man/pidtab.3": ("pidtab.h", ""), "man/pidtab_history.3": ("pidtab.h", ""), "man/pidtab_threads.3": ("pidtab.h", ""),
    "man/pidtab_saved.3": ("pidtab_saved.h", "saved_"), "man/pidtab_replica.3": ("pidtab_replica.h", "replica_"),
}  # fmt: skip
# The functions of pidtab.h that have pages of their own.
APART = {
    "man/pidtab_history.3": (
        "call_by", "calls", "line_by", "fork_at_by", "call_told_by", "seat", "counts", "worker", "entry", "read", "replay", "keep", "checkpoint", "checkpoint_at", "opening", "follow",
    ),
    "man/pidtab_threads.3": ("lock", "unlock", "await", "end"),
}  # fmt: skip
# The functions of a page that tell words of numbers. They are inline.
WORDS = {"man/pidtab.3": ("word", "text", "fault_text"), "man/pidtab_saved.3": ("saved_text",), "man/pidtab_replica.3": ("replica_text",)}


def functions_of(tables, path):
    """The functions of a page, in the order of the header."""
    header, prefix = PAGES[path]
    others = {name for page, names in APART.items() if page != path for name in names}
    found = [it for it in tables["headers"].of(header, prefix) if header != "pidtab.h" or it.name not in others]
    return [it for it in found if it.name in APART[path]] if path in APART else found


def names(tables, path):
    """The head of a page, from which a page for each function is made."""
    calls = [it.call for it in tables["calls"]] if path == "man/pidtab.3" else []
    found = [*[it.name for it in functions_of(tables, path)], *calls, *WORDS.get(path, ())]
    return [f".Nm pidtab_{name} ," for name in found[:-1]] + [f".Nm pidtab_{found[-1]}"]


def declared(function):
    """What a function answers and takes."""
    result = f'"{function.result}"' if " " in function.result else function.result
    taken = [f'"{it}"' for it in function.arguments] or ["void"]
    line = f".Fn pidtab_{function.name} {' '.join(taken)}"
    if len(line) <= 74:
        return [f".Ft {result}", line]
    return [f".Ft {result}", f".Fo pidtab_{function.name}", *[f".Fa {it}" for it in taken], ".Fc"]


def synopsis(tables, path):
    """What each function of a page answers and takes."""
    others = [tables["headers"].function(name) for name in WORDS.get(path, ())]
    return [line for it in (*functions_of(tables, path), *others) for line in declared(it)]


def prototypes(tables):
    """The calls as functions."""
    lines = [".Bd -literal"]
    for row in tables["calls"]:
        lines += wrapped(f"{prototype(row)};", "    ", 72, "")
    return [*lines, ".Ed"]


def struct(tables, name):
    """A struct as the header has it."""
    return [".Bd -literal", f"struct {name} {{", *[f"\t{it};" for it in tables["headers"].structs[name]], "};", ".Ed"]


def said(sentences):
    """Sentences in mdoc, each on a line of its own, with its macros."""
    lines = []
    for sentence in re.split(r"(?<=\.) ", sentences):
        for part in re.split(r"\s*((?:\{\w+\}|\[\w+\]|PIDTAB_\w+)[,.]?)\s*", sentence.replace(" - ", r" \- ")):
            macro = re.fullmatch(r"(?:\{(\w+)\}|\[(\w+)\]|(PIDTAB_\w+))([,.]?)", part)
            if macro:
                argument, field, name, end = macro.groups()
                lines.append(f".{'Fa' if argument else 'Va' if field else 'Dv'} {argument or field or name}{end and ' ' + end}")
            elif part:
                lines += textwrap.wrap(part, 80, break_on_hyphens=False)
    return lines


def sentence_of(tables, status, name):
    """When the function with this ending has the status."""
    rows = [it for it in tables["results"] if it.status == status]
    return next(it.sentence for it in rows if it.functions == "-" or name in words_of(it.functions))


def statuses(tables, function):
    """The statuses of a function, in the order in which they are looked for."""
    row = next(it for it in tables["functions"] if function in words_of(it.functions))
    lines = [".Bl -tag -width PIDTAB_OUT_OF_RANGE -compact"]
    for status in words_of(row.statuses):
        lines += [f".It Dv PIDTAB_{status}", *said(sentence_of(tables, status, function))]
    return [*lines, ".El"]


# Whose statuses a page has together, and what it calls a table.
OWNERS = {"man/pidtab.3": ("table", "table"), "man/pidtab_saved.3": ("saved", "table"), "man/pidtab_replica.3": ("replica", "table")}


def errors(tables, path):
    """All statuses of a page, each with its error. A record has those of a table too, and a saved history only its own."""
    owner, held = OWNERS[path]
    lines = [".Bl -tag -width Ds"]
    for it in tables["statuses"]:
        if it.of == owner or it.error == "-":
            text = (it.sentence if it.when == "-" else it.when).replace("the table", f"the {held}").replace("open table", f"open {held}")
            told = re.sub(r"\b(size|pid_max)\b,?", lambda found: f"{{{found[1]}}}{found[0][len(found[1]):]}", re.sub(r"`(\w+)`", r"[\1]", text))
            lines += [f".It Dv PIDTAB_{it.name}", *(["0."] if it.error == "-" else [f".Er {it.error} :", *said(f"{told}.")])]
    return [*lines, ".El"]


def part(function, argument):
    """A part that is made for its page, its function or its struct."""
    return lambda tables: function(tables, argument)


def parts_of(tables):
    """All parts, by their page and their name."""
    parts = {("man/pidtab.3", "prototypes"): prototypes}
    parts |= {("man/pidtab.3", f"struct {name}"): part(struct, f"pidtab_{name}") for name in ("call", "reply", "task", "space", "effect")}
    parts |= {("man/pidtab_saved.3", "struct saved_head"): part(struct, "pidtab_saved_head")}
    parts |= {("man/pidtab_replica.3", f"struct {name}"): part(struct, f"pidtab_{name}") for name in ("applied", "log", "digest")}
    parts |= {(path, "statuses"): part(errors, path) for path in OWNERS}
    for path in PAGES:
        parts |= {(path, "names"): part(names, path), (path, "synopsis"): part(synopsis, path)}
    known = {name: it.statuses for it in tables["functions"] for name in words_of(it.functions)}
    parts |= {("man/pidtab_history.3", "struct entry"): part(struct, "pidtab_entry")}
    pages = [path for path in PAGES if path != "man/pidtab.3"]
    return parts | {(path, f"statuses of {it.name}"): part(statuses, it.name) for path in pages for it in functions_of(tables, path) if known.get(it.name, "-") != "-"}
