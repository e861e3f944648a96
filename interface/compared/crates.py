"""What the crates have of the tables that is not written there: orders, texts beside sentences of their own, kinds and bounds."""

import re

from compared.sources import Source
from model import of
from names import camel
from tables import words_of
from written.lines import all_forms

REPLY = "crates/pid_types/src/reply.rt"
CALL = "crates/pid_types/src/call.rt"
LAWS = "crates/model_laws/specs/Refusals.antt"
LINE = "crates/pid_script/src/line.rt"
NUMBERS = "crates/foreign_numbers/src/numbers.rt"
SAVED_NUMBERS = "crates/saved_form/src/numbers.rt"
EFFECT = "crates/call_effects/src/effect.rt"
FAULT_WORDS = "crates/table_load/src/fault.rt"
FORM_WORDS = "crates/table_text/src/fault.rt"
OF_CALLS = (REPLY, CALL, LAWS, LINE, SAVED_NUMBERS)
OF_FAULTS = (FAULT_WORDS, FORM_WORDS)
OF_BOUNDS = [f"crates/{path}.rt" for path in ("foreign_numbers/src/kinds", "foreign_calls/src/table", "pid_script/src/answer", "pid_script/src/call", "pid_types/src/config", "pid_types/src/plain",
                                              "pidtab_c/src/lib", "saved_form/src/block", "saved_form/src/layout")]  # fmt: skip
PATHS = (*OF_CALLS, NUMBERS, EFFECT, *OF_FAULTS, *OF_BOUNDS)


def variants(source, begin):
    """The names of an enum in their order, and the line where it begins."""
    body, line = source.body(begin)
    return re.findall(r"^    (\w+)(?=[,({ ])", body, re.MULTILINE), line


def refusals_in(text, definitions, names):
    """The refusals that a definition names, in their order, with those of the definitions that it uses. What comes twice running counts once."""
    told = []
    for word in re.findall(r"\w+", text):
        more = [word] if word in names else refusals_in(definitions[word], definitions, names) if word in definitions else []
        told += [it for place, it in enumerate(more) if it != (more[place - 1] if place else told[-1] if told else "")]
    return told


def compare_laws(source, calls, rows):
    """The order of the refusals of each call, by the law that says which one answers."""
    names = {camel(it.word): it.word for it in rows}
    helpers = ("by_live", "wants_room", "wants_number", "forks", "changes_group")
    definitions = {name: source.body(f"\n{name} ", "\n\n")[0].partition(f"\n{name} ")[0] for name in helpers}
    verdicts, _ = source.body("\nabbrev pub verdict", "\n\n")
    _, start = source.body("\nverdict state stamp")
    for it in calls:
        found = re.search(rf"^verdict state stamp \({it.model}\b[^)]*\) =((?:.|\n(?!verdict))*)", verdicts, re.MULTILINE)
        if not found:
            source.say(start, f"there is no verdict of {it.model}")
            continue
        line = source.line_at(source.text.find(found.group()))
        told = refusals_in(found.group(1), definitions, names)
        source.same_order(f"the order of {it.model}", line, [names[name] for name in told], words_of(it.refusals))


def compare_calls(tables, top):
    """The calls and the refusals in their order, the lines that the reader's table has, and the numbers of a saved call."""
    rows, calls = tables["refusals"], tables["calls"]
    reply, call, laws, line, saved = sources = [Source(top, path) for path in OF_CALLS]
    compare_laws(laws, calls, rows)
    names, start = variants(reply, "\npub enum Refusal {\n")
    reply.same_order("the order of refusals", start, names, [camel(it.word) for it in rows])
    with_id = re.findall(r"^    (\w+)\(u64\),", reply.body("\npub enum Refusal {\n")[0], re.MULTILINE)
    reply.same_order("what has an id", start, with_id, [camel(it.word) for it in rows if it.id != "-"])
    names, start = variants(call, "\npub enum Call {\n")
    call.same_order("the order of calls", start, names, [it.model for it in calls])
    told = [(at, (form,)) for at, (forms,) in line.found(r"^/// \| (`.*`) \| \[`Call::") for form in re.findall(r"`([^`]+)`", forms)]
    line.same("the line", told, [(form,) for form in all_forms(tables)])
    saved.same_matches("the operation", r"^pub const SET_PGID: u32 = (\d+);", [(str(it.number),) for it in calls if it.call == "setpgid"])
    return [fault for source in sources for fault in source.faults]


def compare_faults(tables, top):
    """The words of faults of a text."""
    words, form = sources = [Source(top, path) for path in OF_FAULTS]
    faults = [it for it in tables["faults"] if it.of != "none"]
    for source, known in ((words, faults), (form, [it for it in faults if it.of == "form"])):
        source.same_matches("the fault", r'#\[error\("line \{0\}: ([^"]*)"\)\]\n    (\w+)\(u64\),', [(it.words, camel(it.name)) for it in known])
    return [fault for source in sources for fault in source.faults]


def compare_kinds(tables, top):
    """All that the crates have of the kinds of a reply, and the kinds of an effect."""
    numbers, reply, saved, effect = [Source(top, path) for path in (NUMBERS, REPLY, SAVED_NUMBERS, EFFECT)]
    replies = of(tables, "reply")
    told = numbers.found(r"Reply::(\w+)[^=]*?=> (?:\{\s*)?put_values\(reply, kinds::(\w+)") + numbers.found(r"^(?:pub )?fn put_(list|refusal)\((?:.|\n)*?put_values\(reply, kinds::(\w+)")
    models = {"list": "Levels", "refusal": "Refused"}
    facts = [(line, (models.get(name, name), kind)) for line, (name, kind) in told]
    numbers.same("the kind", facts, [(it.model, it.name) for it in replies])
    names, line = variants(reply, "\npub enum Reply {\n")
    reply.same_order("the order of replies", line, names, [it.model for it in replies])
    saved.same_matches("the kind", r"^/// \| (\d+) \| `([A-Z]\w+)` \|", [(str(it.number), it.model) for it in replies])
    saved.same_matches("the kind", r"^pub const LEVELS_KIND: u32 = (\d+);", [(str(it.number),) for it in replies if it.name == "LEVELS"])
    names, line = variants(effect, "\npub enum Effect {\n")
    effect.same_order("the order of effects", line, names, [it.model for it in of(tables, "what")])
    return numbers.faults + reply.faults + saved.faults + effect.faults


def compare_bounds(tables, top):
    """The constants of the crates that bound the interface."""
    faults = []
    for it in (row for row in tables["bounds"] if row.source != "-"):
        path, name = it.source.split(" ")
        source = Source(top, f"crates/{path}")
        found = [(line, (value.replace("_", ""),)) for line, (value,) in source.found(rf"^pub const {name}: \w+ = ([\d_]+);")]
        source.same(f"the bound {name}", found, [(str(it.value),)])
        faults += source.faults
    return faults


def differences(tables, top):
    """What differs, as sentences with file and line."""
    return [*compare_calls(tables, top), *compare_faults(tables, top), *compare_kinds(tables, top), *compare_bounds(tables, top)]
