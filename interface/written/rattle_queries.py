"""The crates: which calls ask, which may need memory and which make an id; and the imports of all calls beside these rows."""

from model import call
from places import definition, handed_on, imports
from written.rattle import all_refusals
from written.rattle_lines import all_calls

STEP = "crates/pid_types/specs/Step.antt"
LAWS = "crates/model_laws/specs/Refusals.antt"
WORDS = "crates/model_laws/proofs/Words.antt"
RECKONING = "crates/call_effects/proofs/Reckoning.antt"


def asks(tables):
    """Whether a call only asks."""
    return [*[f"is_query {call(it)} = true" for it in tables["calls"] if it.query == "yes"], "is_query _ = false"]


def grows(tables):
    """Whether a call may need memory."""
    return [*[f"may_grow {call(it)} = true" for it in tables["calls"] if it.memory == "yes"], "may_grow _ = false"]


def makes(tables):
    """Whether a call makes something that has an id."""
    told = [f"makes_id {call(it)} = {'true' if it.makes == 'yes' else 'new_space'}" for it in tables["calls"] if it.makes != "no"]
    return [*told, "makes_id _ = false"]


def for_users(lines):
    """The import of all variants for those who use the module."""
    return lambda tables: [f"pub {it}" for it in lines(tables)]


ROWS = {
    **{(path, "imports of Call"): (imports("Call"), all_calls) for path in (LAWS, RECKONING)},
    (LAWS, "imports of Refusal"): (imports("Refusal"), all_refusals),
    (WORDS, "imports of Call"): (handed_on("pid_types.specs.declared.call.Call"), for_users(all_calls)),
    (WORDS, "imports of Refusal"): (handed_on("pid_types.specs.declared.reply.Refusal"), for_users(all_refusals)),
    (STEP, "may_grow"): (definition("may_grow"), grows),
    (STEP, "makes_id"): (definition("makes_id"), makes),
    (LAWS, "is_query"): (definition("is_query"), asks),
}
