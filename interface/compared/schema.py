"""The words and errors of refusals, and the fields of a list, in docs/list.schema.json."""

import json

from compared.sources import Source
from written.fields import fields_of

PATHS = ("docs/list.schema.json",)


def differences(tables, top):
    """What differs, as sentences with file and line."""
    source, rows = Source(top, *PATHS), tables["refusals"]
    known = json.loads(source.text)["$defs"]
    told = known["refusal"]["properties"]
    line = source.line_at(source.text.find('"refusal": {'))
    source.same_order("the words of refusals", line, told["word"]["enum"], [it.word for it in rows])
    source.same_order("the errors of refusals", line, sorted(told["error"]["enum"]), sorted({it.error for it in rows}))
    for name in ("task", "space", "control"):
        wanted = [field for it in fields_of(tables, "list", name) for field in ((it.field, "status") if it.type == "state" else (it.field,))]
        source.same_order(f"the fields of a {name}", source.line_at(source.text.find(f'"{name}": {{\n')), known[name]["required"], wanted)
    return source.faults
