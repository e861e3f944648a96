"""The lines of a list in the package for Rust: the fields of its structs, what reads them, and what they are as JSON."""

from names import sentence
from written.fields import fields_of

PATH = "bindings/rust/src/listing.rs"
STRUCTS = {"task": "a task", "space": "a namespace", "control": "a control group"}

TYPES = {
    "numbers": "Vec<u32>", "number": "u32", "id": "u64", "count": "u64", "root": "Option<u64>", "limit": "Option<u32>", "state": "Option<Ended>", "mark": "bool", "apart": "Option<u64>",
}  # fmt: skip

# What takes a field off the words of a line, and what it is in JSON.
READS = {"numbers": "numbers({})?", "root": 'unless({}, "-")?', "limit": 'unless({}, "max")?', "state": "state()?", "mark": "mark({})", "apart": "apart({})?"}
OBJECTS = {"numbers": "array(&{}, u32::to_string)", "root": "or_null({})", "limit": "or_null({})", "state": "or_null(status)", "apart": "or_null({})"}

# The field of a state has a name and a sentence of its own.
ENDED = "How it ended; none for a live task. One that ended was not yet waited for."


def name_of(row):
    """The name of a field."""
    return "ended" if row.type == "state" else row.field


def said(row):
    """What a field is."""
    if row.type == "state":
        return ENDED
    text = f"whether {row.sentence}" if row.type == "mark" else row.sentence
    return sentence(text if row.none == "-" else f"{text}, none for {row.none}")


def struct(line):
    """The fields of a struct."""

    def rows(tables):
        return [text for it in fields_of(tables, "list", line) for text in (f"    /// {said(it)}", f"    pub {name_of(it)}: {TYPES[it.type]},")]

    return rows


def reader(tables, line):
    """What reads a line."""
    name, lines = line.capitalize(), []
    for place, it in enumerate(fields_of(tables, "list", line)):
        lines.append(f"        {name_of(it)}: words.{READS.get(it.type, 'number({})?').format(f'{chr(34)}{it.field if place else line}{chr(34)}')},")
    return [
        "", f"/// {STRUCTS[line].capitalize()} of a line, where it is one.", f"fn read_{line}(words: &mut Words<'_>) -> Option<{name}> {{", f"    Some({name} {{", *lines,
        *(["        label: None,"] if line == "task" else []), "    })", "}",
    ]  # fmt: skip


def readers(tables):
    """What reads each line."""
    return [text for line in STRUCTS for text in reader(tables, line)][1:]


def json_of(tables, line):
    """The fields of a line as JSON. A task has its state in two fields, and perhaps a label."""
    told, passed = [], []
    for it in fields_of(tables, "list", line):
        told.append('"state":"{state}","status":{}' if it.type == "state" else f'"{it.field}":{{}}')
        passed.append(f"        {OBJECTS.get(it.type, '{}').format(f'{line}.{it.field}')},")
    label = ["        task.label", "            .as_deref()", '            .map_or_else(String::new, |it| format!(r#","label":{}"#, quote(it))),']
    is_task = line == "task"
    return [
        "", f"/// The fields of {STRUCTS[line]}, as docs/list.schema.json has them.", f"fn {line}_object({line}: &{line.capitalize()}) -> String {{",
        *(["    let (state, status) = state(task.ended);"] if is_task else []), "    format!(", f'        r#"{{{{{",".join(told)}{"{}" if is_task else ""}}}}}"#,', *passed,
        *(label if is_task else []), "    )", "}",
    ]  # fmt: skip


def objects(tables):
    """Each line as JSON."""
    return [text for line in STRUCTS for text in json_of(tables, line)][1:]


PARTS = {
    **{(PATH, f"fields of {named}"): struct(line) for line, named in STRUCTS.items()},
    (PATH, "readers"): readers,
    (PATH, "objects"): objects,
}
