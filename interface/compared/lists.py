"""That lists and texts of tables have the fields of interface/list.tbl: those of the worked examples, which the program is tested by, and of the page."""

import re

from compared.sources import Source
from written.fields import fields_of

EXAMPLE = "bindings/example.list"
PAGE = "docs/SCRIPT.md"
FOLDER = "examples"
PATHS = (EXAMPLE, PAGE)

NAME = r"\d+(?:,\d+)*@\d+"
FORMS = {
    "numbers": r"\d+(?:,\d+)*", "root": r"(?:-|\d+)", "limit": r"(?:max|\d+)", "state": r"(?:live|exit \d+|killed)", "name": NAME, "first": rf"(?:-|{NAME})",
    "version": "1", "digest": "[0-9a-f]{64}",
}  # fmt: skip


def form(row, is_first):
    """How a field is written, with the space before it."""
    word = "" if row.type == "state" or (is_first and row.line in ("task", "space", "control")) else f" {row.field}"
    if row.type in ("mark", "apart"):
        return f"(?P<{row.field}>{word}{'' if row.type == 'mark' else r' [0-9]+'})?"
    return f"{word} {FORMS.get(row.type, r'[0-9]+')}"


def patterns(tables, of):
    """The form of each line."""
    told = {}
    for row in fields_of(tables, of):
        told[row.line] = told.get(row.line, row.line) + form(row, row.line not in told)
    return {line: re.compile(written) for line, written in told.items()}


def compare(source, lines, known):
    """Each line, with its number, is one of those forms. Gives the marks that were met."""
    met = set()
    for number, line in lines:
        found = known.get(line.split(" ")[0], re.compile("(?!)")).fullmatch(line)
        if not found:
            source.say(number, "the line is not one of interface/list.tbl")
        else:
            met |= {(found.re.pattern, name) for name, value in found.groupdict().items() if value}
    return met


def differences(tables, top):
    """What differs, as sentences with file and line."""
    faults, lists, texts = [], patterns(tables, "list"), patterns(tables, "text")
    for path in (EXAMPLE, *sorted(f"{FOLDER}/{it.name}" for it in (top / FOLDER).glob("*.list"))):
        source = Source(top, path)
        met = compare(source, list(enumerate(source.text.splitlines(), 1)), lists)
        if path == EXAMPLE:
            wanted = {(it.pattern, name) for it in lists.values() for name in it.groupindex}
            faults += [f"{path}: no line has the field {name} of interface/list.tbl" for _, name in sorted(wanted - met)]
        faults += source.faults
    source = Source(top, PAGE)
    sample = re.search(r"^    pidtab table 1 .*\n(?:    .*\n)*", source.text, re.MULTILINE)
    first = source.line_at(sample.start())
    compare(source, [(first + place, line.strip()) for place, line in enumerate(sample.group().splitlines())], texts)
    return faults + source.faults
