"""That the functions of interface/functions.tbl are those of the headers, and that each package has what the table says."""

import pathlib
import re

from compared.sources import Source
from tables import words_of

HEADERS = ("bindings/c/pidtab.h", "bindings/c/pidtab_saved.h", "bindings/c/pidtab_replica.h")
DECLARED = r"^(?!static)\w[\w ]*[ *]pidtab_(\w+)\("

# The files of each package.
FILES = {
    "python": tuple(f"bindings/python/pidtab/{name}.py" for name in ("calls", "history", "number_calls", "saving", "seat", "table", "waiting")),
    "rust": tuple(f"bindings/rust/src/{name}.rs" for name in ("blocks", "calls", "history", "options", "saved", "seat", "table", "threads")),
    "go": tuple(f"bindings/go/{name}.go" for name in ("calls", "dump", "history", "replica", "saved", "saver", "table", "values", "workplace")),
    "javascript": ("bindings/js/pidtab.d.ts",),
}
PATHS = (*HEADERS, *(path for paths in FILES.values() for path in paths))

# The body of a type, and a method there. {} is the type. A body ends where a line begins with what is no space.
BODIES = {
    "python": (r"^class {}\b.*\n((?:[ \n].*\n?|\n)*)", r"^    def {}\("),
    "rust": (r"^(?:impl(?:<.*?>)? {}\b|pub trait {}\b).*\{{\n((?:[ \n].*\n?|\n)*)", r"^    (?:pub )?fn {}\b"),
    "javascript": (r"^export (?:class|interface) {}\b.*\{{\n((?:[ \n].*\n?|\n)*)", r"^  (?:static |readonly )?{}[(:]"),
}
# A type, or a function, that stands for itself.
ALONE = {"python": r"^class {}\b", "go": r"^(?:func|type) {}\b", "javascript": r"^export class {}\b"}


def classes_of(text, owner):
    """A class of Python, and those that it is derived from."""
    found = re.search(rf"^class {owner}\((.*?)\):", text, re.MULTILINE)
    return [owner, *[it for base in (found[1].split(", ") if found else ()) for it in classes_of(text, re.escape(base))]]


def has_method(language, text, owner, method):
    """Whether the package has the method. In Go those of calls and workplaces are methods of a table and a seat too, and in Python those of all that it is derived from."""
    if language == "python":
        owner = f"(?:{'|'.join(classes_of(text, owner))})"
    if language == "go":
        owners = "|".join([owner, *(("calls", "workplace") if owner in ("Table", "Seat") else ())])
        return re.search(rf"^func \(\w+ \*?(?:{owners})\) {method}\(", text, re.MULTILINE)
    body, declared = BODIES[language]
    found = re.finditer(body.replace("{}", owner).replace("{{", "{").replace("}}", "}"), text, re.MULTILINE)
    return any(re.search(declared.replace("{}", method), it.group(1), re.MULTILINE) for it in found)


def is_there(language, text, name):
    """Whether the package has what the table says."""
    owner, _, method = name.replace("::", ".").partition(".")
    return has_method(language, text, owner, method) if method else re.search(ALONE[language].replace("{}", owner), text, re.MULTILINE)


def compare_headers(rows, top):
    """Each function is in one row."""
    told = {name: it for it in rows for name in words_of(it.functions)}
    faults, declared = [], set()
    for path in HEADERS:
        source = Source(top, path)
        for line, (name,) in source.found(DECLARED):
            declared.add(name)
            if name not in told:
                source.say(line, f"pidtab_{name} is not in interface/functions.tbl")
        faults += source.faults
    return faults + [f"interface/{table_of(it)}.tbl:{it.at}: pidtab_{name} is in no header" for name, it in told.items() if name not in declared]


def table_of(row):
    """The table that the row stands in."""
    return getattr(row, "table", "functions")


def differences(tables, top):
    """What differs, as sentences with file and line."""
    rows = tables["functions"]
    faults = compare_headers(rows, top)
    for language, paths in FILES.items():
        text = "\n".join(pathlib.Path(top, path).read_text(encoding="utf-8") for path in paths)
        for it in rows:
            name = it.cell(language)
            # The others are written.
            if name != "-" and table_of(it) == "functions" and not is_there(language, text, name):
                faults.append(f"interface/functions.tbl:{it.at}: the package for {language} has no {name}")
    return faults
