"""Reads what the headers of C declare: the functions with their arguments, and the structs with their fields."""

import re
from typing import NamedTuple

HEADERS = ("bindings/c/pidtab.h", "bindings/c/pidtab_saved.h", "bindings/c/pidtab_replica.h")


class Argument(NamedTuple):
    """What a function takes, or a field of a struct: its type, as `const void *`, its name, and how many there are, or nothing."""

    kind: str
    name: str
    many: str = ""

    def __str__(self):
        return f"{self.kind}{'' if self.kind.endswith('*') else ' '}{self.name}{self.many}"


class Function(NamedTuple):
    """A function: its header, its name without pidtab_, what it answers, and what it takes. Those that are inline have their code there."""

    header: str
    name: str
    result: str
    arguments: tuple
    is_inline: bool


def read_argument(text):
    """An argument or a field, as `struct pidtab *table`."""
    kind, name, many = re.fullmatch(r"(.*?[ *])(\w+)(\[\w+\])?", text.strip()).groups("")
    return Argument(kind.strip(), name, many)


def read_functions(header, text):
    """The functions that a header without its comments declares, in its order."""
    found = re.finditer(r"(static inline )?((?:const )?(?:struct )?\w+ \*?)pidtab_(\w+)\(([^()]*)\)[;{\s]", text)
    return [Function(header, name, result.strip(), tuple(read_argument(it) for it in taken.split(",") if it != "void"), bool(inline))
            for inline, result, name, taken in (it.groups() for it in found) if result.strip() not in ("return", "else")]  # fmt: skip


def read_structs(text):
    """The fields of the structs that a header declares, by their names."""
    return {name: [read_argument(it) for it in body.split(";") if it.strip()] for name, body in re.findall(r"^struct (pidtab\w*) \{(.*?)^\};", text, re.MULTILINE | re.DOTALL)}


class Headers:
    """All functions and structs of the headers."""

    def __init__(self, top):
        self.functions, self.structs = [], {}
        for path in HEADERS:
            text = re.sub(r"/\*.*?\*/", "", (top / path).read_text(encoding="utf-8"), flags=re.DOTALL)
            self.functions += read_functions(path, text)
            self.structs |= read_structs(text)

    def function(self, name):
        """The function of the name, without pidtab_."""
        return next(it for it in self.functions if it.name == name)

    def of(self, header, prefix=""):
        """The functions of a header that are no inline ones, whose names begin so."""
        return [it for it in self.functions if it.header.endswith(f"/{header}") and not it.is_inline and it.name.startswith(prefix)]
