"""The forms of the script language by name, each with the method of `Calls` that it is, and what that tells in the language's words."""

import inspect
from collections.abc import Iterable
from typing import Any, NamedTuple

from pidtab.answers import Forked, Reaped
from pidtab.language import FORMS, KINDS


class Form(NamedTuple):
    """A form: its name, as "wait pid", the command, its words as `FORMS` has them, and the letters of its numbers."""

    name: str
    command: str
    words: tuple[str, ...]
    kinds: tuple[str, ...]

    def line(self, numbers: Iterable[int]) -> str:
        """The line with these numbers."""
        following = iter(numbers)
        return " ".join(str(next(following)) if word in KINDS else word for word in self.words)


class Method(NamedTuple):
    """A call of a method."""

    name: str
    positional: tuple[Any, ...]
    named: dict[str, Any]

    def call(self, table: object) -> Any:
        """What the method of the table tells."""
        return getattr(table, self.name)(*self.positional, **self.named)

    def shown(self) -> str:
        """The call as Python has it."""
        words = [*map(repr, self.positional), *(f"{name}={value!r}" for name, value in self.named.items())]
        return f"{self.name}({', '.join(words)})"

    def fits(self, table: object) -> bool:
        """Whether the table has such a method, which takes such arguments."""
        method = getattr(table, self.name, None)
        if not callable(method):
            return False
        try:
            inspect.signature(method).bind(*self.positional, **self.named)
        except TypeError:
            return False
        except ValueError:
            # A function of C that does not say what it takes.
            return True
        return True


def read_form(text: str) -> Form:
    """A form of `FORMS`."""
    words = tuple(text.split(" "))
    name = " ".join(word for word in words if word not in KINDS)
    return Form(name, words[0], words, tuple(word for word in words if word in KINDS))


ALL_FORMS: dict[str, Form] = {form.name: form for form in map(read_form, FORMS)}


def form_of(line: str) -> Form:
    """The form of a good line."""
    return ALL_FORMS[" ".join(word for word in line.split(" ") if not word.lstrip("-").isdigit())]


# Calls that change nothing, and those that tell nothing.
# Written by tools/interface: words.
QUERIES = frozenset({"getpid", "nspid", "getppid", "count", "getpgid", "getsid", "next"})
TELLS_NOTHING = frozenset({"exec", "exit", "setpgid", "rm", "limit", "move", "join", "subreaper"})
# The end of words.


def select_forms(names: Iterable[str]) -> list[Form]:
    """The forms that are named: each by its name, as "fork" or "wait pid", or all of a command that has no form of its name, as "wait"."""
    if isinstance(names, str):
        raise TypeError("the names of calls are several words, not one str")
    found: dict[str, Form] = {}
    for name in names:
        those = {name: ALL_FORMS[name]} if name in ALL_FORMS else {it.name: it for it in ALL_FORMS.values() if name == it.command}
        if not those:
            raise ValueError(f"no call {name!r}: the calls are {', '.join(ALL_FORMS)}")
        found |= those
    return list(found.values())


def wait_method(caller: int, words: list[str]) -> Method:
    """The wait for `any`, `own`, `pid P` or `group P`."""
    if words[0] == "pid":
        return Method("wait", (caller, int(words[1])), {})
    if words[0] == "group":
        return Method("wait", (caller,), {"group": int(words[1])})
    return Method("wait", (caller,), {"own": True} if words[0] == "own" else {})


def method_of(line: str) -> Method:
    """The method that a good line calls."""
    name, first, *words = line.split(" ")
    number = int(first)
    if name == "wait":
        return wait_method(number, words)
    if name == "fork":
        return Method(name, (number,), {"new": True} if words else {})
    if name == "next":
        return Method(name, (number, words[0], int(words[1])), {})
    if name == "subreaper":
        return Method(name, (number, words[0] == "on"), {})
    if name == "limit":
        return Method(name, (number, None if words[0] == "max" else int(words[0])), {})
    return Method(name, (number, *map(int, words)), {})


def say_answer(name: str, told: object) -> str:
    """What a method tells, as the answer to its line."""
    if isinstance(told, Forked):
        return f"child {told.child} root {told.root}"
    if isinstance(told, Reaped):
        return f"reaped {told.child} killed" if told.killed else f"reaped {told.child} exit {told.status}"
    if isinstance(told, tuple):
        return " ".join(str(number) for number in told)
    if told is None:
        return {"wait": "none", "next": "end"}.get(name, "ok")
    return f"control {told}" if name == "mk" else str(told)
