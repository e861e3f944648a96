"""Which methods of `pidtab.Calls` an object has, which it lacks, and which of its others look like one by another name."""

from collections.abc import Callable, Iterable
from difflib import get_close_matches

from pidtab.forms import ALL_FORMS, Form, Method, method_of

# All calls of the script language, each the name of a method.
COMMANDS = tuple(dict.fromkeys(form.command for form in ALL_FORMS.values()))

# What system calls and shells call the same.
OTHER_NAMES = {
    "clone": "fork", "clone3": "fork", "vfork": "fork", "execv": "exec", "execve": "exec", "execveat": "exec", "exitgroup": "exit", "wait3": "wait",
    "wait4": "wait", "waitid": "wait", "waitpid": "wait", "setns": "join", "mkdir": "mk", "rmdir": "rm", "prctl": "subreaper",
    "setpgrp": "setpgid", "getpgrp": "getpgid",
}  # fmt: skip

# How much of two names is alike, so that one may be a slip for the other: of four letters, three in their order.
ALIKE = 0.75


class Misnamed(ValueError):
    """A method that looks like one of `pidtab.Calls` and is none. It would be passed over, and its faults with it."""


def sample(form: Form) -> Method:
    """The method of a form with some arguments."""
    return method_of(form.line([1] * len(form.kinds)))


def forms_of(table: object) -> list[Form]:
    """The forms whose method the object has, with such arguments."""
    return [form for form in ALL_FORMS.values() if sample(form).fits(table)]


def likely(name: str, lacking: Iterable[str]) -> str | None:
    """The call that a method's name means, of those that are lacking."""
    plain = name.replace("_", "").lower()
    meant = OTHER_NAMES.get(plain)
    close = [meant] if meant else get_close_matches(plain, COMMANDS, 1, ALIKE)
    return next((call for call in close if call in lacking), None)


def methods(table: object) -> Iterable[str]:
    """The public methods."""
    return (name for name in dir(table) if not name.startswith("_") and callable(getattr(table, name, None)))


def faults_of_names(table: object, lacking: Iterable[str]) -> Iterable[str]:
    """What is wrong with the methods for calls that are lacking: another name, or other arguments."""
    for call in lacking:
        has: Callable[..., object] | None = getattr(table, call, None)
        if callable(has):
            shown = " or ".join(sample(form).shown() for form in ALL_FORMS.values() if form.command == call)
            yield f"`{call}` does not take the arguments of pidtab.Calls: it is called as {shown}"
    for name in methods(table):
        meant = None if name in COMMANDS else likely(name, lacking)
        if meant:
            yield f"`{name}` would not be compared: the method for it is named `{meant}`"


def check_names(table: object, found: Iterable[Form], left_out: Iterable[Form]) -> None:
    """Refuses an object by which a call would be passed over that its author meant to be compared."""
    there = {form.command for form in found} | {form.command for form in left_out}
    faults = [*faults_of_names(table, [call for call in COMMANDS if call not in there])]
    if faults:
        raise Misnamed("; ".join(faults) + ". Name it so, or leave the call out by `without`")


def name_missing(found: Iterable[Form], wanted: Iterable[Form]) -> list[str]:
    """The calls of the wanted forms that were not found: each by its command, or where some forms of it were, the others by their names."""
    there, commands = {form.name for form in found}, {form.command for form in found}
    missing = [form for form in wanted if form.name not in there]
    return [*dict.fromkeys(form.name if form.command in commands else form.command for form in missing)]
