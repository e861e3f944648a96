"""The prompt of `pidtab-play`: its own commands, and which words the tab key completes."""

from pidtab.commands.session import EQUALS, ROOT, SIGN, Session, fits_before
from pidtab.language import FORMS, KINDS

# What a line may be besides a call.
COMMANDS = {
    "list": "the table, as `pidtab list` writes it",
    "tree": "the table as a drawing",
    "undo": "takes the last call back, with the name that it gave",
    "help": "this",
    "quit": "ends",
}

def words_behind(before: list[str]) -> list[str]:
    """What the forms have after these words, a sign for a number."""
    place = len(before)
    found = []
    for form in FORMS:
        parts = form.split(" ")
        if len(parts) > place and fits_before(parts[:place], before):
            found.append(SIGN if parts[place] in KINDS else parts[place])
    return list(dict.fromkeys(found))


def names_of(session: Session) -> list[str]:
    """The names with their sign, and the root numbers of tasks."""
    names = [f"{SIGN}{name}" for name in session.names]
    return names + [f"{SIGN}{name}{ROOT}" for name, value in session.names.items() if value.kind == "task"]


def complete(session: Session, line: str, word: str) -> list[str]:
    """The words that begin so and may stand after a line."""
    before = line.split()
    if before[1:2] == [EQUALS]:
        before = before[2:]
    elif not before:
        return [it for it in (*words_behind([]), *COMMANDS) if it.startswith(word)]
    behind = words_behind(before)
    found = [it for it in behind if it != SIGN] + (names_of(session) if SIGN in behind else [])
    return [it for it in found if it.startswith(word)]


def begin(session: Session) -> None:
    """Has the tab key complete words, where this Python can."""
    try:
        import readline
    except ImportError:
        return

    def completed(word: str, place: int) -> str | None:
        found = complete(session, readline.get_line_buffer()[: readline.get_begidx()], word)
        return found[place] + " " if place < len(found) else None

    readline.set_completer_delims(" \t\n")
    readline.set_completer(completed)
    readline.parse_and_bind("tab: complete")
