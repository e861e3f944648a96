"""The script language, as docs/SCRIPT.md has it: which lines are good, and what a bad one should have been."""

import difflib
import functools
import re
from dataclasses import dataclass

LONGEST_LINE = 200
END_OF_LINE = "the end of the line"

# Written by tools/interface: forms.
FORMS = (
    "fork C", "fork C new", "exec C", "exit C S", "wait C any", "wait C pid P", "wait C own",
    "wait C group P", "setpgid C G G", "setsid C", "getpid C", "getppid C", "getpgid C P",
    "getsid C P", "nspid C P", "next C task P", "next C group P", "next C session P", "join C P",
    "subreaper C on", "subreaper C off", "mk I", "rm I", "limit I N", "limit I max", "move T I",
    "count I",
)  # fmt: skip
# The end of forms.

COMMANDS = tuple(dict.fromkeys(form.split(" ")[0] for form in FORMS))


@dataclass(frozen=True)
class Kind:
    """A word that is a number: what it is, the least and the greatest."""

    name: str
    least: int
    greatest: int

    def __str__(self) -> str:
        return f"{self.name}, {self.least} to {self.greatest}"


# A limit above 4194304 is refused, but the line is good.
KINDS = {
    "C": Kind("a caller", 0, 2**32 - 1),
    "T": Kind("a task", 0, 2**32 - 1),
    "P": Kind("a process number", 0, 2**32 - 1),
    "N": Kind("a limit", 0, 2**32 - 1),
    "S": Kind("a status", 0, 255),
    "G": Kind("a number", -(2**31), 2**31 - 1),
    "I": Kind("the id of a control group", 0, 2**64 - 1),
}

NUMBER = re.compile(rb"0|-?[1-9][0-9]*")


@dataclass(frozen=True)
class Fault:
    """Why a line is bad: the column of the byte where it goes wrong, counted from 1, and what was expected there."""

    column: int
    expected: str


def is_number(word: bytes, kind: Kind) -> bool:
    """Whether a word is a number of the kind."""
    # Python reads no decimal number of more than some thousand digits.
    if len(word) > LONGEST_LINE or not NUMBER.fullmatch(word):
        return False
    return kind.least <= int(word) <= kind.greatest


def fits(word: bytes, wanted: str) -> bool:
    """Whether a word is the one of a form, or a number of its kind."""
    kind = KINDS.get(wanted)
    return word == wanted.encode() if kind is None else is_number(word, kind)


def say_words(wanted: list[str]) -> str:
    """What may stand at a place, in words."""
    said = [END_OF_LINE if it == END_OF_LINE else str(KINDS[it]) if it in KINDS else f"`{it}`" for it in wanted]
    return " or ".join(dict.fromkeys(said))


@functools.lru_cache(maxsize=1000)
def say_command(word: bytes) -> str:
    """What to say of a word that is no command."""
    if word.startswith(b"#"):
        return "a command: there are no comments"
    near = difflib.get_close_matches(word.decode("latin-1").lower(), COMMANDS, 1)
    return f"a command: the nearest is `{near[0]}`" if near else f"a command: one of {', '.join(COMMANDS)}"


def say_number(word: bytes, wanted: list[str]) -> str:
    """What to say of a word where a number may stand."""
    said = say_words(wanted)
    if re.fullmatch(rb"[+-]?0+[0-9]+|-0", word):
        return f"{said}, without a leading zero"
    return f"{said}, without a plus sign" if word.startswith(b"+") else said


def say_place(words: list[bytes], place: int, wanted: list[str]) -> str:
    """What was expected at a place of a line."""
    if place < len(words) and words[place] == b"":
        return "one space between two words, and none before the first or after the last"
    if place < len(words) and b"\t" in words[place]:
        return "one space between two words, not a tab"
    if place == 0:
        return say_command(words[0])
    return say_number(words[place], wanted) if place < len(words) else say_words(wanted)


def judge_words(words: list[bytes]) -> tuple[int, list[str]] | None:
    """The first place where no form goes on, with what the forms so far have there; None for the words of a form."""
    forms = [[*form.split(" "), END_OF_LINE] for form in FORMS]
    for place, word in enumerate(words):
        kept = [form for form in forms if form[place] != END_OF_LINE and fits(word, form[place])]
        if not kept:
            return place, [form[place] for form in forms]
        forms = kept
    if any(form[len(words)] == END_OF_LINE for form in forms):
        return None
    return len(words), [form[len(words)] for form in forms]


def judge(line: bytes) -> Fault | None:
    """What is wrong with a line without its newline; None for a good or an empty line."""
    if not line:
        return None
    if len(line) > LONGEST_LINE:
        return Fault(LONGEST_LINE + 1, f"at most {LONGEST_LINE} bytes in a line")
    if line.endswith(b"\r"):
        return judge(line[:-1]) or Fault(len(line), "a newline alone, without a carriage return")
    words = line.split(b" ")
    found = judge_words(words)
    if found is None:
        return None
    place, wanted = found
    # The byte after the words before it and their spaces; after the last word it is the line's end.
    column = sum(len(word) + 1 for word in words[:place]) + (1 if place < len(words) else 0)
    tab = words[place].find(b"\t") if place < len(words) else -1
    return Fault(column + max(tab, 0), say_place(words, place, wanted))
