"""Lines of calls as numbers, so that many calls are made in one go."""

import re
import struct
from collections.abc import Callable
from functools import lru_cache
from operator import itemgetter
from typing import Any, NamedTuple

from pidtab.calls import LINES, Call
from pidtab.raw import CALL_FIELDS, EXIT, LONGEST_CALL

GREATEST_STATUS = 255

# The bytes of numbers. Without them each form is another text.
OF_NUMBERS = b"-0123456789"
find_numbers = re.compile(rb"-?[0-9]+").findall


class LineForm(NamedTuple):
    """A form of a line: its text with places for numbers, the operation and the choice, and what has the fields of a call of 0, these two and the numbers."""

    text: bytes
    operation: int
    choice: int
    fields: Callable[[tuple[int, ...]], tuple[Any, ...]]


def read_form(text: str, operation: int, choice: int) -> LineForm:
    """A form as `LINES` has it."""
    places = {name: place for place, name in enumerate(("", "operation", "choice", *re.findall(r"{(\w+)}", text)))}
    fields = itemgetter(*[places.get(name, 0) for name in Call._fields])
    return LineForm(re.sub(r"{\w+}", "%d", text).encode(), operation, choice, fields)


ALL_FORMS = [read_form(text, operation, choice) for operation, texts in LINES.items() for choice, text in enumerate(texts)]
FORMS = {form.text.replace(b"%d", b""): form for form in ALL_FORMS}


def read_call(line: bytes) -> bytes | None:
    """The numbers of the call on a line, if it is written as that call is. What any other line is, the library says."""
    return read_short(line) if len(line) <= LONGEST_CALL else None


# The same lines come again and again.
@lru_cache(maxsize=4096)
def read_short(line: bytes) -> bytes | None:
    """The same of a line that is no longer than a call may be."""
    form = FORMS.get(line.translate(None, OF_NUMBERS))
    if form is None:
        return None
    text, operation, choice, fields = form
    try:
        numbers = tuple(map(int, find_numbers(line)))
        if text % numbers != line or (operation == EXIT and numbers[1] > GREATEST_STATUS):
            return None
        return CALL_FIELDS.pack(*fields((0, operation, choice, *numbers)))
    except (TypeError, ValueError, struct.error):
        # Too many digits or numbers, or too few, or a number that does not fit.
        return None
