"""Where rows stand in a file that has no comments around them: the crates, whose stored proofs are those of the bytes that are there."""

import re
from typing import NamedTuple


class PlaceFault(Exception):
    """A file in which a part has no place."""


class Place(NamedTuple):
    """The rows stand after the one line that begins so, or after the next one that opens them, up to one that ends them.

    Spaces in front do not count, but what ends them has as many as what opens them.
    """

    begins: str
    opens: str
    ends: str

    def find(self, path, lines):
        """The lines before and after the rows, by their places."""
        heads = [place for place, line in enumerate(lines) if re.match(self.begins, line.strip())]
        if len(heads) != 1:
            raise PlaceFault(f"{path}: a line `{self.begins}` is there {len(heads)} times, not once")
        first = next_line(path, lines, heads[0], self.opens) if self.opens else heads[0]
        return [first, next_line(path, lines, first + 1, self.ends, indent_of(lines[first]))]


class Block(NamedTuple):
    """The rows are whole definitions, from the first line of a form up to the next one of another."""

    begins: str
    ends: str

    def find(self, path, lines):
        """The lines before and after the rows, by their places."""
        first = next_line(path, lines, 0, self.begins)
        return [first - 1, next_line(path, lines, first, self.ends)]


def indent_of(line):
    """The spaces in front of a line."""
    return line[: len(line) - len(line.lstrip())]


def next_line(path, lines, start, pattern, indent=None):
    """The place of the next line that is such a one, with so many spaces in front where that is said."""
    for place in range(start, len(lines)):
        if re.fullmatch(pattern, lines[place].strip()) and indent in (None, indent_of(lines[place])):
            return place
    raise PlaceFault(f"{path}:{start + 1}: no line `{pattern}` follows")


def definition(name):
    """The rows of a definition: they end where a line is empty."""
    return Place(rf"(?:abbrev|unfoldable) pub {name} : ", "", "")


def imports(name):
    """The lines that import all variants of an enum. They follow the one that imports the enum."""
    return Place(rf"use .*\.{name}\.\{{{name}\}}$", "", rf"(?!use .*\.{name}\.TheVariants\.).*")


def handed_on(path):
    """The lines that import all variants of an enum for those who use the module."""
    line = rf"pub use Rattle\.{re.escape(path)}\.TheVariants\..*"
    return Block(line, f"(?!{line}).*")


def arms(function):
    """The arms of the first match of a function. It is said as in `fn name(`."""
    return Place(rf"(?:pub )?fn {re.escape(function)}", r"(?:let .* = )?match .* \{", r"\};?")


def variants(name):
    """The variants of an enum."""
    return Place(rf"pub enum {name} \{{$", "", r"\}")
