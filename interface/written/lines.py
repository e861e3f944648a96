"""The lines of the script language: what each call has in words, with a letter for each of its numbers."""

import html
import re
import textwrap
from itertools import groupby, product

from arguments import arguments_of
from names import strings, wrapped

LETTERS = {"id": "I", "byte": "S", "signed": "G", "number": "P"}
SWITCHES = {"new": ["", "new"], "on": ["on", "off"], "most": ["N", "max"]}


def ways(tables, argument):
    """What may stand for an argument."""
    if argument.field == "caller":
        return ["C" if argument.name == "caller" else "T"]
    if argument.kind == "use":
        return [it.word for it in tables["kinds"] if it.of == "use"]
    if argument.kind == "which":
        return [f"{it.word} P" if "the number" in it.tells else it.word for it in tables["kinds"] if it.of == "which"]
    return SWITCHES.get(argument.kind) or [LETTERS[argument.kind]]


def forms_of(tables):
    """The forms of each call, by their words without the letters."""
    forms = {}
    for row in tables["calls"]:
        for words in product([row.call], *(ways(tables, it) for it in arguments_of(row))):
            form = " ".join(filter(None, words))
            forms[" ".join(word for word in form.split(" ") if word.islower())] = form
    return forms


def rows_of(tables):
    """Each row of the lines with its forms."""
    forms, rows = forms_of(tables), []
    for row in tables["lines"]:
        found = [[forms[name]] if name in forms else [it for it in forms.values() if it.split(" ")[0] == name] for name in row.calls.split(", ")]
        rows.append((row, [form for those in found for form in those]))
    return rows


def all_forms(tables):
    """All forms in the order of the page."""
    return [form for _, forms in rows_of(tables) for form in forms]


def commands(tables):
    """The page's table."""
    rows = [f"| {', '.join(f'`{form}`' for form in forms)} | {row.asks} | {row.answer} |" for row, forms in rows_of(tables)]
    return ["", "| Line | What it asks | Answer |", "|---|---|---|", *rows, ""]


def heading(form):
    """A form as mdoc has it: words of the language by Cm, and numbers by Ar."""
    command, *words = form.split(" ")
    return f".It Ic {command}" + "".join(f" {'Ar' if upper else 'Cm'} {' '.join(those)}" for upper, those in groupby(words, str.isupper))


def sentences(text):
    """Sentences as mdoc has them: answers by Ql, and numbers by Ar."""
    lines = []
    for part in re.split(r"(?<=\.) |\s*((?:`[^`]+`|\{[A-Z]\})[,.]?)\s*", text):
        found = re.fullmatch(r"(?:`([^`]+)`|\{([A-Z])\})([,.]?)", part or "")
        if found:
            lines.append(f".{'Ql' if found[1] else 'Ar'} {found[1] or found[2]} {found[3]}".rstrip())
        elif part:
            lines += textwrap.wrap(part, 80, break_on_hyphens=False)
    return lines


def manual(tables):
    """The list of the manual page."""
    return [".Bl -tag -width Ds", *[line for row, forms in rows_of(tables) for line in (*map(heading, forms), *sentences(row.manual))], ".El"]


def python(tables):
    """A tuple."""
    return ["FORMS = (", *wrapped(strings(all_forms(tables)) + ",", "    ", 100), ")  # fmt: skip"]


def javascript(tables):
    """A list, of which each string has some forms."""
    return ["const FORMS = [", *[f'  "{line.strip().strip(",").replace(", ", "|")}",' for line in wrapped(", ".join(all_forms(tables)), "  ", 100)], '].flatMap((forms) => forms.split("|"));']


def go(tables):
    """A slice."""
    return ["var forms = []string{", *wrapped(strings(all_forms(tables)) + ",", "\t", 110), "}", ""]


def rust(tables):
    """An array."""
    forms = all_forms(tables)
    return [f"const FORMS: [&str; {len(forms)}] = [", *[f'    "{form}",' for form in forms], "];"]


def page(tables):
    """A list of the page in the browser."""
    return [f"        <dt>{', '.join(forms)}</dt><dd>{html.escape(row.asks, quote=False)}</dd>" for row, forms in rows_of(tables)]


PARTS = {
    ("page/index.html", "lines"): page, ("docs/SCRIPT.md", "commands"): commands, ("man/pidtab.5", "commands"): manual, ("bindings/python/pidtab/language.py", "forms"): python, ("page/language.js", "forms"): javascript,
    ("bindings/go/pidtabtest/aim.go", "forms"): go, ("bindings/rust/src/testing.rs", "forms"): rust,
}  # fmt: skip
