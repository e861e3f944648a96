"""The manual pages, in mdoc."""

import textwrap

from names import capitals, sentence, takes

PIDTAB = "man/pidtab.3"


def table(sample, head, rows):
    """A table: its widest cells, its head, and its rows, each of cells."""
    widest = " ".join(f'"{cell}"' for cell in sample)
    said = " Ta ".join(f"Sy {cell}" for cell in head)
    return [f".Bl -column {widest}", f".It {said}", *[".It " + " Ta ".join(cells) for cells in rows], ".El"]


def filled(text):
    """A text in lines of at most 80 columns."""
    return textwrap.wrap(text, 80, break_on_hyphens=False)


def refusals(tables):
    """The refusals with their numbers."""
    rows = [(f"Dv PIDTAB_{capitals(it.word)}", str(it.number), f"Er {it.error}", it.word) for it in tables["refusals"]]
    return table(("PIDTAB_OTHER_SESSION", "number", "ECHILD", "control-depth"), ("refusal", "number", "error", "word"), rows)


def answers(tables):
    """The refusals as answers to lines, and when each comes."""
    lines = [".Bl -tag -width Ds"]
    for it in tables["refusals"]:
        behind = "" if it.id == "-" else f" {it.id}"
        lines += [f".It Li {it.error} {it.word}{behind}", *filled(sentence(it.sentence.format(id=it.id)))]
    return [*lines, ".El"]


def faults(tables):
    """The faults of a text with their numbers."""
    rows = [(f"Dv PIDTAB_FAULT_{it.name}", str(it.number), it.words) for it in tables["faults"]]
    return table(("PIDTAB_FAULT_UNKNOWN_NAMESPACE", "number", "namespace without an init"), ("kind", "number", "words"), rows)


def kinds(tables):
    """The kinds of a reply, and what each tells."""
    names = {name: name for name in ("first", "second", "count", "levels", "error", "refusal")}
    rows = [(f"Dv PIDTAB_{it.name}", it.tells.format(killed="Dv PIDTAB_KILLED No", **names)) for it in tables["kinds"] if it.of == "reply"]
    return table(("PIDTAB_NONE_YET", "tells"), ("kind", "what it tells"), rows)


def operations(tables):
    """The calls as numbers, with what each takes."""
    rows = [(f"Dv PIDTAB_{capitals(it.call)}", f"Ic {it.call}", takes(it, which="enum pidtab_which", use="enum pidtab_use")) for it in tables["calls"]]
    return table(("PIDTAB_SUBREAPER", "subreaper", "takes"), ("operation", "in a script", "takes"), rows)


PARTS = {(PIDTAB, "operations"): operations, (PIDTAB, "kinds"): kinds, (PIDTAB, "refusals"): refusals, ("man/pidtab.5", "refusals"): answers, (PIDTAB, "faults"): faults}
