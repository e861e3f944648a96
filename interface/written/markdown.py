"""The pages, which say cgroup for a control group."""

from tables import words_of

SCRIPT = "docs/SCRIPT.md"


def table(head, rows):
    """A table of Markdown."""
    first, *others = [f"| {' | '.join(cells)} |" for cells in (head, *rows)]
    return ["", first, "|" + "---|" * len(head), *others, ""]


def said(text):
    """A text in the words of the pages."""
    return text.replace("control group", "cgroup")


def answers(tables):
    """The refusals as answers to lines, and when each comes."""
    rows = []
    for it in tables["refusals"]:
        behind = "" if it.id == "-" else f" {it.id}"
        rows.append((f"`{it.error} {it.word}{behind}`", said(it.sentence.format(id=it.id))))
    return table(("Answer", "When"), rows)


def quoted(refusals):
    """The words of an order between backticks, with their notes."""
    return ", ".join(f"`{word}`{note and ' ' + note}" for word, _, note in (it.partition(" ") for it in refusals.split(", ")))


def orders(tables):
    """For which reasons each call is refused, in their order."""
    found = {}
    for it in tables["calls"]:
        found.setdefault(it.refusals, []).append(f"`{it.call}`")
    several = [(calls, order) for order, calls in found.items() if len(words_of(order)) > 1]
    return ["", *[f"- {', '.join(calls)}: {said(quoted(order))}" for calls, order in several], ""]


def classes(tables):
    """The words of the refusals with each errno, and the class of Python for them."""
    rows = []
    for errno in tables["errnos"]:
        words = [f"`{it.word}`" for it in tables["refusals"] if it.error == errno.name]
        if words:
            rows.append((", ".join(words), f"`{errno.name}`", f"`{'Refusal' if errno.python == '-' else errno.python}`"))
    return table(("Words", "Errno", "Class"), rows)


def faults_of(tables, part):
    """The faults of a text of a kind, and when each comes."""
    rows = [it for it in tables["faults"] if it.of == part]
    return table(("Fault", "When"), [(f"`line {it.line}: {it.words}`", said(it.sentence if it.page == "-" else it.page)) for it in rows])


def packages_of(row):
    """What has the function in each package."""
    return [row.cell(language) for language in ("python", "rust", "go", "javascript")]


def functions(tables):
    """The functions of C that two packages have, and what has them in each package. Those of a record that a table and all packages have too are left out."""
    rows = []
    everywhere = {f"record_{it.functions}" for it in tables["functions"] if "-" not in packages_of(it)}
    for it in tables["functions"]:
        names = ", ".join(f"`pidtab_{name}`" for name in words_of(it.functions))
        packages = packages_of(it)
        twin = words_of(it.functions)[0] in everywhere - {"record_open"} and "-" not in packages
        if packages.count("-") < 3 and not twin:
            rows.append((it.sentence, names, *["" if cell == "-" else f"`{cell}`" for cell in packages]))
    return table(("What it does", "C", "Python", "Rust", "Go", "JavaScript"), rows)


PARTS = {
    ("docs/LIBRARY.md", "functions"): functions,
    (SCRIPT, "refusals"): answers,
    (SCRIPT, "orders"): orders,
    (SCRIPT, "faults of the form"): lambda tables: faults_of(tables, "form"),
    (SCRIPT, "faults of the table"): lambda tables: faults_of(tables, "table"),
    ("bindings/python/README.md", "refusals"): classes,
}
