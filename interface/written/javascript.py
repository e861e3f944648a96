"""The package for JavaScript."""

from names import capitals, strings, wrapped

HEADER = "bindings/js/src/header.js"


def listed(name, words):
    """A list of words."""
    return [f"export const {name} = [", *wrapped(f"{strings(words)},", "  ", 140), "];"]


def refusals(tables):
    """The words of refusals, and their errnos."""
    rows = tables["refusals"]
    errnos = sorted((it.value, it.name) for it in tables["errnos"] if it.name in {row.error for row in rows})
    return [
        "/** The words of the refusals, by their numbers from 1 on. */",
        *listed("REFUSALS", [it.word for it in rows]),
        "",
        "/** After these words is the id of the namespace, or of the control group, that refuses. */",
        f"export const WITH_ID = [{strings([it.word for it in rows if it.id != '-'])}];",
        "",
        "/** The errnos of Linux that a refusal may have. */",
        "export const ERRNOS = {",
        *wrapped(", ".join(f'{value}: "{name}"' for value, name in errnos) + ",", "  ", 140),
        "};",
    ]


def statuses(tables):
    """What the functions of a table and a record answer."""
    values = {it.name: it.value for it in tables["errnos"]}
    rows = [f"{it.name}: {values.get(it.error, 0)}" for it in tables["statuses"] if it.of in ("table", "record")]
    return ["export const STATUS = {", *wrapped(", ".join(rows) + ",", "  ", 140), "};"]


def faults(tables):
    """The words of the faults of a text."""
    comment = "/** Why a text is that of no table, by the numbers of the faults from 1 on. */"
    return [comment, *listed("TEXT_FAULTS", [it.words for it in tables["faults"]])]


def named(name, rows):
    """An object from names to numbers."""
    return f"export const {name} = {{ {', '.join(f'{it.name}: {it.number}' for it in rows)} }};"


def kinds(tables):
    """What a choice says, and the kinds of a reply."""
    which, use, whom, tree, what, reply = [[it for it in tables["kinds"] if it.of == name] for name in ("which", "use", "whom", "tree", "what", "reply")]
    uses = f"export const USES = [{strings([it.word for it in use])}];"
    pages = ["/** Of a page: whom it lists. */", named("WHOM", whom), "", "/** Of a page of ids: in which tree it goes down. */", named("TREE", tree)]
    effects = ["/** Of an effect: what became of the task. */", named("WHAT", what)]
    return ["/** Of a wait: whom it means. */", named("WHICH", which), "", "/** Of a next, in the order of their numbers. */", uses, "", *pages, "", *effects, "", named("KIND", reply)]


def bounds(tables):
    """The bounds of the header and of pid_max."""
    return [f"export const {it.name} = {it.value};" for it in tables["bounds"] if it.of in ("interface", "packages")]


def operations(tables):
    """The calls as numbers."""
    rows = ", ".join(f"{capitals(it.call)}: {it.number}" for it in tables["calls"])
    return ["export const OPERATION = {", *wrapped(f"{rows},", "  ", 140), "};"]


PARTS = {
    (HEADER, "operations"): operations,
    (HEADER, "bounds"): bounds,
    (HEADER, "kinds"): kinds,
    (HEADER, "refusals"): refusals,
    (HEADER, "statuses"): statuses,
    (HEADER, "faults"): faults,
}
