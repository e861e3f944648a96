"""The headers of C."""

from names import TYPED, capitals, columns, strings, takes, with_id, wrapped

HEADER = "bindings/c/pidtab.h"
SAVED = "bindings/c/pidtab_saved.h"
REPLICA = "bindings/c/pidtab_replica.h"


def enum(name, rows):
    """An enum of rows: a name, its number, and what the comment says."""
    last = len(rows) - 1
    entries = [(f"\t{word} = {number}{'' if place == last else ','}", said and f"/* {said} */") for place, (word, number, said) in enumerate(rows)]
    return [f"enum {name} {{", *columns(entries), "};"]


def lookup(comment, function, argument, first, words):
    """A function from the numbers 1, 2, .. to these words, and from any other number to the first."""
    return [
        f"/* {comment} */", f"static inline const char *{function}(uint32_t {argument})", "{", "\tstatic const char *const words[] = {",
        f'\t\t"{first}",', *wrapped(strings(words), "\t\t", 100), "\t};",
        f"\treturn words[{argument} < sizeof words / sizeof words[0] ? {argument} : 0];", "}",
    ]  # fmt: skip


def refusals(tables):
    """Why the table refuses a call."""
    rows = tables["refusals"]
    return [
        "/* Why the table refuses a call. The numbers stay as they are. */",
        *enum("pidtab_refusal", [(f"PIDTAB_{capitals(it.word)}", it.number, f"{it.error}: {with_id(it.sentence)}") for it in rows]),
        "",
        *lookup("The word of a refusal in the answers of the script language, as no-caller.", "pidtab_word", "refusal", "no-such-refusal",
                [it.word for it in rows]),
    ]  # fmt: skip


def status_enum(tables, owner):
    """The statuses of functions of the owner, with their numbers."""
    values = {it.name: it.value for it in tables["errnos"]}
    rows = [it for it in tables["statuses"] if it.of == owner]
    said = {it.name: "" if it.error == "-" else f"{it.error}: {it.sentence if it.when == '-' else it.when}" for it in rows}
    return [(f"PIDTAB_{it.name}", values.get(it.error, 0), said[it.name]) for it in rows]


def status_text(function, rows, otherwise):
    """A function from statuses to sentences."""
    cases = [line for it in rows for line in (f"\tcase PIDTAB_{it.name}:", f'\t\treturn "{it.sentence}";')]
    return [f"static inline const char *{function}(uint32_t status)", "{", "\tswitch (status) {", *cases, "\t}", f"\treturn {otherwise};", "}"]


def statuses(tables):
    """What the functions of a table answer."""
    return [
        "/* What a function answers: 0, or a number of Linux's errno. Any status but PIDTAB_DONE says that the table is as it was, but of",
        " * pidtab_replay, and of pidtab_calls as it says. A call that the table refuses, as ESRCH no-caller, is PIDTAB_DONE: its answer or",
        f" * reply says so. Those whose name ends with {TYPED} have no reply, and may answer the errno of the refusal: the query was made, and",
        " * has used a stamp. */",
        *enum("pidtab_status", status_enum(tables, "table")), "", "/* What a status says, as a sentence. */",
        *status_text("pidtab_text", [it for it in tables["statuses"] if it.of == "table"], '"no such status"'),
    ]  # fmt: skip


def saved_statuses(tables):
    """What the functions of a saved history answer."""
    return [
        "/* What these functions answer besides. */", *enum("pidtab_saved_status", status_enum(tables, "saved")), "",
        "/* What a status says, as a sentence; also one of pidtab.h. */",
        *status_text("pidtab_saved_text", [it for it in tables["statuses"] if it.of == "saved"], "pidtab_text(status)"),
    ]  # fmt: skip


def replica_statuses(tables):
    """What the functions of a replica answer."""
    return [
        "/* What these functions answer besides. Any status but PIDTAB_DONE says that the replica and the table are as they were, but",
        " * PIDTAB_NOT_RECOVERABLE. */",
        *enum("pidtab_replica_status", status_enum(tables, "replica")), "",
        "/* What a status says, as a sentence; also one of pidtab.h. */",
        *status_text("pidtab_replica_text", [it for it in tables["statuses"] if it.of == "replica"], "pidtab_text(status)"),
    ]  # fmt: skip


def outcomes(tables):
    """What became of an entry of a log."""
    return enum("pidtab_outcome", [(f"PIDTAB_{it.name}", it.number, it.tells) for it in tables["kinds"] if it.of == "outcome"])


def faults(tables):
    """Why a text is that of no table."""
    rows = tables["faults"]
    return [
        "/* Why a text is that of no table. */",
        *enum("pidtab_fault_kind", [(f"PIDTAB_FAULT_{it.name}", it.number, it.sentence) for it in rows]), "",
        *lookup("What a kind of fault says of its line, in the words of docs/SCRIPT.md.", "pidtab_fault_text", "kind", "no fault",
                [it.words for it in rows]),
    ]  # fmt: skip


def bounds_of(tables, owner):
    """The bounds of a header."""
    rows = [it for it in tables["bounds"] if it.of == owner]
    return columns([(f"#define PIDTAB_{it.name} {it.value}", f"/* {it.sentence} */") for it in rows])


def choices(tables):
    """What the choice of a wait and of a next says, what pages list, and what an effect is."""
    lines = []
    for name in ("which", "use", "whom", "tree", "what"):
        rows = [(f"PIDTAB_{it.name}", it.number, it.tells.format(killed="PIDTAB_KILLED")) for it in tables["kinds"] if it.of == name]
        lines += ["", *enum(f"pidtab_{name}", rows)]
    return lines[1:]


def kinds(tables):
    """The kinds of a reply."""
    names = {name: name for name in ("first", "second", "count", "levels", "error", "refusal")}
    rows = [(f"PIDTAB_{it.name}", it.number, it.tells.format(killed="PIDTAB_KILLED", **names)) for it in tables["kinds"] if it.of == "reply"]
    return ["/* A reply as numbers. What a kind does not tell is 0. */", *enum("pidtab_kind", rows)]


def operations(tables):
    """The calls as numbers."""
    rows = [(f"PIDTAB_{capitals(it.call)}", it.number, takes(it, which="enum pidtab_which", use="enum pidtab_use")) for it in tables["calls"]]
    return ["/* A call as numbers. What an operation does not take is not looked at; pidtab_ask answers a query too. */", *enum("pidtab_operation", rows)]


PARTS = {
    (HEADER, "operations"): operations,
    (HEADER, "bounds"): lambda tables: bounds_of(tables, "interface"),
    (SAVED, "bounds"): lambda tables: bounds_of(tables, "saved"),
    (HEADER, "choices"): choices,
    (HEADER, "kinds"): kinds,
    (HEADER, "refusals"): refusals,
    (HEADER, "statuses"): statuses,
    (HEADER, "faults"): faults,
    (SAVED, "statuses"): saved_statuses,
    (REPLICA, "statuses"): replica_statuses,
    (REPLICA, "choices"): outcomes,
    (REPLICA, "bounds"): lambda tables: bounds_of(tables, "replica"),
}
