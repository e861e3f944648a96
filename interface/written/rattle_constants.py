"""The crates: the numbers of operations, choices and kinds by their names, and the statuses."""

from model import fields, of
from names import FIELDS, capitals, sentence, snake, takes
from places import arms

FOLDER = "crates/foreign_numbers/src"
TOLD = {name: f"`{name}`" for name in ("first", "second", "count", "levels", "error", "refusal")}

# The statuses of a saved history that the functions of its bytes answer. The others are those of its file, which is C's.
OF_BYTES = ("NOT_SAVED", "TORN", "WRONG_BYTE", "OTHER_VERSION")


def constants(rows):
    """Constants of 32 bits, each with what it says."""
    return [line for name, number, said in rows for line in ("", f"/// {said}", f"pub const {name}: u32 = {number};")][1:]


def operations(tables):
    """The calls."""
    named = {name: f"`{name}`" for name in FIELDS}
    return constants([(capitals(it.call), it.number, f"`{it.call}` takes {takes(it, which='whom', use='as what', **named)}.") for it in tables["calls"]])


def choices(tables):
    """What a wait selects, what a next looks for, what pages list, what an effect is, and what became of an entry."""
    listed = [(it.name, it.number, sentence(it.tells)) for name in ("which", "use", "whom", "tree") for it in of(tables, name)]
    # The crates have a name of each enum. In C all names are in one, where ENDED is a status.
    effects = [(snake(it.model).upper(), it.number, sentence(it.tells.format(killed="[`crate::kinds::KILLED`]"))) for it in of(tables, "what")]
    outcomes = [(it.name, it.number, sentence(it.tells)) for it in of(tables, "outcome")]
    return constants(listed + effects + outcomes)


def kinds(tables):
    """The kinds of a reply."""
    return constants([(it.name, it.number, f"Tells {it.tells.format(killed='[`KILLED`]', **TOLD)}.") for it in of(tables, "reply")])


def statuses(tables):
    """The statuses that the crates answer, by their numbers."""
    values = {it.name: it.value for it in tables["errnos"]}
    rows = [it for it in tables["statuses"] if it.of != "saved" or it.name in OF_BYTES]
    told = [(it.name, values.get(it.error, 0), sentence(it.sentence) if it.error == "-" else f"`{it.error}`: {it.sentence if it.when == '-' else it.when}.") for it in rows]
    return constants(sorted(told, key=lambda it: it[1]))


def ignored(row):
    """A call in a pattern, whatever its fields are: more than 18 columns are broken."""
    told = [f"{name}: _" for name in fields(row)]
    begin, end = f"        Call::{row.model} {{", "} => true,"
    return [f"{begin} {', '.join(told)} {end}"] if len(", ".join(told)) <= 18 else [begin, *[f"            {it}," for it in told], f"        {end}"]


def asks(tables):
    """Whether a call is a query."""
    return [*[line for row in tables["calls"] if row.query == "yes" for line in ignored(row)], "        _ => false,"]


PARTS = {
    (f"{FOLDER}/operations.rt", "operations"): operations,
    (f"{FOLDER}/choices.rt", "choices"): choices,
    (f"{FOLDER}/kinds.rt", "kinds"): kinds,
    (f"{FOLDER}/status.rt", "statuses"): statuses,
}
ROWS = {("crates/pid_table/src/step.rt", "is_query"): (arms("is_query("), asks)}
