"""The calls as functions of C, and the test that makes them."""

from arguments import FIELDS, arguments_of, queries, said, tells, with_numbers
from names import TYPED, capitals, strings

HEADER = "bindings/c/pidtab.h"
TEST = "bindings/c/test_cases.c"

# What an argument of a kind is in C. A which has its number after it, and a most whether there is one before it.
KINDS = {
    "number": ["uint32_t {}"], "byte": ["uint32_t {}"], "new": ["uint32_t {}"], "on": ["uint32_t {}"], "id": ["uint64_t {}"], "signed": ["int32_t {}"],
    "which": ["enum pidtab_which {}", "uint32_t number"], "use": ["enum pidtab_use {}"], "most": ["uint32_t limited", "uint32_t {}"],
}  # fmt: skip

# What a reply tells besides its number: a place for it, and how it is read.
BESIDES = {
    "FORKED": ("uint32_t *root", ["if (told > 0 && root)", "\t*root = (uint32_t)reply.second;"]),
    "REAPED": ("uint32_t *status", ["if (told > 0 && status)", "\t*status = (uint32_t)reply.second;"]),
    "LEVELS": ("uint32_t levels[PIDTAB_LEVELS_MAX]", ["for (int64_t i = 0; i < told; i++)", "\tlevels[i] = reply.levels[i];"]),
}


def fields(row):
    """The fields of the call in their order."""
    values = dict.fromkeys(FIELDS, "0")
    for it in arguments_of(row):
        values[it.field] = f"(uint32_t){it.name}" if it.kind in ("which", "use") else it.name
        if it.kind == "which":
            values["number"] = "number"
        elif it.kind == "most":
            values["choice"] = "limited"
    return ", ".join(values.values())


def prototype(row):
    """What the function of a call takes."""
    place, _ = BESIDES.get(tells(row)[0], (None, []))
    taken = [form.format(it.name) for it in arguments_of(row) for form in KINDS[it.kind]] + ([place] if place else [])
    return f"int64_t pidtab_{row.call}(struct pidtab *table, {', '.join(taken)})"


def by_number(row):
    """Such a query as a function."""
    taken = "".join(f"{it.name}, " for it in arguments_of(row))
    return [
        f"/* {said(row)} */", f"static inline {prototype(row)}", "{", "\tuint64_t number = 0;",
        f"\tuint32_t status = pidtab_{row.call}{TYPED}(table, {taken}&number);", "\treturn status == PIDTAB_DONE ? (int64_t)number : -(int64_t)status;", "}",
    ]  # fmt: skip


def function(row, with_numbers):
    """A call as a function; some queries have one of their own in the library."""
    if row in with_numbers:
        return by_number(row)
    _, read = BESIDES.get(tells(row)[0], (None, []))
    made = ["\tint64_t told = pidtab_value(table, &call, &reply);", *[f"\t{line}" for line in read], "\treturn told;"]
    return [
        f"/* {said(row)} */", f"static inline {prototype(row)}", "{",
        f"\tstruct pidtab_call call = {{ PIDTAB_{capitals(row.call)}, {fields(row)} }};", "\tstruct pidtab_reply reply;",
        *(made if read else ["\treturn pidtab_value(table, &call, &reply);"]), "}",
    ]  # fmt: skip


def functions(tables):
    """Each call as a function."""
    return [line for row in tables["calls"] for line in ["", *function(row, with_numbers(tables))]][1:]


def numbers(tables):
    """The functions of the library for queries that tell one number. A choice is a number there."""
    lines = []
    for row in with_numbers(tables):
        taken = [form.format(it.name).replace("enum pidtab_use", "uint32_t") for it in arguments_of(row) for form in KINDS[it.kind]]
        lines.append(f"uint32_t pidtab_{row.call}{TYPED}(struct pidtab *table, {', '.join(taken)}, uint64_t *number);")
    return lines


def passed(argument):
    """What a test passes for an argument, out of the numbers of a call."""
    return {
        "which": ["(enum pidtab_which)it->choice", "it->number"], "use": ["(enum pidtab_use)it->choice"], "most": ["it->choice", "it->number"],
    }.get(argument.kind, [f"it->{argument.field}"])  # fmt: skip


def by_methods(tables):
    """The call that the numbers say, by its function."""
    lines = ["static int64_t by_its_method(struct pidtab *table, const struct pidtab_call *it, uint32_t *second, uint32_t *levels)", "{", "\tswitch (it->operation) {"]
    for row in tables["calls"]:
        places = [{"FORKED": "second", "REAPED": "second", "LEVELS": "levels"}.get(kind) for kind in tells(row)[:1]]
        taken = [word for it in arguments_of(row) for word in passed(it)] + [it for it in places if it]
        lines.append(f"\tcase PIDTAB_{capitals(row.call)}: return pidtab_{row.call}(table, {', '.join(taken)});")
    return [*lines, "\t}", "\tCHECK(false);", "\treturn 0;", "}"]


def names(tables):
    """The names of errors and statuses, and the queries, in the test of the cases."""
    used = {row.error for row in tables["refusals"]}
    errnos = [f'\t{{ {it.name}, "{it.name}" }},' for it in tables["errnos"] if it.name in used]
    statuses = [f'\t{{ PIDTAB_{it.name}, "{it.name}" }},' for it in tables["statuses"] if it.of == "table"]
    end = ["\t{ 0, NULL }", "};"]
    return ["static const struct named errnos[] = {", *errnos, *end, "", "static const struct named statuses[] = {", *statuses, *end,
            "", f"static const char *const queries[] = {{ {strings(queries(tables))}, NULL }};"]  # fmt: skip


PARTS = {
    (HEADER, "numbers"): numbers,
    (TEST, "names"): names,
    (HEADER, "calls"): functions, (TEST, "calls"): by_methods}
