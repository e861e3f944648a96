"""The calls as methods of the package for Python."""

from arguments import FIELDS, arguments_of, queries, refused, said, tells
from names import capitals, strings

CALLS = "bindings/python/pidtab/calls.py"
NATIVE = "bindings/python/pidtab/native.py"

# Names of the package for arguments, and what each kind is: its type, what is put into the field, and what it is where it is left out.
NAMES = {"id": "control", "number": "pid", "pgid": "group", "from": "start", "limit": "most", "new_space": "new"}
TYPES = {"on": "bool", "new": "bool", "use": "Kind", "most": "int | None"}
PUT = {"on": "bool({})", "new": "bool({})", "use": "choice_of(caller, {}, start)"}
LEFT_OUT = {"on": "True", "new": "False", "use": '"task"', "most": "None"}

FORMS = {
    "FORKED": ("Forked", "A_CHILD"), "OK": ("None", "NOTHING"), "NUMBER": ("int", "A_NUMBER"), "LEVELS": ("tuple[int, ...]", "THE_NUMBERS"),
    "COUNTED": ("int", "A_NUMBER"), "CONTROL": ("int", "A_CONTROL"), "NUMBER, END": ("int | None", "THE_NEXT"),
}  # fmt: skip


def name_of(argument):
    """Its name here."""
    return NAMES.get(argument.name, argument.name)


def taken(argument):
    """What the method takes."""
    left_out = f" = {LEFT_OUT.get(argument.kind, '0')}" if argument.is_optional else ""
    return f"{name_of(argument)}: {TYPES.get(argument.kind, 'int')}{left_out}"


def put(row):
    """The fields of the call after its operation, up to the last one that it takes."""
    values = {}
    for it in arguments_of(row):
        name = name_of(it)
        values[it.field] = PUT.get(it.kind, "index({})").format(name)
        if it.kind == "most":
            values |= {"number": f"0 if {name} is None else index({name})", "choice": f"{name} is not None"}
    last = max(FIELDS.index(field) for field in values)
    return ", ".join(values.get(field, "0") for field in FIELDS[: last + 1])


def method(row):
    """A method."""
    answer, form = FORMS.get(row.tells) or FORMS[tells(row)[0]]
    sentence = said(row, "`{}`")
    for it in arguments_of(row):
        sentence = sentence.replace(f"`{it.name}`", f"`{name_of(it)}`")
    words = refused(row, form=lambda word: word)
    whole = f'        """{sentence} {words}."""'
    comment = [whole] if len(whole) <= 150 else [f'        """{sentence}', "", f"        {words}.", '        """']
    return [
        f"    def {row.call}(self, {', '.join(taken(it) for it in arguments_of(row))}) -> {answer}:", *comment,
        f"        {'' if answer == 'None' else 'return '}self._make(Call(raw.{capitals(row.call)}, {put(row)}), {form})", "",
    ]  # fmt: skip


def methods(tables, query):
    """The methods of the queries, or of the other calls. A wait is by hand, as it has a name for each choice."""
    return [line for row in tables["calls"] if row.query == query and row.call != "wait" for line in method(row)][:-1]


def words(tables):
    """Calls that change nothing, and those that tell nothing."""
    nothing = [row.call for row in tables["calls"] if row.tells == "OK"]
    return [f"QUERIES = frozenset({{{strings(queries(tables))}}})", f"TELLS_NOTHING = frozenset({{{strings(nothing)}}})"]


def told_calls(tables):
    """The methods that tell what the calls did to tasks."""
    return [f"    {row.call} = telling(EachCall.{row.call})" for row in tables["calls"]]


PARTS = {(NATIVE, "told calls"): told_calls, ("bindings/python/pidtab/forms.py", "words"): words, (CALLS, "queries"): lambda tables: methods(tables, "yes"), (CALLS, "calls"): lambda tables: methods(tables, "no")}
