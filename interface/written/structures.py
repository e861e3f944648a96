"""What the packages for Python and JavaScript have of the structs and the functions that the headers of C declare."""

from tables import words_of
from written.foreign import STRUCTS

# The structs of pidtab_replica.h, which the package for Python has besides.
OF_REPLICA = ("replica", "applied", "log", "digest")

PYTHON = "bindings/python/pidtab/raw.py"
SCRIPT = "bindings/js/src/header.js"

CTYPES = {"uint8_t": "c_uint8", "uint32_t": "c_uint32", "uint64_t": "c_uint64", "int32_t": "c_int32", "size_t": "c_size_t", "bool": "c_bool", "int": "c_int", "void *": "c_void_p"}
POINTERS = {
    "const struct pidtab_call *": "CALL_BYTES", "const void *": "ctypes.c_char_p", "void *": "BYTES", "size_t *": "SIZE", "uint32_t *": "NUMBER_32",
    "uint64_t *": "NUMBER_64", "const uint64_t *": "NUMBER_64", "struct pidtab *": "TABLE", "const struct pidtab *": "TABLE", "struct pidtab_entry *": "ENTRIES", "struct pidtab_effect *": "EFFECTS", "uint32_t": "U32",
    "const struct timespec *": "ctypes.c_void_p", "uint64_t": "U64", "size_t": "SIZE_T", "void": "None", "bool": "ctypes.c_bool", "int": "ctypes.c_int",
}  # fmt: skip


def python_name(struct):
    """PidtabCall of pidtab_call."""
    return "".join(part.capitalize() for part in struct.split("_"))


def field_type(field):
    """The type of ctypes for a field."""
    kind = f"ctypes.{CTYPES[field.kind]}" if field.kind in CTYPES else python_name(field.kind.replace("struct ", ""))
    return f"{kind} * {many(field)}" if field.many else kind


def many(field):
    """How many there are of a field, as Python has it."""
    return field.many.strip("[]").replace("PIDTAB_", "")


def told_type(field):
    """The type that a field has when it is read."""
    if field.many:
        return f'"ctypes.Array[ctypes.{CTYPES[field.kind]}]"'
    return {"bool": "bool", "void *": "int | None"}.get(field.kind) or (python_name(field.kind.split(" ")[1]) if " " in field.kind else "int")


def python_structs(tables):
    """The structs as classes of ctypes."""
    lines = []
    for name in ("pidtab", *[f"pidtab_{it}" for it in ("settings", *STRUCTS, "saved", *OF_REPLICA)]):
        fields = tables["headers"].structs[name]
        lines += ["", "", f"class {python_name(name)}(ctypes.Structure):", f'    """`struct {name}`."""', ""]
        lines += [f"    {it.name}: {told_type(it)}" for it in fields] + ["", "    _fields_ = ["]
        lines += [*[f'        ("{it.name}", {field_type(it)}),' for it in fields], "    ]"]
    return lines[1:]


# Functions that the package for Python does not call.
OTHERS = ("call_line", "keep", "replay", "opening", *(f"saved_{it}" for it in ("sum", "put", "put_head")))


def python_functions(tables):
    """The functions that the package for Python calls, by when they came."""
    since = {name: it.since for it in tables["functions"] for name in words_of(it.functions)}
    found = [it for it in tables["headers"].functions if not it.is_inline and it.name not in OTHERS]
    tables_of, saved_of, replica_of = [[it for it in found if it.header.endswith(f"/{name}.h")] for name in ("pidtab", "pidtab_saved", "pidtab_replica")]
    first = [it for it in tables_of if since.get(it.name) == "0.1.0"]
    groups = (
        ("FUNCTIONS", "The functions on a table that each library of the interface has.", first),
        ("LATER_FUNCTIONS", "Those that an earlier library may lack.", [it for it in tables_of if it not in first]),
        ("SAVED_FUNCTIONS", "Those of these on the file of a saved history.", saved_of),
        ("REPLICA_FUNCTIONS", "Those of these on a replica of a log.", replica_of),
    )
    lines = []
    for name, comment, those in groups:
        lines += ["", f"# {comment}", f"{name}: dict[str, Function] = {{"]
        for it in those:
            taken = [POINTERS.get(kind) or kind.replace("const ", "").replace("struct pidtab_", "").strip(" *").upper() for kind, _, _ in it.arguments]
            lines.append(f'    "pidtab_{it.name}": ({POINTERS[it.result]}, [{", ".join(taken)}]),')
        lines.append("}")
    return lines[1:]


def places(tables):
    """Where the fields of each struct stand, in words of 32 bits. One of 64 bits has two, and stands at an even one."""
    lines = ["// The fields by their places, in words of 32 bits. One of 64 bits, as an id, has two words."]
    for name in ("call", "reply", "task", "space", "effect", "fault", "settings"):
        told, place = [], 0
        for it in tables["headers"].structs[f"pidtab_{name}"]:
            place += place % 2 if it.kind == "uint64_t" else 0
            told.append(f"{it.name}: {place}")
            place += 2 if it.kind == "uint64_t" else 1
        lines.append(f"export const {name.upper()} = {{ {', '.join(told)} }};")
    return lines


PARTS = {
    (PYTHON, "structs"): python_structs,
    (PYTHON, "functions"): python_functions,
    (SCRIPT, "places"): places,
}
