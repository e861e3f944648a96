"""What the package for Rust has of the structs and the functions that the headers of C declare."""

from names import TYPED, wrapped

RAW = "bindings/rust/src/raw.rs"

# What each package takes as a value: the structs, and of the functions on saved histories those that work in memory.
STRUCTS = ("call", "fault", "reply", "task", "space", "effect", "entry", "saved_head")
IN_MEMORY = ("saved_put_head", "saved_put", "saved_take_head", "saved_take", "saved_next")

# What the package for Rust has besides, and the functions of pidtab.h that it does without: worker 0's, for which others have a worker, and those
# of the lock, as it has one of its own.
OF_RUST = ("settings",)
UNUSED = ("open", "load", "line", "fork_at", "call_told", "lock", "unlock", "follow", "await", "end")
# Those on a table that are no methods: what opens it, and what closes it where its owner is dropped.
BY_HAND = ("open_with", "load_with", "close")

NUMBERS = {"uint32_t": "u32", "uint64_t": "u64", "int32_t": "i32", "uint8_t": "u8", "size_t": "usize", "bool": "bool", "int": "i32"}


def camel_struct(kind):
    """Call of `struct pidtab_call`; a table is held."""
    name = kind.replace("const ", "").replace("struct pidtab", "").strip(" *_")
    return "Held" if name == "" else "".join(part.capitalize() for part in name.split("_"))


def rust_type(kind):
    """The type of Rust for what a function takes or answers."""
    pointer = "*const " if kind.startswith("const ") else "*mut "
    bare = kind.replace("const ", "").rstrip("* ")
    name = "c_void" if bare == "void" else NUMBERS.get(bare) or camel_struct(kind)
    return f"{pointer}{name}" if kind.endswith("*") else name


def broken(indent, head, parts, tail, most=100):
    """A list of parts in one line, or where it is too long in one line each, as rustfmt has it."""
    line, taken = f"{indent}{head}({', '.join(parts)})", len(", ".join(parts))
    if len(line + tail) <= (99 if tail.endswith(";") else 100) and taken <= most:
        return [line + tail]
    if len(line) <= 92 and tail.endswith(";"):
        return [line, f"{indent}    {tail.strip()}"]
    return [f"{indent}{head}(", *[f"{indent}    {part}," for part in parts], f"{indent}){tail}"]


def functions_of(tables):
    """The functions that the package for Rust calls."""
    of = tables["headers"]
    found = [it for it in of.of("pidtab.h") if it.name not in UNUSED and not it.name.endswith(TYPED)]
    return [*found, *[it for it in of.of("pidtab_saved.h") if it.name in IN_MEMORY]]


def functions(tables):
    """Their declarations."""
    lines = ["#[rustfmt::skip]", 'extern "C" {']
    for it in functions_of(tables):
        taken = ", ".join(f"{name}: {rust_type(kind)}" for kind, name, _ in it.arguments)
        lines += wrapped(f"fn pidtab_{it.name}({taken}) -> {rust_type(it.result)};", "        ", 120, "    ")
    return [*lines, "}"]


def field_type(field):
    """The type of a field. What a pointer leads to is the library's alone."""
    kind = "*mut c_void" if field.kind.endswith("*") else rust_type(field.kind)
    return f"[{kind}; LEVELS_MAX]" if field.many else kind


def fields(tables, name):
    """The fields of a struct: names and types."""
    return [f"{it.name}: {field_type(it)}" for it in tables["headers"].structs[name]]


def handle(tables):
    """The struct of a table. It has one owner, and its fields are the library's."""
    return ["/// `struct pidtab`.", "#[repr(C)]", "struct Held {", *[f"    {it}," for it in fields(tables, "pidtab")], "}"]


def structs(tables):
    """The structs that are values."""
    lines = []
    for name in [f"pidtab_{it}" for it in (*STRUCTS, *OF_RUST)]:
        listed = f"struct {camel_struct(f'struct {name}')} {{ {', '.join(fields(tables, name))} }}"
        lines += [f"    /// `struct {name}`.", *wrapped(listed, "        ", 120, "    ")]
    return [*handle(tables), "", "structs! {", *lines, "}"]


def lent(arguments):
    """What a method takes for the arguments of its function, and what it passes. Room and its size, or bytes and their length, are a slice."""
    taken, passed, rest = [], [], list(arguments)
    while rest:
        kind, name, _ = rest.pop(0)
        is_read, bare = kind.startswith("const "), "u8" if "void" in kind else rust_type(kind).split(" ")[-1]
        if kind.endswith("*") and rest and rest[0].kind == "size_t":
            cast, size = ".cast()" if bare == "u8" else "", rest.pop(0)
            taken.append(f"{name}: &{'' if is_read else 'mut '}[{bare}]")
            passed += [f"{name}.{'as_ptr' if is_read else 'as_mut_ptr'}(){cast}", f"{name}.len()"] if size else []
        else:
            taken.append(f"{name}: {'&' if is_read else '&mut ' if kind.endswith('*') else ''}{bare}")
            passed.append(name)
    return taken, passed


def row(function, head, owner):
    """A function by the names and the types that Rust has, and the call that it is."""
    taken, passed = lent(function.arguments[len(owner):])
    said, call = f"fn {function.name}({', '.join([*head, *taken])}) =", f"pidtab_{function.name}({', '.join([*owner, *passed])});"
    if len(f"{said} {call}") <= 112:
        return [f"{said} {call}"]
    return [*wrapped(said, "    ", 112, ""), *wrapped(call, "        ", 112, "    ")]


def rows(tables, is_method):
    """Those that are methods of an open table, or the others."""
    found = [it for it in functions_of(tables) if it.arguments and it.name not in BY_HAND]
    return [it for it in found if (it.arguments[0].kind.replace("const ", "") == "struct pidtab *") == is_method]


def methods(tables):
    """A method for each function on an open table."""
    lines = [line for it in rows(tables, True) for line in row(it, ["&self"], ["self.held.get()"])]
    return ["    lent! {", *[f"        {line}" for line in lines], "    }"]


def others(tables):
    """The functions that are given no table."""
    return ["lent! {", *[f"    {line}" for it in rows(tables, False) for line in row(it, [], [])], "}"]


PARTS = {(RAW, "structs"): structs, (RAW, "functions"): functions, (RAW, "methods of a table"): methods, (RAW, "other functions"): others}
