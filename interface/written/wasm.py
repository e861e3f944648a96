"""The functions that the module for JavaScript exports: the proved ones, whose memory is at fixed places."""

from names import TYPED
from proved import BY_WORKER

AROUND = "bindings/js/wasm/around.c"

# What is not proved, what is not called from there or by hand, and the structs at fixed places.
AROUND_IT = ("version", "open", "load", "seat", "lock", "unlock", "follow", "await", "end", *BY_WORKER)
BY_HAND = ("load_with", "close", "calls", "read", "replay")
PLACES = ("call", "reply", "task", "space", "fault", "settings")
LONGS = ("uint64_t", "uint64_t *", "const uint64_t *")


def passed(function):
    """What the function takes, and what it passes on. Numbers of 64 bits are those of the module, an ordinal first; one that is given gives place to what is told."""
    taken, given, rest = [], [], list(function.arguments)
    longs = sorted((it.name for it in rest if it.kind in LONGS and it.name != "ids"), key=lambda name: name != "ordinal")
    gives_place = any(it.name == "ordinal" and not it.kind.endswith("*") for it in rest)
    while rest:
        kind, name, _ = rest.pop(0)
        struct = kind.replace("const ", "").replace("struct pidtab_", "").strip(" *")
        if name == "table":
            given.append("&held")
        elif struct in PLACES:
            given.append(f"&at.{struct}")
        elif kind in LONGS and name != "ids":
            place = f"at.numbers[{0 if gives_place else longs.index(name)}]"
            given.append("at.numbers" if kind.startswith("const") else f"{'&' if kind.endswith('*') else ''}{place}")
        elif name in ("line", "answer"):
            size = rest.pop(0).name
            taken += [] if kind == "void *" and name == "line" else [f"uint32_t {size}"]
            given += [f"at.{name}", {"line": "LINE_ROOM" if kind == "void *" else size, "answer": f"{size} < ANSWER_ROOM ? {size} : ANSWER_ROOM"}[name]]
        elif kind.endswith("void *") or name in ("numbers", "ids", "effects"):
            size = rest.pop(0).name
            taken += [f"uint32_t {name}", f"uint32_t {size}"]
            given += [f"pointer({name})", size]
        elif kind == "size_t *":
            given.append("&at.size")
        else:
            taken.append(f"uint32_t {name}")
            given.append(name)
    return ", ".join(taken) or "void", ", ".join(given)


def functions(tables):
    """The proved functions of pidtab.h. That of a worker's call serves where there is one."""
    lines = []
    for it in tables["headers"].of("pidtab.h"):
        if it.name not in AROUND_IT + BY_HAND and not it.name.endswith(TYPED):
            taken, given = passed(it)
            lines += ["", f"uint32_t EXPORTED({it.name})({taken})", "{", f"\treturn pidtab_{it.name}({given});", "}"]
    return lines[1:]


PARTS = {(AROUND, "functions"): functions}
