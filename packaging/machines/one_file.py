"""pidtab.c: what wasm2c makes of the module for WebAssembly, with the little of its runtime that is needed, and the C of the library around it."""

import re

# Of what wasm2c writes: that for floats, and that for tables of functions. The module has none.
FLOATS = re.compile(r"^#define DEFINE_REINTERPRET.*?(?=^static inline void memory_fill)", re.MULTILINE | re.DOTALL)
TABLES = re.compile(r"^typedef struct \{\n  uint32_t func_type_index;.*?^DEFINE_TABLE_FILL\(externref\)\n", re.MULTILINE | re.DOTALL)
TYPES = re.compile(r"^static bool s_module_initialized.*?\n\}\n", re.MULTILINE | re.DOTALL)
MODULE_INIT = re.compile(r"^void Z_pidtab_init_module\(void\) \{.*?^\}\n", re.MULTILINE | re.DOTALL)
FREE = re.compile(r"^void Z_pidtab_free\(.*?^\}\n", re.MULTILINE | re.DOTALL)
GLOBAL = re.compile(r"^(?=(?:u32|u64|void|wasm_rt_memory_t\*) Z_pidtab)", re.MULTILINE)


class Surprise(Exception):
    """wasm2c writes something else than version 1.0.32 does."""


def replaced(pattern, word, text):
    """The text without what the pattern finds, which has to be there once."""
    text, count = pattern.subn(word, text)
    if count != 1:
        raise Surprise(f"{count} places of {pattern.pattern[:40]}")
    return text


def local(text):
    """The text with its functions for this file alone, and without other files."""
    text = re.sub(r"^(?:#include .*|\s*assert\(.*|#define alloca .*)\n", "", text, flags=re.MULTILINE)
    return GLOBAL.sub("static ", text)


def module_code(code):
    """The code of the module. It is not begun where there is no memory for it."""
    for pattern in (FLOATS, TABLES, TYPES, MODULE_INIT, FREE):
        code = replaced(pattern, "", code)
    if "funcref_table(" in code:
        raise Surprise("the module has a table of functions")
    code = replaced(re.compile(r"^(  init_memories\(instance\);\n)", re.MULTILINE), r"\1  if (!instance->w2c_memory.data)\n    return;\n", code)
    return local(re.sub(r"^#if defined\(_MSC_VER\)\n#include <intrin.h>.*?^#endif\n", "", code, count=1, flags=re.MULTILINE | re.DOTALL))


def module_header(header):
    """The types of the module, and the functions that it exports."""
    header = re.sub(r"^void Z_pidtab_(?:init_module|free)\(.*\n", "", header, flags=re.MULTILINE)
    return local(header)


def around(text):
    """A file of bindings/c without what it takes in: the headers of that folder stand before it, or what is here in their place."""
    return re.sub(r'^#include "\w+\.h"\n', "", text, flags=re.MULTILINE)


def join(code, header, portable, bindings):
    """The one file, of the code and the header of wasm2c, and of the files in two folders."""
    parts = [(portable / "runtime.h").read_text(), module_header(header), module_code(code), (portable / "instance.c").read_text()]
    parts += [around((bindings / name).read_text()) for name in ("guard.h", "guard.c", "settings.c", "follow.c")]
    return "\n".join(parts)
