"""pidtab.S, host_calls.S and log_turns.S: proved functions for each machine, as the assembler that the compiler made of them; pidtab.S by the names under which
bindings/c calls them."""

import re

HEAD = """\
/* The proved functions of {crate}, as the compiler of their checker made them: assembler for any C compiler that takes that of GNU, as gcc and clang.
 *
 * For x86-64 and aarch64 the checker has proved the crate for just this machine. For riscv64 the proved module for x86-64 was compiled again. GATE.txt says
 * which commit was proved. Only Linux is meant.{around}
 */
"""
AROUND = " guard.c and its like, beside this file, are around these functions."
OTHERS = '#else\n#error "this is for Linux on x86-64, aarch64 and riscv64"\n#endif\n'
# What names the file, the compiler, and extensions of riscv64 by names that older assemblers do not know. None is part of the code.
UNWANTED = re.compile(r"^\s*\.(?:file|ident|attribute)\b.*\n", re.MULTILINE)


def read_names(text):
    """The names of the proved functions, each with the one that it gets: the lines of renamed.syms."""
    return dict(line.split() for line in text.splitlines())


def rename(text, names):
    """The assembler with other names, if there are any."""
    if not names:
        return text
    return re.sub(r"(?<![\w$])(?:%s)(?![\w$])" % "|".join(names), lambda it: names[it[0]], text)


def join(crate, parts, names):
    """One text of the assembler of a crate for machines by their macros: the first that is defined counts."""
    words = ["#if", *["#elif"] * (len(parts) - 1)]
    texts = [f"{word} defined({macro})\n{rename(UNWANTED.sub('', text), names)}" for word, (macro, text) in zip(words, parts.items())]
    return HEAD.format(crate=crate, around=AROUND if names else "") + "".join(texts) + OTHERS
