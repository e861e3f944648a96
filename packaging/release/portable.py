"""The library as sources that need a C compiler alone: what the checker's compiler made of the proved functions, and the C around it."""

import shutil

from release.files import settle, write_tarball, write_text

AROUND = ("heap", "guard", "guard_replica", "settings", "follow", "threads", "saved_file")
HEADERS = ("pidtab.h", "pidtab_saved.h", "pidtab_replica.h", "host_calls.h")
# Beside pidtab.S: the machine for the calls of a host.
CALLS = "host_calls.S"
# Of the C around it alone: they are built with it, and not installed.
BESIDE = ("proved.h", "guard.h", "threads.h")
# Beside the assembler, where it is built; it takes the place of all other sources.
ONE_FILE = "pidtab.c"


def add_sources(source, built, folder, head=""):
    """Puts the sources into a folder, each with lines before it."""
    folder.mkdir(parents=True, exist_ok=True)
    files = [built.assembler, built.assembler.with_name(CALLS), *(source.folder / "bindings/c" / f"{it}.c" for it in AROUND)]
    for file in files:
        write_text(folder / file.name, head + file.read_text(encoding="utf-8"))
    for name in (*HEADERS, *BESIDE):
        shutil.copyfile(source.folder / "bindings/c" / name, folder / name)


def make(source, built, parts):
    """Packs pidtab-VERSION-src.tar.gz."""
    name = f"pidtab-{source.version}-src"
    stage = parts.parent / "portable"
    add_sources(source, built, stage)
    one_file = built.assembler.with_name(ONE_FILE)
    if one_file.is_file():
        for file in (one_file, source.folder / "bindings/c/pidtab.h"):
            write_text(stage / "one-file" / file.name, file.read_text(encoding="utf-8"))
    for it in ("README.md", "Makefile"):
        shutil.copyfile(source.folder / "packaging/portable" / it, stage / it)
    for it in ("pidtab.map", "pidtab.pc.in"):
        shutil.copyfile(source.folder / "bindings/c" / it, stage / it)
    for it in ("LICENSE", "VERSION"):
        write_text(stage / it, source.read(it))
    write_text(stage / "GATE.txt", built.gate)
    settle(stage, source.time)
    write_tarball(parts / f"{name}.tar.gz", stage, name, source.time)
