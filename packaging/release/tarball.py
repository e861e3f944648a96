"""The tarball: what `make install` installs, in a folder that works where it lies; and the static program, a file that runs where it lies."""

import os
import re
import shutil

from release.built import install
from release.files import RUNNABLE, settle, sums_of, write_tarball, write_text

PREFIX = "/usr/local"


def relocate(described):
    """Has pkg-config find the folders from the place of the description, whose spaces it escapes itself."""
    text = described.read_text().replace('"', "")
    described.write_text(re.sub(r"^prefix=.*$", "prefix=${pcfiledir}/../..", text, flags=re.MULTILINE))


def add_pages(source, built, folder):
    """The pages for users, with the page in the browser where it is built."""
    for name in source.pages():
        (folder / name).parent.mkdir(parents=True, exist_ok=True)
        shutil.copyfile(source.folder / name, folder / name)
    if built.page:
        shutil.copyfile(built.page, folder / "pidtab.html")


def make(source, built, parts):
    """Packs pidtab-VERSION-linux-MACHINE.tar.gz."""
    name = f"pidtab-{source.version}-linux-{built.machine.name}"
    stage = parts.parent / f"tarball-{built.machine.name}"
    install(source, built, stage, PREFIX=PREFIX)
    folder = stage / PREFIX.lstrip("/")
    for described in folder.rglob("*.pc"):
        relocate(described)
    add_pages(source, built, folder / "share/doc/pidtab")
    for it in ("LICENSE", "VERSION"):
        write_text(folder / it, source.read(it))
    write_text(folder / "GATE.txt", built.gate)
    write_text(folder / "SHA256SUMS", sums_of(folder))
    settle(folder, source.time)
    write_tarball(parts / f"{name}.tar.gz", folder, name, source.time)


def make_static(source, built, parts):
    """Copies the program as pidtab-VERSION-linux-MACHINE."""
    file = parts / f"pidtab-{source.version}-linux-{built.machine.name}"
    shutil.copyfile(built.program, file)
    file.chmod(RUNNABLE)
    os.utime(file, (source.time, source.time))
