"""The Debian packages: what `make install` installs below /usr, in four parts, and the service if it is built. Their words are in packaging/debian."""

import fnmatch
import os
import re
import shutil
import textwrap
from email.utils import formatdate

from release import elf
from release.built import SHARED, install
from release.faults import Fault, run
from release.files import compress, files_below, settle, write_text
from release.machines import HOST
from release.tarball import add_pages

PACKAGES = ("pidtab", "libpidtab1", "libpidtab-dev", "python3-pidtab")
SERVICE = "pidtabd"
# Whose documents are those for users.
MAIN = "pidtab"
# Without an address, as long as there is none that is read.
MAINTAINER = "The pidtab authors"
INTERPRETER = "#!/usr/bin/python3"
FOLDERS = {"PREFIX": "/usr", "PYTHONDIR": "/usr/lib/python3/dist-packages"}
# What `make install` installs and each package has in a place of its own.
ELSEWHERE = ("usr/share/pidtab/LICENSE",)
SCRIPTS = ("postinst", "prerm")


class Maker:
    """One release as packages."""

    def __init__(self, source, built, work):
        self.source, self.built, self.work = source, built, work
        self.words = source.folder / "packaging/debian"
        self.values = {"VERSION": source.debian_version, "MAINTAINER": MAINTAINER, "NEEDED": built.packages(built.program)}
        self.values["LIBRARYNEEDS"] = built.packages(built.shared)
        self.values.update(ARCHITECTURE=built.machine.debian, LEVEL=built.machine.level)
        self.folders = {**FOLDERS, "LIBDIR": f"/usr/lib/{built.machine.multiarch}"}
        self.names = PACKAGES
        if built.daemon:
            self.names += (SERVICE,)
            self.values["DAEMONNEEDS"] = built.packages(built.daemon)

    def filled(self, name, **more):
        """The text of a file of packaging/debian with its values, and nothing where there is no such file."""
        file = self.words / name
        if not file.is_file():
            return ""
        return re.sub(r"@([A-Z]+)@", lambda it: {**self.values, **more}[it[1]], file.read_text(encoding="utf-8"))

    def split(self):
        """Installs, and gives each file to the one package whose patterns it has."""
        stage = self.work / "all"
        install(self.source, self.built, stage, **self.folders)
        if self.built.daemon:
            install(self.source, self.built, stage, "install-service", **self.folders)
        patterns = {name: self.filled(f"{name}.files").split() for name in self.names}
        for file in files_below(stage):
            place = file.relative_to(stage)
            owners = [name for name in self.names if any(fnmatch.fnmatch(str(place), it) for it in patterns[name])]
            if len(owners) != 1 and str(place) not in ELSEWHERE:
                raise Fault(f"packaging/debian: {place} is in {' and '.join(owners) or 'no package'}")
            for owner in owners:
                target = self.work / owner / place
                target.parent.mkdir(parents=True, exist_ok=True)
                shutil.move(file, target)

    def architecture(self, name):
        """For which machines a package is: for this one, or for all."""
        return re.search(r"^Architecture: (.*)$", self.filled(f"{name}.control", SIZE=""), re.MULTILINE)[1]

    def make_package(self, name, parts):
        """Builds one package of its files."""
        tree = self.work / name
        for program in tree.glob("usr/bin/pidtab-*"):
            program.write_text(re.sub(r"\A#!.*", INTERPRETER, program.read_text()))
        add_documents(self, name, tree)
        compress_manuals(tree)
        add_control(self, name, tree)
        settle(tree, self.source.time)
        architecture = self.architecture(name)
        file = parts / f"{name}_{self.source.debian_version}_{architecture}.deb"
        times = {**os.environ, "SOURCE_DATE_EPOCH": str(self.source.time)}
        run(["dpkg-deb", "--root-owner-group", "-Zxz", "--threads-max=1", "--build", tree, file], env=times)


def copyright_of(maker):
    """The licence in the form of Debian."""
    _, owner, text = maker.source.read("LICENSE").split("\n\n", 2)
    licence = "\n".join(f" {it}" if it else " ." for it in text.strip().splitlines())
    return maker.filled("copyright", COPYRIGHT=owner.strip().removeprefix("Copyright (c) "), LICENSE=licence)


def changelog_of(maker):
    """The changes of this version in the form of Debian."""
    wrapped = [textwrap.fill(it, 78, initial_indent="  * ", subsequent_indent="    ") for it in maker.source.changes()]
    head = f"pidtab ({maker.source.debian_version}) unstable; urgency=medium"
    foot = f" -- {MAINTAINER} <>  {formatdate(maker.source.time, localtime=False).replace('-0000', '+0000')}"
    return "\n\n".join([head, "\n".join(wrapped), foot]) + "\n"


def overrides_of(name, tree):
    """What lintian need not say: program and library are as the gate has built them, so that their sums are those of GATE.txt; and there is no address."""
    lines = [f"{name}: {it} *" for it in ("malformed-contact Maintainer", "bogus-mail-host-in-debian-changelog")]
    for file in files_below(tree):
        kind = "" if file.is_symlink() else elf.kind_of(file)
        if kind == "archive":
            lines.append(f"{name}: static-library-has-unneeded-sections *")
        if kind == "archive" and elf.has_section(file, ".debug_info"):
            lines.append(f"{name}: unstripped-static-library *")
        if kind == "object" and elf.has_section(file, ".symtab"):
            lines.append(f"{name}: unstripped-binary-or-object [{file.relative_to(tree)}]")
    return "".join(f"{it}\n" for it in lines)


def add_documents(maker, name, tree):
    """The licence, the changes and what shows the proof; with the main package, the pages for users."""
    folder = tree / "usr/share/doc" / name
    if name == MAIN:
        add_pages(maker.source, maker.built, folder)
    write_text(folder / "copyright", copyright_of(maker))
    (folder / "changelog.gz").write_bytes(compress(changelog_of(maker).encode()))
    write_text(folder / "GATE.txt", maker.built.gate)
    write_text(tree / "usr/share/lintian/overrides" / name, overrides_of(name, tree))


def compress_manuals(tree):
    """Packs the manual pages, as Debian has them."""
    for page in tree.glob("usr/share/man/man*/*.[0-9]"):
        (page.parent / f"{page.name}.gz").write_bytes(compress(page.read_bytes()))
        page.unlink()


def symbols_of(maker):
    """Which version of the package has each symbol: this one at least."""
    head = f"{SHARED} libpidtab1 #MINVER#\n* Build-Depends-Package: libpidtab-dev\n"
    return head + "".join(f" {it} {maker.source.debian_version}\n" for it in elf.exported(maker.built.shared))


def add_control(maker, name, tree):
    """The description of the package, its sums, its scripts, and what dpkg does with a library."""
    folder = tree / "DEBIAN"
    files = [it for it in files_below(tree) if not it.is_symlink()]
    sums = [run(["md5sum", it]).decode().split()[0] for it in files]
    write_text(folder / "md5sums", "".join(f"{found}  {it.relative_to(tree)}\n" for found, it in zip(sums, files)))
    size = sum(-(-it.stat().st_size // 1024) for it in files)
    write_text(folder / "control", maker.filled(f"{name}.control", SIZE=str(size)))
    for it in ("triggers", "shlibs", *SCRIPTS):
        text = maker.filled(f"{name}.{it}")
        if text:
            write_text(folder / it, text)
            (folder / it).chmod(0o755 if it in SCRIPTS else 0o644)
    if name == "libpidtab1":
        write_text(folder / "symbols", symbols_of(maker))


def make(source, built, parts):
    """Builds the packages. Those for all machines are built with those of the first."""
    work = parts.parent / f"debian-{built.machine.debian}"
    work.mkdir()
    maker = Maker(source, built, work)
    maker.split()
    for name in maker.names:
        if built.machine is HOST or maker.architecture(name) != "all":
            maker.make_package(name, parts)
