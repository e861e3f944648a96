"""What was built, and what shows that it was proved."""

import dataclasses
import os
import pathlib
import re
import sys

from release import elf
from release.faults import Fault, run
from release.files import sha256
from release.machines import HOST, MACHINES, Machine

ARCHIVE, SHARED = "libpidtab.a", "libpidtab.so.1"
# What is left out where it is not built: the report on it, and what builds it.
PARTS = {
    "page": ("page.txt", "page"),
    "daemon": ("service.txt", "service"),
    "module": ("js.txt", "js"),
    "assembler": ("machines/source.txt", "machines"),
}


def read_report(file, target):
    """A report of tools/report: its commit, whether all was committed, and the sums of files by their names."""
    if not file.is_file():
        raise Fault(f"no {file}: `make {target}` writes it")
    # After an empty line is what the proof said.
    text = file.read_text(encoding="utf-8").split("\n\n")[0]
    commit, tree = (re.search(rf"^{it} (\S+)$", text, re.MULTILINE) for it in ("commit", "tree"))
    if not commit or not tree:
        raise Fault(f"{file} is no report of tools/report")
    sums = dict((pathlib.Path(name).name, found) for found, name in re.findall(r"^sha256 (\S+) (\S+)$", text, re.MULTILINE))
    return commit[1], tree[1], sums


def check_report(file, target, commit, wanted):
    """Finds that a report is of this commit, and that the built files are those of the report."""
    proved, tree, sums = read_report(file, target)
    if proved != commit:
        raise Fault(f"{file} is of the commit {proved}, and this is {commit}: run `make {target}`")
    if tree != "clean":
        raise Fault(f"{file} is of a tree with changes that are not committed: commit them and run `make {target}`")
    for path in wanted:
        if sums.get(path.name) != sha256(path.read_bytes()):
            raise Fault(f"{path} is not the file of {file}: run `make {target}`")


def sources_in(folder):
    """What there is of proved functions as sources."""
    return sorted(it for name in ("pidtab.[Sc]", "host_calls.S", "log_turns.S") for it in folder.glob(name))


def check_headers(source, library):
    """Finds that the headers beside the library are those of this commit."""
    for header in sorted(library.glob("*.h")):
        wanted = source.folder / "bindings/c" / header.name
        if not wanted.is_file() or wanted.read_bytes() != header.read_bytes():
            raise Fault(f"{header} is not that of this commit: run `make lib`")


@dataclasses.dataclass
class Built:
    """What was built for a machine: the program and the folder of the library; where they are built, the page, the daemon, the WebAssembly of the package
    for JavaScript, and the assembler of the library; and the text of GATE.txt, which all machines have in common."""

    machine: Machine
    program: pathlib.Path
    library: pathlib.Path
    gate: str = ""
    page: pathlib.Path | None = None
    daemon: pathlib.Path | None = None
    module: pathlib.Path | None = None
    assembler: pathlib.Path | None = None

    @classmethod
    def find(cls, source, given):
        """What was built of a source, first for this machine and then for others, or a fault."""
        program, library = given.program.resolve(), given.library.resolve()
        more = {name: getattr(given, name).resolve() for name in PARTS if getattr(given, name).is_file()}
        host = cls(HOST, program, library, **more)
        found = [host, *(cls(it, given.machines / it.name / "pidtab", given.machines / it.name, page=host.page) for it in MACHINES)]
        found = [it for it in found if it.machine is HOST or it.program.is_file()]
        for it in found:
            it.check(source)
        reports = [("gate.txt", "test", [program]), ("library.txt", "lib", host.libraries)]
        reports += [(*PARTS[name], sources_in(path.parent) if name == "assembler" else [path]) for name, path in more.items()]
        reports += [(f"machines/{it.machine.name}.txt", "machines", [it.program, *it.libraries]) for it in found[1:]]
        gate = gate_text(source, given, reports)
        return [dataclasses.replace(it, gate=gate) for it in found]

    def check(self, source):
        """Finds that all files are there, and the headers those of the source."""
        for path, target in ((self.program, "test"), *((it, "lib") for it in self.libraries)):
            if not path.is_file():
                raise Fault(f"no {path}: `make {target if self.machine is HOST else 'machines'}` builds it")
        check_headers(source, self.library)

    @property
    def libraries(self):
        return [self.library / ARCHIVE, self.library / SHARED]

    @property
    def shared(self):
        return self.library / SHARED

    def glibc(self):
        """The least version of the C library that program and library need."""
        return max(elf.glibc_needed(self.program), elf.glibc_needed(self.shared))

    def packages(self, file):
        """The packages of Debian that one of them needs."""
        return ", ".join([f"libc6 (>= {'.'.join(map(str, elf.glibc_needed(file)))})", *sorted(elf.packages_needed(file))])


def gate_text(source, given, reports):
    """The text of GATE.txt: the reports, or that nothing is proved."""
    try:
        for name, target, wanted in reports:
            check_report(given.reports / name, target, source.commit, wanted)
    except Fault as fault:
        if not given.force:
            raise Fault(f"{fault}; with FORCE=1 the release is made and says that it is not proved") from None
        print(f"packaging/dist: this release is not proved: {fault}", file=sys.stderr)
        return f"not proved\n\ncommit {source.commit}\n"
    texts = [(given.reports / name).read_text(encoding="utf-8") for name, _, _ in reports]
    return "What was proved and built.\n\n" + "\n".join(texts)


def install(source, built, folder, target="install", **variables):
    """Does what `make install` does, below a folder, or another target."""
    link = source.folder / "out"
    link.unlink(missing_ok=True)
    link.symlink_to(built.library)
    # Without the flags of a make that runs this.
    clean = {name: value for name, value in os.environ.items() if not name.startswith(("MAKE", "MFLAGS"))}
    # What is not proved was refused before, or GATE.txt says so.
    given = {"DESTDIR": folder, "PIDTAB": built.program, "SERVICE": built.daemon, "UNPROVED": 1, **variables}
    words = [f"{name}={value}" for name, value in given.items()]
    run(["make", "-s", "-C", source.folder, target, *words], env=clean)
