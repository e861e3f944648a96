"""The sources of a release: those of one commit."""

import dataclasses
import pathlib
import re

from release.faults import Fault, run


# After the version of what is not released.
DEV = "-dev"


@dataclasses.dataclass
class Source:
    """A copy of the files of a commit."""

    folder: pathlib.Path
    commit: str
    time: int
    version: str
    names: list

    @classmethod
    def export(cls, top, folder):
        """Copies the files of the commit that is checked out."""
        commit = run(["git", "-C", top, "rev-parse", "HEAD"]).decode().strip()
        time = int(run(["git", "-C", top, "show", "-s", "--format=%ct", commit]))
        folder.mkdir()
        run(["tar", "-x", "-C", folder], input=run(["git", "-C", top, "archive", commit]))
        names = run(["git", "-C", top, "ls-tree", "-r", "--name-only", commit]).decode().splitlines()
        return cls(folder, commit, time, (folder / "VERSION").read_text().strip(), names)

    @property
    def is_released(self):
        """Whether this is a release. What comes before one has its version, and `-dev` after it."""
        return not self.version.endswith(DEV)

    @property
    def debian_version(self):
        """The version as Debian sorts it: what comes before a release is below it."""
        return self.version.replace(DEV, "~dev")

    def read(self, name):
        return (self.folder / name).read_text(encoding="utf-8")

    def below(self, folder):
        """The names of the files below a folder, from there."""
        return [it.removeprefix(f"{folder}/") for it in self.names if it.startswith(f"{folder}/")]

    def pages(self):
        """The names of what users read: the pages with their pictures, and the examples."""
        return [it for it in self.names if it.startswith(("docs/", "examples/", "bindings/c/examples/")) or re.fullmatch(r"[A-Z]+\.md|(?!\.).*/README\.md", it)]

    def changes(self):
        """What the change log says of this version, an entry each."""
        version = self.version if self.is_released else "Unreleased"
        found = re.search(rf"^## \[{re.escape(version)}\].*\n((?:(?!## ).*\n?)*)", self.read("CHANGELOG.md"), re.MULTILINE)
        if not found:
            raise Fault(f"CHANGELOG.md has no version {version}")
        entries = re.findall(r"^- (.*(?:\n  .*)*)", found[1], re.MULTILINE)
        return [re.sub(r"\[([^\]]*)\]\([^)]*\)", r"\1", " ".join(it.split())).replace("`", "") for it in entries]
