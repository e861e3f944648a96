"""The control groups of a world: one made for it, which stands for the root of the script, and those of the script below it."""

import os
import secrets
from dataclasses import dataclass
from pathlib import Path


@dataclass(frozen=True)
class Place:
    """Where a world's control group can be made: a folder, and the version of control groups there."""

    folder: Path
    version: int


@dataclass(frozen=True)
class Mount:
    """A mounted hierarchy: what is mounted, which folder of it, where, and with which options."""

    kind: str
    root: str
    point: Path
    options: set[str]


def read_mounts() -> list[Mount]:
    """The mounted control group hierarchies, from /proc/self/mountinfo."""
    mounts = []
    for line in Path("/proc/self/mountinfo").read_text().splitlines():
        left, right = line.split(" - ", 1)
        kind, _, options = right.split(" ", 2)
        if kind in ("cgroup", "cgroup2"):
            fields = left.split(" ")
            mounts.append(Mount(kind, fields[3], Path(fields[4]), set(options.split(","))))
    return mounts


def own_path(kind: str) -> str:
    """The path of this process's group in the version 1 pids hierarchy (`cgroup`) or in version 2 (`cgroup2`)."""
    for line in Path("/proc/self/cgroup").read_text().splitlines():
        _, controllers, path = line.split(":", 2)
        if (controllers == "") if kind == "cgroup2" else ("pids" in controllers.split(",")):
            return path
    return "/"


def own_folder(mount: Mount) -> Path:
    """The folder of this process's group, or the mount's own where that is elsewhere."""
    path = own_path(mount.kind)
    below = os.path.relpath(path, mount.root)
    folder = mount.point if below.startswith("..") else mount.point / below
    return folder if folder.is_dir() else mount.point


def hands_on_pids(folder: Path) -> bool:
    """Whether a version 2 group gives its children the pids controller."""
    try:
        return "pids" in (folder / "cgroup.subtree_control").read_text().split()
    except OSError:
        return False


def find_place() -> Place | None:
    """A folder in which control groups with the pids controller can be made, or None."""
    for mount in read_mounts():
        own = own_folder(mount)
        if mount.kind == "cgroup" and "pids" in mount.options and os.access(own, os.W_OK):
            return Place(own, 1)
        if mount.kind == "cgroup2":
            around = [folder for folder in (own, *own.parents) if folder.is_relative_to(mount.point)]
            for folder in around:
                if hands_on_pids(folder) and os.access(folder, os.W_OK):
                    return Place(folder, 2)
    return None


class Groups:
    """The control groups of one world, by the ids of the script; 0 is the world's own."""

    def __init__(self, place: Place, tasks: int) -> None:
        """Makes the world's group, with a limit for all its tasks."""
        self.version = place.version
        self.root = place.folder / f"pidtab-{os.getpid()}-{secrets.token_hex(4)}"
        self.root.mkdir()
        self.folders = {0: self.root}
        self.parents: dict[int, int | None] = {0: None}
        (self.root / "pids.max").write_text(str(tasks))
        self.hierarchy = self.find_hierarchy()

    def find_hierarchy(self) -> Path:
        """The outermost folder of the hierarchy that can be seen."""
        points = [mount.point for mount in read_mounts() if self.root.is_relative_to(mount.point)]
        return max(points, key=lambda point: len(point.parts))

    def hierarchy_has_limit(self) -> bool:
        """Whether the hierarchy's root has a `pids.max`, which it has where a container shows a group as the root."""
        return (self.hierarchy / "pids.max").exists()

    def admit(self, outer_number: int) -> None:
        """Puts the world's init into the world's group."""
        (self.root / "cgroup.procs").write_text(str(outer_number))
        if self.version == 2:
            (self.root / "cgroup.subtree_control").write_text("+pids")

    def folder(self, control: int) -> Path:
        """The folder of a group; one that is not there for an id that names none."""
        return self.folders.get(control, self.root / "none")

    def make(self, parent: int, control: int) -> None:
        """Makes a group. In version 2 it is a threaded one, since only such may hold processes beside groups."""
        above = self.folder(parent)
        path = above / f"g{control}"
        path.mkdir()
        if self.version == 2:
            (path / "cgroup.type").write_text("threaded")
            (path / "cgroup.subtree_control").write_text("+pids")
        self.folders[control] = path
        self.parents[control] = parent

    def remove(self, control: int) -> None:
        """Removes a group."""
        self.folder(control).rmdir()
        del self.folders[control], self.parents[control]

    def set_limit(self, control: int, limit: int | None) -> None:
        """Writes a group's limit."""
        with open(self.folder(control) / "pids.max", "r+", encoding="ascii") as file:
            file.write("max" if limit is None else str(limit))

    def limit(self, control: int) -> str:
        """A group's limit; the world's own has none except the bound that keeps it safe."""
        return "max" if control == 0 else (self.folder(control) / "pids.max").read_text().strip()

    def count(self, control: int) -> int:
        """How many tasks a group and those below it have."""
        return int((self.folder(control) / "pids.current").read_text())

    def home(self, cgroup_text: str) -> int | None:
        """The id of the group that a process's /proc/PID/cgroup names, or None where it is not one of the world."""
        for line in cgroup_text.splitlines():
            _, controllers, path = line.split(":", 2)
            is_ours = controllers == "" if self.version == 2 else "pids" in controllers.split(",")
            name = path.rsplit("/", 1)[-1]
            if is_ours and name == self.root.name:
                return 0
            if is_ours and self.root.name in path and name.startswith("g"):
                return int(name[1:])
        return None
