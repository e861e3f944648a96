"""The wheel for Python, with the library in the package and the program among the scripts."""

import pathlib
import sys

# What pip builds the package with from a checkout.
sys.path.append(str(pathlib.Path(__file__).resolve().parents[2] / "bindings" / "python"))
from build_wheel import entry_points, metadata, read_sections, record_line  # noqa: E402
from release.built import SHARED  # noqa: E402
from release.files import PLAIN, RUNNABLE, write_zip  # noqa: E402

# The oldest C library of which a tag of wheels speaks as manylinux_2_N.
OLDEST = (2, 5)


def tag_of(built):
    """The tag of a wheel that needs this C library."""
    return f"py3-none-{built.machine.wheel.format(*max(built.glibc(), OLDEST)[:2])}"


def entries(source, built, sections, tag):
    """What is in the wheel but its record: names, bytes and rights."""
    project = sections["project"]
    head = f"{project['name']}-{project['version']}"
    about = f"{head}.dist-info"
    package = [it for it in source.below("bindings/python") if it.startswith("pidtab/")]
    found = [(it, (source.folder / "bindings/python" / it).read_bytes(), PLAIN) for it in package]
    found.append((f"pidtab/{SHARED}", built.shared.read_bytes(), RUNNABLE))
    found.append((f"{head}.data/scripts/pidtab", built.program.read_bytes(), RUNNABLE))
    texts = {
        "METADATA": metadata(sections, project["version"], source.read("bindings/python/README.md")),
        "WHEEL": f"Wheel-Version: 1.0\nGenerator: packaging/dist\nRoot-Is-Purelib: false\nTag: {tag}\n",
        "entry_points.txt": entry_points(sections),
        "top_level.txt": f"{project['name']}\n",
        "licenses/LICENSE": source.read("LICENSE"),
        "GATE.txt": built.gate,
    }
    return sorted(found + [(f"{about}/{name}", text.encode(), PLAIN) for name, text in texts.items()])


def make(source, built, parts):
    """Packs pidtab-VERSION-TAG.whl."""
    sections = read_sections(source.read("bindings/python/pyproject.toml"))
    project = sections["project"]
    tag = tag_of(built)
    packed = entries(source, built, sections, tag)
    name = f"{project['name']}-{project['version']}.dist-info/RECORD"
    record = "".join(record_line(it, data) for it, data, _ in packed) + f"{name},,\n"
    write_zip(parts / f"{project['name']}-{project['version']}-{tag}.whl", [*packed, (name, record.encode(), PLAIN)], source.time)
