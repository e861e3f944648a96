"""How pip builds the package, without anything to fetch: a wheel of its modules, and of the program and the library where the repository has built them."""

import ast
import base64
import configparser
import hashlib
import os
import sysconfig
import zipfile
from collections.abc import Iterator, Mapping
from pathlib import Path
from typing import Any

HERE = Path(__file__).resolve().parent
REPOSITORY = HERE.parents[1]

SONAME = "libpidtab.so.1"
LIBRARY = REPOSITORY / "out" / SONAME
PROGRAM = REPOSITORY / "crates" / "pidtab" / "out" / "pidtab"

# Whose first line says whether the library is proved.
REPORT = REPOSITORY / "out" / "library.txt"
NOT_PROVED = "not proved"

# The rights of what is a program, and of what is not.
RUNNABLE, PLAIN = 0o755, 0o644

Sections = Mapping[str, Mapping[str, Any]]


def read_sections(text: str) -> Sections:
    """The sections of `pyproject.toml`, whose values Python reads as TOML does. Before 3.11 Python has no reader of TOML."""
    parser = configparser.ConfigParser(interpolation=None, delimiters=("=",))
    parser.optionxform = str  # type: ignore[assignment, method-assign]
    parser.read_string(text)
    return {name: {key: read_value(value) for key, value in parser.items(name)} for name in parser.sections()}


def read_value(word: str) -> Any:
    """A value; one that Python writes otherwise stays text."""
    try:
        return ast.literal_eval(word)
    except (SyntaxError, ValueError):
        return word


def metadata(sections: Sections, version: str, readme: str) -> str:
    """The file METADATA."""
    project = sections["project"]
    extras = sections.get("project.optional-dependencies", {})
    lines = [
        "Metadata-Version: 2.1",
        f"Name: {project['name']}",
        f"Version: {version}",
        f"Summary: {project['description']}",
        f"License: {project['license']}",
        f"Requires-Python: {project['requires-python']}",
        *(f"Provides-Extra: {name}" for name in extras),
        *(f'Requires-Dist: {it}; extra == "{name}"' for name, needed in extras.items() for it in needed),
        "Description-Content-Type: text/markdown",
    ]
    return "\n".join(lines) + f"\n\n{readme}"


def entry_points(sections: Sections) -> str:
    """The file entry_points.txt."""
    return "[console_scripts]\n" + "".join(f"{name} = {place}\n" for name, place in sorted(sections["project.scripts"].items()))


def record_line(name: str, data: bytes) -> str:
    """A line of RECORD: the sum in the alphabet of URLs, without padding, and the size."""
    digest = base64.urlsafe_b64encode(hashlib.sha256(data).digest()).decode().rstrip("=")
    return f"{name},sha256={digest},{len(data)}\n"


def is_not_proved() -> bool:
    """Whether the library that is built says that it is not proved."""
    return REPORT.is_file() and REPORT.read_text(encoding="utf-8").startswith(NOT_PROVED)


def built(head: str) -> Iterator[tuple[str, Path]]:
    """What is in the wheel of what the repository has built, by its name there."""
    if LIBRARY.is_file():
        yield f"pidtab/{SONAME}", LIBRARY
    if PROGRAM.is_file():
        yield f"{head}.data/scripts/pidtab", PROGRAM


def modules() -> Iterator[tuple[str, Path]]:
    """The modules of the package, and what says that it has types."""
    for path in sorted((HERE / "pidtab").rglob("*")):
        if path.suffix == ".py" or path.name == "py.typed":
            yield path.relative_to(HERE).as_posix(), path


def write_wheel(folder: str, is_editable: bool) -> str:
    """Writes a wheel into a folder: its name."""
    sections = read_sections((HERE / "pyproject.toml").read_text(encoding="utf-8"))
    name, version = sections["project"]["name"], sections["project"]["version"]
    # As `pip list` shows it.
    version += "+not.proved" if not is_editable and LIBRARY.is_file() and is_not_proved() else ""
    head = f"{name}-{version}"
    taken = [] if is_editable else [*modules(), *built(head)]
    is_pure = all(path.suffix in (".py", ".typed") for _, path in taken)
    tag = f"py3-none-{'any' if is_pure else sysconfig.get_platform().replace('-', '_').replace('.', '_')}"
    files = {name: path.read_bytes() for name, path in taken}
    if is_editable:
        files[f"{name}.pth"] = f"{HERE}\n".encode()
    about = {
        "METADATA": metadata(sections, version, (HERE / "README.md").read_text(encoding="utf-8")),
        "WHEEL": f"Wheel-Version: 1.0\nGenerator: {name}\nRoot-Is-Purelib: {str(is_pure).lower()}\nTag: {tag}\n",
        "entry_points.txt": entry_points(sections),
    }
    files |= {f"{head}.dist-info/{name}": text.encode() for name, text in about.items()}
    record = f"{head}.dist-info/RECORD"
    files[record] = ("".join(record_line(*it) for it in files.items()) + f"{record},,\n").encode()
    runnable = {name for name, path in taken if os.access(path, os.X_OK)}
    with zipfile.ZipFile(Path(folder) / f"{head}-{tag}.whl", "w", zipfile.ZIP_DEFLATED) as packed:
        for name, data in files.items():
            entry = zipfile.ZipInfo(name)
            entry.external_attr, entry.compress_type = (RUNNABLE if name in runnable else PLAIN) << 16, zipfile.ZIP_DEFLATED
            packed.writestr(entry, data)
    return f"{head}-{tag}.whl"


def build_wheel(wheel_directory: str, config_settings: object = None, metadata_directory: object = None) -> str:
    """The wheel, as pip asks for it (PEP 517)."""
    return write_wheel(wheel_directory, is_editable=False)


def build_editable(wheel_directory: str, config_settings: object = None, metadata_directory: object = None) -> str:
    """That of `pip install -e`, which names this folder (PEP 660)."""
    return write_wheel(wheel_directory, is_editable=True)
