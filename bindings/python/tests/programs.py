"""Runs the programs of the pages, each in a folder of its own, and answers what they write."""

import os
import shutil
import subprocess
import sys
import unittest
from collections.abc import Sequence
from pathlib import Path

from pidtab import find_program
from tests.pages import REPOSITORY

BINDINGS = REPOSITORY / "bindings"
BUILT = REPOSITORY / "out"
ARCHIVE = BUILT / "libpidtab.a"

STRICT = ("-std=c11", "-Wall", "-Wextra", "-Werror")

CARGO = f"""\
[package]
name = "example"
version = "0.1.0"
edition = "2021"

[dependencies]
pidtab = {{ path = "{BINDINGS / "rust"}" }}
"""

GO = f"""\
module example

go 1.19

require pidtab v0.0.0

replace pidtab => {BINDINGS / "go"}
"""


def need_tool(name: str) -> str:
    """The path of a tool; what needs one that is not there is skipped."""
    found = shutil.which(name)
    if found is None:
        raise unittest.SkipTest(f"no {name}")
    return found


def need_archive() -> None:
    """Skips what links the library, where it is not there."""
    if not ARCHIVE.is_file():
        raise unittest.SkipTest(f"no {ARCHIVE}: build it with `make lib`")


def run(command: Sequence[str | Path], folder: Path, **variables: str | Path) -> str:
    """What a command writes, which ends well and complains of nothing."""
    # The variables that name what was built may do so from this folder.
    named = {name: os.path.abspath(os.environ[name]) for name in ("PIDTAB", "PIDTAB_LIBRARY") if os.environ.get(name)}
    words = {**os.environ, **named, **{name: str(value) for name, value in variables.items()}}
    done = subprocess.run(command, cwd=folder, env=words, capture_output=True, text=True, check=False)
    if done.returncode != 0 or done.stderr:
        raise AssertionError(f"{command} ended with status {done.returncode}: {done.stderr}")
    return done.stdout


def run_make(*words: str) -> "subprocess.CompletedProcess[str]":
    """Runs a target of the repository with its variables."""
    # Without the flags of a make that runs these tests.
    clean = {name: value for name, value in os.environ.items() if not name.startswith(("MAKE", "MFLAGS"))}
    return subprocess.run(["make", "-s", *words], cwd=REPOSITORY, env=clean, capture_output=True, text=True, check=False)


def run_shell(code: str, folder: Path) -> str:
    """A script of the shell, for which `pidtab` is the program, and those beside it are those of the repository."""
    for program in (find_program(), *(BINDINGS / "python" / "bin").iterdir()):
        (folder / program.name).symlink_to(program)
    return run(["sh", "-c", code], folder, PATH=f"{folder}:{os.environ['PATH']}")


def run_python(code: str, folder: Path) -> str:
    """A program in Python, with the package of the repository."""
    return run([sys.executable, "-c", code], folder, PYTHONPATH=os.pathsep.join(filter(None, (str(BINDINGS / "python"), os.environ.get("PYTHONPATH")))))


def run_c(code: str, folder: Path, flags: Sequence[str] = (f"-I{BUILT}", str(ARCHIVE)), **variables: str | Path) -> str:
    """A program in C, built with the library of the repository, or with that of the flags."""
    (folder / "example.c").write_text(code)
    run([need_tool("cc"), *STRICT, "-o", "example", "example.c", *flags], folder)
    return run(["./example"], folder, **variables)


def run_rust(code: str, folder: Path) -> str:
    """A program in Rust, over the crate of the repository."""
    (folder / "src").mkdir()
    (folder / "src" / "main.rs").write_text(code)
    (folder / "Cargo.toml").write_text(CARGO)
    return run([need_tool("cargo"), "run", "--offline", "--quiet"], folder, CARGO_TARGET_DIR=folder / "target")


def run_go(code: str, folder: Path, tags: str = "", **variables: str | Path) -> str:
    """A program in Go, over the package of the repository."""
    (folder / "main.go").write_text(code)
    (folder / "go.mod").write_text(GO)
    return run([need_tool("go"), "run", f"-tags={tags}", "."], folder, **variables)
