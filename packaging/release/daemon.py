"""The service as sources, with the library and all crates that it needs: a machine with cargo and a C compiler builds it without a network."""

import json
import pathlib
import shutil

from release.crate import COMPILER, copy, lay_out
from release.faults import run
from release.files import settle, write_tarball, write_text

# Where Debian's packages put crates, and those that the service names, as the Makefile has them.
CRATES = pathlib.Path("/usr/share/cargo/registry")
NAMED = ("itoa", "lexopt", "listenfd", "mio", "nix", "sd-notify", "signal-hook", "cc")

VENDORED = '[source.crates-io]\nreplace-with = "vendored"\n\n[source.vendored]\ndirectory = "vendor"\n'
UNITS = "packaging/pidtabd"
BESIDE = ("LICENSE", "VERSION", "man/pidtabd.8", f"{UNITS}/pidtabd.service", f"{UNITS}/pidtabd.socket")
README = """\
# pidtabd {version}, as sources

    cargo build --release --offline

builds `target/release/pidtabd`. It takes Rust 1.89 or later, a C compiler, and neither a network nor Rattle. `pidtab` is the table with its
package for Rust, `log_turns` is what its log does next, which is proved, and `vendor` has the crates, each with its licence, as Debian has them. The manual page `pidtabd.8`, the units for systemd and
`GATE.txt`, which says what was proved, lie beside.
"""


def is_possible(assembler):
    """Whether the library is there as sources, and so are the machine of the log and the crates."""
    has_sources = bool(assembler and assembler.is_file() and machine_beside(assembler).is_file())
    return has_sources and bool(shutil.which("cargo")) and all(any(CRATES.glob(f"{name}-[0-9]*")) for name in NAMED)


def machine_beside(assembler):
    """What the log does next, as assembler."""
    return assembler.with_name("log_turns.S")


def add_machine(source, built, stage):
    """Puts the machine of the log into the folder `log_turns`, which is compiled by the crate `cc`."""
    copy(source, "service/log_turns", ["src/lib.rs"], stage)
    write_text(stage / "Cargo.toml", source.read("service/log_turns/Cargo.toml") + COMPILER)
    write_text(stage / "build.rs", source.read("packaging/portable/log_turns.rs"))
    write_text(stage / "log_turns.S", machine_beside(built.assembler).read_text(encoding="utf-8"))


def crates_of(folder):
    """What the crate in a folder is built of, for whatever machine: for each the name, the version, the licence, and the folder."""
    told = json.loads(run(["cargo", "metadata", "--offline", "--format-version=1"], cwd=folder))
    found = [it for it in told["packages"] if it["source"]]
    return [(it["name"], it["version"], it["license"], pathlib.Path(it["manifest_path"]).parent) for it in found]


def add_crates(stage):
    """Puts the crates into the folder `vendor`: for each the name, the version and the licence."""
    settings = stage / ".cargo/config.toml"
    write_text(settings, VENDORED.replace('"vendor"', f'"{CRATES}"'))
    found = crates_of(stage)
    for name, version, _, folder in found:
        shutil.copytree(folder, stage / "vendor" / f"{name}-{version}")
    write_text(settings, VENDORED)
    return [it[:3] for it in found]


def make(source, built, parts):
    """Packs pidtabd-VERSION-src.tar.gz, and says which crates are in it."""
    name = f"pidtabd-{source.version}-src"
    stage = parts.parent / "daemon"
    lay_out(source, built, stage / "pidtab")
    copy(source, "service", [it for it in source.below("service") if it.startswith("src/")], stage)
    add_machine(source, built, stage / "log_turns")
    write_text(stage / "Cargo.toml", source.read("service/Cargo.toml").replace('"../bindings/rust"', '"pidtab"'))
    for it in BESIDE:
        write_text(stage / pathlib.Path(it).name, source.read(it))
    write_text(stage / "README.md", README.format(version=source.version))
    write_text(stage / "GATE.txt", built.gate)
    crates = add_crates(stage)
    settle(stage, source.time)
    write_tarball(parts / f"{name}.tar.gz", stage, name, source.time)
    return crates
