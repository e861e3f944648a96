"""The crate for Rust, as `cargo package` would lay it out: with the sources of the library, which its build.rs compiles by the crate `cc`."""

import shutil

from release.files import settle, write_tarball, write_text
from release.portable import add_sources

# Its tests compare it with the rest of the repository.
LEFT_OUT = ("tests/",)
COMPILER = '\n[build-dependencies]\ncc = "1"\n'


def copy(source, folder, names, where):
    """Copies files of a folder of the sources."""
    for name in names:
        (where / name).parent.mkdir(parents=True, exist_ok=True)
        shutil.copyfile(source.folder / folder / name, where / name)


def lay_out(source, built, stage):
    """Puts the crate into a folder."""
    copy(source, "bindings/rust", [it for it in source.below("bindings/rust") if not it.startswith(LEFT_OUT)], stage)
    if built.assembler:
        add_sources(source, built, stage / "c")
        copy(source, "packaging/portable", ["source.rs"], stage)
        write_text(stage / "Cargo.toml", source.read("bindings/rust/Cargo.toml") + COMPILER)
    write_text(stage / "LICENSE", source.read("LICENSE"))


def make(source, built, parts):
    """Packs pidtab-VERSION.crate."""
    name = f"pidtab-{source.version}"
    stage = parts.parent / "crate"
    lay_out(source, built, stage)
    settle(stage, source.time)
    write_tarball(parts / f"{name}.crate", stage, name, source.time)
