"""The module for Go, with the sources of the library, which cgo compiles. By the tag `pkgconfig` it links an installed library."""

from release.crate import copy
from release.files import settle, write_tarball, write_text
from release.portable import add_sources

CHECKOUT = "link_checkout.go"
# Before each file that the tag leaves out.
UNTAGGED = "//go:build !pkgconfig\n\n"
# What tests of a checkout need alone.
OF_TESTS = ("cluster/check", "cluster/internal/", "cluster/wrong/")


def is_packed(name):
    """Whether a file is one for users. The tests compare the package with the rest of the repository."""
    return name.endswith("example_test.go") or not (name.endswith("_test.go") or name.startswith(OF_TESTS))


def make(source, built, parts):
    """Packs pidtab-go-VERSION.tar.gz."""
    name = f"pidtab-go-{source.version}"
    stage = parts.parent / "go"
    copy(source, "bindings/go", [it for it in source.below("bindings/go") if is_packed(it)], stage)
    if built.assembler:
        (stage / CHECKOUT).unlink()
        copy(source, "packaging/portable", ["link_source.go"], stage)
        add_sources(source, built, stage, UNTAGGED)
    write_text(stage / "LICENSE", source.read("LICENSE"))
    settle(stage, source.time)
    write_tarball(parts / f"{name}.tar.gz", stage, name, source.time)
