"""Names of a package whose modules are loaded when one of them is first asked for."""

import sys
from importlib import import_module

# As that of `typing`, which takes longer to load than all else here.
TYPE_CHECKING = False
if TYPE_CHECKING:
    from collections.abc import Callable, Mapping


def names_of(package: str, homes: "Mapping[str, str]", folders: tuple[str, ...] = ()) -> "Callable[[str], object]":
    """The `__getattr__` of a package: the modules in which its names are, and the folders below it that are names themselves."""
    found = {name: home for home, names in homes.items() for name in names.split()}

    def load(name: str) -> object:
        if name in folders:
            return import_module(f"{package}.{name}")
        if name not in found:
            raise AttributeError(f"module {package!r} has no attribute {name!r}")
        value = getattr(import_module(f"{package}.{found[name]}"), name)
        setattr(sys.modules[package], name, value)
        return value

    return load
