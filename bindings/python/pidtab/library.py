"""Where the library is, and its functions."""

import ctypes
import functools
import os
from collections.abc import Callable, Mapping

from pidtab.faults import LibraryFault, LibraryMissing
from pidtab.places import HERE, PREFIX, REPOSITORY
from pidtab.raw import (
    FUNCTIONS,
    LATER_FUNCTIONS,
    REPLICA_FUNCTIONS,
    SAVED_FUNCTIONS,
    VERSION,
    Function,
)

# Interfaces that would not fit together have other names.
SONAME = "libpidtab.so.1"

# In a wheel the library is in the package.
PACKED_LIBRARY = HERE / SONAME
BUILT_LIBRARY = REPOSITORY / "out" / "libpidtab.so"
INSTALLED_LIBRARY = PREFIX / "lib" / SONAME

ADVICE = "build it with `make lib`, or name it by the variable PIDTAB_LIBRARY"


def find_library(named: str | os.PathLike[str] | None = None) -> str:
    """The library that is named, or that of the variable PIDTAB_LIBRARY; else that of a wheel, what `make lib` builds, what is installed, or what the loader finds."""
    wanted = os.fspath(named or os.environ.get("PIDTAB_LIBRARY") or "")
    if wanted and not os.path.isfile(wanted):
        raise LibraryMissing(f"no library {wanted}: {ADVICE}")
    places = [wanted, str(PACKED_LIBRARY), str(BUILT_LIBRARY), str(INSTALLED_LIBRARY)]
    found = next(filter(os.path.isfile, places), None)
    return SONAME if found is None else os.path.abspath(found)


@functools.cache
def load_library(path: str, threads: bool = False) -> ctypes.CDLL:
    """The functions. Those for tables of one thread keep the interpreter's lock, so each call is made whole; an earlier library may lack some of them.

    Those for tables of many threads give that lock up for each call, so a wait for the other one holds nobody up.
    """
    if threads:
        return load(ctypes.CDLL, path, FUNCTIONS | LATER_FUNCTIONS | SAVED_FUNCTIONS)
    library = load(ctypes.PyDLL, path, FUNCTIONS)
    declare_those_there(library, LATER_FUNCTIONS | SAVED_FUNCTIONS | REPLICA_FUNCTIONS, path)
    return library


def load(kind: type[ctypes.CDLL], path: str, functions: Mapping[str, Function]) -> ctypes.CDLL:
    """The library with these functions, if it has the interface that this package is written for."""
    try:
        library = kind(path)
    except OSError as fault:
        raise LibraryMissing(f"cannot load {fault}: {ADVICE}") from fault
    declare_functions(library, functions, path)
    version = library.pidtab_version()
    if version != VERSION:
        raise LibraryFault(f"{path} has the interface {version}, and this package is written for {VERSION}")
    return library


def declare_functions(library: ctypes.CDLL, functions: Mapping[str, Function], path: str) -> None:
    """Says what each of these functions answers and takes."""
    for name, (answered, taken) in functions.items():
        function = getattr(library, name, None)
        if function is None:
            raise LibraryFault(lacks(path, name))
        function.restype, function.argtypes = answered, taken


def declare_those_there(library: ctypes.CDLL, functions: Mapping[str, Function], path: str) -> None:
    """The same of those that an earlier library may lack."""
    declare_functions(library, {name: it for name, it in functions.items() if hasattr(library, name)}, path)


def function_of(library: ctypes.CDLL, path: str, name: str) -> Callable[..., int]:
    """The function of a name, which an earlier library may lack."""
    function: Callable[..., int] | None = getattr(library, name, None)
    if function is None:
        raise LibraryFault(lacks(path, name))
    return function


def lacks(path: str, name: str) -> str:
    """What to say of a library without a function."""
    return f"{path} has no function {name}" + ("" if name in FUNCTIONS else f", as the library of an earlier release: {ADVICE}")
