"""Where the program is."""

import os
import shutil
from pathlib import Path

from pidtab.faults import ProgramMissing
from pidtab.places import PREFIX, REPOSITORY

BUILT_PROGRAM = REPOSITORY / "crates" / "pidtab" / "out" / "pidtab"
INSTALLED_PROGRAM = PREFIX / "bin" / "pidtab"


def find_program(named: str | os.PathLike[str] | None = None) -> Path:
    """The program that is named, or that of the variable PIDTAB; else what `make build` builds, what is installed, or `pidtab` on PATH."""
    wanted = os.fspath(named or os.environ.get("PIDTAB") or "")
    places = [wanted] if wanted else [str(BUILT_PROGRAM), str(INSTALLED_PROGRAM), "pidtab"]
    found = next((it for it in map(shutil.which, places) if it), None)
    if found is None:
        raise ProgramMissing(f"no program {wanted or 'pidtab'}: build it with `make build`, or name it by the variable PIDTAB")
    return Path(found).absolute()
