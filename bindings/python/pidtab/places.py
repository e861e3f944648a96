"""Where this package lies: in the repository, or where `make install` has put it."""

from pathlib import Path

HERE = Path(__file__).resolve().parent

# In the repository this folder is bindings/python/pidtab.
REPOSITORY = (HERE / "../../..").resolve()

# Installed it is PREFIX/share/pidtab/python/pidtab.
PREFIX = (HERE / "../../../..").resolve()
