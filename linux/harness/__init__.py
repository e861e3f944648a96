"""The same script by real processes, and what differs from the table."""

import sys
from pathlib import Path

# The script language and the program's place are told once, by the package of bindings/python.
sys.path.insert(0, str(Path(__file__).resolve().parents[2] / "bindings" / "python"))
