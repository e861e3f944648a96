"""A test kit: your process table is asked the same calls as one of pidtab, aimed at what is there, until an answer differs. It needs Hypothesis."""

from pidtab.lazy import TYPE_CHECKING, names_of

if TYPE_CHECKING:
    from pidtab.testing.kit import (
        Aimed,
        Case,
        Comparison,
        Different,
        Met,
        NotCompared,
        Rig,
        Tally,
        Unsteady,
        agree,
        aimed,
        calls,
        compare,
        machine,
        open_default,
        read_declared,
    )
    from pidtab.testing.methods import Misnamed

__all__ = [
    "Aimed", "Case", "Comparison", "Different", "Met", "Misnamed", "NotCompared", "Rig", "Tally", "Unsteady", "agree", "aimed", "calls", "compare", "machine",
    "open_default", "read_declared",
]  # fmt: skip

# Only what plays cases needs Hypothesis: `pidtab.testing.peer` does without.
if not TYPE_CHECKING:
    __getattr__ = names_of(
        __name__,
        {
            "kit": "Aimed Case Comparison Different Met NotCompared Rig Tally Unsteady agree aimed calls compare machine open_default read_declared",
            "methods": "Misnamed",
        },
    )
