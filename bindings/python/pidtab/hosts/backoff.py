"""How long to wait before the next try."""

import random

# Seconds. The first try again comes at once, as another member may answer.
FIRST, LONGEST = 0.02, 1.0


class Backoff:
    """Pauses that grow, each by chance shorter than its bound, so that not all hosts try again at once."""

    def __init__(self, longest: float = LONGEST) -> None:
        self._bound = 0.0
        self._longest = min(longest, LONGEST)

    def next(self) -> float:
        """The pause before the next try."""
        pause = self._bound * random.uniform(0.5, 1.0)
        self._bound = min(self._longest, max(FIRST, 2 * self._bound))
        return pause

    def reset(self) -> None:
        """A try went well."""
        self._bound = 0.0
