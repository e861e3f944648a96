"""Calls that are aimed: at tasks, groups and control groups that a table has, and now and then beside them."""

from collections.abc import Callable, Sequence

from pidtab.forms import Form
from pidtab.language import KINDS
from pidtab.sight import Sight

# A pick is a number from 0 to this, which becomes a number of the table; those from `ODD_FROM` on become an odd one.
GREATEST_PICK = 31
ODD_FROM = 28

# Numbers that are nobody's, or at an edge.
ODD = (0, 1, 2, 300, 2**31 - 1, 2**32 - 1)
STATUSES = (0, 1, 7, 255)


def picked(pool: Sequence[int], pick: int) -> int:
    """The number that a pick means, of those that are there, or an odd one."""
    if pick >= ODD_FROM or not pool:
        return ODD[pick % len(ODD)]
    return pool[pick % len(pool)]


def newest(numbers: Sequence[int]) -> list[int]:
    """The numbers, the newest first: so a pick means the same where earlier calls are left out, and a case shrinks."""
    return sorted(numbers, reverse=True)


class Aim:
    """Where a call goes, on a table as it stands."""

    def __init__(self, form: Form, picks: Sequence[int], sight: Sight) -> None:
        self.form = form
        self.picks = picks
        self.sight = sight
        self._numbers: list[int] = []

    def line(self) -> str:
        """The line that the picks mean."""
        kinds: dict[str, Callable[[int], int]] = {
            "C": self._caller, "T": self._task, "P": self._process, "G": self._signed, "I": self._control, "S": self._status, "N": self._limit
        }  # fmt: skip
        for kind, pick in zip(self.form.kinds, self.picks, strict=True):
            number = kinds[kind](pick)
            self._numbers.append(max(KINDS[kind].least, min(number, KINDS[kind].greatest)))
        return self.form.line(self._numbers)

    def _live(self) -> list[int]:
        return newest([task.root for task in self.sight.listing.tasks if task.live])

    def _seen(self, caller: int) -> list[int]:
        return newest([number for number, _ in self.sight.seen(caller)])

    def _children(self, caller: int) -> list[int]:
        return newest([number for number, task in self.sight.seen(caller) if task.parent == caller])

    def _caller(self, pick: int) -> int:
        """A live task; for a wait, one with children, where there is any."""
        parents = {task.parent for task in self.sight.listing.tasks} if self.form.command == "wait" else set()
        live = self._live()
        return picked([root for root in live if root in parents] or live, pick)

    def _task(self, pick: int) -> int:
        return picked(self._live(), pick)

    def _process(self, pick: int) -> int:
        """A number that the caller's namespace sees: of a child or its group for a wait, and else of any task."""
        caller = self._numbers[0]
        if self.form.name == "wait group":
            return picked(self._groups(caller), pick)
        children = self._children(caller) if self.form.command == "wait" else []
        return picked(children or self._seen(caller), pick)

    def _groups(self, caller: int) -> list[int]:
        """The groups of all that the caller's namespace sees."""
        numbers = [self.sight.number(root, caller) for root in {task.group for _, task in self.sight.seen(caller)}]
        return newest([number for number in numbers if number is not None])

    def _signed(self, pick: int) -> int:
        """Of a setpgid: the target is the caller, a child or anybody, and the group is its own or one that is there. Rarely below 0."""
        caller, is_target = self._numbers[0], len(self._numbers) == 1
        if pick == GREATEST_PICK:
            return -1
        if is_target:
            return picked([0, *self._children(caller), *self._seen(caller)], pick)
        return picked([0, self._numbers[1], *self._groups(caller)], pick)

    def _control(self, pick: int) -> int:
        """The id of a control group; for a limit or a removal one below the root, where there is any."""
        ids = newest([control.id for control in self.sight.listing.controls])
        return picked(ids[:-1] or ids if self.form.command in ("limit", "rm") else ids, pick)

    def _status(self, pick: int) -> int:
        return STATUSES[pick % len(STATUSES)]

    def _limit(self, pick: int) -> int:
        """A limit near the count of the control group."""
        counts = {control.id: control.count for control in self.sight.listing.controls}
        count = counts.get(self._numbers[0], 0)
        return picked([max(0, count - 1), count, count + 1, count + 3], pick)
