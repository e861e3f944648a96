"""Names that tasks have outside of a table."""

from abc import abstractmethod
from collections.abc import Callable, Collection, Iterable
from contextlib import AbstractContextManager, nullcontext

from pidtab.answers import Stat
from pidtab.calls import Listed
from pidtab.listing import Listing


# What reads the root numbers of the tasks that a call under way has made by now. Each call has its own.
Reads = Callable[[], Collection[int]]


class Label:
    """The label of a task, whose text is empty once it is gone."""

    __slots__ = ("forks", "place", "text")

    def __init__(self, text: str, place: int = 0, forks: Collection[Reads] = ()) -> None:
        self.text = text
        # How many calls were made on the table before, and those under way then that had forked a task with its number: that one, or an earlier one.
        self.place, self.forks = place, forks


class Labels:
    """Labels by root numbers. One goes when its number is that of another task.

    Another thread may label a task before the one that has forked it goes on. So a label knows the forks before it: those under way that have made a task
    with its number, or a place, which is how many calls were made on the table. No other fork of its number has made the task that was labelled.
    """

    def __init__(self) -> None:
        self.by_root: dict[int, Label] = {}
        # Each call that may fork, from before it is made until its tasks have no labels of others.
        self.under_way: set[Reads] = set()

    def put(self, root: int, text: str, place: int = 0) -> None:
        """Labels a task, which no call makes or takes away meanwhile."""
        if not isinstance(text, str):
            raise TypeError(f"a label is a str, not {type(text).__name__}")
        if not text or not text.isprintable():
            raise ValueError(f"a label is some printable text of one line, not {text!r}")
        self.by_root[root] = Label(text, place, [it for it in list(self.under_way) if root in it()])

    def fork(self, root: int, place: int) -> None:
        """Says that a fork at the place has made a task with the number."""
        label = self.by_root.get(root)
        if label is not None and label.place <= place:
            label.text = ""

    def end(self, call: Reads) -> None:
        """Says that a call under way is over. What goes is the label that was found: by now there may be another one in its place."""
        if self.by_root:
            for label in filter(None, map(self.by_root.get, call())):
                if call not in label.forks:
                    label.text = ""
        self.under_way.discard(call)

    def drop(self, root: int) -> None:
        """Takes a label away, if there is one."""
        self.by_root.pop(root, None)

    def of(self, roots: Iterable[int]) -> dict[int, str]:
        """The labels of these tasks."""
        texts = {root: label.text for root, label in list(self.by_root.items()) if label.text}
        return {root: texts[root] for root in roots if root in texts}

    def copy(self) -> "Labels":
        """The same labels for another table, on which no call was made."""
        copied = Labels()
        copied.by_root = {root: Label(label.text) for root, label in list(self.by_root.items()) if label.text}
        return copied


class Labelled(Listed):
    """What has a list, whose tasks may have labels."""

    # The labels of the table.
    _labels: Labels

    def _place(self) -> int:
        """How many calls were made on the table, where forks are told by that."""
        return 0

    def _alone(self) -> AbstractContextManager[object]:
        """That no other thread makes a call on the table, where they may."""
        return nullcontext()

    @abstractmethod
    def _look(self, task: int) -> Stat:
        """The task with the root number."""

    def label(self, task: int, text: str | None) -> None:
        """Names a task, by its root number, in `list`, in its JSON and in `tree`; None takes the name away. no-task.

        It is no call: the table, its text and its history know nothing of it. It goes with the task.
        """
        with self._alone():
            place = self._place()
            (root, *_) = self._look(task).numbers
            if text is None:
                self._labels.drop(root)
            else:
                self._labels.put(root, text, place)

    def list(self) -> Listing:
        """The table as it stands now, with its labels. It costs a copy of the table."""
        listing = super().list()
        return listing.with_names(self._labels.of(task.root for task in listing.tasks)) if self._labels.by_root else listing
