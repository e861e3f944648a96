"""Which numbers the tasks of a list have in the namespaces that see them."""

from pidtab.listing import Listing, Task


class Sight:
    """A list, with what of it is seen from where."""

    def __init__(self, listing: Listing) -> None:
        self.listing = listing
        self.tasks = {task.root: task for task in listing.tasks}
        self._above = {space.id: space.parent for space in listing.spaces}

    def number(self, root: int, caller: int) -> int | None:
        """The number that a task has in the namespace of the caller; None where it has none. Both are root numbers."""
        task, viewer = self.tasks.get(root), self.tasks.get(caller)
        if task is None or viewer is None:
            return None
        space: int | None = task.space
        while space is not None and space != viewer.space:
            space = self._above[space]
        return None if space is None else task.numbers[len(viewer.numbers) - 1]

    def seen(self, caller: int) -> list[tuple[int, Task]]:
        """The tasks that the caller's namespace sees, each after its number there."""
        numbers = [(self.number(root, caller), task) for root, task in self.tasks.items()]
        return [(number, task) for number, task in numbers if number is not None]
