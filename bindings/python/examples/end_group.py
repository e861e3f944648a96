"""Ends a process group with all that come from its members, also those that have left it."""

from collections.abc import Iterable

import pidtab


def end_all(table: pidtab.Table, tasks: Iterable[int]) -> None:
    """Ends tasks, and first the children of each. The root init sees all by their root numbers."""
    for task in tasks:
        end_all(table, table.ask.children(1, task))
        if table.ask.stat(1, task).live:
            table.exit(task)
            print(task, "ends")


with pidtab.Table() as table:
    # 2 leads a group, in which are its child 3 and 5, a child of that. The other child 4 leads a session of its own, and 6 is a child of 4.
    table.fork(1)
    table.setpgid(1, 2, 2)
    for parent in (2, 2, 3):
        table.fork(parent)
    table.setsid(4)
    table.fork(4)
    end_all(table, table.ask.group_members(1, 2))

# It prints
#
#     5 ends
#     3 ends
#     6 ends
#     4 ends
#     2 ends
