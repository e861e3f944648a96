"""Tells whom the end of a session's leader reaches by its terminal (exit(3)): the foreground process group gets a SIGHUP, and all of the session lose
the terminal. The table has no terminals: which group is in the foreground, tcgetpgrp(3) says."""

from collections.abc import Iterable

import pidtab


def tell_others(table: pidtab.Table, what: str, caller: int, numbers: Iterable[int]) -> None:
    """Those that live, by their root numbers, but the caller."""
    seen = [table.ask.stat(caller, number) for number in numbers]
    print(" ", what, *(task.root for task in seen if task.live and task.root != caller))


def tell_hang_up(table: pidtab.Table, leader: int, foreground: int) -> None:
    """The group has its number in the namespace of the leader."""
    if table.ask.getsid(leader) != table.ask.getpid(leader):
        print(leader, "leads no session")
        return
    print(leader, "ends")
    tell_others(table, "a SIGHUP for:", leader, table.ask.group_members(leader, foreground))
    tell_others(table, "no terminal for:", leader, table.ask.session_members(leader))


with pidtab.Table() as table:
    # 2 leads a session. Its children 3 and 4 are in the foreground, in the group 3, and 5 is in its own. 6, a child of 5, leads another session.
    table.fork(1)
    table.setsid(2)
    for _ in range(3):
        table.fork(2)
    for task, group in ((3, 3), (4, 3), (5, 5)):
        table.setpgid(2, task, group)
    table.fork(5)
    table.setsid(6)
    tell_hang_up(table, 2, 3)
    tell_hang_up(table, 5, 5)

# It prints
#
#     2 ends
#       a SIGHUP for: 3 4
#       no terminal for: 3 4 5
#     5 leads no session
