"""Tells whom kill(2) of -1 reaches: all whom its caller's namespace sees, but the init there and the caller. To a zombie it does nothing."""

import pidtab


def reached(table: pidtab.Table, caller: int) -> list[int]:
    """Them by their root numbers. The init of each namespace is 1 there, so the members from 2 on are all others."""
    seen = [table.ask.stat(caller, number) for number in table.ask.namespace_members(caller, start=2)]
    return [task.root for task in seen if task.live and task.root != caller]


with pidtab.Table() as table:
    # 2 is the init of a namespace, and 3, 4 and 5 are its children. 4 is a zombie, and 5 is the init of a namespace within it. 6 is beside them.
    table.fork(1, new=True)
    table.fork(2)
    table.fork(2)
    table.fork(2, new=True)
    table.fork(1)
    table.exit(4)
    for caller in range(1, 7):
        try:
            print(f"{caller} reaches:", *reached(table, caller))
        except pidtab.Refusal as refusal:
            print(f"{caller} reaches:", refusal.why)

# It prints
#
#     1 reaches: 2 3 5 6
#     2 reaches: 3 5
#     3 reaches: 5
#     4 reaches: no-caller
#     5 reaches:
#     6 reaches: 2 3 5
