"""Tells the control groups of a table from the root inwards, each with its live tasks, as systemd-cgls does, and its count."""

import pidtab


def tell_control(table: pidtab.Table, id: int, depth: int = 0) -> None:
    """The control group, and then each directly inside it. The root init sees all tasks by their root numbers."""
    print("  " * depth + f"control group {id} has {table.ask.count(id)}:", *table.ask.control_tasks(1, id))
    for inner in table.ask.controls_inside(id):
        tell_control(table, inner, depth + 1)


with pidtab.Table() as table:
    # A service has a control group, and two workers one inside it each. A child is in the control group of its parent, until it is moved.
    service = table.mk()
    first, second = table.mk(service), table.mk(service)
    table.fork(1)
    table.move(2, service)
    for _ in range(4):
        table.fork(2)
    table.move(4, first)
    table.move(5, second)
    # 6 is a zombie until 2 waits for it: it counts, and is no live task.
    table.exit(6)
    tell_control(table, 0)

# It prints
#
#     control group 0 has 6: 1
#       control group 1 has 5: 2 3
#         control group 2 has 1: 4
#         control group 3 has 1: 5
