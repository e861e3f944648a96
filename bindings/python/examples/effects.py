"""A supervisor that has a process of Linux for each task does what each call says: it kills, hands children on, and forgets, also what it kept of a group."""

from collections.abc import Iterable

import pidtab


def follow(effects: Iterable[pidtab.Effect]) -> None:
    """What has become of each task, process group and session, by its root number, and of each namespace."""
    for effect in effects:
        match effect:
            case pidtab.Ended(number, status):
                print(f"  {number} is killed" if effect.killed else f"  {number} ends with {status}")
            case pidtab.Adopted(number, parent):
                print(f"  {number} is a child of {parent} now")
            case pidtab.Gone(number):
                print(f"  {number} is gone")
            case pidtab.GroupGone(number):
                print(f"  the process group {number} is gone")
            case pidtab.SessionGone(number):
                print(f"  the session {number} is gone")
            case pidtab.SpaceFell(id):
                print(f"  the namespace {id} has fallen")
            case pidtab.SpaceGone(id):
                print(f"  the namespace {id} is gone")


with pidtab.Table() as table:
    # 2 is the init of a namespace, in which are its child 3 and the children 4 and 5 of that. 5 leads a session, and 6 is its child.
    table.fork(1, new=True)
    for parent in (2, 3, 3):
        table.fork(parent)
    table.setsid(5)
    table.fork(5)
    for task in (3, 2):
        print("exit", task)
        follow(table.told.exit(task, 7).effects)
    reaped, effects = table.told.wait(1)
    print(reaped)
    follow(effects)

# It prints
#
#     exit 3
#       3 ends with 7
#       4 is a child of 2 now
#       5 is a child of 2 now
#     exit 2
#       2 ends with 7
#       3 is gone
#       4 is killed
#       4 is gone
#       5 is killed
#       5 is gone
#       6 is killed
#       6 is gone
#       the process group 5 is gone
#       the session 5 is gone
#       the namespace 1 has fallen
#     Reaped(child=2, status=7)
#       2 is gone
#       the namespace 1 is gone
