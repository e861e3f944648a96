"""Tells the namespaces of a table from the root inwards, each with its own tasks."""

import pidtab


def tell_space(table: pidtab.Table, id: int) -> None:
    """The namespace, and then each directly inside it."""
    space = table.ask.space(id)
    # Where the init was reaped, nobody is left but zombies whose parents are outside.
    tasks = table.ask.namespace_own(1, space.init) if space.init else ()
    print("  " * space.level + f"namespace {id}{', fallen' if space.fallen else ''}:", *tasks)
    for inner in table.ask.spaces_inside(id):
        tell_space(table, inner)


with pidtab.Table() as table:
    # 2 is the init of a namespace, in which is its child 3, and 4 that of one within it. 5 is the init of another one, which ends.
    table.fork(1, new=True)
    table.fork(2)
    table.fork(3, new=True)
    table.fork(1, new=True)
    table.exit(5)
    tell_space(table, 0)

# It prints
#
#     namespace 0: 1
#       namespace 1: 2 3
#         namespace 3: 4
#       namespace 4, fallen: 5
