"""A supervisor prepares for a child before it is there, and has the one that it has prepared for, or none."""

import pidtab

with pidtab.Table() as table:
    container = table.fork(1, new=True)
    while True:
        told = table.would.fork(container.root)
        print(f"a room for {told.child}, in the root {told.root}")
        # Meanwhile another one forks, once.
        if told.root == 3:
            table.fork(1)
        if table.fork_at(container.root, told):
            break
        print("taken")
    print(table.nspid(1, told.root))

# It prints
#
#     a room for 2, in the root 3
#     taken
#     a room for 2, in the root 4
#     (4, 2)
