"""A table as text, a table of that text, and a text of no table. The third word is False since two calls have changed the table."""

import pidtab

with pidtab.Table() as table:
    table.answers(["fork 1", "fork 2 new", "setpgid 3 0 0", "setpgid 2 0 3", "exit 3 0", "wait 2 any"])
    text = table.dump()

print(text.splitlines()[2])
with pidtab.Table.from_dump(text) as table:
    print(table.getpgid(2), table.mk(), table.dump() == text)
try:
    pidtab.Table.from_dump(text.replace("parent 1@0", "parent 5@0"))
except pidtab.BadText as fault:
    print(fault)

# It prints
#
#     task 2@0 parent 1@0 group 3,1@2 session 1@0 control 0 children 0 live
#     3 8 False
#     line 7: wrong digest
