"""A saved history: a table goes on where its file ends, a torn end is left out, and a changed byte is found. It makes the file `history`."""

import os

import pidtab

with pidtab.Table.resume("history") as table:
    print(table.fork(1, new=True), table.save("history"))
    print(table.fork(2), table.save("history"))

os.truncate("history", 120)  # as a writer that was stopped amid the second entry leaves it

with pidtab.Table.load("history") as table:
    print(table.saved, table.counts())
    print(table.fork(2), table.save("history"))

with open("history", "r+b") as file:
    file.seek(60)
    file.write(b"x")
try:
    pidtab.Table.load("history")
except pidtab.BadHistory as fault:
    print(fault.calls, fault.place, str(fault).split(": ")[-1])

# It prints
#
#     Forked(child=2, root=2) Saved(calls=1, size=96, left_out=0)
#     Forked(child=2, root=3) Saved(calls=2, size=144, left_out=0)
#     Saved(calls=1, size=96, left_out=24) Counts(first_kept=0, recorded=1)
#     Forked(child=2, root=3) Saved(calls=2, size=144, left_out=24)
#     0 48 a byte is not the one that was written
