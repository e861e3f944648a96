"""Who follows a table: a thread that ships each call once it is recorded."""

import threading

import pidtab


def ship(table: pidtab.Table) -> None:
    shipped = 0
    try:
        while True:
            table.wait_changed(shipped)
            for entry in table.entries(shipped):
                print(entry.ordinal, entry.line, "is", entry.answer)
                shipped = entry.ordinal + 1
    except pidtab.WaitingEnded:
        print(shipped, "calls")


with pidtab.Table(keep=pidtab.ALL, threads=True) as table:
    shipper = threading.Thread(target=ship, args=(table,))
    shipper.start()
    child = table.fork(1).child
    table.exit(child, 7)
    table.wait(1, child)
    table.end_waiting()
    shipper.join()

# It prints
#
#     0 fork 1 is child 2 root 2
#     1 exit 2 7 is ok
#     2 wait 1 pid 2 is reaped 2 exit 7
#     3 calls
