"""A table for two threads, each with a seat: its history, which one thread makes again on a table of its own, several calls in one go, and a cut."""

import threading

import pidtab


def serve(seat: pidtab.Seat, container: int) -> None:
    for _ in range(100):
        worker = seat.fork(container)
        seat.exit(worker.root, seat.worker)
        seat.wait(container, worker.child)


with pidtab.Table(keep=pidtab.ALL, workers=2, threads=True) as table:
    seats = [table.seat(), table.seat()]
    containers = [seat.fork(1, new=True).root for seat in seats]
    threads = [threading.Thread(target=serve, args=pair) for pair in zip(seats, containers)]
    for thread in threads:
        thread.start()
    for thread in threads:
        thread.join()
    print(table.counts(), [table.worker(number) for number in range(2)])
    print(table.entry(1))
    print(table.ask.count(), seats[0].getpid(3), seats[0].ordinal)

    with pidtab.Table() as alone:
        print(all(alone.line(entry.line) == entry.answer for entry in table.entries()))
        print(alone.list() == table.list())

    with table.lock():
        print(seats[1].fork(1), seats[1].fork(1), seats[1].ordinal)

    print(table.checkpoint_at(604), table.checkpoint_at(605), table.counts())

# It prints
#
#     Counts(first_kept=0, recorded=602) [301, 301]
#     Entry(ordinal=1, worker=1, line='fork 1 new', answer='child 3 root 3')
#     3 1 602
#     True
#     True
#     Forked(child=204, root=204) Forked(child=205, root=205) 604
#     False True Counts(first_kept=605, recorded=605)
