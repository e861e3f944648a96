"""A descriptor of /proc/N/stat outlives its process, whose number in the kernel is used again: it is read as long as that number comes. Words: how many."""
import errno
import os
import signal
import sys


def begin():
    child = os.fork()
    if child == 0:
        signal.pause()
    return child


def end(child):
    os.kill(child, signal.SIGKILL)
    os.waitpid(child, 0)


def read(file):
    try:
        return os.pread(file, 100, 0).split()[0].decode()
    except OSError as fault:
        return errno.errorcode[fault.errno]


def main(count):
    """The kernel gives numbers below 300 once, and all others again and again."""
    for _ in range(count):
        end(begin())
    first = begin()
    file = os.open(f"/proc/{first}/stat", os.O_RDONLY)
    print("lives", read(file) == str(first), flush=True)
    end(first)
    found = set()
    for _ in range(count):
        child = begin()
        found.add(read(file))
        end(child)
    print("ended", *sorted(found), flush=True)


main(int(sys.argv[1]))
