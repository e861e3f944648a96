"""Lives that meet the planted faults: each asks for what the fault gets wrong, and takes its time."""
import ctypes
import os
import sys
import time

LIBC = ctypes.CDLL(None, use_errno=True)
NEW_PID, SUBREAPER = 0x20000000, 36


def child_of(life):
    child = os.fork()
    if child == 0:
        life()
        os._exit(0)
    return child


def rest():
    time.sleep(0.3)


def orphan_of(parent_life):
    """A child whose parent ends: it asks for its parent, and so does the state."""
    def orphan():
        rest()
        os.getppid()
        rest()

    def parent():
        child_of(orphan)

    os.waitpid(child_of(parent), 0)
    parent_life()


def groups():
    def leader():
        os.setpgid(0, 0)
        os.getpgid(0)
        rest()

    def session():
        os.setsid()
        os.getsid(0)
        rest()

    def member():
        os.setsid()
        child_of(lambda: (os.setpgid(0, 0), os.getsid(0), os.getpid(), rest()))
        rest()

    children = [child_of(life) for life in (leader, session, member)]
    for child in children:
        os.getpgid(child)
        os.waitpid(child, 0)


def executed():
    child = os.fork()
    if child == 0:
        os.execv("/bin/sleep", ["sleep", "0.5"])
    rest()
    try:
        os.setpgid(child, child)
    except OSError:
        pass
    os.waitpid(child, 0)


def waits():
    children = [child_of(lambda: None) for _ in range(3)]
    rest()
    for child in reversed(children):
        os.waitpid(child, 0)


def orphan():
    LIBC.prctl(SUBREAPER, 1, 0, 0, 0)
    orphan_of(lambda: os.waitpid(-1, 0))


def nested():
    LIBC.unshare(NEW_PID)
    os.waitpid(child_of(lambda: orphan_of(lambda: os.waitpid(-1, 0))), 0)


def main():
    life = {"groups": groups, "executed": executed, "waits": waits, "orphan": orphan, "nested": nested}[sys.argv[1]]
    os.waitpid(child_of(life), 0)


main()
