"""Calls that the box refuses: each prints its errno. The test looks for each name in the report too."""
import ctypes
import errno
import os
import struct
import threading

LIBC = ctypes.CDLL(None, use_errno=True)
COLUMN = 0 if os.uname().machine == "x86_64" else 1
NUMBERS = {"ptrace": (101, 117), "perf_event_open": (298, 241), "bpf": (321, 280), "userfaultfd": (323, 282), "fanotify_init": (300, 262),
           "io_uring_setup": (425, 425), "setns": (308, 268), "clone": (56, 220), "clone3": (435, 435), "futex": (202,
               98), "ioctl": (16, 29), "prctl": (157, 167), "call 500": (500, 500), "acct": (163, 89),
           "readv": (19, 65), "seccomp": (317, 277), "signalfd4": (289, 74)}
CLONE_PARENT, CLONE_UNTRACED, CLONE_NEWPID, CLONE_CLEAR_SIGHAND, SIGCHLD = 0x8000, 0x800000, 0x20000000, 1 << 32, 17


def call(name, *words):
    ctypes.set_errno(0)
    words = [ctypes.c_long(it) if isinstance(it, int) else it for it in words]
    LIBC.syscall(ctypes.c_long(NUMBERS[name][COLUMN]), *words)
    return errno.errorcode.get(ctypes.get_errno(), "none")


def main():
    word = (ctypes.c_uint32 * 16)()
    pidfd = os.pidfd_open(os.getpid())
    namespace = os.open("/proc/self/ns/pid", os.O_RDONLY)
    mask = ctypes.c_uint64(1 << 9)
    signals = LIBC.syscall(ctypes.c_long(NUMBERS["signalfd4"][COLUMN]), ctypes.c_long(-1), ctypes.byref(mask), ctypes.c_long(8), ctypes.c_long(0))
    clears = (ctypes.c_uint64 * 11)(CLONE_CLEAR_SIGHAND)
    asked = [
        ("ptrace", 16, os.getppid(), 0, 0), ("perf_event_open", word, 0, -1, -1, 0), ("bpf", 0, word, 16), ("userfaultfd", 0),
        ("fanotify_init", 0, 0), ("io_uring_setup", 4, word), ("acct", 0), ("seccomp", 1, 8, word), ("call 500",), ("readv", signals, word, 0),
        ("setns", namespace, CLONE_NEWPID), ("setns", pidfd, 0), ("clone", CLONE_PARENT | SIGCHLD, 0, 0, 0, 0), ("clone", CLONE_UNTRACED | SIGCHLD, 0, 0, 0, 0),
        ("clone3", clears, 88), ("prctl", 62, 0, 0, 0, 0),
        *(("futex", word, operation, 0, 0, 0, 0) for operation in (6, 7, 8, 11, 12, 13, 128 + 6)),
        ("ioctl", pidfd, 0xC000FF0B, word), ("ioctl", namespace, 0x8004B706, 1),
    ]
    for name, *words in asked:
        print(name, call(name, *words), flush=True)


main()
