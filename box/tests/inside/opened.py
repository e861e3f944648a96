"""Opens of /proc that bound where a path may lead, descriptors that are kept, and opens by another user. Each line is
the same in a namespace of the kernel."""
import ctypes
import errno
import os
import signal
import struct
import time

LIBC = ctypes.CDLL(None, use_errno=True)
OPENAT2, PR_SET_NAME = 437, 15
NO_XDEV, NO_MAGICLINKS, NO_SYMLINKS, BENEATH, IN_ROOT = 1, 2, 4, 8, 16
AT_FDCWD = -100


def say(what, *words):
    print(what, *words, flush=True)


def of(function, *words):
    try:
        return function(*words)
    except OSError as fault:
        return errno.errorcode[fault.errno]


def open2(path, flags=0, resolve=0, folder=AT_FDCWD, mode=0, size=24, more=b""):
    """openat2(2): a descriptor, or the name of its errno."""
    how = ctypes.create_string_buffer(struct.pack("QQQ", flags, mode, resolve) + more)
    file = LIBC.syscall(ctypes.c_long(OPENAT2), ctypes.c_long(folder), path.encode(), how, ctypes.c_long(size))
    return errno.errorcode[ctypes.get_errno()] if file < 0 else file


def first(file):
    """The first word of what a descriptor gives, if it is one."""
    if isinstance(file, str):
        return file
    try:
        return os.read(file, 4000).split()[0].decode()
    finally:
        os.close(file)


def sleeper():
    child = os.fork()
    if child == 0:
        time.sleep(100)
        os._exit(0)
    return child


def bounded(child):
    """Each bound, by a path from the root, from /proc, and from its folder."""
    me = str(os.getpid())
    proc, folder = os.open("/proc", os.O_RDONLY), os.open(f"/proc/{child}", os.O_RDONLY)
    for resolve in (0, NO_XDEV, NO_MAGICLINKS, NO_SYMLINKS, BENEATH, IN_ROOT, BENEATH | NO_SYMLINKS,
        NO_XDEV | NO_SYMLINKS):
        say("from the root", resolve, first(open2(f"/proc/{child}/stat", resolve=resolve)) == str(child),
            first(open2("/proc/self/stat", resolve=resolve)) == me,
            open2("/proc/self/stat", resolve=resolve) if resolve & (NO_SYMLINKS | BENEATH) else "")
        say("from /proc", resolve, first(open2(f"{child}/stat", resolve=resolve, folder=proc)) == str(child),
            first(open2("self/stat", 0, resolve, proc)) == me,
            first(open2(f"/{child}/stat", resolve=resolve,
                folder=proc)) == str(child), first(open2("../proc/self/stat", 0, resolve, proc)) == me)
        say("from its folder", resolve, first(open2("stat", resolve=resolve, folder=folder)) == str(child),
            first(open2(f"../{child}/stat", resolve=resolve, folder=folder)) == str(child), first(open2("../stat", 0,
                resolve, folder)) == str(child), first(open2(f"task/{child}/comm", 0, resolve, folder)))
        say("plain files", resolve, first(open2(f"{child}/comm", 0, resolve, proc)),
            first(open2("999/comm", 0, resolve, proc)), first(open2("999/stat", 0, resolve, proc)))
    for flags in (os.O_NOFOLLOW, os.O_DIRECTORY, os.O_CREAT, os.O_CREAT | os.O_EXCL, os.O_CLOEXEC, 1 << 40, os.O_PATH,
        os.O_NOFOLLOW | os.O_PATH):
        found = [open2(f"/proc/{child}/stat", flags), open2("/proc/self", flags), open2("/proc/self/stat", flags,
            NO_MAGICLINKS)]
        say("flags", flags, [it if isinstance(it, str) else "a file" for it in found])
    say("invalid", open2("/proc/self/stat", mode=0o600), open2("/proc/self/stat", resolve=1 << 40),
        open2("/proc/self/stat", size=23), open2("/proc/self/stat", size=5000),
        first(open2("/proc/self/stat", size=32, more=bytes(8))) == me, open2("/proc/self/stat", size=32,
            more=b"\1" + bytes(7)))
    for file in (proc, folder):
        os.close(file)


def state(file, read):
    """What a descriptor of a status says of its name, from its beginning."""
    text = read(file).decode()
    return text.split("\n")[0].partition("\t")[2]


def by_seek(file):
    os.lseek(file, 0, os.SEEK_SET)
    return os.read(file, 4000)


def by_pread(file):
    return os.pread(file, 4000, 0)


def by_preadv(file):
    room = bytearray(4000)
    return bytes(room[:os.preadv(file, [room], 0)])


def by_call(file):
    """By preadv(2) itself: Python takes preadv2(2)."""
    room = ctypes.create_string_buffer(4000)
    part = (ctypes.c_uint64 * 2)(ctypes.addressof(room), 4000)
    size = LIBC.preadv(file, part, 1, ctypes.c_long(0))
    if size < 0:
        raise OSError(ctypes.get_errno(), "preadv")
    return room.raw[:size]


def kept():
    """A descriptor that is kept says what is so when it is read again, and nothing of one that is gone."""
    for read in (by_seek, by_pread, by_preadv, by_call):
        file = os.open("/proc/self/status", os.O_RDONLY)
        names = [state(file, read)]
        for name in (b"another", b"a much longer n", b"short"):
            LIBC.prctl(PR_SET_NAME, name, 0, 0, 0)
            names.append(state(file, read))
        say("kept", read.__name__, names, os.lseek(file, 0, os.SEEK_CUR) > 0 or read != by_seek)
        child = os.fork()
        if child == 0:
            LIBC.prctl(PR_SET_NAME, b"the child", 0, 0, 0)
            say("by a child", state(file, read))
            os._exit(0)
        os.waitpid(child, 0)
        LIBC.prctl(PR_SET_NAME, b"by a copy", 0, 0, 0)
        say("by its copy", state(os.dup(file), read), of(os.write, file, b"x"), of(os.ftruncate, file, 0))
        child = sleeper()
        file = os.open(f"/proc/{child}/stat", os.O_RDONLY)
        before = read(file).split()[0] == str(child).encode()
        os.kill(child, signal.SIGSTOP)
        os.waitpid(child, os.WUNTRACED)
        stopped = read(file).rpartition(b")")[2].split()[0]
        os.kill(child, signal.SIGKILL)
        os.waitid(os.P_PID, child, os.WEXITED | os.WNOWAIT)
        dead = read(file).rpartition(b")")[2].split()[0]
        os.waitpid(child, 0)
        say("of a child", before, stopped, dead, of(read, file), of(os.lseek, file, 0, os.SEEK_SET), of(os.read, file,
            10))
        os.close(file)
    plain = os.open("/dev/zero", os.O_RDONLY)
    say("others", by_seek(plain) == bytes(4000), by_pread(plain) == bytes(4000), of(os.lseek, os.pipe()[0], 0,
        os.SEEK_SET))


def by_empty_path(child):
    """By a folder of /proc, with a flag that asks a descriptor itself; before any was opened, and by a child."""
    room = ctypes.create_string_buffer(256)

    def ask(folder, path):
        found = LIBC.syscall(ctypes.c_long(262), ctypes.c_long(folder), path.encode(), room, ctypes.c_long(0x1000))
        return errno.errorcode[ctypes.get_errno()] if found else struct.unpack_from("Q", room, 8)[0]

    say("a descriptor", ask(0, "") == os.fstat(0).st_ino, ask(0, "x"), ask(-1, ""))
    for path in ("/proc", "/proc/self", f"/proc/{child}/task"):
        folder = os.open(path, os.O_RDONLY | os.O_PATH)
        for name in (str(child), f"task/{child}/stat", "999", "status", ""):
            say("by an empty path", path, name, ask(folder, name) if name == "999" else ask(folder,
                name) in ("ENOENT", os.stat(f"{path}/{name}").st_ino)
                if name and os.path.exists(f"{path}/{name}") or not name else ask(folder, name))
        pid = os.fork()
        if pid == 0:
            say("by a child", ask(folder, str(child)) == (os.stat(f"{path}/{child}").st_ino
                if os.path.exists(f"{path}/{child}") else "ENOENT"))
            os._exit(0)
        os.waitpid(pid, 0)
        os.close(folder)


def other_user():
    """One that becomes another user may read what the kernel lets him read."""
    if os.getuid():
        return
    child = sleeper()
    pid = os.fork()
    if pid == 0:
        os.setgroups([])
        os.setresgid(65534, 65534, 65534)
        os.setresuid(65534, 65534, 65534)
        before = set(os.listdir("/proc/self/fd"))
        files = [of(os.open, f"/proc/{it}/{name}", os.O_RDONLY) for it in ("self", child) for name in ("stat",
            "status", "fdinfo/0")]
        say("another user", [it if isinstance(it, str) else os.read(it, 10).split()[0]
            for it in files[1:3] + files[4:]],
            [os.read(files[it], 100).split()[0] == str(number).encode() for it, number in ((0, os.getpid()),
                (3, child))])
        say("its descriptors", len(set(os.listdir("/proc/self/fd")) - before), [os.get_inheritable(it) for it in files
            if not isinstance(it, str)],
            of(os.write, files[0], b"x"), of(os.open, f"/proc/{child}/stat",
                os.O_WRONLY), first(open2(f"/proc/{child}/stat", 0, NO_MAGICLINKS)) == str(child))
        LIBC.prctl(PR_SET_NAME, b"unprivileged", 0, 0, 0)
        say("kept", state(files[1], by_seek), state(files[1], by_pread))
        os._exit(0)
    say("its end", os.waitpid(pid, 0)[1])
    os.kill(child, signal.SIGKILL)
    os.waitpid(child, 0)


def main():
    child = sleeper()
    by_empty_path(child)
    bounded(child)
    os.kill(child, signal.SIGKILL)
    os.waitpid(child, 0)
    kept()
    other_user()


main()
