"""Control groups by their files, below a folder that is one: each line says what they answer. Words: the folder."""
import contextlib
import ctypes
import errno
import os
import socket
import struct
import subprocess
import sys
import threading
import time

NAMES = {"cgroup.procs", "pids.max", "pids.current"}


def of(function, *words, **more):
    try:
        return function(*words, **more)
    except OSError as fault:
        return errno.errorcode[fault.errno]


def read(path):
    with open(path, encoding="ascii") as text:
        return text.read().strip()


def tasks(group):
    return sorted(int(it) for it in read(f"{group}/cgroup.procs").split() if it != "0")


def write(path, text, flags=0):
    """What one write(2) of a file that is opened for it answers, and its size is ok."""
    with contextlib.closing(os.fdopen(os.open(path, os.O_WRONLY | flags), "wb", buffering=0)) as file:
        answer = of(os.write, file.fileno(), text)
        return "ok" if answer == len(text) else answer


def tell(what, *answers):
    print(what, *answers, flush=True)


def fork_many(limit):
    """How many children there are before one is refused, and by what."""
    children, answer = [], None
    while answer is None and len(children) < limit:
        child = of(os.fork)
        if child == 0:
            time.sleep(100)
        elif isinstance(child, int):
            children.append(child)
        else:
            answer = child
    return children, answer


def end(children):
    for child in children:
        os.kill(child, 9)
        os.waitpid(child, 0)


def made(group):
    tell("a new group", sorted(NAMES & set(os.listdir(group))), oct(os.stat(f"{group}/pids.max").st_mode & 0o777),
        oct(os.stat(f"{group}/pids.current").st_mode & 0o777))
    tell("is empty", tasks(group), read(f"{group}/pids.max"), read(f"{group}/pids.current"))
    tell("of no name", of(os.mkdir, f"{group}/a/b"), "made twice", of(os.mkdir, group), "of two lines", of(os.mkdir, f"{group}/a\nb"))


def moved(group, around):
    """The writer goes there, and so do those whom it begins."""
    tell("moved", write(f"{group}/cgroup.procs", b"0"), tasks(group) == [os.getpid()], os.getpid() in tasks(around))
    tell("its path", path_of("self", around))
    child = subprocess.Popen(["sleep", "100"])
    tell("a child is there", tasks(group) == [os.getpid(), child.pid], read(f"{group}/pids.current"))
    tell("moved by its number", write(f"{around}/cgroup.procs", b" %d \n" % child.pid), tasks(group) == [os.getpid()])
    tell("and back", write(f"{group}/cgroup.procs", b"0x%x" % child.pid), tasks(group) == [os.getpid(), child.pid])
    tell("its path too", path_of(child.pid, around))
    child.kill()
    time.sleep(0.2)
    tell("an ended one counts, and is not shown", tasks(group) == [os.getpid()], read(f"{group}/pids.current"))
    child.wait()
    tell("until it is waited for", read(f"{group}/pids.current"))


def path_of(process, around):
    """The path of its group, below the folder: the kernel has all hierarchies, and begins at their roots."""
    paths = [it.split(":", 2)[2] for it in read(f"/proc/{process}/cgroup").splitlines()]
    return [it.removeprefix("/" + os.path.basename(around)) for it in paths if it.endswith("/one")]


def limited(group):
    """A fork above the limit is EAGAIN, also one that a group around it sets."""
    inner = f"{group}/inner"
    tell("limited", write(f"{group}/pids.max", b"3\n"), read(f"{group}/pids.max"))
    children, answer = fork_many(10)
    tell("forks", len(children), answer, read(f"{group}/pids.current"))
    tell("a limit below", write(f"{group}/pids.max", b"1"), read(f"{group}/pids.current"), of(os.fork))
    end(children)
    tell("inside", of(os.mkdir, inner), write(f"{group}/pids.max", b"2"), write(f"{inner}/cgroup.procs", b"0"), read(f"{inner}/pids.max"))
    children, answer = fork_many(10)
    tell("forks inside", len(children), answer, read(f"{inner}/pids.current"), read(f"{group}/pids.current"), tasks(group))
    end(children)
    tell("no limit", write(f"{group}/pids.max", b" max "), read(f"{group}/pids.max"), write(f"{group}/cgroup.procs", b"0"), tasks(inner))


def removed(group, around):
    inner, other = f"{group}/inner", f"{around}/other"
    tell("a parent is busy", of(os.rmdir, group), of(os.rmdir, inner))
    tell("a busy one", of(os.rmdir, group), tasks(group) == [os.getpid()])
    tell("not there", of(os.rmdir, inner), of(os.mkdir, f"{inner}/deep"), of(read, f"{inner}/pids.max"))
    folder = os.open(around, os.O_RDONLY | os.O_DIRECTORY)
    tell("at a folder", of(os.mkdir, "other", dir_fd=folder), sorted(NAMES & set(os.listdir(other))), of(os.rmdir, "other/", dir_fd=folder),
        os.path.exists(other))
    os.chdir(group)
    tell("from there", of(os.mkdir, "./below//"), sorted(NAMES & set(os.listdir("below"))), of(os.rmdir, "below/../below"), os.listdir(".").count("below"))
    os.chdir("/")
    os.close(folder)


def refused(group):
    """What the files do not take, and that nothing has changed by it."""
    for text in (b"x", b"-1", b"", b"1 2", b"99999999999", b"4000000", b"0\0x", b" " * 4096, b"0" + b" " * 4096):
        tell("procs", text[:12], len(text), write(f"{group}/cgroup.procs", text))
    for text in (b"x", b"-1", b"4194305", b"4194304", b"0x10", b"010", b"99999999999999999999", b"max\0x", b"maxi", b"7 8"):
        tell("max", text, write(f"{group}/pids.max", text), read(f"{group}/pids.max"))
    tell("current", oct(os.stat(f"{group}/pids.current").st_mode & 0o222), tasks(group) == [os.getpid()])


def pwritev(file, text):
    """As a C program calls it: Python makes it pwritev2(2)."""
    room = ctypes.create_string_buffer(text)
    return ctypes.CDLL(None).pwritev(file, struct.pack("PN", ctypes.addressof(room), len(text)), 1, ctypes.c_long(0))


def ways(group, around):
    """Other ways to write: other calls and descriptors, and other programs."""
    child, path = subprocess.Popen(["sleep", "100"]), f"{around}/cgroup.procs"
    number, file = b"%d" % child.pid, os.open(path, os.O_WRONLY | os.O_APPEND | os.O_CREAT | os.O_TRUNC, 0o600)

    def back(what, answer):
        tell(what, answer, child.pid in tasks(group), write(f"{group}/cgroup.procs", number))

    back("pwrite", of(os.pwrite, file, number, 5) == len(number))
    back("writev", of(os.writev, file, [number[:1], b"", number[1:]]) == len(number))
    back("pwritev2", of(os.pwritev, file, [number], 3) == len(number))
    back("pwritev", pwritev(file, number) == len(number))
    back("a duplicate", of(os.write, os.dup(file), number) == len(number))
    back("a shell", subprocess.run(["sh", "-c", f"echo {child.pid} > {path}"], check=False).returncode)
    back("bash", subprocess.run(["bash", "-c", f"exec 7>>{path}; echo {child.pid} >&7"], check=False).returncode)
    back("cat", subprocess.run(["sh", "-c", f"echo {child.pid} > $HOME/number; cat $HOME/number > {path}"], check=False).returncode)
    back("an heir", subprocess.run(["sh", "-c", f"echo {child.pid} >&{file}"], pass_fds=[file], check=False).returncode)
    both = os.open(path, os.O_RDWR)
    back("for both", of(os.write, both, number) == len(number))
    os.symlink(path, f"{os.environ['HOME']}/link")
    back("a link", write(f"{os.environ['HOME']}/link", number))
    tell("not for writing", of(os.write, os.open(path, os.O_RDONLY), number), of(os.write, os.open(path, os.O_PATH), number), child.pid in tasks(group))
    child.kill()
    child.wait()


def read_again(group):
    """A descriptor that is kept says what is so when it is read from its beginning."""
    file = os.open(f"{group}/pids.current", os.O_RDONLY)
    before = os.read(file, 10)
    child = subprocess.Popen(["sleep", "100"])
    tell("read again", before, os.read(file, 10), os.pread(file, 10, 0), os.lseek(file, 0, 0), os.read(file, 10))
    child.kill()
    child.wait()


NESTED = """
import os, signal, sys
group, around = sys.argv[1:]
numbers = lambda: sorted(int(it) for it in open(f"{group}/cgroup.procs").read().split() if it != "0")
child = os.fork()
if child == 0:
    signal.pause()
print("inside", os.getpid(), child, numbers() == [1, 2], flush=True)
print("moved inside", open(f"{around}/cgroup.procs", "w").write("2"), numbers(), open(f"{group}/cgroup.procs", "w").write("2"), numbers(), flush=True)
os.kill(child, 9), os.wait()
"""


def nested(group, around):
    """Who is in a namespace inside has its numbers; the number of one outside is nobody's there."""
    subprocess.run(["unshare", "--pid", "--fork", sys.executable, "-c", NESTED, group, around], check=False)


def as_nobody(act):
    """What a child that is nobody does; the answer is its own to tell."""
    child = os.fork()
    if child == 0:
        os.setresuid(65534, 65534, 65534)
        act()
        os._exit(0)
    os.waitpid(child, 0)


def others(around):
    """Another user makes and removes groups in a folder that is his, and has their files."""
    own = f"{around}/others"
    tell("root makes one", of(os.mkdir, own))
    as_nobody(lambda: tell("nobody may not", of(os.mkdir, f"{own}/in"), of(os.rmdir, own), of(write, f"{own}/pids.max", b"5"), read(f"{own}/pids.max")))
    os.chown(own, 65534, 65534)
    as_nobody(lambda: tell("nobody makes one", of(os.mkdir, f"{own}/in"), os.stat(f"{own}/in/pids.max").st_uid, write(f"{own}/in/pids.max", b"5"),
        read(f"{own}/in/pids.max"), of(os.rmdir, f"{own}/in"), of(os.rmdir, own)))
    tell("root removes it", of(os.rmdir, own))


def received(group):
    """A process that has opened no such file gets one by a message: what it writes goes nowhere."""
    one, other = socket.socketpair()
    child = os.fork()
    if child == 0:
        os.write(socket.recv_fds(one, 1, 1)[1][0], b"7")
        os._exit(0)
    socket.send_fds(other, [b"x"], [os.open(f"{group}/pids.max", os.O_WRONLY)])
    os.waitpid(child, 0)
    return read(f"{group}/pids.max") == "max"


def unlike(around):
    """What is another thing than in the kernel's file system, as the page has it."""
    group, other = f"{around}/one", f"{around}/two"
    os.mkdir(group)
    tell("received", received(group))
    write(f"{group}/cgroup.procs", b"0")
    thread = threading.Thread(target=time.sleep, args=(0.2,))
    thread.start()
    tell("a thread does not count", read(f"{group}/pids.current") == "1")
    thread.join()
    child = subprocess.Popen(["true"])
    time.sleep(0.2)
    tell("an ended one is not moved", write(f"{group}/cgroup.procs", b"%d" % child.pid) == "ESRCH")
    os.rename(group, other)
    tell("renamed", path_of("self", around) == ["/one"])
    os.rename(other, group)
    os.unlink(f"{group}/pids.current")
    tell("unlinked", not os.path.exists(f"{group}/pids.current"))
    tell("no other files", sorted(os.listdir(around)) == ["cgroup.procs", "one"])


def main(around):
    """The last group goes when its last member has gone."""
    group = f"{around}/one"
    if sys.argv[2:]:
        {"others": others, "unlike": unlike}[sys.argv[2]](around)
        return
    tell("made", of(os.mkdir, group))
    made(group)
    moved(group, around)
    limited(group)
    removed(group, around)
    refused(group)
    ways(group, around)
    read_again(group)
    nested(group, around)
    tell("left", write(f"{around}/cgroup.procs", b"0"), of(os.rmdir, group), os.path.exists(group))


main(sys.argv[1])
