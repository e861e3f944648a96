"""Numbers that pass the box unseen, as the page has them: each line says whether the number is another one than the program's."""
import ctypes
import fcntl
import mmap
import os
import re
import signal
import socket
import struct
import subprocess
import sys
import tempfile
import threading
import time

LIBC = ctypes.CDLL(None, use_errno=True)
X86 = os.uname().machine == "x86_64"
SIGNALFD4, CLONE, TIMER_CREATE, MSGGET, MSGSND, MSGCTL, SET_ROBUST_LIST = ((289, 56, 222, 68, 69, 71, 273) if X86
    else (74, 220, 107, 186, 189, 187, 99))


def call(number, *words):
    return LIBC.syscall(ctypes.c_long(number), *[ctypes.c_long(it) if isinstance(it, int) else it for it in words])


def read(path):
    with open(path, encoding="utf-8") as text:
        return text.read()


def duplicated_signalfd():
    mask = ctypes.c_uint64(1 << (signal.SIGUSR1 - 1))
    file = os.dup(call(SIGNALFD4, -1, ctypes.byref(mask), 8, 0))
    os.kill(os.getpid(), signal.SIGUSR1)
    return struct.unpack_from("IiiI", os.read(file, 128))[3]


def current_folder():
    os.chdir("/proc/self")
    found = os.getcwd()
    os.chdir("/")
    return int(re.search(r"\d+", found)[0])


def link_of_descriptor():
    return int(re.search(r"\d+", os.readlink(f"/proc/self/fd/{os.open('/proc/self', os.O_RDONLY)}"))[0])


def last_number():
    return int(read("/proc/loadavg").split()[-1])


def locks():
    file = tempfile.TemporaryFile()
    fcntl.lockf(file, fcntl.LOCK_EX)
    node = os.fstat(file.fileno()).st_ino
    return int(next(line for line in read("/proc/locks").splitlines() if f":{node} " in line).split()[4])


def system_v():
    queue = call(MSGGET, 0, 0o1600)
    call(MSGSND, queue, struct.pack("l", 1) + b"x", 1, 0)
    found = next(line.split() for line in read("/proc/sysvipc/msg").splitlines()[1:] if int(line.split()[1]) == queue)
    call(MSGCTL, queue, 0, None)
    return int(found[5])


def timers():
    event, timer = struct.pack("QiiI", 0, signal.SIGUSR1, 0, 0).ljust(64, b"\0"), ctypes.c_int()
    call(TIMER_CREATE, 1, event, ctypes.byref(timer))
    return int(re.search(r"notify: \S+?\.(\d+)", read("/proc/self/timers"))[1])


def scheduler():
    return int(re.search(r"\((\d+),", read("/proc/self/sched"))[1])


def netlink():
    port = socket.socket(socket.AF_NETLINK, socket.SOCK_RAW)
    port.bind((0, 0))
    return port.getsockname()[0]


def netlink_ports():
    port = socket.socket(socket.AF_NETLINK, socket.SOCK_RAW)
    port.bind((0, 0))
    return port.getsockname()[0] if str(port.getsockname()[0]) in read("/proc/net/netlink").split() else os.getpid()


def thread_by_clone():
    """A thread that shares all, and waits for good: it is never begun, since the process is in a child that ends."""
    told, tell = os.pipe()
    child = os.fork()
    if child == 0:
        stack = ctypes.create_string_buffer(1 << 16)
        words = ctypes.c_long(0x10000 | 0x800 | 0x200 | 0x400 | 0x100 | 0x100000)  # with CLONE_PARENT_SETTID
        own = ctypes.c_int(0)
        # Its stack is full of the address of pause(2).
        pause = ctypes.cast(LIBC.pause, ctypes.c_void_p).value
        ctypes.memmove(stack, struct.pack("Q", pause) * (1 << 13), 1 << 16)
        result = LIBC.syscall(ctypes.c_long(CLONE), words, ctypes.c_void_p(ctypes.addressof(stack) + (1 << 15)), ctypes.byref(own), None, None)
        os.write(tell, struct.pack("ii", result, own.value))
        os.kill(os.getpid(), signal.SIGKILL)
    result, own = struct.unpack("ii", os.read(told, 8))
    os.waitpid(child, 0)
    return os.getpid() if result == own else result


def by_link():
    """A link into /proc from elsewhere: the number is nobody's of the kernel's, or another's."""
    folder = tempfile.mkdtemp()
    os.symlink("/proc/self/stat", f"{folder}/link")
    return int(read(f"{folder}/link").split()[0])


def attributes():
    """The call takes the kernel's number: the program's own is nobody's, or another's."""
    return os.getpid() if os.listxattr(f"/proc/{os.getpid()}/exe") == [] else 0


def truncated():
    os.truncate(f"/proc/{os.getpid()}/comm", 0)
    return os.getpid()


def executed():
    return os.getpid() if subprocess.run([f"/proc/{os.getpid()}/exe", "-c", ""], check=False).returncode == 0 else 0


def undumpable():
    """Its memory may not be read by another of its user."""
    pid = os.fork()
    if pid == 0:
        LIBC.prctl(4, 0, 0, 0, 0)
        left, _ = socket.socketpair()
        os._exit(struct.unpack("3i", left.getsockopt(socket.SOL_SOCKET, socket.SO_PEERCRED, 12))[0] != os.getpid())
    return os.getpid() if os.waitpid(pid, 0)[1] == 0 else 0


def limit():
    """That of the table is 1000 here."""
    return os.getpid() if read("/proc/sys/kernel/pid_max") == "1000\n" else 0


def call_of_32_bits():
    """getpid(2) as a program of 32 bits makes it."""
    if not X86:
        return -1
    code = mmap.mmap(-1, 4096, prot=mmap.PROT_READ | mmap.PROT_WRITE | mmap.PROT_EXEC)
    code.write(b"\xb8\x14\0\0\0\xcd\x80\xc3")
    return ctypes.CFUNCTYPE(ctypes.c_int)(ctypes.addressof(ctypes.c_char.from_buffer(code)))()


def setuid_gains():
    return 0 if "NoNewPrivs:\t1\n" in read("/proc/self/status") else os.getpid()


def by_dots():
    return int(read("/usr/../proc/self/stat").split()[0])


def type_of_file():
    """fstatfs(2) of a file of /proc."""
    room = ctypes.create_string_buffer(256)
    LIBC.fstatfs(os.open("/proc/self/stat", os.O_RDONLY), room)
    return os.getpid() if struct.unpack_from("q", room)[0] == 0x9fa0 else 0


def received_file():
    """A process that began before its parent had opened anything of /proc gets such a file, and reads it twice."""
    words = [sys.executable, "-c", RECEIVED]
    return os.getpid() if subprocess.run(words, check=False).returncode == 0 else 0


RECEIVED = """
import ctypes, os, socket, sys
one, other = socket.socketpair()
child = os.fork()
if child == 0:
    file = socket.recv_fds(one, 1, 1)[1][0]
    before = os.pread(file, 100, 0)
    ctypes.CDLL(None).prctl(15, b'a name', 0, 0, 0)
    other.send(b'x'), one.recv(1)
    os._exit(os.pread(file, 100, 0) == before)
socket.send_fds(other, [b'x'], [os.open(f'/proc/{child}/status', os.O_RDONLY)])
sys.exit(os.waitpid(child, 0)[1] and 1)
"""


def marked(at, end):
    """Whether the lock at an address is marked behind a process that has it in its list, and ends so."""
    child = os.fork()
    if child == 0:
        head, entry = ctypes.create_string_buffer(24), ctypes.create_string_buffer(8)
        heads, entries = ctypes.addressof(head), ctypes.addressof(entry)
        ctypes.memmove(head, struct.pack("QqQ", entries, at - entries, 0), 24)
        ctypes.memmove(entry, struct.pack("Q", heads), 8)
        call(SET_ROBUST_LIST, head, 24)
        ctypes.c_uint32.from_address(at).value = os.getpid()
        end()
    os.waitpid(child, 0)
    return os.getpid() if ctypes.c_uint32.from_address(at).value >> 30 & 1 else 0


def lock_by_mprotect():
    """Memory that was shared for reading, and is written later; this program shares none up to here."""
    LIBC.mmap.restype = ctypes.c_void_p
    at = LIBC.mmap(None, ctypes.c_size_t(4096), mmap.PROT_READ, mmap.MAP_SHARED | mmap.MAP_ANONYMOUS, -1,
        ctypes.c_long(0))
    LIBC.mprotect(ctypes.c_void_p(at), ctypes.c_size_t(4096), mmap.PROT_READ | mmap.PROT_WRITE)
    return marked(at, lambda: os._exit(0))


def lock_through_execution():
    shared = mmap.mmap(-1, 4096)
    return marked(ctypes.addressof(ctypes.c_char.from_buffer(shared)), lambda: os.execv("/bin/true", ["true"]))


def socket_from_outside():
    """One that has SO_PASSCRED from outside, and comes by a message: what it hands over is the kernel's number."""
    outside = socket.socket(socket.AF_UNIX)
    outside.connect(os.environ["SOCKET"])
    files = socket.recv_fds(outside, 1, 2)[1]
    one, other = (socket.socket(fileno=it) for it in files)
    other.send(b"x")
    return struct.unpack("3i", one.recvmsg(1, 100)[1][0][2])[0]


def mounted():
    """A /proc that the program mounts."""
    words = ["unshare", "-m", "sh", "-c", "mount -t proc proc /mnt && exec cut -d ' ' -f 4 /mnt/self/stat"]
    return int(subprocess.run(words, capture_output=True, text=True, check=False).stdout or 0)


INNER = """
import os, signal
leader = os.fork()
if leader == 0:
    os.setpgid(0, 0)
    signal.pause()
while os.getpgid(leader) != leader:
    pass
print("ready", flush=True)
input()
os.kill(leader, signal.SIGKILL)
os.waitpid(leader, 0)
try:
    os.kill(-leader, 0)
    print("found", flush=True)
except ProcessLookupError:
    print("not found", flush=True)
"""


def group_without_leader():
    """In a namespace inside, a group whose leader is gone, and whose only member is outside."""
    inside = subprocess.Popen(["unshare", "--pid", "--fork", sys.executable, "-c", INNER], stdin=subprocess.PIPE, stdout=subprocess.PIPE, text=True)
    inside.stdout.readline()
    number = inside.pid
    for _ in range(2):
        number = int(read(f"/proc/{number}/task/{number}/children"))
    member = os.fork()
    if member == 0:
        os.setpgid(0, number)
        signal.pause()
    while os.getpgid(member) != number:
        pass
    inside.stdin.write("\n")
    inside.stdin.flush()
    found = inside.stdout.readline()
    os.kill(member, signal.SIGKILL)
    os.waitpid(member, 0)
    inside.wait() # the kernel keeps its init as long as a number inside is used
    return os.getpid() if found == "found\n" else 0


ASKED = (
    last_number, socket_from_outside, lock_by_mprotect, lock_through_execution, received_file, type_of_file,
    by_dots, setuid_gains, call_of_32_bits, duplicated_signalfd, current_folder, link_of_descriptor, locks,
    system_v, timers, scheduler, netlink, netlink_ports, thread_by_clone, by_link, attributes, truncated, executed,
    undumpable, limit,
)


def main():
    """As another process than the first ones, which have numbers that are the kernel's too."""
    signal.pthread_sigmask(signal.SIG_BLOCK, {signal.SIGUSR1})
    while os.getpid() < 5 and (child := os.fork()):
        os._exit(os.waitpid(child, 0)[1] and 1)
    for asked in (mounted, group_without_leader) if os.getuid() == 0 else ASKED:
        try:
            print(asked.__name__, asked() != os.getpid(), flush=True)
        except OSError:
            print(asked.__name__, True, flush=True)
    print("namespaces", os.readlink("/proc/self/ns/pid") == os.environ["OUTSIDE"], flush=True)


main()
