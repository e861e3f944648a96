"""Calls that carry identifiers: what each says of processes that the caller knows. Each line is the same in a namespace of the kernel."""
import array
import ctypes
import errno
import fcntl
import os
import pty
import resource
import signal
import socket
import struct
import termios
import threading
import time

TIOCGSID = 0x5429
LIBC = ctypes.CDLL(None, use_errno=True)
X86 = os.uname().machine == "x86_64"
NUMBERS = {"sched_setattr": (314, 274), "sched_getattr": (315, 275), "kcmp": (312, 272), "process_vm_readv": (310, 270), "tgkill": (234, 131),
           "ioprio_get": (252, 31), "ioprio_set": (251, 30), "semctl": (66, 191), "semget": (64, 190), "msgctl": (71, 187), "msgget": (68, 186),
           "msgsnd": (69, 189), "shmctl": (31, 195), "shmget": (29, 194), "shmat": (30, 196), "timer_create": (222, 107), "timer_settime": (223, 110),
           "prctl": (157, 167), "sendmmsg": (307, 269), "clone3": (435, 435), "capget": (125, 90), "signalfd4": (289, 74)}


def call(name, *words):
    """A system call by its name: its result, or the name of its errno."""
    words = [ctypes.c_long(it) if isinstance(it, int) else it for it in words]
    result = LIBC.syscall(NUMBERS[name][0 if X86 else 1], *words)
    return errno.errorcode[ctypes.get_errno()] if result < 0 else result


def of(function, *words):
    """A function's result, or the name of its errno."""
    try:
        return function(*words)
    except OSError as fault:
        return errno.errorcode[fault.errno]


def say(what, *words):
    print(what, *words, flush=True)


def sleeper():
    """A child that sleeps."""
    child = os.fork()
    if child == 0:
        time.sleep(100)
        os._exit(0)
    return child


def scheduling(child):
    size = 48
    attributes = ctypes.create_string_buffer(size)
    for pid in (0, child, os.getpid(), 999):
        say("sched_getattr", call("sched_getattr", pid, attributes, size, 0))
        struct.pack_into("IIQiI", attributes, 0, size, 0, 0, 5, 0)
        say("sched_setattr", call("sched_setattr", pid, attributes, 0), of(os.getpriority, os.PRIO_PROCESS, pid))
        say("affinity", of(os.sched_getaffinity, pid) == os.sched_getaffinity(0), of(os.sched_getscheduler, pid))
        say("parameters", of(lambda: os.sched_getparam(pid).sched_priority), of(os.sched_rr_get_interval, pid) in ("ESRCH",))
    say("setaffinity", of(os.sched_setaffinity, child, os.sched_getaffinity(child)), of(os.sched_setaffinity, 999, {0}))
    say("priority", of(os.setpriority, os.PRIO_PROCESS, child, 7), of(os.getpriority, os.PRIO_PROCESS, child), of(os.getpriority, os.PRIO_PGRP, os.getpgrp()))
    say("ioprio", call("ioprio_set", 1, child, (2 << 13) | 3) == 0, call("ioprio_get", 1, child) & 7, call("ioprio_get", 1, 999))


def memory_and_limits(child):
    say("prlimit", of(resource.prlimit, child, resource.RLIMIT_CORE) == resource.getrlimit(resource.RLIMIT_CORE), of(lambda: resource.prlimit(999, 0)))
    word = ctypes.c_uint64(0)
    local = (ctypes.c_uint64 * 2)(ctypes.addressof(word), 8)
    for pid in (child, os.getpid(), 999):
        value = ctypes.c_uint64(7)
        remote = (ctypes.c_uint64 * 2)(ctypes.addressof(value), 8)
        result = call("process_vm_readv", pid, local, 1, remote, 1, 0)
        say("process_vm_readv", result if pid != child else result in (8, "EFAULT", "EPERM"))
    say("kcmp", call("kcmp", os.getpid(), child, 1, 0, 0) != 0, call("kcmp", os.getpid(), os.getpid(), 1, 0, 0), call("kcmp", os.getpid(), 999, 1, 0, 0))
    header = ctypes.create_string_buffer(struct.pack("Ii", 0x20080522, child))
    say("capget", call("capget", header, ctypes.create_string_buffer(24)), struct.unpack("Ii", header.raw[:8])[1] == child)


def sockets():
    left, right = socket.socketpair(socket.AF_UNIX, socket.SOCK_DGRAM)
    right.setsockopt(socket.SOL_SOCKET, socket.SO_PASSCRED, 1)
    me = (os.getpid(), os.getuid(), os.getgid())
    of_me = [(socket.SOL_SOCKET, socket.SCM_CREDENTIALS, struct.pack("3i", *me))]
    say("SCM_CREDENTIALS sent", left.sendmsg([b"a"], of_me), of(left.sendmsg, [b"b"], [(socket.SOL_SOCKET, socket.SCM_CREDENTIALS, struct.pack("3i", 999, *me[1:]))]) in ("ESRCH", "EPERM"))
    _, control, _, _ = right.recvmsg(10, 100)
    say("SCM_CREDENTIALS received", struct.unpack("3i", control[0][2]) == me)
    child = os.fork()
    if child == 0:
        left.send(b"c")
        os._exit(0)
    _, control, _, _ = right.recvmsg(10, 100)
    say("SCM_CREDENTIALS of a child", struct.unpack("3i", control[0][2])[0] == child)
    os.waitpid(child, 0)
    left.send(b"d")
    say("SCM_CREDENTIALS cut", [struct.unpack("i", it[2][:4])[0] == os.getpid() for it in right.recvmsg(10, 20)[1]])
    say("SO_PEERCRED", struct.unpack("3i", left.getsockopt(socket.SOL_SOCKET, socket.SO_PEERCRED, 12)) == me)


def many_messages(count, shared):
    """Credentials of more messages than a few, by one call; they may be the same bytes for all."""
    left, right = socket.socketpair(socket.AF_UNIX, socket.SOCK_DGRAM)
    right.setsockopt(socket.SOL_SOCKET, socket.SO_PASSCRED, 1)
    me = (os.getpid(), os.getuid(), os.getgid())
    credentials = struct.pack("Qii3iI", 28, socket.SOL_SOCKET, socket.SCM_CREDENTIALS, *me, 0)
    controls = ctypes.create_string_buffer(credentials * count)
    byte = ctypes.create_string_buffer(b"m")
    part = ctypes.create_string_buffer(struct.pack("QQ", ctypes.addressof(byte), 1))
    heads = b"".join(struct.pack("QQQQQQii", 0, 0, ctypes.addressof(part), 1, ctypes.addressof(controls) + (0 if shared else i * 32), 32, 0, 0) + bytes(8)
                     for i in range(count))
    sent = call("sendmmsg", left.fileno(), ctypes.create_string_buffer(heads), count, socket.MSG_DONTWAIT)
    found = [struct.unpack("3i", right.recvmsg(10, 100, socket.MSG_DONTWAIT)[1][0][2]) == me for _ in range(sent)]
    say("SCM_CREDENTIALS of many", sent, all(found), controls.raw[:32 * count] == credentials * count)


SETTID, PIDFD, CHILD_SETTID, THREAD = 0x100000, 0x1000, 0x1000000, 0x10000


def clone3(size=88, more=b"", **words):
    """The call with these fields, all others 0."""
    names = ("flags", "pidfd", "child_tid", "parent_tid", "exit_signal", "stack", "stack_size", "tls", "set_tid", "set_tid_size", "cgroup")
    fields = struct.pack("11Q", *(words.get(it, 0) for it in names)) + more
    return call("clone3", ctypes.create_string_buffer(fields), size)


def cloned():
    """Children by clone3, and what it refuses."""
    told, own, descriptor = ctypes.c_int(0), ctypes.c_int(0), ctypes.c_int(-1)
    at = ctypes.addressof
    child = clone3(exit_signal=signal.SIGCHLD, flags=SETTID | CHILD_SETTID | PIDFD, parent_tid=at(told), child_tid=at(own), pidfd=at(descriptor))
    if child == 0:
        os._exit(0 if own.value == os.getpid() else 1)
    with open(f"/proc/self/fdinfo/{descriptor.value}", encoding="ascii") as lines:
        said = dict(line.split(":\t") for line in lines)
    say("clone3", told.value == child, own.value, int(said["Pid"]) == child, os.waitpid(child, 0) == (child, 0))
    os.close(descriptor.value)
    child = clone3(size=64)
    if child == 0:
        os._exit(7)
    say("clone3 without a signal", of(os.waitpid, child, 0), os.waitpid(child, -0x80000000) == (child, 7 << 8))
    say("posix_spawn", os.waitpid(os.posix_spawn("/bin/sh", ["sh", "-c", "exit 3"], {}), 0)[1])
    say("clone3 of a size", clone3(size=63), clone3(size=4097), clone3(size=96, more=b"1234567\0"), call("clone3", 0, 64))
    say("clone3 of what cannot be", [clone3(**it) for it in (
        {"flags": 1 << 40}, {"stack": 4096}, {"stack_size": 4096}, {"exit_signal": 65}, {"flags": THREAD}, {"set_tid_size": 1}, {"set_tid": 8},
        {"set_tid": 8, "set_tid_size": 33}, {"flags": 17}, {"flags": THREAD, "exit_signal": 17})])


def nobody():
    """Numbers that nobody has, at their bounds."""
    say("clock of nobody", [of(time.clock_gettime, (~999 << 3) | bits) for bits in (0, 1, 2, 4, 6)])
    for pid in (-(1 << 31), -(1 << 31) + 1, (1 << 31) - 1, -999):
        say("wait and kill", LIBC.waitpid(pid, None, 0), errno.errorcode[ctypes.get_errno()], LIBC.kill(pid, 0), errno.errorcode[ctypes.get_errno()])


def gone_sender():
    """A message whose sender is gone."""
    left, right = socket.socketpair(socket.AF_UNIX, socket.SOCK_DGRAM)
    right.setsockopt(socket.SOL_SOCKET, socket.SO_PASSCRED, 1)
    child = os.fork()
    if child == 0:
        left.send(b"d")
        os._exit(0)
    os.waitpid(child, 0)
    _, control, _, _ = right.recvmsg(10, 100)
    say("SCM_CREDENTIALS of one that is gone", struct.unpack("3i", control[0][2])[0] == child, of(os.kill, child, 0))


def stat(pid):
    """Its parent, group and session."""
    with open(f"/proc/{pid}/stat", encoding="utf-8") as text:
        return [int(it) for it in text.read().rpartition(")")[2].split()[1:4]]


def without_leader(begin, apart):
    """A group and a session whose leaders are gone, and a member lives: in the group, or apart from it."""
    told, tell = os.pipe()
    leader = os.fork()
    if leader == 0:
        begin()
        member = sleeper()
        if apart:
            os.setpgid(member, member)
        os.write(tell, struct.pack("i", member))
        os._exit(0)
    member = struct.unpack("i", os.read(told, 4))[0]
    os.waitpid(leader, 0)
    group, session = os.getpgid(member), os.getsid(member)
    say("without a leader", group == leader, session == leader, stat(member) == [1, group, session], of(os.kill, leader, 0))
    say("its group", of(os.killpg, leader, 0), of(os.getpriority, os.PRIO_PGRP, leader), of(fcntl.fcntl, told, fcntl.F_SETOWN, -leader))
    say("itself", of(fcntl.fcntl, told, fcntl.F_SETOWN, leader),
        *(of(fcntl.fcntl, told, 15, struct.pack("ii", kind, leader)) != "ESRCH" for kind in range(3)))
    say("its member", of(os.waitid, os.P_PGID, leader, os.WEXITED | os.WNOHANG), of(os.killpg, group, signal.SIGKILL), os.waitpid(-group, 0)[0] == member)
    say("behind it", of(os.killpg, leader, 0), of(fcntl.fcntl, told, fcntl.F_SETOWN, -leader))
    os.close(told)
    os.close(tell)


def owners():
    reader, writer = os.pipe()
    for pid in (os.getpid(), -os.getpgrp(), 0):
        say("F_SETOWN", of(fcntl.fcntl, reader, fcntl.F_SETOWN, pid), fcntl.fcntl(reader, fcntl.F_GETOWN) == pid)
    say("F_SETOWN of nobody", of(fcntl.fcntl, reader, fcntl.F_SETOWN, 999))
    for kind, number in ((0, threading.get_native_id()), (1, os.getpid()), (2, os.getpgrp())):
        of(fcntl.fcntl, reader, 15, struct.pack("ii", kind, number))
        say("F_GETOWN_EX", kind, struct.unpack("ii", fcntl.fcntl(reader, 16, struct.pack("ii", 0, 0))) == (kind, number))
    buffer = array.array("i", [os.getpid()])
    left, _ = socket.socketpair()
    say("SIOCSPGRP", of(fcntl.ioctl, left, 0x8902, buffer), fcntl.ioctl(left, 0x8904, array.array("i", [0]), True) == 0)
    for file in (reader, writer):
        os.close(file)


def signals(child):
    signal.pthread_sigmask(signal.SIG_BLOCK, {signal.SIGUSR1, signal.SIGCHLD})
    mask = ctypes.c_uint64(1 << (signal.SIGUSR1 - 1))
    file = call("signalfd4", -1, ctypes.byref(mask), 8, 0)
    for sender in ("self", "child"):
        if sender == "self":
            expected = os.getpid()
            os.kill(expected, signal.SIGUSR1)
        else:
            expected = os.fork()
            if expected == 0:
                os.kill(os.getppid(), signal.SIGUSR1)
                os._exit(0)
        data = os.read(file, 128)
        say("signalfd", sender, struct.unpack_from("IiiI", data)[3] == expected)
        if sender == "child":
            os.waitpid(expected, 0)
    os.kill(os.getpid(), signal.SIGUSR1)
    say("sigwaitinfo", signal.sigwaitinfo({signal.SIGUSR1}).si_pid == os.getpid())
    os.kill(child, signal.SIGSTOP)
    say("sigwaitinfo of SIGCHLD", signal.sigwaitinfo({signal.SIGCHLD}).si_pid in (child, expected))
    os.kill(child, signal.SIGCONT)
    say("kill", of(os.kill, child, 0), of(os.kill, 999, 0), of(os.killpg, 999, 0), of(os.killpg, os.getpgrp(), 0))
    os.close(file)


def terminals():
    master, slave = pty.openpty()
    child = os.fork()
    if child == 0:
        os.setsid()
        fcntl.ioctl(slave, termios.TIOCSCTTY, 0)
        say("terminal", os.tcgetpgrp(slave) == os.getpid(), struct.unpack("i", fcntl.ioctl(slave, TIOCGSID, b"\0" * 4))[0] == os.getpid())
        job = os.fork()
        if job == 0:
            os.setpgid(0, 0)
            time.sleep(100)
        of(os.setpgid, job, job)
        os.tcsetpgrp(slave, job)
        say("TIOCSPGRP", os.tcgetpgrp(slave) == job, of(os.tcsetpgrp, slave, 999) in ("ESRCH", "EPERM"))
        say("of the master", struct.unpack("i", fcntl.ioctl(master, termios.TIOCGPGRP, b"\0" * 4))[0] == job)
        os.kill(job, signal.SIGKILL)
        os._exit(0)
    say("its child", os.waitpid(child, 0)[1])


def descriptors(child):
    file = os.pidfd_open(child)
    with open(f"/proc/self/fdinfo/{file}", encoding="ascii") as lines:
        said = dict(line.split(":\t") for line in lines)
    say("pidfd", int(said["Pid"]) == child, int(said["NSpid"].split()[0]) == child, of(os.pidfd_open, 999))
    signal.pidfd_send_signal(file, signal.SIGKILL)
    done = os.waitid(os.P_PIDFD, file, os.WEXITED)
    say("waitid by a pidfd", done.si_pid == child, done.si_status)


def ipc():
    shared = call("shmget", 0, 4096, 0o1600)
    LIBC.syscall.restype = ctypes.c_long
    call("shmat", shared, None, 0)
    LIBC.syscall.restype = ctypes.c_int
    buffer = ctypes.create_string_buffer(256)
    call("shmctl", shared, 2, buffer)
    say("shm_cpid", struct.unpack_from("ii", buffer, 80) == (os.getpid(), os.getpid()))
    call("shmctl", shared, 0, None)
    queue, other = call("msgget", 0, 0o1600), call("shmget", 0, 4096, 0o1600)
    call("msgsnd", queue, struct.pack("l", 1) + b"x", 1, 0)
    call("msgctl", queue, 2, buffer)
    say("msg_lspid", struct.unpack_from("ii", buffer, 96) == (os.getpid(), 0))
    for name, of_all, command in (("msgctl", 12, 11), ("msgctl", 12, 13), ("shmctl", 14, 13), ("shmctl", 14, 15)):
        known = {"msgctl": (queue, 96, (os.getpid(), 0)), "shmctl": (other, 80, (os.getpid(), 0))}[name]
        found = [struct.unpack_from("ii", buffer, known[1]) == known[2] for i in range(call(name, 0, of_all, buffer) + 1) if call(name, i, command, buffer) == known[0]]
        say(name, command, found)
    call("msgctl", queue, 0, None)
    call("shmctl", other, 0, None)
    semaphore = call("semget", 0, 1, 0o1600)
    call("semctl", semaphore, 0, 16, 3)
    say("semctl GETPID", call("semctl", semaphore, 0, 11, 0) == os.getpid())
    call("semctl", semaphore, 0, 0, 0)


def threads():
    signal.pthread_sigmask(signal.SIG_BLOCK, {signal.SIGUSR2})
    numbers, go = [], threading.Event()

    def work():
        numbers.append(threading.get_native_id())
        go.wait()

    def hear():
        numbers.append(threading.get_native_id())
        numbers.append(signal.sigwaitinfo({signal.SIGUSR2}).si_pid)

    threads = [threading.Thread(target=work) for _ in range(3)]
    for thread in threads:
        thread.start()
    while len(numbers) < len(threads):
        time.sleep(0.01)
    listed = {int(it) for it in os.listdir("/proc/self/task")}
    say("threads", len(set(numbers)), os.getpid() not in numbers, set(numbers) <= listed, os.getpid() in listed, len(listed))
    say("by number", call("tgkill", os.getpid(), numbers[0], 0), call("tgkill", os.getpid(), 999, 0), of(os.sched_getscheduler, numbers[1]))
    say("as a process", of(os.kill, numbers[0], 0), of(os.getpgid, numbers[0]) == os.getpgrp(), of(os.getsid, numbers[0]) == os.getsid(0),
        of(os.setpgid, numbers[0], 0), of(os.waitpid, numbers[0], 0), of(os.kill, numbers[0], signal.SIGCONT))
    say("clock", time.clock_gettime(time.pthread_getcpuclockid(threads[0].ident)) >= 0)
    for number in (numbers[0], os.getpid()):
        with open(f"/proc/self/task/{number}/status", encoding="ascii") as lines:
            said = dict(line.rstrip("\n").split(":\t", 1) for line in lines)
        say("status of a thread", int(said["Pid"]) == number, int(said["Tgid"]) == os.getpid())
    go.set()
    for thread in threads:
        thread.join()
    numbers.clear()
    thread = threading.Thread(target=hear)
    thread.start()
    while not numbers:
        time.sleep(0.01)
    say("pthread_kill", signal.pthread_kill(thread.ident, signal.SIGUSR2), thread.join(), numbers[1] == os.getpid())
    event = struct.pack("QiiI", 0, signal.SIGUSR2, 4, threading.get_native_id()).ljust(64, b"\0")
    timer = ctypes.c_int()
    say("SIGEV_THREAD_ID", call("timer_create", 1, event, ctypes.byref(timer)))
    call("timer_settime", timer, 0, struct.pack("qqqq", 0, 0, 0, 1000000), None)
    say("its signal", signal.sigwaitinfo({signal.SIGUSR2}).si_code == -2)


def main():
    child = sleeper()
    scheduling(child)
    memory_and_limits(child)
    sockets()
    many_messages(10, False)
    many_messages(10, True)
    cloned()
    nobody()
    gone_sender()
    without_leader(os.setpgrp, False)
    without_leader(os.setsid, False)
    without_leader(os.setsid, True)
    owners()
    signals(child)
    terminals()
    descriptors(child)
    ipc()
    threads()


main()
