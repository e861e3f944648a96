"""What must hold under load: processes that begin and end all at once, and an end of the box that always comes."""
import contextlib
import os
import shutil
import signal
import socket
import subprocess
import tempfile
import threading
import time

import faults
import parts
import rig
from rig import BOX, in_box, in_kernel

PYTHON = "/usr/bin/python3"
TIMES = 40
SECONDS = 30
ONE_PROCESSOR = ("taskset", "-c", "0")

# A way of storm.c, how many begin, and what; before the box, and how often it is run.
STORMS = (
    ("at-once", 300, "fork", (), 3), ("at-once", 300, "vfork", (), 3), ("at-once", 100, "thread", (), 3), ("at-once", 1000, "fork", ONE_PROCESSOR, 1),
    ("killed", 40, "fork", (), 5), ("killed", 40, "vfork", (), 5), ("killed", 40, "thread", (), 5),
    ("executed", 40, "fork", (), 5), ("executed", 40, "vfork", (), 5), ("executed", 40, "thread", (), 5),
)
FALLS = tuple(("fall", *it) for it in ((1, "fork"), (8, "fork"), (32, "fork"), (8, "vfork"), (8, "thread"))) + tuple(
    ("leave", 4, it) for it in ("fork", "vfork", "thread"))
BOMBS = (20, 100, 200, 300, 500)


def often(tell, name, words, times, **how):
    """The program in the kernel's namespace once, and in the box so often: the same output and status, and no
    difference. On a machine that has other work the box has ten times as long as the kernel."""
    begun = time.monotonic()
    kernel = in_kernel([*how.get("before", ()), *words], 10 * SECONDS)
    seconds = max(SECONDS, 10 * (time.monotonic() - begun))
    for run in range(times):
        box = in_box(words, name, seconds, **how)
        if (kernel.output, kernel.status) != (box.output, box.status):
            tell.fault(name, f"run {run + 1}: kernel {kernel.status} {kernel.output!r}, box {box.status} {box.output!r}")
            return
        tell.differences(name, box)


# How often a call stops at most. A fork is counted with the wait for its child, whose own stops are not.
STOPS = (("query", 1), ("open", 1), ("receive", 1), ("receive-passed", 2), ("descriptor", 0), ("descriptor-proc", 1),
    ("fork", 5), ("fork-any", 4), ("poll", 1), ("poll-none", 1), ("action", 0))
OFTEN = 200


def stops(tell):
    """How many stops each call takes, on average, in a process that is no init."""
    program = rig.compiled("stops")
    for way, most in STOPS:
        none, many = (in_box(["sh", "-c", f"{program} {way} {count}; :"], f"stops-{way}", options=()).stops for count in (0, OFTEN))
        if (many - none) / OFTEN > most + 0.2:
            tell.fault(f"stops of {way}", f"{(many - none) / OFTEN}, in place of {most}")
    tell.say("stops", "at most " + ", ".join(f"{way} {most}" for way, most in STOPS))


BEHIND = (0, 1, 3, 30)


def data(tell):
    """What programs read and write is the same, natively and in the box; also where the numbers of their descriptors were signalfds'."""
    program, lines = rig.compiled("bytes", "-pthread"), 0
    for count in BEHIND:
        box = parts.compare(tell, f"data-{count}", [program, "behind", str(count), "bash", str(rig.TESTS / "inside/data.sh")])
        lines += len(box.output.splitlines())
    tell.say("data", f"{lines} lines with sums, behind {BEHIND} signalfds")


GROUPS = "/sys/fs/cgroup/pids"
REFUSED = "read True True\n" + "".join(f"written by {it} ENOSYS ENOSYS\n" for it in ("its path", "a link", "its folder", "a descriptor", "tasks")) + (
    "at a folder ENOSYS\nanother file opened\n")


# The box is number 1 of a namespace of the kernel, and its program, which is 1 to itself, is 2.
MOVES = 'echo $$ > {0}/cgroup.procs; for it in 1 2; do grep -c :{1}$ /proc/$it/cgroup; done'


def moved(tell, group):
    """With --proc kernel the number is the kernel's: who has it there is moved."""
    script = MOVES.format(group, group.removeprefix(GROUPS))
    found = in_kernel([BOX, "--proc", "kernel", "sh", "-c", script], as_root=True).output
    if found != "1\n0\n":
        tell.fault("groups", f"with --proc kernel: {found}")


def groups(tell):
    """A process beside the box is moved by no number that the program has: cgroup.procs has the program's, and is not opened for writing."""
    if not rig.IS_ROOT or not os.path.exists(f"{GROUPS}/cgroup.procs"):
        return tell.skip("groups", f"not root, or no control groups at {GROUPS}")
    group, home = tempfile.mkdtemp(prefix="pidtab-box-", dir=GROUPS), rig.folder()
    script = f'echo $$ > {group}/cgroup.procs; exec "$@"'
    try:
        done = subprocess.run(["sh", "-c", script, "sh", BOX, "--report", f"{home}/report", PYTHON, rig.TESTS / "inside/groups.py", group], env={"HOME": home},
                              capture_output=True, text=True, timeout=SECONDS, check=False)
        with open(f"{home}/report", encoding="utf-8") as report:
            is_named = "`cgroup.procs`" in report.read()
        if done.stdout != REFUSED or not is_named:
            tell.fault("groups", f"{done.stdout}{done.stderr} named in the report: {is_named}")
        moved(tell, group)
    finally:
        os.rmdir(group)
        shutil.rmtree(home)
    return tell.say("groups", f"{len(REFUSED.splitlines())} lines")


@contextlib.contextmanager
def passing_socket():
    """A path where each who connects gets a pair of sockets, the first of which is to have credentials."""
    home = rig.folder()
    server = socket.socket(socket.AF_UNIX)
    server.bind(f"{home}/socket")
    os.chmod(f"{home}/socket", 0o777)
    server.listen()

    def serve():
        with contextlib.suppress(OSError):
            while True:
                one, other = socket.socketpair(socket.AF_UNIX, socket.SOCK_DGRAM)
                one.setsockopt(socket.SOL_SOCKET, socket.SO_PASSCRED, 1)
                socket.send_fds(server.accept()[0], [b"x"], [one.fileno(), other.fileno()])

    threading.Thread(target=serve, daemon=True).start()
    try:
        yield f"{home}/socket"
    finally:
        server.shutdown(socket.SHUT_RDWR)
        server.close()
        shutil.rmtree(home)


def unseen(tell):
    """Each number that the page says passes unseen does so, and is right in the kernel's namespace."""
    count = 0
    for as_root, most in ((False, 26), (True, 3))[:1 + rig.IS_ROOT]:
        with passing_socket() as path:
            words = ["env", f"SOCKET={path}", f"OUTSIDE={os.readlink('/proc/self/ns/pid')}", PYTHON,
                str(rig.TESTS / "inside/unseen.py")]
            box, kernel = in_box(words, "unseen", options=("--pid-max", "1000"), as_root=as_root), in_kernel(words,
                as_root=as_root)
        lines = box.output.splitlines()
        for line, other in zip(lines, kernel.output.splitlines()):
            if not line.endswith(" True") or (other != line.replace(" True", " False")
                and not line.startswith("limit")):
                tell.fault("unseen", f"box: {line}, kernel: {other}")
        if len(lines) != most or box.status:
            tell.fault("unseen", box.output)
        count += len(lines)
    order_of_waits(tell)
    tell.say("unseen", f"{count} lines")


# An orphan with a lower number than a child that is forked before it comes: both have ended when they are waited for.
ORDER = """
import ctypes, os
ctypes.CDLL(None).prctl(36, 1, 0, 0, 0)
told, parent_ends, orphan_ends = os.pipe(), os.pipe(), os.pipe()
parent = os.fork()
if parent == 0:
    orphan = os.fork()
    if orphan == 0:
        os.read(orphan_ends[0], 1)
        os._exit(3)
    os.write(told[1], str(orphan).encode())
    os.read(parent_ends[0], 1)
    os._exit(2)
orphan = int(os.read(told[0], 10))
child = os.fork()
if child == 0:
    os._exit(4)
os.write(parent_ends[1], b"x")
os.waitpid(parent, 0)
os.write(orphan_ends[1], b"x")
for ended in (child, orphan):
    os.waitid(os.P_PID, ended, os.WEXITED | os.WNOWAIT)
print(*(os.wait()[1] >> 8 for _ in range(2)))
"""


def order_of_waits(tell):
    """The program has the kernel's order, the orphan last; the table's is by numbers, and the check says so."""
    kernel, box = (run([PYTHON, "-c", ORDER], **how) for run, how in ((in_kernel, {}), (in_box, {"name": "unseen-order"})))
    if (kernel.output, box.output, box.kinds()) != ("4 3\n", "4 3\n", {"order of waits": 1}):
        tell.fault("unseen order of waits", f"kernel {kernel.output}, box {box.output}, {box.kinds()}")


def orders(tell):
    """All orders of two forks, an end and a kill, on the stages of a fork alone."""
    program = rig.compiled("orders", "-g", "-DCHECKS_STAGES", f"-I{rig.TOP}/bindings/c", rig.TOP / "box/src/stages.c")
    done = subprocess.run([program], capture_output=True, text=True, timeout=SECONDS, check=False)
    if done.returncode:
        tell.fault("orders", done.stdout + done.stderr)
    for line in done.stdout.splitlines():
        tell.say("orders", line)


def storms(tell):
    """Many that begin others all at once, that are killed while they do, and that execute meanwhile. The box that looks at its state is slow."""
    storm, box = rig.compiled("storm", "-pthread"), rig.checked_box()
    for way, count, what, before, times in STORMS:
        often(tell, f"storm-{way}-{count}-{what}", [storm, way, str(count), what], times, before=before, box=rig.BOX if before else box)
    tell.say("storms", f"{len(STORMS)} of them")


# An event is looked at late, so that its thread has often been killed; and what tells that it was.
LATE = ("tracer.c", "\tif (ptrace(PTRACE_GETEVENTMSG,", "\tusleep(2000);\n\tif (ptrace(PTRACE_GETEVENTMSG,")
LATE_FAULT = ("tracer.c", "return !thread->sees_end ||", "usleep(2000);\n\treturn !ptrace(PTRACE_GETEVENTMSG, thread->tid, 0, message) ||")


def late(tell, storm):
    """A box that is late takes the status of a thread that was killed for no number of a child: it would kill who has that."""
    for name, fault, is_right in (("an event is looked at late", LATE, True), ("a status is a child", LATE_FAULT, False)):
        box = faults.build(name, *fault)
        ends = {in_box([storm, "leave", "4", "vfork"], "fault-late", SECONDS, box=box).status for _ in range(TIMES)}
        if (ends == {0}) != is_right:
            tell.fault(f"falls, {name}", f"statuses {ends}")
    shutil.rmtree(rig.OUT / "fault")
    for log in rig.OUT.glob("fault-late.*"):
        log.unlink()


def falls(tell):
    """An init that ends while others, or its own threads, fork: the box ends with it."""
    storm, box = rig.compiled("storm", "-pthread"), rig.checked_box()
    for way, count, what in FALLS:
        often(tell, f"{way}-{count}-{what}", [storm, way, str(count), what], TIMES, box=box)
    late(tell, storm)
    tell.say("falls", f"{len(FALLS)} kinds, {TIMES} times each")


def bombs(tell):
    """A fork bomb meets its limit, and the box ends with its init."""
    storm, box = rig.compiled("storm", "-pthread"), rig.checked_box()
    for limit in BOMBS:
        run = in_box([storm, "bomb", "1", "fork"], f"bomb-{limit}", SECONDS, options=("--check", "--pids-max", str(limit)), box=box)
        if (run.output, run.status) != ("EAGAIN\n", 0):
            tell.fault(f"bomb {limit}", f"status {run.status}, {run.output!r}")
        tell.differences(f"bomb-{limit}", run)
    tell.say("bombs", f"{len(BOMBS)} limits")


# Numbers of the kernel's namespace that the box runs in: each above 300 comes again after a hundred forks. More
# children than these do not live at once.
FEW_NUMBERS, FORKS = 400, 350
REUSED = "lives True\nended ESRCH\n"
REUSED_FAULT = ("copies.c", " || name->root != copy->root", "")
FORKERS, STORMED = 90, "90 ended, 0 of them badly\n"
STORM_FAULT = ("forks.c", "\tif (!is_thread)\n\t\tsettle_former(thread, real);\n", "")


def in_few_numbers(words):
    few = f'echo {FEW_NUMBERS} > /proc/sys/kernel/pid_max && exec "$@"'
    return in_kernel(["sh", "-c", few, "sh", *(str(it) for it in words)], 10 * SECONDS, as_root=True).output


def storm_again(tell):
    """A number that comes again while the stop behind the wait for its former process is not reported yet."""
    storm, faulty = rig.compiled("storm", "-pthread"), faults.build("a number that comes soon", *STORM_FAULT)
    for box, is_right in ((BOX, True), (faulty, False)):
        found = {in_few_numbers([*ONE_PROCESSOR, box, "--check", storm, "at-once", FORKERS, "fork"]) for _ in range(5)}
        if (found == {STORMED}) != is_right:
            tell.fault("reused at once", f"{box}: {found}")


def reused(tell):
    """What is read of a process that has ended is not another one's, who has its number in the kernel."""
    if not rig.IS_ROOT:
        return tell.skip("reused", "only root may set how many numbers a namespace has")
    faulty = faults.build("a number that is used again", *REUSED_FAULT)
    program = [PYTHON, rig.TESTS / "inside/reused.py", FORKS]
    for who, words in (("kernel", []), ("box", [BOX, "--check"])):
        found = in_few_numbers([*words, *program])
        if found != REUSED:
            tell.fault("reused", f"{who}: {found}")
    if in_few_numbers([faulty, *program]) == REUSED:
        tell.fault("reused", "a planted fault is not found")
    storm_again(tell)
    shutil.rmtree(rig.OUT / "fault")
    return tell.say("reused", f"{FORKS} forks with {FEW_NUMBERS} numbers, and {FORKERS} forkers")


BYTES = ("again", "executed", "read", "senders", "stacks", "threads", "taken", "filters")


def memory(tell):
    """No byte of a program's memory, and none that it reads, is changed."""
    program = rig.compiled("bytes", "-pthread")
    for way in BYTES:
        often(tell, f"bytes-{way}", [program, way], 5)
    tell.say("memory", f"{len(BYTES)} ways")


LOCKS = (("thread", "private"), ("words", "private"), ("lists", "private"), ("processes", "mapping"), ("processes",
    "system-v"), ("grandchild", "mapping"),
         ("sleepers", "mapping"), ("words", "mapping"))


def locks(tell):
    """A robust lock says that its owner has ended, whoever that was, and wakes who sleeps for it."""
    program, box = rig.compiled("locks", "-pthread"), rig.checked_box()
    for way, memory in LOCKS:
        often(tell, f"locks-{way}-{memory}", ["sh", "-c", f"{program} {way} {memory}; exit $?"], 5,
            box=box) # an init's end is seen anyway
    mistaken(tell, program)
    tell.say("locks", f"{len(LOCKS)} ways, and one beside an owner whose number he has")


MISTAKEN_FAULT = ("robust.c", "\tif (!ending->last)\n\t\thold_mistaken(ending);\n", "")


def mistaken(tell, program):
    """In a namespace where the kernel's numbers are those of the box, and one more, nobody takes the lock of the one before for his own."""
    right, faulty = "0 of 100 took it for their own\n", faults.build("nobody is held", *MISTAKEN_FAULT)
    for _ in range(5):
        found = in_kernel([str(BOX), program, "mistaken", "mapping"], 2 * SECONDS).output
        if found != right:
            tell.fault("locks mistaken", found)
    if all(in_kernel([str(faulty), program, "mistaken", "mapping"], 2 * SECONDS).output == right for _ in range(5)):
        tell.fault("locks mistaken", "a planted fault is not found")
    shutil.rmtree(rig.OUT / "fault")


# What a program does with SIGTERM, how often it is sent, the status, and how many seconds the end takes at most.
CATCHES = "import signal, time; signal.signal(signal.SIGTERM, lambda *_: {}); print('ready', flush=True); [time.sleep(1) for _ in range(100)]"
IGNORES = "import signal, time; signal.signal(signal.SIGTERM, signal.{}); print('ready', flush=True); time.sleep(100)"
ENDS = (
    ("does not catch it", IGNORES.format("SIG_DFL"), 1, 137, 2), ("ignores it", IGNORES.format("SIG_IGN"), 1, 137, 2),
    ("ends by it", CATCHES.format("exit(3)"), 1, 3, 2), ("goes on, and gets two", CATCHES.format("None"), 2, 137, 2),
    ("goes on", CATCHES.format("None"), 1, 137, 13),
)


def ignored(before):
    """The signals that a program ignores which was begun with some ignored."""
    words = ["sh", "-c", 'trap "" INT QUIT HUP TERM; exec "$@"', "sh", *before, "grep", "SigIgn", "/proc/self/status"]
    return subprocess.run(words, capture_output=True, text=True, check=False).stdout


def ends(tell):
    """SIGTERM ends the box, whatever its program does. What was ignored before stays so in it."""
    if ignored([]) != ignored([BOX]):
        tell.fault("ignored signals", f"{ignored([])} in the box {ignored([BOX])}")
    for what, script, times, status, seconds in ENDS:
        box = subprocess.Popen([*(rig.AS_NOBODY if rig.IS_ROOT else []), BOX, PYTHON, "-c", script], stdout=subprocess.PIPE, text=True)
        box.stdout.readline()
        begun = time.monotonic()
        for _ in range(times):
            box.send_signal(signal.SIGTERM)
            time.sleep(0.2)
        try:
            ended = box.wait(SECONDS)
        except subprocess.TimeoutExpired:
            box.kill()
            ended = "none: it was killed"
        if ended != status or time.monotonic() - begun > seconds:
            tell.fault(f"SIGTERM to one that {what}", f"status {ended} in {time.monotonic() - begun:.1f} s")
        box.stdout.close()
        box.wait()
    tell.say("ends", f"{len(ENDS)} programs that get SIGTERM")
