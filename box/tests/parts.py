"""The quick parts of the tests: small programs, what is carried and what is refused, misuse, the page, builds, and replays."""
import os
import pathlib
import re
import shutil
import subprocess
import time

import faults
import rig
from rig import BOX, OUT, PROGRAM, TESTS, TOP, in_box, in_kernel

PYTHON = "/usr/bin/python3"
MOST_COMPARED = 20   # logs by linux/compare
SHORT_LOG = 800      # lines of such a log
NEEDED = {"10-tini": "tini", "11-dumb-init": "dumb-init", "19-s6": "s6-svscan", "20-runit": "runsvdir"}


def compare(tell, name, words, seconds=60):
    """The program in both: the same output and status, and no difference. Unchecked too: then the box answers more without the kernel."""
    kernel, box, unchecked = in_kernel(words, seconds), in_box(words, name, seconds), in_box(words, f"{name}-unchecked", seconds, options=())
    for run in (box, unchecked):
        if (kernel.output, kernel.status) != (run.output, run.status):
            (OUT / f"{name}.kernel.txt").write_text(f"{kernel.output}status {kernel.status}\n", encoding="utf-8")
            (OUT / f"{name}.box.txt").write_text(f"{run.output}status {run.status}\n", encoding="utf-8")
            tell.fault(name, f"other output: see {OUT}/{name}.kernel.txt and .box.txt")
    tell.differences(name, box)
    return box


def programs(tell):
    """Shells, job control, make, inits with orphans, and others."""
    calls = count = 0
    for file in sorted((TESTS / "programs").iterdir()):
        needed = NEEDED.get(file.name)
        if needed and not shutil.which(needed):
            tell.skip(file.name, f"no {needed}")
            continue
        calls += compare(tell, file.name, ["bash", str(file)]).calls
        count += 1
    tell.say("programs", f"{count} programs, {calls} calls on the table")


# A path is taken for one that leads elsewhere than into /proc.
LET_GO = (("an open is let go", "proc.c", "return !may_be_in_proc(path, LONGEST_PATH) && ", "return "),
    ("a path is let go", "proc.c", "return !has_head_in_proc(thread, at);", "return true;"))


def inside(tell):
    """Scripts whose lines are the same in a namespace of the kernel."""
    for name in ("carried", "proc", "opened", "opened by root", "nested", "all"):
        if name == "nested" and not rig.IS_ROOT:
            tell.skip(name, "the kernel lets only root unshare")
            continue
        is_by_root = name in ("opened by root", "all") and rig.IS_ROOT
        words = [PYTHON, str(TESTS / "inside" / f"{name.split()[0]}.py")]
        kernel, box = in_kernel(words, as_root=is_by_root or name == "nested"), in_box(words, name.replace(" ", "-"),
            as_root=is_by_root)
        if (kernel.output, kernel.status) != (box.output, box.status):
            tell.fault(name, f"kernel:\n{kernel.output}\nbox:\n{box.output}")
        tell.differences(name, box)
        tell.say(name, f"{len(box.output.splitlines())} lines, {box.calls} calls")
    words = [PYTHON, str(TESTS / "inside/proc.py")]
    for fault in LET_GO:
        if in_box(words, "fault-proc", 10, box=faults.build(*fault)).output == in_kernel(words).output:
            tell.fault("proc", f"a planted fault is not found: {fault[0]}")
    faults.clear()


def jobs(tell):
    """Job control of two shells on a terminal."""
    for shell in (["bash", "--norc", "-i"], ["dash", "-i"]):
        box = compare(tell, f"jobs-{shell[0]}", [PYTHON, str(TESTS / "inside/jobs.py"), *shell], 120)
        if "late:" in box.output:
            tell.fault(f"jobs-{shell[0]}", box.output.splitlines()[-1])
        tell.say(f"jobs of {shell[0]}", f"{len(box.output.splitlines())} lines, {box.calls} calls")


def refused(tell):
    """Each call that is refused has ENOSYS, and the report names it."""
    box = in_box([PYTHON, str(TESTS / "inside/refused.py")], "refused", options=())
    lines = [line.rsplit(" ", 1) for line in box.output.splitlines()]
    for name, error in lines:
        if error != "ENOSYS":
            tell.fault(f"refused {name}", error)
        if f"refused: {name} (" not in box.report:
            tell.fault(f"refused {name}", "the report does not name it")
    if len(lines) < 20 or box.status:
        tell.fault("refused", box.output)
    tell.say("refused", f"{len(lines)} calls")


# Two processes of a name and one of another that may not be dumped, a thread of one of them, and one that may: each
# has a child, whose number clone(2) is to write into its memory.
HIDDEN = """
import ctypes, os, socket, threading
libc = ctypes.CDLL(None)
for name, dumpable in ((b"first", 0), (b"first", 0), (b"a second", 0), (b"third", 1)):
    if os.fork() == 0:
        libc.prctl(15, name, 0, 0, 0)
        libc.prctl(4, dumpable, 0, 0, 0)
        own = ctypes.c_int(0)
        if libc.syscall(56, 0x1000011, 0, 0, ctypes.c_void_p(ctypes.addressof(own)), 0) == 0:
            os._exit(own.value == 0)
        print("told" if os.wait()[1] == 0 else "not told", flush=True)
        ask = lambda: socket.socketpair()[0].getsockopt(socket.SOL_SOCKET, socket.SO_PEERCRED, 12)
        ask()
        thread = threading.Thread(target=ask)
        thread.start()
        thread.join()
        os._exit(0)
    os.wait()
"""


# Each child has a number in its memory: the box has written it, or the kernel where the box cannot.
UNTOLD = (("a child is not told its number", "tracer.c", "if (thread->tid_at)", "if (false)"),
    ("a hidden child is not told a number", "forks.c", "= registers_argument(registers, 1) != 1;", "= !registers;"),
    ("a hidden program has no threads", "clone3.c", "thread->process->is_hidden ? ENOSYS : EFAULT", "EFAULT"))


def hidden(tell):
    """The report names each program whose memory the box may not read, as often as there were processes of it."""
    box = in_box([PYTHON, "-c", HIDDEN], "hidden")
    found = re.findall(r"undumpable: (.*) \(.*\): (\d+)", box.report)
    if found != [("first", "4"), ("a second", "2")] or box.output != 4 * "told\n":
        tell.fault("hidden", f"{found} {box.output}")
    for fault in UNTOLD:
        if 4 * "told\n" == in_box([PYTHON, "-c", HIDDEN], "fault-hidden", box=faults.build(*fault)).output:
            tell.fault("hidden", f"a planted fault is not found: {fault[0]}")
    faults.clear()
    tell.say("hidden", f"{len(found)} programs are named, and {len(UNTOLD)} planted faults are found")


def host(tell):
    """A process beside the box is nobody inside, by its own number. In a PID namespace the box's group and session are outside."""
    own = subprocess.Popen([*(rig.AS_NOBODY if rig.IS_ROOT else []), "sleep", "100"])
    script = f"kill {own.pid}; kill -9 {own.pid}; renice 5 {own.pid}; taskset -p {own.pid}; chrt -p {own.pid}; prlimit -p {own.pid}; ls -d /proc/{own.pid}; kill -9 -1; echo end"
    box = in_box(["bash", "-c", script], "host")
    time.sleep(0.1)
    if own.poll() is not None or box.output.count("No such") < 6 or not box.output.endswith("end\n"):
        tell.fault("host", f"{own.poll()} {box.output}")
    own.kill()
    own.wait()
    within = in_kernel([str(BOX), "--check", "sh", "-c", "sleep 0.1; sleep 0.1; echo end"])
    if (within.output, within.status) != ("end\n", 0):
        tell.fault("host", f"the box in a namespace: {within.output}")
    tell.say("host", "a process beside the box is reached by no number; a box in a namespace sees no difference")


def misuse(tell):
    """Each gets one sentence and a status."""
    asked = [
        ([], 125, "usage:"), (["--pids-max", "x", "true"], 125, "--pids-max takes 0 to 4194304: x"),
        (["--pid-max", "300", "true"], 125, "--pid-max takes 301 to 4194304: 300"), (["--proc", "none", "true"], 125, "--proc takes box or kernel: none"),
        (["--log", "/no/file", "true"], 125, "pidtab-box: /no/file: No such file or directory"), (["--log", "/dev/full", "true"], 125, "the log"),
        (["--cgroups", "/no/folder", "true"], 125, "pidtab-box: /no/folder: No such file or directory"),
        (["--cgroups", "/usr", "true"], 125, "pidtab-box: /usr: Directory not empty"),
        (["--proc", "kernel", "--cgroups", "/usr", "true"], 125, "pidtab-box: --cgroups wants --proc box: /usr"),
        (["--data", "/no/file", "true"], 125, "pidtab-box: /no/file: No such file or directory"),
        (["--data", "/dev/full", "true"], 125, "the sums"),
        (["/no/program"], 127, "pidtab-box: /no/program: No such file or directory"), (["/dev/null"], 126, "Permission denied"),
        (["sh", "-c", "exit 7"], 7, ""), (["sh", "-c", "sh -c 'kill -9 $$'; exit $?"], 137, ""), (["--pids-max", "1", "sh", "-c", "true | true"], 2, "fork"),
    ]
    for words, status, text in asked:
        done = subprocess.run([BOX, *words], capture_output=True, text=True, timeout=30, check=False)
        if done.returncode != status or text not in done.stderr:
            tell.fault(f"misuse {' '.join(words)}", f"status {done.returncode}, {done.stderr}")
    killed_box(tell)
    tell.say("misuse", f"{len(asked)} uses")


def sleepers(seconds):
    """How many processes of this machine sleep for just so long."""
    return subprocess.run(["pgrep", "-c", "-f", f"^sleep {seconds}$"], capture_output=True, text=True, check=False).stdout.strip()


def killed_box(tell):
    """Nobody of a box that is killed lives on."""
    seconds = f"4321.{os.getpid()}"
    box = subprocess.Popen([BOX, "sh", "-c", f"sleep {seconds} & sleep {seconds}"])
    wait_for(lambda: sleepers(seconds) == "2")
    before = sleepers(seconds)
    box.kill()
    box.wait()
    wait_for(lambda: sleepers(seconds) == "0")
    if (before, sleepers(seconds)) != ("2", "0"):
        tell.fault("misuse", f"a killed box: {before} before, {sleepers(seconds)} behind")


def wait_for(is_so, seconds=10):
    end = time.monotonic() + seconds
    while not is_so() and time.monotonic() < end:
        time.sleep(0.05)


def header_numbers(compiler, headers):
    """The numbers of the calls that the headers of a machine have."""
    done = subprocess.run([compiler, "-E", "-dM", *headers, "-include", "asm/unistd.h", "-x", "c", "/dev/null"], capture_output=True, text=True, check=False)
    words = dict(re.findall(r"#define (__NR\w+) (\w+)", done.stdout))
    found = {}
    for name, value in words.items():
        while value in words:
            value = words[value]
        if value.isdigit() and name.startswith("__NR_"):
            found[name[5:]] = int(value)
    return found


def page(tell):
    """The table of README.md is that of the program, and its numbers are those of the kernel's headers, on both machines."""
    if subprocess.run([TOP / "box/page", "--check"], check=False).returncode:
        tell.fault("page", "box/README.md has another table: run box/page")
    source = (TOP / "box/src/calls.c").read_text(encoding="utf-8")
    rows = {name: (int(one), int(other)) for name, one, other in re.findall(r'\{ "(\w+)", \{ (-?\d+), (-?\d+) \}', source)}
    rows |= {name: (int(one), int(other)) for name, one, other in re.findall(r"NONE\((\w+), (-?\d+), (-?\d+)\)", source)}
    for column, compiler in enumerate(("x86_64-linux-gnu-gcc", "aarch64-linux-gnu-gcc")):
        compiler = compiler if shutil.which(compiler) else "cc" if column == (os.uname().machine != "x86_64") else None
        if not compiler:
            tell.skip("numbers", "no aarch64-linux-gnu-gcc")
            continue
        numbers = header_numbers(compiler, [])
        for name, number in numbers.items():
            if name in ("syscalls", "arch_specific_syscall"):
                continue
            if rows.get(name, (None, None))[column] != number:
                tell.fault("numbers", f"{name} is {number} by {compiler}, and {rows.get(name)} in the table")
        tell.say("numbers", f"{len(numbers)} of {compiler}")


MAKEFILE = """all: {names}
$(NAMES):
\t@echo made $@ | sed s/made/done/ > $@.out; test -s $@.out
"""


def make(tell):
    """make -j8, in both."""
    names = " ".join(f"part{i}" for i in range(200))
    text = MAKEFILE.format(names=names).replace("$(NAMES)", names)
    script = f"cat > Makefile <<'E'\n{text}E\nmake -s -j8 all && cat *.out | sort | sha256sum"
    box = compare(tell, "make", ["bash", "-c", script], 120)
    tell.say("make -j8", f"200 parts, {box.calls} calls")


def replay(tell):
    """Each log gives the same answers by `pidtab run`; some of them are lived again by real processes."""
    if not PROGRAM.exists():
        return tell.skip("replay", f"no program {PROGRAM}: make build builds it")
    lines = 0
    logs = sorted(OUT.glob("*.log"))
    for log in logs:
        with open(log, "rb") as script:
            done = subprocess.run([PROGRAM, "run"], stdin=script, capture_output=True, check=False)
        if done.stdout != log.with_suffix(".answers").read_bytes():
            tell.fault(f"replay {log.stem}", "other answers")
        lines += log.read_bytes().count(b"\n")
    tell.say("replay", f"{len(logs)} logs, {lines} lines, the same answers")
    return compare_by_real_processes(tell, [log for log in logs if log.read_bytes().count(b"\n") < SHORT_LOG][:MOST_COMPARED])


def compare_by_real_processes(tell, logs):
    world = pathlib.Path(TOP / "linux/build/world")
    if not world.exists():
        subprocess.run(["make", "-s", "-C", TOP / "linux"], check=True)
    for log in logs:
        done = subprocess.run([TOP / "linux/compare", "--pidtab", PROGRAM, log], capture_output=True, text=True, check=False)
        if done.returncode == 77:
            tell.skip("linux/compare", (done.stdout + done.stderr).strip().splitlines()[-1])
        elif done.returncode:
            tell.fault(f"linux/compare {log.stem}", done.stdout[-400:])
    tell.say("linux/compare", f"{len(logs)} logs by other real processes")
