"""The table's control groups by their files: as in the kernel's, and each of some planted faults is found."""
import contextlib
import os
import re
import shutil
import subprocess
import tempfile
import time

import faults
import rig

PYTHON = "/usr/bin/python3"
SCRIPT = str(rig.TESTS / "inside/controls.py")
# The kernel's controller, of version 1: in version 2 a group whose children have it may have no processes of its own, a rule that the table lacks.
PLACE = "/sys/fs/cgroup/pids"
# What the kernel's documents say of each line: cgroup-v2.rst, and for what is refused kernel/cgroup/cgroup.c and pids.c.
EXPECTED = (rig.TESTS / "inside/controls.txt").read_text(encoding="utf-8")
LIMITED = """
import os, sys, time
around = sys.argv[1]
print(*sorted(os.listdir(around)), open(f"{around}/pids.max").read().strip())
os.mkdir(f"{around}/a")
print(open(f"{around}/a/cgroup.procs", "w").write("0"), open(f"{around}/a/pids.max").read().strip(), open(f"{around}/pids.current").read().strip())
try:
    print(os.write(os.open(f"{around}/pids.max", os.O_WRONLY), b"9"))
except OSError as fault:
    print(fault.strerror)
try:
    while os.fork():
        pass
    time.sleep(100)
except OSError as fault:
    print(fault.strerror, open(f"{around}/pids.current").read().strip(), open(f"{around}/a/pids.current").read().strip())
"""
UNLIKE = 6 # lines of what the page says that is not as in the kernel
# A file that limits a delegated group is not the delegate's to write.
LIMITED_EXPECTED = "cgroup.procs pids.current pids.max 3\n1 max 1\nOperation not permitted\nResource temporarily unavailable 3 3\n"


def remove(group):
    """The kernel lets a group go once it knows that its tasks have ended."""
    for _ in range(50):
        with contextlib.suppress(OSError):
            for path, _, _ in os.walk(group, topdown=False):
                os.rmdir(path)
            return
        time.sleep(0.1)


def natively(*words):
    group = tempfile.mkdtemp(prefix="pidtab-box-", dir=PLACE)
    os.chmod(group, 0o755)
    try:
        return rig.in_kernel([PYTHON, SCRIPT, group, *words], as_root=True).output
    finally:
        remove(group)


def in_box(name, *words, as_root=False, **how):
    """What the script says, and what it has left in its folder."""
    folder = rig.folder()
    os.chmod(folder, 0o755 if as_root else 0o777)
    try:
        run = rig.in_box([PYTHON, SCRIPT, folder, *words], name, options=("--check", "--cgroups", folder), as_root=as_root, **how)
        return run, os.listdir(folder)
    finally:
        shutil.rmtree(folder)


def limited(tell):
    """With --pids-max the folder is the limited group, whose limit the program does not change."""
    folder = rig.folder()
    try:
        run = rig.in_box([PYTHON, "-u", "-c", LIMITED, folder], "controls-limited", options=("--cgroups", folder, "--pids-max", "3"))
    finally:
        shutil.rmtree(folder)
    if run.output != LIMITED_EXPECTED:
        tell.fault("controls limited", run.output)


NO_ROOM = """
import errno, os, sys
around = sys.argv[1]
for _ in range(2):
    try:
        print(os.mkdir(f"{around}/a"))
    except OSError as fault:
        print(errno.errorcode[fault.errno], os.listdir(around), flush=True)
    os.path.exists(f"{around}/room") and os.unlink(f"{around}/room")
"""
# The file system: itself, cgroup.procs and this; so a new folder has room for one file of three, and then for all.
NO_ROOM_EXPECTED = "ENOSPC ['room', 'cgroup.procs']\nNone\n"


def no_room(tell):
    """A folder whose files find no room is no group, and the table's goes again."""
    folder = rig.folder()
    subprocess.run(["mount", "-t", "tmpfs", "-o", "nr_inodes=6,mode=777", "tmpfs", folder], check=True)
    try:
        words = ["sh", "-c", 'true > "$2/room" && exec "$0" -c "$1" "$2"', PYTHON, NO_ROOM, folder]
        run = rig.in_box(words, "controls-no-room", options=("--cgroups", folder))
    finally:
        subprocess.run(["umount", folder], check=True)
        os.rmdir(folder)
    made = re.findall("^(mk|rm) ", (rig.OUT / "controls-no-room.log").read_text(encoding="ascii"), re.MULTILINE)
    if run.output != NO_ROOM_EXPECTED or made != ["mk", "rm", "mk"]:
        tell.fault("controls no room", f"{run.output} {made}")


# A fault of the box: a file of box/src, what is taken from it, what is put in its place; and the words of the script that meets it.
PLANTED = (
    ("a limit is not told", "controls.c", "told = table_control(PIDTAB_LIMIT, 0, control->id, is_limited ? (uint32_t)limit : 0, is_limited);", "told = 0;", ()),
    ("the writer is moved", "controls.c", "table_control(PIDTAB_MOVE, process->root,", "table_control(PIDTAB_MOVE, thread->process->root,", ()),
    ("a group is made in the root", "controls.c", "table_control(PIDTAB_MK, 0, parent->id, 0, 0)", "table_control(PIDTAB_MK, 0, 0, 0, 0)", ()),
    ("a group that is removed stays", "controls.c", "failure = (int)-table_control(PIDTAB_RM, 0, control->id, 0, 0);\n\tif", "failure = 0;\n\tif", ()),
    ("a busy group is removed", "controls.c", "failure = table_would_remove(control->id) ? remove_now(control, named.path) : 0;",
     "failure = remove_now(control, named.path);", ()),
    ("numbers of the root namespace", "controls.c", "process ? number_of(process->name, thread->process) : 0);", "roots[i]);", ()),
    ("a write passes", "filter.c", "SYS_pwritev, 4, 0", "SYS_preadv, 4, 0", ()),
    ("a copy is not written", "controls.c", "\tcopied_from(link, name);\n", "", ()),
    ("who reads may write", "controls.c", "!(about.st_mode & S_IWUSR) || ", "", ()),
    ("a copy in one line too many", "controls.c", "if (part.iov_len > MOST_WRITTEN - size)", "if (part.iov_len > MOST_WRITTEN - size - 1)", ()),
    ("an open to read is let go", "proc.c", " && !group_may_have(path)", "", ()),
    ("files are the box's", "controls.c", "is_put = !fchown(file, owner->st_uid, owner->st_gid);", "is_put = true;", ("others",)),
    ("all may remove", "controls.c", "return user == geteuid() || user == about.st_uid || about.st_mode & S_IWOTH;", "return true;", ("others",)),
)


def planted(tell, expected):
    for name, file, old, new, words in PLANTED:
        if words not in expected:
            continue
        run, _ = in_box("fault-controls", *words, as_root=bool(words), box=faults.build(f"controls {name}", file, old, new), seconds=30)
        if run.output == expected[words]:
            tell.fault(f"controls: {name}", "not found")
    shutil.rmtree(rig.OUT / "fault")
    for log in rig.OUT.glob("fault-*"):
        log.unlink()


def controls(tell):
    """In the kernel, where it has the controller and root asks; and in the box, as nobody and, where root asks, as root."""
    expected = {(): EXPECTED}
    if not rig.IS_ROOT or not os.path.exists(f"{PLACE}/cgroup.procs"):
        tell.skip("controls in the kernel", f"not root, or no controller at {PLACE}")
    else:
        natively_said, expected["others",] = natively(), natively("others")
        if natively_said != EXPECTED:
            tell.fault("controls", f"the kernel:\n{natively_said}")
    for words, said in expected.items():
        run, left = in_box("-".join(("controls", *words)), *words, as_root=bool(words))
        if run.output != said or run.status or left:
            tell.fault("controls", f"{words} status {run.status}, left {left}:\n{run.output}")
        tell.differences("controls", run)
    limited(tell)
    if rig.IS_ROOT:
        no_room(tell)
    unlike, left = in_box("controls-unlike", "unlike")
    if re.findall(r" (\w+)$", unlike.output, re.MULTILINE) != ["True"] * UNLIKE or left:
        tell.fault("controls unlike", f"{unlike.output}, left {left}")
    planted(tell, expected)
    tell.say("controls", f"{sum(len(it.splitlines()) for it in expected.values())} lines as in the kernel, {UNLIKE} that are not, {len(PLANTED)} planted faults")
