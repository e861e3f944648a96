"""Programs of the tests read and write the same bytes natively and in the box, by sums of what each descriptor has.

What differs from one native run to the next is not compared, nor what the box writes itself, as /proc/self/stat, nor what
one did who was killed: that may end anywhere.
"""
import concurrent.futures
import os
import shutil
import tempfile

import faults
import rig

PYTHON = "/usr/bin/python3"
SECONDS = 120
NATIVE_RUNS = 3
# With a folder for each program, the same in each run, since programs write where they are.
HOME = os.path.join(tempfile.gettempdir(), "pidtab-box-sums")
AT_ONCE = 3


# What is left out, and why.
LEFT_OUT = {
    "07-python-mp": "natively a thread has a number of the namespace, so children that are forked after one have other numbers",
    "13-script-pty": "bash says that its job ended only where that is before its wait",
}


def programs():
    """Words by a name. What looks at states in /proc sees there natively that it is recorded, and is left out."""
    found = {it.name: ["bash", str(it)] for it in sorted((rig.TESTS / "programs").iterdir()) if it.name not in LEFT_OUT}
    found |= {it: [PYTHON, str(rig.TESTS / f"inside/{it}.py")] for it in ("carried", "all")}
    data = str(rig.TESTS / "inside/data.sh")
    byte_ways, lock_ways = (rig.compiled(it, "-pthread") for it in ("bytes", "locks"))
    found |= {f"data-{it}": [byte_ways, "behind", it, "bash", data] for it in ("0", "3", "30")}
    found |= {f"bytes-{it}": [byte_ways, it] for it in ("again", "executed", "read", "stacks", "taken")}
    found |= {f"locks-{it}": [lock_ways, it, "mapping"] for it in ("thread", "processes", "grandchild", "words")}
    return found


def run(name, words):
    """One run in the folder of the program."""
    home = f"{HOME}/{name}"
    os.makedirs(HOME, exist_ok=True)
    shutil.rmtree(home, ignore_errors=True)
    os.mkdir(home)
    os.chmod(home, 0o777)
    return rig.start(words, SECONDS, home, None)


def read_streams(file, before, executions):
    """The size and the sum of each stream, by thread, executions, descriptor and direction; others begin it."""
    found, ours = {}, set()
    for line in open(file, encoding="ascii"):
        thread, executed, descriptor, direction, size, total, *is_ours = line.split()
        if not (thread + ".").startswith(before + "."):
            continue
        own, executed = thread[len(before) + 1:], int(executed) - (executions if thread == before else 0)
        name = (own, executed, int(descriptor), direction)
        found[name] = (int(size), total)
        ours |= {name} if is_ours else set()
    return {name: it for name, it in found.items() if name[1] >= 0 and name not in ours}, ours


def natively(name, words):
    """In the kernel's namespace. There unshare(1), and for root setpriv(1), begin the program."""
    folder, own = rig.folder(), rig.AS_NOBODY if rig.IS_ROOT else []
    file, recorder = f"{folder}/sums", str(rig.OUT / "record")
    try:
        run(name, [recorder, file, *rig.KERNEL, *own, *words])
        return read_streams(file, "1.1", 1 + bool(own))[0]
    finally:
        shutil.rmtree(folder)


def in_box(name, words, box):
    """In the box: the streams, and the names of those that it has written."""
    folder = rig.folder()
    try:
        run(name, [*(rig.AS_NOBODY if rig.IS_ROOT else []), str(box), "--check", "--report", f"{folder}/report",
            "--data", f"{folder}/sums", *words])
        return read_streams(f"{folder}/sums", "1", 1)
    finally:
        shutil.rmtree(folder)


def same(runs):
    """The streams that are the same in all runs."""
    return {name: it for name, it in runs[0].items() if all(other.get(name) == it for other in runs)}


def compared(name, words, box):
    """The streams that are the same natively, each time, and that the box does not write; and those in the box."""
    steady = same([natively(name, words) for _ in range(NATIVE_RUNS)])
    found, ours = in_box(name, words, box)
    return {stream: it for stream, it in steady.items() if stream not in ours}, found


def differing(name, words, box=rig.BOX):
    """The streams that are others in the box, each time. How many were compared, and their bytes."""
    steady, found = compared(name, words, box)
    others = {stream: (it, found.get(stream)) for stream, it in steady.items() if found.get(stream) != it}
    if others:
        again, found = compared(name, words, box)
        others = {stream: it for stream, it in others.items() if again.get(stream) == it[0]
            and found.get(stream) != it[0]}
    return others, len(steady), sum(size for size, _ in steady.values())


# A fault of the box that changes bytes: a file of box/src, what is taken from it, what is put in its place, and the
# program that meets it.
PLANTED = (
    ("each read is a signalfd's", "signals.c",
        "\treturn readlink(link, found, sizeof found) == sizeof name - 1 && !memcmp(found, name, sizeof name - 1);",
     "\treturn readlink(link, found, sizeof found) > 0 || name[0];", "bytes-again"),
    ("a number of a lock is not given back", "translate.c",
        "\t\twrite_memory(thread->tid, lent->at, &lent->number, sizeof lent->number);", "\t\t(void)lent;", "carried"),
    ("a byte of a write is another one", "translate.c", "\tthread->call = call_row(&registers);",
     "\tthread->call = call_row(&registers);\n\tif (thread->data && registers_call(&registers) == 1 && registers_argument(&registers, 2) > 4000)\n"
     "\t\twrite_memory(thread->tid, registers_argument(&registers, 1) + 4000, \"~\", 1);", "data-0"),
)


def planted(tell, words):
    for name, file, old, new, program in PLANTED:
        found, _, _ = differing(program, words[program], faults.build(f"sums of {name}", file, old, new))
        if not found:
            tell.fault(f"sums: {name}", "not found")
    shutil.rmtree(rig.OUT / "fault")


def sums(tell):
    """Each stream that is not the same is a fault, also where the box has none of its name."""
    words, streams, size = programs(), 0, 0
    rig.compiled("record", rig.TOP / "box/src/data.c", rig.TOP / "box/src/registers.c")
    with concurrent.futures.ThreadPoolExecutor(AT_ONCE) as pool:
        looked = list(pool.map(differing, words, words.values()))
    for name, (found, count, length) in zip(words, looked):
        for stream, (native, box) in sorted(found.items()):
            tell.fault(f"sums of {name}", f"{stream}: natively {native}, in the box {box}")
        streams, size = streams + count, size + length
    tell.say("sums", f"{len(words)} programs, {streams} streams of {size} bytes")
    planted(tell, words)
    shutil.rmtree(HOME)
    tell.say("sums", f"{len(PLANTED)} changed bytes were planted, and each looked for")
