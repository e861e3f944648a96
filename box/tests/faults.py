"""Faults that are planted in the box, one at a time: the check has to report each."""
import re
import shutil
import subprocess

from rig import OUT, TESTS, TOP, in_box

# A name; a file of box/src, what is taken from it, and what is put in its place; and the program that meets it.
FAULTS = (
    ("no subreaper", "tracer.c", "PR_SET_CHILD_SUBREAPER, 1, 0, 0", "PR_SET_CHILD_SUBREAPER, 0, 0, 0", "nested"),
    ("no setpgid of the kernel", "groups.c", "\treturn translate(thread, registers);", "\treturn answer_with(thread, thread->told);", "groups"),
    ("no setsid of the kernel", "groups.c", "&& !checking ? answer_with(thread, thread->told) : watch(thread, registers)",
     "|| registers ? answer_with(thread, thread->told) : GO", "groups"),
    ("an exec is not told", "tracer.c", "table_do(PIDTAB_EXEC, process->root, 0, 0);", "(void)0;", "executed"),
    ("a wait reaps another", "life.c", "number, PIDTAB_CHILD)", "number, PIDTAB_ANY)", "waits"),
    ("a subreaper is not told", "groups.c", "table_do(PIDTAB_SUBREAPER, thread->process->root, 0, registers_argument(registers, 1) != 0);",
     "(void)0;", "orphan"),
    ("a number is another one", "names.c", "return numbers_of(name, caller, numbers) ? numbers[0] : 0;",
     "return numbers_of(name, caller, numbers) ? numbers[0] + (numbers[0] == 4) : 0;", "groups"),
    ("an exit tells no adoption", "table.c", "!is_init && !table_first(SUPERVISOR, PIDTAB_CHILDREN, caller)",
     "!is_init", "orphan"),
    ("a session is its group", "groups.c", "return table_do(call->operation, thread->process->root, number, 0);",
     "return table_do(PIDTAB_GETPGID, thread->process->root, number, 0);", "groups"),
)


def build(name, file, old, new):
    """The box with the fault."""
    folder = OUT / "fault" / re.sub(r"\W+", "-", name)
    shutil.rmtree(folder, ignore_errors=True)
    shutil.copytree(TOP / "box/src", folder)
    text = (folder / file).read_text(encoding="utf-8")
    if text.count(old) != 1:
        raise ValueError(f"{name}: {file} has {text.count(old)} times {old}")
    (folder / file).write_text(text.replace(old, new), encoding="utf-8")
    made = folder / "pidtab-box"
    subprocess.run(["cc", "-std=c11", "-O1", "-w", f"-I{TOP}/bindings/c", "-o", made, *sorted(folder.glob("*.c")), TOP / "out/libpidtab.a", "-pthread"],
                   check=True)
    return made


def clear():
    """Nothing is left of the faults that were planted."""
    shutil.rmtree(OUT / "fault")
    for log in OUT.glob("fault-*"):
        log.unlink()


def faults(tell):
    """A fault is found where a difference is reported, or the box stops over it. Without one nothing is."""
    script = str(TESTS / "inside/faulty.py")
    for program in sorted({it[4] for it in FAULTS}):
        clean = in_box(["/usr/bin/python3", script, program], f"clean-{program}")
        if clean.differences or clean.status:
            tell.fault(f"faults {program}", f"without a fault: {clean.kinds()} {clean.output}")
    for name, file, old, new, program in FAULTS:
        made = build(name, file, old, new)
        run = in_box(["/usr/bin/python3", script, program], f"fault-{program}", 20, box=made)
        if not run.differences:
            tell.fault(f"fault: {name}", f"not reported: {run.output}")
    clear()
    tell.say("faults", f"{len(FAULTS)} planted, and each looked for")
