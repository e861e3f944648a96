"""How the tests run a program: in a PID namespace of the kernel, and in the box; as nobody where they can."""
import os
import pathlib
import re
import shutil
import subprocess
import tempfile

TESTS = pathlib.Path(__file__).resolve().parent
TOP = TESTS.parent.parent
BOX = pathlib.Path(os.environ.get("PIDTAB_BOX", TOP / "out/pidtab-box"))
PROGRAM = pathlib.Path(os.environ.get("PIDTAB", TOP / "crates/pidtab/out/pidtab"))
OUT = TOP / "out/box"
NOBODY = "65534"
AS_NOBODY = ["setpriv", f"--reuid={NOBODY}", f"--regid={NOBODY}", "--clear-groups"]
IS_ROOT = os.geteuid() == 0
KERNEL = ["unshare", *([] if IS_ROOT else ["--user", "--map-current-user"]), "--pid", "--fork", "--mount-proc", "--kill-child"]
SUMMARY = re.compile(r"pidtab-box: calls (\d+) stops (\d+) checks (\d+) differences (\d+) hidden (\d+)")


def has_kernel_namespaces():
    """Whether this machine lets this user make PID namespaces."""
    return subprocess.run([*KERNEL, "true"], capture_output=True, check=False).returncode == 0


def compiled(name, *more):
    """A C program of the tests, with options and other sources, built in out/box."""
    OUT.mkdir(parents=True, exist_ok=True)
    made = OUT / name
    subprocess.run(["cc", "-std=c11", "-O2", "-Wall", "-Wextra", "-Werror", "-o", made, TESTS / f"{name}.c", *more], check=True)
    return str(made)


def checked_box():
    """The box that looks at its own state behind each event."""
    OUT.mkdir(parents=True, exist_ok=True)
    made = OUT / "checked"
    subprocess.run(["cc", "-std=c11", "-O1", "-g", "-DCHECKS_STAGES", f"-I{TOP}/bindings/c", "-o", made, *sorted((TOP / "box/src").glob("*.c")),
                    TOP / "out/libpidtab.a", "-pthread"], check=True)
    return made


def folder():
    """A folder for one run, which nobody may write to."""
    made = tempfile.mkdtemp(prefix="pidtab-box-")
    os.chmod(made, 0o777)
    return made


class Run:
    """What a run printed, how it ended, and what the box says of it."""

    def __init__(self, output, status, base=None):
        self.output, self.status, self.base = output, status, base
        self.report = pathlib.Path(f"{base}.report").read_text(encoding="utf-8", errors="replace") if base and os.path.exists(f"{base}.report") else ""
        found = SUMMARY.search(self.report)
        self.calls, self.stops, self.checks, self.differences, self.hidden = (int(it) for it in found.groups()) if found else (0,) * 5

    def kinds(self):
        """The differences that were reported, without numbers, each with its count."""
        found = {}
        for line in re.findall(r"difference: log line \d+: (.*)", self.report):
            kind = re.sub(r" of \d+:", ":", line)
            kind = kind if "setpgid" in kind else kind.partition(":")[0]
            found[kind] = found.get(kind, 0) + 1
        return found


def environment(home):
    return {"PATH": "/usr/local/bin:/usr/bin:/bin:/usr/sbin:/sbin" if not IS_ROOT else "/usr/bin:/bin:/usr/sbin:/sbin",
            "HOME": home, "TMPDIR": home, "LANG": "C.UTF-8", "PYTHONDONTWRITEBYTECODE": "1", "PYTHONHASHSEED": "0"}


def start(words, seconds, home, stdin):
    """Runs words in a folder: the output with the errors, and the status; 124 where the time was up."""
    try:
        done = subprocess.run(words, stdin=stdin or subprocess.DEVNULL, stdout=subprocess.PIPE, stderr=subprocess.STDOUT, timeout=seconds,
                              cwd=home, env=environment(home), check=False, start_new_session=True)
        return done.stdout.decode(errors="replace"), done.returncode
    except subprocess.TimeoutExpired as late:
        return (late.stdout or b"").decode(errors="replace") + "\ntime is up\n", 124


def in_kernel(words, seconds=60, as_root=False, stdin=None):
    """In a PID namespace of the kernel, whose init is the program."""
    home = folder()
    try:
        return Run(*start([*KERNEL, *(AS_NOBODY if IS_ROOT and not as_root else []), *words], seconds, home, stdin))
    finally:
        shutil.rmtree(home, ignore_errors=True)


def in_box(words, name, seconds=60, options=("--check",), box=BOX, stdin=None, before=(), as_root=False):
    """In the box, with its log, answers and report in out/box."""
    home = folder()
    OUT.mkdir(parents=True, exist_ok=True)
    base = pathlib.Path(home, "run")
    own = [*before, str(box), *options, "--log", f"{base}.log", "--answers", f"{base}.answers", "--report", f"{base}.report"]
    try:
        output, status = start([*(AS_NOBODY if IS_ROOT and not as_root else []), *own, *words], seconds, home, stdin)
        for kind in ("log", "answers", "report"):
            if os.path.exists(f"{base}.{kind}"):
                shutil.copy(f"{base}.{kind}", OUT / f"{name}.{kind}")
        return Run(output, status, OUT / name)
    finally:
        shutil.rmtree(home, ignore_errors=True)
