"""Suites of others, in the kernel's namespace and in the box: Python's tests of processes, the kernel's, stress-ng."""
import concurrent.futures
import glob
import re
import shutil
import subprocess

from rig import IS_ROOT, OUT, in_box, in_kernel

PYTHON = "/usr/bin/python3"
SUITES = ("fork1 wait3 wait4 popen pty posix os subprocess signal threading multiprocessing_main_handling multiprocessing_fork asyncio "
          "concurrent_futures faulthandler").split()
LONG = ("concurrent_futures", "asyncio", "multiprocessing_fork", "signal", "subprocess")
AT_ONCE = 4
SUITE_SECONDS = 900
STRESSORS = ("fork vfork clone daemon exec kill session sigchld spawn zombie wait pidfd affinity vforkmany sigq sigfd sigsuspend schedpolicy get nice "
             "switch pty fault forkheavy").split()
STRESS_SECONDS = 1

# A test's line of `regrtest -v`, up to the next one.
TEST = re.compile(r"^(test\w+ \([\w.<>]+\))((?:(?!^test\w+ \().)*?)\.\.\. ((?:(?!^test\w+ \().)*)", re.MULTILINE | re.DOTALL)
OUTCOME = re.compile(r"\b(ok|FAIL|ERROR|skipped|expected failure)\b")


def outcomes(output):
    """The outcome of each test of a suite."""
    found = {}
    for test in TEST.finditer(output):
        outcome = OUTCOME.search(test[3])
        found[test[1]] = outcome[1] if outcome else "no outcome"
    return found


def is_there():
    """Whether Python's own tests are installed."""
    asked = subprocess.run([PYTHON, "-c", "import test.test_fork1"], capture_output=True, check=False)
    return asked.returncode == 0


def run_both(suite):
    words = ["tini", "-s", "--", PYTHON, "-m", "test.regrtest", "-v", "-u", "none", f"test_{suite}"]
    return suite, in_kernel(words, SUITE_SECONDS), in_box(words, f"python-{suite}", SUITE_SECONDS)


def python(tell):
    """Each suite: a failure is a test whose outcome in the box is another one. Most of them sleep, so several run at once."""
    if not is_there():
        return tell.skip("python", "no test.test_fork1 of /usr/bin/python3 (Debian: libpython3.11-testsuite)")
    ok = calls = 0
    with concurrent.futures.ThreadPoolExecutor(AT_ONCE) as pool:
        for suite, kernel, box in pool.map(run_both, sorted(SUITES, key=lambda it: it not in LONG)):
            one, other = outcomes(kernel.output), outcomes(box.output)
            for test in sorted(set(one) | set(other)):
                if one.get(test) != other.get(test):
                    tell.fault(f"python {suite} {test}", f"kernel {one.get(test)}, box {other.get(test)}")
            here = sum(it == "ok" for it in other.values())
            ok, calls = ok + here, calls + box.calls
            tell.say(f"python {suite}", f"{here} of {sum(it == 'ok' for it in one.values())} ok, {box.calls} calls")
            tell.differences(f"python {suite}", box)
    return tell.say("python", f"{ok} ok in the box, {calls} calls")


SOURCES = "/usr/src/linux-source-*.tar.xz"
TOPICS = ("pidfd", "pid_namespace", "clone3")
KERNEL_SECONDS = 240
RESULT = re.compile(r"^((?:not )?ok) \d+ (.*)", re.MULTILINE)


def kernel_tests(tell, archive):
    """The programs of the kernel's own tests, built in out/box/kernel of its sources."""
    folder = OUT / "kernel"
    folder.mkdir(parents=True, exist_ok=True)
    wanted = [f"*/tools/testing/selftests/{it}" for it in (*TOPICS, "kselftest*.h")]
    subprocess.run(["tar", "-xJf", archive, "-C", folder, "--strip-components=4", "--wildcards", *wanted], check=True)
    made = []
    for source in sorted(it for topic in TOPICS for it in folder.glob(f"{topic}/*.c")):
        program = folder / f"{source.stem}.built"
        if subprocess.run(["cc", "-O2", "-w", f"-I{folder}", "-o", program, source, "-pthread"], capture_output=True,
            check=False).returncode:
            tell.skip(f"kernel {source.stem}", "it does not compile with the headers of this machine")
        else:
            made.append(program)
    return made


def results(output):
    """Whether each test that was not skipped went well, by its name without what is said of this run."""
    return {re.sub(r"[\[(:].*|0x\w*$", "", name).strip(): word for word, name in RESULT.findall(output) if "# SKIP"
        not in name}


def kernel(tell):
    """The kernel's own tests of pidfds, PID namespaces and clone3: each has the same result in both."""
    archives = sorted(glob.glob(SOURCES))
    if not archives or not IS_ROOT:
        return tell.skip("kernel", f"no {SOURCES} (Debian: linux-source)" if not archives
            else "the kernel lets only root unshare")
    count = calls = 0
    for program in kernel_tests(tell, archives[-1]):
        what = f"kernel {program.stem}"
        one, box = in_kernel([program], KERNEL_SECONDS, as_root=True), in_box([program], f"kernel-{program.stem}",
            KERNEL_SECONDS, as_root=True)
        natively, inside = results(one.output), results(box.output)
        others = [it for it in natively if inside.get(it) != natively[it]]
        for name in others:
            tell.fault(what if what in tell.expected else f"{what} {name}",
                f"{name}: natively {natively[name]}, in the box {inside.get(name)}")
        count, calls = count + len(natively) - len(others), calls + box.calls
        tell.differences(what, box)
    return tell.say("kernel", f"{count} results of {archives[-1]} are the same, {calls} calls")


def stress(tell):
    """Each stressor with --verify: it ends well, and says no failure."""
    if not shutil.which("stress-ng"):
        return tell.skip("stress", "no stress-ng")
    for stressor in STRESSORS:
        words = ["tini", "-s", "--", "stress-ng", f"--{stressor}", "2", "--timeout", f"{STRESS_SECONDS}s", "--verify", "--temp-path", "."]
        kernel, box = in_kernel(words, 120), in_box(words, f"stress-{stressor}", 120)
        failures = re.findall(r"(?:fail|error): .*", box.output)
        if box.status != kernel.status or failures:
            tell.fault(f"stress {stressor}", f"kernel {kernel.status}, box {box.status} {' '.join(failures[:1])}")
        tell.differences(f"stress {stressor}", box)
    return tell.say("stress", f"{len(STRESSORS)} stressors")
