"""What /proc says of processes that the caller knows, by each call that opens by path. Each line is the same in a namespace of the kernel."""
import os
import signal
import subprocess
import time


def say(what, *words):
    print(what, *words, flush=True)


def fields(path):
    with open(path, encoding="utf-8") as lines:
        return dict(line.rstrip("\n").split(":\t", 1) for line in lines if ":\t" in line)


def stat(path):
    with open(path, encoding="utf-8") as text:
        head, _, rest = text.read().rpartition(")")
    return [head.split()[0], *rest.split()[:5]]


def of(function, *words):
    try:
        return function(*words)
    except OSError as fault:
        return os.strerror(fault.errno)


def numbers(folder):
    return sorted(int(it) for it in os.listdir(folder) if it.isdigit())


def output(*words):
    return subprocess.run(words, capture_output=True, text=True, check=False).stdout.split()


def main():
    me = os.getpid()
    child = os.fork()
    if child == 0:
        os.setpgid(0, 0)
        os.execvp("sleep", ["sleep", "1234"])
    while fields(f"/proc/{child}/status")["Name"] != "sleep" or os.getpgid(child) != child:
        time.sleep(0.01)
    say("self", os.readlink("/proc/self") == str(me), os.readlink("/proc/thread-self") == f"{me}/task/{me}", fields("/proc/self/status")["Pid"] == str(me))
    said = fields(f"/proc/{child}/status")
    say("status", [said[it] for it in ("Tgid", "Pid", "PPid", "NSpid", "NSpgid")] == [str(child), str(child), str(me), str(child), str(child)])
    say("stat", stat(f"/proc/{child}/stat")[0] == str(child), stat(f"/proc/{child}/stat")[2:4] == [str(me), str(child)])
    say("listing", numbers("/proc") == sorted({1, me, child}), numbers(f"/proc/{child}/task") == [child])
    say("stat of a folder", os.stat(f"/proc/{child}").st_mode, of(os.stat, "/proc/999"), of(os.readlink, "/proc/999/exe"))
    say("links", os.path.basename(os.readlink(f"/proc/{child}/exe")), os.readlink(f"/proc/{child}/cwd") == os.getcwd())
    say("access", os.access(f"/proc/{child}/stat", os.R_OK), os.access("/proc/999", os.F_OK))
    say("up", of(os.stat, f"/proc/{me}/../999"), stat(f"/proc/{me}/task/../../{child}/stat")[0] == str(child))
    folder = os.open("/proc", os.O_RDONLY)
    for name in (str(child), f"{child}/status", "self/stat", "999"):
        say("by a folder", of(lambda: os.stat(name, dir_fd=folder).st_size))
    file = os.open(f"{child}/stat", os.O_RDONLY, dir_fd=folder)
    say("opened so", os.read(file, 100).split()[0] == str(child).encode())
    say("without a link", of(lambda: os.read(os.open(f"/proc/{child}/stat", os.O_RDONLY | os.O_NOFOLLOW), 100).split()[0]) == str(child).encode(),
        of(os.open, "/proc/self", os.O_NOFOLLOW), of(lambda: os.close(os.open("status", os.O_NOFOLLOW, dir_fd=os.open("/proc/self", os.O_RDONLY)))))
    os.chdir(f"/proc/{child}")
    say("in its folder", stat("stat")[0] == str(child), fields("status")["PPid"] == str(me))
    os.chdir("/proc")
    say("in /proc", fields(f"{child}/status")["Pid"] == str(child))
    os.kill(child, signal.SIGSTOP)
    os.waitpid(child, os.WUNTRACED)
    say("stopped", stat(f"/proc/{child}/stat")[1], fields(f"/proc/{child}/status")["State"])
    os.kill(child, signal.SIGCONT)
    say("procps", output("pidof", "sleep") == [str(child)], output("pgrep", "sleep") == [str(child)], output("pgrep", "-P", str(me), "sleep") == [str(child)],
        output("ps", "-o", "pid=,ppid=,pgid=,comm=", "-p", str(child)) == [str(child), str(me), str(child), "sleep"])
    say("ps", len([it for it in output("ps", "-e", "-o", "comm=") if it == "sleep"]), "1" in output("ps", "-e", "-o", "pid="))
    subprocess.run("kill $(pidof sleep)", shell=True, check=False)
    say("killed by pidof", os.waitpid(child, 0)[1], of(os.stat, f"/proc/{child}"))


main()
