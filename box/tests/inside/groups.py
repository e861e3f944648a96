"""The files of a control group that have numbers: what is read of them, and that they are not opened for writing. Words: the folder of the group."""
import errno
import os
import subprocess
import sys


def of(function, *words):
    try:
        return function(*words)
    except OSError as fault:
        return errno.errorcode[fault.errno]


def numbers(file):
    with open(file, encoding="ascii") as lines:
        return sorted(int(it) for it in lines.read().split() if it != "0")


def main(group):
    child = subprocess.Popen(["sleep", "100"])
    print("read", numbers(f"{group}/cgroup.procs") == [os.getpid(), child.pid], numbers(f"{group}/tasks") == [os.getpid(), child.pid], flush=True)
    child.kill()
    child.wait()
    file, link = f"{group}/cgroup.procs", os.path.join(os.environ["HOME"], "link")
    os.symlink(file, link)
    folder, path = os.open(group, os.O_RDONLY), os.open(file, os.O_PATH)
    os.chdir(group)
    ways = {"its path": file, "a link": link, "its folder": "cgroup.procs", "a descriptor": f"/proc/self/fd/{path}", "tasks": f"{group}/tasks"}
    for way, name in ways.items():
        print("written by", way, of(os.open, name, os.O_WRONLY), of(os.open, name, os.O_RDWR | os.O_TRUNC), flush=True)
    print("at a folder", of(lambda: os.open("cgroup.procs", os.O_WRONLY, dir_fd=folder)), flush=True)
    print("another file", of(os.open, f"{group}/notify_on_release", os.O_WRONLY) in ("ENOENT", "EACCES") or "opened", flush=True)


main(sys.argv[1])
