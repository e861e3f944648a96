"""A shell's job control on a terminal, driven by what it prints: each step waits for its answer, and for a state that it has to meet first."""
import os
import pty
import re
import select
import signal
import sys
import time

PATIENCE = 20
PROMPT = "ready>"


class Late(Exception):
    """What was waited for did not come."""


class Shell:
    """A shell on a terminal of its own."""

    def __init__(self, *words):
        self.pid, self.file = pty.fork()
        if self.pid == 0:
            signal.signal(signal.SIGINT, signal.SIG_DFL) # in the background of a shell it is ignored
            os.execvpe(words[0], words, {"PS1": PROMPT, "PATH": os.environ["PATH"], "TERM": "dumb", "HISTFILE": ""})
        self.text = ""

    def read_until(self, wanted):
        """What comes before the words that are waited for, and with them."""
        end = time.monotonic() + PATIENCE
        while wanted not in self.text:
            if time.monotonic() > end or not select.select([self.file], [], [], PATIENCE)[0]:
                raise Late(f"{wanted!r} after {self.text!r}")
            self.text += os.read(self.file, 4096).decode(errors="replace")
        before, _, self.text = self.text.partition(wanted)
        return before

    def type(self, line):
        os.write(self.file, line.encode())

    def ask(self, line):
        """Types a line, and reads up to the next prompt."""
        self.type(line + "\n")
        self.read_until("\n")
        return self.read_until(PROMPT)

    def job_in_front(self, sleepers):
        """Waits until so many processes of the job in front sleep. Before, a key goes to the shell, or stops a part of the job alone."""
        end = time.monotonic() + PATIENCE
        while members(os.tcgetpgrp(self.file)).count("sleep") < sleepers:
            if time.monotonic() > end:
                raise Late("the job in front")
            time.sleep(0.01)

    def begin(self, line, sleepers=1):
        """Types a line that starts a job in front."""
        self.type(line + "\n")
        self.read_until("\n")
        self.job_in_front(sleepers)

    def press(self, key):
        self.type(key)
        return self.read_until(PROMPT)


def stat_of(pid):
    """The name, the state, the parent and the group of a process."""
    with open(f"/proc/{pid}/stat", encoding="utf-8") as text:
        head, _, rest = text.read().rpartition(")")
    return [head.partition("(")[2], *rest.split()[:3]]


def members(group):
    """The names of the processes in a group."""
    found = []
    for pid in filter(str.isdigit, os.listdir("/proc")):
        try:
            name, _, _, its_group = stat_of(pid)
        except OSError:
            continue
        if int(its_group) == group:
            found.append(name)
    return found


def state_of(pid):
    return stat_of(pid)[1]


def until_state(pid, wanted):
    end = time.monotonic() + PATIENCE
    while state_of(pid) != wanted:
        if time.monotonic() > end:
            raise Late(f"state {wanted} of {pid}")
        time.sleep(0.01)


def until_gone(shell, pid):
    """Until the shell has reaped it: else an exit is refused, as for a stopped job. Some shells look only where they are asked."""
    end = time.monotonic() + PATIENCE
    while os.path.exists(f"/proc/{pid}"):
        if time.monotonic() > end:
            raise Late(f"the end of {pid}")
        shell.ask("jobs")


def say(what, *words):
    print(what, *words, flush=True)


def drive(shell):
    shell.read_until(PROMPT)
    say("groups", shell.ask("echo $$").strip() == str(shell.pid), os.tcgetpgrp(shell.file) == shell.pid)
    shell.begin("sleep 100")
    job = os.tcgetpgrp(shell.file)
    say("stopped by ^Z", "Stopped" in shell.press("\x1a"), state_of(job), os.tcgetpgrp(shell.file) == shell.pid)
    say("jobs", "Stopped" in shell.ask("jobs"))
    shell.begin("fg")
    say("in front again", os.tcgetpgrp(shell.file) == job)
    shell.press("\x03")
    say("ended by ^C", shell.ask("echo st $?").strip())
    shell.begin("sleep 50 | sleep 60", 2)
    pipeline = os.tcgetpgrp(shell.file)
    say("a pipeline stopped", "Stopped" in shell.press("\x1a"), state_of(pipeline))
    shell.ask("bg")
    until_state(pipeline, "S")
    say("goes on behind", state_of(pipeline))
    shell.ask("kill -9 %1")
    say("waited for", "done" in shell.ask("wait; echo done"))
    shell.ask("cat & reader=$!")
    reader = int(re.search(r"\d+", shell.ask("echo $reader"))[0])
    until_state(reader, "T")
    say("a reader behind is stopped", state_of(reader))
    shell.ask("kill -9 $reader")
    until_gone(shell, reader)
    say("reaped", not os.path.exists(f"/proc/{reader}"))
    shell.type("exit 5\n")
    say("status", os.waitstatus_to_exitcode(os.waitpid(shell.pid, 0)[1]))


def main():
    def ring(*_):
        raise Late("the end")

    shell = Shell(*sys.argv[1:])
    signal.signal(signal.SIGALRM, ring)
    signal.alarm(PATIENCE * 4)
    try:
        drive(shell)
    except Late as late:
        say("late:", late)
        os.kill(shell.pid, signal.SIGKILL)


main()
