"""Devices that fail or stumble: each is told by its fault line and status, and no signal ends the program.

The lines and statuses are those of docs/SCRIPT.md, "Faults and exit statuses".
"""

import contextlib
import os
import resource
import signal
import subprocess
import tempfile
import threading
import time
import unittest

from hostile import builds_of, run

SCRIPT = b"fork 1 new\nfork 2\nnspid 1 3\ngetppid 2\n"
ANSWERS = b"child 2 root 2\nchild 2 root 3\n3 2\n0\n"
LIST = b"""task 1 space 0 parent 0 group 1 session 1 control 0 live
task 2,1 space 1 parent 1 group 1 session 1 control 0 live
task 3,2 space 1 parent 2 group 1 session 1 control 0 live
space 0 parent - cursor 4
space 1 parent 0 cursor 3
control 0 parent - limit max count 3
"""
ROOT_LIST = b"""task 1 space 0 parent 0 group 1 session 1 control 0 live
space 0 parent - cursor 2
control 0 parent - limit max count 1
"""
NO_WORK = b"worker 0\nrefused 0\nworker 1\nrefused 0\n" + ROOT_LIST

READ_FAULT = b"pidtab: read fault\n"
WRITE_FAULT = b"pidtab: write fault\n"
MOST_JOB_BYTES = 1_048_576


def cannot_read(name):
    return f"pidtab: cannot read {name}\n".encode()


class Devices(unittest.TestCase):
    def setUp(self):
        self.room = tempfile.TemporaryDirectory()
        self.job = self.file("job", SCRIPT)
        self.programs = builds_of("pidtab")
        # What each command writes on a good device.
        self.commands = {
            ("run",): ANSWERS,
            ("list",): LIST,
            ("work", self.job, "/dev/null"): self.written("work", self.job, "/dev/null"),
        }

    def tearDown(self):
        self.room.cleanup()

    def file(self, name, text):
        path = f"{self.room.name}/{name}"
        with open(path, "wb") as file:
            file.write(text)
        return path

    def written(self, *words):
        ran = run(self.programs[0], *words)
        self.assertEqual((ran.returncode, ran.stderr), (0, b""))
        return ran.stdout

    def each(self):
        """Each build with each command, and what it writes on a good device."""
        return ((program, words, text) for program in self.programs for words, text in self.commands.items())

    def assert_ran(self, ran, status, stdout, stderr):
        self.assertEqual((ran.returncode, ran.stdout, ran.stderr), (status, stdout, stderr), ran.args)


class Reads(Devices):
    def test_interrupted_read(self):
        """A read that a signal interrupts is a fault: the program installs no handler, so no signal does that to it."""
        for program, words, _ in self.each():
            ran = run(program, *words, given=SCRIPT, settings={"READ_BREAKS": 1})
            self.assert_ran(ran, 1, b"", cannot_read(self.job) if words[0] == "work" else READ_FAULT)

    def test_read_that_fails_in_the_middle(self):
        """The whole lines that were read are answered first."""
        for program in self.programs:
            ran = run(program, "run", given=SCRIPT + b"getpid", settings={"READ_BREAKS": 2})
            self.assert_ran(ran, 1, ANSWERS, READ_FAULT)
            ran = run(program, "list", given=SCRIPT, settings={"READ_BREAKS": 2})
            self.assert_ran(ran, 1, b"", READ_FAULT)

    def test_stopped_and_continued(self):
        """A stop in the middle of a read is none that is seen."""
        for program in self.programs:
            pipes = {"stdin": subprocess.PIPE, "stdout": subprocess.PIPE, "stderr": subprocess.PIPE}
            with subprocess.Popen([str(program), "run"], env={}, **pipes) as started:
                self.assertEqual(self.ask(started, b"fork 1\n"), b"child 2 root 2\n")
                for _ in range(3):
                    started.send_signal(signal.SIGSTOP)
                    os.waitid(os.P_PID, started.pid, os.WSTOPPED | os.WEXITED)
                    started.send_signal(signal.SIGCONT)
                    os.waitid(os.P_PID, started.pid, os.WCONTINUED | os.WEXITED)
                self.assertEqual(self.ask(started, b"fork 1\n"), b"child 3 root 3\n")
                self.assertEqual(started.communicate(timeout=60), (b"", b""))
            self.assertEqual(started.returncode, 0)

    @staticmethod
    def ask(started, line):
        started.stdin.write(line)
        started.stdin.flush()
        return started.stdout.readline()

    def test_read_that_would_wait(self):
        for program in self.programs:
            for command in ("run", "list"):
                with pipe() as (reader, writer):
                    os.set_blocking(reader, False)
                    ran = run(program, command, stdin=reader)
                    self.assert_ran(ran, 1, b"", READ_FAULT)

    def test_script_that_is_a_directory(self):
        for program in self.programs:
            for command in ("run", "list"):
                with descriptor(self.room.name, os.O_RDONLY) as folder:
                    self.assert_ran(run(program, command, stdin=folder), 1, b"", READ_FAULT)

    def test_long_line(self):
        for program in self.programs:
            ran = run(program, "run", given=b"a" * 1_000_000 + b"\ngetpid 1")
            self.assert_ran(ran, 0, b"bad line\n1\n", b"")

    def test_lines_with_other_bytes(self):
        for program in self.programs:
            ran = run(program, "run", given=b"\nfork 1\r\nfo\0rk 1\n\xff\nfork 1")
            self.assert_ran(ran, 0, b"bad line\n" * 3 + b"child 2 root 2\n", b"")


class Writes(Devices):
    def test_short_writes(self):
        for program, words, text in self.each():
            for most in (1, 3, 7):
                ran = run(program, *words, given=SCRIPT, settings={"WRITE_BYTES": most})
                self.assert_ran(ran, 0, text, b"")

    def test_short_write_of_a_fault_line(self):
        for program in self.programs:
            ran = run(program, "work", self.room.name, "/dev/null", settings={"WRITE_BYTES": 1})
            self.assert_ran(ran, 1, b"", cannot_read(self.room.name))

    def test_interrupted_write(self):
        """`run` stops; std's `write_all`, by which `list` and `work` write, makes the write again."""
        for program, words, text in self.each():
            ran = run(program, *words, given=SCRIPT, settings={"WRITE_BREAKS": 1})
            if words[0] == "run":
                self.assert_ran(ran, 1, b"", WRITE_FAULT)
            else:
                self.assert_ran(ran, 0, text, b"")

    def test_full_disk(self):
        for program, words, _ in self.each():
            with descriptor("/dev/full", os.O_WRONLY) as full:
                self.assert_ran(run(program, *words, given=SCRIPT, stdout=full), 1, None, WRITE_FAULT)

    def test_file_that_may_not_grow(self):
        """A file that takes so many bytes and no more has exactly these."""
        for program, words, text in self.each():
            for most in range(0, len(text), 11):
                path = self.file("output", b"")
                with descriptor(path, os.O_WRONLY) as file:
                    ran = run(program, *words, given=SCRIPT, stdout=file, **limited(most))
                self.assert_ran(ran, 1, None, WRITE_FAULT)
                with open(path, "rb") as file:
                    self.assertEqual(file.read(), text[:most])

    def test_closed_pipe(self):
        """A broken pipe is a write fault, although the program is started with SIGPIPE as it is by default."""
        for program, words, _ in self.each():
            with pipe() as (reader, writer):
                os.close(reader)
                self.assert_ran(run(program, *words, given=SCRIPT, stdout=writer), 1, None, WRITE_FAULT)
            with pipe() as (reader, writer):
                os.close(reader)
                ran = run(program, *words, given=SCRIPT, stdout=writer, stderr=writer)
                self.assert_ran(ran, 1, None, None)

    def test_pipe_closed_in_the_middle(self):
        for program in self.programs:
            pipes = {"stdin": subprocess.PIPE, "stdout": subprocess.PIPE, "stderr": subprocess.PIPE}
            with subprocess.Popen([str(program), "run"], env={}, **pipes) as started:
                started.stdin.write(b"fork 1\n")
                started.stdin.flush()
                self.assertEqual(started.stdout.readline(), b"child 2 root 2\n")
                started.stdout.close()
                started.stdin.write(b"fork 1\n")
                started.stdin.flush()
                self.assertEqual(started.stderr.read(), WRITE_FAULT)
                with contextlib.suppress(BrokenPipeError):
                    started.stdin.close()
                self.assertEqual(started.wait(60), 1)

    def test_write_that_would_wait(self):
        for program, words, _ in self.each():
            with pipe() as (reader, writer):
                os.set_blocking(writer, False)
                with contextlib.suppress(BlockingIOError):
                    while os.write(writer, b"-" * 4096):
                        pass
                ran = run(program, *words, given=SCRIPT, stdout=writer)
                self.assert_ran(ran, 1, None, WRITE_FAULT)

    def test_fault_line_that_cannot_be_written(self):
        for program, words, _ in self.each():
            with descriptor("/dev/full", os.O_WRONLY) as full:
                ran = run(program, *words, given=SCRIPT, stdout=full, stderr=full)
                self.assert_ran(ran, 1, None, None)
        for program in self.programs:
            with descriptor("/dev/full", os.O_WRONLY) as full:
                self.assert_ran(run(program, "no-command", stderr=full), 2, b"", None)


class ClosedStreams(Devices):
    def test_no_standard_input(self):
        for program, words, text in self.each():
            ran = run(program, *words, preexec_fn=lambda: os.close(0))
            self.assert_ran(ran, *((0, text, b"") if words[0] == "work" else (1, b"", READ_FAULT)))

    def test_no_standard_output(self):
        for program, words, _ in self.each():
            ran = run(program, *words, given=SCRIPT, preexec_fn=lambda: os.close(1))
            self.assert_ran(ran, 1, b"", WRITE_FAULT)

    def test_no_standard_error(self):
        for program, words, text in self.each():
            ran = run(program, *words, given=SCRIPT, preexec_fn=lambda: os.close(2))
            self.assert_ran(ran, 0, text, b"")
        for program in self.programs:
            ran = run(program, "work", self.room.name, "/dev/null", preexec_fn=lambda: os.close(2))
            self.assert_ran(ran, 1, b"", b"")

    def test_no_standard_streams(self):
        for program, words, _ in self.each():
            ran = run(program, *words, preexec_fn=lambda: os.closerange(0, 3))
            self.assert_ran(ran, 1, b"", b"")


class JobFiles(Devices):
    def assert_work(self, status, stdout, stderr, *files, **more):
        for program in self.programs:
            self.assert_ran(run(program, "work", *files, **more), status, stdout, stderr)

    def test_directory(self):
        folder = self.room.name
        self.assert_work(1, b"", cannot_read(folder), folder, "/dev/null")
        self.assert_work(1, b"", cannot_read(folder), self.job, folder)

    def test_no_file(self):
        missing = f"{self.room.name}/missing"
        self.assert_work(1, b"", cannot_read(missing), self.job, missing)
        self.assert_work(1, b"", cannot_read(f"{self.job}/below"), f"{self.job}/below", missing)

    def test_first_fault_is_told(self):
        bad = self.file("bad", b"\nfork 1\nfork\n")
        said = f"pidtab: {bad}: line 3: bad line\n".encode()
        self.assert_work(1, b"", said, bad, self.room.name)
        self.assert_work(1, b"", cannot_read(self.room.name), self.room.name, bad)

    def test_bad_line(self):
        """The first line that is no call is told, also one that is too long for any, and one without a newline."""
        cases = {b"fork\nmk 5\nlimit 0 5\n": 1, b"fork 1\nfork": 2, b"fork 1\n\nfork\nfork 1\n": 3, b"a" * 201: 1}
        for text, line in cases.items():
            bad = self.file("bad", text)
            self.assert_work(1, b"", f"pidtab: {bad}: line {line}: bad line\n".encode(), bad, "/dev/null")

    def test_fifo(self):
        """A FIFO is read to its end, as a file is."""
        fifo = f"{self.room.name}/fifo"
        os.mkfifo(fifo)
        for program in self.programs:
            feeder = threading.Thread(target=feed, args=(fifo, SCRIPT))
            feeder.start()
            ran = run(program, "work", fifo, "/dev/null")
            feeder.join()
            self.assert_ran(ran, 0, self.written("work", self.job, "/dev/null"), b"")

    def test_file_that_grows_while_it_is_read(self):
        """What is there when its end is met belongs to the job."""
        for program in self.programs:
            path = self.file("grows", SCRIPT)
            settings = {"GROW_AT": 2, "GROW_FILE": path, "GROW_LINE": "fork 1"}
            ran = run(program, "work", path, "/dev/null", settings=settings)
            self.assert_ran(ran, 0, self.written("work", self.file("all", SCRIPT + b"fork 1\n"), "/dev/null"), b"")

    def test_file_without_an_end(self):
        self.assert_work(1, b"", b"pidtab: /dev/zero: too long\n", "/dev/zero", "/dev/null")

    def test_longest_file(self):
        longest = self.file("longest", b"\n" * MOST_JOB_BYTES)
        self.assert_work(0, NO_WORK, b"", longest, longest)
        longer = self.file("longer", b"\n" * (MOST_JOB_BYTES + 1))
        self.assert_work(1, b"", f"pidtab: {longer}: too long\n".encode(), longest, longer)

    def test_last_bytes_of_the_longest_file(self):
        """A bad line is told where it ends within the bytes that a job may have."""
        last = f"line {MOST_JOB_BYTES}: bad line"
        cases = {b"\n" * (MOST_JOB_BYTES - 1) + b"a": last, b"\n" * (MOST_JOB_BYTES - 1) + b"a\n": "too long", b"a" * (MOST_JOB_BYTES + 1): "too long"}
        for text, said in cases.items():
            file = self.file("last", text)
            self.assert_work(1, b"", f"pidtab: {file}: {said}\n".encode(), file, "/dev/null")

    def test_interrupted_read_of_the_second_file(self):
        settings = {"READ_BREAKS": 3}
        self.assert_work(1, b"", cannot_read("/dev/null"), self.job, "/dev/null", settings=settings)

    def test_interrupted_read_in_a_line(self):
        """The front of a line is no line where its read fails."""
        front = self.file("front", b"fork 1\nfork")
        self.assert_work(1, b"", cannot_read(front), front, "/dev/null", settings={"READ_BREAKS": 2})


@contextlib.contextmanager
def descriptor(path, flags):
    number = os.open(path, flags)
    try:
        yield number
    finally:
        os.close(number)


@contextlib.contextmanager
def pipe():
    ends = os.pipe()
    try:
        yield ends
    finally:
        for end in ends:
            with contextlib.suppress(OSError):
                os.close(end)


def limited(most):
    """How a program is started whose files take so many bytes. SIGXFSZ stays ignored, as Python has it."""
    limit = lambda: resource.setrlimit(resource.RLIMIT_FSIZE, (most, most))
    return {"preexec_fn": limit, "restore_signals": False}


def feed(fifo, text):
    with open(fifo, "wb") as file:
        for at in range(0, len(text), 5):
            file.write(text[at : at + 5])
            file.flush()
            time.sleep(0.001)


if __name__ == "__main__":
    unittest.main()
