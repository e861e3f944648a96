"""What is stored: scripts with their answers and lists, a transcript of commands, and words of the command line.

The folder `stored` has `scripts`, each below a line `# NAME PID_MAX`, which ends in ` listed` where the list of the table
that the script leaves is stored too; `answers`, with the same heads; and `commands`. There a line is `$ pidtab WORD ..`, and
` < FILE` at its end gives the command the file as its standard input, which is empty otherwise. Below it stand the
command's output, its line on standard error, if any, and a line `status K`, if its exit status K is not 0. A run of lines is one
line there: `stored/stored.py` writes it out.
"""

import os
import pathlib
import re
import resource
import subprocess
import sys
import tempfile
import threading
import time
import unittest

from hostile import TOP, builds_of, run

sys.path.insert(0, str(TOP / "stored"))
import stored  # noqa: E402

DATA = TOP / "stored" / "data"

USAGE = (2, b"", b"pidtab: usage\n")
READ_FAULT = b"pidtab: read fault\n"
WRITE_FAULT = b"pidtab: write fault\n"

# A namespace below the root, and who sees whom.
NESTED = b"fork 1 new\nfork 2\nnspid 1 3\nnspid 2 2\nnspid 2 3\ngetppid 2\ngetpgid 2 0\ngetsid 1 3\n"
NESTED_ANSWERS = b"child 2 root 2\nchild 2 root 3\n3 2\n2\nESRCH no-task\n0\n0\n1\n"

# What two jobs write, of which the first makes a fork and the second no call.
TWO_JOBS = b"""worker 0
0 child 2 root 2
refused 0
worker 1
refused 0
task 1 space 0 parent 0 group 1 session 1 control 0 live
task 2 space 0 parent 1 group 1 session 1 control 0 live
space 0 parent - cursor 3
control 0 parent - limit max count 2
"""

# As many forks as there are numbers below 302: the last finds none, if the bound is 301.
FORKS = 300
NO_NUMBER = b"EAGAIN no-number 0"
USUAL, NARROW = False, True


def parts_of(text, sign):
    """The parts of a text, each of which begins with the sign at the start of a line: the rest of that line, and the lines below it."""
    return [(part + b"\n").partition(b"\n")[::2] for part in (b"\n" + text[:-1]).split(b"\n" + sign)[1:]]


def stored_parts(name, sign):
    """The parts of a stored file."""
    return parts_of(stored.read(name), sign)


class Stored(unittest.TestCase):
    def setUp(self):
        self.programs = builds_of("pidtab")

    def assert_ran(self, ran, status, stdout, stderr):
        self.assertEqual((ran.returncode, ran.stdout, ran.stderr), (status, stdout, stderr), ran.args)

    def written(self, program, *words, given=b""):
        """What a command writes that ends well."""
        ran = run(program, *words, given=given, cwd=DATA)
        self.assertEqual((ran.returncode, ran.stderr), (0, b""), ran.args)
        return ran.stdout


class Scripts(Stored):
    def test_scripts(self):
        scripts, answers = stored_parts("scripts", b"# "), stored_parts("answers", b"# ")
        self.assertEqual([head for head, _ in scripts], [head for head, _ in answers])
        for program in self.programs:
            for (head, lines), (_, told) in zip(scripts, answers):
                with self.subTest(program=program.name, script=head):
                    self.assertEqual(self.play(program, head.decode().split(" "), lines), told)

    def play(self, program, words, lines):
        bound = ["--pid-max", words[1]]
        listed = self.written(program, "list", *bound, given=lines) if words[2:] else b""
        return self.written(program, "run", *bound, given=lines) + listed

    def test_commands(self):
        for program in self.programs:
            for line, told in stored_parts("commands", b"$ pidtab"):
                with self.subTest(program=program.name, line=line):
                    self.assertEqual(self.command(program, line.decode()), told)

    @staticmethod
    def command(program, line):
        """What a command writes, to both streams, and the line of its status."""
        words, _, file = line.partition(" < ")
        given = (DATA / file).read_bytes() if file else b""
        ran = run(program, *words.split(" ")[1:], given=given, cwd=DATA)
        status = f"status {ran.returncode}\n" if ran.returncode else ""
        return ran.stdout + ran.stderr + status.encode()


class Words(Stored):
    """Which words ask for which command, with which bound of numbers and which files."""

    def setUp(self):
        super().setUp()
        self.room = tempfile.TemporaryDirectory()

    def tearDown(self):
        self.room.cleanup()

    def ran(self, program, words, given=b""):
        return run(program, *words, given=given, cwd=self.room.name)

    def each(self, cases):
        return ((program, words) for program in self.programs for words in cases)

    def test_run_and_list(self):
        cases = {
            ("run",): USUAL,
            ("run", "--"): USUAL,
            ("run", "--pid-max", "32768"): USUAL,
            ("run", "--pid-max=32768"): USUAL,
            ("run", "--pid-max", "32768", "--"): USUAL,
            ("list",): USUAL,
            ("list", "--pid-max", "301"): NARROW,
        }
        for program, words in self.each(cases):
            ran = self.ran(program, words, given=b"fork 1\n" * FORKS)
            self.assertEqual((ran.returncode, ran.stderr), (0, b""), words)
            lines = ran.stdout.splitlines()
            if words[0] == "run":
                self.assertEqual((len(lines), lines[-1]), (FORKS, b"child 301 root 301"), words)
            else:
                last, cursor = (300, 301) if cases[words] == NARROW else (301, 302)
                self.assertIn(f"task {last} space 0 parent 1 group 1 session 1 control 0 live\nspace 0 parent - cursor {cursor}\n".encode(), ran.stdout)

    def write_job(self, name, place):
        """A job that fills a narrow table alone, and is known by how many more calls it has."""
        pathlib.Path(self.room.name, name).write_bytes(b"fork 1\n" * FORKS + b"getpid 1\n" * place)

    def test_work(self):
        names = ["a", "b", "c", "-", "--help", "--pid-max", "301", "--", "-x"]
        for place, name in enumerate(names):
            self.write_job(name, place)
        cases = [
            (["work", "a", "b"], USUAL, ["a", "b"]),
            (["work", "a", "a"], USUAL, ["a", "a"]),
            (["work", "b", "c", "a"], USUAL, ["b", "c", "a"]),
            (["work", "--pid-max", "301", "a", "b"], NARROW, ["a", "b"]),
            (["work", "a", "--pid-max", "301", "b"], NARROW, ["a", "b"]),
            (["work", "a", "--pid-max=301", "b", "c"], NARROW, ["a", "b", "c"]),
            (["work", "a", "b", "--pid-max=301"], NARROW, ["a", "b"]),
            (["work", "--", "a", "b"], USUAL, ["a", "b"]),
            (["work", "a", "--", "b"], USUAL, ["a", "b"]),
            (["work", "--pid-max", "301", "--", "-", "--help"], NARROW, ["-", "--help"]),
            (["work", "--", "--pid-max", "301"], USUAL, ["--pid-max", "301"]),
            (["work", "a", "--", "--", "-x"], USUAL, ["a", "--", "-x"]),
        ]
        for program, (words, narrow, files) in self.each(cases):
            ran = self.ran(program, words)
            self.assertEqual((ran.returncode, ran.stderr), (0, b""), words)
            self.assertEqual(self.jobs_in(ran.stdout), [FORKS + names.index(name) for name in files], words)
            self.assertEqual(NO_NUMBER in ran.stdout, narrow, words)

    def jobs_in(self, text):
        """How many calls each worker was answered, in the order of the workers."""
        works = parts_of(text, b"worker ")
        self.assertEqual([int(worker) for worker, _ in works], list(range(len(works))))
        return [below.partition(b"refused 0\n")[0].count(b"\n") for _, below in works]

    def test_counts_job_files(self):
        self.write_job("a", 0)
        for program, count in self.each(range(20)):
            ran = self.ran(program, ["work", *["a"] * count])
            if 2 <= count <= 16:
                self.assertEqual((ran.returncode, ran.stderr), (0, b""), count)
            else:
                self.assert_ran(ran, *USAGE)

    def test_other_words(self):
        cases = [
            [],
            ["walk"],
            ["run", "file"],
            ["run", "--", "file"],
            ["--pid-max", "301", "run"],
            ["run", "--pid-max"],
            ["run", "--pid-max="],
            ["run", "--pid-max", "300"],
            ["run", "--pid-max", "4194305"],
            ["run", "--pid-max", "0301"],
            ["run", "--pid-max", "+301"],
            ["run", "--pid-max", "301", "--pid-max", "301"],
            ["run", "--pid", "301"],
            ["run", "--help"],
            ["--help"],
            ["help"],
            ["work", "a", "b", "--help"],
            ["work", "-h", "a", "b"],
            ["work", "-x", "a", "b"],
            ["work", "a", "b", "--pid-max", "300"],
            ["work", "a", "b", "--pid-max"],
            ["work", "a", "b", "--pid-max", ""],
            ["work", "--pid-max=301", "a", "b", "--pid-max=301"],
            ["work", "a", "--pid-max", "301"],
        ]
        for name in "ab":
            self.write_job(name, 0)
        for program, words in self.each(cases):
            self.assert_ran(self.ran(program, words), *USAGE)


class LongRuns(Stored):
    """A long run takes the memory of its table, and not of its length."""

    # With an entry of 64 bytes for each call they would take 125,000 KiB.
    CALLS = 2_000_000
    MOST_KIB = 65_536

    def test_long_run_takes_little_memory(self):
        for program in self.programs:
            with tempfile.TemporaryFile() as answers:
                with subprocess.Popen([str(program), "run"], env={}, stdin=subprocess.PIPE, stdout=answers) as started:
                    sender = threading.Thread(target=self.send, args=(started.stdin,))
                    sender.start()
                    self.wait_for(answers, started)
                    sender.join()
                    self.assertLessEqual(self.peak_kib(started.pid), self.MOST_KIB)
                    started.stdin.close()
                self.assertEqual(started.returncode, 0)
                answers.seek(0)
                self.assertEqual(answers.read(), b"1\n" * self.CALLS)

    def send(self, pipe):
        for _ in range(self.CALLS // 1000):
            pipe.write(b"getpid 1\n" * 1000)
        pipe.flush()

    def wait_for(self, answers, started):
        """Waits until all is answered, for a minute at most."""
        for _ in range(600):
            if os.fstat(answers.fileno()).st_size >= 2 * self.CALLS:
                return
            time.sleep(0.1)
        started.kill()
        self.fail("no answers")

    @staticmethod
    def peak_kib(number):
        """`VmHWM` of `proc_pid_status(5)`."""
        return int(re.search(r"^VmHWM:\s*(\d+) kB$", pathlib.Path(f"/proc/{number}/status").read_text(), re.MULTILINE)[1])


class Devices(Stored):
    """At which byte a device fails."""

    def test_whole_lines_are_answered_before_a_read_fault(self):
        for program in self.programs:
            for count in range(len(NESTED) + 1):
                given = NESTED[:count]
                answers = NESTED_ANSWERS.splitlines(True)[: given.count(b"\n")]
                ran = run(program, "run", given=given, settings={"READ_BREAKS": 2 if given else 1})
                self.assert_ran(ran, 1, b"".join(answers), READ_FAULT)

    def assert_written(self, program, words, given, text, room):
        """The command writes the text to a file that takes so many bytes and no more."""
        with tempfile.TemporaryFile() as file:
            limit = lambda: resource.setrlimit(resource.RLIMIT_FSIZE, (room, room))
            ran = run(program, *words, given=given, stdout=file, cwd=DATA, preexec_fn=limit, restore_signals=False)
            file.seek(0, os.SEEK_SET)
            self.assertEqual(file.read(), text[:room], ran.args)
        self.assert_ran(ran, *((0, None, b"") if room >= len(text) else (1, None, WRITE_FAULT)))

    def test_what_fits_is_written_before_a_write_fault(self):
        for program in self.programs:
            for room in range(len(NESTED_ANSWERS) + 1):
                self.assert_written(program, ["run"], NESTED, NESTED_ANSWERS, room)

    def test_work_that_does_not_fit(self):
        for program in self.programs:
            for room in (0, 8, 20, 60, len(TWO_JOBS) - 1, len(TWO_JOBS)):
                self.assert_written(program, ["work", "fork.script", "/dev/null"], b"", TWO_JOBS, room)

    def test_answers_that_do_not_fit(self):
        listed = TWO_JOBS.partition(b"worker 1\nrefused 0\n")[2]
        for program in self.programs:
            self.assert_written(program, ["run"], b"fork 1\n", b"child 2 root 2\n", 5)
            self.assert_written(program, ["list"], b"fork 1\n", listed, 5)


if __name__ == "__main__":
    unittest.main()
