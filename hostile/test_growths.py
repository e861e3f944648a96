"""Every growth refused in turn: want of memory is the answer, nothing has changed, and the same call then answers.

`demo_no_memory` itself compares its table before and after a call that found no memory, and stops where they differ.
Here its growths are refused, and what it writes is compared with what it writes undisturbed.
"""

import itertools
import subprocess
import unittest

from hostile import ALL, NO_MEMORY, TOP, Report, builds_of, environment, run

CRATE = TOP / "crates" / "demo_no_memory"
STEPS = (CRATE / "stdin").read_bytes()
UNDISTURBED = (CRATE / "stdout").read_text()

# How each run begins that refuses the N-th growth: alone, with the next one, and with all after it.
COUNTS = (1, 2, ALL)

# What is to be refused at some growth or other, by the first word of its step; `getpid` grows the history alone. A checkpoint is refused at
# none: the opening moves on by the kept calls, and a call that finds no memory there waits.
TAKE_MEMORY = set("new opening fork mk reserve snapshot list dump job run state".split())

# It makes a call once more on the spot, so it takes two refusals to have the array filled from the start.
TWICE = {"array"}

SCRIPT = "fork 1;fork 1 new;mk 0;limit 3 2;move 2 3;fork 2;fork 2;fork 3;exit 2 0;wait 1 any;count 3;nspid 1 3;getpid 9"


class Try:
    """One try of a step: its heading, and the lines that follow."""

    def __init__(self, heading):
        self.heading = heading
        self.lines = []

    def is_refused(self):
        return self.heading.startswith("? ") and bool(self.lines) and self.lines[0].startswith("- ")

    def kind(self):
        return self.heading[2:].split(" ")[0]


def tries_of(text):
    tries = []
    for line in text.splitlines():
        if line[:2] in ("# ", "? ", "! "):
            tries.append(Try(line))
        else:
            tries[-1].lines.append(line)
    return tries


def text_of(tries):
    return "".join(f"{line}\n" for it in tries for line in [it.heading, *it.lines])


class Plain:
    """What the built program answers and lists, undisturbed, by script."""

    def __init__(self):
        self.program = builds_of("pidtab")[0]
        self.known = {}

    def lines(self, command, calls):
        key = command, tuple(calls)
        if key not in self.known:
            ran = run(self.program, command, given="".join(f"{call}\n" for call in calls).encode())
            assert ran.returncode == 0, ran
            self.known[key] = ran.stdout.decode().splitlines()
        return self.known[key]

    def run(self, calls):
        return self.lines("run", calls)

    def list(self, calls):
        return self.lines("list", calls)

    def without(self, calls, count):
        """The calls, so many of them left out, in all ways."""
        return (list(some) for some in itertools.combinations(calls, len(calls) - count))


class Growths(unittest.TestCase):
    def setUp(self):
        self.report = Report()
        self.plain = Plain()

    def tearDown(self):
        self.report.close()

    def play(self, program, steps=STEPS, **settings):
        settings = {"REFUSE_MARKS": 1, "REFUSE_REPORT": self.report.path, **settings}
        return run(program, given=steps, settings=settings)

    def assert_undisturbed_but_for_refusals(self, ran):
        """Without the tries that found no memory, the output is the undisturbed one. Gives those tries."""
        self.assertEqual((ran.returncode, ran.stderr), (0, b""))
        tries = tries_of(ran.stdout.decode())
        self.assertEqual(text_of(it for it in tries if not it.is_refused()), UNDISTURBED)
        refused = [it for it in tries if it.is_refused()]
        for it in refused:
            self.assert_goes_on(it)
        return refused

    def assert_goes_on(self, tried):
        """A refused try says so, and nothing else. A run went on without the calls that found no memory."""
        first, *rest = tried.lines
        if first == "- answers":
            self.assert_runs_on(tried.heading[2:].partition(" ")[2].split(";"), rest)
        else:
            self.assertEqual(tried.lines, ["- no memory"])

    def assert_runs_on(self, calls, lines):
        """The answers, and then the list, are those of the calls that found memory."""
        answers, listed = lines[: len(calls)], lines[len(calls) :]
        made = [call for call, answer in zip(calls, answers) if answer != "no memory"]
        self.assertLess(len(made), len(calls))
        self.assertEqual([it for it in answers if it != "no memory"], self.plain.run(made))
        if listed:
            self.assertEqual(listed, self.plain.list(made))

    def test_undisturbed(self):
        for program in builds_of("demo_no_memory"):
            ran = self.play(program)
            self.assertEqual((ran.returncode, ran.stderr, ran.stdout.decode()), (0, b"", UNDISTURBED))
            self.assertEqual(self.report.refused(), 0)

    def test_each_growth_once(self):
        for program, count in itertools.product(builds_of("demo_no_memory"), COUNTS):
            with self.subTest(program=program.name, count=count):
                self.refuse_each(program, count)

    def refuse_each(self, program, count):
        kinds = set()
        for growth in itertools.count(1):
            ran = self.play(program, REFUSE_AT=growth, REFUSE_COUNT=count)
            refused = self.assert_undisturbed_but_for_refusals(ran)
            if not self.report.refused():
                break
            self.assertLessEqual(len(refused), 1, f"growth {growth}")
            kinds.update(it.kind() for it in refused)
        self.assertGreater(growth, 200)
        # A single refusal shows nothing of a call that is made once more on the spot.
        self.assertLessEqual(TAKE_MEMORY | (TWICE if count > 1 else set()), kinds)
        self.assertNotIn("checkpoint", kinds)
        # A call that makes nothing needs memory for its entry.
        self.assertTrue(kinds - TAKE_MEMORY - TWICE)

    def test_each_growth_of_a_step_in_turn(self):
        for program in builds_of("demo_no_memory"):
            refused = self.assert_undisturbed_but_for_refusals(self.play(program, REFUSE_IN_TURN=1))
            self.assertLessEqual(len(refused), self.report.refused())
            self.assertLessEqual(TAKE_MEMORY, {it.kind() for it in refused})
            self.assertIn("? fork 4", [it.heading for it in refused])
            self.assertIn("? fork 33", [it.heading for it in refused])

    def test_every_growth_is_refused_behind_a_mark(self):
        for program in builds_of("demo_no_memory"):
            ran = self.play(program, steps=b"# none 32768\n! fork 1\n")
            self.assertEqual(ran.returncode, 1)
            self.assertTrue(ran.stdout.endswith(b"! fork 1\n- no memory\n" * 1000), ran.stdout[-80:])
            self.assertIn(b"no memory after 1000 tries", ran.stderr)


class Commands(unittest.TestCase):
    """The same of runs, jobs and workers, by the program: `run` line by line, `list` and `work`."""

    def setUp(self):
        self.report = Report()
        self.plain = Plain()
        self.calls = SCRIPT.split(";")

    def tearDown(self):
        self.report.close()

    def settings(self, growth, count):
        return {"REFUSE_AT": growth, "REFUSE_COUNT": count, "REFUSE_REPORT": self.report.path}

    def refuse_each(self, program, count, play):
        """Plays with each growth refused: how often it ended in a fault, left calls out, and did neither."""
        outcomes = {"fault": 0, "refused": 0, "whole": 0}
        for growth in itertools.count(1):
            outcome = play(program, growth, count)
            if not self.report.refused():
                self.assertEqual(outcome, "whole")
                return outcomes
            outcomes[outcome] += 1

    def test_run(self):
        for program, count in itertools.product(builds_of("pidtab"), COUNTS):
            with self.subTest(program=program.name, count=count):
                outcomes = self.refuse_each(program, count, self.play_run)
                self.assertGreater(outcomes["fault"], 0)
                self.assertGreater(outcomes["refused"], 0)

    def play_run(self, program, growth, count):
        """Sends the calls one by one, and each once more that found no memory."""
        pipes = {"stdin": subprocess.PIPE, "stdout": subprocess.PIPE, "stderr": subprocess.PIPE}
        env = environment(**self.settings(growth, count))
        with subprocess.Popen([str(program), "run"], env=env, **pipes) as started:
            answers, refused = [], 0
            for call in self.calls:
                answer = self.ask(started, call)
                if answer == b"no memory\n":
                    refused += 1
                    answer = self.ask(started, call)
                answers.append(answer.decode().rstrip("\n"))
            _, said = started.communicate(timeout=60)
        if started.returncode:
            self.assertEqual((started.returncode, said), (1, NO_MEMORY))
            self.assertEqual(set(answers), {""})
            return "fault"
        self.assertEqual(answers, self.plain.run(self.calls))
        self.assertLessEqual(refused, 1)
        return "refused" if refused else "whole"

    @staticmethod
    def ask(started, call):
        try:
            started.stdin.write(f"{call}\n".encode())
            started.stdin.flush()
        except BrokenPipeError:
            return b""
        return started.stdout.readline()

    def test_list(self):
        for program, count in itertools.product(builds_of("pidtab"), (1, 2)):
            with self.subTest(program=program.name, count=count):
                outcomes = self.refuse_each(program, count, self.play_list)
                self.assertGreater(outcomes["fault"], 0)
                self.assertEqual(outcomes["refused"], 0)

    def play_list(self, program, growth, count):
        ran = run(program, "list", given="\n".join(self.calls).encode(), settings=self.settings(growth, count))
        if ran.returncode:
            self.assertEqual((ran.returncode, ran.stdout, ran.stderr), (1, b"", NO_MEMORY))
            return "fault"
        self.assertEqual((ran.stderr, ran.stdout.decode().splitlines()), (b"", self.plain.list(self.calls)))
        return "whole"

    def test_work(self):
        for program, count in itertools.product(builds_of("pidtab"), (1, 2)):
            with self.subTest(program=program.name, count=count):
                self.faults = set()
                outcomes = self.refuse_each(program, count, self.play_work)
                self.assertGreater(min(outcomes["fault"], outcomes["refused"]), 0)
                self.assertEqual(self.faults, {NO_MEMORY, b"pidtab: cannot start a thread\n"})

    def play_work(self, program, growth, count):
        job = f"{self.report.room.name}/job"
        with open(job, "w") as file:
            file.write("\n".join(self.calls))
        ran = run(program, "work", job, "/dev/null", settings=self.settings(growth, count))
        if ran.returncode:
            self.assertEqual((ran.returncode, ran.stdout), (1, b""))
            self.faults.add(ran.stderr)
            return "fault"
        lines = ran.stdout.decode().splitlines()
        end = lines.index("worker 1")
        refused = int(lines[end - 1].split(" ")[1])
        self.assertEqual((lines[0], lines[end + 1]), ("worker 0", "refused 0"))
        receipts = [line.split(" ", 1) for line in lines[1 : end - 1]]
        self.assertEqual([int(ordinal) for ordinal, _ in receipts], list(range(len(self.calls) - refused)))
        self.assertLessEqual(refused, count)
        made = ([answer for _, answer in receipts], lines[end + 2 :])
        known = ((self.plain.run(some), self.plain.list(some)) for some in self.plain.without(self.calls, refused))
        self.assertIn(made, list(known))
        return "refused" if refused else "whole"

    def test_no_threads(self):
        given = "\n".join(self.calls).encode()
        for program in builds_of("pidtab"):
            ran = run(program, "list", given=given, settings={"REFUSE_THREADS": 1})
            self.assertEqual((ran.returncode, ran.stderr), (0, b""))
            self.assertEqual(ran.stdout.decode().splitlines(), self.plain.list(self.calls))
            ran = run(program, "work", "/dev/null", "/dev/null", settings={"REFUSE_THREADS": 1})
            self.assertEqual((ran.returncode, ran.stdout, ran.stderr), (1, b"", b"pidtab: cannot start a thread\n"))


if __name__ == "__main__":
    unittest.main()
