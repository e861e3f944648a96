"""`pidtab-play`: its scripts, its names, what it takes back, and its prompt at a terminal."""

import contextlib
import os
import pty
import select
import signal
import subprocess
import sys
import tempfile
import time
import unittest
from pathlib import Path

from pidtab import find_program
from pidtab.commands.prompt import complete
from pidtab.commands.session import Mistake, Session
from tests.pages import EXAMPLES, REPOSITORY, blocks, read_page, script_lines, section
from tests.ways import ByLibrary, ByProgram, Cases, need_program

LAUNCHER = REPOSITORY / "bindings" / "python" / "bin" / "pidtab-play"

# Two namespaces, one in the other: the root has 2 and 3 for what web calls 2, and 4 and 3 and 2 for the innermost.
NESTED = ["web = fork 1 new", "inner = fork $web new", "leaf = fork $inner"]


# How long a terminal may say nothing.
SECONDS = 10


def launch(text: str, *words: str) -> "subprocess.CompletedProcess[str]":
    """Runs the program by the program of the repository."""
    command = [sys.executable, str(LAUNCHER), *words]
    return subprocess.run(command, input=text, capture_output=True, text=True, check=False)


class SessionCases(Cases):
    """Names and what is taken back."""

    def setUp(self) -> None:
        self.session = Session(self.open)
        self.addCleanup(self.session.close)

    def ask(self, *lines: str) -> list[str]:
        """The answers to lines."""
        return [reply.answer for line in lines if (reply := self.session.ask(line)) is not None]

    def assert_mistake(self, line: str, column: int, words: str) -> None:
        """A line is not asked, for a reason at a column."""
        with self.assertRaises(Mistake) as caught:
            self.session.ask(line)
        self.assertEqual(caught.exception.column, column)
        self.assertIn(words, caught.exception.expected)

    def test_spaces_and_comments(self) -> None:
        self.assertEqual(self.ask("", "  ", "# fork 1", "\tgetpid   1 # who", "fork 1 #new", "fork 1\r"), ["1", "child 2 root 2", "child 3 root 3"])

    def test_a_name_is_the_number_that_its_place_wants(self) -> None:
        self.assertEqual(self.ask(*NESTED), ["child 2 root 2", "child 2 root 3", "child 2 root 4"])
        asked = ["nspid 1 $leaf", "nspid $web $leaf", "nspid $inner $leaf", "getppid $leaf", "nspid 1 $leaf.root"]
        self.assertEqual(self.ask(*asked), ["4 3 2", "3 2", "2", "1", "4 3 2"])
        self.assertEqual(self.ask("exit $leaf 9", "wait $inner pid $leaf"), ["ok", "reaped 2 exit 9"])

    def test_control_groups_and_numbers(self) -> None:
        # The id of a control group is the place of its call, counted from 1.
        self.assertEqual(self.ask("box = mk 0", "web = fork 1"), ["control 1", "child 2 root 2"])
        self.assertEqual(self.ask("move $web $box", "count $box", "limit $box 1", "first = next 1 task 2", "getpgid 1 $first"), ["ok", "1", "ok", "2", "1"])
        self.assertEqual(self.ask("fork $web"), ["EAGAIN pids-limit 1"])

    def test_a_number_that_was_freed_is_looked_for(self) -> None:
        self.ask("a = fork 1", "exit $a 0", "wait 1 any")
        self.assert_mistake("getpgid 1 $a", 11, "a task with a number in the namespace of 1")

    def test_a_task_that_the_caller_cannot_see(self) -> None:
        self.ask(*NESTED, "other = fork 1")
        self.assert_mistake("nspid $web $other", 12, "a task with a number in the namespace of 2")

    def test_unknown_and_wrong_names(self) -> None:
        self.ask("web = fork 1", "box = mk 0")
        self.assert_mistake("getpid $wep", 8, "the nearest is `$web`")
        self.assert_mistake("getpid $nothing", 8, "and not `$nothing`")
        self.assert_mistake("getpid $box", 8, "a caller, 0 to 4294967295, and `box` is a control group")
        self.assert_mistake("rm $web", 4, "the id of a control group, 0 to 18446744073709551615, and `web` is a task")
        self.assert_mistake("rm $box.root", 4, "a task before `.root`")
        self.assert_mistake("1st = fork 1", 1, "a name: letters, digits and _")
        self.assert_mistake("web =", 6, "a call behind `=`")

    def test_the_column_of_a_bad_line(self) -> None:
        self.ask("web = fork 1")
        self.assert_mistake("  x  =  frok   1", 9, "the nearest is `fork`")
        self.assert_mistake("exit   $web   256 # too much", 15, "a status, 0 to 255")
        self.assert_mistake("exit $web", 10, "a status, 0 to 255")
        self.assert_mistake("fork $web old", 11, "the end of the line")
        self.assert_mistake("fork\xa01", 1, "a command")

    def test_an_answer_without_a_number_gives_no_name(self) -> None:
        self.ask("web = fork 1")
        for line in ("web = fork 9", "web = exec 1", "web = wait 1 any", "web = next 1 task 9"):
            reply = self.session.ask(line)
            self.assertIsNotNone(reply)
            self.assertEqual(reply and reply.unset, "web")
        self.assertEqual(self.ask("nspid 1 $web"), ["2"])

    def test_what_is_taken_back(self) -> None:
        self.ask("web = fork 1", "getpid $web", "web = fork 1 new", "box = mk 0")
        before = self.session.table.list()
        self.ask("exit $web 3")
        self.assertEqual(self.session.undo(), "exit 3 3")
        self.assertEqual(self.session.table.list(), before)
        self.assertEqual([self.session.undo() for _ in range(2)], ["mk 0", "fork 1 new"])
        self.assertEqual(list(self.session.names), ["web"])
        self.assertEqual(self.ask("nspid 1 $web", "fork $web"), ["2", "child 3 root 3"])

    def test_all_is_taken_back(self) -> None:
        self.ask("fork 1", "getpid 9")
        self.assertEqual([self.session.undo() for _ in range(3)], ["getpid 9", "fork 1", None])
        self.assertEqual(self.ask("fork 1"), ["child 2 root 2"])

    def test_a_session_that_was_broken_off(self) -> None:
        self.ask(*NESTED)
        before = self.session.table.list()
        # A call that was made behind its back, as one is that an interrupt breaks off.
        self.session.table.fork(1)
        self.session.lose()
        self.assertEqual(self.session.table.list(), before)
        self.assertEqual(self.ask("getpid $leaf", "fork 1"), ["2", "child 5 root 5"])

    def test_completion(self) -> None:
        self.ask("web = fork 1", "box = mk 0")
        told = {("", "f"): ["fork"], ("", "un"): ["undo"], ("wait 1 ", ""): ["any", "pid", "own", "group"], ("fork $web ", "n"): ["new"],
                ("x = ", "se"): ["setpgid", "setsid"], ("getpid ", "$w"): ["$web", "$web.root"], ("limit $box ", "m"): ["max"],
                ("x = ", "und"): [], ("fork 1 new ", ""): [], ("frok ", ""): []}  # fmt: skip
        for (line, word), found in told.items():
            with self.subTest(line + word):
                self.assertEqual(complete(self.session, line, word), found)


class SessionByProgram(SessionCases, ByProgram):
    """The same by the program."""


class SessionByLibrary(SessionCases, ByLibrary):
    """The same by the library."""


class Scripts(unittest.TestCase):
    """Files."""

    def setUp(self) -> None:
        need_program()
        folder = tempfile.TemporaryDirectory()
        self.addCleanup(folder.cleanup)
        self.folder = Path(folder.name)

    def write(self, name: str, text: str) -> str:
        """The path of a new script."""
        (self.folder / name).write_text(text)
        return str(self.folder / name)

    def test_the_examples(self) -> None:
        for answers in sorted(EXAMPLES.glob("*.answers")):
            script = answers.with_suffix(".script")
            with self.subTest(script.name):
                done = launch("list\n", str(script), "-")
                listed = script_lines(script.with_suffix(".list"))
                self.assertEqual((done.stderr, done.stdout.splitlines()), ("", [*script_lines(answers), *listed]))
                self.assertEqual(done.returncode, 0)

    def test_the_script_of_the_page(self) -> None:
        (script,) = blocks(section(read_page("bindings/python/README.md"), "## At a prompt, and scripts for people"))
        told = [line.partition("# ")[2] for line in script.splitlines()]
        answers = launch(script).stdout.splitlines()
        self.assertEqual(answers, ["child 2 root 2", "child 2 root 3", "3 2", "ok", "reaped 2 exit 7"])
        self.assertEqual([told[place] for place in (2, 4)], [answers[place] for place in (2, 4)])

    def test_bad_lines(self) -> None:
        script = self.write("a.txt", "fork 1\nfrok 1\n\nexit $web 1\nlist all\ngetpid 2\n")
        done = launch("", script)
        self.assertEqual((done.returncode, done.stdout), (1, "child 2 root 2\nbad line\nbad line\nbad line\n2\n"))
        reasons = ["2:1: expected a command: the nearest is `fork`", "4:6: expected a name that was given, and not `$web`", "5:6: expected the end of the line"]
        self.assertEqual(done.stderr.splitlines(), [f"{script}:{it}" for it in reasons])

    def test_a_strict_end(self) -> None:
        first, second = self.write("a.txt", "fork 1\nfrok 1\ngetpid 2\n"), self.write("b.txt", "getpid 1\n")
        done = launch("", "--strict", first, second)
        self.assertEqual((done.returncode, done.stdout), (1, "child 2 root 2\nbad line\n"))
        done = launch("", "--strict", second, second)
        self.assertEqual((done.returncode, done.stdout, done.stderr), (0, "1\n1\n", ""))

    def test_names_go_on_to_the_next_file(self) -> None:
        first, second = self.write("a.txt", "web = fork 1 new\nquit me\n"), self.write("b.txt", "nspid 1 $web\nquit\nfork 1\n")
        self.assertEqual(launch("", first, second, first).stdout, "child 2 root 2\nbad line\n2 1\n")

    def test_the_commands(self) -> None:
        done = launch("a = fork 1\nundo\nundo\ntree\nhelp\n", "--echo")
        self.assertEqual((done.returncode, done.stderr), (0, ""))
        tree = ["processes", "  space 0", "    1 group 1 session 1 control 0 live", "namespaces", "  0 cursor 2", "control groups", "  0 count 1 limit max"]
        head = ["> a = fork 1", "child 2 root 2", "> undo", "taken back: fork 1", "> undo", "no call to take back", "> tree", *tree, "> help"]
        self.assertEqual(done.stdout.splitlines()[: len(head)], head)
        for words in ("fork C new", "S is a status, 0 to 255", "undo  takes"):
            self.assertIn(words, done.stdout)

    def test_an_answer_without_a_number(self) -> None:
        done = launch("a = fork 9\n")
        self.assertEqual((done.returncode, done.stdout, done.stderr), (0, "ESRCH no-caller\n", "no number for the name a: ESRCH no-caller\n"))

    def test_a_pipe_that_waits_for_each_answer(self) -> None:
        command = [sys.executable, str(LAUNCHER)]
        with subprocess.Popen(command, stdin=subprocess.PIPE, stdout=subprocess.PIPE) as child:
            assert child.stdin and child.stdout
            for line, answer in ((b"a = fork 1\n", b"child 2 root 2\n"), (b"getpid $a\n", b"2\n")):
                child.stdin.write(line)
                child.stdin.flush()
                self.assertEqual(child.stdout.readline(), answer)

    def test_faults(self) -> None:
        nothing = str(self.folder / "none")
        told = {("--pid-max", "300"): "pid_max is 301 to 4194304, not 300", ("--program", nothing): f"no table: no program {nothing}",
                ("--library", nothing): f"no table: no library {nothing}", (nothing,): f"cannot read {nothing}: No such file or directory"}  # fmt: skip
        for words, fault in told.items():
            with self.subTest(words):
                done = launch("", *words)
                self.assertEqual((done.returncode, done.stdout), (2, ""))
                self.assertTrue(done.stderr.startswith(f"pidtab-play: {fault}"), done.stderr)
                self.assertEqual(len(done.stderr.splitlines()), 1)

    def test_a_small_pid_max(self) -> None:
        done = launch("fork 1\n" * 300, "--pid-max", "301")
        self.assertEqual(done.stdout.splitlines()[-2:], ["child 300 root 300", "EAGAIN no-number 0"])


class Terminal:
    """The program at a terminal of its own, with the table by the program `pidtab`."""

    def __init__(self) -> None:
        self.pid, self.terminal = pty.fork()
        if self.pid == 0:
            os.environ["TERM"] = "dumb"
            os.execv(sys.executable, [sys.executable, str(LAUNCHER), "--program", str(find_program())])
        self.said = ""

    def expect(self, words: str) -> None:
        """Reads until these words, for at most some seconds."""
        watch = time.monotonic() + SECONDS
        while words not in self.said:
            if not select.select([self.terminal], [], [], max(0, watch - time.monotonic()))[0]:
                raise AssertionError(f"no {words!r} in {self.said!r}")
            self.said += os.read(self.terminal, 4096).decode()
        self.said = self.said.split(words, 1)[1]

    def send(self, text: str) -> None:
        """Writes what a person types."""
        os.write(self.terminal, text.encode())

    def interrupt(self) -> None:
        """Types the interrupt once the program waits: Python sees one only then that comes while it readies the terminal."""
        while Path(f"/proc/{self.pid}/stat").read_text().rsplit(")", 1)[1].split()[0] != "S":
            time.sleep(0.01)
        time.sleep(0.2)
        self.send("\x03")

    def ask(self, line: str, answer: str) -> None:
        """Types a line, and waits for its answer and the next prompt."""
        self.send(f"{line}\n")
        self.expect(f"\r\n{answer}\r\n")
        self.expect("pidtab> ")

    def end(self) -> int:
        """The exit status, once all is read."""
        with contextlib.suppress(OSError):
            while os.read(self.terminal, 4096):
                pass
        os.close(self.terminal)
        return os.waitstatus_to_exitcode(os.waitpid(self.pid, 0)[1])

    def children(self) -> list[int]:
        """The processes that it has started."""
        return [int(it) for it in Path(f"/proc/{self.pid}/task/{self.pid}/children").read_text().split()]


class Prompts(unittest.TestCase):
    """What a person sees."""

    def setUp(self) -> None:
        need_program()
        self.terminal = Terminal()
        self.terminal.expect("pidtab> ")

    def test_a_session(self) -> None:
        self.terminal.ask("web = fork 1 new", "child 2 root 2")
        self.terminal.ask("frok 1", "bad line: column 1: expected a command: the nearest is `fork`")
        self.terminal.ask("undo", "taken back: fork 1 new")
        self.terminal.ask("fork 1", "child 2 root 2")
        self.terminal.send("quit\n")
        self.assertEqual(self.terminal.end(), 0)

    def test_an_interrupt_loses_nothing(self) -> None:
        self.terminal.ask("web = fork 1 new", "child 2 root 2")
        for typed in ("fork", "fork 1"):
            self.terminal.send(typed)
            self.terminal.expect(typed)
            self.terminal.interrupt()
            self.terminal.expect("pidtab> ")
        self.terminal.ask("nspid 1 $web", "2 1")
        self.terminal.ask("fork 1", "child 3 root 3")
        self.terminal.send("\x04")
        self.assertEqual(self.terminal.end(), 0)

    def test_an_interrupt_in_a_call(self) -> None:
        self.terminal.ask("web = fork 1 new", "child 2 root 2")
        (child,) = self.terminal.children()
        os.kill(child, signal.SIGSTOP)
        self.terminal.send("fork 1\n")
        self.terminal.expect("\r\n")
        self.terminal.interrupt()
        self.terminal.expect("pidtab> ")
        os.kill(child, signal.SIGCONT)
        # The call that was broken off is not made.
        self.terminal.ask("fork $web", "child 2 root 3")
        self.terminal.send("quit\n")
        self.assertEqual(self.terminal.end(), 0)

    def test_a_program_that_is_killed_loses_nothing(self) -> None:
        self.terminal.ask("web = fork 1 new", "child 2 root 2")
        for child in self.terminal.children():
            os.kill(child, signal.SIGKILL)
        self.terminal.ask("nspid 1 $web", "2 1")
        self.terminal.ask("fork 1", "child 3 root 3")
        self.terminal.send("quit\n")
        self.assertEqual(self.terminal.end(), 0)

    def test_the_tab_key(self) -> None:
        self.terminal.ask("boxes = mk 0", "control 1")
        self.terminal.send("cou\t$b\t")
        self.terminal.expect("count $boxes ")
        self.terminal.send("\n")
        self.terminal.expect("\r\n0\r\n")
        self.terminal.send("quit\n")
        self.assertEqual(self.terminal.end(), 0)


if __name__ == "__main__":
    unittest.main()
