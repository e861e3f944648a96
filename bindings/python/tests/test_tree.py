"""The list as the stored run and docs/SCRIPT.md have it, and its drawing."""

import os
import socket
import subprocess
import sys
import tempfile
import threading
import unittest

from pidtab import BadList, Control, Listing, Space, Task, draw_list, read_list
from pidtab.commands.service import LIST, POSITION
from tests.pages import REPOSITORY, blocks, read_page, section, stored_scripts

# So many tasks are drawn in so many seconds, with room for a slow machine.
MANY = 200_000
SECONDS = 5

LAUNCHER = REPOSITORY / "bindings" / "python" / "bin" / "pidtab-tree"

# All that a line of a list may say: an init that has ended, a killed task, marks, a namespace that has fallen.
WIDE_LIST = """\
task 1 space 0 parent 0 group 1 session 1 control 0 live subreaper
task 2,1 space 4 parent 1 group 1 session 1 control 7 exit 255
task 3,2 space 4 parent 1 group 0 session 0 control 0 killed executed
task 5 space 0 parent 1 group 5 session 5 control 0 live executed children 4 subreaper
task 6 space 0 parent 5 group 5 session 5 control 8 live
task 9,1 space 9 parent 6 group 5 session 5 control 0 live
space 0 parent - cursor 10
space 4 parent 0 cursor 3 fallen
space 9 parent 0 cursor 2
control 0 parent - limit max count 6
control 7 parent 0 limit 0 count 2
control 8 parent 7 limit 4194304 count 1
control 20 parent 0 limit max count 0
"""

WIDE_TREE = """\
processes
  space 0
    1 group 1 session 1 control 0 live subreaper
      space 4
        2,1 group 1 session 1 control 7 exit 255
      space 4
        3,2 group 0 session 0 control 0 killed executed
      5 group 5 session 5 control 0 live executed children 4 subreaper
        6 group 5 session 5 control 8 live
          space 9
            9,1 group 5 session 5 control 0 live
namespaces
  0 cursor 10
    4 cursor 3 fallen
    9 cursor 2
control groups
  0 count 6 limit max
    7 count 2 limit 0
      8 count 1 limit 4194304
    20 count 0 limit max
"""

WIDE_ASCII = """\
processes
`-space 0
  `-1 (init of all) group 1 session 1 control 0 live subreaper
    |-space 4
    | `-2,1 group 1 session 1 control 7 exit 255
    |-space 4
    | `-3,2 group 0 session 0 control 0 killed executed
    `-5 group 5 session 5 control 0 live executed children 4 subreaper
      `-6 (web) group 5 session 5 control 8 live
        `-space 9
          `-9,1 group 5 session 5 control 0 live
namespaces
`-0 cursor 10 tasks 3 zombies 0
  |-4 cursor 3 fallen tasks 2 zombies 2
  `-9 cursor 2 tasks 1 zombies 0
control groups
`-0 count 6 limit max
  |-7 count 2 limit 0
  | `-8 count 1 limit 4194304
  `-20 count 0 limit max
"""

# The same, two levels of each tree.
WIDE_DEPTH = """\
processes
  space 0
    1 group 1 session 1 control 0 live subreaper
      space 4
        2,1 group 1 session 1 control 7 exit 255
      space 4
        3,2 group 0 session 0 control 0 killed executed
      5 group 5 session 5 control 0 live executed children 4 subreaper [2 below]
namespaces
  0 cursor 10
    4 cursor 3 fallen
    9 cursor 2
control groups
  0 count 6 limit max
    7 count 2 limit 0 [1 below]
    20 count 0 limit max
"""

LABELS = """\
# Who is who.
6 mail

1  init   of all
99 nobody
6 web
"""

# Others are in interface/cases.
BAD_LISTS = [
    ("space 0 parent - cursor 2 \n", "line 1"),
    ("space 0 parent - cursor 2\ncontrol 0 parent - limit max count 1", "line 2: cut off"),
    ("space 3 parent 2 cursor 2\n", "parent is missing"),
    ("space 2 parent 2 cursor 2\n", "parent is missing"),
    ("space 0 parent - cursor 2\nspace 0 parent - cursor 2\n", "given twice"),
    ("space 0 parent - cursor 2\nspace 1 parent 0 cursor 2\nspace 0 parent 1 cursor 2\n", "given twice"),
]


def say(listing: Listing) -> str:
    """The text of a listing by the table of docs/SCRIPT.md."""
    lines = [say_task(task) for task in listing.tasks]
    for space in listing.spaces:
        parent = "-" if space.parent is None else space.parent
        lines.append(f"space {space.id} parent {parent} cursor {space.cursor}" + " fallen" * space.fallen)
    for control in listing.controls:
        parent, limit = ("-" if control.parent is None else control.parent), ("max" if control.limit is None else control.limit)
        lines.append(f"control {control.id} parent {parent} limit {limit} count {control.count}")
    return "".join(f"{line}\n" for line in lines)


def say_task(task: Task) -> str:
    """The line of a task."""
    numbers = ",".join(str(number) for number in task.numbers)
    places = f"space {task.space} parent {task.parent} group {task.group} session {task.session} control {task.control}"
    end = "killed" if task.killed else f"exit {task.status}"
    marks = " executed" * task.executed + ("" if task.children is None else f" children {task.children}")
    return f"task {numbers} {places} {'live' if task.live else end}{marks}{' subreaper' * task.subreaper}"


def launch(text: str, *words: str) -> "subprocess.CompletedProcess[str]":
    """Runs the program."""
    command = [sys.executable, str(LAUNCHER), *words]
    return subprocess.run(command, input=text, capture_output=True, text=True, check=False)


class Lists(unittest.TestCase):
    """Reading."""

    def test_each_field(self) -> None:
        listing = read_list(WIDE_LIST)
        self.assertEqual(listing.tasks[1], Task((2, 1), 4, 1, 1, 1, 7, False, 255, False, None, False))
        self.assertEqual(listing.tasks[2], Task((3, 2), 4, 1, 0, 0, 0, False, None, True, None, False))
        self.assertEqual(listing.tasks[3], Task((5,), 0, 1, 5, 5, 0, True, None, True, 4, True))
        self.assertEqual(listing.spaces[1], Space(4, 0, 3, True))
        self.assertEqual(listing.controls[2], Control(8, 7, 4194304, 1))
        self.assertEqual([task.root for task in listing.tasks], [1, 2, 3, 5, 6, 9])
        self.assertEqual([task.root for task in listing.tasks if task.killed], [3])

    def test_its_tasks(self) -> None:
        listing = read_list(WIDE_LIST)
        self.assertEqual(([task.root for task in listing], len(listing)), ([1, 2, 3, 5, 6, 9], 6))
        self.assertEqual((listing[5].children, listing[9].numbers), (4, (9, 1)))
        self.assertEqual([it in listing for it in (2, 4, listing[2], Task((2,), 0, 1, 1, 1, 0, True, None, False, None, False))], [True, False, True, False])
        with self.assertRaises(KeyError):
            listing[4]
        # What it keeps for that is none of its fields.
        self.assertEqual(listing, read_list(WIDE_LIST))

    def test_a_notebook(self) -> None:
        listing = read_list(WIDE_LIST)
        self.assertEqual(listing._repr_html_(), f"<pre>{WIDE_TREE.rstrip()}</pre>")
        self.assertIn("\n        6 (&lt;b&gt;&amp;) group 5", listing.with_names({6: "<b>&"})._repr_html_())
        # Six lines beside those of the tasks: three headings, and a line each for the namespace above the tasks, the namespace itself and the control group.
        space, control = Space(0, None, 2, False), Control(0, None, None, 994)
        tasks = [Task((it,), 0, int(it > 1), 1, 1, 0, True, None, False, None, False) for it in range(1, 996)]
        self.assertTrue(Listing(tuple(tasks[:994]), (space,), (control,))._repr_html_().endswith("\n  0 count 994 limit max</pre>"))
        self.assertTrue(Listing(tuple(tasks), (space,), (control,))._repr_html_().endswith("\ncontrol groups\n.. and 1 more lines</pre>"))

    def test_stored_lists_are_read_whole(self) -> None:
        texts = [script.list_text for script in stored_scripts() if script.list_text]
        self.assertGreater(len(texts), 5)
        for text in [*texts, WIDE_LIST]:
            self.assertEqual(say(read_list(text)), text)

    def test_bad_lists(self) -> None:
        for text, words in BAD_LISTS:
            with self.subTest(text), self.assertRaisesRegex(BadList, words):
                draw_list(read_list(text))


class Trees(unittest.TestCase):
    """Drawing."""

    def test_a_wide_list(self) -> None:
        self.assertEqual(draw_list(read_list(WIDE_LIST)), WIDE_TREE)

    def test_stored_lists_are_drawn_whole(self) -> None:
        for text in [script.list_text for script in stored_scripts() if script.list_text]:
            drawn = draw_list(read_list(text)).splitlines()
            tasks = [line for line in drawn if " group " in line]
            self.assertEqual(len(tasks), text.count("task "))
            self.assertEqual(len([line for line in drawn if " cursor " in line]), text.count(" cursor "))
            self.assertEqual(len([line for line in drawn if " limit " in line]), text.count(" limit "))

    def test_a_long_chain(self) -> None:
        lines = [f"task {it} space 0 parent {it - 1} group 1 session 1 control 0 live\n" for it in range(1, 2001)]
        drawn = draw_list(read_list("".join(lines))).splitlines()
        self.assertEqual(drawn[2001], " " * 4002 + "2000 group 1 session 1 control 0 live")

    def test_the_program(self) -> None:
        _, *lines = blocks(section(read_page("docs/SCRIPT.md"), "## The list"))[0].splitlines()
        done = launch("".join(line + "\n" for line in lines))
        self.assertEqual((done.returncode, done.stderr), (0, ""))
        self.assertEqual(done.stdout.splitlines()[-3:], ["    1 cursor 3", "control groups", "  0 count 3 limit max"])

    def test_branches_counts_and_labels(self) -> None:
        with tempfile.NamedTemporaryFile("w", suffix=".labels") as file:
            file.write(LABELS)
            file.flush()
            done = launch(WIDE_LIST, "--ascii", "--counts", "--labels", file.name)
        self.assertEqual((done.returncode, done.stdout, done.stderr), (0, WIDE_ASCII, ""))

    def test_a_depth(self) -> None:
        self.assertEqual(launch(WIDE_LIST, "--depth", "2").stdout, WIDE_DEPTH)
        self.assertEqual(launch(WIDE_LIST, "--depth", "4").stdout, WIDE_TREE)

    def test_one_task_and_what_is_below_it(self) -> None:
        below = ["processes", "  space 0", "    5 group 5 session 5 control 0 live executed children 4 subreaper"]
        below += ["      6 group 5 session 5 control 8 live", "        space 9", "          9,1 group 5 session 5 control 0 live"]
        self.assertEqual(launch(WIDE_LIST, "--root", "5").stdout.splitlines(), below)
        self.assertEqual(launch(WIDE_LIST, "--root", "5", "--depth", "1").stdout.splitlines(), [*below[:2], f"{below[2]} [2 below]"])
        done = launch(WIDE_LIST, "--root", "4")
        self.assertEqual((done.returncode, done.stdout, done.stderr), (1, "", "pidtab-tree: no task has the root number 4\n"))

    def test_a_ring_has_no_end_but_a_sentence(self) -> None:
        task = "task {} space 0 parent {} group 1 session 1 control 0 live\n"
        ring = task.format(1, 0) + task.format(2, 3) + task.format(3, 2)
        for words in ((), ("--root", "2"), ("--depth", "1")):
            self.assertEqual(launch(ring, *words).stderr, "pidtab-tree: a parent is missing\n")
        self.assertEqual(len(launch(task.format(0, 0)).stdout.splitlines()), 5)

    def test_lines_in_any_order(self) -> None:
        lines = WIDE_LIST.splitlines(keepends=True)
        for text in (WIDE_LIST, "".join(lines[6:] + lines[:6]), "".join(lines[:6] + lines[9:] + lines[6:9])):
            self.assertEqual(launch(text).stdout, WIDE_TREE)

    def test_wrong_words(self) -> None:
        told = {("--root", "0"): "--root: a number from 1 on, not 0", ("--root", "x"): "--root: a number from 1 on, not x",
                ("--depth", "0"): "--depth: a number from 1 on, not 0", ("--root", "1", "--counts"): "--counts is of namespaces, which --root leaves out"}  # fmt: skip
        for words, fault in told.items():
            with self.subTest(words):
                done = launch(WIDE_LIST, *words)
                self.assertEqual((done.returncode, done.stdout), (2, ""))
                self.assertIn(fault, done.stderr)

    def test_a_file(self) -> None:
        with tempfile.NamedTemporaryFile("w") as file:
            file.write(WIDE_LIST)
            file.flush()
            self.assertEqual(launch("", file.name).stdout, WIDE_TREE)
            for words in (("--socket", "/no/such/socket"), ("--diff", file.name, file.name)):
                done = launch("", *words, file.name)
                self.assertEqual((done.returncode, done.stdout), (2, ""))
                self.assertIn("a FILE is one list, in the place of --socket and --diff", done.stderr)
        self.assertEqual(launch(WIDE_LIST, "-").stdout, WIDE_TREE)
        done = launch("", "/no/such/list")
        self.assertEqual((done.returncode, done.stderr), (2, "pidtab-tree: cannot read /no/such/list: No such file or directory\n"))

    def test_bad_labels(self) -> None:
        with tempfile.NamedTemporaryFile("w") as file:
            for line in ("web 1", "1", "01 web", "-1 web"):
                file.seek(0)
                file.write(f"2 mail\n{line}\n")
                file.truncate()
                file.flush()
                done = launch(WIDE_LIST, "--labels", file.name)
                self.assertEqual((done.returncode, done.stdout), (2, ""))
                self.assertEqual(done.stderr, f"pidtab-tree: {file.name}:2: expected a root number and its label\n")
        done = launch(WIDE_LIST, "--labels", "/no/such/labels")
        self.assertEqual((done.returncode, done.stderr), (2, "pidtab-tree: cannot read /no/such/labels: No such file or directory\n"))

    def test_a_large_list_in_time(self) -> None:
        # A tree of 18 levels, in which task K stands below task K / 2.
        lines = [f"task {it} space 0 parent {it // 2} group {it} session 1 control 0 live\n" for it in range(1, MANY + 1)]
        text = "".join([*lines, f"space 0 parent - cursor {MANY + 1}\n", f"control 0 parent - limit max count {MANY}\n"])
        before = os.times()
        done = launch(text, "--counts")
        after = os.times()
        self.assertEqual(len(done.stdout.splitlines()), MANY + 6)
        # Of the processor, as a busy machine may take any time.
        self.assertLess(after.children_user + after.children_system - before.children_user - before.children_system, SECONDS)

    def test_the_faults_of_the_program(self) -> None:
        done = launch("task 1\n")
        self.assertEqual((done.returncode, done.stdout), (1, ""))
        self.assertEqual(done.stderr, "pidtab-tree: line 1: not a line of `pidtab list`\n")
        self.assertEqual(launch("").stderr, "pidtab-tree: line 1: no list\n")
        self.assertEqual(launch("", "word").returncode, 2)

    def test_a_reader_who_leaves(self) -> None:
        lines = [f"task {it} space 0 parent {it - 1} group 1 session 1 control 0 live\n" for it in range(1, 2001)]
        command = f"'{sys.executable}' '{LAUNCHER}' | head -1"
        done = subprocess.run(["sh", "-c", command], input="".join(lines), capture_output=True, text=True, check=False)
        self.assertEqual((done.stdout, done.stderr), ("processes\n", ""))


class Services(unittest.TestCase):
    """By a stand-in of the service."""

    def serve(self, *answers: bytes) -> str:
        """A socket at which each request gets the next of these answers, and which then ends: its path."""
        folder = tempfile.TemporaryDirectory()
        self.addCleanup(folder.cleanup)
        path = f"{folder.name}/socket"
        listening = socket.socket(socket.AF_UNIX)
        listening.bind(path)
        listening.listen()

        def serve() -> None:
            served, _ = listening.accept()
            with served, listening:
                for answer in answers:
                    wanted = POSITION if answer.startswith(b":") else LIST
                    self.assertEqual(served.recv(100), wanted)
                    served.sendall(answer)

        thread = threading.Thread(target=serve)
        thread.start()
        self.addCleanup(thread.join)
        return path

    def test_it_draws_anew_what_has_changed(self) -> None:
        lists = [WIDE_LIST, WIDE_LIST.replace("cursor 10", "cursor 11")]
        texts = [b"$%d\r\n%s\r\n" % (len(it), it.encode()) for it in lists]
        path = self.serve(b":3\r\n", texts[0], b":3\r\n", b":3\r\n", b":5\r\n", texts[1])
        done = launch("", "--socket", path, "--follow", "--every", "0.01")
        self.assertEqual(done.stdout, f"{WIDE_TREE}\n{WIDE_TREE.replace('cursor 10', 'cursor 11')}")
        self.assertEqual((done.returncode, done.stderr), (1, f"pidtab-tree: {path}: the service has ended\n"))

    def test_it_writes_a_line_of_json_for_each_change(self) -> None:
        text = b"$%d\r\n%s\r\n" % (len(WIDE_LIST), WIDE_LIST.encode())
        done = launch("", "--socket", self.serve(b":0\r\n", text, b":1\r\n", text), "--follow", "--every", "0.01", "--json")
        self.assertEqual(done.stdout, 2 * f"{read_list(WIDE_LIST).to_json()}\n")

    def test_one_that_refuses(self) -> None:
        path = self.serve(b"-NOPERM this user may not\r\n")
        self.assertEqual(launch("", "--socket", path).stderr, f"pidtab-tree: {path}: the service says NOPERM this user may not\n")

    def test_one_that_ends_amid_its_list(self) -> None:
        path = self.serve(b"$%d\r\n%s" % (len(WIDE_LIST), WIDE_LIST[:100].encode()))
        done = launch("", "--socket", path)
        self.assertEqual((done.returncode, done.stdout, done.stderr), (1, "", f"pidtab-tree: {path}: the service has ended\n"))

    def test_what_cannot_be_followed(self) -> None:
        for words, fault in ((("--follow",), "--follow is of a service"), (("--socket", "a", "--every", "0"), "a number of seconds above 0, not 0")):
            done = launch(WIDE_LIST, *words)
            self.assertEqual((done.returncode, done.stdout), (2, ""))
            self.assertIn(fault, done.stderr)


if __name__ == "__main__":
    unittest.main()
