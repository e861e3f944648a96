"""The files of linux/differences, and the page that is made of them."""

import unittest

from harness.differences import BadFile, Step, parse_row, parse_step, read_rows
from harness.known import DIFFERENCES, Meeting, agree, explain
from harness.page import page_is_current, shown_runs
from harness.script import parse_line

GOOD = """chapter: Wait
place: 3
what: one
  thing
seen: 6.18
script:
3 times fork 1
wait 1 pid 0 => EINVAL | ECHILD no-child
getpid 1 => 1
"""


def meeting(line: bytes, kernel: str, table: str) -> Meeting:
    """A line with both answers."""
    call = parse_line(line)
    assert call is not None
    return Meeting(call, kernel, table)


class Files(unittest.TestCase):
    def test_a_file(self) -> None:
        row = parse_row("a", GOOD)
        self.assertEqual((row.what, row.chapter, row.place), ("one thing", "Wait", 3))
        self.assertEqual(row.lines(), ["fork 1"] * 3 + ["wait 1 pid 0", "getpid 1"])
        self.assertEqual(row.answers()[3:], [("EINVAL", "ECHILD no-child"), ("1", "1")])
        self.assertTrue(row.can_run)
        self.assertEqual([parse_row("a", GOOD.replace("script:", f"run: {run}\nscript:")).can_run for run in ("endless", "no-session", "it would end")], [True, True, False])

    def test_steps(self) -> None:
        answer = "child 300 root 300"
        self.assertEqual(parse_step(f"298 times fork 1 => {answer}", "a"), Step("fork 1", 298, answer, answer))
        self.assertEqual(parse_step("fork 1", "a"), Step("fork 1", 1, None, None))

    def test_bad_files(self) -> None:
        for old, new in (
            ("chapter: Wait\n", ""),
            ("chapter: Wait", "chapter: Nothing"),
            ("seen: 6.18\n", ""),
            ("place: 3", "palace: 3"),
            ("EINVAL | ECHILD no-child", "EINVAL"),
            ("what: one", "place: 4"),
        ):
            with self.assertRaises(BadFile, msg=new):
                parse_row("a", GOOD.replace(old, new))

    def test_each_row_with_a_script_has_its_test_and_each_test_its_row(self) -> None:
        rows = {row.shows for row in read_rows() if row.steps}
        self.assertEqual(rows, {known.name for known in DIFFERENCES})

    def test_the_page_is_made_of_the_files(self) -> None:
        self.assertTrue(page_is_current(), "docs/LINUX.md is not what linux/page makes")

    def test_shown_runs(self) -> None:
        lines = ["mk 0", "mk 1", "mk 2", "mk 3", "mk 4", "fork 1", "fork 1", *["fork 2"] * 6]
        self.assertEqual(shown_runs(lines), ["`mk K` for K = 0 to 4", "`fork 1`", "`fork 1`", "`fork 2` 6 times"])


class Agreement(unittest.TestCase):
    def test_an_errno_alone_agrees_with_its_words(self) -> None:
        self.assertTrue(agree("EAGAIN", "EAGAIN pids-limit 4"))
        self.assertTrue(agree("child 2 root 2", "child 2 root 2"))

    def test_all_else_does_not(self) -> None:
        for kernel, table in (("EPERM", "EACCES executed"), ("ok", "ESRCH no-task"), ("ESRCH", "ESRCH no-caller"), ("1", "2")):
            self.assertFalse(agree(kernel, table), (kernel, table))

    def test_a_new_difference_has_no_name(self) -> None:
        for line, kernel, table in (
            (b"getpid 1", "1", "2"),
            (b"fork 1", "child 3 root 3", "child 2 root 2"),
            (b"fork 1", "EAGAIN", "child 2 root 2"),
            (b"wait 1 any", "none", "reaped 2 exit 0"),
            (b"wait 1 pid 2", "reaped 2 exit 0", "reaped 3 exit 0"),
            (b"move 2 0", "ok", "ESRCH no-task"),
            (b"setpgid 1 -5 5", "EINVAL", "ESRCH no-task"),
            (b"nspid 1 7", "EINVAL", "ESRCH no-task"),
            (b"limit 4 5", "ENOENT", "EINVAL root-control"),
        ):
            self.assertIsNone(explain(meeting(line, kernel, table)), line)

    def test_a_listed_one_has(self) -> None:
        named = explain(meeting(b"wait 1 pid 0", "EINVAL", "ECHILD no-child"))
        assert named is not None
        self.assertEqual((named.name, named.parts), ("wait-pid-0", False))
