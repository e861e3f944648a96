"""What either way has besides what interface/cases says of each call: what is left out, lines, lists, and the worked examples."""

import copy
import pickle
import threading
import unittest
from collections.abc import Callable

from pidtab import Calls, Control, Reaped, Space, TableClosed, read_list
from tests.pages import EXAMPLES, StoredScript, blocks, named_examples, quoted, read_page, rows, script_lines, section, stored_scripts
from tests.ways import ByLibrary, ByProgram, Cases, ask


class CallCases(Cases):
    """What a method takes where an argument is left out, and what it does not take."""

    def setUp(self) -> None:
        self.table = self.open()

    def test_wait_for_one_thing_only(self) -> None:
        with self.assertRaises(ValueError):
            self.table.wait(1, pid=2, own=True)
        with self.assertRaises(ValueError):
            self.table.wait(1, pid=0, group=0)
        # The id is the number of the call, so none was made before.
        self.assertEqual(self.table.mk(), 1)

    def test_next(self) -> None:
        for _ in range(2):
            self.table.fork(1)
        self.table.setpgid(2)
        self.table.setsid(3)
        self.assertEqual(self.table.next(1, "task", 2), 2)
        self.assertEqual(self.table.next(1), 1)
        self.assertEqual(self.table.next(1, "group", 2), 2)
        self.assertEqual(self.table.next(1, "session", 2), 3)
        self.assertIsNone(self.table.next(1, "session", 4))

    def test_what_is_left_out(self) -> None:
        self.table.fork(1)
        self.table.setpgid(2)
        self.assertEqual((self.table.getpgid(2), self.table.getsid(2), self.table.mk(), self.table.count()), (2, 1, 5, 2))
        self.table.limit(5)
        self.table.exit(2)
        self.assertEqual(self.table.wait(1), Reaped(child=2, status=0))
        self.assertTrue(Reaped(child=3, status=None).killed)


class NumberCases(Cases):
    """Numbers out of range, by the methods."""

    def test_what_is_out_of_range_is_a_bad_line(self) -> None:
        table = self.open()
        for line in (
            "fork -1", f"fork {2**32}", f"exec {2**64}", "exit 1 256", "exit 1 -1", f"exit 1 {2**32}", f"getpid {2**32 + 1}",
            "nspid 1 -1", f"wait 1 pid {2**32}", "wait 1 group -1", f"setpgid 1 {2**31} 0", f"setpgid 1 0 {-(2**31) - 1}",
            f"getpgid 1 {2**32}", "getsid 1 -1", "next 1 pid 1", "next 1 task -1", f"next 1 session {2**32}", f"join 1 {2**32}", "subreaper -1 on",
            "mk -1", f"mk {2**64}", "rm -1", f"limit 0 {2**32}", "limit 0 -1", f"limit {2**64} max", f"move {2**32} 0", f"move 1 {2**64}",
            f"count {2**64}",
        ):  # fmt: skip
            with self.subTest(line):
                with self.assertRaisesRegex(ValueError, f"^bad line: {line}$"):
                    ask(table, line)
                with self.assertRaisesRegex(ValueError, f"^bad line: {line}$"):
                    table.line(line)
        # The id is the number of the call, so none was made before.
        self.assertEqual(table.mk(), 1)


class LineCases(Cases):
    """Raw lines, and many lines."""

    def setUp(self) -> None:
        self.table = self.open()

    def assert_value_error(self, ask: Callable[[], object], words: str) -> None:
        with self.assertRaisesRegex(ValueError, words):
            ask()

    def test_a_raw_line(self) -> None:
        self.assertEqual(self.table.line("fork 1"), "child 2 root 2")
        self.assertEqual(self.table.line("next 1 task 9"), "end")

    def test_an_empty_line_has_no_answer(self) -> None:
        self.assert_value_error(lambda: self.table.line(""), "empty line")
        self.assert_value_error(lambda: self.table.answers(["getpid 1", ""]), "empty line")
        self.assertEqual(self.table.mk(), 1)

    def test_two_lines_are_not_one(self) -> None:
        self.assert_value_error(lambda: self.table.line("fork 1\nfork 1"), "more than one line")
        self.assertEqual(self.table.next(1, "task", 2), None)

    def test_bad_lines(self) -> None:
        for text in ("fork", "FORK 1", "# x", "fork 1\r", "exit 1 256", "fork ä", "fork\x001", "\udcff", "x" * 300):
            with self.subTest(text):
                self.assert_value_error(lambda: self.table.line(text), "bad line")
        self.assertEqual(self.table.mk(), 1)

    def test_many_lines(self) -> None:
        lines = ["fork 1", "exit 2 0", "wait 1 any", "getpid 9", "FORK"] + ["getpid 1"] * 3000
        want = ["child 2 root 2", "ok", "reaped 2 exit 0", "ESRCH no-caller", "bad line"] + ["1"] * 3000
        self.assertEqual(self.table.answers(lines), tuple(want))
        # 3,004 calls before this one: a bad line is none, and a refused one is.
        self.assertEqual(self.table.mk(), 3005)

    def test_no_lines(self) -> None:
        self.assertEqual(self.table.answers([]), ())


class ListCases(Cases):
    """The list and the tree."""

    def test_the_list_of_the_page(self) -> None:
        table = self.open()
        table.fork(1, new=True)
        table.fork(2)
        listing = table.list()
        self.assertEqual([task.numbers for task in listing.tasks], [(1,), (2, 1), (3, 2)])
        self.assertEqual([task.parent for task in listing.tasks], [0, 1, 2])
        self.assertEqual([task.space for task in listing.tasks], [0, 1, 1])
        self.assertTrue(all(task.live and task.group == 1 and task.session == 1 for task in listing.tasks))
        self.assertEqual(listing.spaces, (Space(0, None, 4, False), Space(1, 0, 3, False)))
        self.assertEqual(listing.controls, (Control(0, None, None, 3),))

    def test_a_list_of_many_tasks(self) -> None:
        table = self.open()
        table.answers(["fork 1"] * 2000)
        self.assertEqual([task.numbers for task in table.list().tasks], [(number,) for number in range(1, 2002)])

    def test_tree(self) -> None:
        table = self.open()
        table.fork(1, new=True)
        table.fork(2)
        self.assertEqual(table.tree().splitlines(), [
            "processes",
            "  space 0",
            "    1 group 1 session 1 control 0 live",
            "      space 1",
            "        2,1 group 1 session 1 control 0 live",
            "          3,2 group 1 session 1 control 0 live",
            "namespaces",
            "  0 cursor 4",
            "    1 cursor 3",
            "control groups",
            "  0 count 3 limit max",
        ])  # fmt: skip


class TableCases(Cases):
    """A table as a whole: its bound, its end, copies and threads."""

    def test_the_range_of_pid_max(self) -> None:
        for pid_max in (301, 4194304):
            self.assertEqual(self.open(pid_max).pid_max, pid_max)
        for pid_max in (-1, 0, 300, 4194305, 2**32 + 301):
            with self.subTest(pid_max), self.assertRaisesRegex(ValueError, f"^pid_max is 301 to 4194304, not {pid_max}$"):
                self.open(pid_max)

    def test_a_table_that_was_closed(self) -> None:
        with self.open() as table:
            self.assertEqual(table.getpid(1), 1)
        self.assertEqual(table.close(), table.close())
        methods: list[Callable[[], object]] = [
            lambda: table.fork(1), lambda: table.exec(1), lambda: table.exit(1), lambda: table.wait(1), lambda: table.setpgid(1),
            lambda: table.setsid(1), lambda: table.getpid(1), lambda: table.getppid(1), lambda: table.getpgid(1), lambda: table.getsid(1),
            lambda: table.nspid(1, 1), lambda: table.next(1), lambda: table.join(1, 1), lambda: table.subreaper(1), lambda: table.mk(),
            lambda: table.rm(1), lambda: table.limit(1), lambda: table.move(1, 0), lambda: table.count(), lambda: table.line("getpid 1"),
            lambda: table.answers(["getpid 1"]), lambda: table.list(), lambda: table.list_text(), lambda: table.tree(),
        ]  # fmt: skip
        for method in methods:
            with self.assertRaisesRegex(TableClosed, "was closed"):
                method()

    def test_there_are_no_copies(self) -> None:
        table = self.open()
        takes: list[Callable[[object], object]] = [copy.copy, copy.deepcopy, pickle.dumps]
        for take in takes:
            with self.assertRaisesRegex(TypeError, "not copied or pickled"):
                take(table)
        self.assertEqual(table.getpid(1), 1)

    def test_two_tables_share_nothing(self) -> None:
        one, other = self.open(), self.open()
        one.fork(1)
        one.close()
        self.assertEqual(len(other.list().tasks), 1)

    def test_threads_share_a_table(self) -> None:
        table = self.open()
        seen: list[int] = []
        threads = [threading.Thread(target=lambda: seen.extend(table.fork(1).root for _ in range(200))) for _ in range(2)]
        threads += [threading.Thread(target=lambda: seen.extend(fork_by_lines(table, 200))) for _ in range(2)]
        for thread in threads:
            thread.start()
        for thread in threads:
            thread.join()
        self.assertEqual(sorted(seen), list(range(2, 802)))
        self.assertEqual(table.count(), 801)


def fork_by_lines(table: Calls, times: int) -> list[int]:
    """The root numbers of children that are forked by one `answers`."""
    return [int(answer.rpartition(" ")[2]) for answer in table.answers(["fork 1"] * times)]


class PageCases(Cases):
    """What the pages and the stored run say that is answered, answered so."""

    def test_examples(self) -> None:
        answers = sorted(EXAMPLES.glob("*.answers"))
        self.assertEqual({file.stem for file in answers}, named_examples())
        for file in answers:
            with self.subTest(file.name):
                lines = script_lines(file.with_suffix(".script"))
                self.assertEqual(list(self.open().answers(lines)), script_lines(file))

    def test_table_of_the_first_page(self) -> None:
        table = rows(section(read_page("README.md"), "### A namespace, step by step"))
        lines, answers = ([quoted(row[at])[0] for row in table] for at in (0, 1))
        # No other table of the page begins its rows with a line of the language.
        self.assertEqual(len(lines), read_page("README.md").count("\n| `"))
        self.assertEqual(list(self.open().answers(lines)), answers)

    def test_first_block_of_the_language(self) -> None:
        _, *answers = blocks(read_page("docs/SCRIPT.md"))[0].splitlines()
        self.assertEqual(list(self.open().answers(["fork 1 new", "fork 2", "nspid 1 3", "getppid 2"])), answers)

    def test_stored_scripts(self) -> None:
        scripts = stored_scripts()
        self.assertGreater(len(scripts), 30)
        for script in scripts:
            with self.subTest(script.name):
                self.play_lines(script)
                self.play_methods(script)

    def play_lines(self, script: StoredScript) -> None:
        """The stored answers, by lines."""
        table = self.open(script.pid_max)
        lines = [line.decode("utf-8", "surrogateescape") for line in script.lines if line]
        self.assertEqual(list(table.answers(lines)), script.answers)
        self.check_list(table, script)

    def play_methods(self, script: StoredScript) -> None:
        """The stored answers, by the methods of the calls."""
        table = self.open(script.pid_max)
        asked = [line.decode("latin-1") for line in script.lines if line]
        for line, answer in zip(asked, script.answers, strict=True):
            if answer != "bad line":
                self.assertEqual((line, ask(table, line)), (line, answer))
        self.check_list(table, script)

    def check_list(self, table: Calls, script: StoredScript) -> None:
        """The stored list, where there is one."""
        if script.list_text:
            self.assertEqual(table.list_text(), script.list_text)
            self.assertEqual(table.list(), read_list(script.list_text))


class CallsByProgram(CallCases, ByProgram):
    pass


class CallsByLibrary(CallCases, ByLibrary):
    pass


class NumbersByProgram(NumberCases, ByProgram):
    pass


class NumbersByLibrary(NumberCases, ByLibrary):
    pass


class LinesByProgram(LineCases, ByProgram):
    pass


class LinesByLibrary(LineCases, ByLibrary):
    pass


class ListsByProgram(ListCases, ByProgram):
    pass


class ListsByLibrary(ListCases, ByLibrary):
    pass


class TablesByProgram(TableCases, ByProgram):
    pass


class TablesByLibrary(TableCases, ByLibrary):
    pass


class PagesByProgram(PageCases, ByProgram):
    pass


class PagesByLibrary(PageCases, ByLibrary):
    pass


if __name__ == "__main__":
    unittest.main()
