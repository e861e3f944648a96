"""The test kit: planted bugs that it finds and shrinks, what is no difference, commands, and misuse."""

from __future__ import annotations

import subprocess
import sys
import tempfile
import time
import unittest
import warnings
from contextlib import suppress
from pathlib import Path
from unittest import mock

from pidtab import Table
from pidtab.forms import ALL_FORMS, form_of, method_of, select_forms
from pidtab.language import FORMS, judge
from pidtab.listing import Listing, read_list
from pidtab.sight import Sight
from pidtab.testing.peer import CommandPeer, LeftOut, ObjectPeer
from tests.toy import Toy
from tests.ways import need_hypothesis, need_library

with suppress(ImportError):
    from hypothesis import given, settings

    from pidtab import testing
    from pidtab.testing import Aimed, Different, agree, compare, read_declared

PACKAGE = Path(__file__).resolve().parents[1]
PROGRAM = PACKAGE / "bin" / "pidtab-compare"

# The toy at the other end of a pipe; after its class stands what it is made with.
TOY_COMMAND = """\
import errno, sys
from tests.toy import Toy
toy = Toy(*sys.argv[1:])
for line in sys.stdin:
    name, *numbers = line.split()
    try:
        told = getattr(toy, name)(*map(int, numbers))
    except OSError as refusal:
        print(errno.errorcode[refusal.errno], flush=True)
    else:
        print(f"child {told}" if name == "fork" else "ok", flush=True)
"""
COMMAND_CALLS = ["fork", "exec", "setpgid"]
TOY_CALLS = ["fork", "exec", "exit", "wait any", "wait pid", "setpgid", "setsid", "getpid", "getppid", "getpgid", "getsid"]

# What the toy does not have of these: another namespace.
ONE_NAMESPACE = {"calls": TOY_CALLS, "without": ["fork new"]}

# The list of a table as it begins.
AT_FIRST = "task 1 space 0 parent 0 group 1 session 1 control 0 live\nspace 0 parent - cursor 2\ncontrol 0 parent - limit max count 1\n"

# Of a comparison that takes some seconds.
WORDS = ["--calls", ",".join(COMMAND_CALLS), "--cases", "40", "--steps", "15", "--seed", "1"]

MOST_SECONDS = 10
MOST_CALLS = 5


def setUpModule() -> None:
    """Without Hypothesis there is nothing to test here. What the toy lacks is the same for all tests but those of the warning."""
    need_hypothesis()
    warnings.simplefilter("ignore", testing.NotCompared)


def toy_command(*words: str) -> list[str]:
    """The command that is the toy."""
    return [sys.executable, "-S", "-B", "-c", TOY_COMMAND, *words]


def launch(*words: str) -> "subprocess.CompletedProcess[str]":
    """Runs pidtab-compare, where Python finds what these tests find."""
    path = {"PYTHONPATH": ":".join([str(PACKAGE), *filter(None, sys.path)])}
    with mock.patch.dict("os.environ", path):
        return subprocess.run([sys.executable, "-B", str(PROGRAM), *words], capture_output=True, text=True, check=False)


class Found(unittest.TestCase):
    """Differences that are there."""

    def setUp(self) -> None:
        need_library()
        folder = tempfile.TemporaryDirectory()
        self.addCleanup(folder.cleanup)
        self.script = Path(folder.name) / "found.script"

    def test_each_planted_bug(self) -> None:
        for bug in ("grandparent", "executed"):
            for begin_at in (1, 2):
                with self.subTest(bug=bug, begin_at=begin_at):
                    begun = time.process_time()
                    with self.assertRaises(Different) as found:
                        compare(lambda: Toy(bug), save=self.script, begin_at=begin_at)
                    self.assertLess(time.process_time() - begun, MOST_SECONDS)
                    self.check_script(bug, found.exception)

    def check_script(self, bug: str, found: Different) -> None:
        """The script that was saved is short, and shows the difference again: by pidtab, and by the toy."""
        lines = self.script.read_text().splitlines()
        self.assertEqual((tuple(lines), found.script), (found.lines, self.script.read_text()))
        self.assertLessEqual(len(lines), MOST_CALLS)
        with Table() as table:
            self.assertEqual((lines[-1], table.answers(lines)[-1]), (found.met.line, found.met.pidtab))
        toy = ObjectPeer(Toy(bug))
        self.assertEqual([toy.answer(line) for line in lines][-1], found.met.yours)
        right = ObjectPeer(Toy())
        self.assertTrue(agree([right.answer(line) for line in lines][-1], found.met.pidtab))

    def test_no_line_is_left_that_is_not_needed(self) -> None:
        rig = testing.machine(lambda: Toy("grandparent"), **ONE_NAMESPACE).rig
        needed = ("fork 1", "fork 2", "fork 3", "exit 3 0", "getppid 4")
        for lines in (("fork 1", "getpid 1", "fork 2", "fork 3", "exec 2", "exit 3 0", "fork 4", "setsid 4", "getppid 4"), needed):
            found = testing.kit.play_again(rig, lines)
            assert found
            self.assertEqual(testing.kit.leave_out(rig, found).lines, needed)
        self.assertIsNone(testing.kit.play_again(rig, needed[:-1]))
        self.assertEqual([form_of(line).name for line in ("limit 3 max", "setpgid 1 0 -1", "next 1 group 4", "fork 1 new")],
                         ["limit max", "setpgid", "next group", "fork new"])  # fmt: skip

    def test_none_where_there_is_none(self) -> None:
        tally = compare(Toy, begin_at=1, cases=150)
        self.assertGreater(tally.calls, 2000)
        self.assertEqual(tally.declared, {})

    def test_what_breaks_differs_by_that(self) -> None:
        class Broken(Toy):
            def getsid(self, caller: int, pid: int = 0) -> int:
                return self.processes[pid].session

        with self.assertRaises(Different) as found:
            compare(Broken, calls=["getsid"], begin_at=1)
        name, caller, number = found.exception.met.line.split(" ")
        self.assertEqual((name, caller, found.exception.met.yours), ("getsid", "1", f"KeyError: {number}"))
        self.assertIsInstance(found.exception.__cause__, KeyError)

    def test_the_lists(self) -> None:
        class Forgetful(Toy):
            def list(self) -> Listing:
                return read_list(AT_FIRST)

        with self.assertRaises(Different) as found:
            compare(Forgetful, calls=["fork"], begin_at=1)
        self.assertEqual((found.exception.lines, found.exception.met.line), (("fork 1",), "(the list)"))

    def test_one_that_is_not_steady(self) -> None:
        class Moody(Toy):
            """Forgets its group in the first of all cases that ask for it."""

            is_moody = True

            def getpgid(self, caller: int, pid: int = 0) -> int:
                found = super().getpgid(caller, pid)
                moody, Moody.is_moody = Moody.is_moody, False
                return 99 if moody else found

        with self.assertRaisesRegex(testing.Unsteady, "^yours differed once, and not when it was asked the same calls again: "):
            compare(Moody, begin_at=1, cases=50)

    def test_an_object_that_answers_lines(self) -> None:
        class Lines:
            """The toy, asked by lines."""

            def __init__(self) -> None:
                self.answer = ObjectPeer(Toy("executed")).answer

        with self.assertRaises(Different) as found:
            compare(Lines, begin_at=1, **ONE_NAMESPACE)
        self.assertEqual(found.exception.met[1:], ("ok", "EACCES executed"))

    def test_ids_of_control_groups_are_your_own(self) -> None:
        class Groups:
            """Control groups by words in the place of stamps."""

            def __init__(self) -> None:
                self.parents: dict[object, object] = {0: None}

            def mk(self, parent: object) -> str:
                if parent not in self.parents:
                    raise FileNotFoundError(2, "no-control")
                self.parents[name := f"group-{len(self.parents)}"] = parent
                return name

            def count(self, control: object) -> int:
                if control not in self.parents:
                    raise FileNotFoundError(2, "no-control")
                return int(control == 0)

        self.assertGreater(compare(Groups, begin_at=1, cases=30).calls, 200)

    def test_a_case_of_unittest(self) -> None:
        case = testing.machine(lambda: Toy("executed")).TestCase
        case.settings = settings(case.settings, max_examples=100, database=None)
        result = unittest.TestResult()
        case("runTest").run(result)
        ((_, said),) = [*result.failures, *result.errors]
        self.assertIn("pidtab EACCES executed", said)


class Forker:
    """What all tables of these tests have."""

    def fork(self, caller: int, new: bool = False) -> int:
        return 2


class Names(unittest.TestCase):
    """What a table lacks, and what it has by another name."""

    def misnamed(self, **methods: object) -> str:
        """What is said of a table with these methods."""
        with self.assertRaises(testing.Misnamed) as fault:
            testing.machine(type("Mine", (), methods))
        return str(fault.exception)

    def test_a_call_by_another_name(self) -> None:
        for name, meant in [
            ("waitpid", "wait"), ("wait4", "wait"), ("execve", "exec"), ("get_ppid", "getppid"), ("getPid", "getpid"), ("setpgrp", "setpgid"),
            ("set_subreaper", "subreaper"), ("rmdir", "rm"), ("frok", "fork"),
        ]:  # fmt: skip
            with self.subTest(name):
                said = self.misnamed(**{name: lambda table, caller: 0, "getsid": lambda table, caller, pid: 0})
                self.assertIn(f"`{name}` would not be compared: the method for it is named `{meant}`", said)

    def test_a_call_with_other_arguments(self) -> None:
        said = self.misnamed(fork=Forker.fork, exit=lambda table, caller: None, getpgid=lambda table: 0)
        self.assertIn("`exit` does not take the arguments of pidtab.Calls: it is called as exit(1, 1)", said)
        self.assertIn("`getpgid` does not take the arguments of pidtab.Calls: it is called as getpgid(1, 1)", said)

    def test_what_was_left_out_on_purpose(self) -> None:
        table = type("Mine", (Forker,), {"waitpid": lambda table, caller: 0, "exit": lambda table: None})
        testing.machine(table, without=["wait", "exit"])
        testing.machine(table, calls=["fork"])

    def test_a_helper_is_no_call(self) -> None:
        for name in ("reap", "parent_of", "next_number", "processes", "tick", "_wait4", "is_live", "groups", "forks_so_far"):
            with self.subTest(name):
                testing.machine(type("Mine", (Forker,), {name: lambda table, caller: 0}))
        # One that has the call itself may have another like it.
        testing.machine(type("Mine", (Forker,), {"vfork": Forker.fork, "clone": Forker.fork}))

    def test_what_it_lacks_is_a_warning(self) -> None:
        class Mine(Forker):
            def wait(self, caller: int) -> None:
                pass

        lacks = "exec, exit, wait pid, wait own, wait group, setpgid, setsid, getpid, getppid, getpgid, getsid, nspid, next, "
        with self.assertWarnsRegex(testing.NotCompared, f"^not compared, as yours has no such method: {lacks}") as warned:
            testing.machine(Mine)
        self.assertEqual(warned.filename, __file__)
        with self.assertWarnsRegex(testing.NotCompared, "method: exec, exit, setpgid, ") as warned:
            testing.machine(Mine, without=["wait"])
        with warnings.catch_warnings():
            warnings.simplefilter("error", testing.NotCompared)
            testing.machine(Mine, calls=["fork"])
            testing.machine(Mine, without=[name for name in ALL_FORMS if name not in ("fork", "wait any")])


class Counts(unittest.TestCase):
    """The tally of a comparison."""

    def setUp(self) -> None:
        need_library()

    def test_cases_are_those_that_were_asked_for(self) -> None:
        for cases in (1, 20, 100):
            with self.subTest(cases):
                self.assertEqual(compare(Toy, cases=cases, steps=10, **ONE_NAMESPACE).cases, cases)

    def test_what_was_never_compared(self) -> None:
        class Shy(Toy):
            def exec(self, caller: int) -> None:
                raise NotImplementedError

        self.assertEqual(compare(Shy, calls=["fork", "exec", "wait any"], without=["fork new"], cases=20).not_compared, ("exec",))

    def test_a_table_that_leaves_all_out(self) -> None:
        class Silent:
            def answer(self, line: str) -> str:
                raise NotImplementedError

        with self.assertRaisesRegex(ValueError, "^nothing was compared: yours has left each call out$"):
            compare(Silent, cases=5)


class Declared(unittest.TestCase):
    """Differences that are left out by name."""

    def setUp(self) -> None:
        need_library()

    def test_by_a_text_and_by_a_function(self) -> None:
        text = "setpgid * => * | EACCES executed"
        for declared in (text, lambda met: met.pidtab == "EACCES executed"):
            with self.subTest(declared):
                tally = compare(lambda: Toy("executed"), declared={"executed": declared}, begin_at=1, cases=200)
                self.assertGreater(tally.declared["executed"], 0)

    def test_another_is_still_found(self) -> None:
        with self.assertRaises(Different):
            compare(lambda: Toy("grandparent"), declared={"executed": "setpgid * => * | EACCES executed"}, begin_at=1)

    def test_a_text_that_is_none(self) -> None:
        for text in ("", "fork 1", "fork 1 => ok", "fork 1 | ok", " => ok | no"):
            with self.subTest(text), self.assertRaisesRegex(ValueError, "a declared difference is `LINE => YOURS"):
                read_declared(text)


class Commands(unittest.TestCase):
    """Tables at the other end of a pipe."""

    def test_a_bug_by_a_command(self) -> None:
        need_library()
        with mock.patch.dict("os.environ", {"PYTHONPATH": str(PACKAGE)}), self.assertRaises(Different) as found:
            compare(toy_command("executed"), calls=COMMAND_CALLS, cases=40, steps=15, begin_at=1)
        self.assertEqual((found.exception.met.yours, found.exception.met.pidtab), ("ok", "EACCES executed"))
        self.assertLessEqual(len(found.exception.lines), MOST_CALLS)

    def answer(self, code: str, line: str = "fork 1") -> str:
        """What a command of the shell answers to a line."""
        peer = CommandPeer(["sh", "-c", code])
        self.addCleanup(peer.close)
        return peer.answer(line)

    def test_one_that_ends(self) -> None:
        self.assertEqual(self.answer("read line; echo broken >&2; exit 3"), "ended with status 3: broken")
        self.assertEqual(self.answer("exit 0"), "ended with status 0")

    def test_one_that_says_nothing(self) -> None:
        with mock.patch("pidtab.testing.peer.PATIENCE", 0.2):
            peer = CommandPeer(["sleep", "60"])
            self.assertEqual(peer.answer("fork 1"), "no answer in 0.2 s")
            peer.close()

    def test_one_that_leaves_a_call_out(self) -> None:
        peer = CommandPeer(["sh", "-c", "read line; echo n/a too hard; read line; echo ok"], ["cat"])
        self.addCleanup(peer.close)
        with self.assertRaises(LeftOut):
            peer.answer("fork 1")
        self.assertEqual((peer.answer("exec 1"), peer.list_text()), ("ok", "exec 1\n"))

    def test_one_that_is_not_there(self) -> None:
        with self.assertRaisesRegex(RuntimeError, "^cannot start /no/such: No such file or directory$"):
            CommandPeer(["/no/such"])

    def test_its_list(self) -> None:
        peer = CommandPeer(["sh", "-c", "while read line; do echo ok; done"], ["cat"])
        self.addCleanup(peer.close)
        peer.answer("exec 1")
        self.assertEqual(peer.list_text(), "exec 1\n")
        peer = CommandPeer(["cat"], ["false"])
        self.addCleanup(peer.close)
        self.assertEqual(peer.list_text(), "the list ended with status 1\n")


class Program(unittest.TestCase):
    """`pidtab-compare`."""

    def setUp(self) -> None:
        need_library()

    def test_a_difference(self) -> None:
        with tempfile.TemporaryDirectory() as folder:
            done = launch(*WORDS, "--save", f"{folder}/found", "--", *toy_command("executed"))
            self.assertEqual((done.returncode, done.stderr), (1, ""))
            script = Path(folder, "found").read_text()
        self.assertEqual(done.stdout.splitlines()[1:4], ["  yours  ok", "  pidtab EACCES executed", "the script:"])
        self.assertEqual([line.strip() for line in done.stdout.splitlines()[4:]], script.splitlines())

    def test_none_but_what_is_declared(self) -> None:
        with tempfile.TemporaryDirectory() as folder:
            Path(folder, "known").write_text("# mine\n\nexecuted: setpgid * => * | EACCES executed\n")
            done = launch(*WORDS, "--declared", f"{folder}/known", *toy_command("executed"))
        self.assertEqual((done.returncode, done.stderr), (0, ""))
        self.assertRegex(done.stdout, r"\A40 cases, \d+ calls: no difference\ndeclared executed: \d+ times\n\Z")

    def test_misuse(self) -> None:
        with tempfile.NamedTemporaryFile("w") as file:
            file.write("no colon\n")
            file.flush()
            for words, said in [
                ([], "no COMMAND"),
                (["--calls", "frok", "cat"], "no call 'frok'"),
                (["--cases", "0", "cat"], "a number from 1 on, not 0"),
                (["/no/such"], "pidtab-compare: cannot start /no/such: No such file or directory"),
                (["--declared", "/no/such", "cat"], "pidtab-compare: /no/such: No such file or directory"),
                (["--declared", file.name, "cat"], f"{file.name}:1: expected NAME: LINE => YOURS | PIDTAB"),
            ]:
                with self.subTest(words):
                    done = launch(*words)
                    self.assertEqual((done.returncode, done.stdout), (2, ""))
                    self.assertIn(said, done.stderr)

    def test_without_hypothesis(self) -> None:
        code = "import sys; sys.modules['hypothesis'] = None; sys.argv[1:] = ['cat']; from pidtab.commands.compare import main; main()"
        done = subprocess.run([sys.executable, "-B", "-c", code], cwd=PACKAGE, capture_output=True, text=True, check=False)
        self.assertEqual((done.returncode, done.stdout), (2, ""))
        self.assertIn("pidtab.testing needs Hypothesis: ", done.stderr)


class Parts(unittest.TestCase):
    """What the kit is made of."""

    def test_what_agrees(self) -> None:
        limited, forked = "EAGAIN pids-limit 4", "child 2 root 3"
        for yours, pidtab in [("ok", "ok"), ("EAGAIN", limited), ("EAGAIN pids-limit", limited), ("child 2", forked)]:
            self.assertTrue(agree(yours, pidtab), yours)
        for yours, pidtab in [("3", "3 2"), ("E", limited), ("child", forked), ("reaped 2", "reaped 2 exit 0"), (limited, "EAGAIN")]:
            self.assertFalse(agree(yours, pidtab), yours)

    def test_each_form_has_a_method_of_pidtab(self) -> None:
        self.assertEqual([" ".join(form.words) for form in ALL_FORMS.values()], list(FORMS))
        need_library()
        with Table() as table:
            for form in ALL_FORMS.values():
                self.assertTrue(method_of(form.line([1] * len(form.kinds))).fits(table), form.name)

    def test_the_forms_of_an_object(self) -> None:
        self.assertEqual([form.name for form in ObjectPeer(Toy()).forms()], TOY_CALLS)

    def test_names_of_calls(self) -> None:
        self.assertEqual([form.name for form in select_forms(["limit", "subreaper", "wait own"])], ["limit", "subreaper on", "subreaper off", "wait own"])
        with self.assertRaisesRegex(ValueError, "no call 'frok': the calls are fork, "):
            select_forms(["frok"])
        with self.assertRaises(TypeError):
            select_forms("fork")

    def test_a_call_that_is_left_out(self) -> None:
        toy = Toy()
        toy.exec = mock.Mock(side_effect=NotImplementedError)  # type: ignore[method-assign]
        with self.assertRaises(LeftOut):
            ObjectPeer(toy).answer("exec 1")

    def test_nothing_to_compare(self) -> None:
        with self.assertRaisesRegex(ValueError, "^nothing to compare"):
            testing.machine(object)
        with self.assertRaisesRegex(TypeError, "what is compared is a class"):
            testing.machine(5)  # type: ignore[arg-type]

    def test_a_strategy_for_other_machines(self) -> None:
        need_library()
        seen: set[str] = set()
        with Table() as table:
            table.answers(["fork 1 new", "fork 2", "mk 0"])
            sight = Sight(table.list())

            @settings(max_examples=300, database=None, derandomize=True)
            @given(testing.calls())
            def aim(call: Aimed) -> None:
                line = call.line(sight)
                self.assertIsNone(judge(line.encode()), line)
                seen.add(call.form)

            aim()
        self.assertEqual(seen, set(ALL_FORMS))


if __name__ == "__main__":
    unittest.main()
