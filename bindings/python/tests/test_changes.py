"""Two states of a table: what has changed, a table as it was, a copy; and lists as JSON, by the schema of docs/."""

import importlib.util
import json
import subprocess
import sys
import tempfile
import unittest
from pathlib import Path
from typing import Any

from pidtab import ALL, Changes, Control, Listing, NotKept, Refusal, Table, TableClosed, read_list
from tests.pages import EXAMPLES, REPOSITORY, quoted, read_page, rows, section
from tests.test_tree import WIDE_LIST
from tests.ways import for_threads, need_library

PROGRAM = REPOSITORY / "bindings" / "python" / "bin" / "pidtab-tree"
BEFORE = """\
task 1 space 0 parent 0 group 1 session 1 control 0 live
task 2,1 space 1 parent 1 group 1 session 1 control 0 live
task 3,2 space 1 parent 2 group 1 session 1 control 0 live
space 0 parent - cursor 4
space 1 parent 0 cursor 3
control 0 parent - limit max count 3
"""
# Task 2 has exited, its namespace has fallen, task 4 and a control group have come.
NOW = """\
task 1 space 0 parent 0 group 1 session 1 control 0 live
task 2,1 space 1 parent 1 group 1 session 1 control 0 exit 7
task 4 space 0 parent 1 group 1 session 1 control 5 live
space 0 parent - cursor 5
space 1 parent 0 cursor 3 fallen
control 0 parent - limit max count 3
control 5 parent 0 limit 9 count 1
"""
CHANGES = """\
+ task 4 space 0 parent 1 group 1 session 1 control 5 live
+ control 5 parent 0 limit 9 count 1
- task 3,2 space 1 parent 2 group 1 session 1 control 0 live
~ task 2: state live -> exited, status null -> 7
~ space 0: cursor 4 -> 5
~ space 1: fallen false -> true
"""


def read_schema() -> Any:
    """The schema of docs/."""
    return json.loads(read_page("docs/list.schema.json"))


def validator(schema: Any = None) -> Any:
    """What says whether an object is of the schema, which is by default that of docs/."""
    if importlib.util.find_spec("jsonschema") is None:
        raise unittest.SkipTest("no jsonschema")
    import jsonschema

    schema = schema or read_schema()
    jsonschema.Draft202012Validator.check_schema(schema)
    return jsonschema.Draft202012Validator(schema)


def launch(text: str, *words: str) -> "subprocess.CompletedProcess[str]":
    """Runs pidtab-tree."""
    return subprocess.run([sys.executable, str(PROGRAM), *words], input=text, capture_output=True, text=True, check=False)


class Differences(unittest.TestCase):
    def setUp(self) -> None:
        self.changes = read_list(NOW) - read_list(BEFORE)

    def test_who_came_went_and_changed(self) -> None:
        self.assertEqual([getattr(it, "root", None) or it.id for it in self.changes.came], [4, 5])  # type: ignore[union-attr]
        self.assertEqual(self.changes.came[1], Control(5, 0, 9, 1))
        self.assertEqual(self.changes.went, (read_list(BEFORE).tasks[2],))
        self.assertEqual(self.changes.changed[0], (read_list(BEFORE).tasks[1], read_list(NOW).tasks[1]))
        self.assertEqual(str(self.changes), CHANGES)

    def test_none(self) -> None:
        none = read_list(NOW) - read_list(NOW)
        self.assertEqual((bool(none), str(none), bool(self.changes)), (False, "", True))

    def test_what_is_no_list(self) -> None:
        with self.assertRaises(TypeError):
            read_list(NOW) - "text"  # type: ignore[operator]

    def test_the_program(self) -> None:
        with tempfile.TemporaryDirectory() as folder:
            file = Path(folder, "before")
            file.write_text(BEFORE)
            done = launch(NOW, "--diff", str(file), "-")
            self.assertEqual((done.returncode, done.stdout, done.stderr), (0, CHANGES, ""))
            done = launch(NOW, "--diff", str(file), "-", "--json")
            self.assertEqual(json.loads(done.stdout), self.changes.to_object())
            file.write_text("no list\n")
            done = launch(NOW, "--diff", str(file), "-")
            self.assertEqual((done.returncode, done.stderr), (1, f"pidtab-tree: {file}: line 1: not a line of `pidtab list`\n"))

    def test_misuse_of_the_program(self) -> None:
        for words, said in [
            (("--diff", "/no/such", "-"), "pidtab-tree: cannot read /no/such: No such file or directory"),
            (("--diff", "-"), "--diff: expected 2 arguments"),
            (("--json", "--ascii"), "--json and --diff draw no tree"),
            (("--diff", "-", "-", "--socket", "x"), "--diff is of two files, and --socket of none"),
        ]:
            with self.subTest(words):
                done = launch(NOW, *words)
                self.assertEqual((done.returncode, done.stdout), (2, ""))
                self.assertIn(said, done.stderr)


class Json(unittest.TestCase):
    def test_each_field(self) -> None:
        found = json.loads(read_list(WIDE_LIST).to_json())
        self.assertEqual(
            found["tasks"][1],
            {"numbers": [2, 1], "space": 4, "parent": 1, "group": 1, "session": 1, "control": 7, "state": "exited", "status": 255,
             "executed": False, "children": None, "subreaper": False},
        )  # fmt: skip
        self.assertEqual([(it["state"], it["status"]) for it in found["tasks"][2:4]], [("killed", None), ("live", None)])
        self.assertEqual((found["tasks"][3]["children"], found["tasks"][3]["subreaper"]), (4, True))
        self.assertEqual(found["spaces"][1], {"id": 4, "parent": 0, "cursor": 3, "fallen": True})
        self.assertEqual(found["controls"][:2], [{"id": 0, "parent": None, "limit": None, "count": 6}, {"id": 7, "parent": 0, "limit": 0, "count": 2}])

    def test_the_example_of_all_packages(self) -> None:
        text, wanted = ((REPOSITORY / "bindings" / f"example.{it}").read_text() for it in ("list", "json"))
        self.assertEqual(read_list(text).to_json() + "\n", wanted)

    def test_by_the_schema(self) -> None:
        check = validator()
        lists = [read_list(WIDE_LIST), *(read_list(file.read_text()) for file in EXAMPLES.glob("*.list"))]
        for listing in lists:
            check.validate(listing.to_object())
            check.validate(Changes(lists[0], listing).to_object())

    def test_what_the_schema_refuses(self) -> None:
        check = validator()
        good = read_list(BEFORE).to_object()
        for part, field, value in [("tasks", "state", "dead"), ("tasks", "numbers", []), ("spaces", "cursor", None), ("controls", "more", 1)]:
            bad = json.loads(json.dumps(good))
            bad[part][0][field] = value
            self.assertFalse(check.is_valid(bad), (part, field))

    def test_the_program(self) -> None:
        done = launch(WIDE_LIST, "--json")
        self.assertEqual((done.returncode, done.stdout, done.stderr), (0, f"{read_list(WIDE_LIST).to_json()}\n", ""))


class Replies(unittest.TestCase):
    """What is answered with fields, as JSON."""

    def replies(self) -> list[dict[str, Any]]:
        """A fork, two refusals, an exit that is waited for, and a kill that is."""
        need_library()
        with Table() as table:
            found = [table.fork(1, new=True).to_object()]
            # The third task is forked from outside into the namespace, and is killed by its fall. It may not fork.
            table.join(1, 2)
            table.fork(1)
            table.limit(table.mk(), 0)
            table.move(3, 4)
            for caller in (9, 3):
                with self.assertRaises(Refusal) as fault:
                    table.fork(caller)
                found.append(fault.exception.to_object())
            table.exit(2, 7)
            found += [reaped.to_object() for reaped in (table.wait(1), table.wait(1)) if reaped is not None]
        return found

    def test_each_field(self) -> None:
        self.assertEqual(
            self.replies(),
            [{"child": 2, "root": 2}, {"error": "ESRCH", "word": "no-caller", "id": None}, {"error": "EAGAIN", "word": "pids-limit", "id": 4},
             {"child": 2, "status": 7}, {"child": 3, "status": None}],
        )  # fmt: skip

    def test_by_the_schema(self) -> None:
        check = validator()
        for reply in self.replies():
            check.validate(json.loads(json.dumps(reply)))
            for bad in ({**reply, "more": 1}, {**reply, "child": -1}, {**reply, "word": "no-word"}):
                self.assertFalse(check.is_valid(bad), bad)

    def test_what_all_languages_write(self) -> None:
        # The cases make the calls, and compare what each writes.
        schema = read_schema()
        schema["anyOf"] = [{"$ref": "#/$defs/reply"}]
        check = validator(schema)
        steps = [line for line in read_page("interface/cases/replies.cases").splitlines() if line.startswith("json ")]
        replies = [json.loads(step.partition(" -> ")[2]) for step in steps]
        for reply in replies:
            check.validate(reply)
        self.assertEqual({type(reply) for reply in replies}, {dict, list, int, type(None)})
        for bad in ("ok", [], -1, [0, "1"], True, {"child": 2}):
            self.assertFalse(check.is_valid(bad), bad)

    def test_the_words_of_the_schema(self) -> None:
        said = [quoted(row[0])[0].split(" ") for row in rows(section(read_page("docs/SCRIPT.md"), "## Refusals"))]
        fields = read_schema()["$defs"]["refusal"]["properties"]
        self.assertEqual({error for error, *_ in said}, set(fields["error"]["enum"]))
        self.assertEqual({word for _, word, *_ in said}, set(fields["word"]["enum"]))


class Copies(unittest.TestCase):
    def setUp(self) -> None:
        need_library()

    def test_a_copy_goes_its_own_way(self) -> None:
        with Table(301) as table:
            table.answers(["fork 1 new", "mk 0", "fork 2"])
            with table.copy() as copy:
                self.assertEqual((copy.dump(), copy.pid_max), (table.dump(), 301))
                self.assertEqual(copy.mk(), 4)
                self.assertEqual([len(it.list().controls) for it in (table, copy)], [2, 3])

    def test_a_closed_one(self) -> None:
        table = Table()
        table.close()
        with self.assertRaises(TableClosed):
            table.copy()


class Earlier(unittest.TestCase):
    """A table as it was."""

    LINES = ("fork 1 new", "mk 0", "fork 2", "move 3 2", "exit 2 0", "wait 1 any")

    def setUp(self) -> None:
        need_library()

    def lists(self) -> list[Listing]:
        """The lists before each call, and after the last."""
        found = []
        with Table() as table:
            for line in (*self.LINES, "getpid 1"):
                found.append(table.list())
                table.line(line)
        return found

    def test_each_call(self) -> None:
        with for_threads(2) as table:
            seats = [table.seat(), table.seat()]
            for place, line in enumerate(self.LINES):
                seats[place % 2].line(line)
            for ordinal, listing in enumerate(self.lists()):
                with table.at(ordinal) as earlier:
                    self.assertEqual(earlier.list(), listing, ordinal)
            with table.at(6) as earlier:
                self.assertEqual(earlier.dump(), table.dump())

    def test_another_first_stamp(self) -> None:
        with for_threads(1, pid_max=400, first_stamp=50) as table:
            seat = table.seat()
            self.assertEqual((seat.mk(), seat.mk()), (50, 51))
            with table.at(1) as earlier:
                self.assertEqual((earlier.mk(), earlier.pid_max), (51, 400))

    def test_behind_a_text(self) -> None:
        with Table() as table:
            table.answers(self.LINES[:3])
            text = table.dump()
        with Table.from_dump(text, keep=ALL, recorded=[2, 1]) as table:
            seat = table.seat()
            seat.answers(self.LINES[3:])
            for ordinal in (3, 4, 6):
                with table.at(ordinal) as earlier:
                    self.assertEqual(earlier.list(), self.lists()[ordinal], ordinal)
            with self.assertRaisesRegex(NotKept, "the calls of this one begin with 3"):
                table.at(2)

    def test_what_is_not_kept(self) -> None:
        with for_threads(1) as table:
            seat = table.seat()
            seat.getpid(1)
            with self.assertRaises(NotKept):
                table.at(2)
            with self.assertRaises(ValueError):
                table.at(-1)
            table.checkpoint()
            with self.assertRaises(NotKept):
                table.at(0)


if __name__ == "__main__":
    unittest.main()
