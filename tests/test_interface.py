"""What tools/interface says of a repository with a difference planted: in each part, in each source that is compared, and in each table."""

import importlib.machinery
import importlib.util
import shutil
import subprocess
import sys
import tempfile
import unittest
from contextlib import redirect_stderr
from io import StringIO
from pathlib import Path
from unittest import mock

from tests.pages import REPOSITORY, read_page
from test_versions import RELEASED


def load_tool():
    """The tool as a module."""
    loader = importlib.machinery.SourceFileLoader("interface_tool", str(REPOSITORY / "tools" / "interface"))
    module = importlib.util.module_from_spec(importlib.util.spec_from_loader("interface_tool", loader))
    loader.exec_module(module)
    return module


TOOL = load_tool()
PARTS = sorted(TOOL.all_parts(TOOL.read_all(REPOSITORY)))
COMPARED = sorted({path for module in TOOL.COMPARED for path in module.PATHS})

# A source that is compared and not written: what is changed in it, and what is said of that.
DIFFERENCES = [
    ("crates/pid_types/src/reply.rt", "    SpaceFallen,\n    /// A namespace below one of level 32, the deepest.\n    TooDeep,",
     "    TooDeep,\n    /// A namespace below one of level 32, the deepest.\n    SpaceFallen,", "the order of refusals is NoCaller, "),
    ("crates/pid_types/src/reply.rt", "    BadLimit,\n", "    BadLimit(u64),\n", "what has an id is NoNumber, PidsLimit, BadLimit,"),
    ("crates/pid_types/src/call.rt", "    Exec { caller: Pid },", "    Execute { caller: Pid },", "the order of calls is Fork, GetPid, NsPid, Execute,"),
    ("crates/model_laws/specs/Refusals.antt", "NoControl (λ c.\n    refuse (deepest_control", "ControlBusy (λ c.\n    refuse (deepest_control",
     "the order of MakeControl is control-busy, control-depth, and in interface/ no-control, control-depth"),
    ("crates/model_laws/specs/Refusals.antt", "× (p ≡ caller.name.space → ⊥)) Elsewhere", "× (p ≡ caller.name.space → ⊥)) TooDeep", "the order of Fork is"),
    ("crates/pid_script/src/line.rt", "`wait C own`", "`wait C mine`", "the line wait C mine is not in interface/"),
    ("crates/saved_form/src/numbers.rt", "pub const SET_PGID: u32 = 7;", "pub const SET_PGID: u32 = 8;", "the operation 8 is not in interface/"),
    ("crates/saved_form/src/numbers.rt", "/// | 5 | `NoneYet`", "/// | 6 | `NoneYet`", "the kind 6 NoneYet is not in interface/"),
    ("crates/saved_form/src/numbers.rt", "pub const LEVELS_KIND: u32 = 3;", "pub const LEVELS_KIND: u32 = 2;", "the kind 2 is not in interface/"),
    ("bindings/python/pidtab/calls.py", "    def list_text(self)", "    def text_of(self)", "the package for python has no Listed.list_text"),
    ("bindings/js/pidtab.d.ts", "  checkpointAt(seen", "  cutAt(seen", "the package for javascript has no Table.checkpointAt"),
    ("crates/table_load/src/fault.rt", "line {0}: out of order", "line {0}: unsorted", "the fault unsorted Unsorted is not in interface/"),
    ("crates/table_text/src/fault.rt", "line {0}: wrong digest", "line {0}: other digest", "the fault other digest WrongDigest is not in interface/"),
    ("crates/foreign_numbers/src/numbers.rt", "(reply, kinds::CONTROL, *id, 0)", "(reply, kinds::COUNTED, *id, 0)", "the kind Control COUNTED is not in interface/"),
    ("crates/foreign_numbers/src/numbers.rt", "(reply, kinds::REFUSED, first, 0)", "(reply, kinds::END, first, 0)", "the kind Refused END is not in interface/"),
    ("crates/foreign_numbers/src/kinds.rt", "pub const KILLED: u64 = 256;", "pub const KILLED: u64 = 257;", "the bound KILLED 257 is not in interface/"),
    ("crates/pid_types/src/reply.rt", "pub enum Reply {\n", "pub enum Reply {\n    /// Nothing.\n    Nothing,\n", "the order of replies is Nothing, Forked,"),
    ("crates/call_effects/src/effect.rt", "    Gone { number: Pid },", "    Left { number: Pid },", "the order of effects is Ended, Adopted, Left,"),
    ("crates/pid_types/src/plain.rt", "pub const LEVELS: usize = 33;", "pub const LEVELS: usize = 34;", "the bound LEVELS 34 is not in interface/"),
    ("crates/pid_types/src/config.rt", "pub const LEAST_PID_MAX: u32 = 301;", "pub const LEAST_PID_MAX: u32 = 300;", "the bound LEAST_PID_MAX 300 is not in"),
    ("crates/pid_script/src/answer.rt", "pub const LONGEST_ANSWER: usize = 362;", "pub const LONGEST_ANSWER: usize = 363;", "the bound LONGEST_ANSWER 363"),
    ("crates/pid_script/src/call.rt", "pub const LONGEST_CALL: usize = 42;", "pub const LONGEST_CALL: usize = 43;", "the bound LONGEST_CALL 43 is not in"),
    ("crates/foreign_calls/src/table.rt", "pub const MOST_WORKERS: u32 = 16;", "pub const MOST_WORKERS: u32 = 17;", "the bound MOST_WORKERS 17 is not in"),
    ("crates/pidtab_c/src/lib.rt", "pub const VERSION: u32 = 1;", "pub const VERSION: u32 = 2;", "the bound VERSION 2 is not in interface/"),
    ("crates/saved_form/src/block.rt", "pub const BLOCK: usize = 48;", "pub const BLOCK: usize = 49;", "the bound BLOCK 49 is not in interface/"),
    ("crates/saved_form/src/layout.rt", "pub const VERSION: u32 = 1;", "pub const VERSION: u32 = 2;", "the bound VERSION 2 is not in interface/"),
    ("bindings/c/pidtab.h", "uint32_t pidtab_version(void);", "uint32_t pidtab_versions(void);", "pidtab_versions is not in interface/functions.tbl"),
    ("bindings/c/pidtab.h", "uint32_t pidtab_seat(", "uint32_t pidtab_chair(", "pidtab_chair is not in interface/functions.tbl"),
    ("bindings/c/pidtab_saved.h", "uint32_t pidtab_saved_end(struct", "uint32_t pidtab_saved_stop(struct", "pidtab_saved_end is in no header"),
    ("bindings/c/pidtab_replica.h", "uint32_t pidtab_replica_last(const", "uint32_t pidtab_replica_latest(const", "pidtab_replica_latest is not in interface/functions.tbl"),
    ("bindings/python/pidtab/number_calls.py", "    def fork_at(self", "    def fork_as(self", "the package for python has no Table.fork_at"),
    ("bindings/python/pidtab/history.py", "    def checkpoint_at(self", "    def cut_at(self", "the package for python has no Table.checkpoint_at"),
    ("bindings/python/pidtab/saving.py", "    def wait_saved(self", "    def wait_kept(self", "the package for python has no Table.wait_saved"),
    ("bindings/python/pidtab/seat.py", "class Seat(NumberCalls):", "class Seats(NumberCalls):", "the package for python has no Seat.fork_at"),
    ("bindings/python/pidtab/waiting.py", "    def wait_changed(self", "    def wait_until(self", "the package for python has no Table.wait_changed"),
    ("bindings/python/pidtab/table.py", "    def dump(self)", "    def text(self)", "the package for python has no Table.dump"),
    ("bindings/rust/src/blocks.rs", "    pub fn put(", "    pub fn append(", "the package for rust has no Blocks::put"),
    ("bindings/rust/src/calls.rs", "    pub fn line(self)", "    pub fn text(self)", "the package for rust has no Call::line"),
    ("bindings/rust/src/table.rs", "    pub fn dump(&self)", "    pub fn text(&self)", "the package for rust has no Table::dump"),
    ("bindings/rust/src/saved.rs", "    pub fn trim(", "    pub fn cut(", "the package for rust has no Saved::trim"),
    ("bindings/rust/src/seat.rs", "    pub fn seat(&self)", "    pub fn sit(&self)", "the package for rust has no Table::seat"),
    ("bindings/rust/src/history.rs", "    pub fn follow(&self", "    pub fn pursue(&self", "the package for rust has no Table::follow"),
    ("bindings/rust/src/options.rs", "    pub fn open(self)", "    pub fn begin(self)", "the package for rust has no Options::open"),
    ("bindings/rust/src/threads.rs", "    pub fn lock(&self)", "    pub fn hold(&self)", "the package for rust has no Table::lock"),
    ("bindings/go/calls.go", "func (it calls) Call(", "func (it calls) Make(", "the package for go has no Table.Call"),
    ("bindings/go/dump.go", "func (table *Table) Dump()", "func (table *Table) Text()", "the package for go has no Table.Dump"),
    ("bindings/go/replica.go", "func (replica *Replica) Last(", "func (replica *Replica) Latest(", "the package for go has no Replica.Last"),
    ("bindings/go/saved.go", "func (saved *Saved) Trim(", "func (saved *Saved) Cut(", "the package for go has no Saved.Trim"),
    ("bindings/go/history.go", "func (table *Table) Follow(", "func (table *Table) Pursue(", "the package for go has no Table.Follow"),
    ("bindings/go/saver.go", "func (table *Table) Serve(", "func (table *Table) Saver(", "the package for go has no Table.Serve"),
    ("bindings/go/workplace.go", "func (it *workplace) Lock(", "func (it *workplace) Take(", "the package for go has no Table.Lock"),
    ("bindings/go/table.go", "func (table *Table) List()", "func (table *Table) Lists()", "the package for go has no Table.List"),
    ("bindings/go/values.go", "func (call Call) Line(", "func (call Call) Text(", "the package for go has no Call.Line"),
    ("docs/list.schema.json", '"is-leader", "no-group"', '"no-group", "is-leader"', "the words of refusals is"),
    ("docs/list.schema.json", '"required": ["id", "parent", "cursor", "fallen"]', '"required": ["id", "parent", "cursor"]', "the fields of a space is id, parent, cursor, and in"),
    ("docs/SCRIPT.md", "    space 2 parent 0 cursor 2 fallen\n", "    space 2 parent 0 fallen cursor 2\n", "the line is not one of interface/list.tbl"),
    ("bindings/example.list", " limit 0 count 2", " count 2 limit 0", "the line is not one of interface/list.tbl"),
    ("docs/list.schema.json", '"EPERM", "EACCES"', '"EPERM", "EBADF"', "the errors of refusals is"),
    ("service/src/commands.rs", "A::Call(Verb::Getsid), &[Caller, Process]", "A::Call(Verb::Getsid), &[Caller]", "no row of COMMANDS is GETSID with Verb::Getsid and &[Caller, Process]"),
    ("service/src/rights.rs", "            | Call::Getsid { caller, .. }\n", "", "nobody says who may make `getsid`"),
    ("service/tests/test_calls.py", 'f"setsid {caller}", ', "", "no random line is `setsid`"),
    ("linux/world.c", '{"nspid", order_nspid}, ', "", "no order is `nspid`, and linux/harness/world.py has no `do_nspid`"),
    ("linux/harness/world.py", "def do_mk(", "def make_group(", "no order is `mk`, and linux/harness/world.py has no `do_mk`"),
    ("linux/harness/chooser.py", "['getpgid', 'getsid', 'nspid']", "['getpgid', 'getsid']", "no random line is `nspid`"),
    ("linux/README.md", "| `next` | no call", "| others | no call", "no row says how Linux is asked for `next`"),
    ("linux/gvisor/calls.go", '\t"getsid":  ', '\t"sid":  ', "no form is `getsid`, and linux/README.md does not say that it is answered `n/a`"),
    ("box/src/controls.c", "PIDTAB_LIMIT", "PIDTAB_MK", "the box makes no `limit`"),
    ("box/src/forks.c", "PIDTAB_JOIN", "PIDTAB_FORK", "the box makes no `join`"),
    ("box/src/groups.c", "PIDTAB_SETSID", "PIDTAB_FORK", "the box makes no `setsid`"),
    ("box/src/table.c", "PIDTAB_SETPGID", "PIDTAB_EXIT", "the box makes no `setpgid`"),
    ("box/src/tracer.c", "PIDTAB_EXEC", "PIDTAB_FORK", "the box makes no `exec`"),
]  # fmt: skip

# A table: what is changed in it, and what is said of that.
FAULTS = [
    ("refusals", "number | error  | word          | id | sentence", "number | error  | word          | sentence", "the columns are not number | error |"),
    ("refusals", "| too-deep      | -  |", "| too-deep      |", "4 cells, and there are 5 columns"),
    ("refusals", "7      | ENOSPC", "6      | ENOSPC", "number 6 stands in line 15 already"),
    ("refusals", "7      | ENOSPC", "70     | ENOSPC", "the number is 70, and 7 comes next"),
    ("refusals", "7      | ENOSPC", "seven  | ENOSPC", "number 'seven' is no number"),
    ("refusals", "ENOSPC | too-deep", "ENOSPE | too-deep", "error 'ENOSPE' is not in interface/errnos.tbl"),
    ("refusals", "EPERM  | is-leader", "EPERM  | too-deep", "word too-deep stands in line 16 already"),
    ("refusals", "too-deep ", "too deep ", "word 'too deep' is no word"),
    ("refusals", "a child in another session", "a child in another session.", "is no sentence"),
    ("calls", "no-caller, root-init", "no-caller, root-inits", "refusals 'root-inits' is not in interface/refusals.tbl"),
    ("calls", "no-caller, root-init", "no-caller root-init", "is no list"),
    ("calls", "15     | getsid", "14     | getsid", "number 14 stands in line"),
    ("calls", "Exit          | no ", "Exit          | non", "query 'non' is no yes or no"),
    ("calls", "caller, status=number/byte", "caller, status=number byte", "is no arguments"),
    ("calls", "NUMBER, END ", "NUMBER, ENDS", "tells 'ENDS' is not in interface/kinds.tbl"),
    ("statuses", "EUCLEAN         |", "EUCLEAM         |", "error 'EUCLEAM' is not in interface/errnos.tbl"),
    ("statuses", "DIFFERS         | EBADMSG         | table   |", "DIFFERS         | EBADMSG         | saver |", "of 'saver' is no owner"),
    ("statuses", "AGAIN           | EAGAIN          | table   |", "AGAIN           | EAGAIN          |", "4 cells, and there are 5 columns"),
    ("faults", "no number left            | -", "no number left            | 2", "line '2' is no place"),
    ("faults", "12     | IMPOSSIBLE", "13     | IMPOSSIBLE", "the number is 13, and 12 comes next"),
    ("faults", "12     | IMPOSSIBLE        | Impossible", "12     | IMPOSSIBLE        | NoNumber", "rust NoNumber stands in line"),
    ("kinds", "which   | 2      | OWN_GROUP", "which   | 6      | OWN_GROUP", "the number is 6, and 2 comes next"),
    ("kinds", "use     | 2 ", "uses    | 2 ", "of 'uses' is no kind"),
    ("bounds", "pidtab_c/src/lib.rt VERSION", "pidtab_c/src/lib.rt       ", "source 'pidtab_c/src/lib.rt' is no constant or -"),
    ("bounds", "| size   | saved     | -                                        | the longest entry", "| sizes  | saved     | - | the longest entry", "type 'sizes' is no type"),
    ("functions", "saved_end       |", "saved-end       |", "functions 'saved-end' is no functions"),
    ("functions", "saved_trim      | 0.2.0", "saved_trim      | 0.2", "since '0.2' is no release"),
    ("functions", "CLOSED, NO_HISTORY, AGAIN,", "CLOSED, NO_HISTORY, LATER,", "statuses 'LATER' is not in interface/statuses.tbl"),
    ("questions", "no-caller, no-control |", "no-caller, no-control-group |", "refusals 'no-control-group' is not in interface/refusals.tbl"),
    ("questions", "whom=NAMESPACE_OWN", "whom=NamespaceOwn", "is no question arguments"),
    ("questions", "whom=NAMESPACE_OWN", "whom=OFFSPRING", "whom OFFSPRING is not in interface/kinds.tbl"),
    ("questions", "| numbers | -             | no-caller, no-control", "| numbers | control group | no-caller, no-control", "numbers of a control group that may not be there"),
    ("questions", "Reads the namespace {id}", "Reads the namespace {number}", "{number} is no argument and no question"),
    ("questions", "CLOSED, OUT_OF_RANGE, SPENT, DONE", "CLOSED, OUT_OF_RANGE, LATE, DONE", "statuses 'LATE' is not in interface/statuses.tbl"),
    ("results", "AGAIN           | -", "LATER           | -", "status 'LATER' is not in interface/statuses.tbl"),
    ("results", "by now.", "by now", "sentence 'More calls, or fewer, were recorded by now' is no sentences"),
    ("lines", "fork new ", "fork New ", "calls 'fork New' is no lines"),
    ("lines", "rm               |", "mk               |", "calls mk stands in line"),
    ("list", "list | task    | executed  | -       | mark ", "list | task    | executed  | -       | marks", "type 'marks' is no field type"),
    ("list", "text | end     | sha256 ", "file | end     | sha256 ", "of 'file' is no form"),
    ("errnos", "EBUSY           | 16", "EBUSY           | 13", "value 13 stands in line 14 already"),
]


class Interface(unittest.TestCase):
    """A copy of what the tool looks at."""

    def setUp(self):
        self.top = Path(tempfile.mkdtemp())
        self.addCleanup(shutil.rmtree, self.top)
        shutil.copytree(REPOSITORY / "interface", self.top / "interface")
        shutil.copytree(REPOSITORY / "examples", self.top / "examples")
        for path in sorted({"tools/interface", *COMPARED, *(path for path, _ in PARTS)}):
            (self.top / path).parent.mkdir(parents=True, exist_ok=True)
            shutil.copy(REPOSITORY / path, self.top / path)

    def say(self, word="--check"):
        """The status of the tool, and what it says."""
        told = StringIO()
        with mock.patch.object(TOOL, "TOP", self.top), redirect_stderr(told):
            return TOOL.main([word]), told.getvalue()

    def plant(self, path, old, new):
        """Changes a file in one place; gives what was there, and the line."""
        text = (self.top / path).read_text(encoding="utf-8")
        self.assertEqual(text.count(old), 1, (path, old))
        (self.top / path).write_text(text.replace(old, new), encoding="utf-8")
        return text, text.count("\n", 0, text.index(old)) + 1

    def restore(self, path, text):
        """Puts back what was there."""
        (self.top / path).write_text(text, encoding="utf-8")

    def test_what_is_there(self):
        self.assertEqual(self.say(), (0, ""))
        done = subprocess.run([sys.executable, self.top / "tools" / "interface", "--check"], capture_output=True, check=False)
        self.assertEqual((done.returncode, done.stdout + done.stderr), (0, b""))

    def test_a_difference_in_each_part(self):
        files, wanted = {}, []
        for path, name in PARTS:
            text = files.setdefault(path, (self.top / path).read_text(encoding="utf-8"))
            first, last = TOOL.place_of(path, text.split("\n"), name)
            place = first + 1 + (last - first - 1) // 2
            lines = (self.top / path).read_text(encoding="utf-8").split("\n")
            self.restore(path, "\n".join([*lines[:place], lines[place] + "x", *lines[place + 1 :]]))
            wanted.append(f"tools/interface: {path}:{place + 1}: {name} is not that of the tables: run tools/interface write")
        status, said = self.say()
        self.assertEqual((status, sorted(said.splitlines())), (1, sorted(wanted)))
        self.assertEqual(self.say("write"), (0, ""))
        self.assertEqual({path: (self.top / path).read_text(encoding="utf-8") for path in files}, files)

    def test_a_part_without_its_end(self):
        path, name = PARTS[0]
        self.plant(path, TOOL.marks(path, name)[1], "")
        status, said = self.say("write")
        self.assertEqual(status, 1)
        self.assertIn(f"{path}: the line `{TOOL.marks(path, name)[1]}` is there 0 times, not once", said)

    def test_a_difference_in_each_source_that_is_compared(self):
        self.assertEqual(sorted({path for path, *_ in DIFFERENCES}), COMPARED)
        # Each file has one difference at a time.
        rounds = {}
        for at, row in enumerate(DIFFERENCES):
            rounds.setdefault([path for path, *_ in DIFFERENCES[:at]].count(row[0]), []).append(row)
        for rows in rounds.values():
            texts = {path: self.plant(path, old, new)[0] for path, old, new, _ in rows}
            status, said = self.say()
            for path, text in texts.items():
                self.restore(path, text)
            self.assertEqual(status, 1)
            for path, _, new, wanted in rows:
                with self.subTest(path, new=new):
                    self.assertRegex(said, rf"(?m)^tools/interface: (?:{path}|interface/(?:functions|calls).tbl):\d+: ")
                    self.assertIn(wanted, said)

    def test_the_line_of_a_difference(self):
        path = "crates/pidtab_c/src/lib.rt"
        _, line = self.plant(path, "pub const VERSION: u32 = 1;", "pub const VERSION: u32 = 2;")
        self.assertIn(f"tools/interface: {path}:{line}: the bound VERSION 2 is not in interface/\n", self.say()[1])

    def test_rows_without_their_definition(self):
        for path, old, new, wanted in (
            ("crates/pid_types/specs/Step.antt", "pub may_grow : ", "pub can_grow : ", "a line `(?:abbrev|unfoldable) pub may_grow : ` is there 0 times, not once"),
            ("crates/pid_script/src/call.rt", "    match *call {", "    match call {{", "no line `(?:let .* = )?match .* \\{` follows"),
        ):
            text, _ = self.plant(path, old, new)
            status, said = self.say("write")
            self.restore(path, text)
            self.assertEqual(status, 1)
            self.assertIn(wanted, said)

    def test_each_fault_of_a_table(self):
        for name, old, new, wanted in FAULTS:
            with self.subTest(name, new=new):
                path = f"interface/{name}.tbl"
                text, line = self.plant(path, old, new)
                status, said = self.say()
                self.restore(path, text)
                self.assertEqual(status, 1)
                self.assertTrue(said.startswith(f"tools/interface: {path}:{line}: "), said)
                self.assertIn(wanted, said)

    def test_a_change_of_a_table_reaches_each_package(self):
        self.plant("interface/refusals.tbl", "a negative process group", "a process group below 0")
        self.say("write")
        changed = {path for path, _ in PARTS if (self.top / path).read_text(encoding="utf-8") != (REPOSITORY / path).read_text(encoding="utf-8")}
        self.assertEqual(changed, {"bindings/c/pidtab.h", "bindings/go/refusal.go", "bindings/rust/src/fault.rs", "docs/SCRIPT.md", "man/pidtab.5"})

    def test_a_text_of_the_cases_with_another_digest(self):
        path = "interface/cases/texts.cases"
        text, _ = self.plant(path, "task 3@0 parent 1@0 group 1@0 session 1@0 control 0 children 0 live\n\ttask 2@0", "task 3@0 parent 1@0\n\ttask 2@0")
        self.assertEqual(self.say(), (1, f"tools/interface: {path}: a digest is not that of its text: run tools/interface write\n"))
        self.restore(path, text)
        for old, wanted in (("count 1 -> ENOENT no-control", "no step is refused as ENOENT no-control"), ("impossible line", "no text has the fault `impossible line`"),
                            (" -> exec ", "no step has the numbers of `exec C`")):  # fmt: skip
            for file in sorted((self.top / "interface" / "cases").glob("*.cases")):
                file.write_text(file.read_text(encoding="utf-8").replace(old.rpartition(" -> ")[2], "other"), encoding="utf-8")
            self.assertIn(f"tools/interface: interface/cases: {wanted}\n", self.say()[1])

    def test_each_call_has_its_lines_once(self):
        path = "interface/lines.tbl"
        for old, new, form, count in (("exec      ", "exec, join", "join C P", 2), ("limit, limit max", "limit           ", "limit I max", 0)):
            text, _ = self.plant(path, old, new)
            said = self.say()[1]
            self.restore(path, text)
            self.assertIn(f"tools/interface: {path}: {form!r} stands there {count} times, not once\n", said)

    def test_a_call_of_a_new_length(self):
        row = ("19", "telltale", "TellTale", "yes", "no", "no", "caller, number=number/number", "NUMBER", "{caller}", "no-caller", "-", "whom the caller tells")
        for path, cells in (("calls", row), ("lines", ("telltale", "whom the caller tells", "the number", "Whom the caller tells."))):
            with (self.top / f"interface/{path}.tbl").open("a", encoding="utf-8") as table:
                table.write(" | ".join(cells) + "\n")
        self.say("write")
        self.assertNotIn("run tools/interface write", self.say()[1])
        lines = (self.top / "crates/pid_script/src/line.rt").read_text(encoding="utf-8")
        self.assertIn('{\n    match command {\n        b"telltale" => read_tell_tale(words),\n        _ => None,\n    }\n}\n', lines)
        self.assertIn("        7 => read_seven_letters(command, words),\n        8 => read_eight_letters(command, words),\n", lines)
        proof = (self.top / "crates/pid_script/proofs/line/read_eight_letters/Answers.antt").read_text(encoding="utf-8")
        self.assertIn("\npub returns-in-telltale : goal.returns-in-telltale\n", proof)
        for path in ("model_laws/specs/Refusals.antt", "model_laws/proofs/Words.antt", "call_effects/proofs/Reckoning.antt"):
            self.assertIn(", SetSubreaper, TellTale}\n", (self.top / "crates" / path).read_text(encoding="utf-8"))

    def test_a_question_costs_a_row(self):
        row = ("residents", "residents", "0.2.0", "caller, space=space/id?, from=from/number?", "numbers", "-", "no-caller",
               "CLOSED, NO_MEMORY, DONE", "the residents of a namespace", "The residents of the namespace {space}, as {children} has those of a task.")  # fmt: skip
        with (self.top / "interface/questions.tbl").open("a", encoding="utf-8") as table:
            table.write(" | ".join(row) + "\n")
        # What is by hand of it: a step of the cases, and its paragraph of the manual page.
        lacking = "tools/interface: interface/cases: no step asks residents\n"
        self.assertEqual(self.say("write"), (1, lacking))
        self.assertEqual(self.say(), (1, lacking))
        for path, wanted in (
            ("bindings/c/pidtab.h", "uint32_t pidtab_residents(const struct pidtab *table, uint32_t caller, uint64_t space, uint32_t from, uint32_t *numbers, size_t room,"),
            ("bindings/go/questions.go", "\nfunc (table *Table) Residents(caller uint32, space uint64, from uint32) ([]uint32, error) {\n"),
            ("bindings/go/cluster/queries.go", "\nfunc (table *Replicated) Residents("),
            ("bindings/rust/src/questions.rs", "        page::all(|numbers, reply| self.raw.residents(caller, space, from, numbers, reply))\n"),
            ("bindings/rust/src/raw.rs", "        fn residents(&self, caller: u32, space: u64, from: u32, numbers: &mut [u32], reply: &mut Reply) =\n"
             "            pidtab_residents(self.held.get(), caller, space, from, numbers.as_mut_ptr(), numbers.len(), reply);\n"),
            ("bindings/python/pidtab/native.py", "    def residents(self, caller: int, space: int = 0, start: int = 0) -> tuple[int, ...]:\n"),
            ("bindings/python/pidtab/raw.py", '    "pidtab_residents": (U32, [TABLE, U32, U64, U32, NUMBER_32, SIZE_T, REPLY]),\n'),
            ("bindings/js/src/calls.js", "  residents(caller, space = 0n, start = 0) {\n"), ("bindings/js/pidtab.d.ts", "  residents(caller: number, space?: Long, start?: number): number[];\n"),
            ("bindings/js/wasm/around.c", "uint32_t EXPORTED(residents)("), ("bindings/c/test_cases.c", "pidtab_residents(table, (uint32_t)n[0], n[1], (uint32_t)n[2], to->numbers, room, &to->reply);"),
            ("bindings/rust/src/cases.rs", '"residents" => say_page(table.residents(n[0] as u32, n[1], n[2] as u32)),'),
            ("bindings/go/cases_test.go", "\t\treturn of(it.Residents(uint32(n[0]), n[1], uint32(n[2]))), true\n"), ("docs/LIBRARY.md", "| the residents of a namespace | `pidtab_residents` | `Ask.residents` |"),
        ):  # fmt: skip
            with self.subTest(path):
                self.assertIn(wanted, (self.top / path).read_text(encoding="utf-8"))

    def test_a_section_of_a_manual_page(self):
        path = "man/pidtab_history.3"
        self.plant(path, '.\\" Written by tools/interface: statuses of keep.\n', "")
        status, said = self.say()
        self.assertEqual((status, said), (1, f'tools/interface: {path}: the line `.\\" Written by tools/interface: statuses of keep.` is there 0 times, not once\n'))

    def test_a_field_that_no_example_has(self):
        path = "bindings/example.list"
        self.plant(path, " cursor 3 fallen\n", " cursor 3\n")
        self.assertEqual(self.say(), (1, f"tools/interface: {path}: no line has the field fallen of interface/list.tbl\n"))

    def test_since_when(self):
        rows = TOOL.read_tables(self.top / "interface")["functions"]
        first = {f"pidtab_{name}" for row in rows if row.since == "0.1.0" for name in row.functions.split(", ")}
        self.assertEqual(first, RELEASED)
        self.assertLessEqual({row.since for row in rows}, {"0.1.0", read_page("VERSION").strip().replace("-dev", "")})

    def test_other_words(self):
        status, said = self.say("read")
        self.assertEqual((status, said.split("\n")[0]), (2, "Writes what the packages, the headers, the pages and the crates have of interface/*.tbl."))


if __name__ == "__main__":
    unittest.main()
