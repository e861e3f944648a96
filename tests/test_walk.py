"""What tools/walk says of a walk: each function is in its file, and called by one that stands before it."""

import unittest

from small_repository import SmallRepository

LOW = """\
/// Adds one.
pub fn add(n: u32) -> u32 {
    n + one()
}

fn one() -> u32 {
    1
}
"""

TOP = """\
fn main() {
    run(2);
}

fn run(n: u32) -> u32
    requires { n < 9 }
{
    low::add(n)
}

fn idle() {}
"""

PAGE = "# Code\n\n<!-- The walk, which tools/walk checks. -->\n\n| What happens | File | Functions |\n|---|---|---|\n{}\n\n<!-- The end of the walk. -->\n"
RUNS = "| It runs. | `top/src/main.rt` | {} |"
ADDS = "| It adds. | `low/src/lib.rt` | {} |"


class Walk(SmallRepository):
    """A repository of two crates."""

    TOOL = "walk"
    FILES = {"crates/low/src/lib.rt": LOW, "crates/top/src/main.rt": TOP, "docs/gate.tsv": "crate\tproofs\nlow\t5\n"}

    def say(self, *rows, words=("--check",)):
        """The status of the tool on a page with these rows, and what it says."""
        self.write("docs/ARCHITECTURE.md", PAGE.format("\n".join(rows)))
        return self.run_tool(*words)

    def test_a_walk_is_one(self):
        self.assertEqual(self.say(RUNS.format("`main` `run`"), ADDS.format("`add` `one`")), (0, ""))

    def test_a_walk_is_counted(self):
        status, said = self.say(RUNS.format("`main` `run`"), ADDS.format("`add`"), words=())
        self.assertEqual((status, said.splitlines()[0]), (0, "fork 1 new: 3 functions of 2 crates"))

    def test_what_only_forwards_is_named(self):
        status, said = self.say(RUNS.format("`main` `run`"), ADDS.format("`add`"), words=())
        self.assertEqual((status, said.splitlines()[1:4]), (0, ["of these, only forward: 2", "  top/src/main.rt: main", "  top/src/main.rt: run"]))

    def test_places_that_decide_a_refusal_are_counted(self):
        code = "fn a() -> Refusal\n    ensures { result ≡ Refusal.NoTask }\n{\n    Refusal::NoTask\n}\n\nfn b() { c(Refusal::NoTask, Refusal::NoCaller) }\n"
        self.write("crates/low/src/more.rt", code)
        self.write("crates/plain_low/src/lib.rt", code)
        status, said = self.say(RUNS.format("`main` `run`"), ADDS.format("`add`"), words=())
        self.assertEqual((status, said.splitlines()[4:6]), (0, ["refusals that one place of the code decides: 1 of 2", "  NoTask: 2 places"]))

    def test_a_function_that_is_not_there(self):
        status, said = self.say(RUNS.format("`main` `run` `runs`"))
        self.assertEqual((status, said), (1, "docs/ARCHITECTURE.md: the walk names `runs`, which is not in crates/top/src/main.rt\n"))

    def test_a_file_that_is_not_there(self):
        status, said = self.say("| It runs. | `top/src/lib.rt` | `main` |")
        self.assertEqual((status, said), (1, "docs/ARCHITECTURE.md: the walk names `main`, which is not in crates/top/src/lib.rt\n"))

    def test_a_function_that_nothing_calls(self):
        status, said = self.say(RUNS.format("`main` `run` `idle`"))
        self.assertEqual((status, said), (1, "docs/ARCHITECTURE.md: the walk names `idle` of crates/top/src/main.rt, which nothing before it calls\n"))

    def test_a_function_before_its_caller(self):
        status, said = self.say(RUNS.format("`main`"), ADDS.format("`one` `add`"))
        self.assertEqual(status, 1)
        self.assertIn("the walk names `one` of crates/low/src/lib.rt, which nothing before it calls", said)

    def test_no_walk(self):
        self.assertEqual(self.say(), (1, "docs/ARCHITECTURE.md: there is no walk\n"))

    def test_wrong_words(self):
        status, said = self.say(RUNS.format("`main`"), words=("--count",))
        self.assertEqual(status, 2)
        self.assertIn("tools/walk --check", said)


if __name__ == "__main__":
    unittest.main()
