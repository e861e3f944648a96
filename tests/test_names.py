"""What tools/names counts: names that two crates have, clauses that are pasted, and files that begin with imports."""

import unittest

from small_repository import SmallRepository

LOW = "crates/low/specs/Low.antt"
HIGH = "crates/high/specs/High.antt"
CODE = "crates/high/src/lib.rt"
LONG = "self.new.items ≡ self.old.items ++ number_of call ∷ []"
CONTRACT = "fn {name}(&mut self)\n    ensures {{ {clause} }}\n{{\n}}\n\n"
QUIET = (
    "names: 0, and at most 0 are allowed\nrepeats: 0, and at most 300 are allowed\nwalls: 0, and at most 6 are allowed\n"
    "uncalled: 0, and at most 0 are allowed\nforms: 0, and at most 0 are allowed\n"
)
FORMS = "docs/DECISIONS.md"
TABLE = """\
| `high::other` | `not::looked_at` |
<!-- The forms: tools/names looks for each name. -->

| Looked for | In its place | Why |
|---|---|---|
| {looked_for} | {found} | `high::why` |

<!-- The end of the forms. -->
"""


class Names(SmallRepository):
    """A repository of two crates."""

    TOOL = "names"
    FILES = {
        LOW: "-- one\nabbrev pub one : ℕ\none = 1\n\npub record IsLow (n : ℕ) : Type 0 where\n  pub few : n < 5\n",
        HIGH: "pub mod Low\npub use Rattle.low.specs.Low.{one}\n\nunfoldable pub two : ℕ\ntwo = one + 1\n",
        CODE: CONTRACT.format(name="a", clause=LONG),
        FORMS: TABLE.format(looked_for="A plan of `T`", found="A list"),
    }

    def test_a_repository_where_nothing_is_pasted(self):
        self.assertEqual(self.run_tool("--check"), (0, ""))
        self.assertEqual(self.run_tool(), (0, QUIET))

    def test_a_name_that_two_crates_have(self):
        for text in ("abbrev pub one : ℕ\none = 1\n", "pub data IsLow : Type 0 where\n  Few : IsLow\n", "unfoldable pub one\n    : ℕ\none = 1\n"):
            with self.subTest(text=text):
                self.write(HIGH, text)
                self.assertEqual(self.run_tool("--check"), (1, "tools/names: names: 1, and at most 0 are allowed: see tools/names\n"))
                name = "IsLow" if "IsLow" in text else "one"
                self.assertIn(f"    {name}: {HIGH}, {LOW}\n", self.run_tool()[1])

    def test_a_clause_that_is_pasted(self):
        wrapped = LONG.replace(" ++", "\n        ++")
        self.write(CODE, "".join(CONTRACT.format(name=it, clause=clause) for it, clause in (("a", LONG), ("b", wrapped), ("c", LONG))))
        self.assertEqual(self.run_tool()[1], QUIET.replace("repeats: 0", "repeats: 2").replace("walls", f"    high: {LONG}\n    high: {LONG}\nwalls"))

    def test_too_many_clauses_are_pasted(self):
        self.write(CODE, CONTRACT.format(name="a", clause=LONG) * 302)
        self.assertEqual(self.run_tool("--check"), (1, "tools/names: repeats: 301, and at most 300 are allowed: see tools/names\n"))

    def test_what_is_not_pasted(self):
        self.write("crates/low/src/lib.rt", CONTRACT.format(name="a", clause=LONG))
        for clause in ("self.new ≡ self.old", "OnOk result (KeepsNumbers self.old.numbers.items self.new.numbers.items)"):
            self.write(CODE, CONTRACT.format(name="a", clause=clause) * 2 + f"// ensures {{ {LONG} }}\n" * 2)
            self.assertEqual(self.run_tool(), (0, QUIET))

    def test_a_file_that_begins_with_imports(self):
        block = "ghost use Rattle.{\n" + "  low.specs.Low.{one},\n" * 11 + "};\n"
        self.write(CODE, "//! High.\n\n" + block)
        self.assertIn(f"walls: 1, and at most 6 are allowed\n    {CODE}: 12 of the first 25 lines\n", self.run_tool()[1])
        self.write(CODE, "//! High.\n" * 14 + block)
        self.assertEqual(self.run_tool(), (0, QUIET))

    def test_a_public_function_that_nobody_calls(self):
        for shape in ("pub fn told(&self) -> u32", "    pub fn put(&mut self)", "pub fn pick<T: Copy>(\n    one: T,\n) -> T"):
            with self.subTest(shape=shape):
                self.write(CODE, f"{shape} {{\n}}\n// told() put() pick()\n")
                self.assertEqual(self.run_tool("--check"), (1, "tools/names: uncalled: 1, and at most 0 are allowed: see tools/names\n"))

    def test_what_is_called_or_need_not_be(self):
        for calls in ("self.told();", "told::<u32>();", "map(High::told)"):
            self.write(CODE, f"pub fn told(&self) -> u32 {{\n}}\nfn f() {{\n    {calls}\n}}\n")
            self.assertEqual(self.run_tool(), (0, QUIET), calls)
        for shape in ("pub fn a_law()", "pub fn a_law(told: &u32)", 'pub extern "C" fn told(a: &mut u32) -> u32', "pub(crate) fn told() -> u32", "fn told() -> u32"):
            self.write(CODE, f"{shape} {{\n}}\n")
            self.assertEqual(self.run_tool(), (0, QUIET), shape)

    def test_forms_that_are_as_the_page_says(self):
        self.write(CODE, "pub struct Table;\npub trait Gate {\n    fn is_open(&self) -> bool;\n}\nfn plan() {}\n// pub fn sweep()\n")
        self.write(FORMS, TABLE.format(looked_for="`high::plan`, `high::sweep`", found="`high::Table`, `high::is_open`"))
        self.assertEqual(self.run_tool(), (0, QUIET))

    def test_forms_that_are_not(self):
        self.write(CODE, "pub use other::{Table, Plan};\n")
        for looked_for, found, said in (
            ("`high::Plan`", "`high::Table`", "high::Plan is there: | `high::Plan`"),
            ("`high::sweep`", "`high::Tab`, `high::Table`", "high::Tab is gone: `high::Tab`, `high::Table`"),
        ):
            self.write(FORMS, TABLE.format(looked_for=looked_for, found=found))
            self.assertEqual(self.run_tool()[1], QUIET.replace("forms: 0, and at most 0 are allowed\n", f"forms: 1, and at most 0 are allowed\n    {said}\n"))

    def test_wrong_words(self):
        status, said = self.run_tool("--count")
        self.assertEqual(status, 1)
        self.assertIn("tools/names --check", said)


if __name__ == "__main__":
    unittest.main()
