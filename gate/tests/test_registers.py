"""Tests the registers that are printed from sources."""
import contextlib
import io
import unittest

from gate.pages import registers
from gate.pages.registers import Entry, Function

SOURCE = """\
//! Budgets.
/// A budget.
pub struct Budget {
    number: u64,
}

impl Budget {
    /// The budget of this number,
    /// or none.
    ///
    /// - At most 2^62.
    /// - At least
    ///   1.
    #[tactic(auto)]
    pub fn new(number: u64) -> Option<Budget>
        ensures some { IsBudget number }
        requires { 1 }
        ensures none { IsNone }
    {
        // fn inner() {
        None
    }

    fn hidden(self) {
    }
}

impl<T: Drop> From<T> for Budget {
    /// It takes any.
    fn from(it: T) -> Budget {
        it
    }
}

/// Each budget is one.
pub(crate) fn every_budget_is_one()
    ensures { IsOne }
{}

/// A call.
pub fn call(a: u64) -> u64 {
    a
}
"""

DEFINITIONS = """\
-- What a cursor is,
-- and no more.
use Rattle.std.specs.Prelude.{suc}

-- how many
abbrev pub count : N
count = 1

pub record Cursor : Type 0 where
  pub at : Place

-- two words
data IsOne : Type 0 where
  one : IsOne
"""


class Registers(unittest.TestCase):
    def test_functions_of_a_source(self) -> None:
        self.assertEqual(list(registers.documented(SOURCE)), [
            Function("Budget", "new", True,
                     "The budget of this number, or none.\n- At most 2^62.\n- At least 1.",
                     ("some", "none"), False),
            Function("Budget", "from", True, "It takes any.", (), False),
            Function("", "every_budget_is_one", False, "Each budget is one.", (), True),
            Function("", "call", True, "A call.", (), False)])

    def test_definitions_of_a_file(self) -> None:
        self.assertEqual(list(registers.defined(DEFINITIONS, "ocfl_cursor, Cursor")), [
            Entry("ocfl_cursor, Cursor", "", "What a cursor is, and no more."),
            Entry("ocfl_cursor, Cursor", "count", "how many"),
            Entry("ocfl_cursor, Cursor", "Cursor", ""),
            Entry("ocfl_cursor, Cursor", "IsOne", "two words")])

    def test_entries_with_all_words(self) -> None:
        entries = [Entry("low, laws", "one", "A line."),
                   Entry("low, laws", "two", "A cursor.\nMore."),
                   Entry("high, laws", "three", "A cursor.")]
        self.assertEqual(registers.shown(iter(entries), []),
                         "low, laws\n  one: A line.\n  two: A cursor.\n      More.\n\n"
                         "high, laws\n  three: A cursor.\n")
        self.assertEqual(registers.shown(iter(entries), ["CURSOR", "low"]),
                         "low, laws\n  two: A cursor.\n      More.\n")
        self.assertEqual(registers.shown(iter(entries), ["nowhere"]), "")

    def test_entries_without_a_place(self) -> None:
        self.assertEqual(registers.shown(iter([Entry("", "one.py", "It tries.")]), []),
                         "one.py: It tries.\n")

    def test_code_keeps_its_lines(self) -> None:
        text = registers.joined(["It audits", "a root:", "", "```", "use a::b;", "", "fn main() {",
                                 "    b();", "}", "```", "", "And ends."])
        self.assertEqual(registers.written(Entry("", "crate", text)), [
            "crate: It audits a root:", "        use a::b;", "", "        fn main() {",
            "            b();", "        }", "    And ends."])

    def test_examples_of_crates_keep_their_lines(self) -> None:
        shown = registers.shown(registers.heads(), ["ocfl_digest::Block;"])
        self.assertIn("\n        use ocfl_digest::Block;\n", shown)

    def test_long_lines_are_broken(self) -> None:
        lines = registers.written(Entry("low", "name", "- " + "word " * 40 + "\n- " + "it " * 40))
        self.assertLessEqual(max(map(len, lines)), registers.WIDTH)

    def test_statuses(self) -> None:
        for words, status in [(["laws", "headline"], 0), (["--help"], 0),
                              (["laws", "nosuchword"], 1), ([], 2), (["rules"], 2)]:
            with contextlib.redirect_stdout(io.StringIO()), \
                    contextlib.redirect_stderr(io.StringIO()):
                self.assertEqual(registers.main(words, "usage"), status, words)

    def test_each_register_of_the_repository_has_its_words(self) -> None:
        for name, word in [("crates", "ocfl_walk"), ("calls", "perform_part"), ("laws", "headline"),
                           ("definitions", "max_listed_depth"), ("tests", "cursor::part"),
                           ("trials", "kills.py")]:
            self.assertIn(word, registers.shown(registers.REGISTERS[name](), [word]))
