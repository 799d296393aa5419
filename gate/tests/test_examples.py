"""Tests how examples are read."""
import unittest

from gate.pages import examples

TEST = "//! Of one thing.\nuse a::b;\n\n#[test]\nfn c() {}\n"
SOURCE = ("//! A crate.\n//!\n//! ```\n//! use a::b;\n//!\n//! fn c() {}\n//! ```\n"
          "//!\n//! # What is proved\n//!\n//! - Much.\nmod d;\n")


class Examples(unittest.TestCase):
    def test_a_head_shows_what_a_test_runs(self) -> None:
        self.assertEqual(examples.tried_in(TEST), "use a::b;\n\nfn c() {}\n")
        self.assertEqual(examples.shown_in(SOURCE), examples.tried_in(TEST))

    def test_a_change_of_either_is_seen(self) -> None:
        self.assertNotEqual(examples.shown_in(SOURCE.replace("c()", "d()")),
                            examples.tried_in(TEST))

    def test_a_head_without_code_shows_none(self) -> None:
        self.assertIsNone(examples.shown_in("//! A crate.\n//! - Much.\nmod d;\n"))
