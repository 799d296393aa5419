"""Tests the table of crates of PROMISES."""
import unittest

from gate.pages import crate_table
from gate.repository import crates


class CrateTable(unittest.TestCase):
    def test_first_sentence_alone(self) -> None:
        self.assertEqual(crate_table.purpose("Sizes, e.g.in bytes | words. It has no code.\nMore."),
                         "Sizes, e.g.in bytes \\| words")

    def test_what_is_proved(self) -> None:
        for clauses, code, laws, words in [
                (True, True, True, "contracts and laws"), (True, True, False, "contracts"),
                (False, False, True, "laws"), (False, True, False, "that it is safe"),
                (False, False, False, "no code")]:
            self.assertEqual(crate_table.proved("low", clauses, code, laws), words)

    def test_page_keeps_all_else(self) -> None:
        page = "# A\n\n%sold\n%s\nmore\n" % (crate_table.BEGIN, crate_table.END)
        made = crate_table.put(page, "new\n")
        self.assertEqual(made, page.replace("old\n", "\nnew\n\n"))
        self.assertEqual(crate_table.put(made, "new\n"), made)
        with self.assertRaises(ValueError):
            crate_table.put("# A\n", "new\n")

    def test_each_crate_has_a_row(self) -> None:
        rows = crate_table.table().splitlines()[2:]
        self.assertEqual([row.split("`")[1] for row in rows], list(crates()))
