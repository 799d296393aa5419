"""Tests what is read as cited by the rules of nights."""
import unittest

from gate.pages import rules

PAGE = """\
# Rules

## Nights

Bytes are lost (`Steps`: `IsLost`, `no_such`; clause `lost`). It is named (`leave_out`, clause
`named`), and said (`Sound`: `said_is`; clauses `said`, `unheard`; `other`, clause `named`).
Its text is that of `night_text`, `no_text` in `Night` of `ocfl_messages`. By the law
`nights_are_sound`, law `no_law`, and law `what_was_taken_is_not_read_again` of `ocfl_laws`. Laws of
other crates: laws `nothing_is_read_twice`, `a_cycle_keeps_the_headline` of `ocfl_laws`, `no_other`.

## Limits

Not `Nowhere`: `read`.
"""


class Rules(unittest.TestCase):
    def test_what_is_cited_and_not_there(self) -> None:
        self.assertEqual(list(rules.lost(rules.section(PAGE))), [
            "Steps of ocfl_night has no definition, and no field, no_such",
            "Night of ocfl_messages has no definition, and no field, no_text",
            "the contract of night has no clause unheard",
            "the contract of other has no clause named",
            "there is no law no_law of ocfl_night_laws",
            "there is no law no_other of ocfl_night_laws"])

    def test_a_text_without_citations(self) -> None:
        self.assertEqual(list(rules.lost("Nothing.")), ["it cites no definition, or no clause"])

    def test_files_that_are_not_there(self) -> None:
        self.assertFalse(rules.is_defined("ocfl_night", "Nowhere", "IsLost"))
        self.assertTrue(rules.is_defined("ocfl_night", "Refusing", "no_root"))
