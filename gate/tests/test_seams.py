"""Tests which proofs are lent to other crates."""
import unittest
from unittest import mock

from gate import seams

SOURCE = """\
ghost use Rattle.ocfl_low.proofs.{Lists.{one, two}, Orders.first};
use Rattle.ocfl_low.specs.Other.{three}
#[tactic(auto, using(ocfl_low::proofs::Laws::fourth, crate::proofs::Own::fifth))]
"""


class Seams(unittest.TestCase):
    def test_modules_that_a_source_takes(self) -> None:
        self.assertEqual(set(seams.taken(SOURCE)),
                         {"ocfl_low Lists", "ocfl_low Orders", "ocfl_low Laws"})

    def test_a_module_lent_in_vain_is_named(self) -> None:
        said: list[str] = []
        texts = {"ocfl_low": ["use Rattle.ocfl_low.proofs.Own.{a}"], "ocfl_high": [SOURCE]}
        with mock.patch.object(seams, "lent", lambda: {"ocfl_low Lists", "ocfl_low Own"}), \
                mock.patch.object(seams, "crates", lambda: texts), \
                mock.patch.object(seams, "texts_of", texts.get), \
                mock.patch.object(seams, "fail", said.append):
            self.assertEqual(seams.looked_at(), (0, 1))
        self.assertEqual([it.split(":")[0] for it in said], ["ocfl_low Own"])
