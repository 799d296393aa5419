"""Tests which types have a derived `Drop` over many fields."""
import unittest
from unittest import mock

from gate import drops

FIELDS = "    pub a: u64,\n    /// Text: more.\n    b: Vec<u8>,\n    pub(crate) c: u64,\n"
SOURCE = """\
#[derive(Debug, Drop)]
pub struct Wide<'a, T: Clone> {
%s    d: T,
    ghost e: { Fact },
}

#[derive(Drop)]
struct Narrow {
%s}

#[derive(Debug)]
pub struct ByHand {
%s    d: u64,
}

impl Drop for ByHand {}

#[derive(Drop)]
#[tactic(auto)]
pub(crate) struct Second {
%s    d: u64,
}

#[derive(Drop)]
struct Tuple(u64, u64, u64, u64);
""" % ((FIELDS,) * 4)


class Drops(unittest.TestCase):
    def test_types_of_a_source(self) -> None:
        self.assertEqual(list(drops.derived(SOURCE)), ["Wide", "Second"])

    def test_new_types_and_lines_in_vain_are_named(self) -> None:
        said: list[str] = []
        with mock.patch.object(drops, "found", lambda: {"low A", "low B"}), \
                mock.patch.object(drops, "excepted", lambda: {"low B", "low C"}), \
                mock.patch.object(drops, "fail", said.append):
            self.assertEqual(drops.looked_at(), (0, 2))
        self.assertEqual([it.split(":")[0] for it in said], ["low A", "low C"])

    def test_types_of_the_repository_are_found(self) -> None:
        self.assertNotIn("ocfl_state Checkpoint", drops.found())
        self.assertGreater(len(drops.found()), 10)
