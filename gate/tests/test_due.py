"""Tests which edits of the gate are due."""
from __future__ import annotations

import os
import tempfile
import unittest
from unittest import mock

from gate import repository
from gate.edits import above, collection, due
from gate.edits.due import Seen, Source

# A repository of four crates: one with an order of places, one that walks, another that stands
# alone, and one with the laws of the lowest.
FILES = {
    "ocfl-scrub": "logic=1234\n",
    "crates.txt": "ocfl_low:\nocfl_high: ocfl_low\nocfl_other:\nocfl_laws: ocfl_low\n",
    "ocfl_low/src/lib.rt": "#![tactic(auto)]\n\nmod place;\n\npub use place::{Place, depth};\n",
    "ocfl_low/src/place.rt": """\
ghost use Rattle.ocfl_low.specs.Order.{is_less};

pub struct Place {
    /// How many names it has.
    names: u64,
}

impl Place {
    pub fn push(&mut self)
        ensures { self.new.names ≡ self.old.names + 1 }
    {
        self.names += 1;
    }

    pub fn clear(&mut self)
        ensures { self.new.names ≡ 0 }
    {
        self.names = 0;
    }

    pub fn root() -> Place
        ensures { result.names ≡ 3 }
    {
        Place { names: 3 }
    }
}

pub type Named = Place;

pub fn depth(place: &Place) -> u64
    ensures { result ≡ place.now.names }
{
    place.names
}
""",
    "ocfl_low/src/apart.rt": "pub fn apart() -> u64\n    ensures { result ≡ 1 }\n{\n    1\n}\n",
    "ocfl_low/specs/Order.antt": "use Rattle.ocfl_low.specs.Deep.{deep}\nis_less : ℕ → ℕ\n",
    "ocfl_low/specs/Deep.antt": "deep : ℕ\n",
    "ocfl_low/proofs/Orders.antt": "less : is_less\n",
    "ocfl_low/proofs/Deeper.antt": "deeper : ℕ\n",
    "ocfl_low/edits/place.edits":
        "[depth_of_none] gate\nsays: No names.\nold: place.names\nnew: 0\n",
    "ocfl_low/edits/apart.edits": "[apart_by_two] gate\nsays: Two.\nold:     1\nnew:     2\n",
    "ocfl_low/edits/specs/Order.edits":
        "[order_of_names] gate\nsays: Names.\nold: is_less : ℕ → ℕ\nnew: is_less : ℕ → Bool\n",
    "ocfl_high/src/lib.rt": "#![tactic(auto)]\n\nmod item;\nmod walk;\n",
    "ocfl_high/src/walk.rt": """\
ghost use Rattle.ocfl_high.specs.Walk.{is_walk};
use crate::item::{self, met};
use ocfl_low::{Named, Place, depth};

pub fn walk(place: &mut Place) -> u64
    ensures { is_walk result }
{
    let _ = Named::root();
    place.push();
    met(depth(place))
}
""",
    "ocfl_high/src/item.rt":
        "pub(crate) fn met(depth: u64) -> u64\n    ensures { result ≡ depth }\n{\n    depth\n}\n",
    "ocfl_high/specs/Walk.antt":
        "use Rattle.ocfl_low.specs.Order.{is_less}\nis_walk : is_less\n",
    "ocfl_high/proofs/walk/walk/Answers.antt":
        "use Rattle.ocfl_high.proofs.Walks.{walks}\nreturns : walks\n",
    "ocfl_high/proofs/Walks.antt":
        "use Rattle.ocfl_high.proofs.{Steps.{steps}, walk.walk.Goals as goal}\n"
        "use Rattle.ocfl_low.proofs.Orders.{less}\nwalks : steps\n",
    "ocfl_high/proofs/Steps.antt": "steps : ℕ\n",
    "ocfl_high/proofs/Items.antt": "items : ℕ\n",
    "ocfl_high/edits/walk.edits":
        "[walks_nowhere] gate\nsays: No step.\nold: place.push();\nnew: let _ = &place;\n",
    "ocfl_high/edits/item.edits":
        "[meets_nothing] gate\nsays: Nothing.\nold:     depth\nnew:     0\n",
    "ocfl_other/src/lib.rt": "pub fn one() -> u64\n    ensures { result ≡ 1 }\n{\n    1\n}\n",
    "ocfl_other/edits/lib.edits": "[one_is_two] gate\nsays: Two.\nold:     1\nnew:     2\n",
    "ocfl_laws/src/lib.rt": "pub fn less_is_less()\n    ensures { is_less 1 }\n{}\n",
}
PLACE, APART = Source("ocfl_low", "src/place.rt"), Source("ocfl_low", "src/apart.rt")
ORDER = Source("ocfl_low", "specs/Order.antt")
WALK, ITEM = Source("ocfl_high", "src/walk.rt"), Source("ocfl_high", "src/item.rt")
ONE = Source("ocfl_other", "src/lib.rt")
ALL = {PLACE, APART, ORDER, WALK, ITEM, ONE}


class Room(unittest.TestCase):
    """A repository in a folder of its own, of which all edits were refused."""

    def setUp(self) -> None:
        room = tempfile.TemporaryDirectory()
        self.addCleanup(room.cleanup)
        self.top = room.name
        for path, text in FILES.items():
            self.put(path, text)
        for target, name, value in [
                (repository, "TOP", self.top), (repository.folder_of, "__defaults__", (self.top,)),
                (above, "LAWS_OF", {"ocfl_low": "ocfl_laws"}),
                (due, "FILE", os.path.join(self.top, "refused.tsv")),
                (due.minutes, "commit_of", lambda top: "abc1234"),
                (due, "print_line", lambda text: self.said.append(text)),
                (due, "is_in_turn", lambda crate, commit: crate in self.in_turn)]:
            patch = mock.patch.object(target, name, value)
            patch.start()
            self.addCleanup(patch.stop)
        self.said: list[str] = []
        self.in_turn: set[str] = set()
        self.note(lambda edit: True)

    def put(self, path: str, text: str) -> None:
        whole = os.path.join(self.top, "crates" if path.startswith("ocfl_") else "", path)
        os.makedirs(os.path.dirname(whole), exist_ok=True)
        with open(whole, "w", encoding="utf-8") as file:
            file.write(text)

    def note(self, is_refused) -> None:
        edits = collection.listed()
        due.note({it for it in edits if is_refused(it)}, edits, due.sums_of(edits))

    def due(self) -> set[Source]:
        return due.due_sources(due.sums_of(collection.listed()), "abc1234")

    def due_after(self, path: str, old: str, new: str) -> set[Source]:
        """What is due once a text of a file is another one."""
        self.assertEqual(FILES[path].count(old), 1, old)
        self.put(path, FILES[path].replace(old, new))
        found = self.due()
        self.put(path, FILES[path])
        self.assertEqual(self.due(), set())
        return found


class Reads(Room):
    """What a change has tried again."""

    def test_a_body_owes_the_edits_of_its_source(self) -> None:
        found = self.due_after("ocfl_high/src/item.rt", "\n    depth\n", "\n    depth + 0\n")
        self.assertEqual(found, {ITEM})

    def test_comments_owe_nothing(self) -> None:
        for path, old, new in [
                ("ocfl_low/src/place.rt", "/// How many names it has.", "/// Its names, by number."),
                ("ocfl_low/src/place.rt", "        self.names = 0;\n",
                 "        // Nothing is left.\n        self.names = 0;\n"),
                ("ocfl_low/specs/Order.antt", "is_less : ", "-- which comes first\nis_less : ")]:
            self.assertEqual(self.due_after(path, old, new), set())

    def test_a_body_owes_nothing_above(self) -> None:
        found = self.due_after("ocfl_low/src/place.rt", "place.names\n", "place.names + 0\n")
        # (an edit of a definition may be refused by any function of its crate)
        self.assertEqual(found, {PLACE, ORDER})

    def test_a_contract_owes_the_sources_that_cite_its_function(self) -> None:
        for old, new in [("result ≡ place.now.names", "result ≢ place.now.names"),
                         ("self.old.names + 1", "self.old.names + 2"),
                         ("result.names ≡ 3", "result.names ≡ 4")]:
            found = self.due_after("ocfl_low/src/place.rt", old, new)
            self.assertEqual(found, {PLACE, ORDER, WALK})
        self.assertEqual(self.due_after("ocfl_high/src/item.rt", "result ≡", "result ≢"),
                         {ITEM, WALK})

    def test_a_contract_that_another_crate_hands_on(self) -> None:
        self.put("crates.txt", FILES["crates.txt"] + "ocfl_top: ocfl_low ocfl_high\n")
        self.put("ocfl_top/src/lib.rt", "use ocfl_high::{Place, depth};\n\n"
                 "pub fn top(place: &Place) -> u64\n    ensures { result ≡ place.now.names }\n{\n"
                 "    depth(place)\n}\n")
        self.put("ocfl_top/edits/lib.edits",
                 "[top_is_none] gate\nsays: None.\nold: depth(place)\nnew: 0\n")
        self.note(lambda edit: True)
        found = self.due_after("ocfl_low/src/place.rt", "result ≡ place", "result ≢ place")
        self.assertEqual(found, {PLACE, ORDER, WALK, Source("ocfl_top", "src/lib.rt")})

    def test_a_contract_that_nobody_cites_owes_nothing_above(self) -> None:
        for path, old, own in [("apart", "≡ 1", APART), ("place", "self.new.names ≡ 0", PLACE)]:
            found = self.due_after("ocfl_low/src/%s.rt" % path, old, old + " + 0")
            self.assertEqual(found, {own, ORDER})

    def test_a_type_owes_the_sources_that_cite_it(self) -> None:
        found = self.due_after("ocfl_low/src/place.rt", "names: u64,", "names: u32,")
        self.assertEqual(found, {PLACE, ORDER, WALK})

    def test_definitions_owe_the_sources_that_cite_them(self) -> None:
        found = self.due_after("ocfl_low/specs/Order.antt", "→ ℕ", "→ ℕ → ℕ")
        self.assertEqual(found, {PLACE, ORDER, WALK})
        found = self.due_after("ocfl_high/specs/Walk.antt", "is_walk :", "is_walk : ℕ →")
        self.assertEqual(found, {WALK})

    def test_definitions_are_followed_within_their_crate(self) -> None:
        found = self.due_after("ocfl_low/specs/Deep.antt", "ℕ", "Bool")
        self.assertEqual(found, {PLACE, ORDER})

    def test_a_lemma_owes_the_sources_whose_proofs_rest_on_it(self) -> None:
        for name in ("Walks", "Steps"):
            found = self.due_after("ocfl_high/proofs/%s.antt" % name, " : ", " : ℕ → ")
            self.assertEqual(found, {WALK})
        self.assertEqual(self.due_after("ocfl_high/proofs/Items.antt", "ℕ", "Bool"), set())

    def test_a_lemma_of_a_crate_below(self) -> None:
        found = self.due_after("ocfl_low/proofs/Orders.antt", "is_less", "is_more")
        self.assertEqual(found, {ORDER, WALK})
        self.assertEqual(self.due_after("ocfl_low/proofs/Deeper.antt", "ℕ", "Bool"), {ORDER})

    def test_a_lemma_that_a_function_names(self) -> None:
        text = FILES["ocfl_high/src/item.rt"]
        self.put("ocfl_high/src/item.rt",
                 "#[tactic(auto, using(crate::proofs::Items::items))]\n" + text)
        self.note(lambda edit: True)
        self.put("ocfl_high/proofs/Items.antt", "items : Bool\n")
        self.assertEqual(self.due(), {ITEM})

    def test_a_proof_owes_the_edits_of_its_source(self) -> None:
        found = self.due_after("ocfl_high/proofs/walk/walk/Answers.antt", "returns", "returned")
        self.assertEqual(found, {WALK})

    def test_edits_owe_themselves(self) -> None:
        found = self.due_after("ocfl_low/edits/place.edits", "new: 0", "new: 1")
        self.assertEqual(found, {PLACE})

    def test_edits_owe_nothing_for_what_they_say(self) -> None:
        found = self.due_after("ocfl_low/edits/place.edits", "No names", "No name")
        self.assertEqual(found, set())

    def test_an_edit_of_a_contract_may_be_refused_anywhere_in_its_crate(self) -> None:
        self.put("ocfl_high/edits/item.edits",
                 "[meets_more] gate\nsays: More.\nold: result ≡ depth\nnew: result ≢ depth\n")
        self.note(lambda edit: True)
        self.assertEqual(self.due_after("ocfl_high/src/walk.rt", "place.push();\n", "\n"),
                         {ITEM, WALK})

    def test_laws_owe_the_edits_of_definitions(self) -> None:
        self.assertEqual(self.due_after("ocfl_laws/src/lib.rt", "is_less 1", "is_less 2"), {ORDER})

    def test_tactics_owe_all_of_their_crate(self) -> None:
        self.assertEqual(self.due_after("ocfl_high/src/lib.rt", "tactic(auto)", "tactic(none)"),
                         {WALK, ITEM})

    def test_another_logic_makes_all_due(self) -> None:
        self.assertEqual(self.due_after("ocfl-scrub", "1234", "5678"), ALL)


class Rows(Room):
    """What is kept of the edits that were refused."""

    def test_all_are_due_at_first(self) -> None:
        os.remove(due.FILE)
        self.assertEqual(self.due(), ALL)

    def test_none_is_due_once_all_were_refused(self) -> None:
        self.assertEqual(self.due(), set())
        self.assertEqual({seen.commit for seen in due.read().values()}, {"abc1234"})

    def test_a_source_is_noted_where_all_of_its_edits_were_refused(self) -> None:
        self.put("ocfl_low/edits/place.edits", FILES["ocfl_low/edits/place.edits"]
                 + "[push_of_two] gate\nsays: Two.\nold: += 1\nnew: += 2\n")
        self.put("ocfl_other/src/lib.rt", FILES["ocfl_other/src/lib.rt"] + "\n")
        self.assertEqual(self.due(), {PLACE, ONE})
        self.note(lambda edit: edit.name != "push_of_two")
        self.assertEqual(self.due(), {PLACE})

    def test_rows_of_sources_without_edits_are_dropped(self) -> None:
        os.remove(os.path.join(self.top, "crates/ocfl_other/edits/lib.edits"))
        self.note(lambda edit: False)
        self.assertEqual(set(due.read()), ALL - {ONE})

    def test_a_crate_in_turn_is_due(self) -> None:
        self.in_turn = {"ocfl_other"}
        self.assertEqual(self.due(), {ONE})

    def test_chosen_are_the_edits_of_those_sources(self) -> None:
        self.put("ocfl_high/src/item.rt", FILES["ocfl_high/src/item.rt"] + "\n")
        edits = collection.listed()
        found = due.chosen(edits, due.sums_of(edits))
        self.assertEqual([it.name for it in found], ["meets_nothing"])
        self.assertEqual(self.said, [
            due.NOT_DUE % row for row in [("ocfl_low", 3, 3, "abc1234"),
                                          ("ocfl_high", 1, 2, "abc1234"),
                                          ("ocfl_other", 1, 1, "abc1234")]])

    def test_file_reads_back(self) -> None:
        rows = {WALK: Seen("34cd", "abc1234+"), PLACE: Seen("12ab", "abc1234")}
        text = ("crate\tsource\tsum\tcommit\nocfl_low\tsrc/place.rt\t12ab\tabc1234\n"
                "ocfl_high\tsrc/walk.rt\t34cd\tabc1234+\n")
        self.assertEqual(due.written(rows), text)
        self.assertEqual(due.parsed(text), rows)


class Turns(unittest.TestCase):
    def test_a_tenth_is_in_turn(self) -> None:
        turns = [due.is_in_turn("crate%d" % at, "abc1234") for at in range(1000)]
        self.assertTrue(60 < turns.count(True) < 140, turns.count(True))

    def test_a_commit_can_be_repeated(self) -> None:
        names = ["crate%d" % at for at in range(100)]
        self.assertEqual([due.is_in_turn(it, "abc1234") for it in names],
                         [due.is_in_turn(it, "abc1234") for it in names])
        self.assertNotEqual([due.is_in_turn(it, "abc1234") for it in names],
                            [due.is_in_turn(it, "def5678") for it in names])

    def test_without_a_commit_all_are(self) -> None:
        self.assertTrue(due.is_in_turn("crate", "unknown"))
