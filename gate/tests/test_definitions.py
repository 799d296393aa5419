"""Tests what is read of uses, contracts and definitions, and which contracts a page names."""
import contextlib
import io
import os
import tempfile
import unittest

from gate.edits import tried
from gate.edits.edit_files import Change, Edit
from gate.pages import definitions, lists

USES = """\
ghost use Rattle.ocfl_tree.specs.Place.{Place, Text};
ghost use Rattle.ocfl_state.specs.{Content.{Content}, Pieces.{HasTail as Tail, Deep.{one, two}}};
ghost use Rattle.ocfl_state.specs.declared.checkpoint_parts.{Left.{Left}, Phase.TheVariants.{Open}};
ghost use Rattle.ocfl_state.specs.declared.plan.Halt.TheVariants as halt;
ghost use Rattle.std.specs.Prelude.{length};
struct Inner {
    ghost use Rattle.ocfl_tree.specs.Name.{IsName};
}
"""

SOURCE = """\
ghost use Rattle.ocfl_tree.specs.Place.{one, two, three, four, five};

pub trait Store {
    fn told(&self) -> bool
        ensures { one }
    ;
}

pub struct Number(u64);

impl Store {
    pub fn first(&self) -> u64
        ensures exact { two
            three }
    {
        four()
    }

    pub fn short(&self) -> u64 {
        one()
    }

    pub fn many(
        &self,
    ) -> u64 {
        one()
    }
}

pub fn law()
    ensures { five }
{}
"""


class Definitions(unittest.TestCase):
    def test_names_of_a_use_with_all_modules_before_them(self) -> None:
        for text, names in [
                ("A.{b, c}", ["A.b", "A.c"]),
                ("{A.{b}, C.D.{e as f, G.{h}}, i}", ["A.b", "C.D.e as f", "C.D.G.h", "i"]),
                ("A as b", ["A as b"]), ("A.{◌,◌}", ["A.◌", "A.◌"]), ("{}", [])]:
            self.assertEqual(list(definitions.leaves(text)), names, text)

    def test_uses_leave_out_what_is_declared_and_other_libraries(self) -> None:
        self.assertEqual(definitions.uses(USES), {
            "Place": ("ocfl_tree", "Place", "Place"), "Text": ("ocfl_tree", "Place", "Text"),
            "Content": ("ocfl_state", "Content", "Content"),
            "Tail": ("ocfl_state", "Pieces", "HasTail"),
            "one": ("ocfl_state", "Pieces.Deep", "one"), "two": ("ocfl_state", "Pieces.Deep", "two"), "IsName": ("ocfl_tree", "Name", "IsName")})

    def test_contracts_of_functions_traits_and_types(self) -> None:
        with tempfile.TemporaryDirectory() as folder:
            path = os.path.join(folder, "source.rt")
            with open(path, "w", encoding="utf-8") as file:
                file.write(SOURCE)
            for name, words in [("first", ["two", "three"]), ("short", []), ("many", []),
                                ("law", ["five"]), ("Store", ["one"]), ("Number", []),
                                (None, ["one", "two", "three", "four", "five"])]:
                self.assertEqual([it[2] for it in definitions.contract(path, name)], words, name)
            with self.assertRaises(LookupError):
                definitions.contract(path, "nothing")

    def test_every_source_can_be_asked(self) -> None:
        asked = sorted({it for places in definitions.sources().values() for it in places})
        self.assertGreater(len(asked), 150)
        for crate, module in asked:
            path = definitions.source_of(crate, module)
            definitions.closure(definitions.contract(path, None))

    def test_statuses(self) -> None:
        for words, status in [(["ocfl_night/nights:night"], 0), (["--help"], 0), ([], 2),
                              (["--names", "ocfl_tree/place"], 0), (["ocfl_night"], 2),
                              (["ocfl_night/nights:nothing"], 1), (["ocfl_night/nowhere"], 1),
                              (["--beyond", "ocfl_tree/place", "ocfl_tree/tree"], 0),
                              (["--beyond", "ocfl_tree/nowhere", "ocfl_tree/tree"], 1),
                              (["--beyond", "ocfl_tree/place"], 2), (["--beyond"], 2)]:
            with contextlib.redirect_stdout(io.StringIO()), \
                    contextlib.redirect_stderr(io.StringIO()):
                self.assertEqual(definitions.main(words, "usage"), status, words)


    def test_what_is_beyond_another_contract(self) -> None:
        told = io.StringIO()
        with contextlib.redirect_stdout(told):
            definitions.main(["--names", "--beyond", "ocfl_scrub/cycling:cycle",
                              "ocfl_night/nights:night"], "usage")
        files = [line.partition(":")[0] for line in told.getvalue().splitlines()]
        self.assertIn("ocfl_night, Sound", files)
        self.assertNotIn("ocfl_rules, Lines", files)


class Contracts(unittest.TestCase):
    def test_files_to_read_for_a_cycle_for_nights_and_for_the_rest(self) -> None:
        cycle, nights, others = lists.to_read(
            [("ocfl_scrub", "cycling", "cycle"), ("ocfl_night", "nights", "night"),
             ("ocfl_clock", "next", "next_time")])
        self.assertIn("ocfl_rules Runs", cycle)
        self.assertIn("ocfl_night Sound", nights - cycle)
        self.assertEqual(others, {"ocfl_clock Clock"})

    def test_contracts_that_a_table_names(self) -> None:
        table = [["a promise", "`ocfl_scrub`: `cycle`, `told`; law `nights_are_sound`"],
                 ["another", "all public calls of `ocfl_item`"], ["types", "`ocfl_tree`: `Tree`"]]
        self.assertEqual(lists.contracts_of(table), [
            ("ocfl_night_laws", "nights", "nights_are_sound"), ("ocfl_scrub", "cycling", "cycle"),
            ("ocfl_tree", "tree", None)])


class Unchanged(unittest.TestCase):
    def test_definitions_that_no_edit_changes(self) -> None:
        left = dict(tried.unchanged("ocfl_tree", {("specs/Place.antt", "Place")}))
        self.assertIn("Text", left["Place"])
        self.assertNotIn("Place", left["Place"])

    def test_counts_of_files(self) -> None:
        change = Change("specs/Place.antt", "pub Place :", "pub Place  :")
        edits = [Edit("ocfl_tree", "specs/Place/any", "", (change,)),
                 Edit("ocfl_tree", "place/body", "", (Change("src/place.rt", "a", "b"),))]
        all_of_it = len(dict(tried.unchanged("ocfl_tree", set()))["Place"])
        self.assertGreater(all_of_it, 5)
        self.assertEqual(tried.counts({("ocfl_tree", "Place")}, edits),
                         (all_of_it - 1, all_of_it))
        self.assertEqual(tried.counts({("ocfl_tree", "Place")}, []), (all_of_it, all_of_it))
