"""Tests how files of edits are read, what is said to be wrong with them, and which definition an
edit changes."""
import unittest
from unittest import mock

from gate.edits import collection, edit_files, functions, tried
from gate.edits.edit_files import Change, Edit

TEXT = """# A comment.
[names_in_descending_order] gate for Name::cmp, Place::cmp
says: The greater name comes first.
old:     self.text.cmp(&other.text)
new: other.text.cmp(&self.text)
old: use crate::{
new: use crate::{take,\x20
refused by: law `order` or case `a: b`

# Another.
[root_is_gone]
says: There is no root.
file: specs/Path.antt
old: root = [];
new:
file: src/names/name.rt
old: old: [x]
new: new: [y]
"""
FIRST = Edit("a", "names/name/names_in_descending_order", "The greater name comes first.", (
    Change("src/names/name.rt", "    self.text.cmp(&other.text)", "other.text.cmp(&self.text)"),
    Change("src/names/name.rt", "use crate::{", "use crate::{take, ")), True,
    ("Name::cmp", "Place::cmp"), "law `order` or case `a: b`")
SECOND = Edit("a", "names/name/root_is_gone", "There is no root.", (
    Change("specs/Path.antt", "root = [];", ""),
    Change("src/names/name.rt", "old: [x]", "new: [y]")))


class Files(unittest.TestCase):
    def test_all_of_an_edit_is_read(self):
        self.assertEqual(edit_files.read("a", "names/name", TEXT), [FIRST, SECOND])
        self.assertEqual(edit_files.read("a", "name", "# none\n"), [])

    def test_text_is_that_of_the_toolchain(self):
        self.assertEqual(SECOND.text(), "file: specs/Path.antt\nold: root = [];\nnew: \n"
                         "file: src/names/name.rt\nold: old: [x]\nnew: new: [y]\n")

    def test_source_is_found_by_the_file(self):
        self.assertEqual([edit_files.source_of(it) for it in ("place", "a/b", "specs/In/Path")],
                         ["src/place.rt", "src/a/b.rt", "specs/In/Path.antt"])
        self.assertEqual((FIRST.name, FIRST.source),
                         ("names_in_descending_order", "src/names/name.rt"))

    def test_what_cannot_be_read_is_named_with_its_line(self):
        whole = "[a]\nsays: It is.\nold: x\nnew: y\n"
        for was, now in (("[a]", "[a] gat"), ("[a]", "[a b]"), ("says: It is.\n", ""),
                         ("says: It is.", "says: "), ("old: x\n", ""), ("new: y\n", ""),
                         ("old: x\nnew: y\n", ""), ("old: x", "old: x\nold: z"),
                         ("new: y", "new: y\nnew: z"), ("new: y", "new: y\nold: z"),
                         ("new: y", "new:y"), ("old: x", "was: x"),
                         ("says", "says: It.\nsays"), ("old: x", "old: x\nsays: It."),
                         ("[a]\n", "")):
            with self.assertRaisesRegex(edit_files.Unreadable, "^a edits/b.edits, line 2: "):
                edit_files.read("a", "b", "# first\n" + whole.replace(was, now))
        self.assertEqual(len(edit_files.read("a", "b", whole)), 1)


class Collected(unittest.TestCase):
    def test_misplaced_edits_are_named(self):
        def misplaced(*edits):
            with mock.patch.object(collection, "every_edit", lambda: list(edits)):
                return collection.misplaced()

        self.assertEqual(misplaced(FIRST, SECOND), [])
        elsewhere = Edit("a", "name/root_is_gone", "It is.", SECOND.changes)
        self.assertEqual(misplaced(SECOND, elsewhere), [
            "a name/root_is_gone does not change src/name.rt", "2 edits are named root_is_gone"])

    def test_other_files_are_named_and_not_read(self):
        with mock.patch.object(collection, "files_of",
                               lambda crate: ["name/a.edit"] * (crate == "ocfl_tree")):
            self.assertEqual(collection.every_edit(), [])
            self.assertEqual(collection.misplaced(),
                             ["ocfl_tree: edits/name/a.edit does not end in .edits"])

    def test_edits_are_found_by_name_and_by_path(self):
        with mock.patch.object(collection, "every_edit", lambda: [FIRST, SECOND]):
            self.assertEqual(collection.named("a", "root_is_gone"), SECOND)
            self.assertEqual(collection.named("a", "names/name/root_is_gone"), SECOND)
            self.assertEqual((collection.listed(), collection.left_out()), ([FIRST], [SECOND]))
            for crate, name in (("b", "root_is_gone"), ("a", "is_gone")):
                with self.assertRaises(SystemExit):
                    collection.named(crate, name)


class Tried(unittest.TestCase):
    def test_definition_is_the_first_that_changes(self):
        """A use above all definitions is none."""
        changes = ("use Rattle.std", ""), ("joined cuts =", ""), ("pub record IsCut", "")
        edits = [Edit("ocfl_rules", "specs/Runs/a%d" % first, "It is.", tuple(
            Change("specs/Runs.antt", *it) for it in changes[first:])) for first in range(3)]
        self.assertEqual(tried.by_definition([*edits, FIRST]), {
            ("specs/Runs.antt", "joined"): edits[:2], ("specs/Runs.antt", "IsCut"): edits[2:]})


class Functions(unittest.TestCase):
    def test_only_the_end_of_a_contract_ends_a_function_without_a_body(self):
        """A field of a record in a clause ends as the declaration of a trait's function does."""
        text = """pub trait Meter {
    fn reading(&self) -> u64
        ensures { result ≡ record {
          spent = self.now.spent;
        } };

    fn reset(&mut self)
        ensures { self.new ≡ record self.old {
          spent = 0;
        } }
    {
        self.set(0);
    }
}
"""
        found = functions.functions_in(text, "src/meter.rt", set())
        self.assertEqual([(it.name, it.body) for it in found],
                         [("reset", "\n        self.set(0);\n")])


if __name__ == "__main__":
    unittest.main()
