"""Tests how laws that stand above a crate are checked with edits of its definitions."""
import os
import tempfile
import unittest

from gate import toolchain
from gate.edits import above, functions
from gate.repository import crates


class Laws(unittest.TestCase):
    def test_a_crate_comes_with_its_laws(self):
        self.assertEqual(above.crates_with({"ocfl_tree"}), {"ocfl_tree"})
        for crate, laws in above.LAWS_OF.items():
            self.assertEqual(above.crates_with([crate]), {crate, laws})

    def test_laws_stand_on_their_crate_and_nothing_on_them(self):
        below = {name: line.split(":")[1].split() for name, line in crates().items()}
        for crate, laws in above.LAWS_OF.items():
            # (what they stand on besides is built before edits of the crate are tried)
            self.assertLessEqual(set(below[laws]) - {crate}, set(below[crate]))
            self.assertIn(crate, below[laws])
            self.assertFalse([name for name in below if laws in below[name]])
            self.assertTrue(functions.laws_of(laws))

    def test_the_copy_has_the_texts(self):
        with tempfile.TemporaryDirectory() as room:
            for part in ("src", "specs", "edits"):
                os.mkdir(os.path.join(room, part))
                with open(os.path.join(room, part, "A"), "w") as file:
                    file.write("as it is")
            crate = toolchain.Crate("low", room, None)
            with above.with_texts(crate, {"specs/A": "otherwise"}) as copy:
                self.assertEqual(sorted(os.listdir(copy)), ["specs", "src"])
                for part, text in [("src", "as it is"), ("specs", "otherwise")]:
                    with open(os.path.join(copy, part, "A")) as file:
                        self.assertEqual(file.read(), text)


if __name__ == "__main__":
    unittest.main()
