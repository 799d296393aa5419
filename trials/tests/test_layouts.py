"""The places that the layouts' own extensions show as examples."""
import os
import sys
import unittest

from gate.repository import TOP

sys.path.insert(0, os.path.join(TOP, "trials"))

from shared.layouts import clean, hashed, hashed_and_named

ODD = "..hor/rib:le-$id"


class Layouts(unittest.TestCase):
    def test_hashed(self) -> None:
        for name, place in [
                ("object-01", "3c0/ff4/240/3c0ff4240c1e116dba14c7627f2319b58aa3d77606d0d90dfc6161608"
                              "ac987d4"),
                (ODD, "487/326/d8c/487326d8c2a3c0b885e23da1469b4d6671fd4e76978924b4443e9e3c316cda6d"
                 )]:
            self.assertEqual(hashed(name), place)

    def test_hashed_and_named(self) -> None:
        for name, place in [("object-01", "3c0/ff4/240/object-01"),
                            (ODD, "487/326/d8c/%2e%2ehor%2frib%3ale-%24id")]:
            self.assertEqual(hashed_and_named(name), place)

    def test_clean(self) -> None:
        for name, place in [("..hor_rib:lè-$id", "..hor_rib_lè-$id"),
                            ("https://hdl.handle.net/XXXXX/test/bl ah",
                             "https_/hdl.handle.net/XXXXX/test/bl ah")]:
            self.assertEqual(clean(name), place)


if __name__ == "__main__":
    unittest.main()
