"""Tests what `bench/floor.py` makes of seconds, the crates that it proves, and its words."""
import contextlib
import io
import os
import sys
import tempfile
import unittest

from gate.repository import TOP

sys.path.insert(0, os.path.join(TOP, "bench"))

import floor  # noqa: E402  (it is beside the scripts that it uses)


class Floor(unittest.TestCase):
    def test_slope_of_a_line(self) -> None:
        self.assertAlmostEqual(floor.slope([(1, 5.5), (51, 30.5), (201, 105.5)]), 0.5)
        # The line that fits these best: the last point pulls it up by half of what it is off.
        self.assertAlmostEqual(floor.slope([(0, 0.0), (1, 1.0), (2, 3.0)]), 1.5)

    def test_row(self) -> None:
        self.assertEqual(floor.row(floor.KINDS[0], [1, 51], [5.5, 30.5]),
                         "| no contract | 5.5 | 30.5 | 0.50 |")

    def test_functions_in_one_file(self) -> None:
        for kind in floor.KINDS:
            files = floor.sources(kind, 3, False)
            self.assertEqual(list(files), ["lib.rt", "part_0.rt"])
            self.assertEqual(files["part_0.rt"].count("pub fn "), 3, kind.row)
            self.assertIn("fn given_2(", files["part_0.rt"])

    def test_functions_in_files(self) -> None:
        files = floor.sources(floor.KINDS[1], 2, True)
        self.assertEqual(list(files), ["lib.rt", "part_0.rt", "part_1.rt"])
        self.assertIn("\npub mod part_0;\npub mod part_1;\n", files["lib.rt"])
        self.assertIn("fn given_1(", files["part_1.rt"])

    def test_ten_calls(self) -> None:
        texts = {kind.row: kind.text % 0 for kind in floor.KINDS}
        self.assertEqual(texts["one clause, ten calls"].count("crate::same("), 10)
        self.assertEqual(texts["one clause, ten calls and `?`"].count(")?;"), 10)

    def test_repository_of_one_crate(self) -> None:
        with tempfile.TemporaryDirectory() as top:
            crate = floor.made(top, {"lib.rt": "◌\n"})
            with open(os.path.join(crate, "src", "lib.rt"), encoding="utf-8") as file:
                self.assertEqual(file.read(), "◌\n")
            self.assertEqual(sorted(os.listdir(top)), ["crates", "crates.txt"])

    def test_seconds_before_modules_of_a_kind(self) -> None:
        kept = [(1.0, "Rattle.oantt"), (1.5, "proofs.given_0.Lts.oantt"),
                (3.5, "proofs.given_0.Tie.oantt"), (4.0, "proofs.given_1.Lts.oantt"),
                (4.25, "proofs.given_1.oantt")]
        self.assertEqual(floor.by_module(kept), [
            ("Tie", 2.0, 1), ("Lts", 1.0, 2), ("the contract", 0.25, 1)])

    def test_words(self) -> None:
        for words, numbers, files in [([], [1, 20, 50], False), (["--files"], [1, 20, 50], True),
                                      (["2", "7"], [2, 7], False)]:
            asks = floor.asked(words)
            self.assertEqual((asks.numbers, asks.files), (numbers, files))
            self.assertEqual(floor.chosen(asks), list(floor.KINDS))
        self.assertEqual([kind.row for kind in floor.chosen(floor.asked(["--only", "ten calls"]))],
                         ["one clause, ten calls", "one clause, ten calls and `?`"])
        for words, status in [(["--help"], 0), (["x"], 2), (["5"], 2), (["5", "5"], 2),
                              (["0", "5"], 2), (["--only", "eleven"], 2)]:
            out = io.StringIO()
            with contextlib.redirect_stdout(out), contextlib.redirect_stderr(out):
                with self.assertRaises(SystemExit) as ended:
                    floor.asked(words)
            self.assertEqual(ended.exception.code, status, words)
