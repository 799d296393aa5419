"""Tests what `bench/small.py` makes of counts of instructions, and of its words."""
import contextlib
import io
import os
import sys
import unittest

from gate.repository import TOP

sys.path.insert(0, os.path.join(TOP, "bench"))

import small  # noqa: E402  (it is beside the scripts that it uses)


class Small(unittest.TestCase):
    def test_blocks_hold_the_padding_too(self) -> None:
        for size, blocks in [(0, 1), (111, 1), (112, 2), (128, 2), (239, 2), (240, 3), (1024, 9)]:
            self.assertEqual(small.blocks_of(size), blocks, size)

    def test_total_of_what_callgrind_wrote(self) -> None:
        self.assertEqual(small.total_of("version: 1\nevents: Ir\nfn=(1)\n1 2\ntotals: 345\n"), 345)
        with self.assertRaises(ValueError):
            small.total_of("events: Ir\n")

    def test_hashing_is_left_out(self) -> None:
        # Ten files take 1,000 each, and each block of theirs and of two inventories 30.
        hashed = 10 * 9 + small.blocks_of(500) + small.blocks_of(700)
        short = 10 * 1000 + 30 * hashed
        longer = short + 30 * 10 * (small.blocks_of(small.LONGER) - 9)
        self.assertAlmostEqual(small.beside_hashing(short, longer, [500, 700], 10), 1000)

    def test_words(self) -> None:
        self.assertEqual([small.rounds_of([]), small.rounds_of(["7"])],
                         [small.measure.ROUNDS, 7])
        for words, status in [(["--help"], 0), (["x"], 2), (["1", "2"], 2)]:
            out = io.StringIO()
            with contextlib.redirect_stdout(out), contextlib.redirect_stderr(out):
                with self.assertRaises(SystemExit) as ended:
                    small.main(words)
            self.assertEqual((ended.exception.code, "ROUNDS" in out.getvalue() or status == 2),
                             (status, True), words)
