"""Tests what the gate says of the minutes that proofs and edits took."""
import contextlib
import io
import os
import tempfile
import unittest
from unittest import mock

from gate import clock, commands, minutes

# Five crates of one machine, each with ten minutes.
ALIKE = {"a%d" % at: (4.0, 6.0, "0000000") for at in range(5)}


class Minutes(unittest.TestCase):
    def taken(self, **more):
        return {**{crate: row[:2] for crate, row in ALIKE.items()}, **more}

    def test_file_reads_back(self):
        rows = {"low": (1.5, 2.0, "1234567"), "high": (0.1, None, "1234567+")}
        text = "crate\tproof\tedits\tcommit\nlow\t1.5\t2.0\t1234567\nhigh\t0.1\t-\t1234567+\n"
        self.assertEqual(minutes.written(rows, ["low", "high", "new"]), text)
        self.assertEqual(minutes.parsed(text), rows)

    def test_alike_stays(self):
        self.assertEqual(minutes.changed(ALIKE, self.taken(a1=(4.5, 7.0))), {})

    def test_dearer_by_a_fifth(self):
        self.assertEqual(minutes.changed(ALIKE, self.taken(a1=(4.5, 8.0))), {"a1": (4.5, 8.0)})

    def test_cheaper_by_a_fifth(self):
        self.assertEqual(minutes.changed(ALIKE, self.taken(a1=(4.0, 4.0))), {"a1": (4.0, 4.0)})

    def test_few_seconds_are_no_news(self):
        before = {**ALIKE, "small": (0.1, 0.0, "0000000")}
        self.assertEqual(minutes.changed(before, self.taken(small=(0.3, 0.0))), {})

    def test_new_crate(self):
        self.assertEqual(minutes.changed(ALIKE, self.taken(new=(0.1, 0.0))), {"new": (0.1, 0.0)})

    def test_slower_machine_is_no_news(self):
        slow = {crate: (2 * row[0], 2 * row[1]) for crate, row in ALIKE.items()}
        self.assertEqual(minutes.pace(ALIKE, slow), 2)
        self.assertEqual(minutes.changed(ALIKE, slow), {})
        self.assertEqual(minutes.changed(ALIKE, {**slow, "a1": (12.0, 16.0)}), {"a1": (6.0, 8.0)})

    def test_edits_that_were_tried_in_part_keep_their_minutes(self):
        self.assertEqual(minutes.changed(ALIKE, self.taken(a1=(4.5, None))), {})
        self.assertEqual(minutes.changed(ALIKE, self.taken(a1=(5.0, None))), {"a1": (5.0, 6.0)})
        slow = {crate: (2 * row[0], None) for crate, row in ALIKE.items()}
        self.assertEqual(minutes.pace(ALIKE, slow), 2)

    def test_edits_that_are_tried_for_the_first_time_have_minutes(self):
        before = {**ALIKE, "a1": (4.0, None, "0000000")}
        self.assertEqual(minutes.changed(before, self.taken(a1=(4.1, 7.0))), {"a1": (4.1, 7.0)})
        self.assertEqual(minutes.changed(before, self.taken(a1=(4.1, None))), {})
        self.assertEqual(minutes.changed(before, self.taken(a1=(8.0, None))), {"a1": (8.0, None)})

    def test_few_crates_give_no_pace(self):
        before = {crate: ALIKE[crate] for crate in ["a0", "a1"]}
        taken = {"a0": (8.0, 12.0), "a1": (4.0, 6.0)}
        self.assertEqual(minutes.changed(before, taken), {"a0": (8.0, 12.0)})


class Files(unittest.TestCase):
    """What a gate leaves of the file, over the processes that it saw."""

    def setUp(self):
        room = tempfile.TemporaryDirectory()
        self.addCleanup(room.cleanup)
        self.file = os.path.join(room.name, "minutes.tsv")
        failures = list(commands.FAILURES)
        self.addCleanup(commands.FAILURES.__setitem__, slice(None), failures)
        commands.FAILURES.clear()

    def minutes_after(self, taken):
        """The file after a gate whose processes took so many seconds, by their crates and by
        whether they checked an edit."""
        gate = clock.Clock()
        gate.taken = dict(enumerate(taken))
        with mock.patch.object(minutes, "FILE", self.file), \
                mock.patch.object(minutes, "commit_of", lambda folder: "1234567"), \
                contextlib.redirect_stdout(io.StringIO()):
            gate.print_minutes()
        with contextlib.suppress(OSError), open(self.file) as file:
            return file.read()

    def test_whole_gate_writes_it(self):
        taken = [(("ocfl_tree", False), 60.0), (("ocfl_tree", True), 30.0),
                 (("ocfl_report", False), 90.0), (("ocfl_tree", True), 60.0), (None, 5.0)]
        self.assertEqual(self.minutes_after(taken),
                         minutes.HEAD + "\nocfl_tree\t1.0\t1.5\t1234567\n"
                         "ocfl_report\t1.5\t0.0\t1234567\n")

    def test_what_was_kept_has_no_row(self):
        self.assertIsNone(self.minutes_after([(("ocfl_tree", True), 30.0)]))

    def test_edits_of_which_some_were_tried_have_no_minutes(self):
        with mock.patch.object(minutes, "PARTLY", {"ocfl_tree"}):
            self.assertEqual(self.minutes_after([(("ocfl_tree", False), 60.0),
                                                 (("ocfl_tree", True), 30.0)]),
                             minutes.HEAD + "\nocfl_tree\t1.0\t-\t1234567\n")

    def test_failed_gate_writes_nothing(self):
        commands.FAILURES.append("an edit")
        self.assertIsNone(self.minutes_after([(("ocfl_tree", False), 60.0)]))


if __name__ == "__main__":
    unittest.main()
