"""Tests what trials read back of messages: which findings the nights of a cycle said."""
import os
import sys
import unittest

from gate.repository import TOP

sys.path.insert(0, os.path.join(TOP, "trials"))

from shared import messages

FIRST = """In part 1:
2 findings tonight in /srv/ocfl, cycle 1, run 1:
Object o, 0 of 1 file right:
\tv1/content/a: bytes have changed (E092); expected x, found y
\tTo do: look
Elsewhere, E073:
\tp: an empty folder of the storage root (E073)
"""
SECOND = """In part 2:
7 findings tonight in /srv/ocfl, cycle 1, runs 1 to 2:
Object q/r, 12 of 17 files right of those read tonight:
\tv1/content/a: missing (E092)
\tv1/content/b: missing (E092)
\tv1/content/c: missing (E092)
\tand 2 more: bytes have changed (E092)
\tTo do: look
Object q:
\tx y: not in the inventory (E023)
\tv2/content/a: missing (E092)
4 findings of cycle 1 are new since cycle 0, 2 of them above.
"""
FOUND = ["E092\to/v1/content/a", "E073\tp", *("E092\tq/r/v1/content/%s" % it for it in "abcde"),
         "E023\tq/x%20y", "E092\tq/v2/content/a"]


class Counted(unittest.TestCase):
    def told(self, text, cycle=1):
        return messages.miscounted([night for night in messages.nights_in(text)
                                    if night.cycle == cycle], FOUND)

    def setUp(self):
        meanings = {"E092": "bytes have changed", "E023": "not in the inventory",
                    "E073": "an empty folder of the storage root"}
        was = messages.MEANINGS
        self.addCleanup(setattr, messages, "MEANINGS", was)
        messages.MEANINGS = {**was, **meanings}

    def test_all_were_said(self):
        self.assertEqual(self.told(FIRST + SECOND), [])

    def test_a_lost_line_is_missed(self):
        """Also where another object, or another part, has counted findings of that code."""
        for line in (FIRST + SECOND).splitlines(True):
            if line.startswith("\t") and "To do" not in line:
                self.assertNotEqual(self.told((FIRST + SECOND).replace(line, "")), [], line)

    def test_heads_with_counts(self):
        """How many files of an object are right, in whatever words, is none of its name."""
        for count in (", 2 of 4 files right", ", 0 of 1 file right of those read tonight"):
            text = (FIRST + SECOND).replace("Object o:", "Object o%s:" % count)
            text = text.replace("Object q/r:", "Object q/r%s:" % count)
            self.assertEqual(self.told(text), [])
            self.assertEqual(messages.findings_in(text), messages.findings_in(FIRST + SECOND))
            self.assertEqual(messages.findings_in("Object a, 1 of 2 x/b%s: v1/c: missing (E092)"
                                                  % count), ["E092\ta, 1 of 2 x/b/v1/c"])

    def test_a_group_is_no_more_than_its_number(self):
        self.assertEqual(self.told(FIRST + SECOND.replace("and 2 more", "and 1 more")),
                         ["E092 of q/r: 1 more"])
        self.assertEqual(self.told(FIRST + SECOND.replace("and 2 more", "and 3 more")),
                         ["E092 of q/r: -1 more"])

    def test_another_cycle_says_nothing_of_this_one(self):
        text = FIRST + SECOND.replace("cycle 1,", "cycle 2,")
        self.assertEqual(self.told(text)[0], "E023 of no object: 1 more")
        self.assertNotEqual(self.told(text, 2), [])

    def test_what_was_said_once_more_counts_once(self):
        """A night says what a killed one did not count as said, and it names all runs up to the
        same one. What `end` says of a note twice names the same runs."""
        later = SECOND.replace("runs 1 to 2", "runs 2 to 3")
        again = SECOND.replace("runs 1 to 2", "runs 1 to 3")
        self.assertEqual(self.told(FIRST + later + again), [])
        self.assertEqual(self.told(FIRST + later + FIRST + later), [])
        cut = later[:later.index("\tv1/content/c")]
        self.assertEqual(self.told(FIRST + cut + again), [])
        # (other runs, and another part, have findings of their own)
        for other in (again.replace("1 to 3", "2 to 4"), again.replace("1 to 3", "1 to 4"),
                      again.replace("part 2", "part 3")):
            self.assertNotEqual(self.told(FIRST + later + other), [])

    def test_what_two_killed_nights_left_counts_twice(self):
        """The night after each of them names all runs up to the last one, also those of which all
        was said before."""
        lines = SECOND.splitlines(True)
        first = "".join(lines[:8])
        second = "".join([lines[0], lines[1].replace("runs 1 to 2", "runs 1 to 4"), *lines[8:]])
        self.assertEqual(self.told(FIRST + first + second), [])
        self.assertEqual(self.told(FIRST + first + first + second + second), [])
        self.assertEqual(self.told(FIRST + second), ["E092 of q: 5 more"])

    def test_groups_in_one_line(self):
        """Of an object they count findings of any code, and else those of one."""
        brief = ("Object q/r: v1/content/a: missing (E092), and 4 more\n"
                 "Object q: v2/content/a: missing (E092), and 1 more\n"
                 "What to do first about a code: ocfl-scrub codes\n")
        text = FIRST + SECOND[:SECOND.index("Object q/r,")] + brief
        self.assertEqual(self.told(text), [])
        for old, new in [("and 4 more", "and 3 more"), (", and 4 more", ""), (", and 1 more", ""),
                         ("and 1 more", "and 2 more"), ("(E092), and 1", "(E072), and 1")]:
            self.assertNotEqual(self.told(text.replace(old, new)), [], new)
        for line in brief.splitlines(True)[:2]:
            self.assertNotEqual(self.told(text.replace(line, "")), [], line)
        outside = text.replace("Elsewhere, E073:\n\tp", "Elsewhere: p")
        self.assertEqual(self.told(outside), [])
        self.assertEqual(self.told(outside.replace("root (E073)", "root (E073), and 1 more")),
                         ["E073 of no object: -1 more"])

    def test_a_night_that_begins_within_an_object_does_not_name_it(self):
        lines = SECOND.splitlines(True)
        later = "".join(["In part 2:\n1 finding tonight in /srv/ocfl, cycle 1, run 3:\n",
                         "Elsewhere, E092:\n", lines[5].replace("v1", "q/r/v1")])
        earlier = SECOND.replace(lines[5], "")
        self.assertEqual(self.told(FIRST + earlier + later), [])
        self.assertEqual(self.told(FIRST + earlier), ["E092 of q/r: 1 more"])
        self.assertNotEqual(self.told(FIRST + SECOND + later), [])
        self.assertNotEqual(self.told(FIRST + earlier + later.replace("E092", "E073")), [])

    def test_what_is_left_to_the_report(self):
        line = "\tx y: not in the inventory (E023)\n"
        left = SECOND.replace(line, "").replace(
            "4 findings of", "1 not shown here: ocfl-scrub-reports findings '/r'\n4 findings of")
        self.assertEqual(self.told(FIRST + left), [])
        self.assertNotEqual(self.told(FIRST.replace("\tp:", "") + left), [])


if __name__ == "__main__":
    unittest.main()
