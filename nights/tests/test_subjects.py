"""Tests the subjects of the mails that `ocfl-scrub-reports tell` sends."""
import contextlib
import io
import os

from nights.tests.test_night_states import Asked, Program
from ocfl_scrub_reports import tell

ALL = b"ok\t.\t-\nok\to\t-\nok\to/a\t3\nok\to/b\t3\n"
BAD = b"ok\t.\t-\nok\to\t-\nE092\to/a\tmd5 0 1\nok\to/b\t3\n"


class Subjects(Asked):
    def setUp(self):
        super().setUp()
        self.made = Program(self.at("state"))

    def cycle(self, number, report=ALL, has_statement=True, **more):
        """A night that closes a cycle, and leaves a text."""
        self.made.slice(number, number, 1, 4, 9, 0, "ended")
        self.made.close(number, number, report, **more)
        self.made.log_night(number)
        if has_statement:
            self.assertEqual(self.ask("statement", self.made.path, number), (0, "", ""))
        self.made.put("tonight.x", b"a text in any words\n")

    def subject(self, *others, status="0", **given):
        """The subject of a mail about the last night."""
        night = tell.Night("archive", [self.made.path, *others], {
            "EXIT_CODE": "exited", "EXIT_STATUS": status, "INVOCATION_ID": "x", **given})
        with contextlib.redirect_stderr(io.TextIOWrapper(io.BytesIO(), write_through=True)) as out:
            self.assertEqual(tell.send(night), 0)
            out.seek(0)
            return out.read().partition("\n")[0].removeprefix("ocfl-scrub: ")

    def test_a_cycle_that_ended(self):
        self.cycle(1, compared=0)
        self.assertEqual(self.subject(), "cycle 1 of archive: all right")
        self.cycle(2, BAD)
        self.assertEqual(self.subject(), "cycle 2 of archive: 1 of 2 files right, nothing new")
        self.cycle(3, has_statement=False)
        self.assertEqual(self.subject(), "cycle 3 of archive has ended")

    def test_what_is_known_to_be_gone(self):
        self.cycle(1, compared=0)
        self.cycle(2, gone=b"file\to/c\n")
        self.assertEqual(self.subject(), "cycle 2 of archive: 2 of 2 files right")

    def test_a_report_that_is_not_whole(self):
        self.cycle(1, whole=False)
        self.assertEqual(self.subject(), "cycle 1 of archive: 2 of 2 files right")

    def test_what_is_good_news(self):
        self.cycle(1, BAD, compared=0)
        self.cycle(2, repaired=1)
        self.assertEqual(self.subject(), "archive: findings repaired")
        self.cycle(3, back=2)
        self.assertEqual(self.subject(), "archive: objects are back")
        self.cycle(4, repaired=1, back=1)
        self.assertEqual(self.subject(), "archive: findings repaired")

    def test_only_the_last_night_counts(self):
        self.cycle(1, repaired=1, compared=0)
        self.made.night(2, 2, 1, 2, 6)
        self.assertEqual(self.subject(), "archive: a message about the nights")

    def test_two_cycles_of_a_night(self):
        """One that an earlier night could not say, and its own."""
        self.made.slice(3, 2, 1, 4, 9, 0, "ended")
        self.made.close(3, 1, ALL, compared=0)
        self.made.close(3, 2, BAD)
        self.made.log_night(3)
        self.assertEqual(self.ask("statement", self.made.path, 2), (0, "", ""))
        self.made.put("tonight.x", b"a text\n")
        self.assertEqual(self.subject(), "cycle 2 of archive: 1 of 2 files right, nothing new")

    def test_a_night_with_findings(self):
        self.cycle(1, compared=0)
        self.assertEqual(self.subject(status="1"), "findings in archive")

    def test_a_log_that_says_nothing(self):
        self.made.put("tonight.x", b"Cycle 3 ended: 9 of 9 files right, 1 object, 9 bytes.\n")
        self.assertEqual(self.subject(), "archive: a message about the nights")
        self.made.put("tonight.x", b"a text\n")
        self.made.put("log", b"\xff{\n")
        self.assertEqual(self.subject(), "archive: a message about the nights")

    def test_parts(self):
        """A joined cycle, which the logs of its parts tell of."""
        for name in ("joined", "joined/part-000001", "joined/part-000002"):
            part = Program(self.at(name))
            if name == "joined":
                part.put("parts", b"o\n")
                part.put("reports/cycle-000001", ALL)
                part.put("tonight.x", b"a text\n")
                self.made = part
                continue
            part.slice(1, 1, 1, 2, 9, 0, "ended")
            part.close(1, 1, ALL, compared=0, repaired=int("2" in name))
            part.log_night(1)
        os.remove(self.at("joined/checkpoint"))
        self.assertEqual(self.subject(), "archive: findings repaired")

    def test_several_folders(self):
        other = Program(self.at("other"))
        other.slice(1, 1, 1, 4, 9, 0, "ended")
        other.close(1, 1, ALL, compared=0)
        other.log_night(1)
        self.made.put("tonight.x", b"a text\n")
        self.assertEqual(self.subject(other.path), "archive: cycles ended")
        self.cycle(1, compared=0, repaired=1)
        self.assertEqual(self.subject(other.path), "archive: findings repaired")
