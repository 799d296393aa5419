"""Tests what `nights/ocfl_scrub_reports` takes from a folder of state: its log, its lists, how the
nights stand, and statements."""
import json
import os
import sys
import unittest

from gate.repository import TOP

sys.path.insert(0, os.path.join(TOP, "nights"))

from nights.tests.test_reports import Folder
from ocfl_scrub_reports import database, log, standing, state, statement, status

NIGHT = "2026-03-0%dT22:00:00Z"


def entry(day, kind, cycle=1, stands="after o", status=""):
    """An entry of the log, of a night that began on a day."""
    night = NIGHT % day
    return log.Entry(kind, night, night, cycle, 1, 5, 9, 9, 1, 60, 100, stands=stands,
                     status=status)


class Log(unittest.TestCase):
    def standing(self, *entries):
        log = status.Log()
        for it in entries:
            log.take(it)
        return log

    def test_the_worst_of_a_night(self):
        log = self.standing(entry(1, "0"), entry(1, "3"), entry(1, "1"))
        self.assertEqual((log.status, log.cycle, log.is_open), ("3", 1, True))
        log.take(entry(1, "told", status="1"))
        self.assertEqual(log.status, "1")

    def test_a_night_that_was_refused_is_of_no_cycle(self):
        log = self.standing(entry(1, "0", 4), entry(2, "3", 0))
        self.assertEqual((log.status, log.status_before, log.cycle), ("3", "0", 4))

    def test_seconds(self):
        self.assertEqual([status.seconds_of(it) for it in (
            "1970-01-01T00:00:00Z", "2024-02-29T00:00:00Z", "2026-03-10T05:00:00Z")],
            [0, 1709164800, 1773118800])

    def test_dates(self):
        self.assertEqual([database.is_date(it) for it in (
            "2025-03-01", "2025-03-01T22:00:00Z", "2025-02-29", "2025-03-01T22:00", "x")],
            [True, True, False, False, False])


class Losses(Folder):
    def setUp(self):
        super().setUp()
        os.mkdir(self.folder + "/reports")
        self.state = state.open_state(self.folder)

    def report(self, name, *paths):
        self.put(b"".join(b"ok\t%s\t-\n" % it for it in paths), "reports/" + name)

    def test_until_they_are_back(self):
        self.report("cycle-000001", b"a", b"b", b"c")
        self.report("cycle-000002", b"a")
        self.put(b"object\tb\nfile\ta/x\nobject\tc\nexpected\td\n", "reports/gone-000002")
        self.report("cycle-000003", b"a", b"c")
        lost = [b"object\tb", b"file\ta/x"]
        self.assertEqual(list(standing.losses(self.state)), lost)
        self.assertEqual(list(standing.losses(self.state, 2)), [lost[0], b"object\tc", lost[1]])
        self.assertEqual(list(standing.losses(self.state, 1)), [])
        self.put(b"ok\tb\t-\n")
        self.assertEqual(list(standing.losses(self.state)), lost[1:])

    def test_gone_twice_is_told_once(self):
        for cycle in (2, 4):
            self.put(b"object\tb\n", "reports/gone-%06d" % cycle)
        self.put(b"object\tx\n", "reports/gone-000004.bak")
        self.assertEqual(list(standing.losses(self.state)), [b"object\tb"])


class Text(unittest.TestCase):
    def test_json(self):
        made = statement.Statement({"Cycle": "2", "Whole": "no", "Findings": "3", "Host": "7",
                                    "Findings S08": "1", "Findings E092": "2", "Part from": "a%01",
                                    "Storage root": "/a%\t"})
        self.assertEqual(made.text(), "ocfl-scrub statement 4\n\nStorage root: /a%25%09\n"
                         "Part from: a%01\nHost: 7\nCycle: 2\nWhole: no\nFindings: 3\n"
                         "Findings E092: 2\nFindings S08: 1\n")
        self.assertEqual(json.loads(statement.as_json(made.text())), {
            "form": "ocfl-scrub statement 4", "storage_root": "/a%25%09", "part_from": "a%01",
            "host": "7", "cycle": 2, "whole": False, "findings": 3,
            "findings_by_code": {"E092": 2, "S08": 1}})
