"""Tests when a night of all parts begins no further part."""
import importlib.machinery
import importlib.util
import os
import time
import unittest
from datetime import datetime, timezone
from unittest import mock

from gate.repository import TOP


def load(path):
    loader = importlib.machinery.SourceFileLoader("nightly", os.path.join(TOP, path))
    made = importlib.util.module_from_spec(importlib.util.spec_from_loader("nightly", loader))
    loader.exec_module(made)
    return made


class Until(unittest.TestCase):
    def setUp(self):
        self.nightly = load("nights/parallel/nightly")
        given = mock.patch.dict(os.environ, {"TZ": "Europe/Berlin"})
        given.start()
        self.addCleanup(time.tzset)
        self.addCleanup(given.stop)
        time.tzset()

    def has_come(self, until, since, now):
        """Of two times in UTC."""
        return self.nightly.has_come(until, *(
            datetime.fromisoformat(it).replace(tzinfo=timezone.utc).timestamp()
            for it in (since, now)))

    def test_an_evening_and_a_morning(self):
        for now, expected in [("2026-01-10 21:00:30", False), ("2026-01-11 04:58:59", False),
                              ("2026-01-11 04:59:00", True), ("2026-01-11 05:00:00", True),
                              ("2026-01-11 09:00:00", True)]:
            self.assertEqual(self.has_come("06:00", "2026-01-10 21:00:30", now), expected, now)

    def test_at_that_time_itself_it_is_tomorrow(self):
        for now, expected in [("2026-01-11 05:00:50", False), ("2026-01-12 04:58:00", False),
                              ("2026-01-12 05:00:00", True)]:
            self.assertEqual(self.has_come("06:00", "2026-01-11 05:00:20", now), expected, now)

    def test_at_midnight(self):
        for now, expected in [("2026-01-10 22:58:00", False), ("2026-01-10 23:00:00", True)]:
            self.assertEqual(self.has_come("00:00", "2026-01-10 21:00:00", now), expected, now)

    def test_a_time_that_is_leapt_over(self):
        """On 2026-03-29 the clock goes from 02:00 to 03:00."""
        for now, expected in [("2026-03-29 00:58:00", False), ("2026-03-29 01:00:00", True),
                              ("2026-03-29 06:00:00", True)]:
            self.assertEqual(self.has_come("02:30", "2026-03-28 21:00:00", now), expected, now)

    def test_a_time_that_comes_twice(self):
        """On 2026-10-25 the clock goes from 03:00 back to 02:00."""
        for now, expected in [("2026-10-25 00:28:00", False), ("2026-10-25 00:30:00", True),
                              ("2026-10-25 01:10:00", True)]:
            self.assertEqual(self.has_come("02:30", "2026-10-24 21:00:00", now), expected, now)
        self.assertFalse(self.has_come("02:30", "2026-10-25 00:40:00", "2026-10-25 01:10:00"))
        self.assertTrue(self.has_come("02:30", "2026-10-25 00:40:00", "2026-10-25 01:30:00"))
        self.assertFalse(self.has_come("01:30", "2026-10-25 00:10:00", "2026-10-25 02:00:00"))
