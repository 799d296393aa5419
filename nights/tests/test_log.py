"""Tests what `nights/ocfl_scrub_reports` takes from the rows of the log that say when a night began,
and what a closed cycle read and found."""
import json
import os
import sqlite3
import sys
from unittest import mock

from gate.repository import TOP

sys.path.insert(0, os.path.join(TOP, "nights"))

from nights.tests.test_night_states import NOW, ONE, TWO, Program, at, night_of
from nights.tests.test_what_is_known import Told
from ocfl_scrub_reports import state

# What a closing says of what its cycle read, and of what is new.
MADE = {"runs": 3, "read_bytes": 2000, "read_files": 7}
FOUND = {"new": 1, "known": 0, "compared_whole": 0}
NOTHING = {"new": 0, "known": 0, "compared_whole": 0}


class Began(Told):
    def kinds(self):
        found = state.open_state(self.made.path).entries()
        return [(it.kind, it.cycle, it.lines) for it in found if it.kind != "stands"]

    def now(self, day):
        return self.ask("status", "--now", "2026-03-%02dT23:00:00Z" % day, self.made.path)[1]

    def test_a_night_before_its_first_run(self):
        """It is under way, and was cut once nobody holds the folder."""
        self.made.begin(1, 3)
        with self.made.under_way():
            self.assertEqual(self.kinds(), [("began", 3, 0)])
            self.assertIn(": last night %s, status 0, under way; cycle 3 is open, " % night_of(1),
                          self.now(1))
        self.assertEqual(self.kinds(), [("began", 3, 0), ("cut", 3, 0)])
        self.assertIn("a night was cut;", self.now(1))
        self.made.begin(2, 3)
        self.made.night(2, 3, 1, 3, 9)
        self.assertEqual(self.kinds()[2:], [("began", 3, 0), ("0", 3, 3), ("told", 0, 0)])

    def test_two_nights_in_one_second(self):
        """The first one was cut."""
        self.made.begin(1, 3)
        self.made.begin(1, 3)
        self.made.night(1, 3, 1, 3, 9)
        self.assertEqual(self.kinds(), [("began", 3, 0), ("cut", 3, 0), ("began", 3, 0),
                                        ("0", 3, 3), ("told", 0, 0)])

    def test_a_night_of_no_run(self):
        self.made.begin(1, 3)
        self.made.log_night(1)
        self.assertEqual(self.kinds(), [("began", 3, 0), ("told", 0, 0)])
        self.assertNotIn("a night was cut", self.now(1))

    def test_lines_of_a_night_that_was_cut(self):
        """The lines that are there when the next night begins are those of the one that was
        cut, if none of its rows says so."""
        self.made.begin(1, 3)
        self.made.slice(1, 3, 1, 2, 9)
        self.made.begin(2, 3, "after o", 5)
        self.made.night(2, 3, 3, 7, 27)
        self.assertEqual([it for it in self.kinds() if it[0] != "told"], [
            ("began", 3, 0), ("0", 3, 2), ("cut", 3, 5), ("began", 3, 5), ("0", 3, 7)])
        self.made.put("report", ONE)
        self.assertEqual(self.ask("database", self.made.path, self.at("db"))[0], 0)
        database = sqlite3.connect(self.at("db"))
        self.assertEqual([began[8:10] for began, in database.execute(
            "select began from dated where cycle = 3 order by number")], ["01"] * 5 + ["02"] * 2)
        database.close()

    def test_runs_that_no_row_tells_of(self):
        """Of a cycle whose nights all say that they began none is called cut for them."""
        for stands, is_cut in (("start", False), ("after o", True)):
            self.made.rows.clear()
            self.made.begin(1, 3, stands)
            self.made.log_night(1)
            self.assertEqual("a night was cut" in self.now(1), is_cut)


class CutParts(Told):
    def test_a_part_that_was_killed(self):
        """The night of all parts says it with its own status, which is no less for that."""
        parts = [Program(self.at("joined/part-%06d" % number), cycle=1) for number in (1, 2)]
        own = self.at("joined")
        os.mkdir(own + "/reports")
        self.made.path, rows = own, []
        for night in (0, 60):
            time = at(night_of(1)) + night
            rows += [{"row": "given", "time": time, "night": time, "parts": 2},
                     {"row": "night", "time": time + 9, "night": time, "status": 3, "runs": 0,
                      "said": "No night has ended since"}]
            for part in parts:
                part.log(row="began", time=time + 1, night=time, cycle=1, stands="start", lines=0,
                         bytes=0, root="/srv/ocfl", part=1, program="")
            parts[0].log(row="night", time=time + 2, night=time, status=0, runs=0, cost=0)
            with open(own + "/log", "w") as log:
                log.writelines(json.dumps(it) + "\n" for it in rows)
            given, out, _ = self.ask("status", "--now", "2026-03-01T23:00:00Z", own)
            self.assertEqual((given, "a night was cut; the last night ended with status 3" in out),
                             (2, True), out)


class Progress(Told):
    """How far the open cycle is."""

    def stands(self, line="after a%7Cb/v1|x", left=b""):
        """The checkpoint stands so, after branches that were left out."""
        with open(self.made.path + "/checkpoint", "rb") as file:
            text = file.read().replace(b"files 1\nafter o\n", b"files 1\n%s\n" % line.encode())
        self.made.put("checkpoint", text.replace(b"left 0\n", left or b"left 0\n"))

    def page(self):
        return self.ask("page", *NOW, self.made.path)[1]

    def test_of_the_first_cycle(self):
        self.made = Program(self.at("first"), cycle=1)
        self.made.night(1, 1, 1, 3, 6)
        self.stands()
        self.assertIn("; cycle 1 is open, 1 file with 5 bytes read in 1 night up to a%7Cb/v1?x, "
                      "how much is left is not known; ", self.status()[1])
        page = self.page()
        for text in ("<th scope=\"row\">nights so far</th><td>1</td>", "a|b", ">v1|x<",
                     "not known: no cycle has ended yet, so nothing says what one reads"):
            self.assertIn(text, page)

    def test_before_its_first_file(self):
        self.made = Program(self.at("first"), cycle=1)
        self.made.night(1, 1, 1, 3, 6)
        self.stands("start", b"left 1\nleft b\nafter a\n")
        self.assertIn(", 1 file with 5 bytes read in 1 night, how much is left is not known; ",
                      self.status()[1])

    def test_of_a_later_one(self):
        """What the last cycle read says how much is left."""
        self.made = Program(self.at("later"), cycle=2)
        self.cycle(1, ONE, runs=3, read_bytes=2000, read_files=7)
        self.made.night(2, 2, 1, 3, 6)
        self.assertIn("; cycle 2 is open, 0 of 100 done, ", self.status()[1])
        self.assertIn("<th scope=\"row\">how much is left</th><td>100 %, about 2 kB</td>",
                      self.page())

    def test_after_a_cycle_whose_cost_is_not_known(self):
        """Nor is it known when that ended, and all else is said."""
        self.made = Program(self.at("later"), cycle=2)
        self.made.put("reports/cycle-000001", ONE)
        self.made.night(2, 2, 1, 3, 6)
        self.assertIn("how much is left is not known; last whole cycle 1 on a day that is not "
                      "known; ", self.status()[1])
        self.assertNotIn("whole_cycle_timestamp_seconds", self.figures())
        self.assertIn("not known: the log does not say what the last cycle read", self.page())


class Closings(Told):
    def cycle(self, number, lines, *gone, **how):
        self.made.begin(number, number)
        super().cycle(number, lines, *gone, **how)

    def test_what_was_read(self):
        self.cycle(1, ONE, **MADE, **NOTHING)
        self.check(self.said(1), Runs="3", Files_read="7", Bytes_read="2000",
                   Oldest_verification=night_of(1))
        self.cycle(2, TWO, runs=0, read_bytes=0, read_files=0)
        self.check(self.said(2), Runs="1", Files_read="not known", Bytes_read="not known")

    def test_the_cost_of_the_last_cycle(self):
        """It is known from the row of its closing alone."""
        self.cycle(1, ONE, **MADE, **NOTHING)
        self.made.rows = [it for it in self.made.rows if it["row"] == "closing"]
        self.made.begin(2, 2)
        self.made.slice(2, 2, 1, 3, 1003)
        self.made.log_night(2)
        os.remove(self.made.path + "/checkpoint")
        self.assertIn("; cycle 2 is open, 49 of 100 done, ", self.status()[1])

    def test_the_program_of_a_night_that_was_killed(self):
        self.made.begin(1, 1, program="b" * 64)
        self.made.begin(2, 1, "start")
        self.made.slice(2, 1, 1, 7, 18, stands="ended")
        self.made.close(2, 1, ONE, **MADE, **NOTHING)
        self.made.log_night(2)
        said = self.said(1)
        self.check(said, Nights="2", Nights_cut="1", First_night=night_of(1),
                   Oldest_verification=night_of(2))
        self.assertEqual(said["Programs of its runs, SHA-256"], "b" * 64 + " " + "a" * 64)

    def test_what_is_new(self):
        """It is what the log says, without what is known."""
        self.cycle(1, ONE, **NOTHING)
        self.cycle(2, TWO, **{**FOUND, "new": 0, "known": 1})
        self.check(self.said(2), New_findings="0", New_findings_that_are_known="1",
                   Former_findings="1")
        self.cycle(3, ONE, **FOUND)
        self.check(self.said(3), New_findings="1", New_findings_that_are_known="0")
        with open(self.path_of(3)) as file:
            text = file.read()
        os.remove(self.path_of(3) + ".json")
        self.made.put("reports/statement-000003",
                      text.replace("New findings: 1", "New findings: 0").encode())
        given, out, _ = self.ask("verify", self.path_of(3))
        self.assertEqual((given, "New findings: the statement says 0, and it is 1" in out),
                         (1, True), out)

    def test_a_row_of_before(self):
        self.cycle(1, ONE)
        self.cycle(2, TWO)
        self.check(self.said(2), New_findings="1", New_findings_that_are_known="not known",
                   Files_read="not known", Also_compared_with_cycle=None)

    def test_what_was_left_out_is_compared_with_the_last_whole_report(self):
        before = ONE.replace(b"E072\tq\t-\n", b"E072\tr\t-\n")
        self.cycle(1, before, **NOTHING)
        self.made.log(row="left", time=at(night_of(2)), night=at(night_of(2)), cycle=2, place="q",
                      why="")
        self.cycle(2, ONE.split(b"E072")[0], whole=False, left=1, compared=1, **NOTHING)
        self.cycle(3, ONE, **{**FOUND, "compared_whole": 1})
        for cycle in (1, 2):
            self.said(cycle)
        said = self.said(3)
        self.check(said, Compared_with_cycle="2", Also_compared_with_cycle="1", New_findings="1")
        os.rename(self.made.path + "/reports/cycle-000001", self.at("away"))
        given, out, _ = self.ask("verify", self.path_of(3))
        self.assertEqual((given, "without cycle-000001: Report also compared with, SHA-256; New "
                          "findings" in out), (4, True), out)

    def test_a_whole_report_that_was_changed(self):
        self.cycle(1, ONE, **NOTHING)
        self.made.keep_checkpoint(1, ONE)
        self.made.log(row="left", time=at(night_of(2)), night=at(night_of(2)), cycle=2, place="q",
                      why="")
        self.cycle(2, ONE.split(b"E072")[0], whole=False, left=1, compared=1, **NOTHING)
        self.said(2)
        self.made.put("reports/cycle-000001", ONE + TWO)
        self.cycle(3, ONE, **{**FOUND, "compared_whole": 1})
        self.assertEqual(self.ask("statement", self.made.path, 3), (0, "", ""))
        given, out, _ = self.ask("verify", self.path_of(3))
        self.assertEqual((given, "without cycle-000001: New findings" in out), (4, True), out)

    def test_of_parts(self):
        parts = [Program(self.at("joined/part-%06d" % number), cycle=3) for number in (1, 2)]
        os.mkdir(self.at("joined/reports"))
        for cycle in (1, 2):
            for part, known in zip(parts, (0, 1)):
                part.begin(cycle, cycle)
                part.slice(cycle, cycle, 1, 7, 18, stands="ended")
                part.close(cycle, cycle, ONE, **MADE, new=0, known=known)
                part.log_night(cycle)
            self.put(TWO if cycle == 2 else ONE, "joined/reports/cycle-%06d" % cycle)
            self.put(b"", "joined/reports/gone-%06d" % cycle)
        self.made.path = self.at("joined")
        self.check(self.said(2), Runs="6", Files_read="14", Bytes_read="4000", New_findings="0",
                   New_findings_that_are_known="1", First_night=night_of(2))

    def test_many(self):
        """The joined numbers, with few findings in memory."""
        with mock.patch("ocfl_scrub_reports.questions.HELD", 1):
            self.test_what_was_left_out_is_compared_with_the_last_whole_report()
