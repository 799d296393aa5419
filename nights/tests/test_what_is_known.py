"""Tests what `nights/ocfl_scrub_reports` says where nothing was compared, where a report was
changed, and where a clock was wrong: that it is not known, and why."""
import hashlib
import json
import os
import random
import re
import subprocess
import sys
import time
from unittest import mock

from gate.repository import TOP

sys.path.insert(0, os.path.join(TOP, "nights"))

from nights.tests.test_night_states import GONE, NOW, ONE, TWO, Asked, Program, at, night_of
from nights.tests.test_reports import Folder
from ocfl_scrub_reports import report, state

WHY = "the report of cycle 1 is gone"


class Told(Asked):
    """A folder, and what is said of it."""

    def setUp(self):
        super().setUp()
        self.made = Program(self.at("state"))

    def cycle(self, number, lines, *gone, **how):
        """A night that closes a cycle."""
        self.made.slice(number, number, 1, 7, 18, stands="ended")
        self.made.close(number, number, lines, b"".join(gone), **how)
        self.made.log_night(number)

    def said(self, cycle):
        """The lines of a statement, made now, which holds."""
        self.assertEqual(self.ask("statement", self.made.path, cycle), (0, "", ""))
        file = self.path_of(cycle)
        self.assertEqual(self.ask("verify", file)[0], 0)
        with open(file) as text:
            return dict(row.split(": ", 1) for row in text.read().splitlines()[2:])

    def path_of(self, cycle):
        return self.made.path + "/reports/statement-%06d" % cycle

    def check(self, said, **lines):
        """What these lines of a statement say, by their names with `_` for a space."""
        self.assertEqual({name: said.get(name.replace("_", " ")) for name in lines}, lines)

    def status(self, *words):
        given, out, _ = self.ask("status", *NOW, "--age", "-,-", *words, self.made.path)
        return given, out

    def figures(self):
        """The figures for Prometheus by their names."""
        self.status("--prometheus", self.at("figures"))
        with open(self.at("figures")) as text:
            return dict(re.findall(r"(?m)^ocfl_scrub_(\w+)\{.*\} (.*)$", text.read()))


class NotCompared(Told):
    """Where nothing was compared, nobody says that nothing is gone."""

    def test_a_report_with_a_reason(self):
        self.cycle(1, ONE)
        self.cycle(2, TWO, compared=0, why=WHY)
        said = self.said(2)
        self.check(said, Compared_with_cycle="nothing", Not_compared=WHY,
                   Objects_gone="not known", Objects_no_longer_declared="not known",
                   Files_gone="not known", New_findings="not known",
                   Objects_gone_and_not_back="not known", Files_gone_and_not_back="not known")
        given, out = self.status()
        self.assertEqual((given, "; what is gone is not known: %s;" % WHY in out,
                          " gone=U;" in out), (1, True, True), out)
        self.assertIn("<td>not known: %s</td>" % WHY, self.ask("page", *NOW, self.made.path)[1])
        events = self.ask("premis", self.made.path, 2)[1]
        self.assertIn("; what is gone is not known: %s<" % WHY, events)
        figures = self.figures()
        self.assertEqual((figures.get("gone_known"), figures.get("gone_objects"),
                          figures.get("gone_files")), ("0", None, None))

    def test_a_report_that_is_not_whole(self):
        """A row says with which cycle it was compared also where a place was left out."""
        self.cycle(1, ONE)
        self.cycle(2, TWO, GONE, whole=False, left=1, compared=1)
        self.check(self.said(2), Whole="no", Compared_with_cycle="1", Objects_gone="1")
        self.cycle(3, TWO, whole=False, left=1, compared=0, why="a reason")
        self.check(self.said(3), Compared_with_cycle="nothing", Not_compared="a reason",
                   Objects_gone="not known", Objects_gone_and_not_back="at least 1")

    def test_a_row_of_before(self):
        self.cycle(1, ONE)
        self.cycle(2, TWO, compared=None)
        self.made.put("reports/gone-000002", b"")
        self.check(self.said(2), Compared_with_cycle="not known", Objects_gone="not known",
                   Not_compared=None, Expected_objects_missing="not known",
                   Objects_gone_and_not_back="not known")
        self.assertIn("what is gone is not known: the log does not say what cycle 2 was compared "
                      "with;", self.status()[1])

    def test_a_later_cycle_that_was_compared_with_an_earlier_one(self):
        self.cycle(1, ONE)
        self.cycle(2, TWO, whole=False, left=1, compared=0, why="a reason")
        self.cycle(3, TWO, GONE, compared=1)
        self.check(self.said(3), Objects_gone_and_not_back="1")
        self.assertNotIn("not known", self.status()[1])
        self.assertEqual(self.figures()["gone_known"], "1")

    def test_the_first_cycle(self):
        self.cycle(1, ONE)
        self.check(self.said(1), Not_compared="there is no earlier cycle",
                   Objects_gone_and_not_back="not known")
        self.assertIn("; what is gone is not known yet | ", self.status()[1])

    def test_a_closing_that_is_told_twice(self):
        """The last row says what is known, and the first one when the cycle was closed."""
        self.cycle(1, ONE)
        self.cycle(2, TWO, compared=0, why=WHY)
        self.made.close(3, 2, TWO, GONE, compared=1)
        self.made.log_night(3)
        self.check(self.said(2), Compared_with_cycle="1", Objects_gone="1",
                   Closed="2026-03-02T22:30:00Z")
        self.assertIn("last whole cycle 2 on 2026-03-02", self.status()[1])
        self.assertEqual(self.ask("page", *NOW, self.made.path)[1].count(
            '<tr><th scope="row">2</th>'), 1)

    def test_no_statement_before_the_comparison(self):
        """A night that was killed did not compare: the next one does."""
        self.cycle(1, ONE)
        self.made.slice(2, 2, 1, 7, 18, stands="ended")
        self.made.put("reports/cycle-000002", TWO)
        self.made.keep_checkpoint(2, TWO)
        given, _, err = self.ask("finish", self.made.path)
        self.assertEqual((given, "the next night compares them" in err), (3, True), err)
        self.assertFalse(os.path.exists(self.path_of(2)))
        self.made.close(3, 2, TWO, GONE)
        self.assertEqual(self.ask("finish", self.made.path), (0, "", ""))
        self.check(self.said(2), Objects_gone="1")

    def test_a_comparison_that_no_night_makes_any_more(self):
        self.cycle(1, ONE)
        self.cycle(2, TWO, compared=0, why=WHY)
        self.made.keep_checkpoint(2, TWO)
        self.assertIn(WHY, self.ask("statement", self.made.path, 2)[2])
        self.cycle(3, TWO)
        self.check(self.said(2), Not_compared=WHY)


class WithoutRows(Told):
    def test_a_closed_report_without_a_row(self):
        """The log lost its first rows: what they said is not known."""
        for cycle in (1, 2):
            self.made.put("reports/cycle-%06d" % cycle, ONE)
        self.cycle(3, TWO)
        self.assertEqual(self.ask("finish", self.made.path), (0, "", ""))
        for cycle in (1, 2):
            self.check(self.said(cycle), Closed="not known", First_night="not known",
                       Nights="not known", Runs="not known", Objects_gone="not known",
                       Report="cycle-%06d" % cycle, Findings="2")
        os.remove(self.made.path + "/log")
        os.remove(self.path_of(2))
        self.check(self.said(2), Closed="not known")

    def test_a_cycle_of_which_nothing_is_there(self):
        self.cycle(1, ONE)
        given, _, err = self.ask("statement", self.made.path, 2)
        self.assertEqual((given, "that cycle 2 was closed" in err), (3, True))


class Changed(Told):
    """A report that is not the one that was closed."""

    def setUp(self):
        super().setUp()
        self.cycle(1, ONE)
        self.made.keep_checkpoint(1, ONE)
        self.made.put("reports/gone-000001", b"")

    def change(self):
        self.made.put("reports/cycle-000001", ONE.replace(b"E092\to/a\tsha512 x y", b"ok\to/a\t3"))

    def test_no_statement(self):
        self.change()
        for words in (["statement", self.made.path, 1], ["finish", self.made.path]):
            given, out, err = self.ask(*words)
            self.assertEqual((given, out, "was changed since it was closed" in err), (3, "", True))
        self.assertFalse(os.path.exists(self.path_of(1)))
        self.made.put("reports/cycle-000001", ONE)
        self.check(self.said(1), Findings="2")

    def test_no_event(self):
        self.said(1)
        for each in ("cycle", "finding", "object"):
            self.change()
            given, out, err = self.ask("premis", "--each", each, self.made.path, 1)
            self.assertEqual((given, out, "was changed since" in err), (3, "", True), each)
            self.made.put("reports/cycle-000001", ONE)
            self.assertEqual(self.ask("premis", "--each", each, self.made.path, 1)[0], 0)

    def test_a_checkpoint_that_is_damaged(self):
        with open(self.made.path + "/reports/checkpoint-000001", "ab") as file:
            file.write(b"damaged\n")
        given, _, err = self.ask("statement", self.made.path, 1)
        self.assertEqual((given, "checkpoint-000001 is refused by the program" in err), (3, True))

    def test_no_comparison(self):
        """The report that was compared with was changed since."""
        self.cycle(2, TWO)
        self.change()
        said = self.said(2)
        self.check(said, New_findings="not known", Objects_gone="0")
        self.assertEqual(said["Report compared with, SHA-256"], "changed since it was closed")

    def test_one_that_is_not_whole(self):
        """Lines were lost, though places were left out as well."""
        self.cycle(2, TWO, whole=False, left=1, compared=1)
        self.check(self.said(2), Lost_lines="none")
        os.remove(self.path_of(2))
        self.made.keep_checkpoint(2, ONE)
        self.check(self.said(2), Lost_lines="not known", Objects_without_findings="not known")

    def test_of_parts(self):
        """The joined report has the digests with which its parts were closed."""
        half = len(b"".join(ONE.splitlines(True)[:4]))
        parts = [Program(self.at("joined/part-%06d" % number), cycle=2) for number in (1, 2)]
        for part, lines in zip(parts, (ONE[:half], ONE[half:])):
            part.slice(1, 1, 1, 7, 18, stands="ended")
            part.close(1, 1, lines)
            part.keep_checkpoint(1, lines)
            part.log_night(1)
        os.mkdir(self.at("joined/reports"))
        for lines, expected in [(ONE[:-9], 3), (ONE + b"ok\tr\t-\n", 3), (ONE, 0)]:
            self.put(lines, "joined/reports/cycle-000001")
            self.assertEqual(self.ask("statement", self.at("joined"), 1)[0], expected)


class Digests(Folder):
    def test_the_mark_of_a_report(self):
        """As docs/RULES.md says it: a chain of whole pieces, and what follows them."""
        chance = random.Random(7)
        with mock.patch.object(report, "PIECE", 10):
            for _ in range(200):
                data = bytes(chance.choices(b"ab\n", k=chance.randint(0, 45)))
                chain = "0" * 64
                for start in range(0, len(data) // 10 * 10, 10):
                    chain = hashlib.sha256(chain.encode() + b"\n"
                                           + data[start:start + 10]).hexdigest()
                rest = hashlib.sha256(data[len(data) // 10 * 10:]).hexdigest()
                marking, cut = report.Marking(), chance.randint(0, len(data))
                for part in (data[:cut], data[cut:]):
                    marking.take(part)
                self.assertEqual(marking.mark(), (len(data), data.count(b"\n"), chain, rest))

    def test_the_marks_of_parts(self):
        chance = random.Random(8)
        for _ in range(300):
            parts = [bytes(chance.choices(b"ab\n", k=chance.randint(0, 5))) for _ in range(4)]
            marks = []
            for part in parts:
                marking = report.Marking()
                marking.take(part)
                marks.append(marking.mark())
            data = b"".join(parts)
            changed = bytearray(data) + bytearray(b"x") * chance.randint(0, 1)
            if changed and chance.randint(0, 1):
                changed[chance.randrange(len(changed))] ^= 1
            comparing = report.Comparing(marks)
            cut = chance.randint(0, len(changed))
            for part in (changed[:cut], changed[cut:]):
                comparing.take(bytes(part))
            self.assertEqual(comparing.are_same(), changed == data)


class Clocks(Told):
    def test_a_night_in_the_future(self):
        self.cycle(1, ONE)
        given, out, _ = self.ask("status", "--now", "2026-03-01T20:00:00Z", self.made.path)
        self.assertEqual((given, out.count("lies in the future, at 2026-03-01T22:")), (2, 2), out)
        for now in ("2026-03-01T21:30:00Z", "2026-03-02T06:00:00Z"):
            out = self.ask("status", "--now", now, self.made.path)[1]
            self.assertNotIn("future", out)

    def joined(self, *days):
        """Two parts, which made nights on these days, the first part alone on a negative one."""
        os.makedirs(self.at("joined/reports"))
        parts = [Program(self.at("joined/part-%06d" % number), cycle=1) for number in (1, 2)]
        for number, day in enumerate(days, 1):
            for part in parts[:1 if day < 0 else 2]:
                time = at("2026-01-01T22:00:00Z") + abs(day) * 86400
                part.log(row="slice", time=time, night=time, cycle=1, run=number, status=0, cost=9,
                         spent=9 * number, files=1, lines=3, bytes=100, seconds=60, stands="start")
                part.log(row="night", time=time + 60, night=time, status=0, runs=1, cost=9,
                         seconds=60, findings=0)
        return state.open_state(self.at("joined"))

    def test_a_part_after_a_night_in_the_future(self):
        """The rows of each part stay in their order, and other nights are others."""
        for days in [(1, 365, 2, 3), (1, -365, 2, 3)]:
            folder = self.joined(*days)
            nights = list(dict.fromkeys(it.night for it in folder.entries() if it.is_run()))
            self.assertEqual(nights[-2:], ["2026-01-03T22:00:00Z", "2026-01-04T22:00:00Z"])
            given, out, _ = self.ask("status", "--now", "2026-01-20T22:00:00Z", folder.path)
            self.assertEqual((given, "last night began 16 days ago" in out), (2, True), out)
            subprocess.run(["rm", "-r", folder.path], check=True)

    def test_a_part_whose_last_night_lies_in_the_future(self):
        folder = self.joined(1, -365)
        given, out, _ = self.ask("status", "--now", "2026-01-02T23:00:00Z", folder.path)
        self.assertEqual((given, "lies in the future" in out), (2, True), out)

    def test_orders(self):
        base = 1_700_000_000
        for times, expected in [([1, 2, 3], [1, 2, 3]), ([1, 9, 2, 3], [1, 2, 2, 3]),
                                ([9, 9, 2, 3], [2, 2, 2, 3]), ([], [])]:
            self.assertEqual(list(state.in_order([base + it for it in times])),
                             [base + it for it in expected])
        self.assertEqual(list(state.in_order([base, 5, base + 1])), [base, base, base + 1])


class Lost(Told):
    """What is gone, and what is back."""

    def test_an_object_is_graver_than_a_file(self):
        self.cycle(1, ONE)
        self.cycle(2, TWO, b"file\to/z\n")
        quiet = ["--findings", "-,-", "--damaged", "-,-"]
        self.assertEqual(self.status(*quiet)[0], 1)
        self.made.put("reports/gone-000002", b"object\tp\n")
        self.assertEqual(self.status(*quiet)[0], 2)
        self.assertEqual(self.status(*quiet, "--lost", "1,2")[0], 1)
        self.made.put("reports/gone-000002", b"undeclared\tp\n")
        self.assertEqual(self.status(*quiet)[0], 2)
        self.made.put("reports/gone-000002", b"object\ta\nundeclared\tp\n")
        self.assertEqual(self.status(*quiet, "--lost", "1,3")[0], 1)
        self.assertIn(" lost=2;1;3;0", self.status(*quiet, "--lost", "1,3")[1])

    def test_a_list_that_is_not_there(self):
        """The log says that something is gone, and nobody knows what: also later, and in the list
        of what is not back."""
        self.cycle(1, ONE)
        self.cycle(2, TWO, b"object\tp\nobject\ts\n")
        os.remove(self.made.path + "/reports/gone-000002")
        self.made.keep_checkpoint(1, ONE)
        said = self.said(2)
        self.check(said, Objects_gone="not known", Objects_gone_and_not_back="not known",
                   Files_gone_and_not_back="not known")
        self.cycle(3, TWO, b"object\tt\n")
        self.check(self.said(3), Objects_gone="1", Objects_gone_and_not_back="at least 1")
        self.made.put("reports/gone-000002", b"object\tp\nobject\ts\n")
        os.remove(self.path_of(3))
        self.check(self.said(3), Objects_gone_and_not_back="3", Files_gone_and_not_back="0")

    def test_a_file_with_two_findings(self):
        """It is one damaged file."""
        self.cycle(1, ONE)
        both = b"E092\to/a\tsha512 x y\nE093\to/a\tmd5 x y\n"
        self.cycle(2, ONE.replace(b"E092\to/a\tsha512 x y\n", both) + b"S08\tq/a\t-\n", new=2)
        self.assertIn("4 open findings, 2 damaged or unreadable files (E072 1, E092 1, E093 1, S08 "
                      "1)", self.status()[1])
        self.assertIn(" damaged=2;", self.status()[1])

    def test_words(self):
        self.cycle(1, ONE)
        for gone, expected in [(b"object\tp\n", "1 object is gone;"),
                               (b"object\tp\nobject\ts\nfile\to/z\n",
                                "2 objects and 1 file are gone;"),
                               (b"file\to/z\nfile\to/y\n", "2 files are gone;"),
                               (b"undeclared\tu\n", "1 object is no longer declared;")]:
            self.cycle(2, TWO, gone)
            self.assertIn(expected, self.status()[1])

    def test_an_object_that_is_no_longer_declared(self):
        self.cycle(1, ONE)
        self.cycle(2, TWO, b"object\ts\nundeclared\tp\n")
        said = self.said(2)
        self.check(said, Objects_gone="1", Objects_no_longer_declared="1")
        self.assertEqual(said["Objects no longer declared, and not back"], "1")
        self.assertEqual(self.status("--list")[1].splitlines()[-2:], ["object\ts", "undeclared\tp"])
        self.assertIn("<bdi>p</bdi>", self.ask("page", *NOW, self.made.path)[1])
        events = self.ask("premis", "--each", "object", self.made.path, 2)[1]
        self.assertIn("no longer declared, and not looked at: p<", events)
        self.assertIn("Objects no longer declared: 1<", self.ask("premis", self.made.path, 2)[1])
        self.assertEqual(self.figures()["undeclared_objects"], "1")

    def test_an_empty_folder_is_no_object(self):
        """The line of a place is none of an object there."""
        self.cycle(1, ONE)
        self.cycle(2, TWO + b"E073\ts\t-\n", b"object\ts\n")
        self.cycle(3, TWO + b"E073\ts\t-\n")
        self.assertIn("1 object is gone", self.status()[1])
        self.cycle(4, TWO + b"E063\ts\t-\n")
        self.assertNotIn("gone;", self.status()[1])

    def test_files_of_a_lost_object(self):
        """A list of before has a row for each, though nobody looked at them."""
        self.cycle(1, ONE)
        self.cycle(2, TWO, b"object\tp\nfile\tp/a\nfile\tp/b/c\nfile\tp-1\n")
        self.assertIn("1 object and 1 file are gone", self.status()[1])
        self.check(self.said(2), Objects_gone="1", Files_gone="1")
        events = self.ask("premis", "--each", "object", self.made.path, 2)[1]
        self.assertEqual(re.findall("Note>([a-z ]+: p.*)<", events),
                         ["gone: p", "no longer looked at: p/a", "no longer looked at: p/b/c",
                          "gone: p-1"])

    def test_expected_objects(self):
        """They stay open until a cycle searches for them, or one has a line."""
        listed = {"listed": 160, "list": "e" * 64}
        self.cycle(1, ONE, b"expected\tx\nexpected\ty\n", compared=0, expected=2, **listed)
        said = self.said(1)
        self.check(said, Expected_objects_listed="160", Expected_objects_missing="2")
        self.assertEqual(said["List of expected objects, SHA-256"], "e" * 64)
        self.cycle(2, ONE, whole=False, left=1, compared=1)
        self.check(self.said(2), Expected_objects_missing="not asked")
        self.assertEqual(self.status("--list")[1].splitlines()[-2:], ["expected\tx", "expected\ty"])
        self.assertIn("<bdi>y</bdi>", self.ask("page", *NOW, self.made.path)[1])
        self.assertEqual(self.figures()["expected_objects_missing"], "2")
        known = self.put(b"expected\tx\n", "known")
        self.assertIn("1 expected object is missing", self.status("--known", known)[1])
        self.made.put("report", b"ok\t.\t-\nok\tx\t-\n")
        self.assertIn("1 expected object is missing", self.status()[1])
        self.cycle(3, ONE, compared=1, **listed)
        self.check(self.said(3), Expected_objects_listed="160", Expected_objects_missing="0")
        self.assertNotIn("missing;", self.status()[1])
        self.assertEqual(self.figures()["expected_objects_missing"], "0")

    def test_no_expected_objects(self):
        self.cycle(1, ONE)
        self.assertNotIn("expected_objects_missing", self.figures())
        self.check(self.said(1), Expected_objects_listed="not asked")


class Counted(Told):
    """What the row of a closing alone counts: files no longer looked at, and objects that are
    back."""

    NAMES = ("Files no longer looked at", "Objects back")

    def counts(self, said):
        return [said.get(name) for name in self.NAMES]

    def page_row(self, cycle):
        """The cells of a closed cycle on the page: what was gone, and what was back."""
        table = self.ask("page", *NOW, self.made.path)[1].partition("Closed cycles")[2]
        cells = re.search(r'<th scope="row">%d</th>(<td.*)</tr>' % cycle, table)[1]
        return re.findall("<td[^>]*>(.*?)</td>", cells)[4:6]

    def of_figures(self):
        figures = self.figures()
        return [figures.get("closed_cycle_" + name) for name in ("unlooked_files", "objects_back")]

    def test_they_are_counted(self):
        self.cycle(1, ONE, unlooked=0, back=0)
        self.cycle(2, TWO, GONE, unlooked=3, back=1)
        self.assertEqual(self.counts(self.said(2)), ["3", "1"])
        with open(self.path_of(2) + ".json") as file:
            same = json.load(file)
        self.assertEqual((same["files_no_longer_looked_at"], same["objects_back"]), (3, 1))
        self.assertIn("Files no longer looked at; Objects back;",
                      self.ask("verify", self.path_of(2))[1])
        self.assertEqual(self.page_row(2), ["1 object, 1 file, 3 files no longer looked at",
                                            "1 object"])
        self.assertEqual(self.of_figures(), ["3", "1"])
        self.cycle(3, TWO, unlooked=0, back=0)
        self.assertEqual(self.counts(self.said(3)), ["0", "0"])
        self.assertEqual(self.page_row(3), ["nothing", "nothing"])
        self.assertEqual(self.of_figures(), ["0", "0"])

    def test_nothing_was_compared(self):
        self.cycle(1, ONE, unlooked=0, back=0)
        self.assertEqual(self.counts(self.said(1)), ["not known"] * 2)
        self.assertEqual(self.page_row(1)[1], "not known")
        self.assertEqual(self.of_figures(), [None, None])
        self.cycle(2, TWO, compared=0, why=WHY, unlooked=0, back=0)
        self.assertEqual(self.counts(self.said(2)), ["not known"] * 2)

    def test_a_row_that_does_not_say_it(self):
        """Those of earlier versions."""
        self.cycle(1, ONE)
        self.cycle(2, TWO, GONE)
        said = self.said(2)
        self.assertEqual(self.counts(said), [None, None])
        self.check(said, Objects_gone="1")
        self.assertEqual(self.page_row(2), ["1 object, 1 file", "not known"])
        self.assertEqual(self.of_figures(), [None, None])
        self.cycle(3, TWO, unlooked=None, back=-1)
        self.assertEqual(self.counts(self.said(3)), [None, None])

    def test_another_number(self):
        """The statement says another one than its JSON, or lacks it."""
        self.cycle(1, ONE)
        self.cycle(2, TWO, GONE, unlooked=3, back=1)
        self.said(2)
        with open(self.path_of(2)) as file:
            text = file.read()
        for old, new in [("Objects back: 1", "Objects back: 0"), ("Objects back: 1\n", ""),
                         ("Objects back: 1\n", "Objects back: 1\nObjects back: 1\n")]:
            self.made.put("reports/statement-000002", text.replace(old, new).encode())
            self.assertEqual(self.ask("verify", self.path_of(2))[0], 1, new)

    def test_forms_of_before_have_no_such_line(self):
        self.cycle(1, ONE)
        self.cycle(2, TWO, GONE, unlooked=3, back=1)
        self.said(2)
        with open(self.path_of(2)) as file:
            text = file.read().replace("statement 4", "statement 2", 1)
        self.made.put("reports/statement-000002", text.encode())
        given, out, _ = self.ask("verify", self.path_of(2))
        self.assertEqual((given, "no statement has the line: Objects back: 1" in out), (1, True))

    def joined(self, *rows):
        """The statement of a second cycle whose parts have these members in their rows."""
        parts = [Program(self.at("joined/part-%06d" % number), cycle=3) for number in (1, 2)]
        os.mkdir(self.at("joined/reports"))
        for cycle in (1, 2):
            for part, more in zip(parts, rows):
                part.slice(cycle, cycle, 1, 7, 18, stands="ended")
                part.close(cycle, cycle, ONE, **more)
                part.log_night(cycle)
            self.put(ONE, "joined/reports/cycle-%06d" % cycle)
            self.put(b"", "joined/reports/gone-%06d" % cycle)
        self.made.path = self.at("joined")
        return self.counts(self.said(2))

    def test_of_parts(self):
        self.assertEqual(self.joined({"unlooked": 2, "back": 1}, {"unlooked": 3, "back": 0}),
                         ["5", "1"])

    def test_of_parts_of_which_one_does_not_say_it(self):
        self.assertEqual(self.joined({"unlooked": 2, "back": 1}, {"unlooked": 3}), ["5", None])


class New(Told):
    """New, changed and former findings, by code and place."""

    def test_a_finding_that_changed(self):
        self.cycle(1, ONE)
        self.cycle(2, ONE.replace(b"x y", b"missing"))
        self.check(self.said(2), New_findings="0", Changed_findings="1", Former_findings="0")

    def test_a_place_that_was_left_out(self):
        self.cycle(1, ONE)
        self.cycle(2, ONE.split(b"ok\to\t-\n")[0] + b"ok\tp\t-\nE072\tq\t-\n", whole=False, left=1,
                   compared=1)
        said = self.said(2)
        self.check(said, Former_findings="0", Findings_no_longer_looked_at="1")
        out = re.sub("<[^>]*>", " ", self.ask("page", *NOW, self.made.path)[1])
        self.assertRegex(out, r"not looked at again\s+0\s+0\s+0\s+1\s")

    def test_two_details_of_one_place(self):
        one = b"ok\t.\t-\nok\to\t-\nE093\to/a\tmd5 x y\nE093\to/a\tsha1 x y\n"
        self.cycle(1, one)
        self.cycle(2, one[:one.index(b"E093\to/a\tsha1")])
        self.check(self.said(2), New_findings="0", Changed_findings="1", Former_findings="0")

    def test_what_the_earlier_report_left_out_is_not_new(self):
        self.made.log(row="left", time=at(night_of(1)), night=at(night_of(1)), cycle=1, place="q",
                      stands="start")
        self.cycle(1, ONE.replace(b"E072\tq\t-\n", b""), whole=False, left=1)
        self.cycle(2, ONE, compared=1)
        self.said(1)
        self.check(self.said(2), New_findings="0")
        os.remove(self.path_of(1))
        given, out, _ = self.ask("verify", self.path_of(2))
        self.assertEqual((given, "without statement-000001: New findings" in out), (4, True), out)

    def test_many(self):
        """The numbers of two reports, with few findings in memory."""
        chance = random.Random(9)
        with mock.patch("ocfl_scrub_reports.questions.HELD", 3):
            for _ in range(60):
                both = [sorted({(b"a%d" % chance.randrange(12), code) for code in (b"E023", b"E092")
                                for _ in range(8)}) for _ in range(2)]
                lines = [[b"%s\t%s\t%d\n" % (code, place, chance.randrange(2))
                          for place, code in side] for side in both]
                self.made.rows.clear()
                for cycle, made in enumerate(lines, 1):
                    self.cycle(cycle, b"".join(made))
                said = self.said(2)
                before, now = ({tuple(it.split(b"\t")[:2]): it for it in side} for side in lines)
                places = {it[1] for it in now}
                gone = [it for it in before if it not in now]
                self.assertEqual([int(said[name + " findings"]) for name in (
                    "New", "Changed", "Former")] + [int(said["Findings no longer looked at"])], [
                        sum(it not in before for it in now),
                        sum(it in before and before[it] != now[it] for it in now),
                        sum(it[1] in places for it in gone),
                        sum(it[1] not in places for it in gone)])
                os.remove(self.path_of(2))


class Verified(Told):
    def test_what_only_the_json_says(self):
        self.cycle(1, ONE)
        self.said(1)
        out = self.ask("verify", self.path_of(1))[1]
        self.assertRegex(out, "(?m)^only statement-000001.json says the same: Storage root; .*Host;"
                              " .*Not said$")
        self.assertNotIn("; Findings;", out.splitlines()[-1])

    def test_a_number_without_a_comparison(self):
        """Somebody wrote it, and the list of what is gone says otherwise."""
        self.cycle(1, ONE)
        self.cycle(2, TWO, GONE)
        self.said(2)
        with open(self.path_of(2)) as file:
            text = file.read()
        os.remove(self.path_of(2) + ".json")
        for old, new in [("Objects gone: 1", "Objects gone: 0"),
                         ("Objects gone: 1", "Objects gone: not known"),
                         ("New findings: 1", "New findings: 0"),
                         ("Former findings: 1", "Former findings: 0")]:
            self.made.put("reports/statement-000002", text.replace(old, new, 1).encode())
            self.assertEqual(self.ask("verify", self.path_of(2))[0], 1, new)


class Reasons(Told):
    def test_a_place_and_why_it_was_left_out(self):
        self.made.slice(1, 1, 1, 3, 9)
        for place, why in (("a%0A", "Permission denied"), ("b", "")):
            self.made.log(row="left", time=at(night_of(1)), night=at(night_of(1)), cycle=1,
                          place=place, stands="start", why=why)
        self.cycle(1, ONE, whole=False, left=2)
        said = self.said(1)
        self.check(said, Place_left_out_1="a%0A", Why_left_out_1="Permission denied",
                   Place_left_out_2="b", Why_left_out_2=None)
        with open(self.path_of(1) + ".json") as file:
            self.assertEqual(json.load(file)["reasons_of_places_left_out"], ["Permission denied"])
        self.assertIn(": left out a%0A (Permission denied), b;", self.status()[1])

    def test_a_place_that_a_killed_night_left_out(self):
        """The row of the closing counts fewer places than the log names."""
        self.made.log(row="left", time=at(night_of(1)), night=at(night_of(1)), cycle=1, place="m",
                      stands="start")
        self.cycle(1, ONE, whole=False, left=0)
        self.check(self.said(1), Places_left_out="1", Place_left_out_1="m")

    def test_what_a_refused_night_said(self):
        self.cycle(1, ONE)
        self.made.refuse(2)
        self.assertIn("the last night ended with status 3: is its file system mounted?;",
                      self.status()[1])
        self.made.night(3, 2, 1, 3, 9, 3)
        self.assertIn("the last night ended with status 3;", self.status()[1])

    def test_the_first_night_of_a_joined_cycle(self):
        """Of nights that count as one it is the one that read for this cycle."""
        parts = [Program(self.at("joined/part-%06d" % number), cycle=2) for number in (1, 2)]
        os.mkdir(self.at("joined/reports"))
        for cycle in (1, 2):
            for part in parts:
                time = at("2026-03-01T06:00:00Z") + cycle * 3600
                part.log(row="slice", time=time + 2, night=time, cycle=cycle, run=1, status=0,
                         cost=9, spent=9, files=1, lines=7, bytes=9, seconds=1, stands="ended")
                part.put("reports/cycle-%06d" % cycle, ONE)
                part.log(row="closing", time=time + 9, night=time, cycle=cycle, whole=True, left=0,
                         report="cycle-%06d" % cycle, compared=cycle - 1, why="", gone=0)
                part.log(row="night", time=time + 10, night=time, status=0, runs=1, cost=9)
            self.put(ONE, "joined/reports/cycle-%06d" % cycle)
            self.put(b"", "joined/reports/gone-%06d" % cycle)
        self.made.path = self.at("joined")
        self.check(self.said(2), First_night="2026-03-01T08:00:00Z", Nights="1",
                   Oldest_verification="2026-03-01T07:00:09Z")


class Rechecked(Told):
    """What is looked at again, by a program that shows the lines of a file."""

    def setUp(self):
        super().setUp()
        self.cycle(1, ONE)
        self.cycle(2, ONE, b"object\tlost\nobject\tempty\nfile\to/z\nfile\to/y\n")
        os.remove(self.made.path + "/reports/gone-000002")
        self.put(b"#!/bin/sh\necho no item at $4 >&2\n"
                 b"grep \"\t$4\t\" %s\n[ $? != 2 ]\n" % self.at("now").encode(), "program")

    def recheck(self, lines):
        self.put(b"ok\t.\t-\n" + lines, "now")
        return self.ask("recheck", self.made.path)

    def test_what_has_no_line_is_not_repaired(self):
        self.assertEqual(self.recheck(b"ok\to/a\t3\n"), (
            3, "repaired\tE092\to/a\tsha512 x y\nno longer looked at\tE072\tq\t-\n", ""))
        self.assertEqual(self.recheck(b"ok\to/a\t3\nok\tq\t-\n")[0], 0)
        self.assertEqual(self.recheck(b"ok\to/a\t3\nE072\tq\t-\nE073\tq\t-\n"), (
            1, "repaired\tE092\to/a\tsha512 x y\nopen\tE072\tq\t-\nnew\tE073\tq\t-\n", ""))

    def test_by_code(self):
        """What is damaged otherwise, or cannot be read, is not repaired."""
        self.assertEqual(self.recheck(b"E092\to/a\tsha512 x z\nok\tq\t-\n"), (
            1, "open\tE092\to/a\tsha512 x z\nrepaired\tE072\tq\t-\n", ""))
        self.assertEqual(self.recheck(b"S08\to/a\t-\nok\tq\t-\n"), (
            3, "no longer looked at\tE092\to/a\tsha512 x y\nnew\tS08\to/a\t-\n"
            "repaired\tE072\tq\t-\n", ""))
        known = self.put(b"S08\to/a\n", "known")
        self.assertEqual(self.ask("recheck", "--known", known, self.made.path)[1].splitlines()[0],
                         "no longer looked at\tE092\to/a\tsha512 x y")

    def test_a_declaration_that_is_back(self):
        """A file that is in an object now is not outside of any."""
        self.cycle(3, b"E072\tp/o/v1/inventory.json\t-\nE072\tp/o/x\t-\nE072\tr/x\t-\n")
        given, out, _ = self.recheck(b"ok\tp/o\t-\nE001\tp/o/x\t-\nE063\tr\t-\n")
        self.assertEqual((given, out.splitlines()), (3, [
            "repaired\tE072\tp/o/v1/inventory.json\t-", "no longer looked at\tE072\tp/o/x\t-",
            "new\tE001\tp/o/x\t-", "no longer looked at\tE072\tr/x\t-"]))

    def test_with_inventories(self):
        """The program is asked to check what the nights of the folder do."""
        self.made = Program(self.at("with"), part="checks inventories\n")
        self.cycle(1, b"ok\to\t-\nE060\to/v1/inventory.json\tsha512 x y\n")
        self.put(b"#!/bin/sh\nshift; echo \"$@\" >> %s\nprintf 'ok\\t.\\t-\\n'\n"
                 % self.at("asked").encode(), "program")
        self.ask("recheck", self.made.path)
        with open(self.at("asked")) as asked:
            self.assertEqual(asked.read(), "--inventories -- /srv/ocfl .\n"
                             "--inventories -- /srv/ocfl o/v1/inventory.json\n")

    def test_without_the_root(self):
        self.put(b"E069\t.\t-\nok\to/a\t3\nok\tq\t-\n", "now")
        given, out, err = self.ask("recheck", self.made.path)
        self.assertEqual((given, out, "is it mounted? Nothing was looked at." in err),
                         (3, "", True))

    def test_what_is_gone(self):
        self.made.put("reports/gone-000002",
                      b"object\tlost\nobject\tempty\nfile\to/z\nfile\to/y\n")
        given, out, _ = self.recheck(b"ok\to/a\t3\nok\tq\t-\nok\tlost\t-\nE073\tempty\t-\n"
                                     b"ok\to/z\t3\n")
        self.assertEqual((given, sorted(out.splitlines())), (1, [
            "back\tfile\to/z", "back\tobject\tlost", "gone\tfile\to/y", "gone\tobject\tempty",
            "repaired\tE072\tq\t-", "repaired\tE092\to/a\tsha512 x y"]))


class Small(Told):
    """What breaks off, and how long it takes."""

    def test_a_thousand_cycles(self):
        """Each folder is listed once."""
        for cycle in range(1, 1001):
            self.made.put("reports/cycle-%06d" % cycle, ONE)
            self.made.put("reports/gone-%06d" % cycle, b"")
            self.made.rows.append({
                "row": "slice", "time": cycle * 90000, "night": cycle * 90000, "cycle": cycle,
                "run": 1, "status": 0, "lines": 7, "spent": 9, "stands": "ended"})
            self.made.rows.append({
                "row": "closing", "time": cycle * 90000 + 5, "night": cycle * 90000, "gone": 0,
                "cycle": cycle, "report": "reports/cycle-%06d" % cycle, "whole": True, "left": 0,
                "compared": cycle - 1, "why": "", "listed": 0, "list": ""})
            self.made.rows.append({"row": "night", "time": cycle * 90000 + 9, "status": 0,
                                   "night": cycle * 90000, "runs": 1, "cost": 9})
        self.made.save()
        began, real = time.process_time(), os.listdir
        with mock.patch("os.listdir", side_effect=real) as listed:
            out = self.status("--age", "-,-")[1]
        self.assertIn("last whole cycle 1000 on", out)
        self.assertLess(listed.call_count, 12)
        self.assertLess(time.process_time() - began, 2)

    def test_many_known_ones(self):
        found = [b"E072\ta/%d\t-\n" % at for at in range(20000)]
        listed = [b"E092\tb/%d\tx\n" % at for at in range(400000)]
        paths = [self.put(b"".join(lines), name) for name, lines in (
            ("found", found), ("known", found[::2] + listed))]
        began = time.process_time()
        given, out, _ = self.ask("findings", "--known", paths[1], paths[0])
        self.assertEqual((given, out.count("\n")), (0, 10000))
        self.assertLess(time.process_time() - began, 2)

    def command(self, redirection, *words):
        done = subprocess.run(["sh", "-c", '"$@" ' + redirection, "sh", sys.executable, "-IB",
                               TOP + "/nights/ocfl-scrub-reports", *words], check=False,
                              capture_output=True, text=True)
        return done.returncode, done.stderr

    def test_closed_streams(self):
        self.cycle(1, ONE)
        given, err = self.command(">&-", "status", self.made.path)
        self.assertEqual((given, "Traceback" in err, "Bad file descriptor" in err),
                         (3, False, True), err)
        self.assertEqual(self.command("2>&-", "status", self.made.path)[1], "")
        self.assertEqual(self.command("<&- >&- 2>&-", "finish", self.made.path)[0], 0)
        self.assertTrue(os.path.exists(self.path_of(1)))

    def test_a_number_that_no_database_holds(self):
        self.made.slice(1, 1, 1, 3, (1 << 64) - 1, cost=1 << 70)
        self.made.log_night(1)
        self.assertEqual(self.ask("database", self.made.path, self.at("db")), (0, "", ""))

    def test_a_folder_that_cannot_be_read(self):
        self.cycle(1, ONE)
        real = os.stat, os.listdir
        for name, which in (("stat", real[0]), ("listdir", real[1])):
            def fails(path=".", *given, which=which, **more):
                if str(path).startswith(self.made.path + "/reports"):
                    raise OSError(5, "Input/output error", path)
                return which(path, *given, **more)
            with mock.patch("os." + name, fails):
                given, _, err = self.ask("finish", self.made.path)
            self.assertEqual((given, "Input/output error" in err), (3, True), name)

    def test_seals_that_are_none(self):
        self.cycle(1, ONE)
        for command, reason in [('echo x > "$1.json"', "not its own"),
                                ('echo x > "$1.sealed"', "not its own"),
                                ('echo x > "$1.a"; : > "$1.s"', "an empty file"),
                                ('echo x > "$1.new"', "not its own"),
                                ('echo x > "$1.a\nb"', "not its own")]:
            given, _, err = self.ask("statement", "--seal", command, self.made.path, 1)
            self.assertEqual((given, reason in err), (3, True), err)
            self.assertEqual(self.ask("verify", self.path_of(1))[0], 0)
            self.assertFalse(os.path.exists(self.path_of(1) + ".sealed"))
        self.ask("statement", "--seal", 'echo x > "$1.a"', self.made.path, 1)
        with open(self.path_of(1) + ".a", "w"):
            pass
        self.ask("statement", "--seal", 'echo y > "$1.a"', self.made.path, 1)
        with open(self.path_of(1) + ".a") as file:
            self.assertEqual(file.read(), "y\n")
