"""Tests what statements say of repaired findings: which they are, and why by the file of known
ones."""
import json
import os
import re

from gate.repository import TOP
from nights.tests.test_reports import Folder
from nights.tests.test_what_is_known import Told
from ocfl_scrub_reports import counts, questions
from ocfl_scrub_reports.statement import as_json
from ocfl_scrub_reports.weights import HIDING, Known

BEFORE = (b"ok\t.\t-\nE072\ta%25 b\t-\nok\to\t-\nE092\to/v1/content/a\tsha512 x y\n"
          b"E093\to/v1/content/a\tmd5 x y\nE092\to/v1/content/b\tsha512 missing\nE061\tp\tsha512\n"
          b"E092\tp/v1/content/c\tsha512 x y\nE092\tr/v1/content/d\tsha512 x y\n")
# `b` cannot be read now, the object at `p` has no inventory, and nothing is at `r`.
AFTER = (b"ok\t.\t-\nok\ta%25 b\t-\nok\to\t-\nE093\to/v1/content/a\tmd5 x y\n"
         b"S08\to/v1/content/b\t-\nE063\tp\t-\n")
KNOWN = (b"# The controller\n# wrote this; from tape 7.\nE092\to/\n\n# a hundred\n\nE072\ta%25 b\n")


class Reasons(Folder):
    def test_remarks_above_lines(self):
        known = Known(self.put(b"# one\n#  two \nE001\ta\nE001\tb\n\nE001\tc\n# three\n\nE001\td\n"
                               b"#\nE001\te\t-\nE001\te\n# four\nE001\t./\n"))
        self.assertEqual([known.reason([b"E001\t%c\t-" % it]) for it in b"abcdefg"],
                         [b"one two", b"one two", b"", b"", b"", b"four", b"four"])
        self.assertEqual(known.reason([b"E002\ta\t-", b"E001\tc\t-", b"E001\tz\t-"]), b"four")
        self.assertEqual(Known(None).reason([b"E001\ta\t-"]), b"")

    def test_the_line_that_names_the_fewest(self):
        known = Known(self.put(b"# root\nE001\t./\n# b\nE001\ta/b/\n# a\nE001\ta/\n# c\n"
                               b"E001\ta/b/c\n# all of it\nE001\ta/b/c\tx\n"))
        lines = [b"E001\ta/b/c\tx", b"E001\ta/b/c\ty", b"E001\ta/b\t-", b"E001\ta/bc\t-",
                 b"E001\ta\t-", b"E001\tb\t-", b"E001\t.\t-"]
        self.assertEqual([known.reason([it]) for it in lines],
                         [b"all of it", b"c", b"b", b"a", b"a", b"root", b"root"])

    def test_codes_that_hide(self):
        with open(os.path.join(TOP, "crates/ocfl_codes/specs/Kinds.antt"), "rb") as file:
            hiding = re.findall(rb"(?m)^is_hiding ([ES]\d+) = true$", file.read())
        self.assertEqual(set(hiding), HIDING)


class Repaired(Told):
    def said_of(self, before, after, known=b"", status=0, **how):
        """What the statement of a second cycle says of repaired findings."""
        self.cycle(1, before)
        self.cycle(2, after, **how)
        given = self.ask("statement", "--known", self.put(known, "known"), self.made.path, 2)
        self.assertEqual(given, (0, "", ""))
        self.given = self.ask("verify", self.path_of(2))
        self.assertEqual(self.given[0], status, self.given)
        return self.rows(self.text())

    def text(self):
        with open(self.path_of(2)) as file:
            return file.read()

    @staticmethod
    def rows(text):
        return re.findall("(?m)^((?:Repaired|Reason) .*)$", text)

    def test_listed(self):
        """The most serious first. What could not be looked at is not repaired."""
        self.assertEqual(self.said_of(BEFORE, AFTER, KNOWN), [
            "Repaired findings: 2", "Repaired finding 1: E092 o/v1/content/a",
            "Repaired finding 2: E072 a%25 b",
            "Reason given 1: The controller wrote this; from tape 7.",
            "Repaired findings not listed: 0"])
        self.assertIn("Former findings: 4\n", self.text())
        self.assertIn("\nonly statement-000002.json says the same: ", self.given[1])
        self.assertIn("; Reason given 1; ", self.given[1])
        with open(self.path_of(2) + ".json") as file:
            made = json.load(file)
        self.assertEqual((made["form"], made["repaired_findings"], made["repaired_findings_listed"],
                          made["repaired_findings_not_listed"]), ("ocfl-scrub statement 4", 2, [
                              {"code": "E092", "place": "o/v1/content/a",
                               "reason": "The controller wrote this; from tape 7."},
                              {"code": "E072", "place": "a%25 b"}], 0))
        self.assertIn("<td><bdi>The controller wrote this; from tape 7.</bdi></td>",
                      self.ask("cycle", self.made.path, 2)[1])

    def test_none(self):
        self.assertEqual(self.said_of(AFTER, AFTER, KNOWN), [
            "Repaired findings: 0", "Repaired findings not listed: 0"])
        self.assertNotIn("reason given", self.ask("cycle", self.made.path, 2)[1])

    def test_not_compared(self):
        self.assertEqual(self.said_of(BEFORE, AFTER, compared=0, why="x"), [
            "Repaired findings: not known", "Repaired findings not listed: not known"])

    def test_a_reason_by_a_whole_line(self):
        known = b"# damaged by x\nE092\to/v1/content/a\tsha512 x y\n# other bytes\n" \
                b"E092\to/v1/content/a\tsha512 x z\n"
        self.assertEqual(self.said_of(BEFORE, AFTER, known)[3], "Reason given 1: damaged by x")

    def test_an_odd_reason(self):
        """It cannot begin a line, and is cut."""
        known = b"# \xc3\xbc\xff\x1b[2J " + b"x" * 400 + b"\nE092\to/\n"
        self.assertEqual(self.said_of(BEFORE, AFTER, known)[3],
                         "Reason given 1: %C3%BC%FF%1B[2J " + "x" * 293 + "..")

    def test_many(self):
        before = b"ok\t.\t-\n" + b"".join(b"E072\ta%03d\t-\n" % it for it in range(150))
        after = before.replace(b"E072", b"ok")
        said = self.said_of(before + b"E092\tb\tmd5 missing\n", after + b"ok\tb\t1\n")
        self.assertEqual([*said[:3], *said[-2:]], [
            "Repaired findings: 151", "Repaired finding 1: E092 b", "Repaired finding 2: E072 a000",
            "Repaired finding 100: E072 a098", "Repaired findings not listed: 51"])

    def test_a_place_that_was_left_out(self):
        """What lies in it was not looked at. If nobody knows which it was, nobody knows it of any
        finding."""
        after = b"ok\t.\t-\nok\ta%25 b\t-\nok\to\t-\nok\to/v1/content/a\t3\n"
        self.made.log(row="left", time=1, night=1, cycle=2, place="o")
        self.assertEqual(self.said_of(BEFORE, after, whole=False, left=1, compared=1)[:2], [
            "Repaired findings: 1", "Repaired finding 1: E072 a%25 b"])

    def test_places_that_nobody_knows(self):
        after = b"ok\t.\t-\nok\ta%25 b\t-\nok\to\t-\nok\to/v1/content/a\t3\n"
        self.assertEqual(self.said_of(BEFORE, after, whole=False, left=1, compared=1), [
            "Repaired findings: not known", "Repaired findings not listed: not known"])

    def forged(self, old, new):
        """The status of `verify` for another text, with the JSON that fits it."""
        text = self.text().replace(old, new)
        self.assertNotEqual(text, self.text())
        self.made.put("reports/statement-000002", text.encode())
        self.made.put("reports/statement-000002.json", as_json(text).encode())
        given, out, _ = self.ask("verify", self.path_of(2))
        self.made.put("reports/statement-000002", self.kept.encode())
        self.made.put("reports/statement-000002.json", as_json(self.kept).encode())
        return given, out

    def test_forged(self):
        self.said_of(BEFORE, AFTER, KNOWN)
        self.kept = self.text()
        one = "Repaired finding 1: E092 o/v1/content/a\n"
        for old, new, said in [
                (one, "", "Reason given 1: no repaired finding has this number\n"
                 "Repaired finding 1: the statement lacks it, and it is E092 o/v1"),
                (one, one.replace("/a", "/b"), "Repaired finding 1: the statement says E092 o/v1"),
                (one, one + "Repaired finding 3: E092 z\n", "Repaired finding 3: the statement "
                 "says E092 z, and it is none"),
                ("Repaired findings: 2", "Repaired findings: 3", "Repaired findings: the"),
                ("not listed: 0", "not listed: 1", "Repaired findings not listed: the"),
                ("Reason given 1", "Reason given 9", "Reason given 9: no repaired finding")]:
            given, out = self.forged(old, new)
            self.assertEqual((given, out.startswith(said)), (1, True), out)

    def test_without_the_report_before(self):
        self.said_of(BEFORE, AFTER, KNOWN)
        os.remove(self.made.path + "/reports/cycle-000001")
        given, out, _ = self.ask("verify", self.path_of(2))
        self.assertEqual((given, "; Repaired findings; Repaired finding 1; Repaired finding 2; "
                          "Repaired findings not listed; " in out), (4, True), out)

    def test_few_in_memory(self):
        kept = questions.HELD
        self.addCleanup(setattr, questions, "HELD", kept)
        for held in (1, 2):
            questions.HELD = held
            found, before = (questions.findings_in(self.put(it)) for it in (AFTER, BEFORE))
            made = counts.of_former(found, self.put(AFTER), before, (), Known(None))
            self.assertEqual((made["Repaired findings"], made["Repaired finding 2"]),
                             ("2", "E072 a%25 b"))
