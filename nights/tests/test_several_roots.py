"""Tests what `status`, `page` and `tell` say of several storage roots."""
import os
import subprocess
from unittest import mock

from nights.tests.test_night_states import NOW, Asked, Program, nights_of
from nights.tests.test_pages import Read
from ocfl_scrub_reports import tell

GOOD = b"ok\t.\t-\nok\to\t-\nok\to/a\t3\n"


class Several(Asked):
    """Three folders: a root with losses, a good one, and one that is no folder."""

    def setUp(self):
        super().setUp()
        nights_of(Program(self.at("bad"), root="/srv/<bad>"))
        good = Program(self.at("good"), root="/srv/good")
        for cycle in (1, 2, 3, 4):
            good.slice(cycle, cycle, 1, 3, 9, 0, "ended")
            good.close(cycle, cycle, GOOD)
            good.log_night(cycle)
        self.bad, self.good, self.none = map(self.at, ("bad", "good", "none"))

    def lines(self, *words):
        status, out, said = self.ask("status", *NOW, *words)
        self.assertEqual(said, "")
        return status, out.splitlines()

    def test_one_line_each(self):
        status, lines = self.lines(self.good, self.bad)
        self.assertEqual((status, lines[0], [it.partition(":")[0] for it in lines[1:]]), (
            2, "OCFL-SCRUB CRITICAL - 2 storage roots: 1 CRITICAL, 1 OK",
            ["OCFL-SCRUB OK - /srv/good", "OCFL-SCRUB CRITICAL - /srv/<bad>"]))
        # Figures of several would have the same names.
        self.assertNotIn("|", "".join(lines))
        for folder, line in zip((self.good, self.bad), lines[1:]):
            self.assertEqual(self.lines(folder)[1][0].partition(" |")[0], line)

    def test_one_that_cannot_be_read(self):
        self.assertEqual(self.lines(self.none, self.good), (3, [
            "OCFL-SCRUB UNKNOWN - 2 storage roots: 1 UNKNOWN, 1 OK",
            "OCFL-SCRUB UNKNOWN - %s is not a folder" % self.none, self.lines(self.good)[1][0]
            .partition(" |")[0]]))
        self.assertEqual(self.lines(self.none, self.bad)[0], 2)
        self.assertEqual(self.lines(self.good, self.good)[0], 0)

    def test_a_file_of_folders(self):
        listed = self.put(("# the archive\n%s\n\n%s\n" % (self.good, self.bad)).encode(), "states")
        self.assertEqual(self.lines("--states", listed), self.lines(self.good, self.bad))
        self.assertEqual(self.lines("--states", listed, self.none),
                         self.lines(self.none, self.good, self.bad))
        empty = self.put(b"# none\n", "empty")
        for words in ([], ["--states", empty]):
            status, out, said = self.ask("status", *words)
            self.assertEqual((status, out, "a folder of state is needed" in said), (3, "", True))
            self.assertEqual(self.ask("page", *words)[0:2], (2, ""))
        status, out, _ = self.ask("status", "--states", self.none)
        self.assertEqual((status, out), (3, "OCFL-SCRUB UNKNOWN - %s cannot be read\n" % self.none))

    def test_lists(self):
        lines = self.lines("--list", self.good, self.bad)[1]
        self.assertEqual(lines[3:], ["E072\tq\t-", "E072\tr\t-", "object\tp", "file\to/z"])

    def test_figures(self):
        """Each figure is described once, and has a sample of each root that has it."""
        path = self.at("figures")
        self.lines("--prometheus", path, self.none, self.good, self.bad)
        with open(path) as file:
            rows = file.read().splitlines()
        heads = [it.split()[2] for it in rows if it.startswith("# HELP")]
        self.assertEqual(len(heads), len(set(heads)))
        of = {name: 'ocfl_scrub_%s{root="' + root + '",state="' + self.at(name) + '"} %s'
              for name, root in (("good", "/srv/good"), ("bad", "/srv/<bad>"), ("none", self.none))}
        for name, figure, value in [("good", "open_findings", 0), ("bad", "open_findings", 2),
                                    ("good", "gone_objects", 0), ("bad", "gone_objects", 1),
                                    ("none", "last_night_timestamp_seconds", 0)]:
            self.assertIn(of[name] % (figure, value), rows)
        self.assertEqual(sum('state="%s"' % self.none in it for it in rows), 1)

    def test_a_page(self):
        status, out, said = self.ask("page", *NOW, self.good, self.bad, self.none)
        read = Read(out)
        self.assertEqual((status, said, read.is_whole), (0, "", True))
        for piece in ["Fixity of 3 storage roots\n", "CRITICAL", "/srv/good|OK|0|0|2026-03-04T",
                      "/srv/<bad>|CRITICAL|2|2|2026-03-04T22:00:00Z|3 is open, 33 % done|",
                      "%s|UNKNOWN|not known|" % self.none, "%s is not a folder" % self.none]:
            self.assertIn(piece, read.text)
        leads = [given["href"] for tag, given in read.elements if tag == "a"]
        self.assertEqual(leads, ["#" + given["id"] for tag, given in read.elements
                                 if tag == "article"])
        self.assertEqual(len(leads), 3)
        self.assertEqual(self.ask("page", *NOW, self.none)[0:2], (3, ""))


class Told(Several):
    def tell(self, **given):
        """The mails that were sent: their subject and text."""
        sent = []

        def run(words, input=b"", **_):
            sent.append((words[2], input.decode()))
            return subprocess.CompletedProcess(words, 0)

        with mock.patch.object(subprocess, "run", run):
            night = tell.Night("archives", [self.good, self.bad], {"MAIL": "her", **given})
            self.assertEqual(tell.send(night), 0)
        return sent

    def test_one_mail(self):
        self.put(b"a finding\n", "bad/tonight.1")
        self.assertEqual(self.tell(EXIT_STATUS="1"), [
            ("ocfl-scrub: findings in archives", "%s:\n\na finding\n" % self.bad)])
        self.assertEqual(sorted(it for it in os.listdir(self.bad) if it.startswith("tonight")),
                         ["tonight"])
        self.assertEqual(self.tell(), [])

    def test_of_both(self):
        for folder in ("good", "bad"):
            self.put(b"of %s\n" % folder.encode(), folder + "/tonight.1")
        self.assertEqual(self.tell(EXIT_STATUS="3"), [
            ("ocfl-scrub: archives: the night stopped with status 3",
             "%s:\n\nof good\n\n%s:\n\nof bad\n" % (self.good, self.bad))])

    def test_one_folder(self):
        """Its text is sent as it is."""
        self.put(b"a finding\n", "bad/tonight.1")
        night = tell.Night("archive", [self.bad], {"EXIT_STATUS": "1"})
        self.assertEqual(night.text(), b"a finding\n")

    def test_no_text(self):
        self.put(b"", "good/tonight.x")
        (subject, text), = self.tell(EXIT_STATUS="3", EXIT_CODE="exited", INVOCATION_ID="x")
        self.assertIn("could not be written into %s: is there room" % self.good, text)
        self.assertFalse(os.path.exists(self.at("good/tonight.x")))
