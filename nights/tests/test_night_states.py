"""Tests what `nights/ocfl_scrub_reports` takes from the folders of `ocfl-scrub night` and
`ocfl-scrub join`."""
import contextlib
import fcntl
import gzip
import hashlib
import io
import json
import os
import re
import signal
import sqlite3
import stat
import sys
import warnings
from unittest import mock

from gate.repository import TOP

sys.path.insert(0, os.path.join(TOP, "nights"))

from nights.tests.test_reports import Folder
from ocfl_scrub_reports import command, report, standing, state, statement, status

ZEROS = "0" * 64
ONE = b"ok\t.\t-\nok\to\t-\nE092\to/a\tsha512 x y\nok\to/b\t3\nok\tp\t-\nok\tp/a\t1\nE072\tq\t-\n"
TWO = b"ok\t.\t-\nok\to\t-\nok\to/a\t3\nS07\to\tblake2b-512\nok\to/b\t3\nE072\tq\t-\nE072\tr\t-\n"
GONE = b"object\tp\nfile\to/z\n"


def at(text):
    return status.seconds_of(text)


def night_of(day):
    return "2026-03-%02dT22:00:00Z" % day


class Program:
    """The folder of the program's nights, made by hand."""

    def __init__(self, path, root="/srv/ocfl", part="", has_slices=True, cycle=3, checks=False):
        self.path, self.has_slices, self.costs = path, has_slices, []
        os.makedirs(path + "/reports")
        self.rows = []
        self.put("lock", b"")
        version, part = (2, part + "checks inventories\n") if checks else (1, part)
        body = ("ocfl-scrub checkpoint %d\nroot %s\ndeclared %s\nnames 3 %s\nphase open\n"
                "whole yes\nreport 0 0\npieces %s\ntail %s\ntold 0\nleft 0\n%scycle %d\n"
                "runs 1\nspent 6\nfiles 1\nafter o\n"
                % (version, root, "d" * 64, ZEROS, ZEROS, ZEROS, part, cycle)).encode()
        self.put("checkpoint", body + b"sha256 %s\n" % hashlib.sha256(body).hexdigest().encode())

    def put(self, name, data):
        with open(os.path.join(self.path, name), "wb") as file:
            file.write(data)

    @contextlib.contextmanager
    def under_way(self):
        """A night is under way."""
        with open(self.path + "/lock", "rb+") as lock:
            fcntl.flock(lock, fcntl.LOCK_EX)
            yield

    def log(self, **row):
        self.rows.append(row)
        self.save()

    def save(self):
        self.put("log", b"".join(json.dumps(it, sort_keys=True, separators=(",", ":")).encode()
                                 + b"\n" for it in self.rows))

    def begin(self, day, cycle, stands="start", lines=0, program="a" * 64):
        """A night begins, as the log has said since it has such rows."""
        self.log(row="began", time=at(night_of(day)) + 1, night=at(night_of(day)), cycle=cycle,
                 stands=stands, lines=lines, bytes=9, root="/srv/ocfl", part=0, program=program)

    def slice(self, day, cycle, run, lines, spent, code=0, stands="after o", cost=9):
        self.costs.append(cost)
        if not self.has_slices:
            return
        self.log(row="slice", time=at(night_of(day)), night=at(night_of(day)), cycle=cycle, run=run,
                 status=code, cost=cost, spent=spent, files=1, lines=lines, bytes=100, seconds=60,
                 stands=stands)

    def log_night(self, day, code=0):
        self.log(row="night", time=at(night_of(day)) + 3600, night=at(night_of(day)), status=code,
                 runs=len(self.costs), cost=sum(self.costs), seconds=3600, findings=0)
        self.costs = []

    def night(self, day, cycle, run, lines, spent, code=0, stands="after o", cost=9):
        self.slice(day, cycle, run, lines, spent, code, stands, cost)
        self.log_night(day, code)

    def refuse(self, day, code=3):
        self.log(row="refusal", time=at(night_of(day)), night=at(night_of(day)), status=code,
                 said="is its file system mounted?")
        if not self.has_slices:
            self.log_night(day, code)

    def close(self, day, cycle, report, gone=b"", whole=True, left=0, **more):
        """Closes a cycle, compared with the one before. With `compared=None` the row is that of a
        log which did not say it."""
        name = "reports/%s-%06d" % ("cycle" if whole else "incomplete", cycle)
        compared = more.get("compared", cycle - 1 if whole else 0)
        self.put(name, report)
        if gone or compared:
            self.put("reports/gone-%06d" % cycle, gone)
        said = {"compared": compared, "why": "", "objects": gone.count(b"object\t"),
                "files": gone.count(b"file\t"), "expected": 0, "listed": 0, "list": "", **more}
        repaired, new = said.pop("repaired", 0), said.pop("new", 0)
        self.log(row="closing", time=at(night_of(day)) + 1800, night=at(night_of(day)), cycle=cycle,
                 report=os.path.join(self.path, name), whole=whole, findings=2, new=new,
                 repaired=repaired, gone=gone.count(b"\n"), left=left,
                 **({} if compared is None else said))

    def keep_checkpoint(self, cycle, report):
        """Puts the checkpoint that closed a cycle with this report of less than 4 MiB."""
        with open(self.path + "/checkpoint") as file:
            text = file.read()
        for name, value in [("report", "%d %d" % (len(report), report.count(b"\n"))),
                            ("tail", hashlib.sha256(report).hexdigest())]:
            text = re.sub("(?m)^%s .*" % name, "%s %s" % (name, value), text)
        self.put("reports/checkpoint-%06d" % cycle, text.encode())


def nights_of(made):
    """Two closed cycles of which the second lost an object, a refused night, and a third cycle."""
    made.slice(1, 1, 1, 3, 9, 1)
    made.slice(1, 1, 2, 7, 18, 1, "ended")
    made.close(1, 1, ONE)
    made.log_night(1, 1)
    made.slice(2, 2, 1, 7, 18, 1, "ended", 18)
    made.close(2, 2, TWO, GONE)
    made.log_night(2, 1)
    made.refuse(3)
    made.night(4, 3, 1, 2, 6, cost=6)
    made.put("report", b"ok\t.\t-\nok\to\t-\n")
    return made


class Asked(Folder):
    """A program that says its version, in a folder of its own."""

    def setUp(self):
        super().setUp()
        stub = self.put(b"#!/bin/sh\ncase $1 in show) grep -q damaged -- $3 && exit 4\n"
                        b"grep -v sha256 -- $3; exit ;; esac\necho ocfl-scrub 1.0.0\n", "program")
        os.chmod(stub, 0o755)
        given = mock.patch.dict(os.environ, {"OCFL_SCRUB": stub})
        given.start()
        self.addCleanup(given.stop)

    def at(self, name):
        return os.path.join(self.folder, name)

    def ask(self, *words):
        """The status, standard output and standard error of a command."""
        out, err = (io.TextIOWrapper(io.BytesIO(), write_through=True) for _ in range(2))
        kept = os.umask(0o022)
        try:
            with contextlib.redirect_stdout(out), contextlib.redirect_stderr(err), \
                    warnings.catch_warnings():
                # (a file in memory that is let go is closed)
                warnings.simplefilter("ignore", ResourceWarning)
                try:
                    given = command.main([str(word) for word in words])
                except SystemExit as end:
                    given = end.code
        finally:
            os.umask(kept)
        return given, out.buffer.getvalue().decode(), err.buffer.getvalue().decode()


NOW = ["--now", "2026-03-05T05:00:00Z"]


class Questions(Asked):
    """What is asked of one folder, whose log has a row for each run or for each night alone."""

    def setUp(self):
        super().setUp()
        self.both = [nights_of(Program(self.at(name), has_slices=has))
                     for name, has in (("with", True), ("without", False))]

    def same(self, *words):
        """The answer to a question, which is the same of both folders."""
        answers = [self.ask(*words[:-1], it.path, *words[-1]) for it in self.both]
        answers = [(it[0], it[1].replace("without", "S").replace("with", "S"), it[2])
                   for it in answers]
        self.assertEqual(*answers)
        return answers[0]

    def test_status(self):
        given, out, _ = self.same("status", "--list", *NOW, [])
        self.assertEqual((given, out.splitlines()), (2, [
            "OCFL-SCRUB CRITICAL - /srv/ocfl: 2 open findings (E072 2); 1 object and 1 file "
            "are gone; last night 2026-03-04T22:00:00Z, status 0; cycle 3 is open, 33 of 100 done, "
            "2 nights left; last whole cycle 2 on 2026-03-02 | age=25200s;93600;180000;0 "
            "findings=2;1;;0 damaged=0;1;1;0 gone=2;1;;0 lost=1;1;1;0 progress=33%;;;0;100",
            "E072\tq\t-", "E072\tr\t-", "object\tp", "file\to/z"]))

    def test_page(self):
        for made in self.both:
            self.assertEqual(self.ask("page", *NOW, made.path)[0], 0)

    def test_unverified(self):
        given, out, _ = self.same("unverified", "2026-03-02", [])
        self.assertEqual((given, out), (0, "2026-03-01T22:00:00Z\tp/a\tok\t1\n"))

    def test_signals_stay_as_they_were(self):
        """What `main` is called in goes on, and a signal means there what it meant before."""
        ends = (signal.SIGHUP, signal.SIGTERM, signal.SIGINT, signal.SIGPIPE)
        before = [signal.getsignal(end) for end in ends]
        self.ask("status", *NOW, self.both[0].path)
        self.assertEqual([signal.getsignal(end) for end in ends], before)

    def test_premis(self):
        for each in ("cycle", "finding", "object"):
            for cycle in (1, 2):
                for made in self.both:
                    self.ask("statement", made.path, cycle)
                    events = self.ask("premis", "--each", each, made.path, cycle)
                    self.assertEqual((events[0], "</premis>" in events[1]), (0, True), events)

    def test_database(self):
        found = []
        for number, made in enumerate(self.both):
            path = self.at("db%d" % number)
            self.assertEqual(self.ask("database", made.path, path)[0], 0)
            self.assertEqual(stat.S_IMODE(os.stat(path).st_mode), 0o640)
            database = sqlite3.connect(path)
            found.append([database.execute("select * from " + name).fetchall()
                          for name in ("dated", "run")])
            database.close()
        self.assertEqual(found[0][0], found[1][0])
        self.assertEqual(len(found[0][0]), len((ONE + TWO).splitlines()) + 2)

    def test_statements(self):
        texts = []
        for made in self.both:
            for cycle in (1, 2):
                self.assertEqual(self.ask("statement", made.path, cycle), (0, "", ""))
                file = made.path + "/reports/statement-%06d" % cycle
                self.assertEqual(self.ask("verify", file)[0], 0)
                self.assertEqual(stat.S_IMODE(os.stat(file).st_mode), 0o640)
            with open(file) as made_text:
                texts.append(made_text.read())
        apart = "State folder|Statement before"
        self.assertEqual(*[[row for row in text.splitlines() if not re.match(apart, row)]
                           for text in texts])
        for row in ["Cycle: 2", "Oldest verification: 2026-03-01T22:30:00Z", "New findings: 1",
                    "Former findings: 1", "Algorithms not computed: blake2b-512 1",
                    "Algorithms of wrong digests: none", "Compared with cycle: 1",
                    "Report compared with, SHA-256: " + hashlib.sha256(ONE).hexdigest(),
                    "Objects gone: 1", "Files gone: 1", "Objects gone and not back: 1",
                    "Files not found right: 0", "Closed: 2026-03-02T22:30:00Z"]:
            self.assertIn("\n%s\n" % row, texts[0])
        self.assertIn("\nDeclaration sums SHA-256: %s\n" % ("d" * 64), texts[0])

    def test_links_are_refused(self):
        """None is followed, wherever it leads and whatever is asked."""
        for made in self.both:
            for name in ["checkpoint", "log", "report", "reports/cycle-000001",
                         "reports/cycle-000002", "reports/gone-000002", "reports"]:
                path = os.path.join(made.path, name)
                os.rename(path, path + ".kept")
                os.symlink(path + ".kept", path)
                for words in [["status", made.path], ["page", made.path],
                              ["statement", made.path, "2"],
                              ["database", made.path, self.at("made")]]:
                    if "gone" in name and words[0] == "database":
                        continue
                    given, out, err = self.ask(*words)
                    self.assertEqual(given, 3, (name, words))
                    self.assertIn("is a link", out + err, (name, words))
                    self.assertFalse(os.path.lexists(self.at("made")))
                os.remove(path)
                os.rename(path + ".kept", path)


class RootInventories(Asked):
    """A cycle in which root inventories were noted."""

    BEFORE = b"ok\t.\t-\n" + b"".join(
        b"ok\t%s\t-\nS09\t%s\tsha512 aa v2\n" % (it, it) for it in (b"o", b"p", b"q", b"r"))
    NOW = BEFORE.replace(b"S09\to\tsha512 aa v2", b"S09\to\tsha512 bb v2").replace(
        b"S09\tp\tsha512 aa v2", b"S09\tp\tsha512 bb v1").replace(
        b"S09\tq\tsha512 aa v2", b"S09\tq\tsha512 bb v10")

    def setUp(self):
        super().setUp()
        self.made = Program(self.at("state"))
        self.made.slice(1, 1, 1, 9, 9, 0, "ended")
        self.made.close(1, 1, self.BEFORE)
        self.made.log_night(1)
        self.made.slice(2, 2, 1, 9, 18, 0, "ended", 9)
        self.made.close(2, 2, self.NOW, b"changed\to\nolder\tp\nnewer\tq\n")
        self.made.log_night(2, 1)

    def statement(self, cycle):
        self.assertEqual(self.ask("statement", self.made.path, cycle), (0, "", ""))
        path = self.made.path + "/reports/statement-%06d" % cycle
        self.assertEqual(self.ask("verify", path)[0], 0)
        with open(path) as file:
            return path, file.read()

    def test_a_statement_counts_them(self):
        _, text = self.statement(1)
        self.assertIn("\nObjects that went back: not known\n", text)
        path, text = self.statement(2)
        for row in ["Objects changed without a new version: 1", "Objects that went back: 1",
                    "Objects with a new version: 1", "Objects gone: 0", "Findings: 0"]:
            self.assertIn("\n%s\n" % row, text)
        self.assertNotIn("inventories of versions", text)
        with open(path, "w") as file:
            file.write(text.replace("Objects that went back: 1", "Objects that went back: 0"))
        status, out, _ = self.ask("verify", path)
        self.assertEqual(status, 1)
        self.assertIn("Objects that went back", out)

    def test_pages_tell_of_them(self):
        self.statement(1)
        self.statement(2)
        for name, words in (("page", []), ("cycle", [2])):
            out = self.ask(name, self.made.path, *words)[1].lower()
            self.assertIn("without a new version", out)
            self.assertIn("back", out)

    def test_none_of_them_is_gone(self):
        self.assertEqual(list(standing.losses(state.State(self.made.path))), [])
        self.statement(1)
        self.statement(2)
        _, out, _ = self.ask("premis", "--each", "object", self.made.path, 2)
        for words in ["changed without a new version: o", "went back to an older version: p"]:
            self.assertIn(words, out)
        self.assertNotIn("gone: ", out)


class WithoutSlices(Asked):
    """A log that has a row for each night alone: its answers are the same, or older."""

    def setUp(self):
        super().setUp()
        self.made = nights_of(Program(self.at("state"), has_slices=False))

    def test_statement(self):
        self.assertEqual(self.ask("finish", self.made.path), (0, "", ""))
        for cycle, rows in [(1, ["Runs: 2", "Nights: 1", "First night: 2026-03-01T22:00:00Z",
                                 "Oldest verification: 2026-03-01T22:00:00Z"]),
                            (2, ["Runs: 1", "Nights: 1", "Compared with cycle: 1"])]:
            file = self.made.path + "/reports/statement-%06d" % cycle
            with open(file) as made_text:
                text = made_text.read()
            for row in rows:
                self.assertIn("\n%s\n" % row, text)
            self.assertEqual(self.ask("verify", file)[0], 0)
            self.assertEqual(self.ask("premis", "--each", "object", self.made.path, cycle)[0], 0)

    def test_no_file_is_called_younger_than_it_is(self):
        """Two nights of one cycle: all lines count as the first one's."""
        made = Program(self.at("two"), has_slices=False)
        for day in (1, 3):
            made.slice(day, 1, day, 3, 9)
            if day == 3:
                made.close(day, 1, ONE)
            made.log_night(day)
        self.assertEqual(self.ask("unverified", "2026-03-02", made.path)[1].count("2026-03-01"), 2)
        self.assertEqual(self.ask("unverified", "2026-03-01", made.path)[1],
                         "never\to/a\tE092\t1\n")


class Brief(Asked):
    """A night that has a row of its own is known by that, and one that was cut by its runs."""

    def test_where_a_log_begins(self):
        """The rows of earlier cycles are gone: the runs say which cycle it is."""
        made = Program(self.at("state"))
        for run in (1, 2):
            made.slice(1, 3, run, 3, 9 * run)
        made.log_night(1)
        made.slice(2, 3, 3, 3, 27)
        made.slice(3, 3, 4, 3, 36)
        made.log_night(3)
        folder = state.open_state(made.path)
        self.assertEqual([(it.kind, it.cycle, it.runs, it.cost, it.spent, it.stands)
                          for it in folder.entries(True) if it.is_run()],
                         [("0", 3, 2, 18, 18, "after o"), ("0", 3, 1, 9, 27, "after o"),
                          ("cut", 3, 0, 0, 27, "after o"), ("0", 3, 2, 18, 36, "after o")])
        self.assertEqual(sum(it.runs for it in folder.entries() if it.is_run()), 4)


class Log(Asked):
    def setUp(self):
        super().setUp()
        self.made = Program(self.at("state"))
        self.opened = state.open_state(self.made.path)

    def kinds(self):
        return [(it.kind, it.cycle, it.run) for it in self.opened.entries() if it.kind != "stands"]

    def test_a_night_that_was_cut(self):
        self.made.slice(1, 1, 1, 3, 9)
        with self.made.under_way():
            self.assertEqual(self.kinds(), [("0", 1, 1)])
        self.assertEqual(self.kinds(), [("0", 1, 1), ("cut", 1, 1)])
        self.made.night(2, 1, 2, 5, 18)
        self.assertEqual(self.kinds(), [("0", 1, 1), ("cut", 1, 1), ("0", 1, 2), ("told", 0, 0)])
        self.made.refuse(3)
        self.made.night(4, 1, 3, 5, 18)
        self.assertEqual(self.kinds()[4:], [("3", 0, 0), ("0", 1, 3), ("told", 0, 0)])

    def test_under_way(self):
        self.made.night(1, 1, 1, 3, 9, 3)
        self.made.slice(2, 1, 2, 3, 9)
        now = ["--now", "2026-03-02T23:00:00Z"]
        with self.made.under_way():
            self.assertIn("status 3, under way;", self.ask("status", *now, self.made.path)[1])
        self.assertIn("a night was cut;", self.ask("status", *now, self.made.path)[1])
        self.made.slice(3, 1, 3, 3, 9)
        out = self.ask("status", "--now", "2026-03-03T23:00:00Z", self.made.path)[1]
        self.assertIn("a night was cut;", out)

    def test_a_night_that_was_cut_after_a_closing(self):
        """What the log has of it is the row of the closing."""
        self.made.close(1, 1, ONE)
        self.made.log_night(2)
        self.assertEqual(self.kinds(), [("ended", 1, 0), ("cut", 1, 0), ("told", 0, 0)])
        self.made.rows.pop()
        self.made.save()
        self.assertEqual(self.ask("finish", self.made.path), (0, "", ""))
        with open(self.made.path + "/reports/statement-000001") as made_text:
            text = made_text.read()
        for row in ["Nights: 1", "Nights cut: 1", "Runs: 0", "First night: " + night_of(1),
                    "Oldest verification: " + night_of(1)]:
            self.assertIn("\n%s\n" % row, text)
        self.assertEqual(self.ask("premis", "--each", "object", self.made.path, 1)[0], 0)

    def test_nights_of_one_second(self):
        """Three nights began in one second, of which two were killed, one after a run."""
        self.made.begin(1, 1)
        self.made.begin(1, 1)
        self.made.slice(1, 1, 1, 3, 9)
        self.made.begin(1, 1, "after o", 3)
        self.made.slice(1, 1, 2, 7, 18, 1, "ended")
        self.made.close(1, 1, ONE)
        self.made.log_night(1, 1)
        self.assertEqual(self.ask("statement", self.made.path, 1), (0, "", ""))
        with open(self.made.path + "/reports/statement-000001") as made_text:
            text = made_text.read()
        self.assertEqual(re.findall("(?m)^Nights.*", text), ["Nights: 3", "Nights cut: 2"])
        out = self.ask("page", *NOW, self.made.path)[1]
        self.assertEqual(re.findall("<td>(cut|[0-9], [^<]*)</td>", out)[-3:],
                         ["1, findings", "cut", "cut"])

    def test_runs_that_no_row_tells_of(self):
        """A night was killed before its row; the checkpoint has its runs."""
        self.made.put("report", ONE)
        self.assertIn("a night was cut;", self.status_after(self.made.refuse))
        self.assertNotIn("a night was cut", self.status_after(
            lambda day: self.made.night(day, 3, 1, 3, 9)))

    def status_after(self, night):
        night(2)
        return self.ask("status", "--now", "2026-03-02T23:00:00Z", self.made.path)[1]

    def test_a_closing_that_no_row_tells_of(self):
        """A kill came after the report was closed: what is known of it is known."""
        self.made.night(1, 1, 1, 7, 9, stands="ended")
        self.made.put("reports/cycle-000001", ONE)
        expected = [("0", 1, 1), ("told", 0, 0), ("ended", 1, 1)]
        self.assertEqual(self.kinds(), expected)
        self.assertEqual(self.ask("statement", self.made.path, 1), (0, "", ""))
        file = self.made.path + "/reports/statement-000001"
        with open(file) as made_text:
            self.assertIn("\nClosed: not known\n", made_text.read())
        self.assertEqual(self.ask("verify", file)[0], 0)
        self.made.night(2, 2, 1, 2, 9)
        self.assertEqual(self.kinds()[1:], [("told", 0, 0), ("ended", 1, 1), ("0", 2, 1),
                                            ("told", 0, 0)])

    def test_closings_that_no_row_tells_of(self):
        """The closing of two cycles could not be said: both are known by their reports."""
        made = Program(self.at("mute"), has_slices=False)
        for day in (1, 2):
            made.slice(day, day, 1, 7, 9)
            made.log_night(day)
            made.put("reports/cycle-%06d" % day, ONE)
        for cycle in (1, 2):
            self.assertEqual(self.ask("statement", made.path, cycle), (0, "", ""))
            self.assertEqual(self.ask("verify", made.path + "/reports/statement-%06d" % cycle)[0],
                             0)

    def test_losses_that_no_row_tells_of(self):
        """A kill came after the list of what is gone was put there, and before the row."""
        self.made.night(1, 1, 1, 7, 9, stands="ended")
        self.made.put("reports/cycle-000001", TWO)
        self.made.put("reports/gone-000001", GONE)
        self.assertEqual(self.ask("statement", self.made.path, 1), (0, "", ""))
        file = self.made.path + "/reports/statement-000001"
        with open(file) as made_text:
            text = made_text.read()
        for row in ["Closed: not known", "Compared with cycle: nothing",
                    "Not compared: there is no earlier cycle", "Objects gone: at least 1",
                    "Files gone: at least 1"]:
            self.assertIn("\n%s\n" % row, text)
        self.assertEqual(self.ask("verify", file)[0], 0)

    def test_an_open_report_that_lost_lines(self):
        self.made.night(1, 3, 1, 7, 9)
        with open(self.made.path + "/checkpoint", "rb") as file:
            said = file.read().replace(b"whole yes", b"whole no")
        self.made.put("checkpoint", said)
        self.assertIn("the report of cycle 3 lost lines", self.ask(
            "status", "--now", "2026-03-02T05:00:00Z", self.made.path)[1])

    def test_where_the_checkpoint_stands(self):
        """The log has no row of what a killed night read."""
        self.made.night(1, 2, 1, 7, 9, stands="ended")
        self.made.close(1, 2, ONE)
        out = self.ask("status", *NOW, self.made.path)[1]
        self.assertIn("cycle 3 is open, 66 of 100 done;", out)

    def test_a_report_that_lost_lines(self):
        self.made.night(1, 1, 1, 7, 9, stands="ended")
        self.made.close(1, 1, ONE, whole=False)
        self.ask("statement", self.made.path, 1)
        file = self.made.path + "/reports/statement-000001"
        with open(file) as made_text:
            text = made_text.read()
        for row in ["Whole: no", "Lost lines: not known", "Objects without findings: not known",
                    "Compared with cycle: nothing", "Report: incomplete-000001"]:
            self.assertIn("\n%s\n" % row, text)
        self.assertEqual(self.ask("verify", file)[0], 0)

    def test_rows_that_are_none(self):
        self.made.put("log", b'x\n[]\n{"row":"slice"\n{"row":7}\n{}\n' + b"[" * 100000
                      + b'\n{"row":"slice","time":99999999999999999999,"night":true,"cycle":-1}\n'
                      b'{"row":"night","status":"3","time":1}')
        found = list(self.opened.entries())
        self.assertEqual([(it.kind, it.cycle, it.began) for it in found[:-1]],
                         [("0", 0, ""), ("told", 0, "1970-01-01T00:00:01Z")])

    def test_without_a_log(self):
        self.assertEqual(self.ask("status", self.made.path)[0:2], (
            3, "OCFL-SCRUB UNKNOWN - /srv/ocfl: no night has run\n"))
        given, _, err = self.ask("statement", self.made.path, 1)
        self.assertEqual((given, "no log of nights" in err), (3, True))

    def test_gone_without_its_list(self):
        self.made.night(1, 1, 1, 7, 9, stands="ended")
        self.made.close(1, 1, ONE)
        self.made.night(2, 2, 1, 7, 9, stands="ended")
        self.made.close(2, 2, TWO, GONE)
        os.remove(self.made.path + "/reports/gone-000002")
        self.assertIn("gone=2;", self.ask("status", *NOW, self.made.path)[1])
        self.ask("statement", self.made.path, 2)
        with open(self.made.path + "/reports/statement-000002") as made_text:
            self.assertIn("\nObjects gone: not known\n", made_text.read())


class LeftOut(Asked):
    """Places that nights left out of a cycle."""

    def status_after(self, *places):
        """The line for a monitor after a night that left out these places, and after the night
        that closed the cycle."""
        made = Program(self.at("state"), cycle=1)
        made.slice(1, 1, 1, 3, 9)
        self.leave(made, places)
        made.log_night(1, 3)
        first = self.ask("status", *NOW, made.path)[1]
        made.slice(2, 1, 2, 7, 18, stands="ended")
        made.close(2, 1, ONE, whole=False)
        made.log_night(2, 3)
        return first, self.ask("status", *NOW, made.path)[1]

    @staticmethod
    def leave(made, places):
        for place in places:
            made.log(row="left", time=at(night_of(1)), night=at(night_of(1)), cycle=1, place=place,
                     stands="after o")

    def test_they_are_named(self):
        first, then = self.status_after("a|b", "c%0A")
        self.assertIn("cycle 1 will not be whole: left out a?b, c%0A; ", first)
        self.assertNotIn("the report of cycle", first)
        self.assertIn("the report of cycle 1 is not whole: left out a?b, c%0A; ", then)

    def test_three_are_named_at_most(self):
        self.assertIn(": left out a, b, c, 2 more; ", self.status_after(*"abcde")[0])

    def check_statement(self, *places, left=2):
        made = Program(self.at("state"))
        made.slice(1, 1, 1, 3, 9)
        self.leave(made, places)
        made.close(1, 1, ONE, whole=False, left=left)
        made.log_night(1, 3)
        self.assertEqual(self.ask("statement", made.path, 1), (0, "", ""))
        file = made.path + "/reports/statement-000001"
        self.assertEqual(self.ask("verify", file)[0], 0)
        with open(file) as made_text, open(file + ".json") as same:
            return made, made_text.read(), json.load(same)

    def test_named(self):
        made, text, same = self.check_statement("b%0A", "c/d")
        self.assertIn("\nWhole: no\nPlaces left out: 2\nPlace left out 1: b%0A\n"
                      "Place left out 2: c/d\nReport lines", text)
        self.assertIn("\nLost lines: none\n", text)
        self.assertEqual((same["places_left_out"], same["names_of_places_left_out"]),
                         (2, ["b%0A", "c/d"]))
        file = made.path + "/reports/statement-000001"
        for old, new in [("left out 2: c/d", "left out 2: c"), ("left out 2:", "left out x*:"),
                         ("Place left out 2: c/d\n", "")]:
            with open(file, "w") as made_text:
                made_text.write(text.replace(old, new))
            self.assertEqual(self.ask("verify", file)[0], 1, old)

    def test_counted(self):
        """The rows that name them are lost."""
        self.assertIn("\nPlaces left out: 2\nReport lines", self.check_statement()[1])

    def test_of_the_open_cycle(self):
        made = Program(self.at("state"))
        with open(made.path + "/checkpoint") as file:
            text = file.read().replace("left 0\n", "left 2\nleft b\nafter a\nleft d\nstart\n")
        made.put("checkpoint", text.encode())
        made.night(1, 3, 1, 3, 9, 3)
        self.assertIn("; cycle 3 will not be whole: left out b, d;",
                      self.ask("status", *NOW, made.path)[1])
        self.assertIn("<td><bdi>b; d</bdi></td>", self.ask("page", *NOW, made.path)[1])


class Checkpoint(Asked):
    def test_what_a_folder_is_bound_to(self):
        made = Program(self.at("state"), "/srv/a%25b%0A%C3%BC", "from a%01\nbelow end\n")
        folder = state.open_state(made.path)
        self.assertEqual(folder.bound_to("root"), "/srv/a%b\n\u00fc")
        self.assertEqual(folder.ends(), {"from": "a%01", "below": "end"})
        self.assertEqual(folder.bound_to("declared"), "d" * 64)

    def test_one_that_the_program_refuses(self):
        """What a statement says of the root is what the program takes for a checkpoint."""
        made = nights_of(Program(self.at("state")))
        with open(made.path + "/checkpoint", "ab") as checkpoint:
            checkpoint.write(b"damaged\n")
        given, _, err = self.ask("statement", made.path, 1)
        self.assertEqual((given, "checkpoint is refused by the program" in err), (3, True))

    def test_of_an_audit_with_inventories(self):
        """Such a checkpoint is of version 2, and has one line more."""
        made = Program(self.at("state"), part="from a\nbelow end\n", checks=True)
        folder = state.open_state(made.path)
        self.assertEqual(folder.bound_to("root"), "/srv/ocfl")
        self.assertEqual(folder.ends(), {"from": "a", "below": "end"})
        [stands] = folder.standing()
        self.assertEqual((stands.cycle, stands.runs, stands.spent, stands.files, stands.stands),
                         (3, 1, 6, 1, "after o"))
        made.keep_checkpoint(3, ONE)
        with open(made.path + "/reports/checkpoint-000003") as kept:
            mark = report.mark_in(kept.read().split("\n"), "checkpoint-000003")
        self.assertEqual((mark.bytes, mark.lines), (len(ONE), 7))

    def test_of_another_version(self):
        made = Program(self.at("state"))
        for text in (b"", b"ocfl-scrub checkpoint 3\nroot /\n"):
            made.put("checkpoint", text)
            made.night(1, 1, 1, 3, 9)
            given, out, _ = self.ask("status", made.path)
            self.assertEqual((given, "is not a checkpoint of this version" in out), (3, True))


class OfScripts(Asked):
    def test_each_question_is_refused(self):
        """A folder of the scripts of version 1.0.0 is named, and what to do."""
        for name in ("cursor", "nights", "root", "parts-000001"):
            os.mkdir(self.at("of-" + name))
            self.put(b"", "of-%s/%s" % (name, name))
            for words in (["status"], ["page"], ["finish"], ["unverified", "2026-03-01"],
                          ["recheck"], ["repair"], ["database"], ["statement"], ["premis"],
                          ["cycle"]):
                last = {"database": [self.at("made")], "statement": [1], "premis": [1],
                        "cycle": [1]}
                given, out, err = self.ask(*words, self.at("of-" + name), *last.get(words[0], []))
                self.assertEqual(given, 3, (name, words))
                self.assertIn(self.at("of-" + name) + " is a folder of the scripts", out + err)
                self.assertIn("ocfl-scrub night --create", out + err)

    def test_a_folder_of_the_program_is_none(self):
        made = nights_of(Program(self.at("state")))
        made.put("root", b"")
        self.assertIs(type(state.open_state(made.path)), state.State)


class Losses(Asked):
    def test_known_in_statements(self):
        made = nights_of(Program(self.at("state")))
        known = self.put(b"object\tp\n", "known")
        self.assertEqual(self.ask("statement", "--known", known, made.path, 2), (0, "", ""))
        file = made.path + "/reports/statement-000002"
        with open(file) as made_text:
            text = made_text.read()
        self.assertIn("\nObjects gone and not back: 0\nObjects no longer declared, and not back: 0"
                      "\nFiles gone and not back: 1\nKnown losses: 1"
                      "\nList of known losses, SHA-256: %s\n" % hashlib.sha256(
                          b"object\tp\n").hexdigest(), text)
        self.assertEqual(self.ask("verify", file)[0], 0)
        os.rename(made.path + "/reports/known-000002", self.at("away"))
        given, out, _ = self.ask("verify", file)
        self.assertEqual((given, "without known-000002: Known losses" in out), (4, True))
        made.put("reports/known-000002", b"object\tq\n")
        self.assertEqual(self.ask("verify", file)[0], 1)

    def test_back_gone_and_back(self):
        """Each is listed once, also if it was gone twice; few are in memory."""
        made = Program(self.at("state"))
        for cycle, places, gone in [(1, b"abc", b""), (2, b"", b"abc"), (3, b"ab", b""),
                                    (4, b"a", b"b")]:
            made.close(cycle, cycle, b"".join(b"ok\t%c\t-\n" % it for it in places),
                       b"".join(b"object\t%c\n" % it for it in gone))
        folder = state.open_state(made.path)
        for held in (1, 2, 9):
            with mock.patch.object(standing, "HELD", held):
                found = [sorted(standing.losses(folder, upto)) for upto in (1, 2, 3, 4, None)]
            self.assertEqual(found, [[], [b"object\ta", b"object\tb", b"object\tc"],
                                     [b"object\tc"], [b"object\tb", b"object\tc"],
                                     [b"object\tb", b"object\tc"]])


class Compressed(Asked):
    def test_a_report_by_its_name_of_before(self):
        """What was asked of a report is asked of it in the same words once it is compressed."""
        made = nights_of(Program(self.at("state")))
        self.ask("statement", made.path, 1)
        one, two = (made.path + "/reports/cycle-%06d" % it for it in (1, 2))
        asked = [["findings", one], ["findings", "--new", one, two], ["totals", one, two],
                 ["bytes", one], ["json", one], ["changed", one, two],
                 ["verify", made.path + "/reports/statement-000001", one]]
        before = [self.ask(*words) for words in asked]
        with open(one, "rb") as plain, gzip.open(one + ".gz", "wb") as packed:
            packed.write(plain.read())
        self.assertEqual([self.ask(*words) for words in asked], before)
        os.remove(one)
        self.assertEqual([(status_, out.replace(".gz", ""), err) for status_, out, err in (
            self.ask(*words) for words in asked)], before)
        self.assertEqual({status_ for status_, *_ in before}, {0})


class Moved(Asked):
    """The files of one cycle, without those of the one before."""

    def test_what_was_before_is_not_there(self):
        made = nights_of(Program(self.at("state")))
        for cycle in (1, 2):
            self.ask("statement", made.path, cycle)
        file, away = made.path + "/reports/statement-000002", self.at("away")
        self.assertEqual(self.ask("verify", file)[0], 0)
        for name, lines in [
                ("cycle-000001", "Report compared with, SHA-256; New findings; Changed findings; "
                                 "Former findings; Repaired findings; Repaired finding 1; "
                                 "Repaired findings not listed; Findings no longer looked at"),
                ("statement-000001", "Statement before, SHA-256")]:
            os.rename(os.path.join(made.path, "reports", name), away)
            given, out, _ = self.ask("verify", file)
            self.assertEqual((given, out.splitlines()[1:2]),
                             (4, ["not checked, without %s: %s" % (name, lines)]))
            os.rename(away, os.path.join(made.path, "reports", name))

    def test_where_a_report_is_not(self):
        """The folder is named also where the statement is named without one."""
        made = nights_of(Program(self.at("state")))
        self.ask("statement", made.path, 1)
        os.remove(made.path + "/reports/cycle-000001")
        self.addCleanup(os.chdir, os.getcwd())
        os.chdir(made.path + "/reports")
        self.assertIn("the report cycle-000001 is not there, in .\n",
                      "".join(self.ask("verify", "statement-000001")[1:]))


class Joined(Asked):
    """Two parts of a root, whose nights begin a minute apart."""

    def setUp(self):
        super().setUp()
        self.parts = [Program(self.at("state/part-%06d" % number), part=ends, cycle=1)
                      for number, ends in ((1, "from start\nbelow p\n"),
                                           (2, "from p\nbelow end\n"))]
        os.mkdir(self.at("state/reports"))

    def nights(self, day, cycle, code=0):
        for number, made in enumerate(self.parts):
            night = at(night_of(day)) + 60 * number
            made.log(row="slice", time=night, night=night, cycle=cycle, run=1, status=code, cost=9,
                     spent=9, files=1, lines=3 + number, bytes=9, seconds=60, stands="ended")
            made.log(row="night", time=night + 600, night=night, status=code * (number == 0),
                     runs=1, cost=9, seconds=600, findings=0)

    def test_status(self):
        self.nights(1, 1, 3)
        folder = state.open_state(self.at("state"))
        self.assertEqual(type(folder), state.JoinedState)
        given, out, _ = self.ask("status", "--now", "2026-03-02T05:00:00Z", self.at("state"))
        self.assertIn("last night 2026-03-01T22:00:00Z, status 3; cycle 1 is open, 2 files with "
                      "10 bytes read in 1 night, how much is left is not known;", out)
        self.assertEqual(given, 2)

    def test_a_part_that_waits(self):
        self.nights(1, 1)
        self.parts.pop()
        self.nights(4, 1)

        def status_at(now):
            given, out, _ = self.ask("status", "--now", now, self.at("state"))
            return given, re.findall("part [^;]*", out)

        expected = "part 2 began 3 days ago"
        self.assertEqual(status_at("2026-03-05T05:00:00Z"), (2, [expected]))
        self.put(b"ok\tp\t-\n", "state/part-000002/reports/cycle-000001")
        self.assertEqual(status_at("2026-03-05T05:00:00Z"), (0, []))
        Program(self.at("state/part-000003"))
        self.assertEqual(status_at("2026-03-05T05:00:00Z"), (2, ["part 3 has made no night"]))

    def test_a_part_that_waits_after_a_cycle_that_is_not_joined(self):
        """A closed report of that cycle is none of the open one."""
        self.nights(1, 1)
        for number, kind in ((1, "cycle"), (2, "incomplete")):
            self.put(ONE, "state/part-%06d/reports/%s-000001" % (number, kind))
        self.parts.pop()
        self.nights(4, 2)
        self.put(ONE, "state/part-000001/reports/cycle-000002")
        for number in (1, 2):
            checkpoint = self.at("state/part-%06d/checkpoint" % number)
            with open(checkpoint) as file:
                said = file.read().replace("\ncycle 1\n", "\ncycle 2\n")
            self.put(said.encode(), "state/part-%06d/checkpoint" % number)
        now = ["--now", "2026-03-05T05:00:00Z"]
        given, out, _ = self.ask("status", *now, self.at("state"))
        self.assertEqual((given, "part 2 began 3 days ago" in out), (2, True), out)
        self.assertIn("1 of 2 parts are done", self.ask("page", *now, self.at("state"))[1])
        self.put(ONE, "state/reports/cycle-000002")
        self.assertIn("2 of 2 parts are done", self.ask("page", *now, self.at("state"))[1])

    def test_joined(self):
        self.nights(1, 1)
        self.parts[0].put("report", ONE)
        self.assertIn("1 damaged or unreadable file (", self.ask("status", *NOW, self.at("state"))[1])
        self.put(ONE, "state/reports/cycle-000001")
        self.assertEqual(self.ask("statement", self.at("state"), 1), (0, "", ""))
        file = self.at("state/reports/statement-000001")
        with open(file) as made_text:
            text = made_text.read()
        self.assertIn("\nRuns: 2\n", text)
        self.assertIn("\nNights: 1\n", text)
        self.assertEqual(self.ask("verify", file)[0], 0)
        self.assertEqual(self.ask("database", self.at("state"), self.at("db"))[0], 0)
        database = sqlite3.connect(self.at("db"))
        self.assertEqual(database.execute("select cycle, lines from run order by lines").fetchall(),
                         [(1, 3), (1, 7)])
        self.assertEqual([row[0] for row in database.execute(
            "select distinct began from dated order by began")],
            ["2026-03-01T22:00:00Z", "2026-03-01T22:01:00Z"])
        database.close()
        self.nights(2, 2)
        kinds = [(it.kind, it.cycle) for it in state.open_state(self.at("state")).entries()]
        self.assertIn(("ended", 1), kinds)

    def closed(self, day, cycle, gone=b"", parts=(0, 1)):
        """A cycle that parts close, an hour apart, and the reports joined."""
        for number in parts:
            self.parts[number].close(day, cycle, TWO, gone if number == 0 else b"")
            self.parts[number].rows[-1]["time"] += 3600 * number
            self.parts[number].log_night(day)
        self.put(TWO if gone else ONE, "state/reports/cycle-%06d" % cycle)
        self.put(gone, "state/reports/gone-%06d" % cycle)

    def check_statement(self, cycle):
        """The statement of a cycle, which holds."""
        self.assertEqual(self.ask("statement", self.at("state"), cycle), (0, "", ""))
        file = self.at("state/reports/statement-%06d" % cycle)
        self.assertEqual(self.ask("verify", file)[:1], (0,))
        with open(file) as made_text:
            return made_text.read()

    def test_closings_of_parts(self):
        """A cycle is closed once its last part is, and compared as all of them were."""
        for day in (1, 2):
            self.nights(day, day)
            self.closed(day, day, GONE if day == 2 else b"")
        text = self.check_statement(1)
        for row in ["Closed: 2026-03-01T23:30:00Z", "Compared with cycle: nothing",
                    "Not compared: there is no earlier cycle", "Objects gone: not known"]:
            self.assertIn("\n%s\n" % row, text)
        text = self.check_statement(2)
        for row in ["Closed: 2026-03-02T23:30:00Z", "Compared with cycle: 1", "New findings: 1",
                    "Former findings: 1", "Objects gone: 1", "Files gone: 1",
                    "Report compared with, SHA-256: " + hashlib.sha256(ONE).hexdigest()]:
            self.assertIn("\n%s\n" % row, text)

    def test_statements_of_the_forms_before(self):
        """They lack lines of this form. What the first two say of losses was not known, and the rest
        of them holds by its own meaning: findings are compared by whole lines."""
        for day in (1, 2):
            self.nights(day, day)
            self.closed(day, day, GONE if day == 2 else b"")
        text = self.check_statement(2)
        name = "(%s)( [0-9]+)?: .*\n"
        forms = list(statement.ADDED)
        for at_, lacking in ((2, [3]), (1, [2, 3]), (0, [1, 2, 3])):
            added = "|".join(re.escape(it).replace("\\ \\*", "") for form in lacking
                             for it in sorted(statement.ADDED[forms[form]]))
            old = re.sub("(?m)^" + name % added, "", text).replace(forms[3], forms[at_])
            given, out = self.verify_text(old)
            if at_ == 2:
                self.assertEqual((given, "not known when" in out), (0, False), out)
                self.assertEqual(self.verify_text(old.replace("Former findings: 1", "Former "
                                                              "findings: 2"))[0], 1)
                continue
            self.assertEqual((given, out.splitlines()[-1]), (
                4, "not known when statements of this form were made: Compared with cycle; Objects "
                "gone; Files gone; Objects gone and not back; Files gone and not back"), out)
            self.assertEqual(self.verify_text(old.replace("New findings: 1", "New findings: 2"))[0],
                             1)
        for at_, line in ((2, "Repaired findings"), (1, "Changed findings")):
            given, out = self.verify_text(text.replace(forms[3], forms[at_]))
            self.assertEqual((given, "no statement has the line: " + line in out), (1, True))
        # What parts that were compared with different cycles found gone was not counted.
        old = re.sub("gone: 1", "gone: not known", old)
        self.assertEqual(self.verify_text(old)[0], 4)

    def verify_text(self, text):
        """The status and the output of `verify` for this text of the statement of cycle 2."""
        self.put(text.encode(), "state/reports/statement-000002")
        self.put(statement.as_json(text).encode(), "state/reports/statement-000002.json")
        return self.ask("verify", self.at("state/reports/statement-000002"))[:2]

    def test_a_closing_of_a_part_that_no_row_tells_of(self):
        """What is gone is told of, though nobody knows when the cycle was closed."""
        for day in (1, 2):
            self.nights(day, day)
            self.closed(day, day, GONE if day == 2 else b"", (0,) if day == 2 else (0, 1))
        text = self.check_statement(2)
        for row in ["Closed: not known", "Compared with cycle: not known",
                    "Objects gone: at least 1", "Files gone: at least 1"]:
            self.assertIn("\n%s\n" % row, text)


class Finishing(Asked):
    def test_finish(self):
        made = nights_of(Program(self.at("state")))
        for day in (5, 6):
            made.slice(day, day - 2, 1, 7, 18, 1, "ended")
            made.close(day, day - 2, TWO, whole=day == 5)
            made.log_night(day)
        seal = ["--seal", 'rev "$1" > "$1.rev"']
        self.assertEqual(self.ask("finish", *seal, made.path), (0, "", ""))
        names = os.listdir(made.path + "/reports")
        self.assertEqual(sorted(it for it in names if it[0] in "ci"), [
            "cycle-000001.gz", "cycle-000002", "cycle-000003", "incomplete-000004"])
        self.assertEqual(len([it for it in names if it.endswith(".rev")]), 4)
        with gzip.open(made.path + "/reports/cycle-000001.gz") as packed:
            self.assertEqual(packed.read(), ONE)
        self.assertEqual({stat.S_IMODE(os.stat(made.path + "/reports/" + it).st_mode)
                          for it in names if it.endswith(".gz")}, {0o640})
        self.assertEqual(self.ask("verify", made.path + "/reports/statement-000002")[0], 0)
        self.assertEqual(self.ask("finish", "--keep", 2, made.path), (0, "", ""))
        self.assertEqual(sorted(it for it in os.listdir(made.path + "/reports") if it[0] in "ci"),
                         ["cycle-000002", "cycle-000003", "incomplete-000004"])

    def test_what_is_not_removed(self):
        made = nights_of(Program(self.at("state")))
        made.night(5, 3, 1, 7, 18, stands="ended")
        made.close(5, 3, TWO)
        with mock.patch("ocfl_scrub_reports.statement.of_program", side_effect=OSError("none")):
            given, _, err = self.ask("finish", "--keep", 1, made.path)
        self.assertEqual((given, err.count("could not be made")), (3, 3))
        self.assertIn("cycle-000001.gz", os.listdir(made.path + "/reports"))

    def test_while_a_night_runs(self):
        made = nights_of(Program(self.at("state")))
        with made.under_way():
            self.assertEqual(self.ask("finish", made.path)[0], 75)


class Telling(Asked):
    def run_tell(self, made, **given):
        given = {"MAIL": "", "JOURNAL": "", "EXIT_CODE": "exited", **given}
        with mock.patch.dict(os.environ, given):
            return self.ask("tell", "archive", made.path)

    def test_what_was_not_sent_is_sent_once(self):
        made = nights_of(Program(self.at("state")))
        for at_, name in enumerate(["tonight.b", "tonight.a", "tonight.c", "tonight.d.new"]):
            made.put(name, b"text of %s\n" % name.encode())
            os.utime(os.path.join(made.path, name), (at_, at_))
        os.symlink(self.put(b"secret\n", "secret"), made.path + "/tonight.link")
        given = {"INVOCATION_ID": "c", "EXIT_STATUS": "0"}
        self.assertEqual(self.run_tell(made, **given), (0, "", "ocfl-scrub: archive: a message "
                         "about the nights\ntext of tonight.b\ntext of tonight.a\n"
                         "text of tonight.c\n"))
        self.assertEqual(sorted(it for it in os.listdir(made.path) if it.startswith("ton")),
                         ["tonight", "tonight.d.new", "tonight.link"])
        self.assertEqual(self.run_tell(made, **given), (0, "", ""))

    def test_what_a_night_still_writes_is_not_sent(self):
        made = nights_of(Program(self.at("state")))
        for name in ("tonight.own", "tonight.other"):
            made.put(name, b"of %s\n" % name.encode())
        with made.under_way():
            said = self.run_tell(made, INVOCATION_ID="own", EXIT_STATUS="1")[2]
        self.assertEqual(said.splitlines()[1:], ["of tonight.own"])
        self.assertEqual(self.run_tell(made, EXIT_STATUS="0")[2].splitlines()[1:],
                         ["of tonight.other"])

    def test_what_could_not_be_sent_stays(self):
        made = nights_of(Program(self.at("state")))
        made.put("tonight.a", b"text\n")
        given = {"INVOCATION_ID": "b", "EXIT_STATUS": "1", "MAIL": "me", "PATH": "/none"}
        status_, _, said = self.run_tell(made, **given)
        self.assertEqual((status_, "text\n" in said), (3, True))
        self.assertTrue(os.path.exists(made.path + "/tonight.a"))


class Owners(Asked):
    """What root asks of another user's folder is asked with the rights of that user."""

    def dropped(self, *words):
        found = []
        with mock.patch("os.geteuid", return_value=0), mock.patch("os.setgroups"), mock.patch(
                "os.setresgid", lambda *_: None), mock.patch(
                "os.setresuid", lambda *it: found.append(it[0])):
            self.ask(*words)
        return found

    def test_each_command_drops_its_rights(self):
        made = nights_of(Program(self.at("state")))
        self.ask("statement", made.path, 1)
        real = os.stat

        def of_seven(path, *given, **more):
            found = list(real(path, *given, **more))
            found[4] = 7 if os.fspath(path).startswith(made.path) else 0
            return os.stat_result(found)

        report = made.path + "/reports/cycle-000001"
        with mock.patch("os.stat", of_seven):
            for words in [["status", made.path], ["page", made.path], ["finish", made.path],
                          ["unverified", "2026-03-01", made.path], ["recheck", made.path],
                          ["database", made.path, self.at("made")], ["tell", "x", made.path],
                          ["statement", made.path, 2], ["premis", made.path, 1],
                          ["cycle", made.path, 1], ["repair", made.path],
                          ["status", self.folder + "/none", made.path],
                          ["verify", made.path + "/reports/statement-000001"],
                          ["findings", report], ["totals", report], ["bytes", report],
                          ["json", report], ["changed", report, report]]:
                self.assertEqual(set(self.dropped(*words)), {7}, words)

    def test_a_link_to_nothing_is_of_its_user(self):
        os.symlink("/none", self.at("link"))
        real = os.stat

        def of_seven(path, *given, follow_symlinks=True, **more):
            found = list(real(path, *given, follow_symlinks=follow_symlinks, **more))
            found[4] = 7 if path == self.at("link") else 0
            return os.stat_result(found)

        with mock.patch("os.stat", of_seven):
            self.assertEqual(set(self.dropped("status", self.at("link"))), {7})


class Words(Asked):
    def commands(self):
        return sorted(name for name, *_ in command.COMMANDS)

    def test_help_ends_with_an_example(self):
        for words in [[], *([name] for name in self.commands())]:
            given, out, _ = self.ask(*words, "--help")
            self.assertEqual((given, out.startswith("usage: ")), (0, True))
            self.assertRegex(out, r"\n\nexample:\n  ocfl-scrub-reports %s[^\n]+\n$"
                             % " ".join(words))

    def test_words_that_nobody_knows(self):
        for words in [["nothing"], [], ["--what"], *([name, "--what"] for name in self.commands())]:
            given, out, err = self.ask(*words)
            expected = 3 if words[:1] == ["status"] else 2
            self.assertEqual((given, out, err.startswith("usage: ")), (expected, "", True), words)

    def test_names_that_begin_with_a_dash(self):
        nights_of(Program(self.at("-state")))
        self.put(ONE, "-report")
        kept = os.getcwd()
        os.chdir(self.folder)
        try:
            for words in [["status", *NOW], ["unverified", "2026-03-01"], ["page", *NOW],
                          ["finish"], ["recheck"]]:
                more = [words.pop()] if words[0] == "unverified" else []
                self.assertEqual(self.ask(*words, "--", *more, "-state")[0], {
                    "status": 2, "recheck": 3}.get(words[0], 0), words)
            for words in [["findings", "--", "-report"], ["totals", "--", "-report"],
                          ["changed", "--", "-report", "-report"],
                          ["statement", "--", "-state", "1"], ["premis", "--", "-state", "1"],
                          ["cycle", "--", "-state", "1"],
                          ["database", "--", "-state", "-made"], ["tell", "--", "-x", "-state"]]:
                self.assertEqual(self.ask(*words)[0], 0, words)
        finally:
            os.chdir(kept)
