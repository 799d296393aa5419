"""Tests the pages of `nights/ocfl_scrub_reports`: what they say of a cycle and of nights, and that
no name in them is markup."""
import hashlib
import json
import os
import re
from html.parser import HTMLParser

from nights.tests.test_night_states import NOW, Asked, Program, at, night_of
from ocfl_scrub_reports import expected, markup, page, repair, units
from ocfl_scrub_reports.statement import ADDED, FORM

# Names as reports write them, and as a page shows them: what is not seen, or changes the order of
# what is, as its bytes.
NAMES = [(b"a b", "a b"), (b"%C3%BC", "\xfc"), (b"<script>alert(1)<!--", "<script>alert(1)<!--"),
         (b"\"onclick='x'", "\"onclick='x'"), (b"&lt;", "&lt;"), (b"100%25", "100%"),
         (b"%1B[2J%0A", "[%1B][2J[%0A]"), (b"%E2%80%AEgpj.exe", "[%E2%80%AE]gpj.exe"),
         (b"%E2%80%8B", "[%E2%80%8B]"), (b"%FF%C3", "[%FF][%C3]"), (b"%251B", "%1B"),
         (b"%D7%90", "\u05d0"), (b"]]>-->", "]]>-->"), (b" a  ", " a[%20][%20]"),
         (b"%2520", "%20")]
# What the program writes as bytes in a message: marks of direction (Unicode's `Bidi_Control`), and
# what ends a line or a paragraph.
TURNING = "\u061c\u200e\u200f\u2028\u2029\u202a\u202b\u202c\u202d\u202e\u2066\u2067\u2068\u2069"
ROOT = "/srv/<b>%22%E2%80%AE"
DAMAGED = hashlib.sha512(b"1").hexdigest(), hashlib.sha512(b"2").hexdigest()
FIRST = (b"ok\t.\t-\nok\to\t-\nok\to/v1/content/a\t3\nok\to/v1/content/b\t1200\n"
         b"E092\to/v1/content/c\tsha512 missing\nok\tp\t-\nok\tp/v1/content/a\t1\nok\tq\t-\n"
         b"ok\tq/v1/content/a\t1\nok\tr\t-\nS08\tr/v1/content/a\t-\n")
SECOND = ("ok\t.\t-\nok\to\t-\nE092\to/v1/content/a\tsha512 %s %s\nok\to/v1/content/b\t1200\n"
          "ok\to/v1/content/c\t5\nE092\to/v1/content/d\tmd5 missing\nE072\tq/inventory.json\t-\n"
          "E061\tr\tsha512\nE023\tr/v1/content/a\t-\nE073\tz\t-\n" % DAMAGED).encode()
LOST = b"object\tp\nundeclared\tq\n"


class Read(HTMLParser):
    """A page as a browser reads it: its text, in which a frame is a pair of brackets, its elements,
    and whether each one that begins ends."""

    ALONE = ("meta", "wbr")

    def __init__(self, page):
        super().__init__()
        self.text, self.elements, self.opened, self.is_whole = "", [], [], True
        self.feed(page)
        self.close()
        self.is_whole = self.is_whole and not self.opened

    def handle_starttag(self, tag, attrs):
        self.elements.append((tag, dict(attrs)))
        if tag not in self.ALONE:
            self.opened.append((tag, dict(attrs).get("class")))
        self.text += "[" * (dict(attrs).get("class") == "byte")

    def handle_startendtag(self, tag, attrs):
        self.elements.append((tag, dict(attrs)))

    def handle_endtag(self, tag):
        last, kind = self.opened.pop() if self.opened else ("", "")
        self.is_whole = self.is_whole and last == tag
        self.text += "]" * (kind == "byte")
        self.text += {"td": "|", "th": "|", "tr": "\n", "p": "\n", "li": "\n", "h1": "\n",
                      "h2": "\n", "h3": "\n", "caption": "\n", "style": "\n"}.get(tag, "")

    def handle_data(self, data):
        if not self.opened or self.opened[-1][0] != "style":
            self.text += data


class Texts(Asked):
    def test_names(self):
        for name, shown in NAMES:
            read = Read(markup.place(name))
            self.assertEqual((read.text, read.is_whole), (shown, True))
            self.assertLessEqual({tag for tag, _ in read.elements}, {"span", "bdi", "wbr"})

    def test_ids(self):
        """An id of JSON can have halves of characters."""
        self.assertEqual(Read(markup.text("\ud800\udcff<")).text, "[%ED%A0%80][%FF]<")

    def test_what_turns_a_line_around(self):
        for it in TURNING:
            data = it.encode()
            percents = "".join("%%%02X" % byte for byte in data)
            self.assertEqual((Read(markup.text("a" + it)).text, expected.shown("a" + it)),
                             ("a[%s]" % percents, "a" + percents))
            self.assertEqual(repair.word(b"a" + data),
                             b"$'a%s'" % b"".join(b"\\x%02x" % byte for byte in data))

    def test_sizes(self):
        for count, shown in [(0, "0 bytes"), (1, "1 byte"), (999, "999 bytes"), (1000, "1 kB"),
                             (1200, "1.2 kB"), (999999, "1 MB"), (50_300_000, "50.3 MB"),
                             (10 ** 12, "1 TB"), (2 * 10 ** 18, "2,000 PB")]:
            self.assertEqual(units.size(count), shown)
        for seconds, shown in [(0, "0 s"), (59, "59 s"), (90, "1.5 min"), (3600, "1 h"),
                               (360000, "100 h")]:
            self.assertEqual(units.span(seconds), shown)

    def test_scales(self):
        for most, steps in [(1, [0, 0.5, 1]), (1.9, [0, 0.5, 1, 1.5, 2]), (3, [0, 1, 2, 3]),
                            (7, [0, 2, 4, 6, 8]), (90, [0, 50, 100]), (410, [0, 200, 400, 600])]:
            self.assertEqual(page.steps_to(most), steps)

    def test_details(self):
        for code, said, shown in [
                (b"E092", b"sha512 %s %s" % tuple(it.encode() for it in DAMAGED),
                 "expected sha512 4dff4ea340f0.., found 40b244112641.."),
                (b"E092", b"md5 missing", "expected a digest of md5"), (b"E073", b"-", ""),
                (b"E060", b"sha256 %3Cab 12", "expected sha256 <ab, found 12"),
                (b"E060", b"sha256 0123456789ab 0123456789abc",
                 "expected sha256 0123456789ab, found 0123456789ab.."),
                (b"E099", b"a//%22", 'a//"')]:
            self.assertEqual(Read(markup.detail(code, said)).text, shown)


class Cycles(Asked):
    """A cycle with findings, and one that is compared with it."""

    def setUp(self):
        super().setUp()
        os.makedirs(self.at("root/o"))
        self.put(b"", "root/0=ocfl_1.1")
        self.put(json.dumps({"id": "urn:<i>\n"}).encode(), "root/o/inventory.json")
        self.made = Program(self.at("state"), root=self.at("root"))
        self.cycle(1, FIRST, unlooked=0, back=0)

    def cycle(self, number, report, gone=b"", **more):
        self.made.slice(number, number, 1, report.count(b"\n"), 1300, 1, "ended", 1300)
        self.made.close(number, number, report, gone, **more)
        self.made.log_night(number, 1)
        self.assertEqual(self.ask("statement", self.made.path, number), (0, "", ""))

    def page(self, number, *words):
        """A page, which runs and loads nothing."""
        status, out, said = self.ask("cycle", *words, self.made.path, number)
        self.assertEqual((status, said), (0, ""))
        read = Read(out)
        self.assertTrue(read.is_whole)
        self.assertLessEqual({tag for tag, _ in read.elements}, {
            "html", "head", "meta", "title", "style", "body", "main", "section", "h1", "h2", "h3",
            "p", "ul", "li", "table", "caption", "thead", "tbody", "tr", "th", "td", "span", "bdi",
            "wbr", "pre"})
        self.assertLessEqual({name for _, given in read.elements for name in given}, {
            "lang", "charset", "name", "content", "class", "scope", "dir", "http-equiv"})
        self.assertNotRegex(out, "url[(]|@import|https?:")
        self.assertIn({"http-equiv": "Content-Security-Policy",
                       "content": "default-src 'none'; style-src 'unsafe-inline'"},
                      [given for tag, given in read.elements if tag == "meta"])
        return re.sub("\n+", "\n", read.text)

    def has(self, text, *pieces):
        self.assertEqual([it for it in pieces if it not in text], [])

    def test_what_was_found(self):
        self.cycle(2, SECOND, LOST, unlooked=1, back=0, repaired=1)
        shown = self.page(2)
        self.has(
            shown, "CRITICAL", "6 findings, 2 damaged or unreadable files.", "1 object is gone.",
            "1 object is no longer declared.", "objects|2|", "content files|5|",
            "files found right|2|", "bytes found right|1.21 kB (1,205 bytes)|",
            "Yes: the report has every line", "bytes have changed|E092|1|restore the file",
            "missing|E092|1|restore the file from a copy with the expected digest|",
            "Object urn:<i>[%0A]\no\n",
            "v1/content/a|bytes have changed|E092|expected sha512 4dff4ea340f0.., found "
            "40b244112641..|new|", "v1/content/d|missing|E092|expected a digest of md5|new|",
            "Object at q\n", "inventory.json|a file outside of any object|E072||new|",
            "Object at r\n", "the object itself|its inventory's sidecar cannot be used|E061|"
            "sha512|new|", "v1/content/a|not in the inventory|E023||new|", "detail|since cycle 1|",
            "Outside of any object\n", "z|an empty folder where an object should be|E073||new|",
            "Gone since cycle 1", "object|p|", "object, no longer declared|q|",
            "1 file is no longer looked at", "1 finding is repaired.",
            "o/v1/content/c|bytes have changed, or missing|E092|right|",
            "r/v1/content/a|could not be read|S08|not in the inventory|", "has no seal")
        self.assertNotIn("gone before", shown)
        self.assertLess(shown.index("Object urn"), shown.index("Object at r"))
        self.assertLess(shown.index("Object at r"), shown.index("Object at q"))

    def test_digests(self):
        self.cycle(2, SECOND, LOST)
        self.ask("statement", "--seal", 'printf abc > "$1.asc"', self.made.path, 2)
        path = self.made.path + "/reports/statement-000002"
        with open(path, "rb") as file:
            text = file.read()
        shown = self.page(2)
        self.has(shown, "statement|statement-000002|%s|" % hashlib.sha256(text).hexdigest(),
                 "report, without compression|cycle-000002|%s|" % hashlib.sha256(
                     SECOND).hexdigest(),
                 "list of what is gone|gone-000002|%s|" % hashlib.sha256(LOST).hexdigest(),
                 "seal|statement-000002.asc|%s|" % hashlib.sha256(b"abc").hexdigest(),
                 text.decode().replace("\n\n", "\n"))
        os.remove(path + ".asc")
        self.has(self.page(2), "seal|statement-000002.asc|it is not there|")

    def test_links_in_the_folder(self):
        """None is followed: what a seal's list names is beside the statement."""
        self.ask("statement", "--seal", 'printf abc > "$1.asc"', self.made.path, 1)
        path = self.made.path + "/reports/statement-000001"
        self.made.put("reports/statement-000001.sealed", b"../log\n../../x.asc\n")
        self.has(self.page(1), "seal|log|it is not there|", "seal|x.asc|it is not there|")
        for name in ("log", "statement-000001.sealed", "statement-000001"):
            kept = path + ".kept"
            where = os.path.join(self.made.path, "reports", name)
            if os.path.exists(where):
                os.rename(where, kept)
            os.symlink(kept if os.path.exists(kept) else "/etc/passwd", where)
            status, out, said = self.ask("cycle", self.made.path, 1)
            self.assertEqual((status, out, "is a link" in said), (3, "", True), name)
            os.remove(where)
            if os.path.exists(kept):
                os.rename(kept, where)

    def test_all_is_well(self):
        self.cycle(2, b"ok\t.\t-\nok\to\t-\nok\to/v1/content/a\t3\n")
        self.cycle(3, b"ok\t.\t-\nok\to\t-\nok\to/v1/content/a\t3\n", back=0)
        self.has(self.page(3), "OK\n", "Nothing was found: 1 content file of 1 object was read to "
                 "the end, and is right.\nNothing is gone since cycle 2.\n",
                 "Nothing: no line of the report is a finding.")

    def test_a_file_with_two_findings(self):
        """It is one damaged file."""
        self.cycle(2, b"ok\t.\t-\nok\to\t-\nE092\to/a\tsha512 0 1\nE093\to/a\tmd5 0 1\n"
                   b"S08\to/b\t-\n")
        self.has(self.page(2), "3 findings, 2 damaged or unreadable files.")

    def test_no_object(self):
        self.cycle(2, b"ok\t.\t-\n")
        self.has(self.page(2), "Nothing was found, and nothing was there to read: the report has "
                 "no object.\n")

    def test_what_is_not_good(self):
        """Nothing was found, and yet not all is well."""
        right = b"ok\t.\t-\nok\to\t-\nok\to/v1/content/a\t3\n"
        self.cycle(2, right, compared=0, why="x")
        self.has(self.page(2), "WARNING", "Nothing was found: ", "What is gone is not known: x.")
        self.cycle(3, right + b"not a line\n")
        self.has(self.page(3), "WARNING", "Nothing was found: ", "Nothing is gone since cycle 2.",
                 "Broken lines: 1")

    def test_findings_of_before(self):
        """Those at places without a line now are not looked at, and not called right."""
        before = (b"E092\to/v1/content/a\tmd5 0 1\nE092\to/v1/content/b\tmd5 0 1\n"
                  b"E092\to/v1/content/c\tmd5 0 1\nE092\to/v1/content/d\tmd5 0 1\n")
        self.cycle(2, b"ok\t.\t-\nok\to\t-\n" + before)
        self.cycle(3, b"ok\t.\t-\nok\to\t-\nE092\to/v1/content/a\tmd5 0 1\n"
                   b"E092\to/v1/content/b\tmd5 0 2\nok\to/v1/content/c\t3\n", repaired=1)
        shown = self.page(3)
        self.has(shown, "v1/content/a|bytes have changed|E092|expected md5 0, found 1|as before|",
                 "v1/content/b|bytes have changed|E092|expected md5 0, found 2|with another "
                 "detail|",
                 "o/v1/content/c|bytes have changed, or missing|E092|right|",
                 "1 finding was not looked at again: it is of the report before, at a place")
        self.assertNotIn("o/v1/content/d", shown)

    def test_what_is_known(self):
        known = self.put(LOST[:9], "known")
        self.made.slice(2, 2, 1, 9, 1300, 1, "ended", 1300)
        self.made.close(2, 2, SECOND, LOST)
        self.made.log_night(2, 1)
        self.ask("statement", "--known", known, self.made.path, 2)
        self.has(self.page(2), "object, known|p|", "object, no longer declared|q|")

    def test_another_checkpoint(self):
        self.cycle(2, SECOND, LOST)
        self.made.keep_checkpoint(2, FIRST)
        status, out, said = self.ask("cycle", self.made.path, 2)
        self.assertEqual((status, out, "was changed since it was closed" in said), (3, "", True))

    def test_what_is_not_known(self):
        self.has(self.page(1), "What is gone is not known: there is no earlier cycle.",
                 "What is repaired is not known: there is no earlier cycle.",
                 "What of it is new is not known: there is no earlier cycle.",
                 "v1/content/c|missing|E092|expected a digest of sha512|not known|")
        self.cycle(2, SECOND, compared=0, why="no <b>")
        self.has(self.page(2), "CRITICAL", "What is gone is not known: no <b>.")

    def test_what_was_left_out(self):
        self.made.log(row="left", time=at(night_of(2)), night=at(night_of(2)), cycle=2,
                      place="q/%1B<script>", why="Permission <b>: M\\xFC")
        self.cycle(2, FIRST[:62], whole=False, left=2, compared=1)
        self.has(self.page(2), "WARNING", "Nothing was found where it looked",
                 "Nothing is gone since cycle 1, outside of what was left out.",
                 "The report is not whole: 2 places were left out.", "No: 2 places were left out.",
                 "q/[%1B]<script>|Permission <b>: M\\xFC|",
                 "1 place was left out whose name the log does not say.")
        self.cycle(3, b"E072\tq/%1B<script>/x\t-\nE072\tr\t-\n", compared=2)
        self.has(self.page(3), "q/[%1B]<script>/x|a file outside of any object|E072||not looked at "
                 "then|", "r|a file outside of any object|E072||new|")

    def test_another_form_of_unicode(self):
        self.cycle(2, b"ok\t.\t-\nok\to\t-\nE092\to/Mu%CC%88\tmd5 missing\nE023\to/M%C3%BC\t-\n"
                   b"E023\to/M\t-\n")
        self.has(self.page(2), "Mu\u0308|missing|E092|", "M|not in the inventory|E023|",
                 "M\xfc|not in the inventory: the name of a missing file in another form of "
                 "Unicode|E023|")

    def test_what_is_back(self):
        self.cycle(2, SECOND, LOST, back=0)
        self.cycle(3, FIRST, b"object\ts\n", back=2)
        self.has(self.page(3), "2 objects are back.", "Back\nwhat|place|\nobject|p|\n"
                 "object, no longer declared|q|\n")
        self.cycle(4, FIRST, b"", back=0)
        self.has(self.page(4), "What was gone before, and is not back: 1 object or file.",
                 "Gone before, and not back\nwhat|place|\nobject|s|")

    def test_expected_objects(self):
        self.cycle(2, FIRST, b"expected\tx\n", expected=1, listed=3, list="e" * 64)
        self.has(self.page(2), "1 expected object is missing.", "expected object, missing|x|",
                 "Expected objects: 3 listed, and missing of them: 1.")

    def test_many(self):
        """The most serious ones are shown, and the others counted."""
        many = b"".join(b"E072\ta/%05d\t-\n" % number for number in range(3000))
        self.cycle(2, b"ok\t.\t-\n" + many + SECOND[7:])
        shown = self.page(2)
        self.has(shown, "3006 findings", "2,006 more are in cycle-000002",
                 "v1/content/a|bytes have changed", "a/00000|", "a/00994|")
        self.assertNotIn("a/00996|", shown)

    def test_files_that_were_changed(self):
        self.cycle(2, SECOND, LOST)
        for name, data in [("gone-000002", b"object\tx\n"), ("cycle-000002", FIRST)]:
            with open(self.made.path + "/reports/" + name, "rb") as file:
                kept = file.read()
            self.made.put("reports/" + name, data)
            status, out, said = self.ask("cycle", self.made.path, 2)
            self.assertEqual((status, out, name in said and "was changed since" in said),
                             (3, "", True))
            self.made.put("reports/" + name, kept)
        os.remove(self.made.path + "/reports/gone-000002")
        self.has(self.page(2), "1 object is gone.", "The list of it is not there any more.")
        self.made.put("reports/cycle-000001", SECOND)
        status, out, said = self.ask("cycle", self.made.path, 2)
        self.assertEqual((status, out, "does not hold: Report compared with" in said),
                         (3, "", True))
        os.remove(self.made.path + "/reports/cycle-000001")
        self.has(self.page(2), "not known: the report of cycle 1 is not there any more")

    def test_a_statement_that_was_changed(self):
        path = self.made.path + "/reports/statement-000001"
        with open(path) as file:
            text = file.read()
        self.has(self.page(1), "It was compared with its report for this page, and holds.")
        self.made.put("reports/statement-000001", text.replace("right: 4", "right: 9").encode())
        status, out, said = self.ask("cycle", self.made.path, 1)
        self.assertEqual((status, out, "does not hold: Files found right" in said), (3, "", True))
        self.made.put("reports/statement-000001", text.encode())
        os.remove(path + ".json")
        self.has(self.page(1), "as far as it could be checked.\n", "not checked, without statement-"
                 "000001.json: Storage root;")

    def test_no_statement(self):
        self.assertEqual(self.ask("cycle", self.made.path, 2)[0:2], (3, ""))

    def test_a_statement_of_an_earlier_form(self):
        """It said that nothing is gone where nothing was compared."""
        self.cycle(2, FIRST, compared=0, why="x")
        path = self.made.path + "/reports/statement-000002"
        forms = list(ADDED)
        later = set().union(*(ADDED[it] for it in forms[2:]))
        with open(path) as file:
            rows = file.read().replace(FORM, forms[1]).splitlines(True)
        self.made.put("reports/statement-000002", re.sub(
            "(?m)^(Objects|Files) gone(.*): .*", "\\1 gone\\2: 0", "".join(
                it for it in rows if it.partition(":")[0] not in later)).encode())
        os.remove(path + ".json")
        shown = self.page(2)
        self.has(shown, "What is gone is not known: a statement of its form")
        self.assertNotIn("Nothing is gone", shown)

    def test_no_storage_root(self):
        os.remove(self.at("root/0=ocfl_1.1"))
        self.has(self.page(1), "Object at o\n", "no storage root is at %s now" % self.at("root"))

    def test_links_in_the_storage_root(self):
        """An inventory behind a link is not read."""
        os.rename(self.at("root/o"), self.at("root/other"))
        os.symlink("other", self.at("root/o"))
        self.has(self.page(1), "Object at o\n")


class Nights(Asked):
    def test_no_night(self):
        made = Program(self.at("state"))
        status, out, _ = self.ask("page", *NOW, made.path)
        self.assertEqual((status, re.sub("\n+", "\n", Read(out).text).split("\n")[4:]), (
            0, ["UNKNOWN", "no night has run", "What is open", "0 open findings",
                "What is gone is not known: no cycle is closed", ""]))

    def test_a_night_without_a_bar(self):
        made = Program(self.at("state"))
        made.refuse(1)
        out = Read(self.ask("page", *NOW, made.path)[1]).text
        self.assertIn("2026-03-01T22:00:00Z|0 bytes|0 s||3, failed|", out)
        self.assertNotIn("an x above its bar", out)

    def test_hostile_names(self):
        made = Program(self.at("state"), root=ROOT)
        report = b"".join(b"E072\t%s\t-\n" % name for name, _ in sorted(NAMES))
        made.slice(1, 1, 1, 9, 2_000_000_000, 1, "ended", 2_000_000_000)
        made.close(1, 1, report, b"object\t<img>%0A\n")
        made.log_night(1, 1)
        made.refuse(2)
        status, out, _ = self.ask("page", *NOW, made.path)
        read = Read(out)
        self.assertTrue(read.is_whole)
        self.assertEqual((status, [name for _, name in NAMES if "\n%s|" % name not in read.text]),
                         (0, []))
        self.assertTrue({"script", "img", "b"}.isdisjoint(tag for tag, _ in read.elements))
        self.assertEqual([given.get("class") for tag, given in read.elements if tag == "rect"],
                         [None, "bad"] * 2)
        for piece in ["Fixity of /srv/<b>\"[%E2%80%AE]\n", "object|<img>[%0A]|", "CRITICAL",
                      "2026-03-01T22:00:00Z|2 GB|1 h|556 kB/s|1, findings|",
                      "2026-03-02T22:00:00Z|0 bytes|0 s||3, failed|", "2 GB", "1.5 GB", "0.5 h",
                      "A night with an x above its bar"]:
            self.assertIn(piece, read.text)
