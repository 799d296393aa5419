"""Tests the list of expected objects that `nights/ocfl_scrub_reports` makes of OCFL ids."""
import json
import os
import shutil
import sys
from unittest import mock

from gate.repository import TOP

sys.path.insert(0, os.path.join(TOP, "nights"))

from nights.tests.test_night_states import Asked, Program


class Expected(Asked):
    def setUp(self):
        super().setUp()
        self.root = self.at("root")
        self.made = Program(self.at("state"), self.root)
        os.mkdir(self.root)
        self.put(b"", "root/0=ocfl_1.1")
        self.object("a%b/o", "urn:1")
        self.object("a%b/\u00fc", "urn:2\u00fc")
        self.object("z", "z")
        self.object("extensions/x", "urn:of-an-extension")

    def object(self, place, name):
        os.makedirs(os.path.join(self.root, place))
        self.put(b"", "root/%s/0=ocfl_object_1.1" % place)
        self.put(json.dumps({"id": name}).encode(), "root/%s/inventory.json" % place)

    def list(self, text):
        return self.ask("expected", "--ids", self.put(text.encode(), "ids"), self.made.path)

    def test_the_places_of_ids(self):
        self.assertEqual(self.list("urn:2\u00fc\r\n\nz\nurn:1\n"),
                         (0, "a%25b/o\na%25b/%C3%BC\nz\n", ""))

    def test_ids_that_no_object_has(self):
        self.assertEqual(self.list("z\nurn:of-an-extension\nurn:\x1b"), (
            1, "z\n", "no object has this id: urn:of-an-extension\n"
            "no object has this id: urn:%1B\n"))

    def test_two_objects_of_one_id(self):
        shutil.copytree(self.root + "/z", self.root + "/y")
        self.assertEqual(self.list("z\n"), (1, "y\nz\n", "2 objects have this id: z\n"))

    def test_an_id_that_cannot_be_read(self):
        self.object("b", 7)
        os.symlink("z", self.root + "/link")
        os.rename(os.fsencode(self.root) + b"/z", os.fsencode(self.root) + b"/\xff")
        self.assertEqual(self.list("z\n"), (
            1, "", "no id can be read: b\nno id can be read: %FF\nno object has this id: z\n"))

    def test_a_path_that_is_a_remark(self):
        self.object("#a", "a")
        self.assertEqual(self.list("a\n"), (
            1, "#a\n", "a line that begins with # lists nothing: #a\n"))

    def test_objects_of_a_report(self):
        """Those of the last whole one, each once, also where no storage root is there now."""
        shutil.rmtree(self.root)
        self.assertEqual(self.ask("expected", self.made.path), (
            3, "", "no cycle of %s is closed\n" % self.made.path))
        self.made.close(1, 1, b"ok\t.\t-\nok\to\t-\n", whole=False)
        said = self.ask("expected", self.made.path)
        self.assertEqual((*said[:2], "incomplete-000001 is not whole: the list lacks" in said[2]),
                         (1, "o\n", True))
        self.made.close(2, 2, b"ok\t.\t-\nok\ta%25b/o\t-\nok\ta%25b/o/v1/content/x\t3\n"
                        b"E061\tp\tsha512\nS07\tp\tmd9\nE072\tq/inventory.json\t-\n"
                        b"E033\tr\t-\n")
        self.made.close(3, 3, b"ok\t.\t-\n", whole=False)
        self.assertEqual(self.ask("expected", self.made.path), (0, "a%25b/o\np\nr\n", ""))
        self.made.close(4, 4, b"ok\t.\t-\nok\t#a\t-\n")
        self.assertEqual(self.ask("expected", self.made.path), (
            1, "#a\n", "a line that begins with # lists nothing: #a\n"))

    def test_what_is_missing(self):
        report = self.put(b"ok\t.\t-\nok\ta\t-\nE073\tb\t-\nok\tc/d\t3\nE003\td\t-\n")
        listed = self.put(b"# all\n\nd\na/\nb\nc\nc/d\nno%25", "list")
        for held in (1, 9):
            with mock.patch("ocfl_scrub_reports.standing.HELD", held):
                given, out, err = self.ask("missing", listed, report)
                self.assertEqual((given, out.splitlines(), err), (
                    1, ["expected\t" + it for it in ("b", "c", "c/d", "no%25")], ""))
        self.assertEqual(self.ask("missing", self.put(b"a\nd//\n", "list"), report), (0, "", ""))
        self.assertEqual(self.ask("missing", self.put(b"#a\n/\n", "list"), report)[0], 2)
        os.rename(report, self.at("incomplete-000001"))
        given, out, err = self.ask("missing", listed, self.at("incomplete-000001"))
        self.assertEqual((given, out, "is not whole" in err), (3, "", True))

    def test_no_root_and_no_id(self):
        self.assertEqual(self.list("\n\n")[0], 2)
        shutil.rmtree(self.root)
        given, out, err = self.list("z\n")
        self.assertEqual((given, out, "is it mounted?" in err), (3, "", True))
