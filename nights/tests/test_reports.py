"""Tests how `nights/ocfl_scrub_reports` reads reports: their grammar, whole blocks, compression,
and what is counted in them."""
import contextlib
import gzip
import io
import os
import random
import sys
import tempfile
import unittest
from unittest import mock

from gate.repository import TOP

sys.path.insert(0, os.path.join(TOP, "nights"))

from ocfl_scrub_reports import command, counts, files, premis, questions, report, shared, standing
from ocfl_scrub_reports.weights import Known, Weights

RIGHT = [b"ok\t.\t-", b"ok\to/v1/content/a\t13", b"E092\to/a b\tmd5 missing", b"S07\to\tx%25",
         b"E099\to\t/\"a//", b"S08\to%00%7F%FF\t-"]
WRONG = [b"", b"ok", b"ok\t.", b"ok\t.\t", b"ok\t\t-", b"\t.\t-", b"OK\t.\t-", b"E92\to\t-",
         b"E0921\to\t-", b"S008\to\t-", b"ok\to%2f\t-", b"ok\to%41\t-", b"ok\to%\t-", b"ok\to%7\t-",
         b"ok\t\xe9\t-", b"ok\to\t-\t-", b"ok\to\t-\r", b"ok\to\0\t-", b" ok\to\t-", b"E09A\to\t-"]


class Folder(unittest.TestCase):
    def setUp(self):
        folder = tempfile.TemporaryDirectory()
        self.addCleanup(folder.cleanup)
        self.folder = folder.name

    def put(self, data, name="report"):
        path = os.path.join(self.folder, name)
        with open(path, "wb") as file:
            file.write(data)
        return path

    def output_of(self, does, *given):
        """What a function writes to standard output."""
        out = io.TextIOWrapper(io.BytesIO(), write_through=True)
        with contextlib.redirect_stdout(out):
            does(*given)
        return out.buffer.getvalue()


class Grammar(Folder):
    def test_lines(self):
        self.assertEqual([line for line in RIGHT if not report.LINE.fullmatch(line)], [])
        self.assertEqual([line for line in WRONG if report.LINE.fullmatch(line)], [])

    def test_blocks_are_judged_as_their_lines(self):
        chance = random.Random(1)
        for _ in range(3000):
            lines = [chance.choice(RIGHT) for _ in range(chance.randint(1, 4))]
            if chance.random() < 0.6:
                lines[chance.randrange(len(lines))] = self.changed(chance)
            block = b"\n" + b"".join(line + b"\n" for line in lines)
            expected = all(report.LINE.fullmatch(line) for line in b"\n".join(lines).split(b"\n"))
            found = report.Reading("").count_lines(block)
            self.assertEqual(found, block.count(b"\n") - 1 if expected else None, lines)

    @staticmethod
    def changed(chance):
        line = bytearray(chance.choice(RIGHT + WRONG))
        for _ in range(chance.randint(0, 2)):
            at = chance.randint(0, len(line))
            line[at:at + chance.randint(0, 1)] = chance.choice([b"\t", b"%", b"\xff", b"E", b"2"])
        return bytes(line)

    def test_odd_lines_are_counted_and_left_out(self):
        path = self.put(b"ok\t.\t-\nx\nE072\ta\t-\n\nok\tb\t1\nE092\tcut")
        reading = report.Reading(path)
        found = [line.text() for line in reading.apart()]
        self.assertEqual(found, [b"ok\t.\t-", b"E072\ta\t-"])
        self.assertEqual((reading.lines, reading.odd, reading.first_odd), (6, 3, 2))
        with self.assertRaisesRegex(files.Failed, "3 line.* the first is line 2$"):
            list(report.findings(path))

    def test_numbers_of_lines(self):
        chance = random.Random(2)
        lines = [chance.choice([b"ok\ta%d\t7", b"E072\tb%d\t-", b"ok\to%d\t-"]) % at
                 for at in range(500)]
        path = self.put(b"\n".join(lines) + b"\n")
        expected = [(at, line) for at, line in enumerate(lines, 1) if not line.endswith(b"\t7")]
        with mock.patch.object(files, "BLOCK", 97):
            found = [(it.number, it.text()) for it in report.Reading(path).apart()]
        self.assertEqual(found, expected)


class Files(Folder):
    def test_lines_at_any_size_of_block(self):
        data = b"a\n\nbc\n" + b"d" * 50 + b"\nlast"
        for size in range(1, 70):
            with mock.patch.object(files, "BLOCK", size):
                path = self.put(data)
                self.assertEqual(list(files.lines(path)), data.split(b"\n"), size)
                self.assertTrue(all(block[:1] == b"\n" for block in files.blocks(path)))

    def test_gzip(self):
        data = os.urandom(100000) + b"\0" * 100000
        packed = gzip.compress(data)
        for size in (1, 1000, 1 << 15):
            with mock.patch.object(files, "PACKED", size if size > 1 else 7):
                for made, expected in [(packed, data), (packed + packed, data + data),
                                       (packed + b"\0" * 3, data)]:
                    self.assertEqual(b"".join(files.chunks(self.put(made))), expected)

    def test_damaged_gzip(self):
        packed = gzip.compress(os.urandom(1000))
        for made in [packed[:-1], packed[:100], packed[:-6] + b"xxxxxx", packed + b"x", b"x", b""]:
            with self.assertRaises(files.Failed):
                list(files.chunks(self.put(made, "x.gz")))

    def test_put_follows_no_link(self):
        kept, path = self.put(b"kept", "kept"), os.path.join(self.folder, "new")
        os.symlink(kept, path)
        os.symlink(kept, path + ".new")
        shared.put(b"made", path)
        self.assertEqual([b"".join(files.chunks(it)) for it in (kept, path)], [b"kept", b"made"])
        self.assertFalse(os.path.islink(path))


class Questions(Folder):
    def test_new_ones_with_few_in_memory(self):
        chance = random.Random(3)
        every = [b"E072\ta%03d\t-" % at for at in range(200)]
        newer = [line for line in every if chance.random() < 0.7]
        older = [line for line in every if chance.random() < 0.5]
        paths = [self.put(b"".join(it + b"\n" for it in lines), name)
                 for name, lines in (("newer", newer), ("older", older))]
        with mock.patch.object(questions, "HELD", 7):
            found = self.output_of(questions.show_findings, paths[:1], paths[1])
        self.assertEqual(found.splitlines(), [it for it in newer if it not in older])

    def test_lacking_with_few_in_memory(self):
        chance = random.Random(6)
        lines = [[b"E072\ta%d\t-" % chance.randrange(60) for _ in range(50)] for _ in range(2)]
        spools = [questions.findings_in(self.put(b"\n".join(it) + b"\n")) for it in lines]
        with mock.patch.object(questions, "HELD", 7):
            found = questions.count_lacking(*spools)
        self.assertEqual(found, sum(1 for it in lines[0] if it not in lines[1]))

    def test_known(self):
        known = Known(self.put(b"E092\ta\tx\nE092\tb\nE072\tc/\nobject\td\n# E001\te\nE024\t./"))
        lines = [b"E092\ta\tx", b"E092\ta\ty", b"E092\tb\ty", b"E072\tc\t-", b"E072\tc/d/e\t-",
                 b"E072\tcd\t-", b"object\td", b"object\td/e", b"E001\te\t-",
                 b"E024\tf/g\t-"]
        self.assertEqual([known.has(line) for line in lines],
                         [True, False, True, True, True, False, True, False, False, True])

    def test_a_note_is_no_finding(self):
        path = self.put(b"S07\to\tx\nS09\to\tsha512 aa v1\nS08\to/a\t-\n")
        self.assertEqual(list(report.findings(path)), [[b"S08\to/a\t-"]])

    def test_a_finding_beside_an_object_is_not_within_it(self):
        path = self.put(b"ok\to\t-\nE072\to2\t-\nok\tp\t-\nE023\tp/x\t-\n")
        self.assertEqual(counts.Count(path, []).facts()["Objects without findings"], "1")

    def test_an_object_of_which_a_place_was_left_out(self):
        path = self.put(b"ok\to\t-\nok\to/x\t3\nok\to-\t-\nok\tp\t-\n")
        for left, expected in [(["o/v1"], "2"), (["q", "p"], "2"), (["o%"], "3"),
                               (None, "not known")]:
            self.assertEqual(counts.Count(path, left).facts()["Objects without findings"],
                             expected)

    def test_an_inventory_of_a_version_is_a_file(self):
        weights, there = Weights(), b"o/v1/inventory.json"
        for code in (b"E058", b"E060", b"E061"):
            for path, is_version in ((there, True), (b"a/o/v010/inventory.json", True),
                                     (b"v1/inventory.json", False), (b"o/v/inventory.json", False),
                                     (b"o", False), (b"o/v1/b/inventory.json", False)):
                self.assertEqual(weights.is_of_object(code, path, b"-"), not is_version, path)
                self.assertEqual(weights.is_of_file(code, path), is_version, path)
        self.assertEqual(weights.meaning(b"E060", there, b"sha512 a b"), "differs from its sidecar")
        self.assertEqual(weights.meaning(b"E060", b"o", b"sha512 a b"),
                         "its inventory and the sidecar differ")
        self.assertNotIn("newest", weights.step(b"E058", weights.meaning(b"E058", there, b"-")))
        self.assertIn("newest", weights.step(b"E058", weights.meaning(b"E058", b"o", b"-")))
        path = self.put(b"ok\to\t-\nS09\to\tsha512 aa v1\nE058\to/v1/inventory.json\t-\n"
                        b"ok\to/v2/inventory.json\t5\n")
        self.assertEqual([it for some in report.objects(path) for it in some], [b"o", b"o"])
        facts = counts.Count(path, []).facts()
        self.assertEqual([facts[name] for name in (
            "Objects", "Objects without findings", "Content files", "Files found right",
            "Findings")], ["1", "0", "2", "1", "1"])

    def test_weights(self):
        weights = Weights()
        lines = (b"E092\ta\t-", b"E072\ta\t-", b"E999\ta\t-")
        self.assertEqual([weights.weight(line) for line in lines], [b"1", b"4", b"1"])

    def test_counts(self):
        path = self.put(b"ok\t.\t-\nE072\ta\t-\nok\to\t-\nE023\to/x\t-\nS08\to/x\t-\nok\to/y\t3\n"
                        b"ok\to-\t-\nE092\to-/a\tmd5 missing\nE093\to-/a\tmd5 missing\nok\tp\t-\n")
        facts = counts.Count(path, []).facts()
        self.assertEqual([facts[name] for name in (
            "Report lines", "Objects", "Objects without findings", "Content files",
            "Files found right", "Findings", "Findings E023")],
            ["10", "3", "1", "3", "1", "5", "1"])
        self.assertEqual(counts.Count(path, None).facts()["Objects without findings"], "not known")


class Standing(Folder):
    def test_left_over_with_few_in_memory(self):
        chance = random.Random(4)
        for _ in range(50):
            older = [b"E092\tp%d\tx" % chance.randrange(40) for _ in range(30)]
            later = [[b"ok\tp%d\t1" % chance.randrange(40) for _ in range(9)] for _ in range(3)]
            paths = [[self.put(b"".join(it + b"\n" for it in lines), str(at))]
                     for at, lines in enumerate(later)]
            seen = {it.split(b"\t")[1] for lines in later for it in lines}
            with mock.patch.object(standing, "HELD", 4):
                found = list(standing.left_over(older, paths))
            self.assertEqual(sorted(found),
                             sorted(it for it in older if it.split(b"\t")[1] not in seen))


class Words(unittest.TestCase):
    def test_values_that_begin_with_a_dash(self):
        self.assertEqual(command.joined(["status", "--age", "-,1", "--list", "--", "--age", "x"]),
                         ["status", "--age=-,1", "--list", "--", "--age", "x"])

    def test_limits(self):
        self.assertEqual(command.limits("-,3"), (None, 3))
        for text in ("", "1", "1,", "1,2,3", "1,-2", "a,b"):
            with self.assertRaises(command.argparse.ArgumentTypeError):
                command.limits(text)

    def test_xml(self):
        self.assertEqual(premis.element("a", premis.element("b", premis.text("<&>\"\r\0")), c='"'),
                         '<a c="&quot;">\n  <b>&lt;&amp;&gt;&quot;&#13;\ufffd</b>\n</a>\n')


class Changes(Folder):
    def test_in_parts(self):
        chance = random.Random(5)
        every = [b"%s\t%s%d\t1" % (code, name, at) for at in range(60) for name in (b"a", b"B/")
                 for code in (b"ok", b"E072")]
        older, newer = ([it for it in every if chance.random() < 0.8] for _ in range(2))
        paths = [self.put(b"".join(it + b"\n" for it in lines), name)
                 for name, lines in (("older", older), ("newer", newer))]
        rows = [b"-\t" + it for it in older if it not in newer]
        rows += [b"+\t" + it for it in newer if it not in older]
        rows.sort(key=lambda it: (it.split(b"\t")[2], it[:1] != b"-", it))
        for parts in (1, 3, 128):
            with mock.patch.object(questions, "PARTS", parts):
                found = self.output_of(questions.show_changed, *paths)
            self.assertEqual(found.splitlines(), rows)
