"""Tests what `repair` says of open findings, on storage roots made by hand: the commands that it
shows are run by bash."""
import hashlib
import json
import os
import shutil
import subprocess
from unittest import mock

from nights.tests.test_night_states import Asked, Program
from ocfl_scrub_reports import files, objects, repair, report

# Words, and how bash takes them.
WORDS = [(b"a", b"a"), (b"a b", b"'a b'"), (b"it's", b"'it'\"'\"'s'"), (b"$(ran)", b"'$(ran)'"),
         ("\xfc".encode(), "'\xfc'".encode()), (b"a\nb'\\", b"$'a\\x0ab\\'\\\\'"),
         (b"\xff$(ran)", b"$'\\xff$(ran)'"), ("\u202e".encode(), b"$'\\xe2\\x80\\xae'"),
         (b"", b"''")]


def sum_of(data, algorithm="sha512"):
    return hashlib.new(algorithm, data).hexdigest()


def escaped(text):
    return "".join(chr(it) if 0x20 <= it < 0x7F and it != 0x25 else "%%%02X" % it
                   for it in text.encode())


class Words(Asked):
    def test_words(self):
        for data, word in WORDS:
            self.assertEqual(repair.word(data), word)
            done = subprocess.run(["bash", "-c", b"printf %s " + word], stdout=subprocess.PIPE,
                                  check=True)
            self.assertEqual(done.stdout, data)


    def test_comments(self):
        out = self.output_of(repair.note, "a\n\x1b%0A\xfc")
        self.assertEqual(out, b"# a%0A%1B%0A%C3%BC\n")

    def test_names(self):
        self.assertEqual(objects.names_of(b"a/%C3%BC"), [b"a", b"\xc3\xbc"])
        for place in (b"a/../b", b"..", b"a//b", b"a/%2E", b"a%2Fb", b"a%00"):
            self.assertRaises(OSError, objects.names_of, place)

    def test_right_files_of_many_blocks(self):
        """The object before a file may be in an earlier block."""
        lines = [b"ok\t.\t-"]
        right = []
        for name in (b"a", b"b/c"):
            lines.append(b"ok\t%s\t-" % name)
            for number in range(40):
                path = b"%s/v1/content/%02d" % (name, number)
                lines.append(b"ok\t%s\t%d" % (path, number % 7))
                right.append((name, path, number % 7))
        path = self.put(b"\n".join(lines) + b"\n")
        for block in (64, 1 << 20):
            with mock.patch.object(files, "BLOCK", block):
                self.assertEqual(list(report.right_ones(path, None)), right)
                self.assertEqual(list(report.right_ones(path, {3, 5})),
                                 [it for it in right if it[2] in (3, 5)])


class Repairs(Asked):
    """A root of two objects, of which the first has two versions, and a copy of it."""

    FILES = {"o/v1/content/a": b"abc", "o/v2/content/b": b"other bytes",
             "o/v2/content/Mu\u0308\x1b'.txt": b"", "p/v1/content/c": b"abc"}

    def setUp(self):
        super().setUp()
        self.root, self.copy = self.at("root"), self.at("copy of it")
        self.write("0=ocfl_1.1", b"ocfl_1.1\n")
        for path, data in self.FILES.items():
            self.write(path, data)
        for place, head in (("o", "v2"), ("p", "v1")):
            self.put_inventory(place, head, place)
            self.put_inventory(place, head, place + "/" + head)
        shutil.copytree(self.root, self.copy)
        self.made = Program(self.at("state"), root=self.root)
        lines = ["ok\t.\t-", "ok\to\t-", *("ok\t%s\t%d" % (escaped(path), len(data)) for path, data
                                           in sorted(self.FILES.items()) if path[0] == "o"),
                 "ok\tp\t-", "ok\tp/v1/content/c\t3"]
        self.right = lines
        self.close(1, lines)

    def write(self, path, data, root=None):
        path = os.path.join(root or self.root, path)
        os.makedirs(os.path.dirname(path), exist_ok=True)
        with open(path, "wb") as file:
            file.write(data)

    def read(self, path):
        with open(os.path.join(self.root, path), "rb") as file:
            return file.read()

    def put_inventory(self, place, head, folder):
        manifest = {}
        for path, data in self.FILES.items():
            if path.startswith(place + "/"):
                manifest.setdefault(sum_of(data).upper(), []).append(path[2:])
        data = json.dumps({"digestAlgorithm": "sha512", "head": head, "manifest": manifest,
                           "type": "https://ocfl.io/1.1/spec/#inventory",
                           "fixity": {"md5": {sum_of(b"", "md5"): ["v9/content/gone"]}}}).encode()
        self.write(folder + "/inventory.json", data)
        self.write(folder + "/inventory.json.sha512", b"%s inventory.json\n"
                   % sum_of(data).encode())

    def close(self, cycle, lines):
        self.made.slice(cycle, cycle, 1, len(lines), 9, 1, "ended")
        self.made.close(cycle, cycle, "".join(it + "\n" for it in lines).encode())
        self.made.log_night(cycle, 1)

    def finds(self, *findings):
        """Closes a cycle with these findings in the place of what was right there."""
        places = {it.split("\t")[1] for it in findings}
        kept = [it for it in self.right if it.split("\t")[1] not in places]
        self.close(2, sorted([*kept, *findings], key=lambda it: it.split("\t")[1].split("/")))

    def repair(self, *words):
        status, out, said = self.ask("repair", *words, self.made.path)
        self.assertEqual(said, "")
        return status, out.splitlines()

    def run_commands(self, lines):
        """Runs what is no comment, and gives how many commands that are."""
        commands = [it for it in lines if it and not it.startswith("#")]
        subprocess.run(["bash", "-euc", "\n".join(commands)], check=True)
        return len(commands)

    def last(self, words):
        return "# %s without a right one" % words

    def test_another_object(self):
        self.write("o/v1/content/a", b"abd")
        line = "E092\to/v1/content/a\tsha512 %s %s" % (sum_of(b"abc"), sum_of(b"abd"))
        self.finds(line)
        status, lines = self.repair()
        self.assertEqual((status, lines), (0, [
            "# " + line, "# expected: sha512 %s, 3 bytes" % sum_of(b"abc"),
            "# in this root: p/v1/content/c",
            "cp -p -- %s/p/v1/content/c %s/o/v1/content/a" % (self.root, self.root), "",
            self.last("0 files are")]))
        self.assertEqual((self.run_commands(lines), self.read("o/v1/content/a")), (1, b"abc"))
        self.assertIn("# it has that digest now", self.repair()[1])

    def test_it_was_changed_since(self):
        """What the last report found right is read once more."""
        for path in ("o/v1/content/a", "p/v1/content/c"):
            self.write(path, b"abd")
        self.finds("E092\to/v1/content/a\tsha512 %s %s" % (sum_of(b"abc"), sum_of(b"abd")))
        status, lines = self.repair()
        self.assertEqual((status, lines[2:]), (1, [
            "# in this root: p/v1/content/c, which does not have it", "# no right file was found", "",
            self.last("1 file is")]))

    def test_no_copy(self):
        status, out, said = self.ask("repair", "--copy", self.copy + "/none", self.made.path)
        self.assertEqual((status, out, said), (3, "", self.copy + "/none is not a folder\n"))

    def test_a_copy(self):
        """A folder is gone whose file has a name that moves the cursor of a terminal."""
        name = "o/v2/content/Mu\u0308\x1b'.txt"
        shutil.rmtree(self.root + "/o/v2/content")
        self.finds("E092\t%s\tsha512 missing" % escaped(name),
                   "E092\to/v2/content/b\tsha512 missing")
        status, lines = self.repair("--copy", self.copy)
        self.assertEqual((status, [it for it in lines if not it.replace("\t", "").isprintable()]),
                         (0, []))
        self.assertEqual(lines[0], "# E092\to/v2/content/Mu%CC%88%1B'.txt\tsha512 missing")
        self.assertIn("# expected: sha512 %s, 11 bytes" % sum_of(b"other bytes"), lines)
        self.assertEqual(lines.count("# in the copy: right"), 2)
        self.assertEqual(self.run_commands(lines), 2)
        self.assertEqual([self.read(it) for it in (name, "o/v2/content/b")], [b"", b"other bytes"])

    def test_a_copy_that_is_wrong(self):
        self.write("o/v2/content/b", b"bad")
        self.write("o/v2/content/b", b"worse", self.copy)
        self.finds("E092\to/v2/content/b\tsha512 %s %s" % (sum_of(b"other bytes"), sum_of(b"bad")))
        self.assertEqual(self.repair("--copy", self.copy)[1][2:4], [
            "# in the copy: it has another digest", "# no right file was found"])
        os.remove(self.copy + "/o/v2/content/b")
        os.symlink(self.root + "/o/v2/content/b", self.copy + "/o/v2/content/b")
        self.assertEqual(self.repair("--copy", self.copy)[1][2],
                         "# in the copy: not there, or it cannot be read")

    def test_a_file_that_cannot_be_read(self):
        os.remove(self.root + "/o/v1/content/a")
        self.finds("S08\to/v1/content/a\t-")
        status, lines = self.repair()
        self.assertEqual((status, self.run_commands(lines)), (0, 1))
        self.assertEqual(self.read("o/v1/content/a"), b"abc")

    def test_another_form_of_unicode(self):
        names = ["o/v2/content/%s\x1b'.txt" % it for it in ("Mu\u0308", "M\xfc")]
        os.rename(*(os.path.join(self.root, it) for it in names))
        self.finds("E092\t%s\tsha512 missing" % escaped(names[0]),
                   "E023\t%s\t-" % escaped(names[1]))
        status, lines = self.repair()
        self.assertEqual(self.repair("--copy", self.copy)[1], lines)
        self.assertEqual((status, self.run_commands(lines), self.read(names[0])), (0, 1, b""))
        self.assertEqual(os.path.exists(os.path.join(self.root, names[1])), False)
        self.assertNotIn("no copy repairs", "".join(lines))

    def test_another_form_of_unicode_and_other_bytes(self):
        """A file that is not the missing one is not taken for it, and stays."""
        names = ["o/v2/content/%s\x1b'.txt" % it for it in ("Mu\u0308", "M\xfc")]
        os.remove(os.path.join(self.root, names[0]))
        self.write(names[1], b"x")
        self.finds("E092\t%s\tsha512 missing" % escaped(names[0]),
                   "E023\t%s\t-" % escaped(names[1]))
        status, lines = self.repair("--copy", self.copy)
        self.assertEqual((status, self.run_commands(lines), self.read(names[0])), (0, 1, b""))
        self.assertEqual(self.read(names[1]), b"x")
        self.assertIn("# no copy repairs 1 finding: E023 1", lines)

    def test_an_inventory(self):
        expected = sum_of(self.read("o/inventory.json"))
        for found in ("E060\to\tsha512 %s %s" % (expected, sum_of(b"")), "E063\to\t-"):
            self.write("o/inventory.json", b"")
            if found.startswith("E063"):
                os.remove(self.root + "/o/inventory.json")
            self.finds(found)
            status, lines = self.repair()
            self.assertEqual((status, lines[2:4]), (0, [
                "# the newest version: o/v2/inventory.json has the digest of its sidecar",
                "cp -p -- %s/o/v2/inventory.json %s/o/inventory.json" % (self.root, self.root)]))
            self.assertEqual(self.run_commands(lines), 1)
            self.assertEqual(self.read("o/inventory.json"), self.read("o/v2/inventory.json"))

    def test_a_sidecar(self):
        """The inventory is that of the newest version, so its sidecar is wrong."""
        data = self.read("o/inventory.json")
        self.write("o/inventory.json.sha512", b"%s inventory.json\n" % (b"0" * 128))
        self.finds("E060\to\tsha512 %s %s" % ("0" * 128, sum_of(data)))
        status, lines = self.repair()
        self.assertEqual((status, self.run_commands(lines)), (0, 1))
        self.assertEqual(self.read("o/inventory.json.sha512"),
                         b"%s inventory.json\n" % sum_of(data).encode())

    def test_a_sidecar_that_is_missing(self):
        """One that names the digest of the inventory is taken from the newest version, or from the
        copy."""
        right, name = self.read("o/inventory.json.sha512"), "o/inventory.json.sha512"
        expected = "# expected: that the sidecar names sha512 " + sum_of(self.read("o/inventory.json"))
        for found, data in (("E058\to\t-", None), ("E061\to\tsha512", b"nothing\n")):
            os.remove(os.path.join(self.root, name))
            if data is not None:
                self.write(name, data)
            self.finds(found)
            status, lines = self.repair()
            self.assertEqual((status, lines[1:4]), (0, [
                expected, "# the newest version: o/v2/inventory.json.sha512 names that digest",
                "cp -p -- %s/o/v2/inventory.json.sha512 %s/%s" % (self.root, self.root, name)]))
            self.assertEqual(self.run_commands(lines), 1)
            self.assertEqual(self.read(name), right)
        self.assertIn("# it names that digest now", self.repair()[1])
        os.remove(os.path.join(self.root, name))
        os.remove(self.root + "/o/v2/inventory.json.sha512")
        self.assertEqual(self.repair()[0], 1)
        status, lines = self.repair("--copy", self.copy)
        self.assertEqual((status, self.run_commands(lines), self.read(name)), (0, 1, right))

    def test_a_sidecar_of_an_inventory_that_is_damaged(self):
        """Nothing says that this inventory is right, so no sidecar is made for it."""
        os.remove(self.root + "/o/inventory.json.sha512")
        self.write("o/inventory.json", self.read("o/inventory.json") + b" ")
        self.finds("E058\to\t-")
        status, lines = self.repair("--copy", self.copy)
        self.assertEqual((status, self.run_commands(lines)), (1, 0))
        self.assertIn("# in the copy: it has another digest", lines)
        self.assertIn("# the newest version: o/v2/inventory.json.sha512 names another digest, or is "
                      "not there", lines)
        self.write("o/inventory.json", b"{")
        self.assertIn("# its inventory cannot be read, or names no algorithm of sidecars",
                      self.repair()[1])

    def test_an_inventory_of_a_version(self):
        """What it must be the sidecar beside it says. It is no inventory of its object."""
        name, root = "o/v1/inventory.json", self.read("o/inventory.json")
        right = b'{"head": "v1"}'
        self.write(name, right)
        self.write(name + ".sha512", b"%s inventory.json\n" % sum_of(right).encode())
        shutil.rmtree(self.copy)
        shutil.copytree(self.root, self.copy)
        for found in ("E060\t%s\tsha512 %s %s" % (name, sum_of(right), sum_of(b"")),
                      "S08\t%s\t-" % name):
            self.write(name, b"")
            self.finds(found)
            status, lines = self.repair("--copy", self.copy)
            self.assertEqual((status, self.run_commands(lines), self.read(name)), (0, 1, right))
        os.remove(os.path.join(self.root, name + ".sha512"))
        self.finds("S08\t%s\t-" % name)
        status, lines = self.repair("--copy", self.copy)
        self.assertEqual((status, self.run_commands(lines)), (1, 0))
        self.assertIn("# no sidecar beside it says what it must be", lines)
        self.assertEqual(self.read("o/inventory.json"), root)

    def test_the_newest_inventory(self):
        """That of the newest version is the root inventory, if that has its sidecar's digest."""
        path = "o/v2/inventory.json"
        right = self.read(path)
        self.write(path, b"{}")
        digests = "sha512 %s %s" % (sum_of(right), sum_of(b"{}"))
        self.finds("E060\t%s\t%s" % (path, digests), "E064\t%s\t%s" % (path, digests))
        status, lines = self.repair()
        self.assertIn("# in this root: o/inventory.json", lines)
        self.assertEqual((status, self.run_commands(lines), self.read(path)), (0, 1, right))

    def test_a_sidecar_of_a_version(self):
        """It must name the digest of the inventory beside it. That this is another one than that of
        the object no copy repairs."""
        path = "o/v2/inventory.json"
        right = self.read(path + ".sha512")
        self.write(path + ".sha512", b"x")
        self.finds("E061\t%s\tsha512" % path, "E064\t%s\tsha512 x y" % path)
        self.assertEqual(self.repair()[0], 1)
        status, lines = self.repair("--copy", self.copy)
        self.assertEqual((status, self.run_commands(lines), self.read(path + ".sha512")),
                         (0, 1, right))
        self.finds("E064\t%s\tsha512 x y" % path)
        self.assertEqual(self.repair(), (0, ["# no copy repairs 1 finding: E064 1"]))

    def test_a_declaration(self):
        """All files of an object without one are one line."""
        lost = ["o/inventory.json", "o/inventory.json.sha512", *(
            "o/" + it for it in ("v1/content/a", "v2/content/b", "v2/inventory.json"))]
        self.finds(*("E072\t%s\t-" % it for it in [*lost, "z/x"]))
        path = self.root + "/o/0=ocfl_object_1.1"
        status, lines = self.repair()
        self.assertEqual((status, lines), (0, [
            "# E072\to", "# 5 files of an object whose declaration is missing",
            "# its inventory says: OCFL 1.1", "printf 'ocfl_object_1.1\\n' > " + path, "",
            "# no copy repairs 1 finding: E072 1", "# 0 files are without a right one"]))
        self.assertEqual(self.run_commands(lines), 1)
        self.assertEqual(self.read("o/0=ocfl_object_1.1"), b"ocfl_object_1.1\n")
        self.assertIn("# there is a declaration now", self.repair()[1])
        os.remove(path)
        for data in (b"{", b'{"type": "https://ocfl.io/2.0/spec/#inventory"}', b'{"type": 1}'):
            self.write("o/inventory.json", data)
            status, lines = self.repair()
            self.assertEqual((status, self.run_commands(lines)), (1, 0))
        self.finds("E072\to/v2/inventory.json\t-")
        self.assertEqual(self.repair(), (0, ["# no copy repairs 1 finding: E072 1"]))

    def test_a_declaration_behind_a_link(self):
        os.rename(self.root + "/o", self.root + "/other")
        os.symlink("other", self.root + "/o")
        self.finds("E072\to/inventory.json\t-")
        status, lines = self.repair()
        self.assertEqual((status, self.run_commands(lines)), (1, 0))

    def test_what_is_gone(self):
        self.close(2, self.right[:-2])
        self.made.put("reports/gone-000002", b"object\tp\n")
        self.assertEqual(self.repair(), (0, [
            "# 1 object is gone: bring back from a copy what nobody removed on purpose; status "
            "--list has the list"]))
        self.assertEqual(self.repair("--known", self.put(b"object\tp\n", "known")), (0, []))

    def test_what_comes_back_from_the_copy(self):
        """It is audited there first, and nothing in its place is changed."""
        self.close(2, self.right[:-2])
        self.made.put("reports/gone-000002", b"object\tp\n")
        shutil.move(self.root + "/p", self.root + "/kept")
        lines = self.repair("--copy", self.copy)[1]
        self.assertEqual(lines[:2], ["# object\tp", "# in the copy: no object is there"])
        self.write("p/0=ocfl_object_1.1", b"ocfl_object_1.1\n", self.copy)
        for is_empty in (False, True):
            if is_empty:
                os.mkdir(self.root + "/p")
            lines = self.repair("--copy", self.copy)[1]
            self.assertEqual(lines[2], "ocfl-scrub audit --under=p -- '%s' > /dev/null && mkdir -p "
                             "-- %s && cp -aT -- '%s/p' %s/p" % (
                                 self.copy, self.root, self.copy, self.root))
            for status, is_back in ((1, False), (0, True)):
                done = subprocess.run(["bash", "-c", "ocfl-scrub() { return %d; }\n%s" % (
                    status, lines[2])], check=False)
                self.assertEqual((done.returncode, os.path.exists(
                    self.root + "/p/v1/content/c")), (status, is_back))
            self.assertIn("# there is something in its place",
                          self.repair("--copy", self.copy)[1])
            shutil.rmtree(self.root + "/p")
        os.rename(self.copy + "/p", self.copy + "/q")
        os.symlink("q", self.copy + "/p")
        self.assertIn("# in the copy: no object is there", self.repair("--copy", self.copy)[1])

    def test_a_version_that_is_wrong(self):
        """Nothing is taken from a version whose inventory is not what its sidecar says, or that is
        about another version."""
        expected = sum_of(self.read("o/inventory.json"))
        self.write("o/inventory.json", b"")
        self.finds("E060\to\tsha512 %s %s" % (expected, sum_of(b"")))
        lacks = "# the newest version has no inventory with the digest of its sidecar"
        os.mkdir(self.root + "/o/v10")
        self.assertEqual(self.repair()[1][2:4], [lacks, "# no right file was found"])
        self.put_inventory("o", "v2", "o/v10")
        self.assertEqual(self.repair()[1][2], lacks)
        self.put_inventory("o", "v10", "o/v10")
        self.assertEqual(self.repair()[1][2:5], [
            "# the newest version: o/v10/inventory.json has the digest of its sidecar",
            "# but not the expected one", "# no right file was found"])
        self.assertEqual(self.run_commands(self.repair("--copy", self.copy)[1]), 1)
        self.assertEqual(sum_of(self.read("o/inventory.json")), expected)

    def test_a_version_with_another_sidecar(self):
        data = self.read("o/inventory.json")
        self.write("o/inventory.json", b"")
        self.write("o/v2/inventory.json.sha512", b"%s inventory.json\n" % (b"0" * 128))
        self.finds("E060\to\tsha512 %s %s" % (sum_of(data), sum_of(b"")))
        self.assertEqual(self.repair()[1][2:4], [
            "# the newest version has no inventory with the digest of its sidecar",
            "# no right file was found"])

    def test_a_pipe(self):
        """A pipe has no bytes, and is not taken for the empty file."""
        name = "o/v2/content/Mu\u0308\x1b'.txt"
        for root in (self.root, self.copy):
            os.remove(os.path.join(root, name))
        os.mkfifo(os.path.join(self.copy, name))
        self.finds("E092\t%s\tsha512 missing" % escaped(name))
        self.assertEqual(self.repair("--copy", self.copy)[1][2],
                         "# in the copy: not there, or it cannot be read")

    def test_a_finding_of_the_open_cycle(self):
        """The last closed report found the file itself right, which is no source for it."""
        self.write("p/v1/content/c", b"abd")
        line = "E092\tp/v1/content/c\tsha512 %s %s" % (sum_of(b"abc"), sum_of(b"abd"))
        self.made.put("report", ("ok\t.\t-\nok\tp\t-\n%s\n" % line).encode())
        self.assertEqual(self.repair()[1][:4], [
            "# " + line, "# expected: sha512 %s, 3 bytes" % sum_of(b"abc"),
            "# in this root: o/v1/content/a",
            "cp -p -- %s/o/v1/content/a %s/p/v1/content/c" % (self.root, self.root)])

    def test_a_stray_of_the_fixity_block(self):
        """The manifest does not name it, so the fixity block says what it must be."""
        self.write("o/v9/content/gone", b"x")
        self.write("o/v9/content/gone", b"", self.copy)
        self.finds("E023\to/v9/content/gone\t-", "E093\to/v9/content/gone\tmd5 %s %s" % (
            sum_of(b"", "md5"), sum_of(b"x", "md5")))
        status, lines = self.repair("--copy", self.copy)
        self.assertEqual((status, self.run_commands(lines), self.read("o/v9/content/gone")),
                         (0, 1, b""))

    def test_links(self):
        """Nothing is copied through a link, which may lead anywhere."""
        os.remove(self.root + "/o/v1/content/a")
        os.symlink("/etc/passwd", self.root + "/o/v1/content/a")
        self.finds("S04\to/v1/content/a\t-", "E092\to/v1/content/a\tsha512 missing")
        status, lines = self.repair()
        said = "# what lies there, or on the way there, is neither a file nor a folder: remove it first"
        self.assertEqual((status, lines[4]), (1, said))
        shutil.rmtree(self.root + "/o/v1")
        os.symlink("/etc", self.root + "/o/v1")
        self.assertEqual(self.repair()[1][4], said)
        self.assertEqual(self.run_commands(self.repair()[1]), 0)

    def test_the_fixity_block_alone(self):
        self.finds("E093\to/v1/content/a\tmd5 %s %s" % ("0" * 32, sum_of(b"abc", "md5")))
        self.assertEqual(self.repair()[1][1],
                         "# it is what the manifest says; what the fixity block says is wrong")

    def test_an_inventory_that_names_a_command(self):
        self.write("o/inventory.json", json.dumps({"digestAlgorithm": "sha512", "manifest": {
            "\ntouch ran\n": ["v1/content/a"]}}).encode())
        for found in ("%0Atouch ran%0A " + sum_of(b"abc"), "missing"):
            self.finds("E092\to/v1/content/a\tsha512 " + found)
            status, lines = self.repair("--copy", self.copy)
            self.assertEqual((status, [it for it in lines if it[:1] not in ("#", "")]), (1, []))
            self.assertIn("# no inventory that can be read says what it must be", lines)

    def test_missing_by_the_fixity_block(self):
        self.finds("E093\to/v9/content/gone\tmd5 missing")
        self.write("o/v9/content/gone", b"", self.copy)
        status, lines = self.repair("--copy", self.copy)
        self.assertEqual((status, lines[1], self.run_commands(lines)), (
            0, "# expected: md5 " + sum_of(b"", "md5"), 1))

    def test_without_a_size(self):
        """The inventory of each object is read."""
        os.remove(self.root + "/o/v1/content/a")
        self.right = [it for it in self.right if "content/a" not in it]
        self.close(1, self.right)
        self.finds("E092\to/v1/content/a\tsha512 missing")
        status, lines = self.repair()
        self.assertEqual((status, lines[1:3]), (0, [
            "# expected: sha512 " + sum_of(b"abc"), "# in this root: p/v1/content/c"]))

    def test_others_and_known(self):
        self.finds("E072\tx\t-", "E073\ty\t-", "E092\to/v1/content/a\tsha512 missing")
        known = self.put(b"E092\to/v1/content/a\nE073\t./\n", "known")
        self.assertEqual(self.repair("--known", known), (
            0, ["# no copy repairs 1 finding: E072 1"]))

    def test_nothing_is_open(self):
        self.assertEqual(self.repair(), (0, []))

    def test_no_storage_root(self):
        os.rename(self.root + "/0=ocfl_1.1", self.root + "/0=ocfl_object_1.1")
        self.assertEqual(self.ask("repair", self.made.path), (
            3, "", "there is no storage root at %s: is it mounted?\n" % self.root))
