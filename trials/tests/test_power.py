"""Tests what trials rebuild of a folder that a power cut left: the calls of a record, and which
bytes and names may be on the disk after them."""
import os
import sys
import tempfile
import unittest

from gate.repository import TOP

sys.path.insert(0, os.path.join(TOP, "trials"))

from shared import power

STATE = "/tmp/state"


def hexed(text):
    return '"%s"' % "".join("\\x%02x" % byte for byte in text.encode())


def call(name, *words, result=0):
    """A line of a record; a text among the words begins with `=`."""
    shown = [hexed(word[1:]) if word.startswith("=") else word for word in words]
    return "%s(%s) = %d\n" % (name, ", ".join(shown), result)


def opened(number, path, flags="O_RDWR|O_CREAT|O_APPEND"):
    return call("openat", "AT_FDCWD", "=%s/%s" % (STATE, path), flags, "0640", result=number)


def wrote(number, text):
    return call("write", str(number), "=" + text, str(len(text)), result=len(text))


def synced(number):
    return call("fsync", str(number))


def renamed(old, new):
    return call("rename", "=%s/%s" % (STATE, old), "=%s/%s" % (STATE, new))


SYNC_FOLDER = opened(9, ".", "O_RDONLY|O_CLOEXEC") + synced(9) + call("close", "9")


class Power(unittest.TestCase):
    def machine(self, *record, **files):
        """The folder with these files after a record."""
        tree = {".": None, **{name: text.encode() for name, text in files.items()}}
        machine = power.Machine(STATE, tree)
        for each in power.calls_of("".join(record)):
            machine.made(each)
        return machine

    def left(self, machine, path):
        """What a power cut may leave at a path: texts, or None for no file."""
        return {image[path].decode() if path in image else None for image in machine.images()}

    def test_calls_of_a_record(self):
        record = ("execve(%s, [%s], 0x7ffd /* 3 vars */) = 0\n" % (hexed("/p"), hexed("p"))
                  + call("unlink", "=/tmp/state/a", result=-1)
                  + "12 " + wrote(4, 'a, "b"\\') + "write(4, %s, 1 <unfinished ...>\n" % hexed("x")
                  + "fsync(4)                                = ?\n+++ killed by SIGKILL +++\n")
        found = list(power.calls_of(record))
        self.assertEqual([it.name for it in found], ["execve", "write"])
        self.assertEqual((found[1].texts, found[1].descriptor(), found[1].result),
                         ([b'a, "b"\\'], 4, 7))

    def test_bytes_that_are_not_synced(self):
        machine = self.machine(opened(3, "report"), wrote(3, "ab"), wrote(3, "cdef"), report="xy")
        self.assertEqual(machine.shown(), {".": None, "report": b"xyabcdef"})
        self.assertEqual(self.left(machine, "report"), {
            "xy", "xya", "xyab", "xyabcd", "xyabcdef", "xy\0\0\0\0\0\0", "xy\0\0\0def",
            "xyabc\0\0\0"})

    def test_bytes_that_are_synced(self):
        machine = self.machine(opened(3, "report"), wrote(3, "ab"), synced(3), report="xy")
        self.assertEqual(self.left(machine, "report"), {"xyab"})

    def test_a_cut(self):
        machine = self.machine(opened(3, "report"), call("ftruncate", "3", "2"), report="abcdef")
        self.assertEqual(self.left(machine, "report"), {"abcdef", "abcd", "ab"})
        machine = self.machine(opened(3, "report", "O_RDWR|O_TRUNC"), wrote(3, "x"), report="ab")
        self.assertEqual(machine.shown()["report"], b"x")
        self.assertLessEqual({"ab", "a", "", "x", "\0"}, self.left(machine, "report"))

    def test_bytes_at_an_offset(self):
        machine = self.machine(opened(3, "a", "O_RDWR"), call("lseek", "3", "2", result=2),
                               wrote(3, "xy"), call("pwrite64", "3", "=z", "1", "5", result=1),
                               a="abc")
        self.assertEqual(machine.shown()["a"], b"abxy\0z")

    def test_a_name_whose_folder_is_not_synced(self):
        record = opened(3, "report"), wrote(3, "ab"), synced(3)
        self.assertEqual(self.left(self.machine(*record), "report"), {None, "ab"})
        self.assertEqual(self.left(self.machine(*record, SYNC_FOLDER), "report"), {"ab"})

    def test_a_file_that_is_replaced(self):
        beside = opened(3, "next"), wrote(3, "new"), synced(3)
        machine = self.machine(*beside, renamed("next", "one"), one="old")
        self.assertEqual(self.left(machine, "one"), {"old", "new"})
        machine = self.machine(*beside, renamed("next", "one"), SYNC_FOLDER, one="old")
        self.assertEqual(self.left(machine, "one"), {"new"})
        self.assertEqual(self.left(machine, "next"), {None})

    def test_a_file_that_is_replaced_before_it_is_synced(self):
        machine = self.machine(opened(3, "next"), wrote(3, "new"), renamed("next", "one"),
                               SYNC_FOLDER, one="old")
        self.assertLessEqual({"", "\0\0\0", "new"}, self.left(machine, "one"))

    def test_a_file_that_is_moved(self):
        record = (call("mkdir", "=%s/reports" % STATE, "0750"), SYNC_FOLDER,
                  renamed("report", "reports/1"))
        reports = opened(8, "reports", "O_RDONLY") + synced(8)
        for more in [(), (reports,), (SYNC_FOLDER,)]:
            machine = self.machine(*record, *more, report="all")
            self.assertEqual(self.left(machine, "reports/1"), {None, "all"})
            self.assertEqual({("report" in it) + ("reports/1" in it) for it in machine.images()},
                             {1})
        machine = self.machine(*record, reports, SYNC_FOLDER, report="all")
        self.assertEqual(self.left(machine, "reports/1"), {"all"})

    def test_what_a_name_rests_on(self):
        machine = self.machine(call("mkdir", "=%s/reports" % STATE, "0750"),
                               renamed("report", "reports/1"), report="all")
        self.assertNotIn(True, {"reports/1" in it and "reports" not in it
                                for it in machine.images()})
        machine = self.machine(opened(3, "a"), opened(4, "b"), call("unlink", "=%s/a" % STATE))
        self.assertEqual({("a" in it, "b" in it) for it in machine.images()},
                         {(False, False), (True, False), (False, True), (True, True)})

    def test_the_folder_itself(self):
        machine = power.Machine(STATE, {})
        for each in power.calls_of(call("mkdir", "=" + STATE, "0750") + opened(3, "lock")):
            machine.made(each)
        images = list(machine.images())
        for tree in [{".": None, "lock": b""}, {}, {".": None}]:
            self.assertIn(tree, images)
        for each in power.calls_of(opened(4, "..", "O_RDONLY") + synced(4)):
            machine.made(each)
        self.assertNotIn({}, list(machine.images()))

    def test_what_was_said(self):
        machine = self.machine(wrote(1, "a finding\n"), wrote(2, "a note\n"))
        self.assertEqual(machine.said, b"a finding\n")

    def test_what_changes(self):
        machine = self.machine()
        changes = [(opened(3, "a"), True), (opened(4, "a"), False), (wrote(3, "x"), True),
                   (wrote(2, "x"), False), (synced(3), True), (call("close", "3"), False),
                   (call("unlink", "=/elsewhere"), False), (call("fsync", "77"), False)]
        for line, is_change in changes:
            self.assertEqual([machine.made(it) for it in power.calls_of(line)], [is_change], line)
        self.assertRaises(ValueError, machine.made, next(power.calls_of(
            call("link", "=%s/a" % STATE, "=/elsewhere"))))

    def test_folders_are_built_as_they_are_read(self):
        tree = {".": None, "a": b"x", "b": None, "b/c": b""}
        with tempfile.TemporaryDirectory() as folder:
            self.assertEqual(power.read_tree(folder + "/none"), {})
            power.build(tree, folder + "/made")
            self.assertEqual(power.read_tree(folder + "/made"), tree)
