#!/usr/bin/env python3
"""Exchanges a file while the program is between its look at it and its opening, and a folder after
each call of a run.

usage: exchanges.py

strace stops the program after the last look before the opening. What is opened then is not what was
looked at: content is S08, never `ok`, and at an object's own files the program stops. Where the
file was only moved, and a link to it left in its place, what is opened is what was looked at, and
it is read. Of a folder that a link takes the place of, nothing that the link leads to is read.

Tried, and what comes of it:

- A file exchanged between the look at it and its opening: for another one, a copy, an empty one,
  a folder, nothing, or a link to a copy, a folder, itself, a device; content, and an object's own
  files: S08; `stopped at`.
- A file exchanged at that moment for a link to one of the same bytes and the same number on
  another device: S08; `stopped at`. It mounts two devices; where it cannot, it leaves this out
  and says so.
- A file exchanged at that moment for a link to one of the same bytes that was given its number;
  where no number is given again, it is another file's: S08; `stopped at`.
- The file itself moved, and a link to it left in its place, at that moment: it is read: it is the
  file of the look.
- Each folder of a root exchanged for a link to another one, for another one itself, for a link to
  where it was moved, or moved away, right after each call of an audit: nothing that a link leads
  to is read; `stopped at`, S08, or the lines of what lies there.

Seen to fail on these faults, each planted alone:

- A file is recognised by its number alone, whatever its device.
- After a step down the program does not look where it is.
"""
import os
import shutil
import subprocess

import common
from common import check, line, make_root, note, write
from shared import calls

ABC = {"v1/content/e": b"e", "v1/content/f": b"abc", "v1/content/g": b"g"}
ITEMS = common.sound({"o": ABC})


def for_a_link_to_itself_moved(path, other):
    os.rename(path, other)
    os.symlink(other, path)


def for_a_link_to_a_copy(path, other):
    write(other, common.read(path))
    os.remove(path)
    os.symlink(other, path)


def for_another_file(path, other):
    write(other, b"other bytes")
    os.rename(other, path)


def for_a_copy(path, other):
    write(other, common.read(path))
    os.rename(other, path)


def for_an_empty_file(path, other):
    write(other, b"")
    os.rename(other, path)


def for_a_folder(path, _):
    os.remove(path)
    os.mkdir(path)


def for_a_link_to_a_folder(path, other):
    os.makedirs(other)
    os.remove(path)
    os.symlink(other, path)


def for_a_link_to_itself(path, _):
    os.remove(path)
    os.symlink(os.path.basename(path), path)


def for_a_link_to_a_device(path, _):
    os.remove(path)
    os.symlink("/dev/null", path)


def for_nothing(path, _):
    os.remove(path)


def for_a_link_to_a_file_of_its_number(path, other):
    """The bytes of the file, in a file that got its number after it was removed, where the file
    system gives numbers again."""
    data, number = common.read(path), os.stat(path).st_ino
    os.remove(path)
    for count in range(100):
        made = write("%s-%d" % (other, count), data)
        if os.stat(made).st_ino == number:
            print("exchanges.py: %s is a link to a file of its number" % os.path.basename(path))
            break
    os.symlink(made, path)


EXCHANGES = [for_a_link_to_a_copy, for_another_file, for_a_copy, for_an_empty_file, for_a_folder,
             for_a_link_to_a_folder, for_a_link_to_itself, for_a_link_to_a_device, for_nothing,
             for_a_link_to_a_file_of_its_number]
CONTENT = ["o/v1/content/e", "o/v1/content/f", "o/v1/content/g"]
# each with how many lines stand before its object's
METADATA = [("0=ocfl_1.1", 0), ("o/0=ocfl_object_1.1", 1), ("o/inventory.json", 1),
            ("o/inventory.json.sha256", 1)]
PLACES = [*CONTENT, *(place for place, _ in METADATA)]


class Devices:
    """Two devices that number their files from the first one on; none where none can be mounted."""

    def __init__(self, folder):
        self.folders = [os.path.join(folder, name) for name in ["device", "other-device"]]
        self.mounted = []
        for each in self.folders:
            os.mkdir(each)
            mount = ["mount", "-t", "tmpfs", "-o", "size=4m", "tmpfs", each]
            if os.geteuid() == 0 and subprocess.run(mount, capture_output=True).returncode == 0:
                self.mounted.append(each)

    def __enter__(self):
        return self

    def __exit__(self, *_):
        for each in self.mounted:
            subprocess.run(["umount", each], check=True)

    def for_a_link_to_another_device(self, path, moved):
        """The bytes of the file, in a file of the same number on the other device."""
        look = os.stat(path)
        for count in range(10_000):
            other = write(os.path.join(self.folders[1], str(count)), common.read(path))
            if os.stat(other).st_ino == look.st_ino:
                break
        found = os.stat(other)
        check("%s: the number of the other file" % path, found.st_ino, look.st_ino)
        check("%s: its device is another" % path, found.st_dev != look.st_dev, True)
        os.rename(path, moved)
        os.symlink(other, path)


def exchanged(folder, place, exchange):
    """What comes of a run in which the file is exchanged after the last look at it."""
    made = os.path.join(folder, place.replace("/", "-"), exchange.__name__)
    root = make_root(os.path.join(made, "root"), {"o": ABC})
    path = os.path.join(root, place)
    words = ["audit", root]
    look = calls.last_look(path, calls.made(words, os.path.join(made, "log")))
    with calls.stopped_at(look, words) as stopped:
        exchange(path, os.path.join(made, "other"))
    return stopped.ended


def each_exchange(folder):
    for place in PLACES:
        for exchange in EXCHANGES:
            name = "%s exchanged %s" % (place, exchange.__name__.replace("_", " "))
            check(name, exchanged(folder, place, exchange), after(place))


def other_devices(folder):
    """A file of the same number and the same bytes on another device is another file."""
    with Devices(folder) as devices:
        if len(devices.mounted) < 2:
            print("exchanges.py: no device can be mounted here, so files of two are not told apart")
            return
        for number in range(200):
            write(os.path.join(devices.folders[0], "numbers", str(number)), b"")
        for place in PLACES:
            got = exchanged(devices.folders[0], place, devices.for_a_link_to_another_device)
            check("%s exchanged for a link to another device" % place, got, after(place))


def after(place):
    """What comes where the file that is opened is not the one that was looked at."""
    if place in CONTENT:
        items = [line("S08", place) if "\t%s\t" % place in item else item for item in ITEMS]
        return 1, "".join(items), ""
    return 3, "".join(ITEMS[:dict(METADATA)[place]]), note("stopped at " + place)


def moved(folder):
    """The file itself is read, over a link: its device and number are those of the look."""
    for place in PLACES:
        got = exchanged(folder, place, for_a_link_to_itself_moved)
        check("%s moved behind a link" % place, got, (0, "".join(ITEMS), ""))


TREE = {"p/q": {"v1/content/d/a": b"one", "v1/content/d/b": b"two", "v1/content/e": b"three"}}
WHOLE = common.sound(TREE)
FOLDERS = ["p", "p/q", "p/q/v1", "p/q/v1/content", "p/q/v1/content/d"]


def becomes_a_link(path, other):
    os.rename(path, other + "-moved")
    os.symlink(other, path)


def becomes_another(path, other):
    os.rename(path, other + "-moved")
    os.rename(other, path)


def becomes_a_link_to_itself(path, other):
    os.rename(path, other + "-moved")
    os.symlink(other + "-moved", path)


def goes_away(path, other):
    os.rename(path, other + "-moved")


def exchanged_folder(made, place, exchange, call):
    """What comes of a run in which a folder is exchanged right after a call. What lies in the other
    one has the same names and other bytes."""
    root, other = made + "/root", made + "/other/" + place
    make_root(root, TREE)
    for object_place, files in TREE.items():
        for path in files:
            write("%s/other/%s/%s" % (made, object_place, path), b"outside")
    with calls.stopped_at(call, ["audit", root]) as stopped:
        exchange(root + "/" + place, other)
    shutil.rmtree(made)
    return stopped.ended


OUTSIDE = common.digest(b"outside")
# what may be said of a folder or a file that is gone, or is a link
GONE = ("S04", "S08", "E092", "E063", "E058", "E023", "E072", "E073", "E024")


def false_lines(place, exchange, got):
    """What a run says that is not so, or that shows what was read outside of the root."""
    status, out, said = got
    lines = out.splitlines(keepends=True)
    false = [it for it in lines if it not in WHOLE and not it.startswith(GONE)]
    false += [it for it in lines if it.startswith("ok") and it not in WHOLE]
    if status not in (0, 1, 3) or (status == 3) != said.startswith("ocfl-scrub: stopped at "):
        false.append("status %s: %s" % (status, said))
    outside = [it for it in lines if OUTSIDE in it]
    if exchange is not becomes_another:
        return false + outside
    # what lies in the other folder is read as what lies there, and for nothing that was seen
    front = place + "/"
    seen = [it for it in lines if it.split("\t")[1].startswith(front) and it.startswith("ok")
            and "content/" in it]
    return false + (outside if seen else [])


def each_moment(folder):
    """A folder is exchanged after each call of a run, whatever that is for."""
    root = make_root(folder + "/moments", TREE)
    moments = [call for call in calls.made(["audit", root], folder + "/log")
               if call.path == root or call.path.startswith(root + "/")]
    check("so many moments", len(moments) > 60, True)
    for exchange in [becomes_a_link, becomes_another, becomes_a_link_to_itself, goes_away]:
        for place in FOLDERS:
            false = []
            for call in moments:
                got = exchanged_folder(folder + "/moment", place, exchange, call)
                false += [(call, it) for it in false_lines(place, exchange, got)]
            name = "%s %s, after each of %d calls" % (
                place, exchange.__name__.replace("_", " "), len(moments))
            check(name, false, [])


def check_all(folder):
    moved(folder)
    each_exchange(folder)
    other_devices(folder)
    each_moment(folder)


common.run_trial(check_all, needs=["strace"])
