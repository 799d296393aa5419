#!/usr/bin/env python3
"""Makes each call fail that the program makes of the system for a storage root, one at a time.

usage: faults.py

strace injects the errors. Where the opening or a read of a content file fails, its line is S08 and
nothing else changes; elsewhere the program stops at that place, with a cursor that goes on.

Tried, and what comes of it:

- Each opening, read, listing and look of a run over three objects made to fail by `strace`:
  openings with EIO, EACCES, EMFILE, ENOMEM and ENOENT, reads with EIO, ENOMEM and EISDIR,
  listings with EIO, EACCES, ENOMEM and ENOTDIR, looks with EIO: content: S08 there, with the cost
  of the blocks before it, and nothing else changed; elsewhere `stopped at` that place and status
  3, with the items before it and a cursor that goes on; ENOMEM of an opening or a listing, also
  of content: `out of memory`, the same.
- Each of these calls interrupted once, and the first of each kind at each place 900 times in a
  row: as without.
- A read or a listing interrupted for ever: given up: S08, or `stopped at`.
- What is said beside a stop: the place and the system's words, on a line of their own.

Seen to fail on these faults, each planted alone:

- Memory that the system refuses as the file of separators is opened, is told as something else.
"""
import os
import re

import common
from common import check, line, note, ran, traced
from shared import calls

BLOCK = 65_536
OBJECTS = {
    "a": {"v1/content/one": b"abc", "v2/content/deep/two": b"", "v2/content/deep/zwei": b"z"},
    "b": {"v1/content/blocks": bytes(range(256)) * 512 + b"end", "v1/content/whole": b"w" * BLOCK},
    "h/c": {"v1/content/last": b"last"},
}
UNLISTED = "b/v1/content/unlisted"
# A listing that answers ENOENT counts as ended, which is how the C library takes it.
ERRORS = {"openat": ["EIO", "EACCES", "EMFILE", "ENOMEM", "ENOENT"],
          "read": ["EIO", "ENOMEM", "EISDIR"],
          "getdents64": ["EIO", "EACCES", "ENOMEM", "ENOTDIR"]}
# how often an interrupted call is made
TRIES = 1000
WORDS_OF_ENOTDIR = "Not a directory (os error 20)"


class Audit:
    """The root, its files, and the audit that is expected of it."""

    def __init__(self, folder):
        self.root = common.make_root(os.path.join(folder, "root"), OBJECTS)
        common.write(os.path.join(self.root, UNLISTED), b"nobody names it")
        self.file = os.path.join(folder, "cursor")
        self.run = ["run", "--cursor", self.file, "--budget", "1G", self.root]
        self.sizes = {"%s/%s" % (place, path): len(data)
                      for place, files in OBJECTS.items() for path, data in files.items()}
        self.items = common.sound(OBJECTS)
        at = [item.split("\t")[1] for item in self.items].index("b/v1/content/whole")
        self.items.insert(at, line("E023", UNLISTED))
        self.cost = sum(self.sizes.values()) + len(self.sizes)
        # those of a run in which nothing fails
        self.all_calls = []

    def fails(self, call, error, count=1):
        """A run from the beginning in which a call fails, and so many of its name with it."""
        self.begin()
        return traced(call.rule("error=" + error, count), self.run)

    def begin(self):
        if os.path.exists(self.file):
            os.remove(self.file)

    def calls(self, log):
        """The calls of a run from the beginning on the root and on all in it."""
        self.begin()
        return [it for it in calls.made(self.run, log) if self.place_of(it) is not None]

    def on(self, place, name):
        """Those of all calls that have this name and are on this place."""
        return [it for it in self.all_calls if it.name == name and self.place_of(it) == place]

    def blocks_before(self, call):
        """How many reads of its file there were before a read."""
        reads = [it.number for it in self.all_calls if it[::2] == call[::2]]
        return reads.index(call.number)

    def place_of(self, call):
        """The place that a call is about, as far as it is one of the root."""
        if call.path != self.root and not call.path.startswith(self.root + "/"):
            return None
        return os.path.relpath(call.path, self.root)

    def before(self, place):
        """The items in front of a place."""
        names = [] if place == "." else place.split("/")
        return [item for item in self.items if names_of(item) < names]

    def summary(self, less=0):
        return note("cycle 1, run 1, cost %d, ended" % (self.cost - less))

    def is_untouched(self, name, got):
        check(name, got, (1, "".join(self.items), self.summary()))

    def is_unread(self, name, got, place, given):
        """S08 at this place alone, which costs what it gave and one."""
        items = [line("S08", place) if place == item.split("\t")[1] else item
                 for item in self.items]
        check(name, got, (1, "".join(items), self.summary(self.sizes[place] - given)))

    def is_stopped(self, name, got, place, said=None):
        """A stop there, after the items before it (an object's own files are its head's); beside it
        the system's words."""
        has_words = common.reason is not None
        check(name + ": the reason", has_words, said is None)
        head, last = os.path.split(place)
        front = head or "." if last.startswith(("0=", "inventory.json")) else place
        said = note(said or "stopped at " + place)
        check(name, got, (3, "".join(self.before(front)), said))
        self.goes_on(name, got[1])

    def goes_on(self, name, written):
        shown = common.shown_cursor(self.file)
        check(name + ": a cursor", isinstance(shown, str), True)
        status, out, said = ran(self.run)
        check(name + ": joined", written + out, "".join(self.items))
        check(name + ": ended", (status in (0, 1), said.endswith(", ended\n")), (True, True))

    def stops_or_is_unread(self, name, got, place):
        """What a look that failed may end in: it is made for a listing, or for an opening."""
        status, out, said = got
        if status == 3:
            at = re.fullmatch(r"ocfl-scrub: stopped at (.*)\n", said)
            # on the way from one directory to another, the latter is what is told
            above = os.path.dirname(at[1]) if at else ""
            is_near = bool(at) and at[1] not in self.sizes and (
                near(at[1], place) or bool(above) and near(above, place))
            check(name + ": where", (said, is_near), (said, True))
            check(name + ": whole items", "".join(self.items).startswith(out), True)
            self.goes_on(name, out)
        else:
            unread = [item.split("\t")[1] for item in out.splitlines() if item.startswith("S08")]
            check(name + ": one unread file", (status, len(unread)), (1, 1))
            check(name + ": where", [near(place, it) for it in unread], [True])
            self.is_unread(name, got, unread[0], 0)


def names_of(item):
    place = item.split("\t")[1]
    return [] if place == "." else place.split("/")


def near(one, other):
    """Whether one of two places is the other, or lies on the way to it."""
    return "." in (one, other) or (one + "/").startswith(other + "/") or (
        other + "/").startswith(one + "/")


def error_at(audit, call, error, count=1):
    """One fault, and what has to come of it."""
    place = audit.place_of(call)
    name = "%s of %s %s on %s" % (error, call.name, call.number, place)
    got = audit.fails(call, error, count)
    if call.name in (*calls.LOOKS, "chdir"):
        audit.stops_or_is_unread(name, got, place)
    elif error == "ENOMEM" and call.name != "read":
        audit.is_stopped(name, got, place, "out of memory")
    elif place in audit.sizes:
        given = audit.blocks_before(call) * BLOCK if call.name == "read" else 0
        audit.is_unread(name, got, place, min(given, audit.sizes[place]))
    else:
        audit.is_stopped(name, got, place)


def each_call(audit, folder):
    """Each call on each place fails once with EIO, and openings and reads with other errors."""
    tried = interruptions = 0
    begun = set()
    for call in audit.all_calls:
        if call.name == "close":
            continue
        for error in ERRORS.get(call.name, ["EIO"]):
            error_at(audit, call, error)
            tried += 1
        first = (call.name, call.path) not in begun
        begun.add((call.name, call.path))
        interruptions += interrupted(audit, call, first)
    print("faults.py: %d errors of calls, %d interruptions" % (tried, interruptions))
    check("openings and reads of all files are among them", tried > 300, True)


def interrupted(audit, call, first):
    """Interrupted once, and 900 times in a row, a call is made again; gives how many it tried."""
    counts = [1, 900] if first else [1]
    for count in counts:
        name = "EINTR of %s %s on %s, %d times" % (call.name, call.number, call.path, count)
        audit.is_untouched(name, audit.fails(call, "EINTR", count))
    return len(counts)


def always_interrupted(audit):
    """A read that is interrupted for ever is given up."""
    for place in ["a/v1/content/one", "b/v1/content/blocks", "a/inventory.json", "0=ocfl_1.1"]:
        error_at(audit, audit.on(place, "read")[0], "EINTR", TRIES)
    error_at(audit, audit.on("b/v1/content/blocks", "read")[1], "EINTR", TRIES)
    for place in [".", "a", "a/v2/content/deep"]:
        error_at(audit, audit.on(place, "getdents64")[0], "EINTR", TRIES)


def check_reason(audit):
    """Beside a stop stands a line with the place and the system's words."""
    for place, words in [("a/v1", "Permission denied (os error 13)"), (".", WORDS_OF_ENOTDIR)]:
        error = "EACCES" if place == "a/v1" else "ENOTDIR"
        audit.fails(audit.on(place, "getdents64")[0], error)
        check("why it stopped at %s" % place, common.reason, words)


def separators_fail(audit, folder):
    """Opening the file of separators fails, for want of memory or for another reason."""
    parts = os.path.join(folder, "parts")
    common.write(parts, b"b\n")
    words = ["audit", "--parts", parts, "--part", "1", audit.root]
    for error, said in [("ENOMEM", "out of memory"), ("EACCES", "parts file failed"),
                        ("EIO", "parts file failed")]:
        rule = "inject=openat:error=%s:when=1" % error
        check("separators with " + error, traced(["-P", parts, "-e", rule], words),
              (3, "", note(said)))


def check_all(folder):
    audit = Audit(folder)
    before = common.snapshot(audit.root)
    audit.is_untouched("without a fault", ran(audit.run))
    audit.all_calls = audit.calls(os.path.join(folder, "log"))
    each_call(audit, folder)
    always_interrupted(audit)
    check_reason(audit)
    separators_fail(audit, folder)
    check("nothing was written below the root", common.snapshot(audit.root), before)


common.run_trial(check_all, needs=["strace"])
