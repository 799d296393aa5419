#!/usr/bin/env python3
"""Tries what the program's own nights say when a cycle closes: what is gone, new or repaired since
the last whole report, and which objects of a list are missing.

usage: night_closings.py [PART]...

Tried, and what comes of it:

- Cycles of many nights that nothing disturbs: each finding is said once.
- What is gone, new or repaired when a cycle closes, also after a cycle that lost lines, where the
  last report was taken away, where the output failed, or where the night was killed between
  closing and saying; lost objects with such names: each is said once, against the last whole
  report, with its list in a file; nothing else is.
- The report of before, or the closed one itself, cut, turned or with other bytes before they are
  compared: status 3, the cycle is named, nothing is called gone; once it is a report again, what
  is gone is said.
- The same reports, and a further cycle closed meanwhile: what was gone is said once the report is
  back.
- The report of before without the lines of an object, which is then lost: status 3, the cycle is
  named: its report is not as it was closed.
- The only report of before compressed or taken away: status 3, nothing is called gone, and no list
  is put; once it is back, what is gone is said. An older one is there: what is gone since that is
  said, with what is not known.
- A closing that fails while two further cycles are closed and said: once it can be said, it is.
- Cycles of which none was whole, the oldest report of them compressed: nothing is not known.
- Cycles that left a place out, one after the other: each is compared with the one before, outside
  of what one of the two left out; what was there is compared once it can be read. A night that is
  killed then: the place is named, and counted.
- Objects that were emptied, that lost their declaration, or whose inventory cannot be used: the
  first are gone, the second undeclared, and no file of the third is called gone.
- A cycle that ends in one night, and one of two nights: no line is there twice, the gravest are
  first.
- Objects that are back, damaged too, and gone once more: each is said once.
- 20,000 findings and 400,000 known ones: what they cost adds up.
- Lists of known findings, and of objects that must be there, that are missing, are folders, no
  lists or empty: status 2, nothing is run; that go away in the night: status 3, nothing is called
  complete that was not compared, and the next night compares it.
- `--every` right after a cycle, also where its closing was not said: nothing is read, status 0, one
  line says when the next cycle begins, and what was unsaid is said. So many days later the next
  one begins; an open one goes on. A time of the file in the future, or no file, holds no cycle.
- A list of objects at the end of a first cycle: those that are missing are named, and no cycle
  before.

Seen to fail on these faults, each planted alone:

- What is said goes out at the end, after the checkpoint that says so.
- Status 3 is 0; status 2 is 0; nothing is said on standard error.
- All is said twice; by `echo` of a shell; with `%0A` and `%1B` decoded.
- Lists of what is gone are there before it is said; an object that never was is gone; what is
  new, repaired or not shown has no line; lists of known and expected objects are ignored.
- A report that cannot be read, or all before a missing one, are left out of comparisons; an
  incomplete report is called whole.
- The lines of a night's message are there again in its closing, in the order of places; what is
  back is in no message; the name that is not UTF-8 is not shown; the log does not count these.
"""
import json
import os
import resource
import shutil
import signal
import time
from typing import Any

import common
from common import Stopped, check, ran, traced
from shared import calls
from shared.messages import findings_in, key, shown
from shared.nights import tried_apart
from shared.own_nights import Audited, Got, Nights, is_finding, make_root

FILES = {"v1/content/1": b"abc", "v1/content/2": b""}
PLACES = ["(c)", "+b", "-a", "..d", ".e", "f", "g/h", "i"]
# What the loss of an object leaves in no report, and what is said of its files.
OF_F = "object\tf\n"
UNLOOKED = "%d files of objects that are gone, or whose inventory cannot be used, are not looked " \
    "at any more.\n"
ABOVE = ", %d of them above"
# Why a folder with the name 0xFF is left out.
NOT_UTF_8 = "it holds a name that is not UTF-8: \\xFF"
FINDINGS, ENTRIES = 20_000, 400_000
# How long a night with many known findings may take.
MOST_SECONDS = 120


def new_since(count: int, cycle: int, before: int) -> str:
    words = ("finding", "is") if count == 1 else ("findings", "are")
    return "%d %s of cycle %d %s new since cycle %d" % (count, words[0], cycle, words[1], before)


def back_in(count: int, cycle: int) -> str:
    return "%d %s back in cycle %d:\n" % (
        count, "object is" if count == 1 else "objects are", cycle)


def made(folder: str) -> Nights:
    """Nights over these objects, after a first cycle."""
    root = common.make_root(folder + "/root", {place: FILES for place in PLACES})
    nights = Nights(folder + "/state", root)
    check("the first cycle", nights.first(), (0, "", ""))
    return nights


def audit_of(nights: Nights) -> str:
    return ran(["audit", nights.root])[1]


def remove_object(nights: Nights, place: str = "f") -> None:
    shutil.rmtree(nights.root + "/" + place)


def nothing_is_gone(folder: str) -> None:
    """Of a root that stays as it is nothing is called gone, new or repaired, whatever its names."""
    nights = made(folder)
    for cycle in (2, 3):
        check("cycle %d" % cycle, nights.night("--budget", "1K"), (0, "", ""))
        check("its lists", (nights.whole(cycle), nights.has("reports/gone-%06d" % cycle)),
              (audit_of(nights), ""))


def gone(folder: str) -> None:
    """A lost object and its files are named once, and their list is a file."""
    nights = made(folder)
    remove_object(nights)
    status, out, note = nights.night()
    check("gone", (status, out.endswith(OF_F + UNLOOKED % 2), out.count("\n"), note),
          (1, True, 5, ""))
    check("the word at the end", out.splitlines()[:2], [
        "Cycle 2 ended: 14 of 14 files right, 7 objects, 21 bytes, 1 run.",
        "Nothing new, 1 object or file gone since cycle 1."])
    check("the list", nights.has("reports/gone-000002"), OF_F)
    check("it is said once", nights.night(), (0, "", ""))
    os.remove(nights.root + "/i/v1/content/2")
    status, out, _ = nights.night()
    check("a file that an inventory lists is no loss", (status, shown("E092\ti/v1/content/2", out),
                                                        nights.has("reports/gone-000004")),
          (1, 1, ""))


def new_and_repaired(folder: str) -> None:
    nights = made(folder)
    path = nights.root + "/g/h/v1/content/1"
    common.write(path, b"abd")
    status, out, _ = nights.night()
    finding = [line for line in audit_of(nights).splitlines(True) if line.startswith("E092\t")]
    check("new", (status, new_since(1, 2, 1) + ABOVE % 1 + ".\n" in out, shown(finding[0], out)),
          (1, True, 1))
    status, out, _ = nights.night()
    check("as before", (status, " new since" in out, shown(finding[0], out)),
          (1, False, 1))
    common.write(path, b"abc")
    status, out, _ = nights.night()
    check("repaired", (status, "is repaired in cycle 4" in out, shown(finding[0], out)),
          (0, True, 1))
    check("and then", nights.night(), (0, "", ""))


def lines_in(text: str) -> list[str]:
    """The findings of a text or of a report, each by its code and its place."""
    return findings_in(text) or [key(line) for line in text.splitlines() if is_finding(line)]


def no_line_twice(folder: str) -> None:
    """What the message of a night has, its closing only counts. What an earlier night of the cycle
    said, the closing has again, the gravest first."""
    nights = made(folder)
    common.write(nights.root + "/+s/stray", b"")
    common.write(nights.root + "/-a/v1/content/1", b"abd")
    common.write(nights.root + "/-a/v1/content/3", b"")
    early = ["E092\t-a/v1/content/1", "E023\t-a/v1/content/3", "E072\t+s/stray"]
    status, out, _ = nights.night("--files", "9")
    check("what is found first", (status, lines_in(out), "new since" in out), (1, early, False))
    common.write(nights.root + "/i/v1/content/1", b"abd")
    status, out, _ = nights.night()
    late, head = "E092\ti/v1/content/1", new_since(4, 2, 1) + ABOVE % 1 + ":\n"
    check("the end of the cycle", (status, head in out, lines_in(out)), (1, True, [late, *early]))
    common.write(nights.root + "/~s/stray", b"")
    os.remove(nights.root + "/g/h/v1/content/1")
    status, out, note = nights.night()
    check("a cycle of one night", (status, new_since(2, 3, 2) + ABOVE % 2 + ".\n" in out,
                                   out.count("new since"), sorted(lines_in(out)), note),
          (1, True, 1, sorted(lines_in(audit_of(nights))), ""))


def many_new(folder: str) -> None:
    """Of 46 new findings of two objects the message has the gravest with their number, and the
    closing counts those of the message."""
    nights = made(folder)
    for number in range(45):
        common.write("%s/i/v1/content/new%02d" % (nights.root, number), b"")
    common.write(nights.root + "/+s/stray", b"")
    status, out, _ = nights.night()
    named = ["E023\ti/v1/content/new%02d" % number for number in range(3)]
    check("new", (status, lines_in(out), out.count("\tand 42 more: not in the inventory (E023)\n")),
          (1, [*named, "E072\t+s/stray"], 1))
    check("counted", new_since(46, 2, 1) + ABOVE % 46 + ".\n" in out, True)


def many(folder: str) -> None:
    """Of 40 damaged objects 24 are shown, each in a line, and the command that shows the others; of
    as many that are gone the first, and the command that lists them. Both texts have at most 40
    lines together, and no line twice."""
    objects = {"o%02d" % number: FILES for number in range(40)}
    nights = Nights(folder + "/state", common.make_root(folder + "/root", objects))
    for place in objects:
        common.write("%s/%s/v1/content/1" % (nights.root, place), b"abd")
    status, out, _ = nights.first()
    check("findings", (status, len(findings_in(out)), "\n16 not shown here: ocfl-scrub-reports "
                       "findings '%s/reports/cycle-000001'\n" % nights.state in out), (1, 24, True))
    check("its lines", (len(out.splitlines()) <= 40, len(set(out.splitlines()))),
          (True, len(out.splitlines())))
    for place in objects:
        shutil.rmtree("%s/%s" % (nights.root, place))
    common.make_object(nights.root + "/o", FILES)
    status, out, _ = nights.night("--force-root")
    check("gone", (status, out.count("object\t"), out.count("file\t"), "\n32 not shown here: cat "
                   "'%s/reports/gone-000002'\n" % nights.state in out, UNLOOKED % 80 in out),
          (1, 8, 0, True, True))


def objects_first(folder: str) -> None:
    """Of much that is gone objects are named before files, whatever their places."""
    names = {"v1/content/%02d" % number: b"abc" for number in range(30)}
    root = common.make_root(folder + "/root", {"a": names, "y": FILES, "z": FILES})
    nights = Nights(folder + "/state", root)
    check("the first cycle", nights.first(), (0, "", ""))
    # The whole object again, with an inventory that names none of the others.
    for place in ("a", "y", "z"):
        remove_object(nights, place)
    common.make_object(root + "/a", {"v1/content/00": b"abc"})
    status, out, _ = nights.night("--force-root")
    lines = [line for line in out.splitlines() if line[:7] in ("object\t", "file\ta/")]
    check("named", (status, lines[:2], lines[2].startswith("file\ta/"), len(lines)),
          (1, ["object\ty", "object\tz"], True, 8))


def known_findings(folder: str) -> None:
    """Known findings are not said, and alone they give status 0."""
    nights = made(folder)
    for place in ["i", "f"]:
        common.write("%s/%s/v1/content/1" % (nights.root, place), b"abd")
    lines = [line for line in audit_of(nights).splitlines(True) if line.startswith("E092\t")]
    common.write(folder + "/known", "".join(lines).encode())
    status, out, _ = nights.night("--known", folder + "/known")
    check("all known", (status, out), (0, ""))
    common.write(folder + "/known", lines[0].encode())
    status, out, _ = nights.night("--known", folder + "/known")
    check("one known", (status, shown(lines[0], out), shown(lines[1], out)), (1, 0, 1))
    for name, path in [("none", folder + "/nothing"), ("a folder", folder),
                       ("no list", nights.root + "/0=ocfl_1.1")]:
        before = nights.kept()
        status, out, note = nights.night("--known", path)
        check("a list that is " + name, (status, out, note != "", nights.kept()),
              (2, "", True, before))


def many_known(folder: str) -> None:
    """What many findings and many known ones cost adds up: no finding is compared with each of
    them."""
    few = Nights(folder + "/few", common.make_root(folder + "/small", {}))
    common.write(few.root + "/x/stray", b"")
    many_found = Nights(folder + "/many", common.make_root(folder + "/large", {}))
    for number in range(FINDINGS):
        common.write("%s/x/%05d" % (many_found.root, number), b"")
    other = "".join("E092\ty/%06d\t-\n" % number for number in range(ENTRIES)).encode()
    short, long = (common.write(folder + "/" + name, text + b"E072\t./\n") for name, text in (
        ("short", b""), ("long", other)))
    alone = seconds(few, short)
    entries, findings = seconds(few, long) - alone, seconds(many_found, short) - alone
    both = seconds(many_found, long) - alone
    check("%.1f s of a processor for the findings, %.1f for the known ones, %.1f for both"
          % (findings, entries, both), both < 1 + 3 * (entries + findings), True)


def seconds(nights: Nights, known: str) -> float:
    """How much time of a processor a first night takes, which finds known things alone."""
    began = resource.getrusage(resource.RUSAGE_CHILDREN)
    check("all is known", nights.first("--known", known, limit=MOST_SECONDS), (0, "", ""))
    ended = resource.getrusage(resource.RUSAGE_CHILDREN)
    nights.again()
    return ended.ru_utime + ended.ru_stime - began.ru_utime - began.ru_stime


def each_finding_once(folder: str) -> None:
    """Nights that nothing disturbs say each finding of a cycle once, in many nights too."""
    audited = Audited(make_root(folder + "/root"))
    nights = Nights(folder + "/state", audited.root)
    for cycle in (1, 2):
        said = ""
        for _ in range(20):
            said += nights.first("--files", "2", "--slice", "1")[1]
            if nights.whole(cycle) is not None:
                break
        check("cycle %d" % cycle, audited.times_said(said), [1] * 5)
        check("nothing else in cycle %d" % cycle, audited.false_lines(said), [])


ODD = ["-", "+b", " lead", "b\\cx", "n\nobject\tz", "\033[2J", "z\\nAll is well: 0 findings.\\c"]


def odd_names_gone(folder: str) -> None:
    """Lost objects are named as reports write their places, in lines of their own."""
    root = common.make_root(folder + "/root", {place: FILES for place in [*PLACES, *ODD]})
    nights = Nights(folder + "/state", root)
    nights.first()
    shown = [line.split("\t")[1] for line in audit_of(nights).splitlines()]
    for place in ODD:
        remove_object(nights, place)
    left = [line.split("\t")[1] for line in audit_of(nights).splitlines()]
    rows = ["object\t%s\n" % it for it in shown if it not in left and "/v1/" not in it]
    status, out, note = nights.night("--force-root")
    check("they are gone", (status, len(rows), nights.has("reports/gone-000002"), note),
          (1, len(ODD), "".join(rows), ""))
    check("what is said of them", (out.endswith("".join(rows) + UNLOOKED % (2 * len(ODD))),
                                   [it for it in out if it < " " and it not in "\t\n"]),
          (True, []))


# Lists of objects

def expected(folder: str) -> None:
    nights = made(folder)
    file = folder + "/expected"
    common.write(file, "".join(place + "\n" for place in [*PLACES, "lost", "z/1"]).encode())
    status, out, _ = nights.night("--expected", file)
    check("missing", (status, out.endswith("expected\tlost\nexpected\tz/1\n")), (1, True))
    new = Nights(folder + "/new", nights.root)
    status, out, _ = new.first("--expected", file)
    check("in a first cycle", (status, out.endswith("expected\tlost\nexpected\tz/1\n")), (1, True))
    check("no cycle is named that there was not", "cycle 0" in out, False)
    common.write(file, "".join(place + "\n" for place in PLACES).encode())
    check("none is missing", nights.night("--expected", file), (0, "", ""))


def lists_that_fail(folder: str) -> None:
    """A list that cannot be read is never one of which nothing is missing."""
    nights = made(folder)
    for name, path in [("none", folder + "/nothing"), ("a folder", folder)]:
        before = nights.kept()
        status, out, note = nights.night("--expected", path)
        check("a list that is " + name, (status, out, "(os error" in note), (2, "", True))
        check("nothing was run of a list that is " + name, nights.kept(), before)
    file = folder + "/expected"
    for name, text, why in [("empty", b"", "it names no object"),
                            ("of comments", b"# none\n\n", "it names no object"),
                            ("of ids", b"urn:a\nhttp://b//c\n", "bad list: line 2: ")]:
        common.write(file, text)
        before = nights.kept()
        status, out, note = nights.night("--expected", file)
        check("a list that is " + name, (status, out, why in note, nights.kept()),
              (2, "", True, before))
    for name, change in [("removed", os.remove), ("a folder now", folder_instead),
                         ("no list now", lambda it: common.write(it, b"f\n/lost\n"))]:
        common.write(file, b"f\nlost\n")
        stopped = Stopped([], "fsync", nights.words("--expected", file), 6)
        with stopped:
            change(file)
        status, out, note = stopped.ended
        check("a list that is %s meanwhile" % name, (status, file in note), (3, True))
        if os.path.isdir(file):
            os.rmdir(file)
        common.write(file, b"f\nlost\n")
        status, out, _ = nights.night("--expected", file, "--files", "1")
        check("%s: the next night says it" % name, (status, out.count("expected\tlost\n")), (1, 1))
        nights.night()


def folder_instead(path: str) -> None:
    os.remove(path)
    os.mkdir(path)


# Closings that are disturbed

def check_said_later(name: str, nights: Nights, said: str, status: Any) -> None:
    """What was lost is said by one of the nights, and its list is there."""
    check(name, status, True)
    _, out, _ = nights.night("--files", "1")
    check(name + ": it is said", (OF_F in said + out, nights.has("reports/gone-000002")),
          (True, OF_F))
    _, out, _ = nights.night("--files", "1")
    check(name + ": and not again", OF_F in out, False)


def disturbed_nights(folder: str) -> None:
    """What is gone is said by the next night where the output failed, or the night was killed."""
    nights = made(folder)
    shutil.copytree(nights.state, folder + "/kept")
    remove_object(nights)
    with open("/dev/full", "wb") as full:
        got: Got = nights.night(stdout=full)
    check_said_later("the output failed", nights, "", got[0] == 3)
    for call, most in [("fsync", 30), ("rename", 12), ("write", 20), ("unlink", 12)]:
        for when in range(1, most):
            nights.again()
            shutil.copytree(folder + "/kept", nights.state)
            rule = ["-e", "inject=%s:signal=KILL:when=%d" % (call, when)]
            status, said, _ = traced(rule, nights.words())
            if status != -signal.SIGKILL:
                break
            said += nights.night()[1] if nights.whole(2) is None else ""
            check_said_later("killed at %s %d" % (call, when), nights, said, True)


def after_an_incomplete_one(folder: str) -> None:
    """What is gone is found against the last whole report, also where a cycle lost lines since."""
    nights = made(folder)
    nights.night("--files", "3")
    os.truncate(nights.path("report"), 3)
    status, out, note = nights.night()
    check("not whole", (status, nights.closed()), (3, ["cycle-000001", "incomplete-000002"]))
    remove_object(nights)
    status, out, _ = nights.night()
    check("gone", (status, OF_F in out, nights.has("reports/gone-000003")), (1, True, OF_F))


# Reports that were changed before they are compared

def lost_lines_before(folder: str) -> None:
    """The report of before lost the lines of an object, which is then lost."""
    nights = made(folder)
    path = nights.path("reports/cycle-000001")
    lines = common.read(path).splitlines(True)
    common.write(path, b"".join(line for line in lines if not line.startswith(b"ok\tf")))
    remove_object(nights)
    status, out, note = nights.night()
    check("lost lines", (status, "cycle 1 was changed" in note, out), (3, True, ""))


def is_not_compared(name: str, nights: Nights, got: Got, cycle: int) -> None:
    """A night says which reports it could not compare, and calls nothing gone."""
    status, out, note = got
    check(name, (status, "the report of cycle %d" % cycle in note, "object\t" in out,
                 nights.has("reports/gone-000002")), (3, True, False, None))


def no_report_before(folder: str) -> None:
    """The report of before is no report any more: that is said, by each night until it is one
    again; then what is gone is."""
    nights = made(folder)
    path = nights.path("reports/cycle-000001")
    kept = common.read(path)
    shutil.copytree(nights.state, folder + "/kept")
    for name, data in [("half a line", kept[:-5]), ("zeros", bytes(len(kept))),
                       ("the lines turned", b"".join(kept.splitlines(True)[::-1])),
                       ("other bytes", kept.replace(b"ok", b"kk", 1))]:
        nights.again()
        shutil.copytree(folder + "/kept", nights.state)
        common.write(path, data)
        remove_object(nights)
        is_not_compared(name, nights, nights.night(), 2)
        is_not_compared(name + ", the next night", nights, nights.night("--files", "1"), 2)
        common.write(path, kept)
        status, out, _ = nights.night("--files", "1")
        check(name + ": as it was", (status, OF_F in out, nights.has("reports/gone-000002")),
              (1, True, OF_F))
        common.make_object(nights.root + "/f", FILES)


def not_compared_for_long(folder: str) -> None:
    """The same, and a further cycle is closed before the report is one again."""
    nights = made(folder)
    path = nights.path("reports/cycle-000001")
    kept = common.read(path)
    common.write(path, kept[:-5])
    remove_object(nights)
    for cycle in (2, 3):
        is_not_compared("cycle %d" % cycle, nights, nights.night(), 2)
    common.write(path, kept)
    said = nights.night()[1] + nights.night()[1]
    check("what was lost is said", OF_F in said, True)


def older_report(folder: str) -> None:
    """The last report was taken away: what is gone is found against the one before it, and that is
    said, with status 3."""
    nights = made(folder)
    nights.night()
    os.remove(nights.path("reports/cycle-000002"))
    remove_object(nights)
    status, out, note = nights.night()
    check("gone", (status, OF_F in out, "the report of cycle 2 is not in" in out,
                   "so this is since cycle 1" in out, note), (3, True, True, True, ""))
    check("its row", closings(nights)[-1],
          {"cycle": 3, "compared": 1, "objects": 1, "unlooked": 2})


def closings(nights: Nights) -> list[dict[str, Any]]:
    """The rows of the log on closings: of each the members that are not 0 or empty."""
    rows = [json.loads(line) for line in common.read(nights.path("log")).splitlines()]
    shown = ("cycle", "compared", "objects", "files", "unlooked", "back", "expected", "listed",
             "left")
    return [{name: row[name] for name in shown if row.get(name)} for row in rows
            if row["row"] == "closing"]


def no_report_there(folder: str) -> None:
    """The only report of before was compressed, or taken away: nothing is compared, which is said
    until it is back; then what was lost is."""
    for name in ("compressed", "taken away"):
        nights = made(folder + "/" + name.split()[0])
        path = nights.path("reports/cycle-000001")
        os.rename(path, path + ".gz" if name == "compressed" else folder + "/away")
        remove_object(nights)
        for night in ("that night", "the next one"):
            status, out, note = nights.night("--files", "1" if night == "the next one" else "99")
            check("%s, %s" % (name, night),
                  (status, "What is new or gone since the last report is not known: the report of "
                   "cycle 1 is not in" in out, "object\t" in out,
                   nights.has("reports/gone-000002"), note), (3, True, False, None, ""))
        check(name + ": its row", closings(nights), [{"cycle": 1}, {"cycle": 2}])
        os.rename(path + ".gz" if name == "compressed" else folder + "/away", path)
        check_said_later(name + ": it is back", nights, "", True)
        check(name + ": its row then", closings(nights)[-1],
              {"cycle": 2, "compared": 1, "objects": 1, "unlooked": 2})


def fails_for_long(folder: str) -> None:
    """A cycle's list cannot be made, and two further ones are closed and said before it can."""
    nights = made(folder)
    os.mkdir(nights.path("reports/gone-000002.new"))
    remove_object(nights)
    for cycle in (2, 3, 4):
        status, out, _ = nights.night()
        check("cycle %d" % cycle, (status, OF_F in out), (3, False))
    check("which are said", [nights.has("reports/gone-%06d" % it) for it in (2, 3, 4)],
          [None, "", ""])
    os.rmdir(nights.path("reports/gone-000002.new"))
    check_said_later("it can be", nights, "", True)


# Cycles with a place left out

def leave_out(nights: Nights, place: str = "m") -> str:
    """Makes a folder in the root that no run can read, and gives its path."""
    path = "%s/%s" % (nights.root, place)
    os.mkdir(path)
    common.write(os.fsencode(path) + b"/\xff", b"")
    return path


def place_left_out(folder: str) -> None:
    """A cycle that left a place out is compared outside of it, for as long as that lasts; and what
    was there is compared once it can be read."""
    nights = made(folder)
    common.make_object(nights.root + "/m/o", FILES)
    check("the second cycle", nights.night(), (0, "", ""))
    hidden = nights.root + "/m/o"
    os.rename(nights.root + "/m", folder + "/m")
    path = leave_out(nights)
    remove_object(nights)
    common.write(folder + "/expected", "".join(it + "\n" for it in [*PLACES, "lost"]).encode())
    status, out, note = nights.night("--expected", folder + "/expected")
    check("a loss beside it", (status, out.endswith(
        "object\tf\nexpected\tf\nexpected\tlost\n" + UNLOOKED % 2), nights.closed()[-1]),
          (3, True, "incomplete-000003"))
    check("its list", nights.has("reports/gone-000003"), OF_F + "expected\tf\nexpected\tlost\n")
    check("its row", closings(nights)[-1], {"cycle": 3, "compared": 2, "objects": 1, "unlooked": 2,
                                            "expected": 2, "listed": 9, "left": 1})
    check("the reason", "left out: m: %s\n" % NOT_UTF_8 in note, True)
    remove_object(nights, "+b")
    status, out, _ = nights.night()
    check("another loss, the next cycle", (status, "object\t+b\n" in out, OF_F in out,
                                           closings(nights)[-1]),
          (3, True, False,
           {"cycle": 4, "compared": 3, "objects": 1, "unlooked": 2, "left": 1}))
    shutil.rmtree(os.fsencode(path))
    os.rename(folder + "/m", nights.root + "/m")
    shutil.rmtree(hidden)
    common.make_object(nights.root + "/m/p", FILES)
    status, out, _ = nights.night()
    check("what was lost there", (status, "object\tm/o\n" in out, "object\tf\n" in out,
                                  nights.whole(5) is None), (1, True, False, False))
    check("and nothing more", nights.night(), (0, "", ""))


def left_out_at_first(folder: str) -> None:
    """What the first cycle left out is in none before: once it can be read nothing of it is gone,
    and what is lost beside it is."""
    root = common.make_root(folder + "/root", {place: FILES for place in PLACES})
    nights = Nights(folder + "/state", root)
    path = leave_out(nights)
    check("the first cycle", (nights.first()[0], nights.closed()), (3, ["incomplete-000001"]))
    shutil.rmtree(os.fsencode(path))
    remove_object(nights)
    status, out, note = nights.night()
    check("a loss", (status, OF_F in out, note), (1, True, ""))
    check("no more", nights.night(), (0, "", ""))


def never_whole(folder: str) -> None:
    """Each cycle left out another place: the compressed report of the first was no whole one."""
    root = common.make_root(folder + "/root", {place: FILES for place in PLACES})
    nights = Nights(folder + "/state", root)
    for place in "klm":
        path = leave_out(nights, place)
        if place == "m":
            compressed = nights.path("reports/incomplete-000001.gz")
            os.rename(compressed[:-3], compressed)
            remove_object(nights)
        status, out, _ = nights.first() if place == "k" else nights.night()
        shutil.rmtree(os.fsencode(path))
    check("all is known", (status, nights.closed()[-1], "is not in" in out, OF_F in out),
          (3, "incomplete-000003", False, True))


def killed_once_left_out(folder: str) -> None:
    """A night was killed once it had left a place out: the next ones name the place, and its
    closing counts it."""
    nights = made(folder)
    leave_out(nights)
    words = nights.words("--files", "7")
    for when in range(1, 40):
        rule = ["-e", "inject=rename:signal=KILL:when=%d" % when]
        status, _, _ = traced(rule, words)
        if status != -signal.SIGKILL or b'"row":"left"' in common.read(nights.path("log")):
            break
    check("killed", status, -signal.SIGKILL)
    status, _, note = nights.night()
    check("it is named", (status, "left out earlier: m\n" in note or "left out: m: " in note),
          (3, True))
    nights.night()
    check("it is counted", [it.get("left") for it in closings(nights)[1:2]], [1])


def why_unread(folder: str) -> None:
    """Of a file that cannot be read the night's message has the system's words too."""
    nights = made(folder)
    shutil.copytree(nights.state, folder + "/kept")
    opened = calls.made(nights.words(), folder + "/calls")
    call = calls.on(nights.root + "/f/v1/content/1", opened, calls.OPENS)[0]
    nights.again()
    shutil.copytree(folder + "/kept", nights.state)
    status, out, note = traced(call.rule("error=EACCES"), nights.words())
    check("said", (status, shown("S08\tf/v1/content/1", out),
                   "v1/content/1: could not be read (S08): Permission denied (os error 13)\n"
                   in out, note),
          (1, 1, True, ""))


# What is not an object any more

def no_object_any_more(folder: str) -> None:
    """An object that was emptied is gone; one whose declaration is lost is no longer declared; of
    one whose inventory cannot be used no file is called gone."""
    nights = made(folder)
    path = nights.root + "/f"
    shutil.rmtree(path)
    os.mkdir(path)
    os.remove(nights.root + "/i/0=ocfl_object_1.1")
    common.write(nights.root + "/.e/inventory.json", b"{")
    status, out, _ = nights.night()
    check("said", (status, "object\tf\nundeclared\ti\n" in out, "file\t" in out), (1, True, False))
    check("the list", nights.has("reports/gone-000002"), "object\tf\nundeclared\ti\n")
    shutil.rmtree(path)
    common.make_object(path, FILES)
    common.write(nights.root + "/i/0=ocfl_object_1.1", b"ocfl_object_1.1\n")
    shutil.rmtree(nights.root + "/.e")
    common.make_object(nights.root + "/.e", FILES)
    status, out, _ = nights.night()
    check("all is back", (status, nights.has("reports/gone-000003")), (0, ""))
    check("it is said", (back_in(2, 3) + "object\tf\nobject\ti\n" in out, out.count("object\t")),
          (True, 2))
    check("the rows", closings(nights), [
        {"cycle": 1}, {"cycle": 2, "compared": 1, "objects": 2, "unlooked": 4},
        {"cycle": 3, "compared": 2, "back": 2}])
    check("it is said once", nights.night(), (0, "", ""))


def back_later(folder: str) -> None:
    """An object is back some cycles after it was called gone, another one has gone meanwhile, and
    a new one was never gone."""
    nights = made(folder)
    remove_object(nights)
    nights.night()
    remove_object(nights, "i")
    status, out, _ = nights.night()
    check("another loss", (status, "back in" in out, "object\ti\n" in out), (1, False, True))
    common.make_object(nights.root + "/new", FILES)
    check("a new object", nights.night(), (0, "", ""))
    common.make_object(nights.root + "/f", FILES)
    common.write(nights.root + "/f/v1/content/1", b"abd")
    status, out, _ = nights.night()
    check("one is back, with damage", (status, back_in(1, 5) + OF_F in out,
                                       shown("E092\tf/v1/content/1", out)), (1, True, 1))
    remove_object(nights)
    status, out, _ = nights.night()
    check("and gone again", (status, OF_F in out, "back in" in out), (1, True, False))
    common.make_object(nights.root + "/f", FILES)
    common.make_object(nights.root + "/i", FILES)
    status, out, _ = nights.night()
    check("both are back", (status, back_in(2, 7) + OF_F + "object\ti\n" in out), (0, True))
    check("the rows", [row.get("back", 0) for row in closings(nights)], [0, 0, 0, 0, 1, 0, 2])


def each_repair(folder: str) -> None:
    """Each finding that is repaired counts, also two of one place."""
    nights = made(folder)
    path = nights.root + "/i/v1/content/1"
    fixed = nights.root + "/g/h"
    inventory = json.loads(common.read(fixed + "/inventory.json"))
    inventory["fixity"] = {"md5": {common.digest(b"abc", "md5"): ["v1/content/1"]}}
    common.put_inventory(fixed, json.dumps(inventory).encode(), "sha256")
    check("the second cycle", nights.night(), (0, "", ""))
    common.write(path, b"abd")
    common.write(fixed + "/v1/content/1", b"abd")
    nights.night()
    common.write(path, b"abc")
    common.write(fixed + "/v1/content/1", b"abc")
    status, out, _ = nights.night()
    check("repaired", (status, "3 findings of cycle 3 are repaired in cycle 4" in out,
                       out.count("(E092)"), out.count("(E093)")), (0, True, 2, 1))


def changed_once_closed(folder: str) -> None:
    """A report that was changed before its closing was said: all that it found was said before,
    and the night after says that it could not be compared."""
    nights = made(folder)
    common.write(nights.root + "/i/v1/content/1", b"abd")
    remove_object(nights)
    rules = ["-P", nights.path("reports/gone-000002.new"), "-e", "inject=fsync:signal=KILL"]
    status, said, _ = traced(rules, nights.words())
    check("killed", (status, said.count("v1/content/1: bytes have changed (E092)")),
          (-signal.SIGKILL, 1))
    path = nights.path("reports/cycle-000002")
    kept = common.read(path)
    common.write(path, kept[:-5])
    is_not_compared("changed", nights, nights.night("--files", "1"), 2)
    common.write(path, kept)
    check("as it was", OF_F in nights.night("--files", "1")[1], True)


def checkpoint_of(nights: Nights, cycle: int, seconds: float) -> str:
    """The checkpoint that closed a cycle, as if it had been written so many seconds ago."""
    path = nights.path("reports/checkpoint-%06d" % cycle)
    os.utime(path, (time.time() - seconds, time.time() - seconds))
    return path


def read_by(nights: Nights) -> list[int]:
    """How many runs the last night made, and what they read."""
    rows = [json.loads(line) for line in common.read(nights.path("log")).splitlines()]
    return [rows[-1][name] for name in ("runs", "cost")]


def every(folder: str) -> None:
    """No new cycle begins before so many days have passed; one that is open goes on."""
    nights = made(folder)
    day = 86400
    written = os.stat(nights.path("reports/checkpoint-000001")).st_mtime
    text = [time.strftime("%Y-%m-%dT%H:%M:%SZ", time.gmtime(int(written) + more))
            for more in (2 * day, 0)]
    check("no new cycle", nights.night("--every", "2"), (
        0, "", "ocfl-scrub: No new cycle is begun before %s: cycle 1 ended at %s, and --every is 2."
        "\n" % tuple(text)))
    check("it reads nothing", (read_by(nights), nights.whole(2)), ([0, 0], None))
    checkpoint_of(nights, 1, 2 * day - 60)
    check("a minute early", ("No new cycle" in nights.night("--every", "2")[2], read_by(nights)),
          (True, [0, 0]))
    checkpoint_of(nights, 1, 2 * day + 60)
    check("two days later", nights.night("--every", "2", "--files", "1"), (0, "", ""))
    check("it has begun", (read_by(nights)[0], nights.whole(2)), (1, None))
    checkpoint_of(nights, 1, 0)
    check("an open cycle goes on", nights.night("--every", "2"), (0, "", ""))
    check("to its end", nights.whole(2), audit_of(nights))
    checkpoint_of(nights, 2, -day)
    check("a clock that was ahead", nights.night("--every", "2"), (0, "", ""))
    check("holds no cycle", nights.whole(3), audit_of(nights))
    path = checkpoint_of(nights, 3, 0)
    os.remove(path)
    check("the report's own time", "No new cycle" in nights.night("--every", "3650")[2], True)
    unsaid_before_a_cycle(folder + "/unsaid")


def unsaid_before_a_cycle(folder: str) -> None:
    """What a killed night left unsaid is said by one that begins no cycle."""
    nights = made(folder)
    remove_object(nights)
    rules = ["-P", nights.path("reports/gone-000002.new"), "-e", "inject=fsync:signal=KILL"]
    check("killed", traced(rules, nights.words())[0], -signal.SIGKILL)
    status, out, said = nights.night("--every", "1")
    check("what was unsaid is said", (status, OF_F in out, "No new cycle" in said, read_by(nights)),
          (1, True, True, [0, 0]))
    check("once", nights.night("--every", "1")[:2], (0, ""))


PARTS = [nothing_is_gone, every, gone, new_and_repaired, no_line_twice, many_new, many,
         objects_first, known_findings, many_known, each_finding_once, odd_names_gone, expected,
         lists_that_fail, disturbed_nights, after_an_incomplete_one, lost_lines_before,
         no_report_before, not_compared_for_long, older_report, no_report_there, fails_for_long,
         place_left_out, left_out_at_first, never_whole, killed_once_left_out, why_unread,
         no_object_any_more, back_later, each_repair, changed_once_closed]


def check_all(folder: str) -> None:
    tried_apart(PARTS, folder)


common.run_trial(check_all, needs=["strace"])
