#!/usr/bin/env python3
"""Audits and runs the parts of storage roots and the branches of their places, and splits them.

usage: parts.py [SEED]

The roots are damaged at random. What is expected of a part or a branch is what of the audit's lines
lies in it; this script computes that from the places in them.

Tried, and what comes of it:

- All parts of roots with nine kinds of damage, for separators from `split` and at random places;
  each branch of an object; runs of parts, also killed ones; separators, cursors and reports that
  are refused: joined, the parts' audits and their runs are the audit, byte for byte; each content
  file is opened once, and nothing outside of a part but the way to it; what is refused ends with
  its text and status, and moves no cursor.

Seen to fail on these faults, each planted alone:

- A report is given up after 1,000,000 lines.
- A run of a part that stopped stores no cursor; a split whose output failed ends with status 0.
"""
import os
import random
import re
import shutil
import sys
from collections import Counter

import common
from common import digest, expect, check, line, make_root, ran, read, traced, write
from shared import calls
from shared.damage import DAMAGES, OBJECTS, directories_of, make_damaged
from shared.kills import Cycle, exact_moments, random_moments
from shared.places import (begins, lies_in, lines_of, parts_of, path_of, place_of, read_separators,
                           separators_text, text_of)

DICE = random.Random(int(sys.argv[1]) if len(sys.argv) > 1 else 34)
ROOTS = 3
FILES = {"v1/content/a": b"abc", "v1/content/b": b"", "v1/content/c": b"abc"}
NOBODY = ["setpriv", "--reuid=65534", "--regid=65534", "--clear-groups"]


def joined(lines):
    return "".join(text for _, text in lines)


def status_of(lines):
    return int(any(not text.startswith(("ok\t", "S07\t")) for _, text in lines))


def within(lines, start, below):
    return [(place, text) for place, text in lines if lies_in(place, start, below)]


def branch(lines, under):
    return [(place, text) for place, text in lines if begins(under, place)]


class Root:
    """A storage root, the lines of its audit, and files of separators for it."""

    def __init__(self, folder, name, root):
        self.folder = os.path.join(folder, name)
        os.mkdir(self.folder)
        self.root = root
        status, self.report, said = ran(["audit", root])
        self.lines = lines_of(self.report)
        check("audit of " + name, (status, said), (status_of(self.lines), ""))

    def write(self, separators):
        """Writes a file of separators."""
        text = separators_text(separators)
        name = "parts-" + digest(text.encode())[:12]
        return write(os.path.join(self.folder, name), text.encode())

    def cursor(self, name="cursor"):
        """A cursor's file that is not there."""
        file = os.path.join(self.folder, name)
        if os.path.exists(file):
            os.remove(file)
        return file

    def cost(self, lines):
        """What items cost, and how many files are read, by the files as they are."""
        paths = {path_of(self.root, place) for place, text in lines
                 if re.match("ok\t.*\t[0-9]+$|E09[23]\t.* [0-9a-f]+ [0-9a-f]+$", text)}
        return sum(os.path.getsize(path) + 1 for path in paths), len(paths)


def part_words(file, number):
    return ["--parts", file, "--part", str(number)]


def audits_of_parts(root, name, separators):
    """Each part's audit is its lines of the audit, and joined they are the audit."""
    file, reports = root.write(separators), []
    for number, ends in enumerate(parts_of(separators), 1):
        lines = within(root.lines, *ends)
        got = ran(["audit", *part_words(file, number), root.root])
        reports.append(got[1])
        check("%s: audit of part %d" % (name, number), got, (status_of(lines), joined(lines), ""))
    check(name + ": the audits joined", "".join(reports), root.report)


def runs_of_parts(root, name, separators):
    """Each part's runs, with a cursor of their own, are its audit, and no more than they may be."""
    file, reports = root.write(separators), []
    budget, most = DICE.choice([(1, None), (100, None), (600, None), (600, 1), (2**20, 2)])
    limits = ["--budget", str(budget), *(["--files", str(most)] if most else [])]
    for number, ends in enumerate(parts_of(separators), 1):
        lines = within(root.lines, *ends)
        cursor = root.cursor("cursor-%d" % number)
        run = ["run", "--cursor", cursor, *limits, *part_words(file, number), root.root]
        nights = common.nights(run)
        reports += nights
        at = "%s: runs of part %d" % (name, number)
        check(at, "".join(nights), joined(lines))
        check(at + ": its cursor has ended", common.shown_cursor(cursor)[-6:], "ended\n")
        cost, files = root.cost(lines)
        bound = cost // budget + (files // most if most else 0) + 1
        check(at + ": how many", len(nights) <= bound, True)
    check(name + ": the runs joined", "".join(reports), root.report)


def by_listing(root, count):
    """Separators of directories of one level, the first with enough or else the lowest of the
    widest. Each part has as many of them, or one more."""
    status, out, said = ran(["split", "--parts", str(count), root.root])
    name = "split in %d" % count
    check(name, (status, said), (0, ""))
    separators = read_separators(out)
    check(name + ": their text", separators_text(separators), out)
    check(name + ": ascending", separators, sorted(set(separators)))
    levels = directories_of(root.root)
    widest = max(reversed(levels), key=len)
    level = next((it for it in levels if len(it) >= count), widest)
    check(name + ": of one level", set(separators) - set(level), set())
    check(name + ": how many", len(separators), min(count, len(level)) - 1)
    ends = [0, *[level.index(it) for it in separators if it in level], len(level)]
    sizes = [end - start for start, end in zip(ends, ends[1:])]
    check(name + ": at equal distances", max(sizes) - min(sizes) <= 1, True)
    return separators


def by_costs(root, budget):
    """Separators by the costs that the audit's lines tell, which are counted here too."""
    file = write(os.path.join(root.folder, "report"), root.report.encode())
    expected, spent = [], 0
    for place, text in root.lines:
        code, _, detail = text.rstrip("\n").split("\t")
        cost = int(detail) + 1 if code == "ok" and detail != "-" else 0
        if cost and spent >= budget:
            expected.append(place)
            spent = 0
        spent += cost
    split = ["split", "--budget", str(budget), "--report", file]
    expect("split by a budget of %d" % budget, split, 0, separators_text(expected), None)
    return expected


def a_separator(root):
    """A place of an item, or above one, or near one where nothing is."""
    place, _ = DICE.choice(root.lines)
    place = place[:DICE.randrange(len(place) + 1)] if DICE.random() < 0.4 else place
    if not place or DICE.random() < 0.5:
        return place
    return DICE.choice([
        (*place, b"x"),
        (*place, b"\x01", b"below"),
        (*place[:-1], place[-1] + b"\x01"),
        (*place[:-1], place[-1].decode()[:-1].encode() or b"A"),
        (*place[:-1], b"inventory.json"),
    ])


def at_random(root):
    return sorted({a_separator(root) for _ in range(DICE.randrange(1, 8))})


def all_parts(folder):
    """Every part of damaged roots, for separators from several sources."""
    codes = set()
    for number in range(ROOTS):
        made = os.path.join(folder, "damaged-%d" % number)
        make_damaged(made, DAMAGES[number::ROOTS], DICE)
        root = Root(folder, "root-%d" % number, made)
        codes |= {text.split("\t")[0] for _, text in root.lines}
        before = common.snapshot(made)
        lists = [("none", []), ("the root", [()])]
        lists += [("listing %d" % count, by_listing(root, count)) for count in [1, 5, 1000]]
        lists += [("budget %d" % budget, by_costs(root, budget)) for budget in [1, 700, 2**40]]
        lists += [("random %d" % it, at_random(root)) for it in range(3)]
        for name, separators in lists:
            name = "root %d, %s" % (number, name)
            audits_of_parts(root, name, separators)
            runs_of_parts(root, name, separators)
        branches(root)
        check("nothing was written below the root", common.snapshot(made) == before, True)
    wanted = {"ok", "E001", "E015", "E023", "E024", "E060", "E063", "E072", "E073", "E092", "E093",
              "S04"}
    check("the damages have their codes", wanted - codes, set())


def audits_branch(root, name, under):
    """The audit of a branch is the lines of its places, or says that there are none."""
    lines = branch(root.lines, under)
    audit = ["audit", "--under", text_of(under), root.root]
    if lines:
        expect("under " + name, audit, status_of(lines), joined(lines), None)
    else:
        expect("under " + name, audit, 2, [], "no item")


def branches(root):
    """Each object, a file and a directory in it, the root, what is missing, what is above."""
    for place in OBJECTS:
        audits_branch(root, "object " + place, tuple(place.encode().split(b"/")))
    for place, text in DICE.sample(root.lines, 6):
        audits_branch(root, text, place)
        audits_branch(root, text + " a directory above", place[:-1])
    for place in ["deep", "deep/empty", "h", "a/v1", "a/v2", "a/v1/content", "a/v9", "zz", "a/a",
                  "a-", "stray/none"]:
        audits_branch(root, place, place_of(place))
    audits_branch(root, "the root", ())


def branches_beside_others(folder):
    """Names that begin as others do, and places that are none."""
    objects = {name: {"v1/content/f": name.encode()} for name in ["a", "a-b", "ab", "b/a"]}
    root = make_root(os.path.join(folder, "beside"), objects)
    report = lines_of("".join(common.sound(objects)))
    for under in [*objects, "b", "a/v1", "a/v1/content", "a/v1/content/f"]:
        lines = branch(report, place_of(under))
        expect("under " + under, ["audit", "--under", under, root], 0, joined(lines), None)
    expect("under .", ["audit", "--under", ".", root], 0, joined(report), None)
    for under in ["zz", "a/v2", "a/v1/content/g", "a/v1/content/f/g", "a/inventory.json", "a%01"]:
        expect("under " + under, ["audit", "--under", under, root], 2, [], "no item")
    for bad, why in BAD_PLACES:
        expect("under %r" % bad, ["audit", "--under", bad, root], 2, [],
               "bad path\nocfl-scrub: " + why)
    for name in NAMES:
        expect("under %r" % name, ["audit", "--under", name, root], 2, [], "no item")
    nowhere = ["audit", "--under", "a", os.path.join(folder, "nowhere")]
    expect("under a of no root", nowhere, 3, [], "stopped at .")


SLASHES = "give the path below the storage root, without a slash at its beginning or end"
DOTS = "no name in the path may be '.' or '..'"
BAD_PLACES = [("", "the path is empty: the storage root itself is '.'"),
              *((it, SLASHES) for it in ["/", "/a", "a/"]),
              ("a//b", "the path has an empty name between two slashes"),
              *((it, DOTS) for it in ["..", "a/..", "./a", "a/."]),
              ("n" * 256, "the path has a name that no file can have")]
# As reports write no path; so they are names themselves.
NAMES = ["%61", "%0a", "%", "a%", "a%0", "%2F", "%zz", "%00", "%C3", "%FF", "é", "a\tb", "a\nb"]


def worked(folder):
    """Parts of one object, whose lines are written down here."""
    made = make_root(os.path.join(folder, "worked"), {"o": FILES})
    root = Root(folder, "worked-files", made)
    items = common.sound({"o": FILES})
    a, b, c = ["o/v1/content/" + name for name in "abc"]
    for separators, counts in [
        ([a, b], [2, 1, 2]), ([a + "a"], [3, 2]), ([], [5]), (["."], [0, 5]), ([b + "/x"], [4, 1]),
        (["o"], [1, 4]), (["o%01"], [5, 0]), (["n", "o/v0", "o/v1", "p"], [1, 1, 0, 3, 0]),
    ]:
        file = root.write(list(map(place_of, separators)))
        done = 0
        for number, count in enumerate(counts, 1):
            audit = ["audit", *part_words(file, number), made]
            expect("part %d of %s" % (number, separators), audit, 0, items[done:done + count], None)
            done += count
    next_cycle(root, items, root.write([place_of(b)]), root.cursor())


def next_cycle(root, items, file, cursor):
    """Runs of a part, in two cycles, and from cursors before the part and after it."""
    second = ["run", "--cursor", cursor, "--budget", "1", *part_words(file, 2), root.root]
    expect("a part's first run", second, 0, items[3:4], "cycle 1, run 1, cost 1, open")
    ends = "from o/v1/content/b\nbelow end\n"
    shown = ends + "cycle 1\nruns 1\nspent 1\nfiles 1\nafter o/v1/content/b\n"
    expect("a part's cursor shown", ["show", cursor], 0, shown, None)
    check("bytes of a part's cursor", read(cursor), sealed(shown))
    expect("a part's second run", second, 0, items[4:], "cycle 1, run 2, cost 4, ended")
    expect("a part's next cycle", second, 0, items[3:4], "cycle 2, run 1, cost 1, open")
    write(cursor, sealed(ends + "cycle 1\nruns 1\nspent 0\nfiles 0\nafter o\n"))
    expect("a cursor before its part", second, 0, items[3:4], "cycle 1, run 2, cost 1, open")
    first = ["run", "--cursor", cursor, "--budget", "1", *part_words(file, 1), root.root]
    ends = "from start\nbelow o/v1/content/b\n"
    write(cursor, sealed(ends + "cycle 1\nruns 1\nspent 0\nfiles 0\nafter o/v1/content/c\n"))
    expect("a cursor after its part", first, 0, [], "cycle 1, run 2, cost 0, ended")


def sealed(lines):
    """The bytes of a part's cursor with these lines."""
    body = b"ocfl-scrub part cursor 1\n" + lines.encode()
    return body + b"digest %s\n" % digest(body).encode()


def opened(root, words):
    """What is opened below a root, in its order: the directories, and the files."""
    log = os.path.join(root.folder, "log")
    status, _, said = traced([*calls.RULES, "-e", "signal=none"], words, log)
    check("%s: traced" % words, (status in (0, 1), said), (True, ""))
    folders, files = [], []
    for call in calls.read_calls(log, os.getcwd()):
        if call.name in calls.OPENS and (call.path + "/").startswith(root.root + "/"):
            opens = folders if call.folder else files
            opens.append(place_of(call.path[len(root.root) + 1:] or "."))
    return folders, files


def is_content(place):
    return b"content" in place


def outside(folders, files, start, taken):
    """What is opened but is neither taken nor on the way to the start, nor of its object."""
    way = [start[:end] for end in range(len(start) + 1)] if start else []
    holders = [it for it in way if it in map(lambda place: tuple(place.encode().split(b"/")),
                                             ["o1", "o2", "h/o3", "o4"])]
    lost = [it for it in folders if not taken(it) and it not in way]
    for file in files:
        is_taken = taken(file) if is_content(file) else taken(file[:-1])
        if not is_taken and (is_content(file) or file[:-1] not in holders):
            lost.append(file)
    return lost


def opens_what_it_takes(root, name, words, start, taken):
    """Nothing is opened twice, and nothing outside. Gives the content that is opened."""
    folders, files = opened(root, ["audit", *words, root.root])
    twice = [it for it, count in Counter(folders + files).items() if count > 1]
    check(name + ": opened twice", twice, [])
    check(name + ": opened outside", outside(folders, files, start, taken), [])
    return list(filter(is_content, files))


def openings(folder):
    """All parts together open the content that an audit opens, and each just what it takes."""
    if shutil.which("strace") is None:
        check("there is strace, of the package strace", False, True)
        return
    objects = {name: {"v1/content/f": b"abc", "v2/content/g/h": b"de"}
               for name in ["o1", "o2", "h/o3", "o4"]}
    root = Root(folder, "opened", make_root(os.path.join(folder, "openings"), objects))
    write(os.path.join(root.root, "o2/v1/content/f"), b"abd")
    os.remove(os.path.join(root.root, "o4/v1/content/f"))
    root.lines = lines_of(ran(["audit", root.root])[1])
    whole = list(filter(is_content, opened(root, ["audit", root.root])[1]))
    check("content opened", len(whole), 7)
    lists = [["o2"], ["o2/v1/content/f"], ["."], [], ["o2/v1/content/f/x", "o3"]]
    lists = [list(map(place_of, it)) for it in lists] + [at_random(root) for _ in range(3)]
    for separators in lists:
        file, content = root.write(separators), []
        for number, (start, below) in enumerate(parts_of(separators), 1):
            name = "part %d of %s" % (number, list(map(text_of, separators)))
            content += opens_what_it_takes(root, name, part_words(file, number), start,
                                           lambda it: lies_in(it, start, below))
        check("content opened by parts of %s" % separators, content, whole)
    for under in ["o2", "o2/v2", "o2/v1/content/f", "h"]:
        place = place_of(under)
        content = opens_what_it_takes(root, "under " + under, ["--under", under], place,
                                      lambda it: begins(place, it))
        check("content opened under " + under, content,
              [it for it in whole if begins(place, it)])


def faulty_separators(folder):
    """Files of separators that are refused: nothing is reported, and no cursor is made."""
    root = make_root(os.path.join(folder, "faulty"), {"o": FILES})
    file, cursor = os.path.join(folder, "faulty-parts"), os.path.join(folder, "faulty-cursor")
    audit = ["audit", *part_words(file, 1), root]
    run = ["run", "--cursor", cursor, "--budget", "1", *part_words(file, 1), root]
    many = "".join("%06d\n" % number for number in range(100_001)).encode()
    cases = [(name.encode() + b"\n", "line 1") for name in
             [*(path for path, _ in BAD_PLACES), *NAMES] if name != "a\nb"]
    cases += [(b"o\n" + text, "line 2") for text in [
        b"o\n", b".\n", b"a\n", b"p", b"\n", b"p\r\n", b"p\0\n", b"\xff\n"]]
    cases += [(b".\n.\n", "line 2"), (b"a-b\na/b\n", "line 2"), (b"%C3%A9\nz\n", "line 2"),
              (b"o/v1\no/v1/content\no\n", "line 3"), (b"b\nc\nd\nc\n", "line 4"),
              (many, "too long"),
              (many[:-7 * 11] + b"y" * 2**24, "too long")]
    for text, said in cases:
        write(file, text)
        for words in [audit, run]:
            expect("%s of %r" % (words[0], text[:40]), words, 2, [], "bad parts: " + said)
    os.remove(file)
    for name, unread in [("a missing file", file), ("a folder", folder)]:
        for words in [["audit", root], [*run[:5], root]]:
            words += part_words(unread, 1)
            expect("%s of separators: %s" % (name, words[0]), words, 3, [], "parts file failed")
    check("no cursor is made", os.path.exists(cursor), False)
    write(file, many[:-7])
    last = ["audit", *part_words(file, 100_001), root]
    expect("part 100,001", last, 0, common.sound({"o": FILES})[1:], None)


def missing_parts(folder):
    """Numbers that no part has, and options that do not go together."""
    root = make_root(os.path.join(folder, "numbers"), {"o": FILES})
    cursor = os.path.join(folder, "numbers-cursor")
    run = ["run", "--cursor", cursor, "--budget", "1", root]
    for text, number in [("", 2), ("o\n", 3), ("a\no\n", 4), ("", 100_001)]:
        file = write(os.path.join(folder, "numbers-parts"), text.encode())
        for words in [["audit", root], run]:
            name = "%s, part %d of %r" % (words[0], number, text)
            expect(name, words + part_words(file, number), 2, [], "no such part")
    for words in [["--part", "1"], ["--parts", file], part_words(file, 0), part_words(file, -1),
                  part_words(file, "x"), part_words(file, ""), part_words(file, 100_002),
                  [*part_words(file, 1), "--under", "o"], ["--parts", file, "--under", "o"],
                  ["--part", "1", "--under", "o"], ["--under", "o", "--under", "o"]]:
        for before in [["audit", root], run]:
            status, out, said = ran(before + words)
            check("usage: %s %s" % (before[0], words), (status, out, said != ""), (2, "", True))
    for words in [[*run, "--under", "o"], ["cycle", "--budget", "1", "--runs", "1", root,
                                           *part_words(file, 1)],
                  ["check", root, "o", *part_words(file, 1)], ["split"], ["split", root],
                  ["split", "--parts", "2"], ["split", "--parts", "0", root],
                  ["split", "--parts", "100001", root], ["split", "--budget", "1"],
                  ["split", "--report", file], ["split", "--budget", "0", "--report", file],
                  ["split", "--budget", "1", "--report", file, root]]:
        status, out, said = ran(words)
        check("usage: %s" % words, (status, out, said != ""), (2, "", True))
    check("no cursor of them", os.path.exists(cursor), False)


def other_cursors(folder):
    """A part takes no cursor but its own, and no part's cursor is that of the whole."""
    made = make_root(os.path.join(folder, "cursors"), {"o": FILES})
    root = Root(folder, "cursors-files", made)
    b, c = place_of("o/v1/content/b"), place_of("o/v1/content/c")
    at_b, at_c, none = root.write([b]), root.write([c]), root.write([])
    both = root.write([b, c])
    run = ["run", "--budget", "1", made]
    cases = [
        ("part 2 to part 1", part_words(at_b, 2), part_words(at_b, 1), "another part"),
        ("part 1 to part 2", part_words(at_b, 1), part_words(at_b, 2), "another part"),
        ("other separators", part_words(at_b, 2), part_words(at_c, 2), "another part"),
        ("one more separator", part_words(at_b, 2), part_words(both, 2), "another part"),
        ("part 1 of other separators", part_words(at_b, 1), part_words(at_c, 1), "another part"),
        ("a part to the one part", part_words(at_b, 1), part_words(none, 1), "another part"),
        ("a part to the whole", part_words(at_b, 2), [], "not a cursor"),
        ("the one part to the whole", part_words(none, 1), [], "not a cursor"),
        ("the whole to the one part", [], part_words(none, 1), "not a cursor"),
        ("the whole to a part", [], part_words(at_b, 1), "not a cursor"),
    ]
    for name, its, other, why in cases:
        cursor = root.cursor()
        ran(run + its + ["--cursor", cursor])
        stored = read(cursor)
        words = run + other + ["--cursor", cursor]
        expect("cursor of " + name, words, 4, [], "cursor refused: " + why)
        check("cursor of %s: untouched" % name, read(cursor), stored)
    cursor = root.cursor()
    ran(run + part_words(both, 2) + ["--cursor", cursor])
    got = ran(run + part_words(both, 2) + ["--cursor", cursor])
    check("the same ends", got[0], 0)
    moved = root.cursor("moved")
    ran(run + part_words(at_b, 1) + ["--cursor", moved])
    expect("the same part of more separators", run + part_words(both, 1) + ["--cursor", moved], 0,
           common.sound({"o": FILES})[:3], "cycle 2, run 1, cost 4, ended")
    damaged_cursors(root, at_b, run)


def damaged_cursors(root, file, run):
    """A part's cursor that was changed is refused by its run, and is not shown."""
    cursor = root.cursor()
    words = run + part_words(file, 2) + ["--cursor", cursor]
    ran(words)
    text = read(cursor)
    lines = b"from o/v1/content/b\nbelow end\ncycle 1\nruns 1\nspent 1\nfiles 1\n"
    for name, data, why in [
        ("cut", text[:-1], "damaged"),
        ("a changed end", text.replace(b"content/b", b"content/c"), "damaged"),
        ("another version", text.replace(b"cursor 1", b"cursor 9"), "not a cursor"),
        ("no end", sealed(lines.replace(b"below end\n", b"").decode() + "start\n"), "malformed"),
        ("ends that are none", sealed(lines.decode().replace("end", "/") + "start\n"), "malformed"),
        ("a leading zero", sealed(lines.decode().replace("e 1", "e 01") + "start\n"), "malformed"),
    ]:
        write(cursor, data)
        expect("a part's cursor, " + name, words, 4, [], "cursor refused: " + why)
        expect("not shown, " + name, ["show", cursor], 4, [], "cursor refused: " + why)
        check("untouched, " + name, read(cursor), data)
    for start, below in [("./start", "./end"), ("a", "end"), ("start", "b"), ("start", "end")]:
        lines = "from %s\nbelow %s\ncycle 7\nruns 2\nspent 5\nfiles 1\nended\n" % (start, below)
        write(cursor, sealed(lines))
        expect("shown from %s below %s" % (start, below), ["show", cursor], 0, lines, None)


def kills(folder):
    """Runs of parts that are killed: what their cursors stand for, joined, is the part."""
    sizes = [0, 1, 1_000, 65_536, 200_000, 400_000]
    objects = {place: {"v1/content/%02d" % number: DICE.randbytes(size)
                       for number, size in enumerate(sizes)} for place in ["a", "b/c", "d"]}
    root = Root(folder, "killed", make_root(os.path.join(folder, "kills"), objects))
    separators = list(map(place_of, ["b", "b/c/v1/content/04"]))
    file, at_random_moments, at_calls = root.write(separators), [], []
    for number, ends in enumerate(parts_of(separators), 1):
        items = [text for _, text in within(root.lines, *ends)]
        words = ["--budget", "300K", *part_words(file, number), root.root]
        cycle = Cycle(folder, "killed-%d" % number, words, items)
        at_random_moments.append(random_moments(cycle, 10, DICE))
        cycle = Cycle(folder, "exact-%d" % number, words, items)
        at_calls.append(exact_moments(cycle, 15, DICE))
    print("parts.py: %d of %d runs of parts killed at random moments, %d of %d at calls" % (
        *map(sum, zip(*at_random_moments)), *map(sum, zip(*at_calls))))


def closed_directory(folder):
    """A directory that cannot be read stops its own part, and a split by listing."""
    objects = {name: {"v1/content/f": b"abc"} for name in ["a", "d/o", "e"]}
    made = make_root(os.path.join(folder, "closed"), objects)
    report = lines_of("".join(common.sound(objects)))
    closed = os.path.join(made, "d")
    file = write(os.path.join(folder, "closed-parts"), b"d\nd%01\n")
    # the program and what it reads are to be found by anybody
    program, before = common.PROGRAM, NOBODY if os.geteuid() == 0 else []
    common.PROGRAM = shutil.copy(program, os.path.join(folder, "program"))
    for path, mode in [(folder, 0o755), (common.PROGRAM, 0o755), (closed, 0)]:
        os.chmod(path, mode)
    d, e = (b"d",), (b"e",)
    for name, words, got in [
        ("the audit", ["audit", made], (3, joined(within(report, None, d)), "stopped at d")),
        ("the part before", ["audit", made, *part_words(file, 1)],
         (0, joined(within(report, None, d)), "")),
        ("its own part", ["audit", made, *part_words(file, 2)], (3, "", "stopped at d")),
        ("the part after", ["audit", made, *part_words(file, 3)],
         (0, joined(within(report, e, None)), "")),
        ("its branch", ["audit", made, "--under", "d"], (3, "", "stopped at d")),
        ("below it", ["audit", made, "--under", "d/o"], (3, "", "stopped at d")),
        ("another branch", ["audit", made, "--under", "e"], (0, joined(branch(report, e)), "")),
        ("a split of one part", ["split", made, "--parts", "1"], (0, "", "")),
        ("a split above it", ["split", made, "--parts", "3"], (0, "d\ne\n", "")),
        ("a split that lists it", ["split", made, "--parts", "100"], (3, "", "stopped at d")),
    ]:
        expected = (*got[:2], common.note(got[2]))
        check("a closed directory: " + name, ran(words, before), expected)
    os.chmod(closed, 0o755)
    common.PROGRAM = program
    nowhere = ["split", "--parts", "2", os.path.join(folder, "nowhere")]
    expect("a split of no root", nowhere, 3, [], "stopped at .")


def stopped_part(folder):
    """A run of a part that stops keeps the cursor after what went out, and the next goes on."""
    objects = {name: {"v1/content/f": b"abc"} for name in ["a", "b", "d/o", "e"]}
    made = make_root(os.path.join(folder, "stopped"), objects)
    items = common.sound(objects)
    bad = os.path.join(os.fsencode(made), b"d", b"\xff")
    write(bad, b"")
    file = write(os.path.join(folder, "stopped-parts"), b"b\n")
    cursor = os.path.join(folder, "stopped-cursor")
    run = ["run", "--cursor", cursor, "--budget", "1K", *part_words(file, 2), made]
    expect("a part that stops", run, 3, items[3:5], "stopped at d")
    shown = "from b\nbelow end\ncycle 1\nruns 1\nspent 4\nfiles 1\nafter b/v1/content/f\n"
    expect("the cursor of a part that stops", ["show", cursor], 0, [shown], None)
    os.remove(bad)
    expect("a part that stopped goes on", run, 0, items[5:], "cycle 1, run 2, cost 8, ended")


def long_reports(folder):
    """A report of more than a million lines is read to its end."""
    file = os.path.join(folder, "long-report")
    report = line("ok", ".") + line("ok", "a", 3) + line("ok", "b", 0) * 1_000_100
    split = ["split", "--budget", "4", "--report", file]
    write(file, report.encode())
    expect("a report of a million lines and more", split, 0, ["b\n"], None)
    write(file, (report + line("ok", "a", 3)).encode())
    expect("a bad line beyond a million", split, 2, [], "bad report: line 1000103")


def failed_output(folder):
    """A split whose output fails ends with its status and text."""
    root = make_root(os.path.join(folder, "failed"), {name: {} for name in ["a", "b", "c"]})
    report = line("ok", ".") + line("ok", "a", 3) + line("ok", "b", 3)
    file = write(os.path.join(folder, "failed-report"), report.encode())
    for words in [["split", "--parts", "3", root], ["split", "--budget", "1", "--report", file]]:
        with open("/dev/full", "wb") as full:
            got = ran(words, stdout=full)
        check("output of %s fails" % words[:2], got, (3, "", common.note("output failed")))


def faulty_reports(folder):
    """Reports that are none, and none at all."""
    file = os.path.join(folder, "faulty-report")
    split = ["split", "--budget", "1", "--report", file]
    expect("a missing report", split, 3, [],
           "report failed: No such file or directory (os error 2)")
    expect("a folder as report", [*split[:-1], folder], 3, [],
           "report failed: Is a directory (os error 21)")
    good = line("ok", ".") + line("ok", "o") + line("ok", "o/f", 3)
    for name, text, number in [
        ("no line feed", good[:-1], 3), ("an empty line", good + "\n", 4),
        ("two fields", good + "ok\tp\n", 4), ("four fields", good + "ok\tp\t-\t-\n", 4),
        ("no code", good + line("OK", "p"), 4), ("no place", good + line("ok", "p//q"), 4),
        ("a needless escape", good + line("E072", "%70"), 4),
        ("small digits", good + line("E072", "p%c3%a9"), 4),
        ("a place before", good + line("ok", "o"), 4), ("the root last", good + line("ok", "."), 4),
        ("a byte as it is", good + line("ok", "p", "é"), 4), ("a blank", " " + good, 1),
        ("a carriage return", good.replace("\n", "\r\n"), 1),
        ("a detail of needless escapes", good + line("ok", "p", "%33"), 4),
        ("a word", "hello\n" + good, 1),
    ]:
        write(file, text.encode())
        expect("a report: " + name, split, 2, [], "bad report: line %d" % number)
    write(file, b"")
    expect("an empty report", split, 0, [], None)
    write(file, (good + line("E092", "p", "sha256 missing") + line("E093", "p", "md5 missing")
                 + line("ok", "q", 0) + line("ok", "r", 0)).encode())
    expect("two lines of one place", split, 0, ["q\n", "r\n"], None)
    path = "o/v1/content/%s" % ("long" * 50)
    write(file, "".join(line("ok", path + "%05d" % number, 1)
                        for number in range(90000)).encode())
    expect("separators that are too long", split, 2, [], "too many parts")


def check_all(folder):
    all_parts(folder)
    branches_beside_others(folder)
    worked(folder)
    openings(folder)
    faulty_separators(folder)
    missing_parts(folder)
    other_cursors(folder)
    kills(folder)
    closed_directory(folder)
    stopped_part(folder)
    failed_output(folder)
    long_reports(folder)
    faulty_reports(folder)


common.run_trial(check_all)
