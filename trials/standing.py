#!/usr/bin/env python3
"""Tries what a monitor asks: how the nights of a storage root stand, which findings are open, and
the figures for Prometheus.

usage: standing.py

Tried, and what comes of it. Each row was seen to fail on scripts that lacked it:

- An object that is gone for three cycles, known, and back: `status` and each statement count it
  until it is back, and `status` not while it is known.
- Damaged files, one repaired, one damaged otherwise: `recheck` says which. Files of an object that
  has its declaration again are repaired.
- Names that are markup, in the page of `ocfl-scrub-reports page`: they are shown as they are, in
  Chromium too if it is there.
- A place that reports did not come to which are not whole: its findings stay open, in the line,
  the list and the figures.
- Known findings; a finding that reaches two limits; expected objects that are missing; refused
  nights; odd paths of the folder: not listed; said once; called so; no cycle 0; answered as
  others.
"""
import gzip
import os
import random
import re
import shutil
import xml.etree.ElementTree

import common
from common import check
from shared.nights import REPORTS, Nights, make_root
from shared.states import EXPECTED, LINES, State, is_finding, line, ran, read, tools, tried, write


def status(state, *words, now="2026-03-10T05:00:00Z"):
    """The status, the words before the bar, and the figures after it."""
    given, out, said = ran([REPORTS, "status", "--now", now, *words, state.path])
    first = out.split("\n")[0]
    return given, first.split(" | ")[0], first.split(" | ")[-1].split() if " | " in first else said


def standing(folder, root="/srv/ocfl"):
    """Cycle 1 of cost 100 in four nights, and two nights of cycle 2, of cost 30."""
    state = State(folder + "/state", root)
    for night in range(1, 5):
        state.night("2026-03-0%dT22:00:00Z" % night, 1, 25, closes=None if night < 4 else {
            "at": "2026-03-04T23:00:00Z", "lines": LINES})
    state.night("2026-03-08T22:00:00Z", 2, 14)
    state.night("2026-03-09T22:00:00Z", 2, 16)
    write(state.path + "/report", "".join(LINES[0:1] + [line("ok", "o")]))
    return state


def statuses(folder):
    state = standing(folder)
    calm = "/srv/ocfl: %slast night 2026-03-09T22:00:00Z, status 0; cycle 2 is open, 30 of 100 " \
        "done, 5 nights left; last whole cycle 1 on 2026-03-04; %swhat is gone is not known yet"
    found = "4 open findings, 1 damaged or unreadable file (E007 1, E023 1, E072 1, S08 1)"
    figures = ["age=25200s;93600;180000;0", "findings=4;1;;0", "damaged=1;1;1;0", "gone=U;1;;0",
               "lost=U;1;1;0", "progress=30%;;;0;100"]
    check("standing", status(state), (
        2, "OCFL-SCRUB CRITICAL - " + calm % (found + "; ", ""), figures))
    listed = ran([REPORTS, "status", "--list", state.path])[1].splitlines(True)[1:]
    check("the gravest first", listed, [LINES[11], LINES[5], LINES[10], LINES[1]])
    quiet = ["--damaged", "2,3", "--findings", "5,6"]
    check("below the limits", status(state, *quiet)[0:2],
          (0, "OCFL-SCRUB OK - " + calm % ("", found + "; ")))
    for words, level in [(["--damaged", "1,2", "--findings", "-,-"], 1),
                         (["--damaged", "-,1", "--findings", "-,-"], 2),
                         (["--damaged", "2,3", "--findings", "4,5"], 1),
                         (["--damaged", "2,3", "--findings", "3,4"], 2),
                         (quiet + ["--age", "8,9"], 0), (quiet + ["--age", "7,8"], 1),
                         (quiet + ["--age", "1,7"], 2), (quiet + ["--age", "-,-"], 0),
                         (quiet + ["--cycle-age", "6,7"], 0), (quiet + ["--cycle-age", "5,7"], 1),
                         (quiet + ["--cycle-age", "5,5"], 2)]:
        check("limits " + " ".join(words), status(state, *words)[0], level)
    for now, level in [("2026-03-10T23:59:59Z", 0), ("2026-03-11T00:00:00Z", 1),
                       ("2026-03-11T23:59:59Z", 1), ("2026-03-12T00:00:00Z", 2)]:
        check("a night that never ran, at " + now, status(state, *quiet, now=now)[0], level)
    known = write(folder + "/known", "S08\to3-4/\nE072\n")
    given, text, after = status(state, "--known", known)
    check("known findings", (given, ": 3 open findings (E007 1, E023 1, E072 1), 1 known; "
                             in text, after[1:3]),
          (1, True, ["findings=3;1;;0", "damaged=0;1;1;0"]))
    for words in [[], ["--what", "x"], ["--age", "1", "x"], ["--age", "1,2,3", "x"],
                  ["--age", ",1", "x"], ["--gone", "1,-2", "x"], ["--list"], ["--known"]]:
        check("usage of status: " + " ".join(words), ran([REPORTS, "status"] + words)[0:2],
              (3, ""))
    for name, words in [("folder", [folder + "/none"]),
                        ("known", ["--known", "/none", state.path])]:
        given, out, _ = ran([REPORTS, "status"] + words)
        check("no " + name, (given, out[:21]), (3, "OCFL-SCRUB UNKNOWN - "))
    empty = State(folder + "/empty")
    check("no night", status(empty)[0:2], (3, "OCFL-SCRUB UNKNOWN - /srv/ocfl: no night has run"))


def troubled(folder):
    """What the log says of the last night, and of the last cycle."""
    quiet = ["--damaged", "-,-", "--findings", "-,-"]
    now = "2026-03-11T05:00:00Z"

    def after(name, act, level, text):
        state = standing(folder + "/" + name.replace(" ", "-"))
        act(state)
        given = status(state, *quiet, now=now)
        check(name, (given[0], text in given[1]), (level, True))

    def night(code):
        return lambda state: state.night("2026-03-10T22:00:00Z", 2, 0, code, said="stopped at o")

    after("a stop", night(3), 2, "ended with status 3")
    after("a refused checkpoint", night(4), 2, "ended with status 4")
    after("findings of a night", night(1), 0, "status 1")
    after("a night that was refused", lambda state: state.refuse("2026-03-10T22:00:00Z"), 2,
          "the last night ended with status 3: is its file system mounted?; last night "
          "2026-03-10T22:00:00Z, status 3")

    def refused_and_made(state):
        state.refuse("2026-03-09T23:00:00Z")
        state.night("2026-03-10T22:00:00Z", 2, 9)

    after("a refused night and a good one", refused_and_made, 0, "status 0; cycle 2 is open")
    after("lost lines", lambda state: state.put_checkpoint("after o", whole="no"), 1,
          "cycle 2 lost lines")

    def closes(gone="", whole=True, **said):
        def close(state):
            state.night("2026-03-10T22:00:00Z", 2, 70, closes={
                "at": "2026-03-10T23:00:00Z", "gone": gone, "lines": LINES, "whole": whole, **said})
            os.remove(state.path + "/report")
        return close

    after("an object is gone", closes("object\tp\n"), 2, ": 1 object is gone; ")
    after("files are gone", closes("file\to/x\nfile\to/y\n"), 1, ": 2 files are gone; ")
    after("an object is no longer declared", closes("undeclared\tp\n"), 2,
          ": 1 object is no longer declared; ")
    after("an expected object", closes("expected\tx\nexpected\ty\n", **EXPECTED), 1,
          ": 2 expected objects are missing; ")
    after("nothing was compared", closes(compared=0, why="a reason"), 1,
          ": what is gone is not known: a reason; ")

    def then(**said):
        def close(state):
            closes("expected\tx\nexpected\ty\n", **EXPECTED)(state)
            state.night("2026-03-10T23:30:00Z", 3, 70, closes={"lines": LINES, **said})
        return close

    after("nothing is expected any more", then(), 1, ": 2 expected objects are missing; ")
    after("nothing is missing any more", then(**EXPECTED), 0, "cycle 3 has ended")
    after("nothing gone", closes(), 0,
          "cycle 2 has ended; last whole cycle 2 on 2026-03-10")
    after("an incomplete report", closes(whole=False), 1, "the report of cycle 2 is not whole")
    after("many nights", lambda state: state.night("2026-03-10T22:00:00Z", 2, 90), 0,
          "99 of 100 done, 1 night left")
    after("a clock that was ahead", lambda state: state.night("2026-04-10T22:00:00Z", 2, 9), 2,
          "the last night lies in the future, at 2026-04-10T22:00:00Z: is the clock right?")


ODD = ["%01", "%1F", "!", "%25", "%25a", "-", "0", "01", "1", "1e0", "a", "a b", "a-", "ab", "~",
       "%7F", "%C3%A9"]


def raw(path):
    """The names of a path by their bytes: the order of places."""
    if path == ".":
        return []
    return [re.sub("%(..)", lambda found: chr(int(found[1], 16)), name) for name in path.split("/")]


def open_findings(folder):
    """What is open after a part of the next cycle, over random reports with odd names."""
    chance = random.Random(35)
    for number in range(60):
        paths = sorted({"/".join(chance.choice(ODD) for _ in range(chance.randint(1, 3)))
                        for _ in range(30)}, key=raw)

        def report(count):
            lines = [line("ok", ".")]
            for path in paths[:count]:
                kind = chance.randint(0, 5)
                if kind < 3:
                    lines.append(line("ok", path, chance.choice("-37")))
                elif kind == 3:
                    lines += [line("E092", path, "md5 missing"), line("E093", path, "md5 missing")]
                elif kind == 4:
                    lines.append(line("S07", path, "x"))
            return lines

        older, newer = report(30), report(chance.randint(0, 30))
        seen = {text.split("\t")[1] for text in newer}
        expected = [text for text in older if is_finding(text) and text.split("\t")[1] not in seen]
        expected += [text for text in newer if is_finding(text)]
        state = standing(folder + "/%d" % number)
        packed = chance.randint(0, 1)
        os.remove(state.path + "/reports/cycle-000001")
        write(state.path + "/reports/cycle-000001" + (".gz" if packed else ""),
              gzip.compress("".join(older).encode()) if packed else "".join(older))
        write(state.path + "/reports/cycle-000000", line("E001", "old"))
        write(state.path + "/report", "".join(newer) + chance.choice(["", "E0", "E092\to/v1/co"]))
        out = ran([REPORTS, "status", "--list", state.path])[1]
        listed = out.splitlines(True)[1:]
        if not check("open findings %d" % number, sorted(listed), sorted(expected)):
            break
        newest = [text for text in newer if is_finding(text)]
        check("those of the open report first, each report in its order", listed,
              newest + [text for text in older if text in expected and text not in newest])


def metrics(folder):
    state = standing(folder, 'a"b\\c')
    file = folder + "/prom/ocfl.prom"
    os.makedirs(folder + "/prom")
    check("metrics", status(state, "--prometheus", file)[0], 2)
    labels = '{root="a\\"b\\\\c",state="%s"}' % state.path
    wanted = {"last_night_timestamp_seconds": "1773093600", "last_night_age_seconds": "25200",
              "last_night_status": "0", "last_night_run_seconds": "60", "cycle": "2",
              "cycle_read_bytes": "28", "cycle_read_files": "2", "closed_cycle": "1",
              "closed_cycle_cost": "100",
              "closed_cycle_whole": "1", "cycle_progress_ratio": "0.3", "nights_left": "5",
              "whole_cycle_timestamp_seconds": "1772665200", "gone_known": "0",
              "known_findings": "0", "damaged": "1", "open_findings": "4"}
    rows = ["ocfl_scrub_%s%s %s" % (name, labels, value) for name, value in wanted.items()]
    rows += ['ocfl_scrub_open_findings_by_code%s,code="%s"} 1' % (labels[:-1], code)
             for code in ["E007", "E023", "E072", "S08"]]
    text = read(file)
    check("their values", [row for row in text.splitlines() if row[0] != "#"], rows)
    names = re.findall(r"^# HELP (\w+) \S.*\n# TYPE \1 gauge\n(?=\1\{)", text, re.M)
    check("each has its help and its type", len(names), len(wanted) + 1)
    check("who may read them", os.stat(file).st_mode & 0o777, 0o644)
    check("nothing lies beside them", os.listdir(folder + "/prom"), ["ocfl.prom"])
    # A reader that came before has the old file, and never half of one.
    with open(file, "rb") as held:
        status(state, "--prometheus", file, "--gone", "-,-")
        check("they are exchanged", os.fstat(held.fileno()).st_nlink, 0)
    check("no folder", status(state, "--prometheus", folder + "/none/x.prom")[0], 3)
    empty = State(folder + "/empty")
    check("no night", status(empty, "--prometheus", file)[0], 3)
    check("its time", "last_night_timestamp_seconds{root=\"/srv/ocfl\",state=\"%s\"} 0\n"
          % empty.path in read(file), True)
    log = common.read(state.path + "/log")
    before = common.snapshot(state.path)
    status(state)
    check("nothing is changed", (common.snapshot(state.path) == before,
                                 common.read(state.path + "/log") == log), (True, True))


# What a status must not say

DAMAGE = "E092\t%s/v1/content/f\tsha256 missing"

DAMAGED = line("E092", "b/v1/content/a", "sha256 x y")
AGAIN = line("E092", "d/v1/content/a", "sha256 x y")


def closed(folder, reports, opened=()):
    """A folder with these closed reports, as forms and lines, and the open one."""
    state = State(folder)
    for cycle, (form, lines) in enumerate(reports, 1):
        state.night("2026-03-0%dT22:00:00Z" % cycle, cycle, 100, closes={
            "lines": lines, "whole": form == "cycle", "packed": cycle < len(reports)})
    state.night("2026-03-09T22:00:00Z", len(reports) + 1, 5)
    write(state.path + "/report", "".join(opened))
    return state


def listed(state, *words):
    folder = state.state if isinstance(state, Nights) else state.path
    return ran([REPORTS, "status", "--list", *words, folder])[1].splitlines(True)[1:]


def not_whole(folder):
    """A finding stays open where a report that is not whole did not come to its place."""
    start = [line("ok", "."), line("ok", "a")]
    whole = start + [line("ok", "b"), DAMAGED, line("ok", "c")]
    without, right = start + [line("ok", "c")], start + [line("ok", "b"), line(
        "ok", "b/v1/content/a", "3"), line("ok", "c")]
    for name, reports, opened, expected in [
            ("left out once", [("cycle", whole), ("incomplete", without)], [], [DAMAGED]),
            ("left out twice", [("cycle", whole), ("incomplete", without),
                                ("incomplete", without + [AGAIN])], [], [AGAIN, DAMAGED]),
            ("of the first, which is not whole", [("incomplete", whole), ("incomplete", without)],
             [], [DAMAGED]),
            ("found right by one that is not whole", [("cycle", whole), ("incomplete", right)],
             [], []),
            ("found right since", [("cycle", whole), ("incomplete", without)], right, []),
            ("no place of a whole one", [("cycle", whole), ("incomplete", without),
                                         ("cycle", without)], [], []),
            ("found by the open one", [("cycle", without), ("incomplete", without)],
             start + [line("ok", "b"), DAMAGED], [DAMAGED])]:
        state = closed(folder + "/" + name.replace(" ", "-"), reports, opened)
        check("open findings: " + name, listed(state), expected)
        file = folder + "/figures.prom"
        status(state, "--prometheus", file)
        figures = re.findall(r"ocfl_scrub_(damaged|open_findings)\{.*\} (\d+)", read(file))
        check("their figures: " + name, figures, [("damaged", str(len(expected))), (
            "open_findings", str(len(expected)))])
    write(state.path + "/reports/cycle-000009.bak", "".join(whole))
    write(state.path + "/reports/incomplete-x", "".join(whole))
    check("a copy is no report", listed(state), [DAMAGED])


def is_known(folder):
    """Known findings are left out of the list, and counted."""
    state = closed(folder + "/state", [("cycle", [line("ok", "."), DAMAGED, AGAIN])])
    known = write(folder + "/known", DAMAGED)
    check("known findings are not listed", listed(state, "--known", known), [AGAIN])
    write(known, "E092\t./\n")
    check("all are known", listed(state, "--known", known), [])
    check("they are counted", "0 open findings, 2 known" in status(state, "--known", known)[1],
          True)
    check("without a file of known ones", listed(state), [DAMAGED, AGAIN])


def once(folder):
    """A number of findings stands there once."""
    state = closed(folder + "/state", [("cycle", [line("ok", "."), DAMAGED])])
    check("one finding", status(state)[1].count("open finding"), 1)
    check("and below the limits", status(state, "--findings", "-,-", "--damaged", "-,-")[1].count(
        "open finding"), 1)


def refused(folder):
    """A night that was refused is of no cycle."""
    nights = Nights(folder + "/state", make_root(folder + "/root"))
    call = [REPORTS, "status", nights.state]
    nights.part()
    os.rename(nights.root, nights.root + ".away")
    os.mkdir(nights.root)
    check("refused", nights.night()[0], 3)
    given, out, _ = ran(call)
    check("in the first cycle", (given, re.findall("cycle [0-9]* (?:is open|has ended)", out)),
          (2, ["cycle 1 is open"]))
    os.rmdir(nights.root)
    os.rename(nights.root + ".away", nights.root)
    nights.night()
    os.rename(nights.root, nights.root + ".away")
    os.mkdir(nights.root)
    nights.night()
    given, out, _ = ran([*call, "--prometheus", folder + "/x.prom"])
    check("after it", (given, re.findall("cycle [0-9]* (?:is open|has ended)|of 100", out)),
          (2, ["cycle 1 has ended"]))
    check("its figure", re.findall(r"ocfl_scrub_cycle\{.*\} (\d+)", read(folder + "/x.prom")),
          ["1"])


def missing(folder):
    """Objects that are expected and missing are called so."""
    nights = Nights(folder + "/state", make_root(folder + "/root"))
    expected = write(folder + "/expected", "o\nx\ny\n")
    nights.night("--expected", expected)
    given, out, _ = ran([REPORTS, "status", nights.state])
    check("two expected objects", (given, "2 expected object" in out, "0 object" in out,
                                   " gone=2;" in out), (1, True, False, True))


def repaired(folder):
    """What is repaired is said by a look at each place alone."""
    objects = {name: {"v1/content/f": name.encode()} for name in "abc"}
    nights = Nights(folder + "/state", common.make_root(folder + "/root", objects))
    files = [nights.root + "/%s/v1/content/f" % name for name in "abc"]
    for file in files[:2]:
        write(file, "x")
    nights.night()
    found = listed(nights)
    call = [REPORTS, "recheck", nights.state]
    check("nothing is repaired", ran(call), (1, "".join("open\t" + text for text in found), ""))
    write(files[0], "a")
    check("one is", ran(call), (1, "repaired\t%sopen\t%s" % tuple(found), ""))
    write(files[1], "y")
    given, out, _ = ran(call)
    check("damaged otherwise", (given, [row.split("\t")[:2] for row in out.splitlines()], found[
        1] in out), (1, [["repaired", "E092"], ["open", "E092"]], False))
    known = write(folder + "/known", "E092\tb/\n")
    check("known", ran([*call, "--known", known]), (0, "repaired\t" + found[0], ""))
    write(files[1], "b")
    check("all are repaired", ran(call)[0], 0)
    os.rename(nights.root, nights.root + ".away")
    given, out, said = ran(call)
    check("no root", (given, out, "is it mounted? Nothing was looked at." in said), (3, "", True))
    os.mkdir(nights.root)
    check("an empty mount point", ran(call)[:2], (3, ""))
    os.rmdir(nights.root)
    os.rename(nights.root + ".away", nights.root)
    write(files[1], "x")
    write(nights.root + "/b/inventory.json", "{")
    check("what is not looked at is not repaired", ran(call)[:2], (
        3, "repaired\t%sno longer looked at\t%s" % tuple(found)))
    shutil.rmtree(nights.root + "/b")
    check("nor what is removed", ran(call)[:2], (
        3, "repaired\t%sno longer looked at\t%s" % tuple(found)))


def declared_again(folder):
    """An object whose declaration is back has no file that is outside of any object."""
    objects = {name: {"v1/content/f": name.encode()} for name in "ab"}
    nights = Nights(folder + "/state", common.make_root(folder + "/root", objects))
    os.rename(nights.root + "/a/0=ocfl_object_1.1", folder + "/declaration")
    nights.night()
    lost = listed(nights)
    check("its files", ["E072" in text for text in lost], [True] * 3)
    call = [REPORTS, "recheck", nights.state]
    check("not repaired", ran(call), (1, "".join("open\t" + text for text in lost), ""))
    os.rename(folder + "/declaration", nights.root + "/a/0=ocfl_object_1.1")
    check("repaired", ran(call), (0, "".join("repaired\t" + text for text in lost), ""))


def losses(folder):
    """What is gone stays open until it has a line again, or is known."""
    objects = {name: {"v1/content/f": name.encode()} for name in "abc"}
    nights = Nights(folder + "/state", common.make_root(folder + "/root", objects))
    call = [REPORTS, "status", "--list", "--prometheus", folder + "/x.prom"]

    def gone(*words):
        given, out, _ = ran([*call, *words, nights.state])
        return given, re.findall(r" gone=(\d+)", out), out.splitlines()[1:], re.findall(
            r"ocfl_scrub_gone_(?:objects|files)\{.*\} (\d+)", read(folder + "/x.prom"))

    nights.night()
    check("nothing is known to be gone", gone(), (0, [], [], []))
    os.rename(nights.root + "/b", folder + "/b")
    os.remove(nights.root + "/c/v1/content/f")
    lost = ["object\tb"]
    for cycle in ["2", "3", "4"]:
        nights.night()
        check("gone after cycle " + cycle, gone("--findings", "-,-", "--damaged", "-,-"),
              (2, ["1"], [DAMAGE % "c"] + lost, ["1", "0"]))
    write(nights.root + "/c/v1/content/f", "c")
    text = nights.has("reports/statement-000004")
    check("in a later statement", re.findall("(?m)^(?:Objects|Files) gone.*", text), [
        "Objects gone: 0", "Files gone: 0", "Objects gone and not back: 1",
        "Files gone and not back: 0"])
    given, out, _ = ran([REPORTS, "recheck", nights.state])
    check("looked at again", (given, out), (1, "repaired\t%s\ngone\tobject\tb\n" % (DAMAGE % "c")))
    known = write(folder + "/known", "object\tb\nE092\t./\n")
    check("an object that is known", gone("--known", known), (0, ["0"], [], ["0", "0"]))
    os.rename(folder + "/b", nights.root + "/b")
    check("it is there again", ran([REPORTS, "recheck", nights.state])[1].splitlines()[-1:],
          ["back\tobject\tb"])
    nights.part()
    nights.night()
    check("back", gone(), (0, ["0"], [], ["0", "0"]))
    text = nights.has("reports/statement-000005")
    check("in its statement", re.findall("(?m)^Objects gone and.*", text),
          ["Objects gone and not back: 0"])


def page(folder):
    """A page for a browser has what the status has, whatever the names are, and nothing from
    elsewhere."""
    state = standing(folder, '<script>"&\u00e9|')
    bad = line("E092", "<b>&amp;<script>alert(1)</script>", "md5 missing")
    write(state.path + "/reports/cycle-000001", "".join([*LINES, bad]))
    write(state.path + "/reports/gone-000001", "object\t<i>\n")
    given, out, said = ran([REPORTS, "page", "--now", "2026-03-10T05:00:00Z", state.path])
    check("page", (given, said, out.isascii(), out.startswith("<!DOCTYPE html>")),
          (0, "", True, True))
    root = xml.etree.ElementTree.fromstring(re.sub(
        "<meta[^>]*>", "", out).replace("<!DOCTYPE html>", ""))
    texts = "".join(root.itertext())
    check("what it shows", [text in texts for text in [
        "CRITICAL",
        "5 open findings, 2 damaged or unreadable files (E007 1, E023 1, E072 1, E092 1, S08 1)",
        "<b>&amp;<script>alert(1)</script>", "<i>", "30 %", "2026-03-09T22:00:00Z"]],
          [True] * 6)
    check("no script, nothing from elsewhere", re.findall("<script|src=|href=|url\\(|https?:", out),
          [])
    check("a plot of each night", len(list(root.iter("rect"))), 12)
    check("no folder", ran([REPORTS, "page", folder + "/none"])[0:2], (3, ""))
    empty = State(folder + "/empty")
    check("no night", ran([REPORTS, "page", empty.path])[0], 0)


def strange_paths(folder):
    """A path of the folder with any byte changes nothing."""
    for number, name in enumerate(["a\nb", "a\\nb", "a\tb |"]):
        state = closed("%s/%d/%s" % (folder, number, name), [("cycle", [line("ok", "."), DAMAGED])])
        given, out, said = ran([REPORTS, "status", "--age", "-,-", "--list", state.path])
        check("a folder named %r" % name, (given, out.split("\n", 1)[1], said), (2, DAMAGED, ""))


def check_all(folder):
    tools({"gzip": "gzip"})
    for part in [statuses, troubled, open_findings, metrics, not_whole, is_known, once,
                 refused, missing, losses, repaired, declared_again,
                 page, strange_paths]:
        os.mkdir(os.path.join(folder, part.__name__))
        tried(part, os.path.join(folder, part.__name__))


common.run_trial(check_all)
