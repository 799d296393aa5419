#!/usr/bin/env python3
"""Tries what `ocfl-scrub-reports` makes of the folders of `ocfl-scrub night` and `ocfl-scrub join`,
without `nightly`: statements that hold, what is open and gone, events, pages, what would repair
it, and several storage roots.

usage: night_reports.py [PART]...

Seen to fail on these faults, each planted alone:

- A page shows a name as markup, or a mark of direction as it is; it does not look for an object's
  id, or says that nothing is gone without a word on what was left out.
- `repair` does not quote a name, does not look for other files of the digest or at the newest
  version's inventory, or copies what is right by now.
- Of several roots the status is that of the first, or the message has the text of one folder alone.
"""
import html
import json
import os
import re
import shutil
import time

import common
from common import PROGRAM, digest, check
from shared.nights import ask, ran, read, tried_apart, write

OBJECTS = {"a/o": {"v1/content/a": b"abc", "v1/content/b": b""},
           "b/p": {"v1/content/c": b"abcd"}, "c/q": {"v1/content/d": b"abcde"}}


class Nights:
    """A folder of state of the program, and the nights over a root in it."""

    def __init__(self, folder, objects=OBJECTS):
        self.state, self.root = folder + "/state", folder + "/root"
        common.make_root(self.root, objects)

    def path(self, name):
        return os.path.join(self.state, name)

    def night(self, *words):
        """A night that makes a whole cycle. Two nights in one second would be taken for one."""
        create = [] if os.path.exists(self.path("checkpoint")) else ["--create"]
        done = ran([PROGRAM, "night", "--state", self.state, *create, *words, "--", self.root])
        time.sleep(1.1)
        return done

    def lines(self, cycle):
        """The lines of a statement, by their names."""
        text = read(self.path("reports/statement-%06d" % cycle)) or ""
        return dict(row.split(": ", 1) for row in text.splitlines()[2:])

    def holds(self, cycle):
        return ask("verify", self.path("reports/statement-%06d" % cycle))[0]

    def status(self, *words):
        given, out, _ = ask("status", "--list", *words, self.state)
        return given, out.splitlines()[1:], out.split("\n")[0]


def sums_of(root):
    """What `sha256sum` says of the declaration, hashed."""
    name = "0=ocfl_1.1"
    return digest(("%s  %s\n" % (digest(common.read(root + "/" + name)), name)).encode())


def statements(folder):
    """A statement of each cycle, whose lines are what the files are."""
    nights = Nights(folder)
    write(nights.root + "/a/o/v1/content/b", "x")
    check("a night with a finding", nights.night()[0], 1)
    check("finished", ask("finish", nights.state), (0, "", ""))
    lines = nights.lines(1)
    report = common.read(nights.path("reports/cycle-000001"))
    check("what it says", [lines.get(name) for name in [
        "Storage root", "Declaration sums SHA-256", "State folder", "Cycle", "Whole",
        "Report SHA-256", "Objects", "Objects without findings", "Content files",
        "Files found right", "Files not found right", "Findings", "Algorithms of wrong digests",
        "Nights", "Compared with cycle", "Program SHA-256"]],
          [nights.root, sums_of(nights.root), nights.state, "1", "yes", digest(report), "3", "2",
           "4", "3", "1", "1", "sha256 1", "1", "nothing", digest(common.read(PROGRAM))])
    check("it holds", nights.holds(1), 0)
    write(nights.root + "/a/o/v1/content/b", "")
    shutil.rmtree(nights.root + "/b/p")
    nights.night()
    check("finished again", ask("finish", nights.state), (0, "", ""))
    lines = nights.lines(2)
    check("what is gone and new", [lines.get(name) for name in [
        "Compared with cycle", "Report compared with, SHA-256", "New findings", "Former findings",
        "Objects gone", "Files gone", "Objects gone and not back", "Files gone and not back"]],
          ["1", digest(report), lines["Findings"], "1", "1", "0", "1", "0"])
    check("both hold", [nights.holds(1), nights.holds(2)], [0, 0])
    write(nights.path("reports/statement-000001"), "changed\n")
    check("the chain", nights.holds(2), 1)


def questions(folder):
    """What is open, gone, verified; the events; each object of the report."""
    nights = Nights(folder)
    write(nights.root + "/a/o/v1/content/b", "x")
    nights.night()
    given, listed, line = nights.status("--age", "-,-")
    check("a finding is open", (given, [row.split("\t")[:2] for row in listed], re.findall(
        "cycle 1 has ended; last whole cycle 1 on", line) != []),
          (2, [["E092", "a/o/v1/content/b"]], True))
    shutil.rmtree(nights.root + "/b")
    nights.night()
    check("what is gone", [row for row in nights.status()[1] if row[0] not in "ES"],
          ["object\tb/p"])
    ask("finish", nights.state)
    for each, count in [("cycle", 1), ("object", 3), ("finding", 2)]:
        given, events, said = ask("premis", "--each", each, nights.state, "2")
        check("events of each " + each, (given, events.count("<event>"), said), (0, count, ""))
    check("not verified", [row.split("\t")[1:] for row in ask(
        "unverified", "2999-01-01", nights.state)[1].splitlines()],
          [["a/o/v1/content/a", "ok", "2"], ["a/o/v1/content/b", "E092", "2"],
           ["b/p/v1/content/c", "ok", "1"], ["c/q/v1/content/d", "ok", "2"]])
    write(nights.root + "/a/o/v1/content/b", "")
    given, out, _ = ask("recheck", nights.state)
    check("repaired", (given, [row.split("\t")[:3] for row in out.splitlines()]), (
        1, [["repaired", "E092", "a/o/v1/content/b"], ["gone", "object", "b/p"]]))
    check("a page", "Fixity of " in ask("page", nights.state)[1], True)
    common.make_object(nights.root + "/b/p", OBJECTS["b/p"])
    nights.night()
    check("all is well", nights.status("--age", "-,-")[:2], (0, []))


def parts(folder):
    """A joined report, and its statement."""
    nights = Nights(folder)
    separators = folder + "/separators"
    write(separators, "b\nc\n")
    os.makedirs(nights.state)
    for number in range(1, 4):
        done = ran([PROGRAM, "night", "--state", nights.path("part-%06d" % number), "--create",
                    "--parts", separators, "--part", str(number), nights.root])
        check("part %d" % number, done[0], 0)
    check("joined", ran([PROGRAM, "join", "--parts", separators, "--state", nights.state])[0], 0)
    check("finished", ask("finish", nights.state), (0, "", ""))
    lines = nights.lines(1)
    check("what it says", [lines.get(name) for name in [
        "Storage root", "Objects", "Files found right", "Report SHA-256"]],
          [nights.root, "3", "4", digest(ran([PROGRAM, "audit", nights.root])[1].encode())])
    check("it holds", nights.holds(1), 0)
    check("as JSON", json.loads(read(nights.path(
        "reports/statement-000001.json")))["objects"], 3)
    check("how it is going", nights.status("--age", "-,-")[:2], (0, []))
    check("its page", "Nothing was found: 4 content files of 3 objects were read to the end" in ask(
        "cycle", nights.state, "1")[1], True)
    check("nothing to repair", ask("repair", nights.state), (0, "", ""))
    check("events", ask("premis", "--each", "object", nights.state, "1")[1].count("<event>"), 3)


# Names of files, and as a page shows them: frames as brackets.
NAMES = [("Brief an M\xfcller.pdf",) * 2, ("<script>alert(1)<!--",) * 2, ("\"'onload='x",) * 2,
         ("&lt;b",) * 2, ("a\x1b[2J\n", "a[%1B][2J[%0A]"), ("\u202egpj.exe", "[%E2%80%AE]gpj.exe"),
         ("100%", "100%"), ("\u65e5\u672c",) * 2]


def shown(page):
    """The text of a page as a browser shows it, with brackets for frames and `|` after a cell."""
    page = re.sub('<span class="byte">(.*?)</span>', "[\\1]", page.partition("</style>")[2])
    page = re.sub("</t[dh]>", "|", re.sub("\n+", "\n", page))
    return html.unescape(re.sub("</?[a-z][^<>]*>", "", page))


def pages(folder):
    """The page of a cycle: of one that is good, and of one with damage whose names are hostile."""
    nights = Nights(folder, {"a/o": {"v1/content/" + name: b"abc" for name, _ in NAMES},
                             "b/p": {"v1/content/c": b"abcd"}})
    inventory = nights.root + "/a/o/inventory.json"
    for cycle in (1, 2):
        nights.night()
        ask("finish", nights.state)
    status, good, said = ask("cycle", nights.state, "2")
    check("a good cycle", (status, said, [piece for piece in [
        "OK", "Nothing was found: 9 content files of 2 objects were read to the end, and are right.",
        "Nothing is gone since cycle 1."] if piece not in shown(good)]), (0, "", []))
    for name, _ in NAMES:
        write(nights.root + "/a/o/v1/content/" + name, "abd")
    shutil.rmtree(nights.root + "/b/p")
    nights.night()
    ask("finish", "--seal", 'cp "$1" "$1.copy"', nights.state)
    status, page, said = ask("cycle", nights.state, "3")
    rows = ["v1/content/%s|bytes have changed|E092|expected sha256 %s.., found %s..|new|" % (
        name, digest(b"abc")[:12], digest(b"abd")[:12]) for _, name in NAMES]
    sealed = digest(common.read(nights.path("reports/statement-000003")))
    pieces = ["CRITICAL", "9 findings, 8 damaged or unreadable files.", "1 object is gone.", "object|b/p|",
              "Object at a/o", "statement-000003.copy|%s|" % sealed, *rows]
    check("a page of damage", (status, said, [it for it in pieces if it not in shown(page)]),
          (0, "", []))
    check("it runs and loads nothing", re.findall(
        "<(?:script|img|link|iframe|object|a)|<[a-z][^<>]*\\bon[a-z]+=|url[(]|https?:", page), [])
    given = json.loads(common.read(inventory))
    write(inventory, json.dumps({**given, "id": "urn:<i>:1"}))
    check("by its id", "Object urn:<i>:1" in shown(ask("cycle", nights.state, "3")[1]), True)
    write(nights.root.encode() + b"/z/M\xfc<b>", b"")
    check("a night that leaves a place out", nights.night()[0], 3)
    ask("finish", nights.state)
    page = shown(ask("cycle", nights.state, "4")[1])
    check("it is not whole", [it for it in [
        "The report is not whole: 1 place was left out.", "outside of what was left out",
        "z|it holds a name that is not UTF-8: M\\xFC<b>|", "E092|expected sha256", "|as before|"]
                              if it not in page], [])
    check("how the nights go", [name for _, name in NAMES if "v1/content/%s|" % name not in shown(
        ask("page", nights.state)[1])], [])


def repairs(folder):
    """The commands of `repair`, run by bash, repair what was damaged: by a copy, by another object,
    and by the newest version. No name of a file is run."""
    objects = {"a/o": {"v1/content/" + name: name.encode() for name, _ in NAMES},
               "a/p": {"v1/content/$(touch ran).txt": b"twice"}, "b/q": {"v1/content/c": b"twice"},
               "c/r": {"v1/content/d": b"d"}}
    nights = Nights(folder, objects)
    for place in objects:
        path = nights.root + "/" + place + "/inventory.json"
        inventory = {**json.loads(common.read(path)), "head": "v1"}
        common.put_inventory(nights.root + "/" + place, json.dumps(inventory).encode())
        for name in ("inventory.json", "inventory.json.sha256"):
            shutil.copy(nights.root + "/" + place + "/" + name, nights.root + "/" + place + "/v1")
    copy = folder + "/a copy"
    shutil.copytree(nights.root, copy)
    check("a good cycle", nights.night()[0], 0)
    before = common.snapshot(nights.root)
    for name, _ in NAMES[:4]:
        write(nights.root + "/a/o/v1/content/" + name, "x")
    for name, _ in NAMES[4:]:
        os.remove(nights.root + "/a/o/v1/content/" + name)
    write(nights.root + "/a/p/v1/content/$(touch ran).txt", "once")
    write(nights.root + "/c/r/inventory.json", "{")
    check("a night", nights.night()[0], 1)
    given, out, said = ask("repair", nights.state)
    check("without the copy", (given, said, [it for it in out.splitlines() if it[:2] == "cp"]), (
        1, "", ["cp -p -- %s/b/q/v1/content/c '%s/a/p/v1/content/$(touch ran).txt'" % (
            nights.root, nights.root),
                "cp -p -- %s/c/r/v1/inventory.json %s/c/r/inventory.json" % (
                    nights.root, nights.root)]))
    given, out, said = ask("repair", "--copy", copy, nights.state)
    check("with it", (given, said, out.count("\ncp -p -- ")), (0, "", len(NAMES) + 2))
    check("sizes", [size for size in {len(name.encode()) for name, _ in NAMES}
                    if ", %d byte" % size not in out], [])
    changed = common.snapshot(nights.root)
    check("it changes nothing", changed != before and ask(
        "repair", nights.state)[0] == 1 and common.snapshot(nights.root) == changed, True)
    check("the commands", ran(["bash", "-euc", out], cwd=folder)[0], 0)
    check("nothing was run", os.path.exists(folder + "/ran"), False)
    check("all is right", ran([PROGRAM, "audit", nights.root])[0], 0)
    check("recheck", {row.split("\t")[0] for row in ask("recheck", nights.state)[1].splitlines()},
          {"repaired"})
    given, out, said = ask("repair", nights.state)
    check("nothing is left", (given, out.count("it has that digest now"), "\ncp " in out),
          (0, len(NAMES) + 2, False))


def several(folder):
    """A line, a part of the page and the figures for each of two roots, by a file of folders."""
    both = [Nights(folder + "/" + name) for name in ("first", "second")]
    for nights in both:
        nights.night()
        nights.night()
    write(both[1].root + "/a/o/v1/content/a", "x")
    both[1].night()
    write(folder + "/states", "".join(it.state + "\n" for it in both))
    given, out, said = ask("status", "--states", folder + "/states", "--prometheus",
                           folder + "/figures")
    check("a line each", (given, said, [row.partition(": ")[0] for row in out.splitlines()]), (
        2, "", ["OCFL-SCRUB CRITICAL - 2 storage roots", "OCFL-SCRUB OK - " + both[0].root,
                "OCFL-SCRUB CRITICAL - " + both[1].root]))
    check("figures of each", [row.rpartition(" ")[2] for row in read(
        folder + "/figures").splitlines() if row.startswith("ocfl_scrub_damaged{")], ["0", "1"])
    page = shown(ask("page", "--states", folder + "/states")[1])
    check("one page", [it for it in [both[0].root + "|OK|0|0|", both[1].root + "|CRITICAL|1|0|",
                                     "v1/content/a|bytes have changed|"] if it not in page], [])
    for nights in both:
        write(nights.path("tonight.1"), "of %s\n" % nights.root)
    given, _, said = ask("tell", "all", *(it.state for it in both), EXIT_STATUS="1", MAIL="")
    check("one message", (given, said), (0, "ocfl-scrub: findings in all\n" + "\n".join(
        "%s:\n\nof %s\n" % (it.state, it.root) for it in both)))


def unfinished(folder):
    """What a power cut left of a statement beside its place is taken away by the next call, and
    nothing else."""
    nights = Nights(folder)
    nights.night()
    others = ["statement-000001.txt", "my-statement-000001.new", "statement-1.new"]
    for name in ["statement-000001.new", "statement-000001.json.new", "known-000001.new",
                 "statement-000007.asc.new", *others]:
        write(nights.path("reports/" + name), "half")
    check("finished", ask("finish", nights.state), (0, "", ""))
    check("what is there", sorted(it for it in os.listdir(nights.path("reports")) if not it.startswith(
        ("cycle", "gone", "checkpoint"))), sorted(["statement-000001", "statement-000001.json", *others]))
    write(nights.path("reports/statement-000001.new"), "half")
    check("finished, with nothing to do", ask("finish", nights.state), (0, "", ""))
    check("taken away", os.path.exists(nights.path("reports/statement-000001.new")), False)
    check("it holds", nights.holds(1), 0)


PARTS = [statements, questions, parts, pages, repairs, several, unfinished]


def check_all(folder):
    tried_apart(PARTS, folder)


common.run_trial(check_all)
