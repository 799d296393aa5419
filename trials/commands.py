#!/usr/bin/env python3
"""Uses each command of the program on folders that it makes and on the samples, and compares what
comes, statuses and texts, with what is written down here.

usage: commands.py

Tried, and what comes of it:

- A cursor file in the root: named by its path, over a link, over dots, and by its bare name from
  within the root and from within an object: a usage error, status 2; nothing is written.
- A bare name from elsewhere; a folder whose name begins as the root's does: as others.
- `/` as ROOT: audits, a check, a cursor file: E069, as of any folder without a declaration; each
  file is inside it.
- A checkpoint to be shown: whole, from a pipe, cut, changed, of another version, with other
  lines, and longer than any: its lines, or status 4 with the reason; it stays as it is.
- The table of codes: what the nights' scripts read, and the same as JSON.
- Names of ROOT and of the cursor file that end in a blank, a tab, a line feed or a no-break
  space: as others; the name without its end is neither read nor made.

Seen to fail on these faults, each planted alone:

- The cursor file of a part's run may lie in the storage root.
- A bare name of the cursor file is taken for one in `/`, so that it is written into the root; a
  folder whose name begins as the root's does is taken for one inside it; white space at the end
  of ROOT is dropped, or the slash that is all of it.
"""
import json
import os
import subprocess
from urllib.parse import unquote

import common
from common import checkpoint_text, digest, expect, check, line, nights, ran, read, write

FILES = {"v1/content/a": b"abc", "v1/content/b": b"", "v1/content/c": b"abc"}
ITEMS = common.sound({"o": FILES})
OPEN = "cycle 1, run 1, cost 4, open"
# what tells the samples which program to run
TOLD = {**os.environ, "OCFL_SCRUB": common.PROGRAM}


def runs(folder, root):
    cursor = os.path.join(folder, "cursor")
    run = ["run", "--cursor", cursor, "--budget", "4", root]
    expect("first run", run, 0, ITEMS[:3], OPEN)
    shown = "cycle 1\nruns 1\nspent 4\nfiles 1\nafter o/v1/content/a\n"
    expect("cursor shown", ["show", cursor], 0, [shown], None)
    expect("second run goes on", run, 0, ITEMS[3:], "cycle 1, run 2, cost 5, ended")
    run[4] = "1K"
    expect("next cycle", run, 0, ITEMS, "cycle 2, run 1, cost 9, ended")
    check("nothing is left beside it", sorted(os.listdir(folder)), ["cursor"])
    one = ["run", "--cursor", cursor, "--budget", "9", "--files", "1", root]
    expect("one file a run", one, 0, ITEMS[:3], "cycle 3, run 1, cost 4, open")


def cursor_bytes(folder, root):
    """The cursor's file is the text of the rules, whose digest is computed here."""
    cursor = os.path.join(folder, "bytes")
    ran(["run", "--cursor", cursor, "--budget", "4", root])
    body = b"ocfl-scrub cursor 2\ncycle 1\nruns 1\nspent 4\nfiles 1\nafter o/v1/content/a\n"
    check("bytes of a cursor", read(cursor), body + b"digest %s\n" % digest(body).encode())
    older = b"ocfl-scrub cursor 1\ncycle 7\nruns 1\nspent 4\nafter o/v1/content/a\n"
    write(cursor, older + b"digest %s\n" % digest(older).encode())
    run = ["run", "--cursor", cursor, "--budget", "9", root]
    expect("cursor of version 1", run, 0, ITEMS[3:], "cycle 7, run 2, cost 5, ended")
    last = b"ocfl-scrub cursor 2\ncycle %d\nruns 1\nspent 4\nfiles 1\nended\n" % (2**64 - 1)
    last += b"digest %s\n" % digest(last).encode()
    write(cursor, last)
    expect("worn", run, 3, [], "cursor worn")
    check("a worn cursor stays", read(cursor), last)


def three_nights(folder, root):
    run = ["run", "--cursor", os.path.join(folder, "nightly"), "--budget", "1", root]
    reports = nights(run)
    check("three nights", [len(report.splitlines()) for report in reports], [3, 1, 1])
    check("joined, they are the audit", (0, "".join(reports), ""), ran(["audit", root]))


def cycles(root):
    one = ["cycle", "--budget", "1", root, "--runs"]
    expect("cycle that runs out", one + ["2"], 0, ITEMS[:4], "runs 2, cost 5, open")
    expect("cycle that ends", one + ["3"], 0, ITEMS, "runs 3, cost 9, ended")
    expect("audit", ["audit", root], 0, ITEMS, None)
    expect("check", ["check", root, "o/v1/content/b"], 0, ITEMS[3:4], None)
    expect("check of the root", ["check", root, "."], 0, ITEMS[:1], None)
    expect("no item", ["check", root, "o/v1/content/d"], 0, [], "no item at o/v1/content/d")
    for path, why in [("o//d", "the path has an empty name between two slashes"),
                      ("", "the path is empty: the storage root itself is '.'"),
                      ("o/", "give the path below the storage root, without a slash at its "
                       "beginning or end"),
                      ("o/../o", "no name in the path may be '.' or '..'")]:
        expect("bad path %r" % path, ["check", root, path], 2, [],
               "bad path\nocfl-scrub: " + why)


def paths(folder):
    """A path is taken as a report writes it, and by its names; of a name that reads as a report's
    path, that path is meant."""
    names = ["Brief an M\u00fcller.pdf", "a b$(c)'.txt", "100% fertig.txt", "n\nl"]
    root = common.make_root(os.path.join(folder, "paths"),
                            {"o": {"v1/content/" + name: b"abc" for name in names}})
    lines = common.ran(["audit", root])[1].splitlines(True)[2:]
    shown = [line.split("\t")[1] for line in lines]
    check("reports write them otherwise", [it for it in shown if it.split("/")[-1] in names],
          ["o/v1/content/a b$(c)'.txt"])
    for line, path in zip(lines, shown):
        name = unquote(path)
        expect("check " + path, ["check", root, path], 0, [line], None)
        expect("check %r" % name, ["check", root, name], 0, [line], None)
        expect("under %r" % name, ["audit", "--quiet", "--under", name, root], 0, [line], None)
    expect("no item", ["check", root, "\u00fc"], 0, [], "no item at %C3%BC")


def refused_cursors(file, run):
    malformed = b"ocfl-scrub cursor 2\ncycle 03\nruns 0\nspent 0\nfiles 0\nstart\n"
    cases = [
        ("empty", b"", "not a cursor"),
        ("too long", b"ocfl-scrub cursor 2\n" + b"x" * 262_125, "not a cursor"),
        ("later version", b"ocfl-scrub cursor 4\n", "version"),
        ("cut", b"ocfl-scrub cursor 2\ncycle 1\n", "damaged"),
        ("leading zero", malformed + b"digest %s\n" % digest(malformed).encode(), "malformed"),
    ]
    for name, data, why in cases:
        write(file, data)
        expect("refused: " + name, run + [file], 4, [], "cursor refused: " + why)
        expect("not shown: " + name, ["show", file], 4, [], "cursor refused: " + why)
        check("untouched: " + name, read(file), data)


def checkpoints(folder):
    """The checkpoint of a state folder is shown as a cursor is, and refused for its own reasons."""
    file = os.path.join(folder, "checkpoint")
    text = checkpoint_text()
    shown = text.decode().split("\n", 1)[1].rsplit("sha256 ", 1)[0]
    write(file, text)
    expect("checkpoint shown", ["show", file], 0, [shown], None)
    piped = subprocess.run([common.PROGRAM, "show", "/dev/stdin"], input=text, capture_output=True)
    check("checkpoint shown from a pipe", (piped.returncode, piped.stdout, piped.stderr),
          (0, shown.encode(), b""))
    for name, data, why in [
        ("its first words alone", b"ocfl-scrub checkpoint ", "version"),
        ("later version", text.replace(b"checkpoint 1", b"checkpoint 3"), "version"),
        ("cut", text[:-1], "damaged"),
        ("changed", text.replace(b"runs 0", b"runs 1"), "damaged"),
        ("leading zero", checkpoint_text(told="00"), "malformed"),
        ("another phase", checkpoint_text(phase="shut"), "malformed"),
        ("more said than there is", checkpoint_text(told="1"), "malformed"),
        ("longer than any", text + b"x" * 2**20, "damaged"),
        ("longer than is read", text + b"x" * 2**26, "not a checkpoint"),
    ]:
        write(file, data)
        expect("checkpoint, " + name, ["show", file], 4, [], "checkpoint refused: " + why)
        check("checkpoint, %s: untouched" % name, read(file), data)
    write(file, text[:20])
    expect("less than its first words", ["show", file], 4, [], "cursor refused: not a cursor")


def cursor_files(folder, root):
    file = os.path.join(folder, "file")
    run = ["run", "--budget", "4", root, "--cursor"]
    expect("show without a file", ["show", file], 3, [], "cursor file failed")
    refused_cursors(file, run)
    inner = os.path.join(folder, "folder")
    os.mkdir(inner)
    expect("folder as a file", run + [inner], 3, [], "cursor file failed")
    unmade = os.path.join(folder, "none/file")
    expect("file that cannot be made", run + [unmade], 3, ITEMS[:3], "cursor file failed")
    os.remove(file)
    os.symlink(os.path.join(root, "o/v1/content/a"), file + ".ocfl-scrub.new")
    expect("link in the way", run + [file], 0, ITEMS[:3], OPEN)
    check("what is linked", read(os.path.join(root, "o/v1/content/a")), b"abc")
    other = os.path.join(folder, "other")
    nowhere = ["run", "--budget", "4", "--cursor", other, os.path.join(folder, "no-root")]
    expect("root that is not there", nowhere, 3, [], "stopped at .")
    shown = "cycle 1\nruns 1\nspent 0\nfiles 0\nstart\n"
    expect("its cursor is stored", ["show", other], 0, [shown], None)


def inside_the_root(folder, root):
    """A cursor's file in the storage root is refused, on whatever way it is named."""
    link = os.path.join(folder, "link")
    os.symlink(os.path.join(root, "o"), link)
    part = ["--parts", write(os.path.join(folder, "no-separators"), b""), "--part", "1"]
    before = common.snapshot(root)
    for name, file in [
        ("object", os.path.join(root, "o/cursor")),
        ("root", os.path.join(root, "cursor")),
        ("over a link", os.path.join(link, "cursor")),
        ("over dots", os.path.join(root, "o", "..", "cursor")),
    ]:
        for choice in [[], part]:
            got = ran(["run", "--budget", "4", root, "--cursor", file, *choice])
            check("file in the root: %s %s" % (name, choice[2:]), (*got[:2], got[2] != ""),
                  (2, "", True))
    check("the root is as it was", common.snapshot(root), before)


def beside_the_root(folder, root):
    """A cursor file by its bare name, and one in a folder whose name begins as the root's does."""
    before = common.snapshot(root)
    run = ["run", "--cursor", "bare", "--budget", "1K"]
    status, out, said = ran(run + ["."], cwd=root)
    check("a bare name within the root", (status, out, said != ""), (2, "", True))
    status, out, said = ran(run + ["../.."], cwd=os.path.join(root, "o/v1"))
    check("a bare name within an object", (status, out, said != ""), (2, "", True))
    check("a bare name: the root is as it was", common.snapshot(root), before)
    got = ran(run + [root], cwd=folder)
    check("a bare name elsewhere", got[:2], (0, "".join(ITEMS)))
    check("a bare name elsewhere: it lies there", "bare" in os.listdir(folder), True)
    for name in ["-state", "s", " "]:
        state = root + name
        os.mkdir(state)
        got = ran(["run", "--budget", "1K", root, "--cursor", os.path.join(state, "cursor")])
        check("folder named as the root and %r" % name, got[:2], (0, "".join(ITEMS)))
        check("folder named as the root and %r: stored" % name, os.listdir(state), ["cursor"])


def other_roots(folder):
    """The folder `/` as the root, and names that end in white space."""
    file = os.path.join(folder, "cursor-of-all")
    # no declaration of a storage root lies there
    for words in [["audit", "/"], ["audit", "//"], ["check", "/", "."]]:
        expect("the root /: %s" % words, words, 1, [line("E069", ".")], None)
    status, out, said = ran(["run", "--cursor", file, "--budget", "1", "/"])
    check("the root / holds each cursor's file", (status, out, said != ""), (2, "", True))
    check("the root /: nothing is written", os.path.exists(file), False)
    for blank in [" ", "\t", "\n", "\u00a0"]:
        root = common.make_root(os.path.join(folder, "blank" + blank), {"o": FILES})
        expect("a root that ends in %r" % blank, ["audit", root], 0, ITEMS, None)
        expect("a check below %r" % blank, ["check", root, "o"], 0, ITEMS[1:2], None)
        named = os.path.join(folder, "file" + blank)
        got = ran(["run", "--cursor", named, "--budget", "1K", root])
        check("a file that ends in %r" % blank, got[:2], (0, "".join(ITEMS)))
        check("a file that ends in %r: it is there" % blank, os.path.exists(named), True)
    without = [os.path.join(folder, name) for name in ["blank", "file"]]
    check("no name without its end is there", [it for it in without if os.path.exists(it)], [])


def refused_parts(folder, root):
    """Branches and parts that are not there, and files of separators that are none."""
    file, cursor = os.path.join(folder, "parts"), os.path.join(folder, "cursor")
    audit = ["audit", root, "--parts", file, "--part"]
    run = ["run", root, "--parts", file, "--part", "1", "--cursor", cursor, "--budget", "1"]
    expect("no file of separators", audit + ["1"], 3, [], "parts file failed")
    folders = ["audit", root, "--parts", folder, "--part", "1"]
    expect("a folder as the file of separators", folders, 3, [], "parts file failed")
    write(cursor, b"no cursor")
    for name, text, said in [
        ("descending separators", b"b\na\n", "bad parts: line 2"),
        ("equal separators", b"a\na\n", "bad parts: line 2"),
        ("no line feed", b"a", "bad parts: line 1"),
        ("no place", b"a\n/b\n", "bad parts: line 2"),
        ("a large file", b"a" * (2**24 + 1), "bad parts: too long"),
    ]:
        write(file, text)
        expect(name, audit + ["1"], 2, [], said)
        expect(name + ", before the cursor is read", run, 2, [], said)
    write(file, b"o\n")
    expect("one part too many", audit + ["3"], 2, [], "no such part")
    write(file, b"")
    expect("two parts of no separators", audit + ["2"], 2, [], "no such part")
    expect("a branch of no place", ["audit", "--under", "o//v1", root], 2, [],
           "bad path\nocfl-scrub: the path has an empty name between two slashes")
    check("the cursor is as it was", read(cursor), b"no cursor")


def splits_by_report(folder):
    file = os.path.join(folder, "report")
    split = ["split", "--report", file, "--budget"]
    expect("no report", split + ["1"], 3, [],
           "report failed: No such file or directory (os error 2)")
    write(file, "".join(ITEMS).encode())
    for budget, separators in [
        ("1", ["o/v1/content/b\n", "o/v1/content/c\n"]),
        ("4", ["o/v1/content/b\n"]),
        ("9", []),
    ]:
        expect("separators by a budget of " + budget, split + [budget], 0, separators, None)
    write(file, "".join(ITEMS[:2] + ITEMS[:1]).encode())
    expect("a report that descends", split + ["1"], 2, [], "bad report: line 3")
    write(file, "".join(ITEMS)[:-1].encode())
    expect("a report without its last line feed", split + ["1"], 2, [], "bad report: line 5")


def usages(root):
    run = ["run", "--cursor", "c", "--budget"]
    cycle = ["cycle", "--budget", "1"]
    night = ["night", "--state", "s", root]
    for name, words in [
        ("no command", []),
        ("no root", ["audit"]),
        ("unknown command", ["scrub", root]),
        ("a word too many", ["audit", root, root]),
        ("budget of nothing", run + ["0", root]),
        ("letters", run + ["4x", root]),
        ("budget too large", run + ["4611686018427387905", root]),
        ("budget too large by its unit", run + ["5000000T", root]),
        ("half a unit", run + ["4Ki", root]),
        ("no file limit", cycle + ["--files", "0", "--runs", "1", root]),
        ("no runs", cycle + ["--runs", "0", root]),
        ("too many runs", cycle + ["--runs", "100001", root]),
        ("a part without its file", ["audit", "--part", "1", root]),
        ("a file without its part", run + ["1", "--parts", "p", root]),
        ("a part and a branch", ["audit", "--parts", "p", "--part", "1", "--under", "o", root]),
        ("no part", ["audit", "--parts", "p", "--part", "0", root]),
        ("a branch of a run", run + ["1", "--under", "o", root]),
        ("no way to split", ["split", root]),
        ("two ways to split", ["split", "--parts", "2", "--budget", "1", "--report", "p", root]),
        ("too many parts", ["split", "--parts", "100001", root]),
        ("a night without a folder", ["night", root]),
        ("a night without a root", ["night", "--state", "s"]),
        ("a night of no hour", night + ["--hours", "0"]),
        ("a night of more than a day", night + ["--hours", "25"]),
        ("a night until midnight as 24:00", night + ["--until", "24:00"]),
        ("a night until a time without minutes", night + ["--until", "6"]),
        ("a night to no second", night + ["--end", "x"]),
        ("a night with two ends", night + ["--hours", "1", "--until", "06:00"]),
        ("a night of slices of nothing", night + ["--slice", "0"]),
        ("a night of half a part", night + ["--part", "1"]),
        ("a night of a branch", night + ["--under", "o"]),
        ("a join without its parts", ["join", "--state", "s"]),
        ("a join without a folder", ["join", "--parts", "p"]),
        ("no UTF-8", ["audit", b"\xff"]),
    ]:
        status, out, said = ran(words)
        check("usage: " + name, (status, out, said != ""), (2, "", True))


def helps():
    status, out, said = ran(["--help"])
    check("help", (status, "Usage: ocfl-scrub" in out, said), (0, True, ""))
    for command in ["audit", "run", "cycle", "night", "check", "split", "join", "show", "codes"]:
        check("help names " + command, "\n  " + command in out, True)
        status, told, said = ran([command, "--help"])
        whole = "Usage: ocfl-scrub %s" % command in told
        check("help of " + command, (status, whole, said), (0, True, ""))
    status, out, said = ran(["--version"])
    check("version", (status, out.startswith("ocfl-scrub "), said), (0, True, ""))
    own = "\nthis file has sha256 %s\n" % digest(read(common.PROGRAM))
    check("version: the digest of the program", out.endswith(own), True)


def table_of_codes():
    """The table of codes is what the nights' scripts read, and as JSON it says the same."""
    written = read(common.TOP + "/nights/ocfl_scrub_reports/codes").decode()
    check("the table of codes", ran(["codes"]), (0, written, ""))
    status, out, said = ran(["codes", "--json"])
    check("the table as JSON", (status, out.count("\n"), said), (0, 1, ""))
    rows = [row.split("\t") for row in written.splitlines() if not row.startswith("#")]
    check("the rows of JSON", json.loads(out), [
        {"code": row[0], "finding": row[1] != "-", "first": row[4], "kind": row[2],
         "means": row[3], "weight": None if row[1] == "-" else int(row[1])} for row in rows])


def findings(root):
    write(os.path.join(root, "o/v1/content/b"), b"b")
    wrong = line("E092", "o/v1/content/b", "sha256 %s %s" % (digest(b""), digest(b"b")))
    expect("finding", ["audit", root], 1, ITEMS[:3] + [wrong, ITEMS[4]], None)
    os.rename(os.path.join(root, "o/inventory.json"), os.path.join(root, "o/kept"))
    os.mkdir(os.path.join(root, "o/inventory.json"))
    status, out, said = ran(["audit", root])
    check("inventory that is a folder", (status, out.startswith(ITEMS[0])), (1, True))


def samples(folder):
    """The sample that README makes, and a nightly cycle over it."""
    for name in ["make", "nights"]:
        made = os.path.join(folder, name)
        script = os.path.join(common.TOP, "samples", name)
        done = subprocess.run([script, made], capture_output=True, env=TOLD, timeout=60)
        check("samples/%s ends well" % name, (done.returncode, done.stderr), (0, b""))
        again = subprocess.run([script, made], capture_output=True, env=TOLD, timeout=60)
        check("samples/%s replaces nothing" % name, again.returncode, 2)
    digests = [digest(text, "sha512") for text in [b"Yours sincerely\n", b"Yours sincerly\n"]]
    lines = [
        line("ok", "."),
        line("ok", "letters"),
        line("E092", "letters/v1/content/damaged.txt", " ".join(["sha512", *digests])),
        line("ok", "letters/v1/content/good.txt", 13),
        line("ok", "letters/v2/content/later.txt", 18),
    ]
    expect("the sample", ["audit", os.path.join(folder, "make")], 1, lines, None)
    joined = read(os.path.join(folder, "nights", "report")).decode()
    check("its nights", joined, "".join(lines))


def check_all(folder):
    root = common.make_root(os.path.join(folder, "root"), {"o": FILES})
    for name in ["runs", "files", "beside", "others", "parts", "samples"]:
        os.mkdir(os.path.join(folder, name))
    before = common.snapshot(root)
    runs(os.path.join(folder, "runs"), root)
    cursor_bytes(folder, root)
    three_nights(folder, root)
    cycles(root)
    paths(folder)
    cursor_files(os.path.join(folder, "files"), root)
    checkpoints(os.path.join(folder, "files"))
    inside_the_root(folder, root)
    beside_the_root(os.path.join(folder, "beside"), root)
    other_roots(os.path.join(folder, "others"))
    refused_parts(os.path.join(folder, "parts"), root)
    splits_by_report(os.path.join(folder, "parts"))
    usages(root)
    helps()
    table_of_codes()
    check("nothing was written below the root", common.snapshot(root), before)
    findings(root)
    samples(os.path.join(folder, "samples"))


common.run_trial(check_all)
