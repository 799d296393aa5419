#!/usr/bin/env python3
"""Tries what statements and PREMIS events say of nights that were made: by which program, since
when, over which root; and what `verify` could check.

usage: stated.py [PART]...

Tried, and what comes of it. Each row was seen to fail on scripts that lacked it:

- A program that is exchanged in the middle of a cycle: the statement names the one that made it,
  and says that those of the runs are not known.
- A night that has no line in the log, since it was killed: no file of the cycle was read before
  its `Oldest verification`.
- Nights that were killed, several in one second: the statement counts each, and `status` calls
  the last one cut.
- A folder that could not be listed: the statement counts it, and its object does not count as
  without findings. The name that is not UTF-8 there is in the message, the log, the statement and
  `status`.
- An object that is gone, and back: the statement has how many files are no longer looked at, and
  that it is back, as the message has it.
- A damaged file that is repaired, and named with a reason in the file of known findings: the
  statement has it with the reason. One that cannot be read now is not repaired. `verify` refuses
  each line on it that is changed, and names the reason as one that the reports do not have.
- A report that lost the line of a finding: how many objects are without findings is not known.
- A cycle that lost an object, or lacks an expected one: its PREMIS event is `fail`, and says so.
- Ends of parts with `%`: they stand as in the file of separators.
- The declaration's digest: it is that of what `sha256sum` says of the files.
- Two folders of state of one root, one with a line feed in its path: each statement has its
  folder; no two PREMIS events have one identifier.
- A statement with lines more, fewer, twice or changed; without its JSON, its lists or its
  separators: status 1 with the line; status 4 with the missing file and the lines that it would
  show.
- Copies of a statement beside it: they are no seals.
- The statement before, changed: the one after it does not hold.
"""
import json
import os
import re
import shutil
import time

import common
from common import PROGRAM, digest, check
from shared.nights import Nights, ask, make_root, read, tried_apart, write


def lines_of(nights, cycle):
    return nights.lines(cycle)


def file_of(nights, cycle):
    return nights.path("reports/statement-%06d" % cycle)


def verified(statement, *report):
    return ask("verify", statement, *report)


# Programs

def programs(folder):
    """A statement names the program that is there when it is made, and those of its nights."""
    nights = Nights(folder + "/state", make_root(folder + "/root"))
    another = folder + "/another"
    shutil.copy(PROGRAM, another)
    with open(another, "ab") as program:
        program.write(b"\n#\n")
    nights.part()
    nights.night(program=another)
    lines = lines_of(nights, 1)
    check("the program", (lines.get("Program SHA-256"), lines.get("Programs of its runs, SHA-256")),
          (digest(common.read(another)),
           "%s %s" % (digest(common.read(PROGRAM)), digest(common.read(another)))))
    check("it is what was made", verified(file_of(nights, 1))[0], 0)
    links = re.findall("linkingAgentIdentifierValue>(.*?)<", ask("premis", nights.state, "1")[1])
    check("its events", [digest(common.read(another)) in link for link in links], [False, True])


# Nights

def oldest(folder):
    """No verification of a cycle is older than its statement says, also where the log lacks a
    night that was killed."""
    for name, lost in (("all of it", ("began", "slice", "night")), ("its end", ("night",))):
        nights = Nights("%s/%s" % (folder, name), make_root(folder + "/" + name + " root"))
        nights.night()
        nights.part()
        rows = nights.rows()
        last = rows[-1]["night"]
        write(nights.path("log"), "".join(
            line for line, row in zip(nights.has("log").splitlines(True), rows)
            if row["night"] != last or row["row"] not in lost))
        nights.night()
        lines = lines_of(nights, 2)
        check("the log lacks " + name, lines.get("Oldest verification"), time_text(last)
              if "began" not in lost else lines_of(nights, 1).get("Closed"))
        check("that night was cut, without " + name, lines.get("Nights cut"), "1")
        check("it is what was made", verified(file_of(nights, 2))[0], 0)


def time_text(seconds):
    return time.strftime("%Y-%m-%dT%H:%M:%SZ", time.gmtime(seconds))


def cut(folder):
    """Each night that was killed after it had said that it began is counted, though several began
    in one second."""
    nights = Nights(folder + "/state", make_root(folder + "/root"))
    nights.part()
    before, killed = runs_of(nights), 0
    for when in range(1, 40):
        # (a kill before the row, which is written once the folder is opened, cuts no night)
        common.traced(["-s", "2000", "-e", "trace=write,fsync", "-e",
                       "inject=fsync:signal=KILL:when=%d" % when],
                      ["night", "--state", nights.state, "--slice", "1", nights.root],
                      folder + "/calls")
        killed += '\\"row\\":\\"began\\"' in read(folder + "/calls")
        if runs_of(nights) > before:
            break
    check("several were killed", killed > 1, True)
    line = ask("status", nights.state)[1]
    check("status", ("a night was cut;" in line, "under way" in line), (True, False))
    nights.night()
    lines = lines_of(nights, 1)
    check("the statement", [lines.get(name) for name in ("Nights", "Nights cut", "Whole")],
          [str(killed + 2), str(killed), "yes"])
    check("it holds", verified(file_of(nights, 1))[0], 0)
    nights.night()
    check("the next cycle", lines_of(nights, 2).get("Nights cut"), "0")
    check("status then", "a night was cut" in ask("status", nights.state)[1], False)


def runs_of(nights):
    return int(re.search("\nruns ([0-9]+)\n", nights.has("checkpoint"))[1])


def left_out(folder):
    """Places that could not be read are counted, and named if the log names them. An object of
    which one was left out does not count as without findings."""
    nights = Nights(folder + "/state", make_root(folder + "/root"))
    bad = os.fsencode(nights.root) + b"/o/v1/content/d"
    os.mkdir(bad)
    write(os.fsdecode(bad + b"/M\xfcll\\er\n"), "")
    why = "it holds a name that is not UTF-8: M\\xFCll\\x5Cer\\x0A"
    status, _, said = nights.night()
    check("a night", (status, "left out: o/v1/content/d: %s\n" % why in said), (3, True))
    check("why", (lines_of(nights, 1).get("Why left out 1"), [row["why"] for row in nights.rows(
        "left")], why in ask("status", nights.state)[1]), (why, [why], True))
    lines, named = lines_of(nights, 1), [row["place"] for row in nights.rows("left")]
    check("what it says", [lines.get(name) for name in ["Whole", "Report", "Places left out"]],
          ["no", "incomplete-000001", "1"])
    check("which", [lines.get("Place left out 1"), *named[1:]], named or [None])
    check("objects", [lines["Objects"], lines["Objects without findings"]],
          ["1", "0" if named else "not known"])
    check("it holds", verified(file_of(nights, 1))[0], 0)
    shutil.rmtree(bad)
    check("the next night", (nights.night()[0], lines_of(nights, 2).get("Places left out"),
                             lines_of(nights, 2)["Objects without findings"]), (0, "0", "1"))


def counted(folder):
    """How many files are no longer looked at, and how many objects are back, is what the night
    said."""
    nights = Nights(folder + "/state", make_root(folder + "/root"))
    shutil.copytree(nights.root + "/o", nights.root + "/p")
    figures = folder + "/figures"

    def counts(cycle):
        ask("status", "--prometheus", figures, nights.state)
        said = lines_of(nights, cycle)
        return [said.get("Files no longer looked at"), said.get("Objects back"), *re.findall(
            r"(?m)^ocfl_scrub_closed_cycle_(?:unlooked_files|objects_back)\{.*\} (\d+)$",
            read(figures))]

    nights.night()
    check("nothing was compared", counts(1), ["not known", "not known"])
    os.rename(nights.root + "/p", folder + "/p")
    out = nights.night()[1]
    check("an object is gone", ("\n3 files of objects that are gone, or" in out, counts(2)),
          (True, ["3", "0", "3", "0"]))
    os.rename(folder + "/p", nights.root + "/p")
    check("it is back", (nights.night()[:2], counts(3)), (
        (0, "1 object is back in cycle 3:\nobject\tp\n"), ["0", "1", "0", "1"]))
    check("all hold", [verified(file_of(nights, cycle))[0] for cycle in (1, 2, 3)], [0, 0, 0])


def repaired(folder):
    """What is repaired stands in the statement with its reason, as many as the night said."""
    nights = Nights(folder + "/state", make_root(folder + "/root"))
    for name in "abc":
        write(nights.root + "/o/v1/content/" + name, "x")
    nights.night()
    write(nights.root + "/o/v1/content/a", "abc")
    os.remove(nights.root + "/o/v1/content/b")
    os.symlink("a", nights.root + "/o/v1/content/b")
    write(folder + "/known", "# The disk; from tape 7\nE092\to/\n")
    nights.night("--known", folder + "/known")
    names = ["Repaired findings", "Repaired finding 1", "Repaired finding 2", "Reason given 1",
             "Repaired findings not listed"]
    lines = nights.lines(2)
    check("what is repaired", [lines.get(name) for name in names],
          ["1", "E092 o/v1/content/a", None, "The disk; from tape 7", "0"])
    check("as the night said", nights.rows("closing")[-1]["repaired"], 1)
    made = json.loads(nights.has("reports/statement-000002.json"))
    check("as JSON", made.get("repaired_findings_listed"), [
        {"code": "E092", "place": "o/v1/content/a", "reason": "The disk; from tape 7"}])
    file = file_of(nights, 2)
    status, out, _ = verified(file)
    check("it holds", (status, "Reason given 1" in out.splitlines()[-1]), (0, True))
    text = read(file)
    for name, old, new in [("a place", "1: E092 o/v1/content/a", "1: E092 o/v1/content/c"),
                           ("a number", "Repaired findings: 1", "Repaired findings: 2"),
                           ("one more", "\nReason", "\nRepaired finding 2: E092 z\nReason")]:
        write(file, text.replace(old, new))
        os.rename(file + ".json", folder + "/json")
        status, out, _ = verified(file)
        check("forged: " + name, (status, out.startswith("Repaired finding")), (1, True))
        os.rename(folder + "/json", file + ".json")


def lost_lines(folder):
    """Of a report that lost lines nobody can say which objects have no findings."""
    nights = Nights(folder + "/state", make_root(folder + "/root"))
    write(nights.root + "/o/v1/content/a", "b")
    nights.part()
    kept = nights.has("report").splitlines(True)
    write(nights.path("report"), "".join(row for row in kept if not row.startswith("E092")))
    nights.night()
    lines = lines_of(nights, 1)
    check("a cycle that lost a finding", [lines.get(name) for name in [
        "Whole", "Findings", "Objects without findings"]], ["no", "0", "not known"])
    check("it is what was made", verified(file_of(nights, 1))[0], 0)


def ends_of_parts(folder):
    """Separators stand as in reports and in the file of separators."""
    nights = Nights(folder + "/state", make_root(folder + "/root"))
    parts = folder + "/parts"
    write(parts, "o/v1/content/a%01\no/v1/content/c%25\n")
    nights.night("--parts", parts, "--part", "2")
    lines = lines_of(nights, 1)
    check("the ends of a part", [lines.get("Part from"), lines.get("Part below")],
          ["o/v1/content/a%01", "o/v1/content/c%25"])
    check("they hold", verified(file_of(nights, 1))[0], 0)


# Roots

def declaration(folder):
    """The digest of the declaration is that of what `sha256sum` says of its files."""
    nights = Nights(folder + "/state", make_root(folder + "/root"))
    nights.night()
    sums = "%s  0=ocfl_1.1\n" % digest(common.read(nights.root + "/0=ocfl_1.1"))
    check("the digest of the declaration", lines_of(nights, 1).get("Declaration sums SHA-256"),
          digest(sums.encode()))


# Folders of state

def two_folders(folder):
    """Two folders of state of one root have events of their own, and a statement says its own."""
    make_root(folder + "/root")
    ids = []
    for name in ["one", "two\nlines"]:
        nights = Nights(folder + "/" + name, folder + "/root")
        nights.night()
        for words in [[], ["--each", "object"]]:
            status, events, _ = ask("premis", *words, nights.state, "1")
            found = re.findall("<eventIdentifierValue>(.*?)<", events, re.S)
            check("events of " + name, (status, len(found)), (0, 1))
            ids += found
        check("its folder", lines_of(nights, 1).get("State folder"),
              nights.state.replace("\n", "%0A"))
        check("the statement holds", verified(file_of(nights, 1))[0], 0)
    nights = Nights(folder + "/one", folder + "/root")
    shutil.rmtree(nights.state)
    nights.night()
    ids += re.findall("<eventIdentifierValue>(.*?)<", ask("premis", nights.state, "1")[1])
    check("no two events have one identifier", (len(ids), len(set(ids))), (5, 5))


# What is checked

def away(nights, folder, names):
    """A copy of what lies beside a statement, elsewhere."""
    shutil.rmtree(folder, ignore_errors=True)
    os.makedirs(folder)
    for name in names:
        shutil.copy(nights.path("reports/" + name), folder)
    return folder + "/statement-000002"


def checking(folder):
    """What lies beside a statement can be checked, and what cannot is named."""
    nights = Nights(folder + "/state", make_root(folder + "/root"))
    nights.night()
    os.remove(nights.root + "/o/v1/content/c")
    shutil.copytree(nights.root + "/o", nights.root + "/p")
    nights.night()
    shutil.rmtree(nights.root + "/p")
    nights.night()
    nights.part()
    names = ["statement-000003", "cycle-000003", "statement-000003.json", "gone-000003",
             "cycle-000002", "statement-000002"]
    there = folder + "/away"

    def copied(names):
        return away(nights, there, names).replace("000002", "000003")

    check("all of it", verified(copied(names))[0], 0)
    status, out, _ = verified(copied(names[:3]))
    check("no list of what is gone", (status, "gone-000003" in out, "Objects gone" in out),
          (4, True, True))
    status, out, _ = verified(copied(names[:2] + names[3:]))
    check("no JSON", (status, "statement-000003.json" in out, re.findall(
        "Host|Storage root|First night|Runs|Program SHA-256", out)), (4, True, [
            "Storage root", "Host", "First night", "Runs", "Program SHA-256"]))
    check("with a report that is named", verified(copied(names[:1]), nights.path(
        "reports/cycle-000003"))[0], 4)
    forged(nights, copied, names)


def losses(folder):
    """The event of a cycle that no longer found something is no pass."""
    nights = Nights(folder + "/state", make_root(folder + "/root"))
    nights.night()
    check("nothing is lost", outcomes(nights, 1), ["pass"])
    shutil.copytree(nights.root + "/o", nights.root + "/p")
    nights.night()
    shutil.rmtree(nights.root + "/p")
    nights.night()
    check("an object is lost", outcomes(nights, 3), ["fail"])
    write(folder + "/expected", "o\nq\n")
    nights.night("--expected", folder + "/expected")
    check("an expected object is missing", outcomes(nights, 4), ["fail"])


def outcomes(nights, cycle):
    return re.findall("<eventOutcome>(.*?)<", ask("premis", nights.state, str(cycle))[1])


def forged(nights, copied, names):
    """Lines that were added, changed or taken away."""
    text = nights.has("reports/statement-000003")
    for name, changed in [("a line more", text + "Certified: yes\n"),
                          ("a text more", text.replace("\n\n", "\nCertified\n\n")),
                          ("a line of another cycle", text + "Not audited: o\n"),
                          ("a code that is none", text + "Findings of all: 0\n"),
                          ("a line less", re.sub("\nHost: .*", "", text)),
                          ("a line twice", text + "Lost lines: none\n"),
                          ("another cycle", text.replace("\nCycle: 3\n", "\nCycle: 03\n"))]:
        file = copied(names[:2] + names[3:])
        write(file, changed)
        status, out, _ = verified(file)
        check(name + " is refused", status in (1, 3) and (status == 3 or out != ""), True)
    file = copied(names[:2] + names[3:])
    write(file, text + "Certified\033[2J: yes\n")
    check("a line that it does not know is shown", [part in verified(file)[1] for part in [
        "Certified", "\033"]], [True, False])
    file = copied(names[:2] + names[3:])
    write(file, re.sub("(?m)^Host: .*", "Host: elsewhere", text))
    status, out, _ = verified(file)
    check("a host that nothing vouches for", (status, "Host" in out), (4, True))
    file = copied(names)
    write(file + ".json", "{}\n")
    check("another JSON", verified(file)[0], 1)


def chained(folder):
    """A statement has the digest of the one before, so that none can be changed alone."""
    nights = Nights(folder + "/state", make_root(folder + "/root"))
    for _ in range(2):
        nights.night()
    first = file_of(nights, 1)
    name = "Statement before, SHA-256"
    check("the statement before", [lines_of(nights, cycle).get(name) for cycle in [1, 2]],
          ["no statement", digest(common.read(first))])
    check("both hold", [verified(file_of(nights, cycle))[0] for cycle in [1, 2]], [0, 0])
    write(first, read(first).replace("Host: ", "Host: x"))
    status, out, _ = verified(file_of(nights, 2))
    check("the one before was changed", (status, name + ": the statement says" in out), (1, True))


def no_list(folder):
    """What is gone without a list of it."""
    nights = Nights(folder + "/state", make_root(folder + "/root"))
    nights.night()
    file = file_of(nights, 1)
    text = read(file)
    write(file, text.replace("Objects gone: not known", "Objects gone: 2"))
    os.remove(file + ".json")
    check("gone without a list", "Objects gone: the statement says 2" in verified(file)[1], True)


# Seals

def copies_are_no_seals(folder):
    """A copy that somebody made of a statement is no seal of it."""
    nights = Nights(folder + "/state", make_root(folder + "/root"))
    nights.night()
    file = file_of(nights, 1)
    seal = ["--seal", 'rev "$1" > "$1.rev"', nights.state, "1"]
    for name in ["bak", "orig", "json.bak"]:
        shutil.copy(file, file + "." + name)
    check("sealed beside copies", (ask("statement", *seal)[0], os.path.exists(file + ".rev")),
          (0, True))
    os.remove(file + ".rev")
    check("sealed again where the seal is gone", (ask("statement", *seal)[0],
                                                  os.path.exists(file + ".rev")), (0, True))
    seal[1] = 'echo x > "$1.other"'
    check("sealed once", (ask("statement", *seal)[0], os.path.exists(file + ".other")),
          (0, False))


PARTS = [programs, oldest, cut, left_out, counted, repaired, lost_lines, ends_of_parts, declaration,
         two_folders, checking, losses, chained, no_list, copies_are_no_seals]


def check_all(folder):
    tried_apart(PARTS, folder)


common.run_trial(check_all, needs=["strace"])
