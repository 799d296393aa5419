#!/usr/bin/env python3
"""Tries what an auditor files: the statement of a cycle, its seal and its check, PREMIS events, and
the findings by weight, new ones and known ones.

usage: statements.py

Where a tool is missing, that is a failure which names Debian's package.
"""
import gzip
import json
import os
import re
import shutil
import xml.etree.ElementTree

import common
from common import TOP, digest, check
from shared.states import (GONE, LINES, NIGHTS, REPORTS, State, ask, audited, is_finding, line,
                           program, ran, read, tools, tried, write)

PACKAGES = {"gzip": "gzip", "xmllint": "libxml2-utils", "strace": "strace", "openssl": "openssl"}


# Findings

FOUND = [line("ok", "."), line("E072", "a b"), line("E072", "a-b"), line("ok", "o"),
         line("ok", "o/v1/content/a", "3"), line("S07", "o2", "blake2b-512"),
         line("E092", "o2/v1/content/01", "sha256 x y"),
         line("E092", "o2/v1/content/1", "sha256 x y"), line("E063", "p"), line("E999", "q"),
         line("E023", "r/v1/content/x"), line("S08", "r/v1/content/x")]


def findings(folder):
    report = write(folder + "/report", "".join(FOUND))
    found = [text for text in FOUND if is_finding(text)]
    check("findings", ask("findings", report), (0, "".join(found), ""))
    one = [text for text in found if text.split("\t")[0] in ("E092", "E999", "S08")]
    two = [text for text in found if text.startswith("E063")]
    three = [text for text in found if text.startswith("E023")]
    grave = one + two + three + [text for text in found if text.startswith("E072")]
    check("by weight", ask("findings", "--by-weight", report), (0, "".join(grave), ""))
    older = write(folder + "/older.gz", gzip.compress("".join(
        [line("E092", "o2/v1/content/1", "sha256 x y"), line("E063", "P"), line("E063", "p", "x"),
         line("E072", "a b"), line("ok", "q")]).encode()))
    new = [text for text in found if text not in (FOUND[1], FOUND[7])]
    check("new", ask("findings", "--new", older, report), (0, "".join(new), ""))
    check("new by weight", ask("findings", "--by-weight", "--new", older, report),
          (0, "".join(text for text in grave if text in new), ""))
    check("none is new", ask("findings", "--new", report, report), (0, "", ""))
    known_findings(folder, report, found, older)
    for words in [["--new"], ["--new", older], ["--what", report], ["--by-weight"]]:
        check("usage of findings", ask("findings", *words)[0:2], (2, ""))
    for words in [["--new", folder + "/none", report], ["--known", folder + "/none", report]]:
        status, out, said = ask("findings", *words)
        check("no file", (status, out, "/none cannot be read" in said), (3, "", True))


def known_findings(folder, report, found, older):
    cases = [("whole line", [found[2]], [found[2]]),
             ("another detail", ["E092\to2/v1/content/1\tsha256 x z"], []),
             ("code and path", ["E092\to2/v1/content/1"], [found[3]]),
             ("below", ["E092\to2/", "E072\ta"], found[2:4]),
             ("below a beginning of a name", ["E092\to/", "E023\tr/v1/con/"], []),
             ("the whole root", ["E072\t./"], found[0:2]),
             ("remarks", ["# E063\tp", "", "E063\tp"], [found[4]])]
    for name, lines, gone in cases:
        known = write(folder + "/known", "".join(text.rstrip("\n") + "\n" for text in lines))
        check("known: " + name, ask("findings", "--known", known, report),
              (0, "".join(text for text in found if text not in gone), ""))
    known = write(folder + "/known", "E072\t./\n")
    check("known, new and by weight", ask("findings", "--known", known, "--new", older,
                                          "--by-weight", report)[1].splitlines()[0],
          FOUND[6].rstrip("\n"))


def many_findings(folder):
    """40,000 old E072 do not bury a new E092."""
    old = [line("E072", "a/%05d" % number) for number in range(40000)]
    older = write(folder + "/older", "".join(old))
    newer = write(folder + "/newer", "".join(old + [line("E092", "b", "md5 missing")]))
    check("the one that is new", ask("findings", "--new", older, newer),
          (0, line("E092", "b", "md5 missing"), ""))
    check("the gravest", ask("findings", "--by-weight", newer)[1].splitlines()[0],
          "E092\tb\tmd5 missing")


def table_of_codes():
    """The table has the codes of docs/RULES.md, and says which are said of an object itself, and
    which of content files."""
    rules = read(TOP + "/docs/RULES.md").split("\n## Codes\n")[1].split("\n## ")[0]
    codes = set(re.findall(r"\bok\b|\b[ES]\d+\b", "".join(row.split("|")[1] for row in rules.splitlines()
                                                   if row.startswith("|"))))
    table = read(NIGHTS + "/ocfl_scrub_reports/codes")
    rows = [row.split("\t") for row in table.splitlines() if row[0] != "#"]
    check("codes of the table", sorted(row[0] for row in rows), sorted(codes))
    check("their weights", sorted({row[1] for row in rows}), ["-", "1", "2", "3", "4"])
    check("their words", [row[0] for row in rows if len(row) != 5 or not row[3] or not row[4]], [])
    check("codes of places", {row[0] for row in rows if row[2] == "place"},
          {"E001", "E015", "E024", "E069", "E072", "E073", "E076", "E080", "S04", "S05"})
    check("codes of files", {row[0] for row in rows if row[2] == "file"},
          {"E023", "E064", "E092", "E093", "S08"})


# Statements

TEXT = """ocfl-scrub statement 4

Storage root: /srv/ocfl%09"\\%C3%BC%25|
Declaration sums SHA-256: {declaration}
State folder: {state}
Host: {host}
Cycle: 2
First night: 2026-02-01T22:00:00Z
Last night: 2026-02-03T22:00:00Z
Oldest verification: 2026-01-01T23:00:00Z
Closed: 2026-02-03T23:00:00Z
Nights: 2
Nights cut: 0
Runs: 2
Files read: 2
Bytes read: 6
Lost lines: none
Report: cycle-000002
Whole: yes
Places left out: 0
Report lines: 13
Broken lines: 0
Report SHA-256: {digest}
Objects: 4
Objects without findings: 2
Content files: 5
Files found right: 4
Files not found right: 1
Bytes found right: 9223372036854775811
Findings: 4
Findings E007: 1
Findings E023: 1
Findings E072: 1
Findings S08: 1
Algorithms of wrong digests: none
Algorithms not computed: x 2
Compared with cycle: 1
Report compared with, SHA-256: {earlier}
New findings: 4
New findings that are known: 0
Changed findings: 0
Former findings: 0
Repaired findings: 0
Repaired findings not listed: 0
Findings no longer looked at: 0
Objects gone: 1
Objects no longer declared: 0
Files gone: 2
Files no longer looked at: 3
Objects back: 1
List of what is gone, SHA-256: {gone}
Expected objects listed: 160
Expected objects missing: 1
List of expected objects, SHA-256: {expected}
Objects gone and not back: 1
Objects no longer declared, and not back: 0
Files gone and not back: 2
Program: ocfl-scrub 0.1.0
Program commit: 0123abcd
Program SHA-256: {program}
Program file dated: 2026-01-01T00:00:00Z
Programs of its runs, SHA-256: not known
Statement before, SHA-256: no statement
Not looked at: {not_looked_at}
Not said: {not_said}
"""


NOT_LOOKED_AT = "versions, states and ids of inventories; inventories of versions; logs and " \
    "extensions; files of objects whose inventory cannot be used"
NOT_SAID = "whether bytes came from the medium or from a cache; whether the clock was right; " \
    "what became of a file after it was read"


def text_of(made, state):
    """The statement of the second cycle of `audited`, by this program."""
    return TEXT.format(declaration="d" * 64, state=state.path, host=os.uname().nodename,
                       gone=digest(GONE.encode()), program=digest(common.read(made)),
                       digest=digest("".join(LINES).encode()), not_looked_at=NOT_LOOKED_AT,
                       earlier=digest(LINES[0].encode()), not_said=NOT_SAID, expected="e" * 64)


def statement(folder):
    state, made = audited(folder)
    text = text_of(made, state)
    check("statement", ask("statement", state.path, 2, OCFL_SCRUB=made), (0, "", ""))
    check("its text", state.has("reports/statement-000002"), text)
    check("the same as JSON", json.loads(state.has("reports/statement-000002.json")), as_json(text))
    check("what lies there", sorted(os.listdir(state.path + "/reports")),
          ["cycle-000001.gz", "cycle-000002", "gone-000001", "gone-000002", "statement-000002",
           "statement-000002.json"])
    check("who may read it", os.stat(state.path + "/reports/statement-000002").st_mode & 0o777,
          0o640)
    check("of a compressed report", ask("statement", state.path, 1, OCFL_SCRUB=made), (0, "", ""))
    first = state.has("reports/statement-000001")
    check("what it says", [text in first for text in [
        "\nCycle: 1\n", "\nNights: 1\n", "\nRuns: 1\n", "\nReport lines: 1\n",
        "\nCompared with cycle: nothing\nNot compared: there is no earlier cycle\n",
        "\nObjects gone: not known\n", "\nExpected objects missing: not asked\n",
        "\nFindings: 0\nAlgo",
        "\nReport SHA-256: %s\n" % digest(LINES[0].encode())]], [True] * 9)
    write(state.path + "/reports/statement-000002", "kept\n")
    check("again", ask("statement", state.path, 2, OCFL_SCRUB=made), (0, "", ""))
    check("it stays", state.has("reports/statement-000002"), "kept\n")
    for cycle in [3, 4]:
        status, out, said = ask("statement", state.path, cycle, OCFL_SCRUB=made)
        check("cycle %d" % cycle, (status, out, "that cycle %d was closed" % cycle in said),
              (3, "", True))
    for words in [[state.path], [state.path, "x"], [state.path, "01"], ["--seal", state.path, 1]]:
        check("usage of statement", ask("statement", *words)[0:2], (2, ""))


def as_json(text):
    """What a statement says, as its JSON form should."""
    rows = [row.split(": ", 1) for row in text.splitlines()[2:]]
    numbers = {"Cycle", "Nights", "Nights cut", "Runs", "Files read", "Bytes read",
               "Places left out", "Report lines",
               "Broken lines", "Objects", "Objects without findings", "Content files",
               "Files found right",
               "Files not found right", "Bytes found right", "Findings", "Compared with cycle",
               "New findings", "New findings that are known", "Changed findings", "Former findings",
               "Repaired findings", "Repaired findings not listed",
               "Findings no longer looked at", "Objects gone", "Objects no longer declared",
               "Files gone", "Files no longer looked at", "Objects back",
               "Expected objects listed", "Expected objects missing",
               "Objects gone and not back", "Objects no longer declared, and not back",
               "Files gone and not back"}
    made = {"form": "ocfl-scrub statement 4",
            "findings_by_code": {name[9:]: int(value) for name, value in rows
                                 if re.fullmatch("Findings [A-Z0-9]+", name)}}
    for name, value in rows:
        if not re.fullmatch("Findings [A-Z0-9]+", name):
            key = name.lower().replace(", ", "_").replace(" ", "_").replace("-", "_")
            made[key] = int(value) if name in numbers else value
    made["whole"] = dict(rows)["Whole"] == "yes"
    return made


def incomplete_statement(folder):
    """A report that lost lines, and holds half a line; a program that is not the installed one."""
    state = State(folder + "/state")
    state.night("2026-01-01T22:00:00Z", 1, 4)
    state.night("2026-01-02T22:00:00Z", 1, 8, 3, runs=2, closes={
        "at": "2026-01-03T03:00:00Z", "whole": False, "lines": [
            LINES[0], line("ok", "01"), line("ok", "1"), "ok\to\n", LINES[2],
            line("E072", "o-x")]})
    made = program(folder, "0" * 64)
    check("incomplete", ask("statement", state.path, 1, OCFL_SCRUB=made), (0, "", ""))
    text = state.has("reports/statement-000001")
    wanted = ["Lost lines: not known", "Whole: no",
              "Report: incomplete-000001", "Broken lines: 1", "Report lines: 6", "Nights: 2",
              "Runs: 3", "First night: 2026-01-01T22:00:00Z", "Last night: 2026-01-02T22:00:00Z",
              "Objects: 3", "Objects without findings: not known", "Findings: 1",
              "Program commit: not known", "Program SHA-256: " + digest(common.read(made))]
    check("what it says", [row for row in wanted if "\n%s\n" % row not in text], [])
    check("as JSON", json.loads(state.has("reports/statement-000001.json"))["whole"], False)
    check("it is so", ask("verify", state.path + "/reports/statement-000001")[0], 0)
    os.remove(state.path + "/reports/incomplete-000001")
    os.remove(state.path + "/reports/statement-000001")
    status, _, said = ask("statement", state.path, 1, OCFL_SCRUB=made)
    check("no report", (status, "incomplete-000001 is not there" in said,
                        os.path.exists(state.path + "/reports/statement-000001")),
          (3, True, False))


def real_program(folder):
    """The program itself: its version and its digest, and what a whole audit of a root counts."""
    state = State(folder + "/state")
    common.make_root(folder + "/root", {"o": {"v1/content/a": b"abc", "v1/content/b": b""},
                                        "p": {"v1/content/c": b"abc"}})
    write(folder + "/root/p/v1/content/c", "xyz")
    report = ran([common.PROGRAM, "audit", folder + "/root"])[1]
    state.night("2026-01-01T22:00:00Z", 1, 9, 1, closes={"lines": [report]})
    check("of the program", ask("statement", state.path, 1, OCFL_SCRUB=common.PROGRAM), (0, "", ""))
    text = state.has("reports/statement-000001")
    wanted = ["Program SHA-256: " + digest(common.read(common.PROGRAM)), "Objects: 2",
              "Objects without findings: 1", "Files found right: 2", "Bytes found right: 3",
              "Findings: 1", "Findings E092: 1", "Program: ocfl-scrub " + common.version()]
    check("what it says of it", [row for row in wanted if "\n%s\n" % row not in text], [])
    clone = folder + "/clone"
    shutil.copytree(NIGHTS, clone + "/nights")
    built = clone + "/crates/ocfl_scrub_cli/out/ocfl_scrub_cli"
    os.makedirs(os.path.dirname(built))
    shutil.copy(common.PROGRAM, built)
    launcher = write(clone + "/ocfl-scrub", '#!/bin/sh\nexec %s "$@"\n' % built, 0o755)
    for number, given in enumerate(["", launcher]):
        os.remove(state.path + "/reports/statement-000001")
        check("in a clone %d" % number, ran([clone + "/nights/ocfl-scrub-reports", "statement",
                                             state.path, "1"], OCFL_SCRUB=given), (0, "", ""))
        check("it is not the launcher's digest", wanted[0] in
              state.has("reports/statement-000001"), True)


# Sealing

def seals(folder):
    state, made = audited(folder)
    text = text_of(made, state)
    reports = state.path + "/reports/"
    asked = ["--seal", 'rev "$1" > "$1.asc" && ls > "$1.names"', state.path, 2]
    check("sealed", ask("statement", *asked, OCFL_SCRUB=made), (0, "", ""))
    check("the seal", (state.has("reports/statement-000002"),
                       state.has("reports/statement-000002.asc")),
          (text, "".join(row[::-1] + "\n" for row in text.splitlines())))
    check("the statement lay alone", state.has("reports/statement-000002.names"),
          "statement-000002\nstatement-000002.asc\nstatement-000002.names\n")
    asked[1] = 'echo again > "$1.again"'
    check("once", (ask("statement", *asked, OCFL_SCRUB=made), os.path.exists(
        reports + "statement-000002.again")), ((0, "", ""), False))
    for name in ["asc", "names"]:
        os.remove(reports + "statement-000002." + name)
    for name, command, reason in [
            ("fails", 'echo half > "$1.tsr"; exit 1', "is not sealed"),
            ("leaves nothing", "true", "left nothing"),
            ("changes it", 'echo x >> "$1"; cp "$1" "$1.asc"', "changed the statement")]:
        asked[1] = command
        status, _, said = ask("statement", *asked, OCFL_SCRUB=made)
        check("a seal that " + name, (status, reason in said, state.has("reports/statement-000002"),
                                      sorted(os.listdir(reports))[4:]),
              (3, True, text, ["statement-000002", "statement-000002.json"]))
    asked[1] = 'echo mended > "$1.asc"'
    check("made up for", (ask("statement", *asked, OCFL_SCRUB=made)[0],
                          state.has("reports/statement-000002.asc")), (0, "mended\n"))
    documented_seals(folder)


# An authority of our own in the place of that of the page, and what asks it in the place of curl.
AUTHORITY = """[tsa]
default_tsa = ours
[ours]
serial = {home}/serial
signer_cert = {home}/tsa.pem
signer_key = {home}/tsa.key
default_policy = 1.2.3.4
digests = sha512
signer_digest = sha256
"""
ASKING = """#!/bin/sh
while [ $# -gt 0 ]; do
  case $1 in --data-binary) query=${{2#@}} ;; -o) answer=$2 ;; esac
  shift
done
openssl ts -reply -config {home}/tsa.cnf -queryfile "$query" -out "$answer" 2> /dev/null
"""


PAGE = TOP + "/nights/STATEMENTS.md"


def make_keys(home):
    """What each command of the page signs with."""
    os.makedirs(home + "/.gnupg", 0o700)
    write(home + "/tsa.cnf", AUTHORITY.format(home=home))
    write(home + "/bin/curl", ASKING.format(home=home), 0o755)
    write(home + "/serial", "01\n")
    for words in [["gpg", "--batch", "--passphrase", "", "--quick-gen-key", "a@example.org"],
                  re.search("`(minisign -G [^`]*)`", read(PAGE))[1].replace("~", home).split(),
                  ["openssl", "req", "-x509", "-newkey", "rsa:2048", "-nodes", "-subj", "/CN=ours",
                   "-addext", "extendedKeyUsage=critical,timeStamping", "-keyout",
                   home + "/tsa.key", "-out", home + "/tsa.pem"]]:
        if shutil.which(words[0]):
            check("a key of " + words[0], ran(words, HOME=home)[0], 0)


def documented_seals(folder):
    """The seals of nights/STATEMENTS.md, and what checks them; those whose tool is not here are not
    tried."""
    page = read(PAGE)
    command = "ocfl-scrub-reports statement --seal '(.*)' ~/audit 1"
    told = re.findall(r"^    %s\n    (.*)\n" % command, page, re.M)
    check("seals told", [seal.split()[0] for seal, _ in told], ["gpg", "minisign", "openssl"])
    home = folder + "/home"
    make_keys(home)
    for seal, command in told:
        tool = seal.split()[0]
        if not shutil.which(tool):
            continue
        state, made = audited(folder + "/" + tool)
        os.rename(state.path, home + "/audit")
        given = {"HOME": home, "OCFL_SCRUB": made, "PATH": home + "/bin:" + os.environ["PATH"]}
        check("sealed by " + tool, ask("statement", "--seal", seal, home + "/audit", 1, **given)[0],
              0)
        checked = ["sh", "-c", "cd %s/audit/reports && %s" % (home, command)]
        check("seen by " + tool, ran(checked, HOME=home)[0], 0)
        for name in ["statement-000001", "statement-000001.asc"]:
            file = home + "/audit/reports/" + name
            if os.path.exists(file):
                kept = read(file)
                write(file, kept.replace("Cycle: 1", "Cycle: 7"))
                check("%s changed, by %s" % (name, tool), ran(checked, HOME=home)[0] != 0, True)
                write(file, kept)
        shutil.rmtree(home + "/audit")


# Checking a statement

def verifying(folder):
    state, made = audited(folder)
    text = text_of(made, state)
    ask("statement", state.path, 2, OCFL_SCRUB=made)
    file = state.path + "/reports/statement-000002"
    report = state.path + "/reports/cycle-000002"
    given, out, said = ask("verify", file)
    check("it holds", (given, out.splitlines()[0], said),
          (0, "%s is what statement-000002 says" % report, ""))
    check("what only the JSON says", out.splitlines()[1:], [
        "only statement-000002.json says the same: " + "; ".join(repeated_in(text))])
    with open(report, "rb") as plain:
        write(folder + "/other.gz", gzip.compress(plain.read()))
    check("of another copy", ask("verify", file, folder + "/other.gz")[0], 0)
    counted = ["Report lines", "Broken lines", "Report SHA-256", "Objects", "Findings S08",
               "Content files",
               "Objects without findings", "Files found right", "Bytes found right", "Findings",
               "New findings", "Changed findings", "Former findings", "Repaired findings",
               "Findings no longer looked at", "Objects gone", "Files gone",
               "List of what is gone, SHA-256", "Whole",
               "Expected objects missing", "Findings E007"]
    for name in counted:
        old = re.search("^%s: (.*)$" % name, text, re.M)[1]
        new = {"yes": "no"}.get(old, old[:-1] + ("1" if old[-1] != "1" else "2"))
        write(file, text.replace("\n%s: %s\n" % (name, old), "\n%s: %s\n" % (name, new)))
        status, out, _ = ask("verify", file)
        check("changed: " + name, (status, out.splitlines()), (1, [
            "%s: the statement says %s, and it is %s" % (name, new, old),
            "%s.json does not say the same as %s" % (file, file)]))
        write(file, text.replace("\n%s: %s\n" % (name, old), "\n"))
        check("missing: " + name, "%s: the statement lacks it, and it is %s" % (name, old) in
              ask("verify", file)[1], True)
    write(file, text.replace("Findings E007: 1", "Findings E007: 1\nFindings E033: 1"))
    check("a code that is not there", "Findings E033: the statement says 1, and it is 0" in
          ask("verify", file)[1], True)
    write(file, text.replace("Host: ", "Host: x"))
    check("JSON says another host", ask("verify", file)[0], 1)
    write(file, text)
    changed_reports(file, report)
    for words, status in [([], 2), ([file, file, file], 2), (["--what"], 2),
                          ([folder + "/none"], 3), ([report], 3), ([file, folder + "/none"], 3)]:
        check("verify %d" % status, ask("verify", *words)[0:2], (status, ""))


def repeated_in(text):
    """The lines of a statement that nothing beside it shows."""
    names = [row.partition(": ")[0] for row in text.splitlines()[2:]]
    shown = {"Cycle", "Report", "Whole", "Report lines", "Broken lines", "Report SHA-256",
             "Objects", "Objects without findings", "Content files", "Files found right",
             "Files not found right", "Bytes found right", "Findings", "Findings E007",
             "Findings E023", "Findings E072", "Findings S08", "Algorithms of wrong digests",
             "Algorithms not computed", "Report compared with, SHA-256", "New findings",
             "Changed findings", "Former findings", "Repaired findings",
             "Repaired findings not listed", "Findings no longer looked at", "Objects gone",
             "Objects no longer declared", "Files gone", "List of what is gone, SHA-256",
             "Expected objects missing"}
    empty = {"Programs of its runs, SHA-256", "Statement before, SHA-256"}
    return [name for name in names if name not in shown | empty]


def changed_reports(file, report):
    kept = common.read(report)
    for name, data in [("a byte", kept.replace(b"content/a", b"content/A", 1)),
                       ("a line less", kept[:-len(LINES[-1])]), ("a line more", kept + b"x\n"),
                       ("two lines exchanged", b"".join(
                           text.encode() for text in [LINES[1], LINES[0]] + LINES[2:]))]:
        write(report, data)
        status, out, _ = ask("verify", file)
        check("report: " + name, (status, "Report SHA-256: the statement says" in out), (1, True))
    write(report, kept)


# PREMIS

NAMES = {"p": "http://www.loc.gov/premis/v3"}


def premis_of(state, *words):
    """What is said, and the events: id, time, outcomes with notes, what they are linked to."""
    given, out, said = ask("premis", *words, state.path, 2)
    if given:
        return given, said
    file = write(state.path + "/premis.xml", out)
    check("valid PREMIS " + " ".join(words), ran(
        ["xmllint", "--noout", "--schema", TOP + "/trials/premis-3.xsd", file])[0], 0)
    tree = xml.etree.ElementTree.fromstring(out)
    objects = {tuple(value.text for value in entry) for entry in
               tree.findall("p:object/p:objectIdentifier", NAMES)}
    events = []
    for event in tree.findall("p:event", NAMES):
        outcomes = [tuple(part.text for part in outcome.iter() if part.text.strip())
                    for outcome in event.findall("p:eventOutcomeInformation", NAMES)]
        link = tuple(part.text for part in event.find("p:linkingObjectIdentifier", NAMES))
        check("the link leads to an object", link in objects, True)
        identifier = event.find("p:eventIdentifier", NAMES)[1].text
        events.append((identifier[identifier.index("cycle-"):],
                       event.find("p:eventDateTime", NAMES).text, outcomes, link))
    agents = [part.text for part in tree.iter("{%s}agentIdentifierValue" % NAMES["p"])]
    links = {part.text for part in tree.iter("{%s}linkingAgentIdentifierValue" % NAMES["p"])}
    check("the agent", (len(agents), links), (1, set(agents)))
    return events


def lost(name):
    """The events of what is gone, when the cycle was closed. A file that is gone is of the root."""
    closed = "2026-02-03T23:00:00Z"
    return [("cycle-000002:gone:1", closed, [("fail", "gone: p")], ("OCFL object path", "p")),
            ("cycle-000002:gone:2", closed, [("fail", "gone: o/v1/content/a")], name),
            ("cycle-000002:gone:3", closed, [("fail", "gone: o/v1/content/b")], name),
            ("cycle-000002:gone:4", closed, [("fail", "missing: z")], ("OCFL object path", "z"))]


def premis(folder):
    state, made = audited(folder)
    text = text_of(made, state)
    root = folder + "/<&root"
    identity = 'urn:"<&>\u00fc\u0001\n'
    for name, data in [("o", json.dumps({"id": identity}).encode()), ("o2", b"no inventory"),
                       ("o3", b'["id"]'), ("o3-4", b'{"id": 7}')]:
        write(root + "/%s/inventory.json" % name, data)
    state.root = root
    state.put_checkpoint("after o")
    check("no statement", premis_of(state)[0], 3)
    ask("statement", state.path, 2, OCFL_SCRUB=made)
    name = ("OCFL storage root", "%s:%s" % (os.uname().nodename, root))
    first, last = "2026-02-01T22:00:00Z", "2026-02-03T22:00:00Z"
    check("one for the cycle", premis_of(state), [
        ("cycle-000002", last, [("fail", "4 findings in 13 lines; Objects gone: 1; Files gone: 2; "
                                 "Expected objects missing: 1")], name)])

    def fail(text):
        return ("fail", text.rstrip("\n").replace("\t", " "))

    def path(text):
        return ("OCFL object path", text)

    each = [("cycle-000002:finding:2", first, [fail(LINES[1])], name),
            ("cycle-000002:finding:6", first, [fail(LINES[5])], path("o2")),
            ("cycle-000002:finding:11", first, [fail(LINES[10])], path("o3-4")),
            ("cycle-000002:finding:12", first, [fail(LINES[11])], path("o3-4"))]
    check("one for each finding", premis_of(state, "--each", "finding"), each + lost(name))
    whole = [("cycle-000002:object:3", first, [("pass",)], path("o")),
             ("cycle-000002:object:6", first, [fail(LINES[5])], path("o2")),
             ("cycle-000002:object:9", first, [("pass",)], path("o3")),
             ("cycle-000002:object:10", first, [fail(LINES[10]), fail(LINES[11])], path("o3-4"))]
    check("one for each object", premis_of(state, "--each", "object"),
          each[:1] + whole + lost(name))
    with_id = whole[0][:3] + (("OCFL object id", identity.replace("\x01", "\ufffd")),)
    check("with ids", premis_of(state, "--ids", "--each", "object"),
          each[:1] + [with_id] + whole[1:] + lost(name))
    strange_paths(folder, state, root, made)
    for words in [[], [state.path], ["--each", "x", state.path, 2], [state.path, "0"]]:
        check("usage of premis", ask("premis", *words)[0:2], (2, ""))
    shutil.rmtree(root)
    check("no root", premis_of(state, "--ids")[0], 3)
    file = state.path + "/reports/statement-000002"
    write(file, text.replace("Whole: yes", "Whole: no"))
    for words in [[], ["--each", "object"]]:
        check("of a report that is not whole", premis_of(state, *words)[0], 3)
    check("findings of it", len(premis_of(state, "--each", "finding")), 8)


def strange_paths(folder, state, root, made):
    """The ids of objects whose paths need a shell's care."""
    paths = ["-x", " a ", "a\tb\n", "%41", "$(x)`x`\\0101\"'", "\u00fc"]
    for number, path in enumerate(paths):
        write(os.path.join(root, path, "inventory.json"), '{"id": "id %d"}' % number)
    shown = ["".join(c if " " <= c <= "~" and c != "%" else "".join(
        "%%%02X" % byte for byte in c.encode()) for c in path) for path in paths]
    kept = common.read(state.path + "/reports/cycle-000002")
    write(state.path + "/reports/cycle-000002", "".join(line("ok", path) for path in shown))
    given, said = premis_of(state, "--each", "object")
    check("of a report that is another one", (given, "was changed since it was closed" in said),
          (3, True))
    os.remove(state.path + "/reports/statement-000002")
    ask("statement", state.path, 2, OCFL_SCRUB=made)
    ids = [event[3][1] for event in premis_of(state, "--ids", "--each", "object")[:-4]]
    check("ids of strange paths", ids, ["id %d" % number for number in range(len(paths))])
    write(state.path + "/reports/cycle-000002", kept)


# What it takes

def used():
    """The seconds of a processor that ended children took, which a busy machine leaves as they
    are."""
    times = os.times()
    return times.children_user + times.children_system


def takes_little(folder):
    """A report of 1,000,000 lines is opened once, and takes no memory that grows with it."""
    state, made = audited(folder)
    report = state.path + "/reports/cycle-000002"
    with open(report, "w") as file:
        file.write(line("ok", "."))
        for number in range(1000000):
            code = "E072" if number % 4 == 0 else "ok"
            file.write("%s\tobject-%06d/v1/content/a-file\t%s\n" % (code, number, number))
    shutil.copy(report, state.path + "/report")
    write(state.path + "/log", state.has("log").replace('"new":4', '"new":250000'))
    calls = folder + "/calls"
    for words in [["statement", state.path, "2"], ["status", state.path],
                  ["verify", state.path + "/reports/statement-000002"],
                  ["premis", "--each", "finding", state.path, "2"], ["findings", report]]:
        name = words[0]
        limited = ["sh", "-c", 'ulimit -d 100000; exec "$@"', "sh", REPORTS] + words
        began = used()
        traced = ["strace", "-f", "--quiet=all", "-y", "-e", "trace=open,openat", "-o", calls]
        given, out, said = ran(traced + limited, OCFL_SCRUB=made)
        check("%s within 100 MB" % name, (given, said), (2 if name == "status" else 0, ""))
        opened = [row for row in read(calls).splitlines() if row.endswith("<%s>" % report)]
        check("%s opens the report once" % name, len(opened), 1)
        check("%s takes less than two minutes" % name, used() - began < 120, True)
    text = state.has("reports/statement-000002")
    check("it counts all", ["Report lines: 1000001\n" in text, "Findings E072: 250000\n" in text],
          [True, True])


def check_all(folder):
    tools(PACKAGES)
    tried(table_of_codes)
    for part in [findings, many_findings, statement, incomplete_statement, real_program, seals,
                 verifying, premis, takes_little]:
        os.mkdir(os.path.join(folder, part.__name__))
        tried(part, os.path.join(folder, part.__name__))


common.run_trial(check_all, needs=["strace"])
