#!/usr/bin/env python3
"""Tries the questions to reports, the grammar of report lines, and the gallery.

usage: reports.py

Where a tool is missing, that is a failure which names Debian's package.

Tried, and what comes of it:

- A report whose name begins with `-`: it is taken after `--`.
- The log, a statement and a text given for a report; days, hours and forms that no date has:
  status 3; status 2.
"""
import gzip
import json
import os
import random
import re
import shutil
import time

import common
from common import PROGRAM, TOP, check
from shared.nights import REPORTS, Nights, ask, is_found, ran, read, text_of, tried, write
from shared.rules import codes_of_rules
from shared.states import State

PACKAGES = {"sqlite3": "sqlite3", "gzip": "gzip"}


def tools():
    """The tools that the trials need."""
    for tool, package in PACKAGES.items():
        where = "there" if shutil.which(tool) else "missing (Debian: %s)" % package
        check("the tool " + tool, where, "there")


# Questions to reports

def made_names(chance):
    letters = ["a", "b", "1", "01", "1e0", " ", '"', "'", "\\", "|", ",", ";", "%25", "%09",
               "%C3%A9", "-"]
    return "".join(chance.choice(letters) for _ in range(chance.randint(1, 4)))


def made_report(chance, count):
    """Lines as they could stand in a report, each path once."""
    paths = sorted({"o-%d/v1/content/%s" % (chance.randint(1, 9), made_names(chance))
                    for _ in range(count)})
    lines = [("ok", ".", "-")]
    for path in paths:
        kind = chance.randint(0, 9)
        if kind < 6:
            lines.append(("ok", path, str(chance.choice([0, 13, 4096, 3 << 40]))))
        elif kind == 6:
            lines.append(("E092", path, "sha512 %s missing" % ("ab" * 64)))
        elif kind == 7:
            lines += [("E023", path, "-"), ("S08", path, "-")]
        else:
            lines.append(chance.choice([("S07", path, "blake2b-512"), ("E099", path, '/"a')]))
    return lines


def simple_questions(folder):
    chance = random.Random(20)
    lines = made_report(chance, 300)
    write(folder + "/plain", text_of(lines))
    write(folder + "/packed.gz", gzip.compress(text_of(lines).encode()))
    found = [line for line in lines if is_found(line)]
    counts = {code: sum(line[0] == code for line in lines) for code in {line[0] for line in lines}}
    totals = "".join("%s\t%d\n" % row for row in sorted(counts.items()))
    sizes = [int(line[2]) for line in lines if line[0] == "ok" and line[2] != "-"]
    for file in [folder + "/plain", folder + "/packed.gz"]:
        check("findings", ask("findings", file), (0, text_of(found), ""))
        check("totals", ask("totals", file), (0, totals, ""))
        check("bytes", ask("bytes", file),
              (0, "%d files, %d bytes\n" % (len(sizes), sum(sizes)), ""))
        status, out, said = ask("json", file)
        check("json", (status, [json.loads(line) for line in out.splitlines()], said),
              (0, [as_json(line) for line in lines], ""))
    write(folder + "/cut.gz", gzip.compress(text_of(lines).encode())[:-9])
    for name in ["findings", "totals", "bytes", "json"]:
        for file in ["cut.gz", "none"]:
            status, out, said = ask(name, folder + "/plain", folder + "/" + file)
            check("%s of %s" % (name, file), (status, out, "/%s cannot be read" % file in said),
                  (3, "", True))
    no_reports(folder)
    two = ask("bytes", folder + "/plain", folder + "/packed.gz")[1]
    check("two reports", two, "%d files, %d bytes\n" % (2 * len(sizes), 2 * sum(sizes)))
    commands(folder)
    return lines


NAMES = ["findings", "totals", "bytes", "changed", "json", "unverified", "database", "statement",
         "finish", "verify", "premis", "status", "page", "cycle", "recheck", "repair", "tell"]


def commands(folder):
    """What each command shows of itself, and what it refuses; files whose names look like
    options."""
    for name in NAMES:
        status, out, said = ask(name)
        check("usage of " + name, (status, out, said.startswith("usage: ocfl-scrub-reports %s "
                                                                % name)),
              (3 if name == "status" else 2, "", True))
        status, out, said = ask(name, "--help")
        check("help of " + name, (status, out.startswith("usage: ocfl-scrub-reports %s " % name),
                                  out.splitlines()[-2][:9], out.splitlines()[-1].startswith(
                                      "  ocfl-scrub-reports %s " % name), said),
              (0, True, "example:", True, ""))
    for words in [["--help"], ["-h"]]:
        status, out, said = ask(*words)
        check("help", (status, [name for name in NAMES if name not in out], said), (0, [], ""))
    for words in [[], ["what"], ["--what"]]:
        status, out, said = ran([REPORTS, *words])
        check("usage: %s" % words, (status, out, said.startswith("usage: ")), (2, "", True))
    shutil.copy(folder + "/plain", folder + "/-plain")
    status, out, said = ran([REPORTS, "totals", "--", "-plain"], cwd=folder)
    check("a name like an option", (status, out, said), (0, ask("totals", folder + "/plain")[1],
                                                         ""))


def no_reports(folder):
    """A log of nights, a statement and a text are no reports, and nothing is told of them."""
    nights = Nights(folder + "/nights", common.make_root(folder + "/small", {"o": {"v1/content/a":
                                                                                  b"a"}}))
    nights.night()
    write(folder + "/text", "a text\n")
    for file in [nights.path("log"), nights.path("reports/statement-000001"), folder + "/text"]:
        for words in [["findings"], ["findings", "--by-weight"], ["totals"], ["bytes"],
                      ["json"], ["changed", folder + "/plain"]]:
            status, out, said = ask(*words, file)
            check("%s of %s" % (words[0], os.path.basename(file)),
                  (status, out, said != ""), (3, "", True))


def as_json(line):
    made = {"code": line[0], "path": line[1], "detail": line[2], "finding": is_found(line)}
    if line[0] == "ok" and line[2] != "-":
        made["bytes"] = int(line[2])
    return made


def changes(folder):
    chance = random.Random(21)
    older = made_report(chance, 200)
    newer = [line for line in older if chance.randint(0, 9)]
    newer += [("ok", "p-1/v1/content/%d" % number, "1") for number in range(5)]
    newer = [("E092", line[1], "sha256 a b") if line[0] == "ok" and not chance.randint(0,
                                                                                       9) else line
             for line in newer]
    write(folder + "/older", text_of(older))
    write(folder + "/newer", text_of(newer))
    lines = [("-",) + line for line in older if line not in newer]
    lines += [("+",) + line for line in newer if line not in older]
    lines.sort(key=lambda line: (line[2], -ord(line[0]), line[1], line[3]))
    check("changed", ask("changed", folder + "/older", folder + "/newer"), (0, text_of(lines), ""))
    check("unchanged", ask("changed", folder + "/older", folder + "/older"), (0, "", ""))


# Two cycles and half of a third; of each when its nights began, and its lines.
CYCLES = [
    (["2025-01-01T22:00:00Z", "2025-01-02T22:00:00Z"], [
        ("ok", ".", "-"), ("ok", "o", "-"), ("ok", "o/v1/content/a", "3"),
        ("ok", 'o/v1/content/"b', "4"), ("ok", "o/v1/content/gone", "4"),
        ("ok", "o/v1/content/01", "4"), ("ok", "o/v1/content/z", "4")]),
    (["2025-02-01T22:00:00Z", "2025-02-02T22:00:00Z"], [
        ("ok", ".", "-"), ("ok", "o", "-"), ("E092", "o/v1/content/a", "sha256 x y"),
        ("ok", 'o/v1/content/"b', "4"), ("E023", "o/v1/content/new", "-"),
        ("ok", "o/v1/content/1", "4"), ("ok", "o/v1/content/z", "4"), ("E025", '"p', '"a')]),
    (["2025-03-01T22:00:00Z"], [
        ("ok", ".", "-"), ("ok", "o", "-"), ("E092", "o/v1/content/a", "sha256 x y"),
        ("ok", 'o/v1/content/"b', "4")]),
]


def make_state(folder, cycles):
    """A folder of the program's nights. A night of which the log does not say where it stopped may
    have written any line."""
    state = State(folder)
    for cycle, (nights, lines) in enumerate(cycles, 1):
        is_open = cycle == 3
        for number, began in enumerate(nights, 1):
            state.night(began, cycle, 9, closes=None if is_open or number < len(nights) else {
                "lines": text_of(lines), "packed": cycle == 1})
            state.refuse(began.replace("T22", "T23"))
        if is_open:
            write(folder + "/report", text_of(lines))


def verified(cycles):
    """When each content file was last found right, or `never`, and code and cycle of its last
    line: the first night of a cycle counts, which is older than no reading."""
    content = {}
    for cycle, (nights, lines) in enumerate(cycles, 1):
        for code, path, detail in lines:
            began = nights[0]
            if code == "ok" and detail != "-":
                content[path] = (began, code, str(cycle))
            elif code in ("E023", "E092"):
                content[path] = (content.get(path, ("never",))[0], code, str(cycle))
    return content


def unverified(folder):
    for count in [2, 3]:
        state = folder + "/state-%d" % count
        make_state(state, CYCLES[:count])
        content = verified(CYCLES[:count])
        for date in ["2025-01-01", "2025-02-01", "2025-02-02T22:00:00Z", "2025-02-02T22:00:01Z",
                     "2026-01-01"]:
            late = sorted((path, *last) for path, last in content.items()
                          if last[0] == "never" or last[0] < date)
            expected = "".join("%s\t%s\t%s\t%s\n" % (began, path, code, cycle)
                               for path, began, code, cycle in late)
            check("not verified since %s, %d cycles" % (date, count),
                  ask("unverified", date, state), (0, expected, ""))
    for date in ["'; drop", "2026-13-45", "2025-02-29", "2025-01-01T25:00:00Z", "2025", "2025-1-1",
                 "2025-01-01T10:00", "--", "2025-01-01Z"]:
        check("no date: " + date, ask("unverified", date, state)[0:2], (2, ""))
    database(folder, state)


def unverified_objects(folder):
    """Files of objects whose head stops, that are gone or lost their declaration, or a part."""
    objects = {name: {"v1/content/%d" % number: b"abc" for number in range(3)} for name in "ABCDE"}
    nights = Nights(folder + "/state", common.make_root(folder + "/root", objects))
    nights.night()
    write(nights.root + "/A/inventory.json", "{")
    shutil.rmtree(nights.root + "/B")
    os.remove(nights.root + "/C/0=ocfl_object_1.1")
    shutil.rmtree(nights.root + "/D/v1")
    time.sleep(1.1)
    date = time.strftime("%Y-%m-%dT%H:%M:%SZ", time.gmtime())
    nights.night()
    status, out, said = ask("unverified", date, nights.state)
    lines = [line.split("\t") for line in out.splitlines()]
    check("files that no night found right since", (status, [line[1] for line in lines], said), (
        0, ["%s/v1/content/%d" % (name, number) for name in "ABCD" for number in range(3)], ""))
    check("their last lines", [line[2:] for line in lines[::3]],
          [["ok", "1"], ["ok", "1"], ["E072", "2"], ["E092", "2"]])


def database(folder, state):
    file = folder + "/audit.db"
    shutil.copy(state + "/reports/cycle-000001.gz", state + "/reports/cycle-000001.bak")
    check("database", ask("database", state, file), (0, "", ""))
    count = "select cycle, count(*) from line group by cycle"
    check("its lines", ran(["sqlite3", file, count])[1],
          "".join("%d|%d\n" % (n, len(c[1])) for n, c in enumerate(CYCLES, 1)))
    damaged = "select began, path, detail from dated where code = 'E092' order by began"
    check("damaged, by time", ran(["sqlite3", file, damaged])[1],
          "2025-02-01T22:00:00Z|o/v1/content/a|sha256 x y\n"
          "2025-03-01T22:00:00Z|o/v1/content/a|sha256 x y\n")
    check("quotes", ran(["sqlite3", file, "select path, detail from line where code = 'E025'"])[1],
          '"p|"a\n')
    check("not over another", ask("database", state, file)[0], 2)


# The grammar of report lines

CORE = {"HTAB": r"\t", "LF": r"\n", "SP": " ", "DIGIT": "[0-9]", "ALPHA": "[A-Za-z]"}
TOKEN = re.compile(r'"[^"]*"|%x[0-9A-F.-]+|[A-Za-z]+|\d*\*|\d+|[()/]')


def values(text):
    """The expression of `%x41-46` or `%x6F.6B`."""
    if "-" in text:
        return r"[\x%s-\x%s]" % tuple(text[2:].split("-"))
    return "".join(r"\x" + number for number in text[2:].split("."))


def expression(rule, rules):
    """The regular expression of what a rule of ABNF has after its name."""
    made, repeat, held = "", "", []
    for token in TOKEN.findall(rule):
        if token == "/":
            made += "|"
        elif token == "(":
            made, repeat = made + "(?:", held.append(repeat) or ""
        elif token == ")":
            made += ")" + held.pop()
        elif token[0] in "*0123456789":
            repeat = {"*": "*", "1*": "+"}.get(token, "{%s}" % token)
        else:
            made, repeat = made + "(?:%s)%s" % (element(token, rules), repeat), ""
    return made


def element(token, rules):
    if token[0] == '"':
        return "(?i:%s)" % re.escape(token[1:-1])
    if token[0] == "%":
        return values(token)
    return CORE.get(token) or expression(rules[token], rules)


def grammar():
    """The rules of the ABNF in docs/RULES.md, as regular expressions."""
    text = read(TOP + "/docs/RULES.md").split("```abnf\n")[1].split("```")[0]
    text = re.sub(r"\n\s+", " ", re.sub(r"\s*;[^\n]*", "", text))
    rules = dict(re.match(r"(\w+)\s*=\s*(.*)", line).groups() for line in text.splitlines())
    return {name: re.compile(expression(rule, rules)) for name, rule in rules.items()}


def lines_have_the_grammar(lines):
    rules = grammar()
    check("lines of the grammar", [line for line in lines if not rules["line"].fullmatch(line)], [])
    bad = ["ok\t.\t-", "ok\t.\n", "OK\t.\t-\n", "E92\to\t-\n", "S008\to\t-\n", "ok\t/o\t-\n",
           "ok\to//p\t-\n", "ok\to%2f\t-\n", "ok\to%41\t-\n", "ok\t\xe9\t-\n", "ok\to\t-\t-\n"]
    check("no lines of it", [line for line in bad if rules["line"].fullmatch(line)], [])
    for name, text in [("compared", "sha512/256 ab c 0f"), ("lost", "md5 missing"),
                       ("bytes", "10")]:
        check("grammar: " + name, bool(rules[name].fullmatch(text)), True)
    for name, text in [("compared", "md5 a 0F"), ("lost", "md5 MISSING"), ("bytes", "01")]:
        check("not " + name, bool(rules[name].fullmatch(text)), False)


# The gallery

def gallery(folder):
    page = read(TOP + "/docs/GALLERY.md")
    maker = TOP + "/samples/gallery"
    check("the page is that of the script", ran([maker, "--page"])[1] == page, True)
    lines = []
    for part, words in zip(page.split("\n## With --inventories\n"), [[], ["--inventories"]]):
        root = folder + "/root" + "".join(words)
        check("gallery %s" % words, ran([maker, *words, root]), (0, "", ""))
        check("not over another %s" % words, ran([maker, *words, root])[0:2], (2, ""))
        shown = re.findall(r"^    ((?:ok|[ES]\d+)\t.*\n)", part, re.MULTILINE)
        status, out, said = ran([PROGRAM, "audit", *words, root])
        check("its audit %s" % words, (status, out.splitlines(True), said), (1, shown, ""))
        lines += shown
    apart = {"E069", "E076", "S08"}
    check("codes", sorted(codes_of_rules() - {line.split("\t")[0] for line in lines}),
          sorted(apart))
    check("each code left out is told", [c for c in apart if "`%s`" % c not in page], [])
    small_roots(folder, page)
    return lines


def small_roots(folder, page):
    """The commands of the page's last part, and what they write."""
    os.makedirs(folder + "/bin")
    os.symlink(PROGRAM, folder + "/bin/ocfl-scrub")
    block = page.split("```console\n")[1].split("```")[0]
    for part in re.findall(r"\$ (.*)\n((?:[^$].*\n)*)", block):
        got = ran(["sh", "-c", part[0]], cwd=folder, PATH=folder + "/bin:" + os.environ["PATH"])
        check("as shown: " + part[0], got[1:], (part[1], ""))


def check_all(folder):
    tools()
    for part in [changes, unverified, unverified_objects]:
        os.mkdir(os.path.join(folder, part.__name__))
        tried(part, os.path.join(folder, part.__name__))
    lines = [text_of([line]) for line in tried(simple_questions, folder)]
    lines += tried(gallery, folder + "/gallery")
    tried(lines_have_the_grammar, lines)


common.run_trial(check_all)
