#!/usr/bin/env python3
"""Measures what `nights/ocfl-scrub-reports` takes for a report of many lines, beside what reading
it takes: `gzip -dc REPORT | wc -l`.

usage: questions.py [LINES]

LINES is 10,000,000 if it is not given. One line in a hundred is a finding, and one in ten has a
path that is not ASCII. Prints the seconds of a
processor and the MiB of memory that each command took, as a table.
"""
import hashlib
import json
import os
import shutil
import subprocess
import sys
import tempfile

import measure

COMMAND = os.path.abspath(os.path.join(measure.HERE, "..", "nights", "ocfl-scrub-reports"))
FOUND = "sha512 %s %s" % ("ab" * 64, "cd" * 64)
# 2026-01-01T22:00:00Z
NIGHT = 1767304800
EMPTY = hashlib.sha256(b"").hexdigest()
CHECKPOINT = ("""ocfl-scrub checkpoint 1
root /srv/ocfl
declared %s
names 1 %s
phase open
whole yes
report 0 0
pieces %s
tail %s
told 0
left 0
cycle 1
runs 1
spent 9
files 1
ended
""" % (EMPTY, EMPTY, "0" * 64, EMPTY)).encode()


def write_report(path, count):
    """A report of objects with nine files each, and one finding in a hundred lines."""
    with subprocess.Popen(["gzip"], stdin=subprocess.PIPE, stdout=open(path, "wb")) as packing:
        for at in range(count // 10):
            name = "coll%04d/obj%07d" % (at // 20000, at)
            lines = ["ok\t%s\t-\n" % name]
            for of in range(9):
                is_damaged = (at * 9 + of) % 90 == 7
                lines.append("%s\t%s/v1/content/%s-%d.tif\t%s\n" % (
                    "E092" if is_damaged else "ok", name, "Stra%C3%9Fe" if of == 5 else "page", of,
                    FOUND if is_damaged else (at * 7919 + of) * 104729 % 99999999))
            packing.stdin.write("".join(lines).encode())


def make_state(folder, count):
    """A folder of state whose only cycle is closed."""
    os.makedirs(folder + "/reports")
    report = folder + "/reports/cycle-000001.gz"
    write_report(report, count)
    rows = [{"row": "closing", "time": NIGHT, "night": NIGHT, "cycle": 1, "report": report[:-3],
             "whole": True, "findings": count // 100, "new": 0, "repaired": 0, "gone": 0,
             "left": 0},
            {"row": "night", "time": NIGHT, "night": NIGHT, "status": 0, "runs": 1, "cost": 9,
             "seconds": 60, "findings": 0}]
    with open(folder + "/log", "w") as file:
        file.writelines(json.dumps(row) + "\n" for row in rows)
    with open(folder + "/checkpoint", "wb") as file:
        file.write(CHECKPOINT + b"sha256 %s\n" % hashlib.sha256(CHECKPOINT).hexdigest().encode())
    return report


def taken(words):
    """The seconds of a processor that a command took, and the MiB that its largest process held."""
    process = subprocess.Popen(words, stdout=subprocess.DEVNULL)
    _, _, used = os.wait4(process.pid, 0)
    process.returncode = 0
    return used.ru_utime + used.ru_stime, used.ru_maxrss / 1024


def main():
    count = int(sys.argv[1]) if len(sys.argv) > 1 else 10000000
    folder = tempfile.mkdtemp(prefix="ocfl-scrub-bench-")
    try:
        report = make_state(folder + "/state", count)
        state = folder + "/state"
        older = shutil.copy(report, folder + "/older.gz")
        reading, _ = taken(["sh", "-c", "gzip -dc '%s' | wc -l" % report])
        print("| command over %d lines | CPU, seconds | of reading | MiB |" % count)
        print("|---|---|---|---|")
        print("| `gzip -dc REPORT \\| wc -l` | %.2f | 1.0 | |" % reading)
        for words in [["findings", report], ["findings", "--by-weight", report],
                      ["findings", "--new", older, report], ["totals", report],
                      ["status", "--age", "-,-", state], ["bytes", report],
                      ["premis", "--each", "finding", state, "1"], ["json", report],
                      ["changed", older, report]]:
            if words[0] == "premis":
                taken([COMMAND, "statement", state, "1"])
            seconds, held = taken([COMMAND, *words])
            shown = " ".join(word for word in words if not word.startswith((folder, "-,", "1")))
            shown = shown.replace("status --age", "status")
            print("| `%s` | %.2f | %.1f | %.0f |" % (shown, seconds, seconds / reading, held),
                  flush=True)
    finally:
        shutil.rmtree(folder, ignore_errors=True)


if __name__ == "__main__":
    main()
