#!/usr/bin/env python3
"""Measures nights: one over many small objects against an audit of them, one over a part against
an audit of the part, and what a night does beside its runs where the report has many lines.

usage: nights.py [LINES]     (lines of the report that is opened and closed, 10,000,000 by default)

The report of many lines is not written by nights: the checkpoint of a small root is given the
length and the digests of one, so that a night finds it as if it had written it.
"""
import hashlib
import os
import subprocess
import sys
import tempfile
import time

import measure
import runs

# 100,000 objects, and how many parts they are cut into.
DIGITS, PARTS = 5, 40
# How many bytes one link of a checkpoint's chain of digests has.
PIECE = 4 << 20
# Its places come before those of the small root.
LINE = b"ok\t!/%016d/v1/content/a-file-with-a-name-of-usual-length\t1000\n"


def row(name, own, against, other, wanted):
    ratio = own / other
    print("| %s | %.3f | %s | %.3f | %.2f | %s |" % (name, own, against, other, ratio,
                                                     measure.at_most(wanted)), flush=True)
    measure.note("nights", name, ratio, wanted)


def night_of(root, state, *words):
    """The command of a night; its state folder is made where there is none."""
    create = "" if os.path.exists(state + "/checkpoint") else "--create"
    return " ".join(("exec", measure.PROGRAM, "night", "--state", state, create, *words, root))


def anew(folder):
    """A name for a state folder that is not there."""
    return tempfile.mktemp(prefix="state-", dir=folder)


def whole_nights(folder):
    """A night that makes a whole cycle over small objects, to an audit of them."""
    root = runs.make_root(folder + "/root", DIGITS)
    audit = lambda: measure.cpu_of(measure.audit_of(root))
    night = lambda: measure.cpu_of(night_of(root, anew(folder)))
    own, other = measure.bests(measure.ROUNDS, night, audit)
    row("a night of small objects", own, "`audit`", other, 1.05)
    return root


def wall_of(command):
    began = time.monotonic()
    subprocess.run(command, shell=True, stdout=subprocess.DEVNULL, check=False)
    return time.monotonic() - began


def nights_of_parts(folder, root):
    """What the night of a part takes beside an audit of the part."""
    parts = folder + "/parts"
    subprocess.run("%s split --parts %d %s > %s" % (measure.PROGRAM, PARTS, root, parts),
                   shell=True, check=True)
    part = "--parts %s --part 7" % parts
    audit = lambda: wall_of("exec %s audit %s %s" % (measure.PROGRAM, part, root))
    night = lambda: wall_of(night_of(root, anew(folder), part))
    own, other = measure.bests(5, night, audit)
    return "The night of a part takes %.1f ms more than an audit of the part (20 wanted)." % (
        (own - other) * 1000)


def digests_of(path):
    """The digests that a checkpoint has of a report: of its whole pieces, chained, and of what
    follows them."""
    chained, tail = b"0" * 64, b""
    with open(path, "rb") as report:
        while len(piece := report.read(PIECE)) == PIECE:
            chained = hashlib.sha256(chained + b"\n" + piece).hexdigest().encode()
        tail = piece
    return chained.decode(), hashlib.sha256(tail).hexdigest()


def put_report(state, lines):
    """Puts a report of so many lines in place of that of a state folder."""
    with open(state + "/report", "wb") as report:
        for first in range(0, lines, 100_000):
            report.write(b"".join(LINE % number for number in range(first, first + 100_000)))
    size = os.path.getsize(state + "/report")
    pieces, tail = digests_of(state + "/report")
    new = {"report": "%d %d" % (size, lines), "pieces": pieces, "tail": tail, "told": str(size)}
    with open(state + "/checkpoint") as file:
        rows = [line.split(" ", 1) for line in file.read().splitlines()[:-1]]
    text = "".join(" ".join([name, *(new.get(name, word) for word in rest)]) + "\n"
                   for name, *rest in rows)
    with open(state + "/checkpoint", "w") as file:
        file.write(text + "sha256 %s\n" % hashlib.sha256(text.encode()).hexdigest())


def begun(root, state, lines):
    """Begins a cycle, and gives it a report of so many lines."""
    subprocess.run(night_of(root, state, "--budget 1 --slice 1"), shell=True,
                   stdout=subprocess.DEVNULL, check=False)
    put_report(state, lines)


def closing_after(root, state, lines, sums):
    """Closing a report that is compared with one as long, to the sums of both."""
    begun(root, state, lines)
    took = measure.cpu_of(night_of(root, state))
    if not os.path.exists(state + "/reports/gone-000002"):
        sys.exit("the second cycle was not compared")
    row("closing one of %d lines after another" % lines, took, "`sha256sum` of both", 2 * sums, 1.5)


def long_reports(folder, lines):
    """Opening and closing a night whose report has so many lines."""
    root, state = runs.make_root(folder + "/small", 1), folder + "/long"
    begun(root, state, lines)
    opening = min(wall_of(night_of(root, state, "--end 1")) for _ in range(5))
    sums = min(measure.cpu_of("sha256sum %s/report" % state) for _ in range(2))
    peak = measure.peak_of(night_of(root, state, "--end 1"))
    peaks = []
    took = measure.cpu_while(lambda: peaks.append(measure.peak_of(night_of(root, state))))
    if not os.path.exists(state + "/reports/cycle-000001"):
        sys.exit("the cycle was not closed as whole")
    row("closing a report of %d lines" % lines, took, "`sha256sum`", sums, 2)
    closing_after(root, state, lines, sums)
    return ("Opening it takes %.3f s (at most 0.2 wanted). The peaks of memory are %.1f MiB and "
            "%.1f (20 wanted)." % (opening, peak, *peaks))


def main():
    lines = int(sys.argv[1]) if len(sys.argv) > 1 else 10_000_000
    measure.head("case", "seconds", "against", "seconds", "ratio", "wanted")
    with tempfile.TemporaryDirectory(prefix="ocfl-bench-") as folder:
        root = whole_nights(folder)
        said = nights_of_parts(folder, root), long_reports(folder, lines)
    print("\n" + " ".join(said))


if __name__ == "__main__":
    main()
