#!/usr/bin/env python3
"""Measures parts of a storage root against its audit, and splitting against what walks the same.

usage: parts.py [LINES]     (lines of the report that is split by cost, 10,000,000 by default)

The root has 10,000 objects of one file of 100 bytes, ten to a directory, and 100 parts that
`split` makes. What it costs to audit each part is summed. Splitting by listing is measured on
1,000,000 empty directories against `find` over the same levels, and splitting a report by cost
against `awk`, which sums its third column.
"""
import os
import shutil
import subprocess
import sys
import tempfile

import measure
import runs

PARTS = 100
# What sums the costs of a report's lines without this program.
SUM = "awk '{ s += $3 } END { print s }' "


def row(name, own, other, wanted):
    ratio = own / other
    print("| %s | %.2f | %.2f | %.2f | %s |" % (name, own, other, ratio, measure.at_most(wanted)),
          flush=True)
    measure.note("parts", name.replace("`", ""), ratio, wanted)


def all_parts(folder):
    """The row of all parts; gives the peaks of memory, as text."""
    root, parts = runs.make_root(os.path.join(folder, "root"), 4), os.path.join(folder, "parts")
    subprocess.run("%s split --parts %d %s > %s" % (measure.PROGRAM, PARTS, root, parts),
                   shell=True, check=True)
    each = ["exec %s audit --parts %s --part %d %s" % (measure.PROGRAM, parts, number, root)
            for number in range(1, PARTS + 1)]
    own, other = measure.bests(measure.ROUNDS, lambda: sum(map(measure.cpu_of, each)),
                               lambda: measure.cpu_of(measure.audit_of(root)))
    row("100 parts of 10,000 objects, to one audit", own, other, 1.1)
    return "The peak of a part's memory is %.1f MiB, that of the audit %.1f." % (
        max(map(measure.peak_of, each[::20])), measure.peak_of(measure.audit_of(root)))


def by_listing(folder):
    """A hierarchy of directories, a thousand in each of a thousand."""
    root = os.path.join(folder, "wide")
    for upper in range(1000):
        for lower in range(1000):
            os.makedirs(os.path.join(root, "%03d" % upper, "%03d" % lower))
    measure.write(os.path.join(root, "0=ocfl_1.1"), b"ocfl_1.1\n")
    own, other = measure.bests(
        measure.ROUNDS, lambda: measure.cpu_of("exec %s split --parts 1000 %s"
                                               % (measure.PROGRAM, root)),
        lambda: measure.cpu_of("find %s -mindepth 1 -maxdepth 1" % root))
    row("split into 1,000 by the first level", own, other, None)
    own, other = measure.bests(
        measure.ROUNDS, lambda: measure.cpu_of("exec %s split --parts 100000 %s"
                                               % (measure.PROGRAM, root)),
        lambda: measure.cpu_of("find %s -mindepth 1 -maxdepth 2" % root))
    row("split into 100,000, to `find` over the same levels", own, other, 1.2)
    shutil.rmtree(root)


def by_cost(folder, lines):
    """The row of a report that is split by cost; gives the peak of memory, as text."""
    report = os.path.join(folder, "report")
    with open(report, "w") as file:
        for number in range(lines):
            file.write("ok\tobject-%08d/v1/content/a-file\t1000\n" % number)
    command = "exec %s split --budget 10M --report %s" % (measure.PROGRAM, report)
    own, other = measure.bests(1, lambda: measure.cpu_of(command),
                               lambda: measure.cpu_of(SUM + report))
    row("split a report of {:,} lines by cost, to `awk`".format(lines), own, other, 2)
    return "Splitting by cost has a peak of %.1f MiB." % measure.peak_of(command)


def main():
    lines = int(sys.argv[1]) if len(sys.argv) > 1 else 10000000
    folder = tempfile.mkdtemp(prefix="ocfl-scrub-bench-")
    try:
        measure.head("CPU time", "ocfl-scrub", "the other", "ratio", "wanted")
        peaks = all_parts(folder)
        by_listing(folder)
        print("\n%s %s" % (peaks, by_cost(folder, lines)))
    finally:
        shutil.rmtree(folder)


if __name__ == "__main__":
    sys.exit(main())
