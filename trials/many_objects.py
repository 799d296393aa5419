#!/usr/bin/env python3
"""Audits a storage root of many objects with the program, and compares the report with what is
expected.

usage: many_objects.py [N]      (1,000 objects where N is not given)

Each object has two content files in `v1` and one in `v2`. In every 10th object a file lost a
letter, in every 25th one is gone, in every 40th there is one that no digest names, and every 100th
has no inventory. What is expected is written down while the root is made, and not asked of the
program.
"""
import os
import sys

import common
from common import digest, check, line, make_object, ran, write


def make_one(folder, place, number):
    """Makes an object, and gives the line of each place in it that has one."""
    files = {
        "v1/content/a.txt": b"first of %d\n" % number,
        "v1/content/b.txt": b"second of %d\n" % number,
        "v2/content/c.txt": b"third of %d\n" % number,
    }
    make_object(folder, files, algorithm="sha512")
    if number % 100 == 0:
        os.remove(os.path.join(folder, "inventory.json"))
        return {place: line("E063", place)}
    inside = {path: ("ok", len(data)) for path, data in files.items()}
    if number % 10 == 0:
        damaged = b"second of\n"
        digests = [digest(data, "sha512") for data in (files["v1/content/b.txt"], damaged)]
        write(os.path.join(folder, "v1/content/b.txt"), damaged)
        inside["v1/content/b.txt"] = ("E092", " ".join(["sha512", *digests]))
    if number % 25 == 0:
        os.remove(os.path.join(folder, "v2/content/c.txt"))
        inside["v2/content/c.txt"] = ("E092", "sha512 missing")
    if number % 40 == 0:
        write(os.path.join(folder, "v1/content/z.txt"), b"not listed\n")
        inside["v1/content/z.txt"] = ("E023", "-")
    lines = {"%s/%s" % (place, path): (code, detail) for path, (code, detail) in inside.items()}
    made = {place: line(code, place, detail) for place, (code, detail) in lines.items()}
    return {place: line("ok", place), **made}


def make_all(root, count):
    """Makes the storage root, and gives the lines of its audit."""
    write(os.path.join(root, "0=ocfl_1.1"), b"ocfl_1.1\n")
    lines = {}
    for number in range(1, count + 1):
        place = "%02x/object-%d" % (number % 256, number)
        lines.update(make_one(os.path.join(root, place), place, number))
    # places go name by name, and a beginning comes first
    order = sorted(lines, key=lambda place: [name.encode() for name in place.split("/")])
    return [line("ok", ".")] + [lines[place] for place in order]


def check_all(folder):
    count = int(sys.argv[1]) if len(sys.argv) > 1 else 1000
    root = os.path.join(folder, "root")
    expected = make_all(root, count)
    before = common.snapshot(root)
    status, out, said = ran(["audit", root])
    found = out.splitlines(True)
    findings = sum(not it.startswith("ok") for it in expected)
    print("many_objects.py: %d objects, %d lines, %d findings" % (count, len(found), findings))
    wrong = [pair for pair in zip(found, expected) if pair[0] != pair[1]]
    check("the lines", wrong[:3], [])
    check("how many", len(found), len(expected))
    check("the status", (status, said), (1 if findings else 0, ""))
    check("nothing was written below the root", common.snapshot(root) == before, True)
    cycle = ["cycle", "--budget", "1K", "--files", "100", "--runs", "100000", root]
    check("a cycle writes the audit", ran(cycle)[:2], (status, "".join(expected)))


common.run_trial(check_all)
