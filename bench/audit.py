#!/usr/bin/env python3
"""Measures `ocfl-scrub audit` over many files and objects against `find` and `sha512sum`.

usage: audit.py [SCALE]     (10 where SCALE is not given: a million files in one directory, and
                             100,000 objects; 1 for a tenth of both)

Each command reads the folder from the page cache, in turns; of each the least CPU time of the
rounds counts, user and system. Of the program the peak of resident memory is given too.
"""
import json
import os
import subprocess
import sys

import measure
from measure import write


def make_object(folder, directories, files, listed):
    """Makes an object of so many files in so many directories; its inventory lists them, or some.
    A file that it does not list is empty, so that a million of them take no memory for bytes."""
    manifest = {}
    for number in range(files):
        inner = "v1/content/%d" % (number % directories) if directories > 1 else "v1/content"
        path, data = "%s/%07d" % (inner, number), b""
        if number < listed:
            data = b"%d\n" % number
            manifest[measure.digest("sha512", data)] = [path]
        write(os.path.join(folder, path), data)
    write(os.path.join(folder, "0=ocfl_object_1.1"), b"ocfl_object_1.1\n")
    inventory = json.dumps({"digestAlgorithm": "sha512", "manifest": manifest}).encode()
    write(os.path.join(folder, "inventory.json"), inventory)
    sidecar = measure.digest("sha512", inventory) + " inventory.json\n"
    write(os.path.join(folder, "inventory.json.sha512"), sidecar.encode())


def measured(title, root, files, against):
    """The rows of one folder: one for each command that it is measured against."""
    list_file = root + ".list"
    subprocess.run("find %s -type f -print0 > %s" % (root, list_file), shell=True, check=True)
    commands = [measure.audit_of(root),
                *(command.replace("ROOT", root).replace("LIST", list_file)
                  for command, _ in against)]
    own, *others = measure.bests(measure.ROUNDS,
                                 *(lambda it=it: measure.cpu_of(it) for it in commands))
    os.remove(list_file)
    peak = measure.peak_of(measure.audit_of(root))
    for (command, wanted), other in zip(against, others):
        shown = command.replace("|", "\\|")
        row = (title, own * 1e6 / files, shown, own / other, measure.at_most(wanted), peak)
        print("| %s | %.1f | `%s` | %.2f | %s | %.0f |" % row, flush=True)
        measure.note("audit", "%s, to %s" % (title, command), own / other, wanted)


def many_objects(root, objects):
    for number in range(objects):
        folder = os.path.join(root, "%03d" % (number % 1000), "%06d" % number)
        make_object(folder, 1, 1, 1)


def main():
    scale = int(sys.argv[1]) if len(sys.argv) > 1 else 10
    many, objects, listed = 100000 * scale, 10000 * scale, 100000
    by_list = ("xargs -0 sha512sum < LIST", 0.7)
    by_find = "find ROOT -type f -print0 | xargs -0 sha512sum"
    measure.head("folder", "microseconds a file", "against", "ratio", "wanted", "peak, MiB")
    measure.with_root(
        lambda root: make_object(os.path.join(root, "o"), 1, many, 0),
        lambda root: measured("one directory of {:,} files, none listed".format(many), root, many,
                              [("find ROOT -printf '%s\\n'", 1.5), ("find ROOT", None)]))
    measure.with_root(
        lambda root: many_objects(root, objects),
        lambda root: measured("{:,} objects of one file".format(objects), root, objects,
                              [by_list, (by_find, None)]))
    measure.with_root(
        lambda root: make_object(os.path.join(root, "o"), 100, listed, listed),
        lambda root: measured("one object of {:,} files, all listed".format(listed), root, listed,
                              [(by_list[0], None), (by_find, None)]))


if __name__ == "__main__":
    main()
