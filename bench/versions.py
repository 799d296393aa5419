#!/usr/bin/env python3
"""Measures what an audit with `--inventories` takes more than one without it, against hashing these
inventories alone.

usage: versions.py [ROUNDS] [--objects N] [--before PROGRAM]

It makes 10,000 objects (or N) of three versions, each of which adds a file and has an inventory
with its sidecar, ten objects to a directory. Two audits and `sha512sum` over the version
inventories take turns, from the page cache; the least CPU time of each one's rounds counts, user
and system. What the audit with the option takes more than the other one is compared with
`sha512sum`.

With an earlier program after `--before` it also counts the instructions of an audit without the
option by both programs, by valgrind's callgrind, over 100 of these objects.
"""
from __future__ import annotations

import argparse
import json
import os
import subprocess
from typing import Optional

import measure
import small

OBJECTS, VERSIONS = 10000, 3
FEW = 100
KIB = 1024
USER = {"name": "An archivist", "address": "mailto:archivist@example.org"}


def make_object(folder: str, number: int) -> None:
    """An object whose versions each add a file, with the inventory that each of them had."""
    manifest: dict[str, list[str]] = {}
    state: dict[str, list[str]] = {}
    versions: dict[str, object] = {}
    measure.write(os.path.join(folder, "0=ocfl_object_1.1"), b"ocfl_object_1.1\n")
    for version in range(1, VERSIONS + 1):
        data = os.urandom(KIB)
        name, key = "v%d" % version, measure.digest("sha512", data)
        manifest[key], state[key] = [name + "/content/page.tif"], ["page-%d.tif" % version]
        measure.write(os.path.join(folder, name, "content", "page.tif"), data)
        versions[name] = {"created": "2024-01-01T00:00:00Z", "message": "A page", "user": USER,
                          "state": dict(state)}
        inventory = json.dumps({
            "id": "urn:example:%d" % number, "type": "https://ocfl.io/1.1/spec/#inventory",
            "digestAlgorithm": "sha512", "head": name, "manifest": manifest,
            "versions": versions}, indent=2).encode()
        sidecar = (measure.digest("sha512", inventory) + " inventory.json\n").encode()
        for below in [name, ""] if version == VERSIONS else [name]:
            measure.write(os.path.join(folder, below, "inventory.json"), inventory)
            measure.write(os.path.join(folder, below, "inventory.json.sha512"), sidecar)


def make_objects(root: str, count: int) -> None:
    for number in range(count):
        above = ["%03d" % (number // 1000), "%02d" % (number // 10 % 100), "o%05d" % number]
        make_object(os.path.join(root, *above), number)


def measured(root: str, rounds: int, count: int) -> None:
    list_file = root + ".list"
    subprocess.run("find %s -path '*/v[0-9]*/inventory.json' -print0 > %s" % (root, list_file),
                   shell=True, check=True)
    plain, hashing = measure.audit_of(root), "xargs -0 sha512sum < %s" % list_file
    further = plain.replace(" audit ", " audit --inventories ", 1)
    own, more, other = measure.bests(rounds, *(lambda it=it: measure.cpu_of(it)
                                               for it in (plain, further, hashing)))
    os.remove(list_file)
    ratio = (more - own) / other
    print("| %s objects of %d versions | %.2f | %.2f | %.2f | %.2f | at most 1.05 |" % (
        "{:,}".format(count), VERSIONS, own, more, other, ratio), flush=True)
    measure.note("versions", "what --inventories adds", ratio, 1.05)


def instructions(root: str, before: str) -> None:
    """The instructions of an audit without the option, of an earlier program and of this one."""
    earlier, now = (small.instructions(root, program) for program in (before, measure.PROGRAM))
    print("\nInstructions of an audit without the option: %.4f of those of before (at most 1.01 "
          "wanted)." % (now / earlier), flush=True)
    measure.note("versions", "instructions without --inventories", now / earlier, 1.01)


def main(words: Optional[list[str]] = None) -> None:
    parser = argparse.ArgumentParser(
        prog="versions.py", description=__doc__, usage=argparse.SUPPRESS,
        formatter_class=argparse.RawDescriptionHelpFormatter)
    parser.add_argument("rounds", metavar="ROUNDS", nargs="?", type=int, default=measure.ROUNDS)
    parser.add_argument("--objects", metavar="N", type=int, default=OBJECTS)
    parser.add_argument("--before", metavar="PROGRAM")
    asked = parser.parse_args(words)
    measure.head("audit", "without the option, seconds", "with it, seconds",
                 "`sha512sum` of the inventories, seconds", "more, to that", "wanted")
    measure.with_root(lambda root: make_objects(root, asked.objects),
                      lambda root: measured(root, asked.rounds, asked.objects))
    if asked.before:
        measure.with_root(lambda root: make_objects(root, FEW),
                          lambda root: instructions(root, os.path.abspath(asked.before)))


if __name__ == "__main__":
    main()
