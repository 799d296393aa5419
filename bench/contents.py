#!/usr/bin/env python3
"""Measures `ocfl-scrub audit` over large and small content files against the tools of coreutils.

usage: contents.py

Each case is one storage root that it makes; all is read from the page cache. The program and the
tools run one after the other, in rounds; of each the least CPU time counts, user and system.
"""
import json
import os

import measure
from measure import write

MIB = 1 << 20
ALL_FOUR = ("sha512", "md5", "sha1", "sha256")


def make_object(folder, algorithm, files, fixity=()):
    """An object with these files, bytes by path, listed under one algorithm and those of fixity."""
    blocks = {name: {} for name in (algorithm, *fixity)}
    for path, data in files:
        write(os.path.join(folder, path), data)
        for name, block in blocks.items():
            block.setdefault(measure.digest(name, data), []).append(path)
    inventory = {"digestAlgorithm": algorithm, "manifest": blocks.pop(algorithm), "fixity": blocks}
    inventory = json.dumps(inventory).encode()
    write(os.path.join(folder, "0=ocfl_object_1.1"), b"ocfl_object_1.1\n")
    write(os.path.join(folder, "inventory.json"), inventory)
    sidecar = measure.digest(algorithm, inventory) + " inventory.json\n"
    write(os.path.join(folder, "inventory.json." + algorithm), sidecar.encode())


def large_files(root, algorithm, fixity=(), size=256):
    """512 MiB in files of so many MiB."""
    files = ((("v1/content/%d" % number), os.urandom(MIB) * size) for number in range(512 // size))
    make_object(os.path.join(root, "o"), algorithm, files, fixity)


def small_files(root):
    """20,000 files of 1 KiB in 200 objects, whose folders lie as pair trees do; depth 8."""
    for number in range(200):
        name = "%08d" % number
        folder = os.path.join(root, name[0:2], name[2:4], name[4:6], name[6:8], "o" + name)
        files = [("v1/content/%03d" % file, os.urandom(1024)) for file in range(100)]
        make_object(folder, "sha512", files)


def measured(title, root, tools, wanted):
    """One row: the program's seconds, those of the tools on the same files, and their ratio."""
    find = "find %s -path '*/v1/content/*' -type f -print0 | xargs -0 " % root
    own, other = measure.bests(measure.ROUNDS,
                               lambda: measure.cpu_of(measure.audit_of(root)),
                               lambda: sum(measure.cpu_of(find + tool) for tool in tools))
    names = ", ".join("`%s`" % tool for tool in tools)
    row = (title, own, names, other, own / other, measure.at_most(wanted))
    print("| %s | %.2f | %s | %.2f | %.2f | %s |" % row, flush=True)
    measure.note("contents", title, own / other, wanted)


def case(title, make, tools, wanted):
    measure.with_root(make, lambda root: measured(title, root, tools, wanted))


def main():
    measure.head("audit", "seconds", "against", "seconds", "ratio", "wanted")
    for algorithm, wanted in (("sha512", 0.9), ("sha256", 0.95)):
        case("files of 256 MiB, %s" % algorithm,
             lambda root: large_files(root, algorithm), [algorithm + "sum"], wanted)
    for size in (256, 16):
        case("files of %d MiB, sha512 with md5, sha1 and sha256 in fixity" % size,
             lambda root: large_files(root, ALL_FOUR[0], ALL_FOUR[1:], size),
             [name + "sum" for name in ALL_FOUR], 0.88)
    case("20,000 files of 1 KiB in 200 objects, depth 8", small_files, ["sha512sum"], 1.0)


if __name__ == "__main__":
    main()
