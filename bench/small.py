#!/usr/bin/env python3
"""Measures an audit of small files against what checks them by coreutils.

usage: small.py [ROUNDS]

It makes 50,000 files of 1 KiB, 50 an object in five directories, each at a path like
ab/cd/ef/gh/h1/o1/v1/content/d1/001. Each command reads them from the page cache, in turns. The
least CPU time of each command's rounds counts, user and system. Then it counts the program's
system calls, by strace, and its instructions, by valgrind's callgrind, where that is installed.

Instructions are counted over 2,000 files of 1 KiB and then of 9 KiB: what those take more is
hashing, by blocks of SHA-512. What the hashing of files and inventories takes by that is left out.
"""
from __future__ import annotations

import argparse
import os
import re
import shutil
import subprocess
import sys
import tempfile
from typing import Sequence

import contents
import measure

OBJECTS, DIRECTORIES, FILES = 1000, 5, 10
ALL = OBJECTS * DIRECTORIES * FILES
KIB = 1024
# Over how many objects instructions are counted, and how long the longer files are.
FEW, LONGER = 40, 9 * KIB
# The bytes of a block of SHA-512, and what its padding has at least (FIPS 180-4, 5.1.2).
BLOCK, PADDING = 128, 17


def small_files(root: str, objects: int = OBJECTS, size: int = KIB) -> None:
    for number in range(objects):
        above = ["ab", "cd", "ef", "gh", "h%d" % (number % 10), "o%d" % number]
        files = [("v1/content/d%d/%03d" % (inner, file), os.urandom(size))
                 for inner in range(DIRECTORIES) for file in range(FILES)]
        contents.make_object(os.path.join(root, *above), "sha512", files)


def calls(root):
    """How many system calls an audit makes, by their names."""
    with tempfile.NamedTemporaryFile("r") as log:
        command = ["strace", "-f", "-c", "-o", log.name, measure.PROGRAM, "audit", root]
        subprocess.run(command, stdout=subprocess.DEVNULL, check=True)
        table = log.read()
    rows = re.findall(r"^ *[\d.]+ +[\d.]+ +\d+ +(\d+) +(?:\d+ +)?(\w+)$", table, re.M)
    return {name: int(count) for count, name in rows if name != "total"}


def print_calls(root):
    made = calls(root)
    most = sorted(made.items(), key=lambda entry: -entry[1])[:6]
    names = ", ".join("%s %.2f" % (name, count / ALL) for name, count in most)
    print("\nSystem calls a file: %.2f (%s)." % (sum(made.values()) / ALL, names), flush=True)


def instructions(root: str, program: str = measure.PROGRAM) -> int:
    """How many instructions an audit takes, without those of the system."""
    with tempfile.NamedTemporaryFile("r") as counted:
        command = ["valgrind", "--tool=callgrind", "--callgrind-out-file=" + counted.name,
                   program, "audit", root]
        subprocess.run(command, stdout=subprocess.DEVNULL, stderr=subprocess.DEVNULL, check=True)
        return total_of(counted.read())


def total_of(counted: str) -> int:
    """The instructions of all functions together, by what callgrind wrote."""
    found = re.search(r"(?m)^(?:summary|totals): (\d+)$", counted)
    if found is None:
        raise ValueError("callgrind counted nothing")
    return int(found[1])


def blocks_of(size: int) -> int:
    """How many blocks of SHA-512 so many bytes are."""
    return -(-(size + PADDING) // BLOCK)


def beside_hashing(short: int, longer: int, inventories: list[int], files: int) -> float:
    """How many instructions a file takes beside hashing, by those of an audit of so many files of
    1 KiB, those of one of the longer files, and the bytes of the inventories."""
    block = (longer - short) / (files * (blocks_of(LONGER) - blocks_of(KIB)))
    hashed = files * blocks_of(KIB) + sum(map(blocks_of, inventories))
    return (short - block * hashed) / files


def print_instructions() -> None:
    """Prints it, where there is valgrind."""
    if shutil.which("valgrind") is None:
        return
    counts: list[int] = []
    inventories: list[int] = []

    def count(root: str) -> None:
        counts.append(instructions(root))
        inventories[:] = [os.path.getsize(os.path.join(folder, "inventory.json"))
                          for folder, _, names in os.walk(root) if "inventory.json" in names]

    for size in (LONGER, KIB):
        measure.with_root(lambda root, size=size: small_files(root, FEW, size), count)
    longer, short = counts
    files = FEW * DIRECTORIES * FILES
    print("\nInstructions a file: %.0f, of which %.0f are not of hashing."
          % (short / files, beside_hashing(short, longer, inventories, files)), flush=True)


def measured(root: str, rounds: int) -> None:
    list_file = root + ".list"
    find = "find %s -path '*/v1/content/*' -type f -print0 | xargs -0 sha512sum" % root
    with open(list_file, "w") as file:
        subprocess.run(find, shell=True, stdout=file, check=True)
    against = [("sha512sum -c --quiet LIST", "sha512sum -c --quiet %s" % list_file, 1.5),
               ("find -print0 \\| xargs -0 sha512sum", find, 0.75)]
    commands = [measure.audit_of(root), *(command for _, command, _ in against)]
    own, *others = measure.bests(rounds, *(lambda it=it: measure.cpu_of(it) for it in commands))
    os.remove(list_file)
    for (name, _, wanted), other in zip(against, others):
        each = (own * 1e6 / ALL, name, other * 1e6 / ALL, own / other, measure.at_most(wanted))
        print("| 50,000 files of 1 KiB | %.1f | `%s` | %.1f | %.2f | %s |" % each, flush=True)
        measure.note("small", name.replace("\\", ""), own / other, wanted)


def rounds_of(words: Sequence[str]) -> int:
    """How many rounds a command line asks for. Ends with the usage if that is asked, or if the
    words are wrong, before anything is made."""
    parser = argparse.ArgumentParser(
        prog="small.py", description=__doc__, formatter_class=argparse.RawDescriptionHelpFormatter,
        usage=argparse.SUPPRESS)
    parser.add_argument("rounds", metavar="ROUNDS", nargs="?", type=int, default=measure.ROUNDS,
                        help="how often the commands take turns: %(default)s without it")
    return parser.parse_args(words).rounds


def main(words: Sequence[str]) -> None:
    rounds = rounds_of(words)
    measure.head("audit", "microseconds a file", "against", "microseconds a file", "ratio",
                 "wanted")
    measure.with_root(small_files, lambda root: measured(root, rounds), print_calls)
    print_instructions()


if __name__ == "__main__":
    main(sys.argv[1:])
