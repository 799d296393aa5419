#!/usr/bin/env python3
"""Measures one build of the program against another, on the same folders, which it makes.

usage: compare.py BEFORE [NOW]     (two programs; NOW is the one that is built if not given)

Each row is one storage root, read from the page cache. The two programs take turns, and begin in
turns; a row gives the medians of their CPU time, user and system, and of the ratios of the pairs.
The last row is a run from a cursor in the middle: means, and their ratio.
"""
import os
import shutil
import statistics
import subprocess
import sys
import tempfile

import audit
import contents
import measure
import runs
import small

ROUNDS = 5
RUNS = 40


def in_turns(rounds, before, now):
    """The CPU seconds of both, as pairs."""
    pairs = []
    for number in range(rounds):
        if number % 2:
            second = now()
            pairs.append((before(), second))
        else:
            first = before()
            pairs.append((first, now()))
    return pairs


def print_row(title, before, now, ratio):
    print("| %s | %.4f | %.4f | %.2f |" % (title, before, now, ratio), flush=True)


def audits(title, make, programs):
    def measured(root):
        commands = ["exec %s audit %s" % (program, root) for program in programs]
        turns = [lambda command=command: measure.cpu_of(command) for command in commands]
        for turn in turns:
            turn()
        pairs = in_turns(ROUNDS, *turns)
        medians = [statistics.median(column) for column in zip(*pairs)]
        print_row(title, *medians, statistics.median(now / before for before, now in pairs))

    measure.with_root(make, measured)


def middles(programs):
    folder = tempfile.mkdtemp(prefix="ocfl-bench-")
    try:
        root = runs.make_root(os.path.join(folder, "root"), 4)
        middle = os.path.join(folder, "middle")
        half = ["run", "--cursor", middle, "--budget", str(101 * 10**4 // 2), root]
        subprocess.run([programs[0], *half], capture_output=True, check=True)

        def ran(program):
            cursor = os.path.join(folder, "cursor")
            shutil.copyfile(middle, cursor)
            command = "exec %s run --cursor %s --budget 5000 %s 2> /dev/null"
            return measure.cpu_of(command % (program, cursor, root))

        turns = [lambda program=program: ran(program) for program in programs]
        means = [statistics.mean(column) for column in zip(*in_turns(RUNS, *turns))]
        print_row("a run in the middle of 10,000 objects", *means, means[1] / means[0])
    finally:
        shutil.rmtree(folder)


def main():
    if len(sys.argv) not in (2, 3):
        sys.exit(__doc__)
    programs = [os.path.abspath(word) for word in (*sys.argv[1:], measure.PROGRAM)[:2]]
    others = ("md5", "sha1", "sha256")
    print("| folder | before, seconds | now, seconds | ratio |")
    print("|---|---|---|---|")
    audits("2 files of 256 MiB, sha512",
           lambda root: contents.large_files(root, "sha512"), programs)
    audits("2 files of 256 MiB, sha256",
           lambda root: contents.large_files(root, "sha256"), programs)
    audits("the same, sha512 with md5, sha1 and sha256 in fixity",
           lambda root: contents.large_files(root, "sha512", others), programs)
    audits("20,000 files of 1 KiB in 200 objects, depth 8", contents.small_files, programs)
    audits("50,000 files of 1 KiB in 1,000 objects, ten to a directory", small.small_files,
           programs)
    audits("one object of 100,000 files, all listed",
           lambda root: audit.make_object(os.path.join(root, "o"), 100, 100000, 100000), programs)
    audits("one directory of 1,000,000 files, none listed",
           lambda root: audit.make_object(os.path.join(root, "o"), 1, 1000000, 0), programs)
    audits("100,000 objects of one file",
           lambda root: audit.many_objects(root, 100000), programs)
    middles(programs)


if __name__ == "__main__":
    main()
