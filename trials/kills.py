#!/usr/bin/env python3
"""Kills runs of the program at many moments, and looks at what is left.

usage: kills.py [SEED]

Over a cycle 200 runs are killed at random moments, and 200 more by strace at the entry of a system
call: at each call that stores the cursor, and at random ones. After each the cursor's file is a
cursor, of before the run or of after it, and what the runs wrote that moved it, joined, is the
audit.

Tried, and what comes of it:

- 200 runs of `run --cursor`, over a cycle of files of 0 to 5,000,000 bytes, each killed at a
  random moment: the cursor file is that of before the run or of after it; what the runs that
  moved it wrote, joined, is the audit; the lines of the others are repeated.
- 200 more killed by `strace` at the entry of a system call: each one that stores a cursor, and
  random others: the cursor file is that of before the run or of after it; what the runs that
  moved it wrote, joined, is the audit; the lines of the others are repeated.
"""
import os
import random
import sys

import common
from common import check
from shared.kills import Cycle, exact_moments, random_moments

KILLS = 200
SIZES = [0, 1, 1_000, 65_535, 65_536, 65_537, 200_000]
LARGE = [1_000_000, 2_500_000, 5_000_000]
DICE = random.Random(int(sys.argv[1]) if len(sys.argv) > 1 else 20)


def make_files(sizes):
    """Three objects with two files of each size."""
    objects = {"a": {}, "b/c": {}, "d": {}}
    for number, size in enumerate(sizes * 2):
        files = objects[["a", "b/c", "d"][number % 3]]
        files["v1/content/%02d" % number] = DICE.randbytes(size)
    return objects


def kill_at_random(folder, root, items):
    cycle = Cycle(folder, "random", ["--budget", "2M", root], items)
    print("kills.py: %d of %d runs killed at random moments" % random_moments(cycle, KILLS, DICE))


def kill_at_calls(folder, root, items):
    cycle = Cycle(folder, "exact", ["--budget", "150K", root], items)
    kills, moments = exact_moments(cycle, KILLS, DICE)
    print("kills.py: %d runs killed at calls, of %d moments" % (kills, moments))
    check("so many moments", moments, KILLS)


def check_all(folder):
    for kill, name, sizes in [(kill_at_random, "large", SIZES + LARGE),
                              (kill_at_calls, "small", SIZES)]:
        objects = make_files(sizes)
        root = common.make_root(os.path.join(folder, name), objects)
        before = common.snapshot(root)
        kill(folder, root, common.sound(objects))
        check("nothing was written below the root", common.snapshot(root) == before, True)


common.run_trial(check_all, needs=["strace"])
