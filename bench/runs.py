#!/usr/bin/env python3
"""Times one run in the middle of a storage root, and of one that is ten times as large, at the same
budget.

usage: runs.py

The objects have one file of 100 bytes each. In the first two roots they lie ten to a directory,
three or four directories deep; a run lists the way to its cursor and reads one inventory before
its first item, so the two should cost the same. In the other two, which are flat, all objects lie
in the root itself; there a run looks at each of them. Prints the CPU time of a run in
milliseconds, the mean of 40, in turns, and what one more object of a flat root costs.
"""
import os
import shutil
import subprocess
import sys
import tempfile

import measure
from measure import write

ROUNDS = 40
INVENTORY = b'{"digestAlgorithm":"sha512","manifest":{"%s":["v1/content/f"]}}'


def make_object(folder, number):
    data = (b"%d " % number).ljust(100, b".")
    inventory = INVENTORY % measure.digest("sha512", data).encode()
    sidecar = measure.digest("sha512", inventory) + " inventory.json\n"
    write(os.path.join(folder, "0=ocfl_object_1.1"), b"ocfl_object_1.1\n")
    write(os.path.join(folder, "inventory.json"), inventory)
    write(os.path.join(folder, "inventory.json.sha512"), sidecar.encode())
    write(os.path.join(folder, "v1/content/f"), data)


def make_root(folder, digits, is_flat=False):
    """A root of so many objects, as 10 has noughts."""
    write(os.path.join(folder, "0=ocfl_1.1"), b"ocfl_1.1\n")
    for number in range(10**digits):
        name = "%0*d" % (digits, number)
        make_object(os.path.join(folder, *([name] if is_flat else name)), number)
    return folder


def run_of(cursor, budget, root):
    words = (measure.PROGRAM, cursor, budget, root)
    return "exec %s run --cursor %s --budget %d %s 2> /dev/null" % words


def in_the_middle(folder, root, objects):
    """A call that times a run from a cursor in the middle of a root."""
    middle, cursor = root + ".middle", os.path.join(folder, "cursor")
    subprocess.run(run_of(middle, 101 * objects // 2, root), shell=True, check=True,
                   stdout=subprocess.DEVNULL)

    def timed():
        shutil.copyfile(middle, cursor)
        return measure.cpu_of(run_of(cursor, 5000, root))
    return timed


def means(calls):
    """The means of calls that take turns, in milliseconds."""
    rounds = [[call() for call in calls] for _ in range(ROUNDS)]
    return [1000 * sum(column) / ROUNDS for column in zip(*rounds)]


def main():
    folder = tempfile.mkdtemp(prefix="ocfl-scrub-bench-")
    try:
        calls = []
        for is_flat in (False, True):
            for digits in (3, 4):
                root = os.path.join(folder, "root-%d-%d" % (is_flat, digits))
                make_root(root, digits, is_flat)
                calls.append(in_the_middle(folder, root, 10**digits))
        few, many, few_flat, many_flat = means(calls)
    finally:
        shutil.rmtree(folder)
    each = (many_flat - few_flat) * 1000 / 9000
    measure.head("root", "1,000 objects, ms", "10,000 objects, ms", "ratio", "wanted")
    print("| ten to a directory | %.2f | %.2f | %.2f | at most 1.10 |" % (few, many, many / few))
    print("| flat | %.2f | %.2f | %.2f | |" % (few_flat, many_flat, many_flat / few_flat))
    print("\nOne more object in a flat root costs a run %.2f microseconds." % each)
    measure.note("runs", "ten to a directory", many / few, 1.1)
    measure.note("runs", "flat", many_flat / few_flat)
    measure.note("runs", "microseconds for one more object in a flat root", each)


if __name__ == "__main__":
    sys.exit(main())
