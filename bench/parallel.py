#!/usr/bin/env python3
"""Measures the wall time of a cycle of 1, 2 and 4 jobs of `nights/parallel/nightly`, against
`xargs -P` with `sha512sum`, on 4 GiB in 4,000 files that it makes, from the page cache. Then it
measures what a part costs beside its reading: the listing of the way, an inventory, its start.
Prints the tables.

usage: parallel.py [MIB [FILES [ROUNDS]]]      4096, 4000 and 3 where they are not given
       parallel.py --pieces                    the second table alone

Build the program first, with ../ocfl-scrub --help. TMPDIR is where the folders are made: /dev/shm,
if it has the room.
"""
import os
import shutil
import subprocess
import sys
import tempfile
import time

import measure
from contents import make_object
from measure import PROGRAM, write

NIGHTS = os.path.abspath(os.path.join(measure.HERE, "..", "nights"))
NIGHTLY = os.path.join(NIGHTS, "parallel", "nightly")
HOW = {**os.environ, "OCFL_SCRUB": PROGRAM}
SIZES = (4096, 4000, 3)
IN_OBJECT = 20


def make_root(folder, size, count):
    """Objects of twenty files each, ten to a directory."""
    write(folder + "/0=ocfl_1.1", b"ocfl_1.1\n")
    block = os.urandom(size)
    for number in range(count // IN_OBJECT):
        files = [("v1/content/%02d" % file, b"%08d" % (number * IN_OBJECT + file) + block[8:])
                 for file in range(IN_OBJECT)]
        make_object("%s/%03d/o-%d" % (folder, number // 10, number), "sha512", files)
    return folder


def timed(words, **how):
    began = time.monotonic()
    done = subprocess.run(words, stdin=subprocess.DEVNULL, stdout=subprocess.DEVNULL,
                          stderr=subprocess.PIPE, **how)
    if done.returncode not in (0, 1):
        sys.exit("%s: status %d: %s" % (words[0], done.returncode, done.stderr.decode()))
    return time.monotonic() - began


def a_cycle(folder, root, jobs, parts=40):
    state = "%s/state-%d" % (folder, jobs)
    seconds = timed([NIGHTLY, "--jobs", str(jobs), "--parts", str(parts), "--state", state,
                     "--create", root], env=HOW)
    if not os.path.exists(state + "/reports/cycle-000001"):
        sys.exit("the cycle of %d jobs has not ended" % jobs)
    shutil.rmtree(state)
    return seconds


def by_xargs(root, jobs):
    """What others call: a batch of files for each process."""
    find = "find '%s' -path '*/content/*' -type f -print0 | xargs -0 -n 50 -P %d sha512sum" % (
        root, jobs)
    return timed(["sh", "-c", find])


def used(words, **how):
    """The CPU time of a command, user and system, with that of all that it starts."""
    return measure.cpu_while(lambda: timed(words, **how))


def median(values):
    return sorted(values)[len(values) // 2]


def walls(folder, mib, count, rounds):
    root = make_root(folder + "/root", mib * 1048576 // count, count)
    by_xargs(root, 4)
    ours, theirs, audits = {1: [], 2: [], 4: []}, {1: [], 2: [], 4: []}, []
    for _ in range(rounds):
        for jobs in ours:
            ours[jobs].append(a_cycle(folder, root, jobs))
            theirs[jobs].append(by_xargs(root, jobs))
        audits.append(timed([PROGRAM, "audit", root]))
    print("| jobs | seconds | times as fast as one | `xargs -P`, seconds | ratio |")
    print("|---|---|---|---|---|")
    for jobs in ours:
        print("| %d | %.2f | %.2f | %.2f | %.2f |" % (
            jobs, median(ours[jobs]), median(ours[1]) / median(ours[jobs]), median(theirs[jobs]),
            median([a / b for a, b in zip(ours[jobs], theirs[jobs])])))
    print("\n`audit` alone: %.2f seconds; load of the machine: %s" % (
        median(audits), " ".join("%.1f" % load for load in os.getloadavg())))
    shutil.rmtree(root)


def cursor_text(place):
    """A part's cursor after a place."""
    text = ("ocfl-scrub part cursor 1\nfrom start\nbelow end\ncycle 1\nruns 1\nspent 1\nfiles 1\n"
            "after %s\n" % place).encode()
    return text + ("digest %s\n" % measure.digest("sha256", text)).encode()


def a_run(folder, root, place):
    """A run of one file from a cursor after a place."""
    cursor, parts = folder + "/cursor", folder + "/none"
    write(parts, b"")

    def run():
        write(cursor, cursor_text(place))
        return used([PROGRAM, "run", "--parts", parts, "--part", "1", "--cursor", cursor,
                     "--budget", "1", root])

    return min(run() for _ in range(5))


def make_flat(folder, count):
    """A flat root of so many names, its declaration one of them; an object is in the middle. More
    than 1,000,000 would stop a run."""
    write(folder + "/0=ocfl_1.1", b"ocfl_1.1\n")
    for number in range(count - 1):
        os.mkdir("%s/o-%07d" % (folder, number))
    files = [("v1/content/a", b"a"), ("v1/content/b", b"b")]
    make_object("%s/o-%07d" % (folder, count // 2), "sha512", files)
    return folder


def start_of_a_part(folder, root):
    """What `nights/parallel/part` takes before the program begins."""
    state, part = folder + "/state", os.path.join(NIGHTS, "parallel", "part")
    timed([os.path.join(NIGHTS, "parallel", "begin"), "--create", "--parts", "2", "--state", state,
           root], env=HOW)
    return min(used([part, "--state", state, "--part", "1", root],
                    env={**HOW, "OCFL_SCRUB": "/bin/true"}) for _ in range(5))


def pieces(folder, many=1000000):
    """What a run and the start of a part cost beside the reading, in CPU time."""
    small = make_root(folder + "/small", 64, 2000)
    run = a_run(folder, small, "009/o-95/v1/content/01")
    start = start_of_a_part(folder, small)
    shutil.rmtree(small)
    flat = make_flat(folder + "/flat", many)
    way = a_run(folder, flat, "o-%07d/v1/content/a" % (many // 2)) - run
    shutil.rmtree(flat)
    print("\n| piece | CPU, seconds |")
    print("|---|---|")
    print("| a run of one small file from a cursor, with the way there and one inventory | %.4f |"
          % run)
    print("| the way in a flat root of 1,000,000 objects, more than that | %.2f |" % way)
    print("| the start of a part by `parallel/part` | %.3f |" % start)


def main():
    folder = tempfile.mkdtemp(prefix="ocfl-scrub-bench-")
    try:
        if sys.argv[1:] != ["--pieces"]:
            given = [int(word) for word in sys.argv[1:]]
            mib, files, rounds = (*given, *SIZES[len(given):])
            walls(folder, mib, files, rounds)
        pieces(folder)
    finally:
        shutil.rmtree(folder, ignore_errors=True)


if __name__ == "__main__":
    main()
