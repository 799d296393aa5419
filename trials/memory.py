#!/usr/bin/env python3
"""Measures the peak of the program's memory, and takes memory away from it.

usage: memory.py

The peaks are those of resident memory, in MiB.

Tried, and what comes of it:

- A limit on address space from 4 to 164 MiB, with an inventory of 32 MiB: not loaded; or `out of
  memory`, status 3, with whole items and a cursor that goes on; or all of it. At 40 MiB the
  smaller object before it is reported.
- Peak over 100,000 files in 1,000 objects, and over 1,000 in 10: the first is at most 8 MiB
  higher.
- Peak over one object of 100,000 files: at most a tenth above the figure in
  [bench/README.md](../bench/README.md).
"""
import json
import os
import resource
import shutil
import subprocess
import time

import common
from common import PROGRAM, check, line, note, put_inventory, ran, shown_cursor, write

MIB = 1024 * 1024
# A tenth more than bench/README.md gives for an audit of one object of 100,000 files, in MiB.
ONE_INVENTORY = 82


def peak_of(words):
    """The status of the program, how many lines it wrote, and its peak in MiB.

    The peak is read while it runs, every few milliseconds: what is told at its end counts the
    memory of this script too, from which it was started.
    """
    process = subprocess.Popen([PROGRAM, *words], stdout=subprocess.PIPE)
    count, peak, looked = 0, 0, 0
    for part in iter(lambda: os.read(process.stdout.fileno(), MIB), b""):
        count += part.count(b"\n")
        if time.monotonic() - looked > 0.005:
            looked = time.monotonic()
            peak = max(peak, high_water(process.pid))
    return process.wait(common.LIMIT), count, peak / 1024


def high_water(pid):
    """The peak of a process until now, in KiB; 0 where it has ended."""
    try:
        for text in common.read("/proc/%d/status" % pid).decode().splitlines():
            if text.startswith("VmHWM:"):
                return int(text.split()[1])
    except (FileNotFoundError, ProcessLookupError):
        pass
    return 0


def make_one(folder, files, folders):
    """An object of so many files, spread over so many directories."""
    manifest = {}
    for number in range(folders):
        os.makedirs(os.path.join(folder, "v1/content/%d" % number))
    for number in range(files):
        path, data = "v1/content/%d/%07d" % (number % folders, number), b"%d\n" % number
        with open(os.path.join(folder, path), "wb") as file:
            file.write(data)
        manifest[common.digest(data, "sha512")] = [path]
    inventory = {"digestAlgorithm": "sha512", "manifest": manifest}
    put_inventory(folder, json.dumps(inventory).encode(), "sha512")


def make(root, objects, files, folders=1):
    """Objects of so many files each, ten objects to a directory; all have the same files."""
    write(os.path.join(root, "0=ocfl_1.1"), b"ocfl_1.1\n")
    first = os.path.join(root, "000", "00000")
    make_one(first, files, folders)
    for number in range(1, objects):
        folder = os.path.join(root, "%03d" % (number // 10), "%05d" % number)
        shutil.copytree(first, folder, copy_function=os.link)
    return root


def many_objects(folder):
    """A hundred times as many files in a hundred times as many objects take 8 MiB more at most."""
    peaks = []
    for objects in [10, 1000]:
        root = make(os.path.join(folder, "objects"), objects, 100)
        status, count, peak = peak_of(["audit", root])
        shutil.rmtree(root)
        check("%d objects of 100 files" % objects, (status, count), (0, 1 + 101 * objects))
        peaks.append(peak)
    print("memory.py: %.1f MiB over 10 objects of 100 files, %.1f over 1,000" % tuple(peaks))
    check("8 MiB more at most", peaks[1] - peaks[0] <= 8, True)


def one_inventory(folder):
    root = make(os.path.join(folder, "one"), 1, 100_000, 100)
    status, count, peak = peak_of(["audit", root])
    print("memory.py: %.1f MiB over one object of 100,000 files" % peak)
    check("one object of 100,000 files", (status, count), (0, 100_002))
    check("its peak is about that of bench/README.md", peak <= ONE_INVENTORY, True)
    shutil.rmtree(root)


def limited(size):
    return lambda: resource.setrlimit(resource.RLIMIT_AS, (size, size))


def small_and_large(folder):
    """An object, and one with an inventory of 32 MiB, of which most is one text."""
    root = common.make_root(os.path.join(folder, "large"), {"a": {"v1/content/f": b"abc"}})
    manifest = {common.digest(b"abc"): ["v1/content/f"]}
    inventory = {"digestAlgorithm": "sha256", "manifest": manifest, "message": "m" * 32 * MIB}
    write(os.path.join(root, "b/v1/content/f"), b"abc")
    put_inventory(os.path.join(root, "b"), json.dumps(inventory).encode())
    items = [line("ok", "."), line("ok", "a"), line("ok", "a/v1/content/f", 3), line("ok", "b"),
             line("ok", "b/v1/content/f", 3)]
    return root, items


def too_small(folder):
    """Under limits of address space: the program ends well, or stops after what it reported."""
    root, items = small_and_large(folder)
    file = os.path.join(folder, "cursor")
    run = ["run", "--cursor", file, "--budget", "1G", root]
    check("without a limit", ran(run)[:2], (0, "".join(items)))
    stops = 0
    for size in range(4, 168, 8):
        name = "%d MiB of address space" % size
        if os.path.exists(file):
            os.remove(file)
        status, out, said = ran(run, preexec_fn=limited(size * MIB))
        if status in (126, 127) and not said.startswith("ocfl-scrub: ") and not out:
            # the program was not loaded
            continue
        if status == 0:
            check(name, out, "".join(items))
            continue
        stops += 1
        check(name, (status, said), (3, note("out of memory")))
        check(name + ": whole items", "".join(items).startswith(out) and out[-1:] in "\n", True)
        if os.path.exists(file):
            check(name + ": a cursor", isinstance(shown_cursor(file), str), True)
            check(name + ": joined", out + ran(run)[1], "".join(items))
    check("some limit was too small", stops > 0, True)


def low_object_first(folder):
    """With room for the first object and not for the second, the first is reported and kept."""
    root = os.path.join(folder, "large")
    file = os.path.join(folder, "low")
    run = ["run", "--cursor", file, "--budget", "1G", root]
    status, out, said = ran(run, preexec_fn=limited(40 * MIB))
    items = "".join([line("ok", "."), line("ok", "a"), line("ok", "a/v1/content/f", 3)])
    check("an inventory is too large", (status, out, said), (3, items, note("out of memory")))
    shown = "cycle 1\nruns 1\nspent 4\nfiles 1\nafter a/v1/content/f\n"
    check("the cursor is after the small object", shown_cursor(file), shown)
    rest = line("ok", "b") + line("ok", "b/v1/content/f", 3)
    check("with room it goes on", ran(run), (0, rest, note("cycle 1, run 2, cost 4, ended")))


def check_all(folder):
    many_objects(folder)
    one_inventory(folder)
    too_small(folder)
    low_object_first(folder)


common.run_trial(check_all)
