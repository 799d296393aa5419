#!/usr/bin/env python3
"""Refuses each growth of memory in turn, and compares what comes with what a stop may leave.

usage: refusals.py

The calls that take memory are those of the C library: `refusals.c` stands before it.

Tried, and what comes of it:

- Each call that takes memory refused in turn, before the C library: audits, cycles, runs and a
  check of each place with a line on five roots, a branch, a part and its runs, both kinds of
  splits, a shown cursor and a shown checkpoint, and a cursor file inside the root: `out of
  memory`, status 3, whole items and a cursor that goes on, or the same as without; nothing is
  written inside the root. Where the run needed the memory, from its first listing to its last
  line, the cursor file is that of one run more.

Seen to fail on these faults, each planted alone:

- A run that memory stopped hands back no text of its cursor.
- Memory that is refused for the place of `--under`, for separators, for the ends of a part, or
  for a split, is told as something else.
"""
import json
import os
import subprocess

import common
from common import (PROGRAM, checkpoint_text, digest, check, make_object, make_root, note,
                    put_inventory, shown_cursor, sound, write)
from shared.shims import compiled

OUT_OF_MEMORY = note("out of memory")


class Refusing:
    """Runs of the program of which each lacks memory at one call."""

    def __init__(self, folder):
        self.flag = os.path.join(folder, "refused")
        self.noted = os.path.join(folder, "span")
        self.library = compiled(folder, "refusals")

    def ran(self, words, call):
        """Status, output and note of a run whose call of that number is refused, and whether it
        came to that call."""
        environment = {**os.environ, "LD_PRELOAD": self.library, "REFUSED_FILE": self.flag,
                       "REFUSED_CALL": str(call), "SPAN_FILE": self.noted}
        done = subprocess.run([PROGRAM, *words], stdin=subprocess.DEVNULL, capture_output=True,
                              timeout=60, env=environment)
        refused = os.path.exists(self.flag)
        if refused:
            os.remove(self.flag)
        return (done.returncode, done.stdout.decode(), done.stderr.decode()), refused

    def span(self, words):
        """The calls from the first read of a folder to the last line of the report, in a run of
        which none is refused."""
        self.ran(words, 0)
        first, last = map(int, common.read(self.noted).split())
        return range(first + 1, last + 1) if first >= 0 else range(0)

    def each(self, words, before=lambda: None):
        """What comes of each refusal; `before` is called before each run."""
        for call in range(1, 100_000):
            before()
            came, refused = self.ran(words, call)
            if not refused:
                return
            yield call, came


def beginnings(items):
    """The texts of the first items, of none to all."""
    return {"".join(items[:count]) for count in range(len(items) + 1)}


def commands_without_a_cursor(refusing, name, root, items):
    """An audit, a cycle and a check of each place write whole items and stop, or do not need what
    was refused."""
    cycle = ["cycle", "--budget", "1T", "--runs", "2", root]
    cost = common.ran(cycle)[2]
    tried = [("audit", ["audit", root], items, "", 100), ("cycle", cycle, items, cost, 100)]
    for item in items:
        place = item.split("\t")[1]
        tried.append(("check of " + place, ["check", root, place], [item], "", 30))
    for what, words, written, summary, least in tried:
        found = int(any(not item.startswith("ok") for item in written))
        without = found, "".join(written), summary
        check_each_refusal(refusing, "%s, %s" % (name, what), words, written, without, least)


def check_each_refusal(refusing, name, words, written, without, least):
    """After each refusal whole pieces were written and the program stopped for memory, or all is
    as without. There are more refusals than `least`."""
    odd, calls = [], 0
    for calls, (status, out, said) in refusing.each(words):
        stops = status == 3 and said == OUT_OF_MEMORY and out in beginnings(written)
        if not stops and (status, out, said) != without:
            odd.append((calls, status, out, said))
    check("%s: each of %d refusals" % (name, calls), odd, [])
    check("%s: there are refusals" % name, calls > least, True)


def parts_and_splits(refusing, folder):
    """What reads a branch, separators or a report tells refused memory as such, and so does a
    split by listing."""
    objects = {name: {"v1/content/f": ABC} for name in ("o1", "o2", "o3")}
    root, items = make_root(os.path.join(folder, "parts root"), objects), sound(objects)
    report = write(os.path.join(folder, "report"), "".join(items).encode())
    by_report = ["split", "--budget", "1", "--report", report]
    part = ["--parts", write(os.path.join(folder, "parts"), b"o2\n"), "--part", "2"]
    for name, words, written in [
        ("a branch", ["audit", "--under", "o2", root], items[3:5]),
        ("a part", ["audit", *part, root], items[3:]),
        ("a split by listing", ["split", "--parts", "3", root], ["o2\no3\n"]),
        ("a split by a report", by_report, ["o2/v1/content/f\no3/v1/content/f\n"]),
    ]:
        check_each_refusal(refusing, name, words, written, (0, "".join(written), ""), 10)
    runs_with_a_cursor(refusing, folder, "a part", root, part)


def runs_with_a_cursor(refusing, folder, name, root, choice=()):
    """After each refusal the cursor file is whole, and the next run goes on where it stands.

    Where the run itself wanted what was refused, there is memory for the text of its cursor, and
    the file is that of one run more.
    """
    file = os.path.join(folder, "cursor")
    words = ["run", "--cursor", file, "--budget", "4", *choice, root]
    whole = ["run", "--cursor", file, "--budget", "1T", *choice, root]

    def begin():
        for each in (file, file + ".ocfl-scrub.new"):
            if os.path.exists(each):
                os.remove(each)
        common.ran(words)

    begin()
    first = common.read(file)
    went = common.ran(whole)[1]
    begin()
    inside = refusing.span(words)
    odd, stays, calls = [], [], 0
    for calls, (status, out, said) in refusing.each(words, begin):
        kept = common.read(file) == first
        has_ended = not kept and shown_cursor(file).endswith("\nended\n")
        rest = ""
        if not has_ended:
            rest = common.ran(whole)[1]
        joined = rest if kept else out + rest
        is_told = status in (0, 1) or status == 3 and said == OUT_OF_MEMORY
        if joined != went or not is_told or os.path.exists(file + ".ocfl-scrub.new"):
            odd.append((calls, status, out, said, rest))
        if kept and calls in inside:
            stays.append((calls, status, out, said))
    check("%s, run: each of %d refusals" % (name, calls), odd, [])
    check("%s, run: the file moves at %d refusals in the run" % (name, len(inside)), stays, [])
    check("%s, run: there are refusals in the run" % name, 20 < len(inside) < calls, True)


def refused_before_it_writes(refusing, folder, root):
    """A cursor file in the storage root is never made, whatever memory lacks."""
    file = os.path.join(root, "cursor")
    odd = []
    run = ["run", "--cursor", file, "--budget", "4", root]
    for call, (status, out, said) in refusing.each(run):
        if os.path.exists(file) or os.path.exists(file + ".ocfl-scrub.new") or status not in (2, 3):
            odd.append((call, status, out, said))
            for each in (file, file + ".ocfl-scrub.new"):
                if os.path.exists(each):
                    os.remove(each)
    check("nothing is written into the root", odd, [])


def shown(refusing, folder, root):
    """What is shown of a cursor or of a checkpoint is whole, or nothing."""
    file = os.path.join(folder, "shown")
    common.ran(["run", "--cursor", file, "--budget", "4", root])
    checkpoint = write(os.path.join(folder, "checkpoint"), checkpoint_text())
    for name, shown in [("cursor", file), ("checkpoint", checkpoint)]:
        text = shown_cursor(shown)
        check("a %s is shown" % name, isinstance(text, str), True)
        odd = []
        for call, (status, out, said) in refusing.each(["show", shown]):
            if (status, out, said) not in [(0, text, ""), (3, "", OUT_OF_MEMORY)]:
                odd.append((call, status, out, said))
        check("a %s that is shown" % name, odd, [])


ABC, NOTHING = b"abc", b""
ROOTS = {
    "one object": {"o": {"v1/content/f": ABC}},
    "three files": {"o": {"v1/content/a": ABC, "v1/content/b": NOTHING, "v1/content/c": ABC}},
    "three objects": {name: {"v1/content/f": ABC} for name in ("o1", "o2", "o3")},
}


def missing_and_there(root):
    """One file is missing, and one is there."""
    write(os.path.join(root, "0=ocfl_1.1"), b"ocfl_1.1\n")
    listed = {"v1/content/a": NOTHING, "v1/content/b": ABC}
    make_object(os.path.join(root, "o"), {"v1/content/b": ABC}, listed)
    return ["ok\t.\t-\n", "ok\to\t-\n", "E092\to/v1/content/a\tsha256 missing\n",
            "ok\to/v1/content/b\t3\n"]


def under_four_algorithms(root):
    """A file that the manifest names by one algorithm, and fixity by three others."""
    make_root(root, {"o": {"v1/content/f": NOTHING}})
    named = {name: {digest(NOTHING, name): ["v1/content/f"]} for name in ("md5", "sha1", "sha512")}
    manifest = {digest(NOTHING): ["v1/content/f"]}
    inventory = {"digestAlgorithm": "sha256", "manifest": manifest, "fixity": named}
    put_inventory(os.path.join(root, "o"), json.dumps(inventory).encode())
    return sound({"o": {"v1/content/f": NOTHING}})


def main(folder):
    refusing = Refusing(folder)
    tried = {}
    for name, objects in ROOTS.items():
        tried[name] = make_root(os.path.join(folder, name), objects), sound(objects)
    for name, make in [("four algorithms", under_four_algorithms),
                       ("a missing file", missing_and_there)]:
        root = os.path.join(folder, name)
        tried[name] = root, make(root)
    for name, (root, items) in tried.items():
        commands_without_a_cursor(refusing, name, root, items)
        runs_with_a_cursor(refusing, folder, name, root)
    refused_before_it_writes(refusing, folder, root)
    shown(refusing, folder, root)
    parts_and_splits(refusing, folder)


if __name__ == "__main__":
    common.run_trial(main)
