"""Killing runs of a cycle, at random moments and by strace at the entry of system calls, and what
is left after each: a cursor of before the run or of after it, and lines that join to the audit."""
import os
import shutil
import signal
import time

import common
from common import end, check, ran, read, start, traced


class Cycle:
    """A cycle over a root or a part of it, with the cursor's file in a folder of its own.

    `words` are those of a run but its cursor, and `items` what the cycle writes.
    """

    def __init__(self, folder, name, words, items):
        self.folder = os.path.join(folder, name)
        os.mkdir(self.folder)
        self.file = os.path.join(self.folder, "cursor")
        self.out = os.path.join(folder, name + "-out")
        self.run = ["run", "--cursor", self.file, *words]
        self.items = items
        self.places = [item.split("\t")[1] for item in items]

    def stored(self):
        """The bytes of the cursor's file, or None where there is none."""
        return read(self.file) if os.path.exists(self.file) else None

    def behind(self):
        """How many items stand before the cursor; none at the end of a cycle too."""
        if not os.path.exists(self.file):
            return 0
        shown = common.shown_cursor(self.file)
        check("a cursor", isinstance(shown, str), True)
        last = shown.splitlines()[-1]
        return 0 if last in ("start", "ended") else self.places.index(last[len("after "):]) + 1

    def has_ended(self):
        return os.path.exists(self.file) and b"\nended\n" in read(self.file)

    def moved(self, name, stored, before, written):
        """After a killed run: whether it left another cursor; what it wrote fits either way."""
        if self.stored() == stored:
            # it may have been killed after any item
            ends = range(before, len(self.items) + 1)
            beginnings = ["".join(self.items[before:end]) for end in ends]
            check(name, written in beginnings, True)
            return False
        after = len(self.items) if self.has_ended() else self.behind()
        check(name + ", after the run", written, "".join(self.items[before:after]))
        return True


def killed(cycle, seconds):
    """Kills a run after so many seconds: whether it was still there, and what it wrote."""
    with open(cycle.out, "wb") as out:
        process = start(cycle.run, stdout=out)
        time.sleep(seconds)
        os.kill(process.pid, signal.SIGKILL)
        status, _, _ = end(process)
    return status == -signal.SIGKILL, read(cycle.out).decode()


def random_moments(cycle, least, dice):
    """Each run of a cycle is killed some times and then made; until there were `least` kills.

    Gives how many there were, and how many runs."""
    begun = time.monotonic()
    count = len(common.nights(cycle.run))
    length = (time.monotonic() - begun) / count
    kills, joined, runs = 0, "", 0
    while (kills < least or joined) and runs < 20 * least:
        runs += 1
        if kills < least and runs % (least // count + 1) > 0:
            stored, before = cycle.stored(), cycle.behind()
            is_killed, written = killed(cycle, dice.uniform(0, length))
            kills += is_killed
            if cycle.moved("random kill %d" % kills, stored, before, written):
                joined += written
        else:
            joined += ran(cycle.run)[1]
        if joined and cycle.has_ended():
            check("joined after random kills, run %d" % runs, joined, "".join(cycle.items))
            joined = ""
    check("random kills", kills >= least, True)
    return kills, runs


def calls_of(cycle):
    """The system calls of each run of a cycle, and the bytes of the cursor's file before each."""
    calls, cursors = [], []
    log = cycle.out + "-log"
    for _ in range(100):
        cursors.append(cycle.stored())
        _, _, said = traced([], cycle.run, log)
        calls.append(read(log).decode(errors="replace").splitlines())
        if not said.endswith(", open\n"):
            break
    return calls, cursors


def moments_of(calls, most, dice):
    """Moments: a run, a call, and how often it is made by then.

    All calls that store a cursor are among them, and random ones; `most` together, where that is
    more than store a cursor.
    """
    storing, others = [], []
    for number, lines in enumerate(calls):
        counts, is_storing = {}, False
        for text in lines[1:]:
            call = text.split("(")[0]
            counts[call] = counts.get(call, 0) + 1
            is_storing = is_storing or "cursor.ocfl-scrub.new" in text
            (storing if is_storing else others).append((number, call, counts[call]))
    return storing + dice.sample(others, max(0, min(len(others), most - len(storing))))


def exact_moment(cycle, stored, moment):
    """Kills a run at a moment, makes the rest of the cycle, and gives whether it was killed."""
    number, call, count = moment
    shutil.rmtree(cycle.folder)
    os.mkdir(cycle.folder)
    if stored is not None:
        common.write(cycle.file, stored)
    before = cycle.behind()
    with open(cycle.out, "wb") as out:
        rules = ["-e", "inject=%s:signal=KILL:when=%d" % (call, count)]
        status, _, _ = traced(rules, cycle.run, stdout=out)
    name = "kill in run %d at %s %d" % (number + 1, call, count)
    joined = "".join(cycle.items[:before])
    written = read(cycle.out).decode()
    if cycle.moved(name, stored, before, written):
        joined += written
    if not cycle.has_ended():
        joined += "".join(common.nights(cycle.run))
    check(name + ": joined", joined, "".join(cycle.items))
    # a cycle that was ended by the killed run may leave what it wrote beside the file
    left = set(os.listdir(cycle.folder)) - {"cursor.ocfl-scrub.new"}
    check(name + ": what is left", left, {"cursor"})
    return status == -signal.SIGKILL


def exact_moments(cycle, most, dice):
    """Kills a run at each of these moments. Gives how many were killed, and how many moments."""
    calls, cursors = calls_of(cycle)
    moments = moments_of(calls, most, dice)
    kills = sum(exact_moment(cycle, cursors[moment[0]], moment) for moment in moments)
    check("kills at calls", kills, len(moments))
    return kills, len(moments)
