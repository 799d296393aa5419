#!/usr/bin/env python3
"""Kills the program's own nights at each call that touches their folder, and at random moments.

usage: night_kills.py [SEED]

A first night, one that goes on and one that takes up what a killed one left are each killed by
strace at the entry of each call of the system that touches the state folder or standard output; and
200 nights are killed at random moments. After each the nights that follow close a report that is
the audit, byte for byte, and each finding was said by one of them or by the killed one.

Tried, and what comes of it:

- A first night, one that goes on, and those that take up what a killed one left within a run and
  before, within and after a closing, each killed at the entry of each call that touches the state
  folder or standard output; 200 nights killed at random moments: the nights that follow close a
  report that is the audit, byte for byte, and each finding was said.

Seen to fail on these faults, each planted alone:

- What is said goes out at the end, after the checkpoint that says so.
- A report is not cut.
"""
import os
import random
import shutil
import signal
import sys
import time

import common
from common import end, check, start, traced
from shared.own_nights import SLICE, Audited, Moment, Nights, at_once, make_root, recorded

KILLS = 200
DICE = random.Random(int(sys.argv[1]) if len(sys.argv) > 1 else 20)
PLAN = ["--create", "--slice", SLICE]


class Before:
    """A state folder as it is before a night that is killed, what was said until then, and which of
    the night's calls are of interest: those until its checkpoint was put so often, or all."""

    def __init__(self, name: str, nights: Nights, said: str, most: int = 0) -> None:
        self.name, self.nights, self.said, self.most = name, nights, said, most
        self.kept = nights.state + "-" + name
        if os.path.exists(nights.state):
            shutil.copytree(nights.state, self.kept)

    def moments(self, log: str) -> list[Moment]:
        self.nights.again(self.kept)
        moments = recorded(self.nights, log, *PLAN)
        puts = [at for at, it in enumerate(moments) if it.call.startswith("rename")]
        return moments[:puts[self.most - 1] + 3] if self.most else moments


def is_readable(nights: Nights) -> bool:
    """Whether a killed night left no checkpoint, or one that can be shown."""
    return nights.has("checkpoint") is None or isinstance(nights.shown(), str)


def killed_at(audited: Audited, before: Before, nights: Nights, moment: Moment) -> tuple:
    """Kills a night at a moment. Gives whether it was killed, and whether all holds after it."""
    nights.again(before.kept)
    status, said, _ = traced(moment.rule("signal=KILL"), nights.words(*PLAN))
    readable = is_readable(nights)
    faults = audited.faults_after(nights, before.said + said)
    nights.again()
    return status == -signal.SIGKILL, (readable, faults)


def at_each_call(audited: Audited, before: Before, log: str) -> None:
    moments = before.moments(log)

    def kill(number: int, moment: Moment) -> tuple:
        return killed_at(audited, before, before.nights.beside(number), moment)

    results = at_once(kill, moments)
    for moment, (_, found) in zip(moments, results):
        check("%s, killed at %s %d" % (before.name, *moment), found, (True, []))
    kills = sum(is_killed for is_killed, _ in results)
    print("night_kills.py: %s: killed at %d calls" % (before.name, kills))
    check(before.name + ": each call was reached", (kills, len(moments) > 20),
          (len(moments), True))


def befores(audited: Audited, nights: Nights, log: str) -> list[Before]:
    """No folder; one in mid-cycle; and those that a killed night leaves with a report that is
    longer than its checkpoint says, and with a cycle that is to be closed."""
    found = [Before("a first night", nights, "")]
    recording = recorded(nights, log, *PLAN)
    appends = [moment for moment in recording if moment.call == "write"]
    renames = [moment for moment in recording if moment.call.startswith("rename")]
    nights.again()
    said = nights.night(*PLAN, "--files", "3")[1]
    found.append(Before("one that goes on", nights, said))
    # Once they put a checkpoint of their own they are as others.
    for name, moment in [("after a torn slice", appends[len(appends) // 2]),
                         ("before a closing", renames[-3]), ("within a closing", renames[-2]),
                         ("after a closing", renames[-1])]:
        nights.again()
        said = traced(moment.rule("signal=KILL"), nights.words(*PLAN))[1]
        found.append(Before(name, nights, said, 2))
    return found


def killed_after(nights: Nights, seconds: float) -> tuple[bool, str]:
    """Kills a night after so many seconds: whether it was still there, and what it said."""
    process = start(nights.words(*PLAN))
    time.sleep(seconds)
    os.kill(process.pid, signal.SIGKILL)
    status, said, _ = end(process)
    return status == -signal.SIGKILL, said


class Random:
    """Nights of a cycle of which some are killed at random moments, and then one is not."""

    def __init__(self, audited: Audited, nights: Nights) -> None:
        self.audited, self.nights = audited, nights
        begun = time.monotonic()
        nights.first("--slice", SLICE)
        self.length = time.monotonic() - begun

    def cycle(self, number: int, seed: int) -> tuple[int, int, bool, list[str]]:
        """How many nights were killed, how many were tried, whether each left a checkpoint that can
        be shown, and what does not hold after them."""
        nights, dice = self.nights.beside(number), random.Random(seed)
        said, kills, most, readable = "", 0, dice.randrange(1, 5), True
        for _ in range(most):
            is_killed, out = killed_after(nights, dice.uniform(0, self.length))
            kills, said = kills + is_killed, said + out
            readable = readable and is_readable(nights)
        faults = self.audited.faults_after(nights, said)
        nights.again()
        return kills, most, readable, faults


def at_random(audited: Audited, nights: Nights) -> None:
    nights.again()
    cycles = Random(audited, nights)
    kills = tried = 0
    while kills < KILLS and tried < 20 * KILLS:
        seeds = [DICE.randrange(1 << 30) for _ in range(20)]
        for seed, (killed, most, *holds) in zip(seeds, at_once(cycles.cycle, seeds)):
            kills, tried = kills + killed, tried + most
            check("after random kills by %d" % seed, holds, [True, []])
    print("night_kills.py: %d of %d nights killed at random moments" % (kills, tried))
    check("random kills", kills >= KILLS, True)


def check_all(folder: str) -> None:
    audited = Audited(make_root(folder + "/root"))
    check("findings of the root", len(audited.findings), 5)
    before = common.snapshot(audited.root)
    nights = Nights(folder + "/state", audited.root)
    os.mkdir(folder + "/tmp")
    os.environ["TMPDIR"] = folder + "/tmp"
    for each in befores(audited, nights, folder + "/log"):
        at_each_call(audited, each, folder + "/log")
    at_random(audited, nights)
    check("nothing was written below the root", common.snapshot(audited.root), before)
    check("no temporary file is left", os.listdir(folder + "/tmp"), [])


common.run_trial(check_all, needs=["strace"])
