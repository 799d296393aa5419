#!/usr/bin/env python3
"""Tries the program's own nights that end by the clock: when they begin no further run, also where
the clock of the zone is set forward or back, and what of the words for it is refused.

usage: night_clock.py [PART]...

The clock is that of `steps.c`, before the C library: each reading is some seconds after the one
before. The ends were computed by Python's `zoneinfo`.

Tried, and what comes of it:

- `--until`, `--hours` and `--end`, across both changes of summer time too, and by clocks that are
  set back, leap or stand: no run begins at or after the end.

Seen to fail on these faults, each planted alone:

- Status 3 is 0; status 2 is 0; nothing is said on standard error.
- A failing output is taken for one that took all; a failing standard error stops a night; what is
  said goes through a temporary file.
- No end is kept; the zone is UTC; a clock before 2023 is refused.
"""
import datetime
import os
from typing import Any
from zoneinfo import ZoneInfo

import common
from common import check, ran
from shared.messages import shown
from shared.nights import tried_apart
from shared.own_nights import Got, Nights
from shared.shims import compiled

BERLIN = ZoneInfo("Europe/Berlin")
# The rules of that zone, for a machine that has no tables of zones.
RULES = "CET-1CEST,M3.5.0,M10.5.0/3"
STEP = 240
# A night reads its clock a few times between two runs; so many are less than an hour.
FEW = 8


class Clock:
    """Nights by a clock of their own, over so many files that no night comes to their end."""

    def __init__(self, folder: str, files: int = 120) -> None:
        self.seen = folder + "/seen"
        self.library = compiled(folder, "steps")
        content = {"v1/content/%04d" % number: b"x" for number in range(files)}
        root = common.make_root(folder + "/root", {"o": content})
        self.nights = Nights(folder + "/state", root)

    def night(self, start: float, *more: str, step: int = STEP, zone: str = RULES,
              limit: int = common.LIMIT) -> Got:
        """A night that begins at this time, in runs of one file."""
        if os.path.exists(self.seen):
            os.remove(self.seen)
        env = {**os.environ, "LD_PRELOAD": self.library, "TZ": zone, "CLOCK_SEEN": self.seen,
               "CLOCK_START": str(int(start)), "CLOCK_STEP": str(step)}
        return self.nights.first("--slice", "1", *more, env=env, limit=limit)

    def last(self) -> int:
        """The last time that the night read."""
        return int(common.read(self.seen).split()[-1])

    def spent(self) -> int:
        shown = self.nights.shown()
        return int(shown.split("spent ")[1].split()[0]) if isinstance(shown, str) else -1

    def ends_at(self, name: str, start: Any, end: Any, *more: str, **how: Any) -> None:
        """A night from one time on ends at another: it begins runs until then and none after."""
        self.nights.again()
        status, out, note = self.night(start.timestamp(), *more, **how)
        check(name, (status, out, note), (0, "", ""))
        late = self.last() - end.timestamp()
        check(name + ": it ends in time", 0 <= late <= STEP * FEW, True)
        runs = (end.timestamp() - start.timestamp()) / STEP / FEW
        check(name + ": it made runs until then", self.spent() >= runs, True)


def berlin(day: str, time: str, fold: int = 0) -> datetime.datetime:
    shown = datetime.datetime.fromisoformat("%sT%s" % (day, time))
    return shown.replace(tzinfo=BERLIN, fold=fold)


def until_an_hour(folder: str) -> None:
    clock = Clock(folder)
    rows = [
        ("an hour", ("2026-01-15", "22:00"), ("2026-01-15", "23:00"), "23:00"),
        ("over midnight", ("2026-01-15", "23:00"), ("2026-01-16", "01:30"), "01:30"),
        ("at midnight", ("2026-01-15", "22:00"), ("2026-01-16", "00:00"), "00:00"),
        # The clock leaps from 02:00 to 03:00: what it leaps over has come then.
        ("leapt over", ("2026-03-29", "00:30"), ("2026-03-29", "03:00"), "02:30"),
        ("after the leap", ("2026-03-29", "00:30"), ("2026-03-29", "04:00"), "04:00"),
        # From 03:00 it is set back to 02:00.
        ("shown twice", ("2026-10-25", "00:30"), ("2026-10-25", "02:30"), "02:30"),
        ("after that", ("2026-10-25", "01:00"), ("2026-10-25", "04:00"), "04:00"),
        ("shown once more", ("2026-10-25", "02:45"), ("2026-10-25", "02:30", 1), "02:30"),
    ]
    for name, start, end, word in rows:
        for zone in ["Europe/Berlin", RULES]:
            clock.ends_at("%s, %s" % (name, zone), berlin(*start), berlin(*end), "--until", word,
                          zone=zone)


def at_most_a_day(folder: str) -> None:
    """A day of 25 hours: the night ends a day after it began, at the latest. An unproved program
    takes a minute or more to find that end."""
    clock = Clock(folder, 400)
    start = berlin("2026-10-24", "06:00:30")
    end = start.timestamp() + 86_400
    clock.ends_at("a day", start, datetime.datetime.fromtimestamp(end, BERLIN), "--until", "06:00",
                  limit=600)


def for_hours(folder: str) -> None:
    clock = Clock(folder)
    for hours in (1, 3):
        for day in ("2026-01-15", "2026-03-29", "2026-10-25"):
            start = berlin(day, "00:30")
            end = datetime.datetime.fromtimestamp(start.timestamp() + 3600 * hours, BERLIN)
            clock.ends_at("%d hours on %s" % (hours, day), start, end, "--hours", str(hours))


def at_a_second(folder: str) -> None:
    clock = Clock(folder)
    start, end = berlin("2026-01-15", "22:00"), berlin("2026-01-15", "22:40")
    clock.ends_at("an end", start, end, "--end", str(int(end.timestamp())))
    clock.nights.again()
    status, out, note = clock.night(end.timestamp(), "--end", str(int(end.timestamp())))
    check("no run begins at the end", (status, out, clock.spent()), (0, "", 0))
    status, out, note = clock.night(end.timestamp() + 9, "--end", str(int(end.timestamp())))
    check("nor after it", (status, out, clock.spent()), (0, "", 0))


def what_is_unsaid_is_said(folder: str) -> None:
    """A night whose end has come says what the one before left unsaid."""
    clock = Clock(folder, 5)
    common.write(clock.nights.root + "/o/v1/content/0001", b"y")
    end = int(berlin("2026-01-15", "22:40").timestamp())
    with open("/dev/full", "wb") as full:
        status = clock.nights.first(stdout=full)[0]
    status, out, _ = clock.night(end, "--end", str(end))
    check("it is said", (status, shown("E092\to/v1/content/0001\t-", out)), (1, 1))


def clocks_that_leap(folder: str) -> None:
    """A clock that is set back or forward in the night, or stands still, does no harm."""
    clock = Clock(folder, 20)
    audit = ran(["audit", clock.nights.root])[1]
    for name, start, step in [("back", 1_800_000_000, -3600), ("far forward", 0, 1 << 40),
                              ("before 1970", -5, 1), ("it stands", 1_800_000_000, 0)]:
        clock.nights.again()
        for _ in range(30):
            status, out, note = clock.night(start, "--hours", "1", step=step)
            if clock.nights.closed():
                break
            if name in ("far forward", "before 1970"):
                clock.nights.first("--slice", "1", "--files", "1")
        check(name, (status, out, clock.nights.whole(1)), (0, "", audit))


def usage(folder: str) -> None:
    clock = Clock(folder, 3)
    for words in [["--until", "6"], ["--until", "24:00"], ["--until", "06:60"], ["--until", ""],
                  ["--hours", "x"], ["--hours", "0"], ["--hours", "25"], ["--hours", "-1"],
                  ["--end", "x"], ["--end", "-1"], ["--until", "06:00", "--hours", "1"],
                  ["--hours", "1", "--end", "1"], ["--slice", "0"], ["--budget", "0"],
                  ["--files", "0"], ["--budget", "10x"], ["--files", "+10"]]:
        status, out, note = clock.nights.first(*words)
        check("usage: " + " ".join(words), (status, out, note != ""), (2, "", True))
    check("nothing is there", os.path.exists(clock.nights.state), False)


PARTS = [until_an_hour, at_most_a_day, for_hours, at_a_second, what_is_unsaid_is_said,
         clocks_that_leap, usage]


def check_all(folder: str) -> None:
    tried_apart(PARTS, folder)


common.run_trial(check_all)
