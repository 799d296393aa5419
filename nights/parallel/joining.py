"""The joined reports of all parts, by the program."""
from __future__ import annotations

import os
import re
import time
from pathlib import Path
from typing import NamedTuple

from folder import part
from given import closed, count_parts, leave, ranges, run_apart
from ocfl_scrub_reports.shared import find_program, put
from ocfl_scrub_reports.state import cycle_name, find, numbered_in, open_state

STATEMENT = re.compile("statement-([0-9]+)")
# How many names the top folder of the root had when the cycle began.
NAMES = re.compile(rb"\nnames ([0-9]+) ")
# The status of a program that found a lock held, and how many seconds that is waited for.
HELD, PATIENCE = 75, 60
# So many places that were left out are named at most.
MOST_LEFT = 20


def reports_of(state: str, number: int) -> str:
    return "%s/%s/reports" % (state, part(number))


class Parts:
    """What all parts have closed, and which of it is not joined."""

    def __init__(self, state: str) -> None:
        self.state, self.reports = state, state + "/reports"
        self.closed = {it: closed(state, it) for it in range(1, count_parts(state) + 1)}

    def is_joined(self, cycle: int) -> bool:
        return bool(find(self.reports, "cycle", cycle) or find(self.reports, "incomplete", cycle))

    def unjoined(self) -> list[int]:
        """The cycles that all parts have closed and that are not joined, the oldest first."""
        of_all = set.intersection(*map(set, self.closed.values()))
        return sorted(it for it in of_all if not self.is_joined(it))

    def list_gone(self, cycle: int) -> None:
        """Puts the list of what is gone. It counts also if this cycle is not joined: the next one
        is compared with it."""
        if not find(self.reports, "gone", cycle):
            gone = [find(reports_of(self.state, number), "gone", cycle) for number in self.closed]
            put(b"".join(Path(path).read_bytes() for path in gone if path),
                "%s/%s" % (self.reports, cycle_name("gone", cycle)))

    def lacking(self, cycle: int) -> list[int]:
        """The parts whose reports of a cycle are not whole."""
        return [number for number, it in self.closed.items() if it.get(cycle) is False]

    def is_incomplete(self, cycle: int) -> bool:
        """Whether the joined report of a cycle is there, and lacks what parts left out."""
        return bool(find(self.reports, "incomplete", cycle))

    def incomplete(self, cycle: int) -> str:
        """Says what the joined report of a cycle lacks, with the reasons that the parts logged."""
        left = {it.said: it.why for it in open_state(self.state).entries(True)
                if it.kind == "left" and it.cycle == cycle}
        rows = ["Left out: %s%s" % (place, why and ": " + why) for place, why in left.items()]
        more = ["%d more places were left out." % (len(rows) - MOST_LEFT)] * (len(rows) > MOST_LEFT)
        return "\n".join(["The joined report of cycle %d is incomplete: that of %s is not whole."
                          % (cycle, ranges(self.lacking(cycle))), *rows[:MOST_LEFT], *more])

    def skipped(self, last: int) -> list[int]:
        """The cycles before this one that are never joined, since a part has no report of them, or
        no list of what is gone. Those of which the list of all is there were named before."""
        listed = max((it.cycle for it in numbered_in(self.reports, "gone")), default=0)
        known = {it.cycle for number in self.closed for it in numbered_in(
            reports_of(self.state, number), "cycle", "incomplete")}
        return sorted(it for it in known - set.intersection(*map(set, self.closed.values()))
                      if listed < it < last)

    def leave_skipped(self, last: list[int]) -> None:
        """Leaves of each of these that it is never joined."""
        for it in self.skipped(last[0]) if last else ():
            leave(self.state, "The reports of cycle %d are never joined: a part has no report of "
                              "it, or no list of what is gone." % it)

    def names_of(self, number: int, cycle: int) -> int | None:
        """How many names the top folder had when a part began a cycle. None if nothing says it."""
        path = find(reports_of(self.state, number), "checkpoint", cycle)
        found = NAMES.search(Path(path).read_bytes()) if path else None
        return int(found[1]) if found else None

    def few(self, cycle: int) -> tuple[dict[int, int], list[int]]:
        """How many names each part saw, as far as their checkpoints say it, and which parts saw
        less than half of what another one saw. The program does not join such a cycle."""
        counts = {number: self.names_of(number, cycle) for number in self.closed}
        seen = {number: count for number, count in counts.items() if count is not None}
        most = max(seen.values(), default=0)
        return seen, [number for number in seen if 2 * seen[number] < most]

    def can_join(self, cycle: int) -> bool:
        return not self.few(cycle)[1]

    def other_roots(self, cycle: int) -> str:
        """Says which parts saw another root, by how many names it had. Empty if none did."""
        seen, few = self.few(cycle)
        if not few:
            return ""
        most = max(seen.values())
        return ("The reports of cycle %d are not joined: the top folder of the storage root had %d "
                "names when %s began, and at most %d when %s did. Does each machine see the same "
                "storage root there?" % (
                    cycle, most, ranges(it for it in seen if seen[it] == most),
                    max(seen[it] for it in few), ranges(few)))


def call_join(state: str) -> tuple[int, str, str]:
    """Has the program join what can be joined: its status, its words on what it joined, and those
    on what kept it from it. Another call, or the last moments of a night, are waited for."""
    until = time.monotonic() + PATIENCE
    words = [find_program(), "join", "--parts", state + "/parts", "--state", state]
    made = run_apart(words)
    while made[0] == HELD and time.monotonic() < until:
        time.sleep(0.5)
        made = run_apart(words)
    return made


class Joined(NamedTuple):
    """What keeps cycles from being joined, or whole, the status of that, and the program's words on
    those that it joined."""
    text: str = ""
    status: int = 0
    word: str = ""

    def whole(self) -> str:
        """All that is said of them."""
        return "\n".join(filter(None, [self.word, self.text]))


def join(state: str, cycle: int) -> Joined:
    """Joins each cycle that all parts have closed and that is not joined, the oldest first. Says
    what the program says of them and what keeps one from it, and of the cycle that was given out
    also what its parts say. Its status is 3 if something failed or was left out."""
    parts = Parts(state)
    cycles = parts.unjoined()
    parts.leave_skipped(cycles[-1:])
    for it in cycles:
        parts.list_gone(it)
    alike = [it for it in cycles if parts.can_join(it)]
    status, word, trouble = call_join(state) if alike else (0, "", "")
    failed = [it for it in alike if not parts.is_joined(it)]
    lacking = [parts.incomplete(it) for it in alike if parts.is_incomplete(it)]
    bad = [trouble] if alike == cycles and not lacking else []
    if failed:
        bad = ["The reports of cycle %s are not joined:\n%s" % (
            ", ".join(map(str, failed)), trouble)]
    bad += [*lacking, parts.other_roots(cycle) if cycle in cycles else ""]
    is_bad = any(bad) or alike == cycles and status > 1
    return Joined("\n".join(filter(None, bad)), 3 if is_bad else min(status, 1), word)


def make_room(state: str) -> None:
    """Removes of each part what is joined, or of a cycle before one that is, but for the last two
    cycles, which its nights compare."""
    folder = state + "/reports"
    names = os.listdir(folder) if os.path.isdir(folder) else []
    joined = max((int(it[1]) for it in map(STATEMENT.fullmatch, names) if it), default=0)
    for number in range(1, count_parts(state) + 1):
        lists = numbered_in(reports_of(state, number), "cycle", "incomplete", "gone",
                            "checkpoint")
        needed = min(sorted(it.cycle for it in lists if it.is_whole)[-2:], default=0)
        for it in lists:
            if it.cycle < needed and it.cycle <= joined:
                os.remove(it.path)
