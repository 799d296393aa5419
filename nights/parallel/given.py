"""Which parts of a storage root were given out, and with what result."""
from __future__ import annotations

import glob
import json
import os
import re
import subprocess
import time
from dataclasses import dataclass
from pathlib import Path
from typing import Iterable

from folder import HERE, note, opened, part
from ocfl_scrub_reports.files import time_text
from ocfl_scrub_reports.shared import put
from ocfl_scrub_reports.state import numbered_in

# The row of a night that has ended.
NIGHT = re.compile(rb'\{.*"row":"night".*"status":([0-9]+).*\}\n')
CLOSING = re.compile(rb"\nphase closing\n(?:.*\n)*cycle ([0-9]+)\n")


def run(words: list[str]) -> tuple[int, str]:
    """The status of a command, and what it says."""
    done = subprocess.run(words, stdout=subprocess.PIPE, stderr=subprocess.STDOUT, check=False)
    return done.returncode, os.fsdecode(done.stdout).strip()


def run_apart(words: list[str]) -> tuple[int, str, str]:
    """The status of a command, what it writes to its standard output, and to standard error."""
    done = subprocess.run(words, capture_output=True, check=False)
    return done.returncode, os.fsdecode(done.stdout).strip(), os.fsdecode(done.stderr).strip()


def ranges(numbers: Iterable[int]) -> str:
    """Numbers of parts as a text: `parts 1-3, 7`."""
    runs: list[list[int]] = []
    for number in sorted(numbers):
        if runs and runs[-1][-1] == number - 1:
            runs[-1] = [runs[-1][0], number]
        else:
            runs.append([number])
    text = ", ".join("-".join(map(str, run)) for run in runs)
    return ("part " if text.isdecimal() else "parts ") + text


def count_parts(state: str) -> int:
    with open(state + "/parts", "rb") as file:
        return file.read().count(b"\n") + 1


def closed(state: str, number: int) -> dict[int, bool]:
    """The cycles that a part has closed, and whether their reports are whole. One that a night was
    closing when it was killed is none, nor is one without the list of what is gone: the part's next
    night ends that."""
    folder = "%s/%s" % (state, part(number))
    closing = None
    if os.path.isfile(folder + "/checkpoint"):
        with open(folder + "/checkpoint", "rb") as file:
            closing = CLOSING.search(file.read())
    listed = {it.cycle for it in numbered_in(folder + "/reports", "gone")}
    return {it.cycle: it.is_whole for it in numbered_in(folder + "/reports", "incomplete", "cycle")
            if it.cycle in listed and not (closing and it.cycle == int(closing[1]))}


def log(state: str, night: int, row: str, **more: object) -> None:
    """Appends a row to the log of all parts, in the program's form."""
    # The row of an end comes after those of the parts in its second.
    made = {"night": night, "row": row, "time": int(time.time()) + (row == "night"), **more}
    file = opened(state + "/log", 0)
    os.write(file, json.dumps(made, sort_keys=True, separators=(",", ":")).encode() + b"\n")
    os.close(file)


def leave(state: str, text: str, status: int = 3) -> None:
    """Leaves a text about all parts: `end` says it, with this status."""
    file = note(state, 0, "-%d" % status if status < 3 else "")
    os.write(file, os.fsencode(text + "\n"))
    os.close(file)


@dataclass
class Begun:
    """What a call of `begin` gave out, or its status and why it gave out nothing."""
    numbers: list[str]
    status: int = 0
    why: str = ""


def begin(words: list[str]) -> Begun:
    """Calls `begin` with these words."""
    done = subprocess.run([HERE + "/begin", *words], capture_output=True, check=False)
    if done.returncode == 0:
        return Begun(done.stdout.decode().split())
    why = os.fsdecode(done.stderr).strip().removeprefix("parallel/begin: ")
    if done.returncode < 0:
        why = (why + "\nparallel/begin was killed by signal %d" % -done.returncode).strip()
    return Begun([], done.returncode if done.returncode > 1 else 3,
                 why or "parallel/begin ended with status %d" % done.returncode)


def leave_if_unsaid(state: str, begun: Begun) -> bool:
    """Leaves why a night was not begun, unless `begin` did. Gives whether that is left now."""
    try:
        paths = glob.glob(glob.escape(state) + "/said/000000-*[0-9]")
        texts = [Path(it).read_bytes() for it in paths]
        if not any(os.fsencode(begun.why) in it for it in texts):
            leave(state, "The night was not begun: " + begun.why)
    except OSError:
        return False
    return True


def size_of_log(state: str, number: int) -> int:
    path = "%s/%s/log" % (state, part(number))
    return os.path.getsize(path) if os.path.exists(path) else 0


def last_status(state: str, number: int) -> int:
    """The status of the last night that a part has ended, or 3 if it has ended none. It is at least
    1, since the part said something."""
    path = "%s/%s/log" % (state, part(number))
    rows = Path(path).read_bytes().splitlines(True) if os.path.exists(path) else []
    ended = [int(it[1]) for it in map(NIGHT.fullmatch, rows) if it]
    return max(1, ended[-1]) if ended else 3


class Given:
    """The parts that were given out, when, in which cycle, and how long their logs were then."""

    def __init__(self, state: str) -> None:
        self.state, self.path = state, state + "/given"
        self.night, self.cycle = int(time.time()), 0
        self.logs: dict[str, int] = {}
        self.is_open = os.path.exists(self.path)
        if self.is_open:
            with open(self.path, "rb") as file:
                self.night, self.cycle, self.logs = json.load(file)

    def give(self, cycle: int, numbers: list[int]) -> None:
        logs = {str(number): size_of_log(self.state, number) for number in numbers}
        put(json.dumps([int(time.time()), cycle, logs]).encode(), self.path)

    def statuses(self, number: str) -> list[int]:
        """The statuses of the nights that a part has ended since."""
        if size_of_log(self.state, int(number)) <= self.logs[number]:
            return []
        with open("%s/%s/log" % (self.state, part(int(number))), "rb") as file:
            file.seek(self.logs[number])
            return [int(it[1]) for it in map(NIGHT.fullmatch, file) if it]

    def not_run(self) -> str:
        """Names the parts that have ended no night since. Empty if there are none."""
        found = [int(number) for number in self.logs if not self.statuses(number)]
        return ("No night has ended since %s in %s: it was not begun, was refused, or was killed."
                % (time_text(self.night), ranges(found))) if found else ""
