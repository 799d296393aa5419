"""What the log of a folder of state tells: its rows, a JSON object on each line, as entries. What a
kill kept out of it is put in."""
from __future__ import annotations

import json
import os
from collections import Counter
from dataclasses import dataclass, replace
from typing import TYPE_CHECKING, Any, Iterable, Iterator

from . import files

if TYPE_CHECKING:
    from .state import Closed, JoinedState, State

# Killed is worse than cut, and that than these.
RANKS = {"": 0, "0": 0, "1": 1, "3": 2, "4": 3, "2": 4, "cut": 5}
# How many lines a report has at most after a run of which the log does not say it.
ALL_LINES = 1 << 62
# The nights of parts that begin within so many seconds are one.
ONE_NIGHT = 43200
# What each row of a run has, as the program writes it, and what it says of its cycle.
RUN, STANDS = b'"row":"slice"', ("cycle", "spent", "files", "stands")
# The members of a row that an entry has by the same names.
NUMBERS = ("cycle", "run", "lines", "cost", "spent", "files", "seconds", "bytes")
WORDS = ("said", "stands", "program", "why")
# What the row of a closing has of new findings, and of what the cycle's runs made.
NUMBERS_NEW, NUMBERS_MADE = ("new", "known"), ("runs", "read_bytes", "read_files")
# What a closing of all parts has as the sum of theirs, if each of them says it.
SUMS = ("unlooked", "back", "repaired", *NUMBERS_NEW, *NUMBERS_MADE)


@dataclass(frozen=True)
class Closing:
    """What the log says of a cycle that was closed."""
    report: str = ""
    is_whole: bool = False
    # Whether a row tells of it.
    is_logged: bool = False
    # The cycles that it was compared with: none, or one, or for parts several. None if the log
    # does not say it.
    compared: tuple[int, ...] | None = None
    # Why it was compared with none, as far as the row says it.
    why: str = ""
    # The last whole cycle, with which it was compared where those had left places out; 0 if it was
    # not, or was with several.
    compared_whole: int = 0
    # How much is gone, of objects, files and expected objects together.
    gone: int = 0
    # How many objects the list of those that were expected has, and its SHA-256: empty if none was
    # searched.
    listed: int = 0
    list: str = ""
    # How many places were left out.
    left: int = 0
    # How many files were no longer looked at, how many objects were back, and how many findings of
    # before were repaired. None if the log does not say it.
    unlooked: int | None = None
    back: int | None = None
    repaired: int | None = None
    # How many findings were new, without those that are known, and how many of these. None if the
    # log does not say both.
    new: int | None = None
    known: int | None = None
    # How many runs the cycle had, and what they read. None if the log does not say it.
    runs: int | None = None
    read_bytes: int | None = None
    read_files: int | None = None

    def why_not_compared(self, cycle: int) -> str:
        """Why nobody knows what this cycle lost; empty if it was compared."""
        if self.compared:
            return ""
        if cycle == 1:
            return self.why or "there is no earlier cycle"
        if self.compared is None:
            return "the log does not say what cycle %d was compared with" % cycle
        return self.why or "the log gives no reason"


@dataclass(frozen=True)
class Entry:
    """What the log says at one moment. A run has its status as kind, or `cut`; of a night that was
    refused the cycle is 0. Of other kinds are `began`, a night with the cycle that it goes on with
    and where that stands, `left`, a place that is left out of its cycle, as `said`, `told` and
    `ended`, and last `stands`, where the cycle now stands, and `lost`, if its report lost
    lines."""
    kind: str
    began: str = ""
    night: str = ""
    cycle: int = 0
    run: int = 0
    lines: int = 0
    cost: int = 0
    spent: int = 0
    files: int = 0
    seconds: int = 0
    bytes: int = 0
    said: str = ""
    stands: str = ""
    # Of a run: the SHA-256 of its program, and how many runs it stands for. Of one of a part: when
    # the night of that part began.
    program: str = ""
    runs: int = 1
    of_part: str = ""
    # Of `left`: why the place could not be read.
    why: str = ""
    # Of `ended`: what was closed. Of `told`: the status of the night.
    closing: Closing | None = None
    status: str = ""

    def is_run(self) -> bool:
        return self.kind.isdigit() or self.kind == "cut"


def rank(status: str) -> int:
    return RANKS.get(status, 6)


def worst(status: str, other: str) -> str:
    """The worse of two statuses of a night."""
    return other if rank(other) > rank(status) else status


def kinds_in(path: str | None) -> Counter[bytes]:
    """How many lines of each kind a list of what is gone has."""
    rows = files.lines(path) if path else iter(())
    return Counter(row.partition(b"\t")[0] for row in rows if row)


# Rows

def row_of(line: bytes) -> dict[str, Any] | None:
    """The members of a row. What is no JSON object is none: a row that is being written, say."""
    try:
        row = json.loads(line)
    except (ValueError, RecursionError):
        return None
    return row if isinstance(row, dict) else None


def in_brief(lines: Iterable[bytes]) -> Iterator[dict[str, Any]]:
    """The rows of a log, of which by far the most are of runs, without those of nights that have a
    row of their own. That has what all of them read, and gets where the last one stands."""
    held: list[bytes] = []
    for line in lines:
        if RUN in line:
            held.append(line)
            continue
        row = row_of(line)
        if not row:
            continue
        same = b'"night":%d,' % number(row, "night")
        yield from filter(None, [row_of(it) for it in held if same not in it])
        held = [it for it in held if same in it]
        if held and row.get("row") == "night":
            last = row_of(held[-1]) or {}
            row = {**{name: last[name] for name in STANDS if name in last}, **row}
            held = []
        yield row
    yield from filter(None, map(row_of, held))


def number_if_any(row: dict[str, Any], name: str) -> int | None:
    """A number of a row; None if the row has none, as those of earlier versions."""
    value = row.get(name)
    return value if type(value) is int and value >= 0 else None


def number(row: dict[str, Any], name: str) -> int:
    return number_if_any(row, name) or 0


def words(row: dict[str, Any], name: str) -> str:
    """A text of a row, without what no bytes stand for."""
    value = row.get(name)
    return value.encode("utf-8", "replace").decode() if isinstance(value, str) else ""


def time_of(row: dict[str, Any], name: str) -> str:
    """A time of a row, which has it in seconds since 1970. Empty if no calendar has it."""
    try:
        return files.time_text(number(row, name))
    except (ValueError, OverflowError, OSError):
        return ""


def entry_of(row: dict[str, Any], kind: str) -> Entry:
    """The entry of a row. What the row does not have is 0, or empty."""
    values: dict[str, Any] = {**{name: number(row, name) for name in NUMBERS},
                              **{name: words(row, name) for name in WORDS}}
    return Entry(kind, time_of(row, "time"), time_of(row, "night"), **values)


class Telling:
    """The entries of one log, as its rows come. What a kill kept out of the log is put in: that a
    night was cut, and that a cycle was closed whose report lies there. Of a night that has ended
    the runs may be left out: then its own row counts as one, which may have written any line."""

    def __init__(self, state: State) -> None:
        self.state = state
        self.night = ""
        self.has_begun = self.has_ended = self.has_slices = False
        # With what the night began; None if no row says it, as in logs of earlier versions.
        self.began: Entry | None = None
        # The last run, and the last cycle known to be closed.
        self.last: Entry | None = None
        self.closed = 0
        self.reports: list[Closed] | None = None
        # What the night closed: it comes after the night's runs.
        self.closings: list[Entry] = []

    def take(self, row: dict[str, Any]) -> Iterator[Entry]:
        """What comes with the next row."""
        night, kind = time_of(row, "night"), words(row, "row")
        if night != self.night or kind == "began":
            yield from self.end(row)
            self.night, self.has_begun, self.has_ended, self.has_slices = night, False, False, False
            self.began = None
        self.has_begun = self.has_begun or kind in ("began", "slice", "left", "closing")
        self.has_ended = self.has_ended or kind in ("refusal", "night")
        if kind == "began":
            self.began = entry_of(row, kind)
            yield self.began
        elif kind == "slice":
            self.has_slices = True
            yield from self.run(entry_of(row, str(number(row, "status"))))
        elif kind == "left":
            yield replace(entry_of(row, kind), said=words(row, "place"))
        elif kind == "closing":
            self.closings.append(ended(row))
        elif kind == "refusal":
            yield entry_of(row, str(number(row, "status")))
        elif kind == "night":
            yield from self.end_night(row)

    def end_night(self, row: dict[str, Any]) -> Iterator[Entry]:
        """The end of a night."""
        status = str(number(row, "status"))
        if number(row, "runs") and not self.has_slices:
            yield from self.run(self.run_of(row, status))
        yield from self.closings_so_far()
        yield replace(entry_of(row, "told"), status=status)

    def run_of(self, row: dict[str, Any], status: str) -> Entry:
        """The runs of a night as one."""
        closed = [it.cycle for it in self.closings]
        cycle = self.began.cycle if self.began else (
            number(row, "cycle") or max(closed, default=self.closed + 1))
        before = self.last.spent if self.last and self.last.cycle == cycle else 0
        return replace(
            entry_of(row, status), began=self.night, cycle=cycle, lines=ALL_LINES,
            runs=number(row, "runs"), spent=number(row, "spent") or before + number(row, "cost"),
            stands="ended" if closed else words(row, "stands"))

    def run(self, entry: Entry) -> Iterator[Entry]:
        if entry.cycle > (self.last.cycle if self.last else 0):
            yield from self.unlogged(entry.cycle)
        self.last = entry
        yield entry

    def closings_so_far(self) -> Iterator[Entry]:
        for entry in self.closings:
            if not entry.spent and self.last and self.last.cycle == entry.cycle:
                entry = replace(entry, spent=self.last.spent, files=self.last.files)
            self.closed = max(self.closed, entry.cycle)
            yield entry
        self.closings = []

    def end(self, then: dict[str, Any] | None = None) -> Iterator[Entry]:
        """What is known once a night has no more rows. It was cut if none says its end. `then` is
        the row that comes after it: where the next night begins, with how many lines, the cut one
        has ended."""
        last = self.last_of_night()
        yield from self.closings_so_far()
        if last and self.has_begun and not self.has_ended:
            self.has_ended = True
            if then and words(then, "row") == "began" and number(then, "cycle") == last.cycle:
                last = replace(last, lines=max(last.lines, number(then, "lines")))
            yield replace(last, kind="cut", cost=0, seconds=0, night=self.night, runs=0)

    def last_of_night(self) -> Entry | None:
        """Where the night stood when its rows end: after its last run, or where it began."""
        if self.has_slices:
            return self.last
        closed = next((Entry("cut", began=self.night, cycle=it.cycle, lines=ALL_LINES,
                             stands="ended") for it in self.closings), None)
        if closed or not self.began:
            return closed
        last = self.last if self.last and self.last.cycle == self.began.cycle else Entry("cut")
        return replace(self.began, began=self.night, spent=last.spent, files=last.files)

    def end_unless_held(self) -> Iterator[Entry]:
        """What is known of the last night of the log, which may be under way."""
        yield from self.closings_so_far() if self.state.is_held() else self.end()

    def unlogged(self, below: int = ALL_LINES) -> Iterator[Entry]:
        """That cycles below this one were closed of which no row says it, though their reports
        show it."""
        if self.reports is None:
            self.reports = self.state.closed()
        for it in self.reports:
            if not self.closed < it.cycle < below:
                continue
            self.closed = it.cycle
            yield replace(
                self.last or Entry("ended"), kind="ended", cycle=it.cycle, cost=0, seconds=0,
                closing=Closing(os.path.basename(it.path).partition(".")[0], it.is_whole))


def ended(row: dict[str, Any]) -> Entry:
    """The entry of the row of a closing."""
    closing = closing_of(row)
    files_read = closing.read_files or 0
    return replace(entry_of(row, "ended"), closing=closing, files=files_read,
                   spent=(closing.read_bytes or 0) + files_read)


def closing_of(row: dict[str, Any]) -> Closing:
    """What the row of a closing says."""
    compared = None if "compared" not in row else tuple(filter(None, [number(row, "compared")]))
    # A closed cycle has had a run: the row says 0 if it is not known.
    made = NUMBERS_MADE if number(row, "runs") else ()
    both = NUMBERS_NEW if all(number_if_any(row, name) is not None for name in NUMBERS_NEW) else ()
    counts: dict[str, Any] = {name: number_if_any(row, name) for name in (
        "unlooked", "back", "repaired", *both, *made)}
    return Closing(
        os.path.basename(words(row, "report")), row.get("whole") is True, True, compared,
        words(row, "why"), number(row, "compared_whole"), number(row, "gone"),
        number(row, "listed"), words(row, "list"), number(row, "left"), **counts)


class Comparisons:
    """The cycles that were closed, and what each was compared with."""

    def __init__(self) -> None:
        self.closings: dict[int, Closing] = {}

    def take(self, entry: Entry) -> None:
        """Notes a closing. A night that says it once more has the last word."""
        known = self.closings.get(entry.cycle)
        if entry.closing and (entry.closing.is_logged or not known):
            self.closings[entry.cycle] = entry.closing

    def why_unknown(self, upto: int) -> str:
        """Why nobody knows all that was gone when some cycle up to this one was closed. Empty if
        each of them was compared, or a later one with a cycle before it."""
        reach = upto
        for cycle in sorted((it for it in self.closings if it <= upto), reverse=True):
            closing = self.closings[cycle]
            if closing.compared and cycle >= reach:
                reach = min(reach, *closing.compared)
        if reach <= 1 < upto:
            return ""
        closing = self.closings.get(reach, Closing())
        return closing.why_not_compared(reach)


class Joining:
    """The entries of all parts as those of one log."""

    def __init__(self, state: JoinedState) -> None:
        self.of_all = Telling(state)
        self.of_parts = {number_of_part: Telling(part)
                         for number_of_part, part in enumerate(state.folders(), 1)}
        self.first = -ONE_NIGHT
        self.night, self.status = "", "0"
        # The last run of each part, and what all have read in each cycle.
        self.last: dict[int, Entry] = {}
        self.spent: Counter[int] = Counter()
        self.files: Counter[int] = Counter()
        # What the parts closed, by the cycle and the part.
        self.closings: dict[int, dict[int, Entry]] = {}

    def take(self, number_of_part: int, row: dict[str, Any]) -> Iterator[Entry]:
        """What comes with the next row of a part."""
        if number(row, "night") and abs(number(row, "night") - self.first) >= ONE_NIGHT:
            self.first, self.night, self.status = number(row, "night"), time_of(row, "night"), "0"
        telling = self.of_parts.get(number_of_part, self.of_all)
        for entry in telling.take(row):
            yield from (self.of_part(number_of_part, entry) if number_of_part
                        else [replace(entry, night=self.night)])

    def end(self) -> Iterator[Entry]:
        """What is known once the logs have no more rows."""
        for number_of_part, telling in self.of_parts.items():
            for entry in telling.end_unless_held():
                yield from self.of_part(number_of_part, entry)
        yield from self.of_all.closings_so_far()
        yield from self.unlogged()

    def of_part(self, number_of_part: int, entry: Entry) -> Iterator[Entry]:
        if entry.kind == "ended":
            known = self.closings.setdefault(entry.cycle, {})
            known[number_of_part] = later(known.get(number_of_part), entry)
        elif entry.is_run() and entry.cycle > 0:
            yield from self.run(number_of_part, entry)
        else:
            self.status = worst(self.status, entry.status)
            yield replace(entry, status=self.status, night=self.night, of_part=entry.night)

    def run(self, number_of_part: int, entry: Entry) -> Iterator[Entry]:
        """A run of a part, with what its cycle has read in all parts."""
        last = self.of_all.last
        if entry.cycle > (last.cycle if last else 0):
            yield from self.unlogged(entry.cycle)
        before = self.last.get(number_of_part)
        is_same = before is not None and before.cycle == entry.cycle
        self.spent[entry.cycle] += entry.spent - (before.spent if before and is_same else 0)
        self.files[entry.cycle] += entry.files - (before.files if before and is_same else 0)
        self.last[number_of_part] = entry
        self.of_all.last = replace(entry, night=self.night, stands="", of_part=entry.night,
                                   spent=self.spent[entry.cycle], files=self.files[entry.cycle])
        yield self.of_all.last

    def unlogged(self, below: int = ALL_LINES) -> Iterator[Entry]:
        """That the cycles below this one were joined, which only the logs of the parts tell of."""
        for entry in self.of_all.unlogged(below):
            yield self.joined(entry)

    def joined(self, entry: Entry) -> Entry:
        """A joined cycle was closed when the last of its parts was. It was compared with the cycles
        that its parts were, if each was with one."""
        found = self.closings.pop(entry.cycle, {})
        for number_of_part, part in self.of_parts.items():
            for it in part.closings:
                if it.cycle == entry.cycle:
                    found[number_of_part] = later(found.get(number_of_part), it)
        closings = {at: it.closing for at, it in sorted(found.items())
                    if it.closing and it.closing.is_logged}
        if entry.closing is None or len(closings) < len(self.of_parts):
            return entry
        return replace(entry, began=max(it.began for it in found.values()), closing=replace(
            entry.closing, is_logged=True, left=sum(it.left for it in closings.values()),
            gone=sum(it.gone for it in closings.values()),
            **{name: sum_if_all(getattr(it, name) for it in closings.values()) for name in SUMS},
            **list_of_all(closings), **of_all_parts(closings, entry.cycle)))


def later(known: Entry | None, entry: Entry) -> Entry:
    """Of two rows that tell of one closing what the later one says, at the time of the first. One
    that is only known by its report says less."""
    if known is None or not known.closing or not known.closing.is_logged:
        return entry
    if not entry.closing or not entry.closing.is_logged:
        return known
    return replace(entry, began=known.began)


def sum_if_all(counts: Iterable[int | None]) -> int | None:
    """The sum of what parts say; None if one of them does not say it."""
    total = 0
    for count in counts:
        if count is None:
            return None
        total += count
    return total


def list_of_all(closings: dict[int, Closing]) -> dict[str, Any]:
    """The list of expected objects that all parts searched, of which each counts its own; none if
    one of them searched no list, or another one."""
    lists = {it.list for it in closings.values()}
    if len(lists) != 1:
        return {}
    return {"list": lists.pop(), "listed": sum(it.listed for it in closings.values())}


def of_all_parts(closings: dict[int, Closing], cycle: int) -> dict[str, Any]:
    """What all parts were compared with, or why not all of them were."""
    bad = next((at for at, it in closings.items() if not it.compared), None)
    if bad is None:
        wholes = {it.compared_whole for it in closings.values()}
        return {"compared": tuple(sorted({one for it in closings.values()
                                          for one in it.compared or ()})),
                "compared_whole": wholes.pop() if len(wholes) == 1 else 0}
    if closings[bad].compared is None:
        return {"compared": None}
    of_first = cycle == 1 and not any(it.why for it in closings.values())
    return {"compared": (), "why": "" if of_first else "part %d: %s" % (
        bad, closings[bad].why_not_compared(cycle))}
