"""How the nights of a storage root are going: a line for a monitor, and figures for Prometheus."""
from __future__ import annotations

import math
import os
import re
import tempfile
from collections import Counter
from dataclasses import dataclass, field
from datetime import datetime, timezone
from itertools import chain
from typing import IO, Callable, Iterator, Optional, Sequence, Tuple

from . import files, standing
from .log import Closing, Comparisons, Entry, kinds_in, rank, worst
from .questions import gravest_first
from .shared import Failed, many
from .state import State
from .units import size
from .weights import Known, Weights

# What would end the line for a monitor, or begin its figures.
BREAKING = re.compile(r"[|\n]")
WORDS = ("OK", "WARNING", "CRITICAL", "UNKNOWN")
# How far the clock may be behind what the log says.
AHEAD = 3600
# How much is shown of what a night said.
MOST_SAID = 300
# From which number on there is a warning, and an alarm; None stands for never.
Limit = Tuple[Optional[int], Optional[int]]


def seconds_of(time: str) -> int:
    """The seconds since 1970 of a time like 2025-03-01T22:00:00Z."""
    moment = datetime.fromisoformat(time.replace("Z", "+00:00"))
    if moment.tzinfo is None:
        moment = moment.replace(tzinfo=timezone.utc)
    return int(moment.timestamp())


@dataclass
class Log:
    """What the log says of the nights."""
    night: str = ""
    status: str = "0"
    status_before: str = "0"
    # Whether a part was cut in a night that failed as a whole, whose status says more.
    part_was_cut: bool = False
    # Why the last night stopped, or did nothing.
    said: str = ""
    is_under_way: bool = False
    seconds: int = 0
    cycle: int | None = None
    is_open: bool = False
    # After which place the cycle stands, as reports write it; empty if it stands after none, or in
    # each part after another.
    place: str = ""
    spent: int = 0
    files: int = 0
    # The cycles of which each night has a row that says it began: none was cut without a trace.
    told_from_start: set[int] = field(default_factory=set)
    # How many runs of the cycle no row tells of, and the places that each cycle leaves out, with
    # their reasons.
    unlogged: int = 0
    left_out: dict[int, dict[str, str]] = field(default_factory=dict)
    cost: Counter[int] = field(default_factory=Counter)
    runs: Counter[int] = field(default_factory=Counter)
    # How many nights have begun so far, of which several may have begun in one second, and by the
    # cycle those that read for it.
    begun: int = 0
    nights: dict[int, set[tuple[str, int]]] = field(default_factory=dict)
    closed: Entry | None = None
    closing: Closing = field(default_factory=Closing)
    comparisons: Comparisons = field(default_factory=Comparisons)
    # The last cycle that searched for expected objects; 0 if none did.
    searched: int = 0
    whole: Entry | None = None
    lost_in: int | None = None

    def take(self, entry: Entry) -> None:
        """Goes on to the next entry."""
        if entry.is_run():
            self.take_run(entry)
        elif entry.kind == "ended":
            self.take_closing(entry)
        elif entry.kind == "lost":
            self.lost_in = entry.cycle
        elif entry.kind == "began":
            self.take_beginning(entry)
        elif entry.kind == "left":
            left = self.left_out.setdefault(entry.cycle, {})
            left[entry.said] = entry.why or left.get(entry.said, "")
        elif entry.kind == "stands" and self.night:
            self.move_to(entry)
            self.unlogged = 0 if entry.cycle in self.told_from_start else (
                entry.runs - self.runs[entry.cycle])
        elif entry.kind == "told":
            self.start_night(entry.night)
            self.status, self.is_under_way = entry.status or self.status, False

    def take_beginning(self, entry: Entry) -> None:
        """Notes that a night began, which may not have ended a run yet."""
        self.begun += not entry.of_part
        self.start_night(entry.night, not entry.of_part)
        self.is_under_way = True
        if entry.stands == "start" and not self.runs[entry.cycle]:
            self.told_from_start.add(entry.cycle)
        if entry.cycle > (self.cycle or 0):
            self.move_to(entry)

    def take_run(self, entry: Entry) -> None:
        self.start_night(entry.night)
        if entry.kind == "cut" and entry.of_part and rank(self.status) > 1:
            self.part_was_cut = True
        else:
            self.status = worst(self.status, entry.kind)
        self.said = entry.said or self.said
        # A night that was refused, or stopped, says nothing of any cycle.
        self.is_under_way = entry.cycle > 0 and entry.kind != "cut"
        if entry.cycle > 0:
            self.cost[entry.cycle] += entry.cost
            self.runs[entry.cycle] += entry.runs
            self.nights.setdefault(entry.cycle, set()).add((entry.night, self.begun))
            self.seconds += entry.seconds
            self.move_to(entry)

    def take_closing(self, entry: Entry) -> None:
        """Notes a closing, which may be told once more by a later night."""
        self.comparisons.take(entry)
        if self.closed and entry.cycle < self.closed.cycle:
            return
        is_first = not self.closed or entry.cycle > self.closed.cycle
        self.closed = entry if is_first else self.closed
        self.closing = self.comparisons.closings[entry.cycle]
        self.is_open = self.is_open and (self.cycle or 0) > entry.cycle
        if is_first and self.closing.is_whole:
            self.whole = entry

    def move_to(self, entry: Entry) -> None:
        self.cycle, self.spent, self.files = entry.cycle, entry.spent, entry.files
        self.is_open = entry.stands != "ended"
        self.place = entry.stands[6:] if entry.stands.startswith("after ") else ""

    def count_nights(self) -> int:
        """How many nights have read for the cycle."""
        return len(self.nights.get(self.cycle or 0, ()))

    def start_night(self, night: str, is_another: bool = False) -> None:
        if is_another or night != self.night:
            self.status_before, self.part_was_cut = self.status, False
            self.night, self.status, self.seconds, self.is_under_way = night, "0", 0, False
            self.said = ""


@dataclass
class Findings:
    """What is open. `listed` has it as lines, those that are known left out."""
    count: Counter[str]
    # How many files are damaged or unreadable, each of which can have several findings.
    damaged: int
    known: int
    # Of the lines of the lists, by their words.
    lost: Counter[str]
    listed: IO[bytes]

    def lost_objects(self) -> int:
        """Objects that are gone, or no longer declared."""
        return self.lost["object"] + self.lost["undeclared"]


def findings_of(state: State, known: Known, weights: Weights, searched: int) -> Findings:
    """What is open now; of expected objects, those that the cycle lacked that searched for them
    last."""
    found = Findings(Counter(), 0, 0, Counter(), files.spool())

    def unknown_ones() -> Iterator[tuple[bytes, bytes]]:
        last = b""
        for line in standing.open_findings(state):
            if known.has(line):
                found.known += 1
                continue
            weight = weights.weight(line)
            if weight == b"1":
                place = line.split(b"\t")[1]
                found.damaged += place != last
                last = place
            found.count[line.partition(b"\t")[0].decode()] += 1
            yield weight, line

    found.listed = gravest_first(unknown_ones())
    found.listed.seek(0, os.SEEK_END)
    for line in chain(standing.losses(state), standing.missing(state, searched)):
        if not known.has(line):
            found.lost[line.partition(b"\t")[0].decode()] += 1
            found.listed.write(line + b"\n")
    return found


class Standing:
    """How the nights stand at a time, as limits judge it."""

    def __init__(self, log: Log, found: Findings, limits: dict[str, Limit], now: int,
                 waiting: tuple[str, int] | None) -> None:
        self.log, self.found, self.limits, self.now = log, found, limits, now
        self.age = now - seconds_of(log.night) if log.night else 0
        self.open, self.gone = sum(found.count.values()), sum(found.lost.values())
        # Why nobody knows all that is gone, and whether one of the cycles could have told.
        last = log.closed.cycle if log.closed else 0
        self.unknown = log.comparisons.why_unknown(last) if last else "no cycle is closed"
        self.is_unknown = bool(self.unknown) and last > 1
        self.level, self.reasons, self.are_said = 0, [], False  # type: int, list[str], bool
        self.done, self.left = self.reckon()
        self.judge(waiting)

    def reckon(self) -> tuple[int | None, int | None]:
        """How far the open cycle is in hundredths of the cost of the last one, and how many nights
        that leaves."""
        log, whole = self.log, self.log.closed.spent if self.log.closed else 0
        if not log.night or not log.is_open or not whole or log.cycle is None:
            return None, None
        done = min(99, 100 * log.spent // whole)
        rate = log.cost[log.cycle] / max(1, log.count_nights())
        if rate <= 0:
            return done, None
        return done, max(1, math.ceil((whole - log.spent) / rate))

    def judge(self, waiting: tuple[str, int] | None) -> None:
        log = self.log
        if not log.night:
            self.add(3, "no night has run")
            return
        self.judge_time("the last night", log.night)
        self.compare("age", self.age / 3600, "the last night began %s ago" % span(self.age))
        if waiting:
            self.judge_part(*waiting)
        # Until a night is over, that of the night before it counts as well.
        if log.is_under_way and rank(log.status_before) > rank(log.status):
            log.status = log.status_before
        if ("cut" in (log.status, log.status_before) or log.part_was_cut
                or log.unlogged > 0):
            self.add(1, "a night was cut")
        if rank(log.status) > 1 and log.status != "cut":
            said = BREAKING.sub(" ", log.said.strip())[:MOST_SAID]
            self.add(2, "the last night ended with status " + log.status + (said and ": " + said))
        self.judge_findings()
        self.judge_losses()
        self.judge_cycles()

    def judge_time(self, name: str, time: str) -> None:
        """What lies in the future says nothing of the age of anything."""
        if time and seconds_of(time) > self.now + AHEAD:
            self.add(2, "%s lies in the future, at %s: is the clock right?" % (name, time))

    def judge_part(self, night: str, number: int) -> None:
        """Of parts each needs its nights."""
        age = self.now - seconds_of(night) if night else 0
        if not night:
            self.add(2, "part %d has made no night" % number)
        elif age < -AHEAD:
            self.judge_time("the last night of part %d" % number, night)
        elif self.reached("age", age / 3600) > self.reached("age", self.age / 3600):
            self.compare("age", age / 3600, "the last night of part %d began %s ago" % (
                number, span(age)))

    def judge_cycles(self) -> None:
        log = self.log
        if log.closed and not log.closing.is_whole:
            self.add(1, "the report of cycle %d is not whole%s" % (
                log.closed.cycle, self.left_text(log.closed.cycle)))
        if log.cycle is not None and log.is_open and log.cycle in log.left_out:
            self.add(1, "cycle %d will not be whole%s" % (log.cycle, self.left_text(log.cycle)))
        if log.lost_in is not None and (not log.closed or log.lost_in != log.closed.cycle):
            self.add(1, "the report of cycle %d lost lines" % log.lost_in)
        if log.whole and log.whole.began:
            self.judge_time("the end of cycle %d" % log.whole.cycle, log.whole.began)
            self.compare("cycle_age", (self.now - seconds_of(log.whole.began)) / 86400,
                         "the last whole cycle ended on " + log.whole.began[:10])

    def left_text(self, cycle: int) -> str:
        """Which places a cycle left out and why, the first three by name."""
        left = [BREAKING.sub("?", with_reason(*it))
                for it in self.log.left_out.get(cycle, {}).items()]
        more = ["%d more" % (len(left) - 3)] if len(left) > 3 else []
        return ": left out " + ", ".join(left[:3] + more) if left else ""

    def judge_losses(self) -> None:
        """Lost objects are more serious than lost files, and so are those of which no file is
        looked at any more."""
        level = max(self.reached("lost", self.found.lost_objects()),
                    self.reached("gone", self.gone))
        if level:
            self.add(level, self.lost_things())
        if self.is_unknown:
            self.add(1, ("what else is gone is not known: " if self.gone
                         else "what is gone is not known: ") + BREAKING.sub("?", self.unknown))

    def judge_findings(self) -> None:
        """If a limit is reached, the findings are said first, and else last."""
        level = max(self.reached("damaged", self.found.damaged),
                    self.reached("findings", self.open))
        if level:
            self.add(level, self.findings_text())
            self.are_said = True

    def add(self, level: int, text: str) -> None:
        self.level = max(self.level, level)
        self.reasons.append(text)

    def compare(self, name: str, value: float, text: str) -> None:
        level = self.reached(name, value)
        if level:
            self.add(level, text)

    def reached(self, name: str, value: float) -> int:
        warning, alarm = self.limits[name]
        if alarm is not None and value >= alarm:
            return 2
        return int(warning is not None and value >= warning)

    def findings_text(self) -> str:
        found = self.found
        codes = ", ".join("%s %d" % (code, found.count[code]) for code in sorted(found.count))
        return "%s%s%s%s" % (
            many(self.open, "open finding"),
            ", " + many(found.damaged, "damaged or unreadable file") if found.damaged else "",
            " (%s)" % codes if codes else "", ", %d known" % found.known if found.known else "")

    def lost_things(self) -> str:
        lost = self.found.lost
        gone = [many(lost[word], word) for word in ("object", "file") if lost[word]]
        texts = [" and ".join(gone) + (" is gone" if lost["object"] + lost["file"] == 1
                                       else " are gone")] if gone else []
        for word, name, state in (("undeclared", "object", "no longer declared"),
                                  ("expected", "expected object", "missing")):
            if lost[word]:
                texts.append("%s %s %s" % (many(lost[word], name),
                                           "is" if lost[word] == 1 else "are", state))
        return ", and ".join(texts)

    # The line

    def line(self, root: str) -> str:
        """The line for a monitor, without its figures. A bar would begin them."""
        text = "OCFL-SCRUB %s - %s" % (WORDS[self.level], BREAKING.sub("?", root))
        return text + ": " + "; ".join([*self.reasons, *self.about_nights()])

    def about_nights(self) -> list[str]:
        log = self.log
        if not log.night:
            return []
        night = "last night %s, status %s" % (log.night, log.status)
        cycle = "no run has been made" if log.cycle is None else "cycle %d %s" % (
            log.cycle, "is open" if log.is_open else "has ended")
        if log.is_open and log.cycle is not None:
            cycle += self.progress()
        if self.left is not None:
            cycle += ", %s left" % many(self.left, "night")
        whole = "%d on %s" % (log.whole.cycle, log.whole.began[:10] or "a day that is not known"
                              ) if log.whole else "none"
        is_early = self.unknown and not self.is_unknown
        return [night + (", under way" if log.is_under_way else ""), cycle,
                "last whole cycle " + whole, *([] if self.are_said else [self.findings_text()]),
                *(["what is gone is not known yet"] if is_early else [])]

    def progress(self) -> str:
        """How far the open cycle is: by the cost of the last one, or else what it has read."""
        log = self.log
        if self.done is not None:
            return ", %d of 100 done" % self.done
        place = " up to " + BREAKING.sub("?", log.place) if log.place else ""
        return ", %s with %s read in %s%s, how much is left is not known" % (
            many(log.files, "file"), size(log.spent - log.files),
            many(log.count_nights(), "night"), place)

    def why_not_reckoned(self) -> str:
        """Why nobody knows how much of the open cycle is left."""
        return "not known: " + ("the log does not say what the last cycle read" if self.log.closed
                                else "no cycle has ended yet, so nothing says what one reads")

    def figures(self) -> str:
        if not self.log.night:
            return ""
        # Monitors take U for a value that is not known.
        gone = "U" if self.unknown and not self.gone else self.gone
        lost = "U" if self.unknown and not self.gone else self.found.lost_objects()
        found = [("age", "%ds" % self.age, 3600), ("findings", self.open, 1),
                 ("damaged", self.found.damaged, 1), ("gone", gone, 1), ("lost", lost, 1)]
        text = " |" + "".join(" %s=%s;%s;0" % (name, value, ";".join(
            "" if limit is None else str(limit * unit) for limit in self.limits[name]))
                              for name, value, unit in found)
        return text + (" progress=%d%%;;;0;100" % self.done if self.done is not None else "")


@dataclass
class Root:
    """A folder of state, its storage root, and how its nights stand; or why nobody can say it."""
    folder: str
    root: str
    state: State | None = None
    standing: Standing | None = None
    error: str = ""

    @property
    def level(self) -> int:
        return self.standing.level if self.standing else 3

    def line(self) -> str:
        """The line for a monitor, without its figures."""
        return self.standing.line(self.root) if self.standing else (
            "OCFL-SCRUB UNKNOWN - " + BREAKING.sub("?", self.error))


def worst_of(roots: Sequence[Root]) -> int:
    """The level of several roots: what needs somebody goes before what nobody knows."""
    return max((it.level for it in roots), key=(0, 1, 3, 2).index)


def summary(roots: Sequence[Root]) -> str:
    """What is said of several roots before the line of each."""
    count = Counter(it.level for it in roots)
    return "OCFL-SCRUB %s - %s: %s" % (
        WORDS[worst_of(roots)], many(len(roots), "storage root"),
        ", ".join("%d %s" % (count[level], WORDS[level]) for level in (2, 3, 1, 0) if count[level]))


# Figures for Prometheus

def metrics_text(roots: Sequence[Root]) -> str:
    """The figures of all roots. One of which nobody can say anything has had no night."""
    head = "# HELP ocfl_scrub_%s %s\n# TYPE ocfl_scrub_%s gauge\n"
    text = ""
    for name, more, value in FIGURES:
        samples = [(it, figure_of(it, name, value)) for it in roots]
        made = "".join("ocfl_scrub_%s{%s} %s\n" % (
            name, labels_of(it), "%.6g" % figure if figure != int(figure) else "%d" % figure)
                       for it, figure in samples if figure is not None)
        text += head % (name, more, name) + made if made else ""
    name = "open_findings_by_code"
    made = "".join('ocfl_scrub_%s{%s,code="%s"} %d\n' % (name, labels_of(it), code, count)
                   for it in roots if it.standing and it.standing.log.night
                   for code, count in sorted(it.standing.found.count.items()))
    return text + (head % (name, "The same by their codes.", name) + made if made else "")


def figure_of(root: Root, name: str, value: Callable[[Standing], float | None]) -> float | None:
    if root.standing and root.standing.log.night:
        return value(root.standing)
    return 0 if name == FIGURES[0][0] else None


def labels_of(root: Root) -> str:
    return 'root="%s",state="%s"' % (label(root.root), label(os.path.realpath(root.folder)))


def of_closed(value: Callable[[Standing, Entry], float]) -> Callable[[Standing], float | None]:
    """A figure of the last closed cycle."""
    return lambda it: value(it, it.log.closed) if it.log.closed else None


def of_lost(word: str) -> Callable[[Standing], float | None]:
    """A figure of what is gone: not known if there is none, and some cycle was not compared."""
    return lambda it: it.found.lost[word] or (None if it.unknown else 0)


def with_reason(place: str, why: str) -> str:
    return "%s (%s)" % (place, why) if why else place


# The figures for Prometheus: the name, what it is, and its value, None where that is not known.
FIGURES: list[tuple[str, str, Callable[[Standing], float | None]]] = [
    ("last_night_timestamp_seconds", "When the last night began.",
     lambda it: seconds_of(it.log.night)),
    ("last_night_age_seconds", "How long ago the last night began, as this was written.",
     lambda it: it.age),
    ("last_night_status", "Status of the last night; 255 where it was cut.",
     lambda it: 255 if it.log.status == "cut" else int(it.log.status)),
    ("last_night_run_seconds", "How long the runs of the last night took.",
     lambda it: it.log.seconds),
    ("cycle", "The cycle of the last run.", lambda it: it.log.cycle),
    ("cycle_read_bytes", "Bytes that the cycle has read.",
     lambda it: None if it.log.cycle is None else it.log.spent - it.log.files),
    ("cycle_read_files", "Files that the cycle has read.",
     lambda it: None if it.log.cycle is None else it.log.files),
    ("closed_cycle", "The last closed cycle.", of_closed(lambda it, closed: closed.cycle)),
    ("closed_cycle_cost", "What it read: bytes, and 1 for each file.",
     of_closed(lambda it, closed: closed.spent)),
    ("closed_cycle_whole", "1 where its report is whole.",
     of_closed(lambda it, closed: it.log.closing.is_whole)),
    ("closed_cycle_unlooked_files", "Files that it no longer looked at.",
     lambda it: it.log.closing.unlooked if it.log.closing.compared else None),
    ("closed_cycle_objects_back", "Objects that were gone or no longer declared, and are back.",
     lambda it: it.log.closing.back if it.log.closing.compared else None),
    ("cycle_progress_ratio", "How far the cycle is, by the last one.",
     lambda it: None if it.done is None else it.done / 100),
    ("nights_left", "Nights that the cycle still needs.", lambda it: it.left),
    ("whole_cycle_timestamp_seconds", "When the last whole cycle ended.",
     lambda it: seconds_of(it.log.whole.began) if it.log.whole and it.log.whole.began else None),
    ("gone_known", "1 where each closed cycle was compared with one before it.",
     lambda it: not it.unknown),
    ("gone_objects", "Objects that were gone and are not back.", of_lost("object")),
    ("undeclared_objects", "Objects that are no longer declared.", of_lost("undeclared")),
    ("gone_files", "Files that were gone and are not back.", of_lost("file")),
    ("expected_objects_missing", "Expected objects that are missing.",
     lambda it: it.found.lost["expected"] if it.log.searched else None),
    ("known_findings", "Open findings that are known.", lambda it: it.found.known),
    ("damaged", "Files that are damaged or unreadable by open findings that are not known.",
     lambda it: it.found.damaged),
    ("open_findings", "Open findings that are not known.", lambda it: it.open)]


def label(text: str) -> str:
    return text.replace("\\", "\\\\").replace('"', '\\"').replace("\n", "\\n")


def span(seconds: int) -> str:
    return "%d h" % (seconds // 3600) if seconds < 172800 else "%d days" % (seconds // 86400)


def put_metrics(text: str, path: str) -> None:
    """Exchanges the file of figures as a whole. The collector reads the names that end in `.prom`,
    so the new one has another ending until then."""
    try:
        with tempfile.NamedTemporaryFile(prefix=os.path.basename(path) + ".", delete=False,
                                         dir=os.path.dirname(path) or ".") as file:
            try:
                file.write(files.bytes_of(text))
                file.flush()
                os.chmod(file.name, 0o644)
                os.replace(file.name, path)
            except OSError:
                os.remove(file.name)
                raise
    except OSError as error:
        raise Failed("status: %s could not be written" % path) from error


def standing_of(state: State, known: str | None, weights: Weights, limits: dict[str, Limit],
                now: int) -> Standing:
    """How the nights of a folder stand. Fails if there is no folder, or if something in it cannot
    be read."""
    if not os.path.isdir(state.path):
        raise Failed(state.path + " is not a folder")
    state.refuse_links()
    leave_out, log = Known(known), Log()
    for entry in state.entries(True) if state.has_log() else ():
        log.take(entry)
    if state.is_held():
        log.unlogged = 0
    log.searched = last_search(state, log.comparisons)
    found = findings_of(state, leave_out, weights, log.searched)
    last = log.closed.cycle if log.closed else 0
    if log.closing.gone and not state.find("gone", last):
        # The list is not there, so the log alone knows of them.
        found.lost["object"] += log.closing.gone
    return Standing(log, found, limits, now, state.waiting_part())


def last_search(state: State, comparisons: Comparisons) -> int:
    """The last cycle that searched for expected objects: it says so, or some are in its list. 0 if
    none did."""
    for cycle in sorted(comparisons.closings, reverse=True):
        closing = comparisons.closings[cycle]
        if closing.list or closing.compared is None and kinds_in(
                state.find("gone", cycle))[b"expected"]:
            return cycle
    return 0
