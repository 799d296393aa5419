"""The folder of state of `ocfl-scrub night`, and that of `ocfl-scrub join` with a folder for each
part: what they are bound to, and which reports and lists lie in them."""
from __future__ import annotations

import fcntl
import json
from array import array
import os
import re
import sqlite3
import subprocess
from dataclasses import dataclass, replace
from typing import Any, Iterable, Iterator, Sequence
from urllib.parse import unquote_to_bytes

from . import files
from .log import ALL_LINES, Entry, Joining, Telling, in_brief, number, row_of, time_of
from .report import Mark, mark_in
from .shared import Failed, find_program, refuse_links

NUMBERED = re.compile(r"([a-z]+)-([0-9]+)(\.gz)?")
PART = re.compile("part-[0-9]{6,}")
NOT_KNOWN = "not known"
# The first line of a checkpoint; the second is that of an audit with `--inventories`.
CHECKPOINTS = (b"ocfl-scrub checkpoint 1", b"ocfl-scrub checkpoint 2")
# A time before this one, in 2020, is that of a clock that was not set.
NO_TIME = 1577836800
# What lies in a folder of the scripts that made nights before the program did, and in one of the
# program's.
OF_SCRIPTS = ("cursor", "nights", "root", "parts-000001")
OWN = ("checkpoint", "log")


@dataclass(frozen=True)
class Closed:
    """A closed report, or a list beside one."""
    cycle: int
    is_whole: bool
    path: str


def cycle_name(kind: str, cycle: int) -> str:
    return "%s-%06d" % (kind, cycle)


def find(folder: str, kind: str, cycle: int) -> str | None:
    """The file of a kind and a cycle in a folder of reports, plain or compressed."""
    path = os.path.join(folder, cycle_name(kind, cycle))
    refuse_links(path, path + ".gz")
    return next((it for it in (path, path + ".gz") if files.is_file(it)), None)


def numbered_in(folder: str, *kinds: str) -> list[Closed]:
    """The files of these kinds in a folder of reports, in the order of their cycles: of a file that
    lies there plain and compressed the plain one. What somebody copied there under another name is
    none, and a link is refused."""
    found: dict[tuple[int, str], Closed] = {}
    for name in files.names_in(folder):
        named = NUMBERED.fullmatch(name)
        if named and named[1] in kinds:
            path, cycle = os.path.join(folder, name), int(named[2])
            refuse_links(path)
            found.setdefault((cycle, named[1]), Closed(cycle, named[1] == "cycle", path))
    return sorted(found.values(), key=lambda it: it.cycle)


def closed_in(folder: str) -> list[Closed]:
    """The closed reports of a folder of reports."""
    return numbered_in(folder, "cycle", "incomplete")


def is_held(folder: str) -> bool:
    """Whether a night is under way in a folder, as far as its user lets anybody know."""
    try:
        lock = os.open(os.path.join(folder, "lock"), os.O_RDONLY | os.O_NOFOLLOW | os.O_NONBLOCK)
    except OSError as error:
        return isinstance(error, PermissionError)
    with open(lock, "rb") as file:
        try:
            fcntl.flock(file, fcntl.LOCK_SH | fcntl.LOCK_NB)
        except BlockingIOError:
            return True
    return False


class State:
    """A folder of `ocfl-scrub night`."""

    def __init__(self, path: str) -> None:
        self.path = path
        self.reports = self.at("reports")
        # Whether this process holds the lock.
        self.is_ours = False

    def at(self, name: str) -> str:
        return os.path.join(self.path, name)

    def refuse_links(self) -> None:
        refuse_links(*map(self.at, ("checkpoint", "report", "reports", "log", "lock", "stop")))

    def is_held(self) -> bool:
        return not self.is_ours and is_held(self.path)

    # The log

    def has_log(self) -> bool:
        return os.path.isfile(self.at("log"))

    def rows(self, is_brief: bool = False) -> Iterator[dict[str, Any]]:
        """The rows of the log; in brief without those of runs, for nights that have ended."""
        log = self.at("log")
        lines = files.lines(log) if os.path.isfile(log) else iter(())
        return in_brief(lines) if is_brief else filter(None, map(row_of, lines))

    def entries(self, is_brief: bool = False) -> Iterator[Entry]:
        """What the log says, in its order; in brief with one run for those of a night that has
        ended."""
        telling = Telling(self)
        for row in self.rows(is_brief):
            yield from telling.take(row)
        yield from telling.end_unless_held()
        yield from telling.unlogged()
        yield from self.standing()

    def runs(self, cycle: int, is_brief: bool = False) -> Iterator[Entry]:
        """The runs of a cycle in the order of its report, each with the program of its night."""
        found, programs = [], {}
        for it in self.entries(is_brief):
            if it.kind in ("began", "told"):
                programs[it.night] = it.program or programs.get(it.night, "")
            elif it.cycle == cycle and it.is_run():
                found.append(it)
        return (replace(it, program=it.program or programs.get(it.night, "")) for it in found)

    # The checkpoint

    def checkpoint(self) -> dict[str, list[str]]:
        """The lines of the checkpoint by their first words, and as `stands` where its cursor does.
        Whether it is sound, the next night says."""
        path = self.at("checkpoint")
        if not os.path.isfile(path):
            return {}
        rows = files.lines(path)
        if next(rows, b"") not in CHECKPOINTS:
            raise Failed(path + " is not a checkpoint of this version")
        made: dict[str, list[str]] = {}
        last = ""
        for row in rows:
            name, _, value = files.text_of(row).partition(" ")
            made.setdefault(name, []).append(value)
            if name == "sha256":
                made["stands"] = [last]
            last = files.text_of(row)
        return made

    def standing(self) -> list[Entry]:
        """Where the cycle stands by the checkpoint. A night that was cut may have no row."""
        now = self.checkpoint()
        numbers = {name: int(values[0]) for name, values in now.items() if values[0].isdecimal()}
        if "cycle" not in numbers:
            return []
        stands = Entry("stands", cycle=numbers["cycle"], spent=numbers.get("spent", 0),
                       files=numbers.get("files", 0), runs=numbers.get("runs", 0),
                       stands=now.get("stands", [""])[0])
        has_lost = now.get("whole") == ["no"] and stands.stands != "ended"
        # The first of these lines is how many there are.
        left = [Entry("left", cycle=stands.cycle, said=it) for it in now.get("left", [])[1:]]
        return [stands, *[replace(stands, kind="lost")] * has_lost, *left]

    def refuse_damage(self) -> None:
        """Fails if the program refuses what says to which root the folder is bound."""
        path = self.at("checkpoint")
        done = subprocess.run([find_program(), "show", "--", path], stdout=subprocess.DEVNULL,
                              stdin=subprocess.DEVNULL, check=False)
        if done.returncode != 0:
            raise Failed(path + " is refused by the program")

    def bound_to(self, name: str) -> str:
        """What the folder is bound to: the path of the `root`, what it `declared`."""
        found = self.checkpoint().get(name, [""])[0]
        return files.text_of(unquote_to_bytes(found)) if name == "root" else found

    def options(self) -> list[str]:
        """The options of the audit that the folder's nights make."""
        return ["--inventories"] if self.bound_to("checks") == "inventories" else []

    def ends(self) -> dict[str, str]:
        """The ends of the part that the folder is about: `from` and `below`."""
        lines = self.checkpoint()
        return {name: lines[name][0] for name in ("from", "below") if name in lines}

    # Reports and lists

    def find(self, kind: str, cycle: int) -> str | None:
        return find(self.reports, kind, cycle)

    def find_report(self, cycle: int) -> str | None:
        """The closed report of a cycle."""
        return self.find("cycle", cycle) or self.find("incomplete", cycle)

    def marks(self, cycle: int) -> list[Mark] | None:
        """What the checkpoint that closed a cycle has of its report; None if it was not kept.
        Fails if the program refuses it."""
        path = self.find("checkpoint", cycle)
        if path is None:
            return None
        done = subprocess.run([find_program(), "show", "--", path], stdout=subprocess.PIPE,
                              stdin=subprocess.DEVNULL, check=False)
        if done.returncode != 0:
            raise Failed(path + " is refused by the program")
        return [mark_in(files.text_of(done.stdout).split("\n"), path)]

    def is_compared_later(self, cycle: int) -> bool:
        """Whether a night will still compare this cycle: the checkpoint that closed it is there,
        and neither its list of what is gone, nor that of a later cycle."""
        lists = [it.cycle for it in numbered_in(self.reports, "gone")]
        return self.find("checkpoint", cycle) is not None and max(lists, default=0) < cycle

    def closed(self) -> list[Closed]:
        return closed_in(self.reports)

    def last_closed(self) -> int:
        return max((it.cycle for it in self.closed()), default=0)

    def open_report(self) -> str | None:
        report = self.at("report")
        return report if os.path.isfile(report) else None

    def open_reports(self) -> list[tuple[int | None, list[str]]]:
        """The reports that are in no closed one of the folder, by the cycle, those of the open
        cycle last, with None."""
        report = self.open_report()
        return [(None, [report] if report else [])]

    # Parts

    def folders(self) -> list[State]:
        """The folders of the parts, in their order."""
        return []

    def closed_of_part(self, part: State) -> list[Closed]:
        """The closed reports of a part that are not joined yet."""
        joined = self.last_closed()
        return [it for it in part.closed() if it.cycle > joined]

    def waiting_part(self) -> tuple[str, int] | None:
        """Of parts: when the last night of the one began that waits longest for its next, and its
        number. None of those counts that are done with the open cycle."""
        return None


class JoinedState(State):
    """A folder of `ocfl-scrub join`. The nights of its parts that begin within half a day count as
    one, whose status is the worst of theirs."""

    def folders(self) -> list[State]:
        names = sorted(filter(PART.fullmatch, os.listdir(self.path)), key=lambda it: int(it[5:]))
        refuse_links(*map(self.at, names))
        return [State(self.at(name)) for name in names]

    def refuse_links(self) -> None:
        super().refuse_links()
        for part in self.folders():
            part.refuse_links()

    def is_held(self) -> bool:
        return any(part.is_held() for part in self.folders())

    def has_log(self) -> bool:
        return super().has_log() or any(part.has_log() for part in self.folders())

    def bound_to(self, name: str) -> str:
        return next(filter(None, (part.bound_to(name) for part in self.folders())), "")

    def refuse_damage(self) -> None:
        for part in self.folders()[:1]:
            part.refuse_damage()

    def marks(self, cycle: int) -> list[Mark] | None:
        """Those of the parts, whose reports follow one another in the joined one."""
        found = []
        for part in self.folders():
            path = part.find("checkpoint", cycle)
            if path is None:
                return None
            found.append(mark_in([files.text_of(it) for it in files.lines(path)], path))
        return found or None

    def entries(self, is_brief: bool = False) -> Iterator[Entry]:
        joining = Joining(self)
        for number_of_part, row in self.rows_by_time(is_brief):
            yield from joining.take(number_of_part, row)
        yield from joining.end()
        yield from self.standing()

    def standing(self) -> list[Entry]:
        """Where the last cycle stands in all parts together."""
        found = [it for part in self.folders() for it in part.standing()]
        cycle = max((it.cycle for it in found), default=0)
        of_cycle = [it for it in found if it.cycle == cycle and it.kind == "stands"]
        has_ended = cycle <= self.last_closed() or all(it.stands == "ended" for it in of_cycle) and len(
            of_cycle) == len(self.folders())
        stands = [replace(it, stands="ended" if has_ended else "",
                          spent=sum(one.spent for one in of_cycle),
                          files=sum(one.files for one in of_cycle),
                          runs=sum(one.runs for one in of_cycle)) for it in of_cycle[:1]]
        return stands + [it for it in found if it.kind == "left"]

    def rows_by_time(self, is_brief: bool) -> Iterator[tuple[int, dict[str, Any]]]:
        """The rows of all logs by their time, each after the number of its part, which is 0 for
        those of the folder itself. The rows of one log stay in their order, whatever its clock
        said. They can be more than memory has room for."""
        database = sqlite3.connect("")
        database.execute("create table row (time integer, part integer, line text)")
        for number_of_part, part in enumerate([State(self.path), *self.folders()]):
            self.add_rows(database, number_of_part, part.rows(is_brief))
        for number_of_part, line in database.execute(
                "select part, line from row order by time, part, rowid"):
            yield number_of_part, json.loads(line)
        database.close()

    @staticmethod
    def add_rows(database: sqlite3.Connection, part: int, rows: Iterable[dict[str, Any]]) -> None:
        """Adds the rows of a log, and then changes the times of those that are out of order."""
        first = database.execute("select count(*) from row").fetchone()[0] + 1
        times = array("q")
        for row in rows:
            times.append(min(number(row, "time"), 1 << 62))
            database.execute("insert into row values (?, ?, ?)",
                             (times[-1], part, json.dumps(row)))
        database.executemany("update row set time = ? where rowid = ?", (
            (time, first + at) for at, time in enumerate(in_order(times)) if time != times[at]))

    def runs(self, cycle: int, is_brief: bool = False) -> Iterator[Entry]:
        """Those of all parts in the order of the joined report, with its numbers of lines."""
        before = 0
        for part in self.folders():
            lines = 0
            for entry in part.runs(cycle, is_brief):
                if entry.lines != ALL_LINES:
                    lines = max(lines, entry.lines)
                    entry = replace(entry, lines=before + entry.lines)
                yield entry
            before += lines

    def open_reports(self) -> list[tuple[int | None, list[str]]]:
        unjoined: dict[int, list[str]] = {}
        for part in self.folders():
            refuse_links(part.reports)
            for it in self.closed_of_part(part):
                unjoined.setdefault(it.cycle, []).append(it.path)
        opened = filter(None, (part.open_report() for part in self.folders()))
        return [*sorted(unjoined.items()), (None, list(opened))]

    def waiting_part(self) -> tuple[str, int] | None:
        joined, parts = self.last_closed(), self.folders()
        ended = [max((it.cycle for it in self.closed_of_part(part)), default=joined)
                 for part in parts]
        return min(((last_night(part), at) for at, part in enumerate(parts, 1)
                    if ended[at - 1] == min(ended)), default=None)


def last_night(part: State) -> str:
    """When the last night of a log began; empty if it has none."""
    last = ""
    for row in part.rows(True):
        last = time_of(row, "night") or last
    return last


def in_order(times: Sequence[int]) -> Sequence[int]:
    """The times of a log's rows so that none is above a later one. One of a clock that was ahead
    becomes that of the next row, and one of a clock without any time that of the row before."""
    made = array("q", times)
    for at in range(1, len(made)):
        if made[at] < NO_TIME:
            made[at] = made[at - 1]
    for at in range(len(made) - 1, 0, -1):
        made[at - 1] = min(made[at - 1], made[at])
    return made


def open_state(path: str) -> State:
    """The folder of state at a path, by what lies in it. Fails if it is one of the scripts."""
    def has(names: tuple[str, ...]) -> bool:
        return any(os.path.lexists(os.path.join(path, name)) for name in names)

    if has(("part-000001",)):
        return JoinedState(path)
    if has(OF_SCRIPTS) and not has(OWN):
        raise Failed(path + " is a folder of the scripts of version 1.0.0, which made nights "
                     "before the program did. Keep it for its reports, which `findings` and the "
                     "like take by their names, and start over in another folder: "
                     "ocfl-scrub night --create")
    return State(path)
