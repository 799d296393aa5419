"""All reports of a folder of state as an SQLite database, and what only that can answer."""
from __future__ import annotations

import os
import re
import sqlite3
import sys
import tempfile
from datetime import datetime
from typing import Iterator

from .log import Entry
from .report import Reading
from .shared import Failed
from .state import JoinedState, State
from .weights import Weights

TABLES = """
create table run (began text, status, cycle integer, run integer, lines integer, cost integer,
  said text, spent integer, files integer, seconds integer, bytes integer, stands text, night text);
create table line (cycle integer, number integer, code text, path text, detail text,
  primary key (cycle, number)) without rowid;
create index run_lines on run (cycle, lines, began);
create view dated as
  select line.*, (select began from run
    where run.cycle = line.cycle and run.lines >= line.number
    order by run.lines, began limit 1) as began from line;
"""
# Each content file of any report whose last line `ok` is of a run that began before :date, or that
# has none: when that run began, the path, and code and cycle of the path's last line. So files
# that are gone, or whose object is not read any more, are here too; their last line is of an
# earlier cycle.
UNVERIFIED = """
with
content as (
  select distinct path from line
  where (code = 'ok' and detail <> '-') or code in (OF_FILES)
  or (code in ('E058', 'E060', 'E061') and path glob '?*/v[0-9]*/inventory.json')
),
verified as (
  select path, max(began) as began from dated
  where code = 'ok' and detail <> '-'
  group by path
),
last as (
  select path, code, cycle, max(cycle * 1099511627776 + number) as newest from line
  group by path
)
select coalesce(verified.began, 'never'), content.path, last.code, last.cycle
from content
join last on last.path = content.path
left join verified on verified.path = content.path
where coalesce(verified.began, '') < :date
order by content.path;
""".replace("OF_FILES", ", ".join(sorted("'%s'" % it.decode() for it in Weights().of_files)))
COLUMNS = ("began", "kind", "cycle", "run", "lines", "cost", "said", "spent", "files", "seconds",
           "bytes", "stands", "night")
MOST = (1 << 63) - 1
DATE = re.compile(r"\d{4}-\d\d-\d\d(T\d\d:\d\d:\d\dZ)?")


def make(state: State, path: str) -> None:
    """Puts all reports of the folder into a new database."""
    state.refuse_links()
    if os.path.lexists(path):
        raise Failed(path + " is there already", 2)
    if not state.has_log():
        raise Failed("there is no log of nights in " + state.path, 2)
    try:
        fill(state, path)
    except BaseException:
        os.remove(path)
        raise


def fill(state: State, path: str) -> None:
    database = sqlite3.connect(path, isolation_level=None)
    try:
        database.executescript("pragma journal_mode = off; pragma synchronous = off;" + TABLES)
        database.execute("begin")
        database.executemany("insert into run values (%s)" % ", ".join("?" * len(COLUMNS)), (
            [stored(getattr(run, name)) for name in COLUMNS] for run in runs(state)))
        for cycle, report in reports(state):
            database.executemany("insert into line values (?, ?, ?, ?, ?)", numbered(cycle, report))
        database.execute("create index line_path on line (path, cycle)")
        database.execute("commit")
    except sqlite3.Error as error:
        raise Failed("%s could not be written: %s" % (path, error)) from error
    finally:
        database.close()


def stored(value: object) -> object:
    """A value as the database can hold it. The greatest number stands for all above it."""
    return min(value, MOST) if isinstance(value, int) else value


def runs(state: State) -> Iterator[Entry]:
    """The runs of the log. Of a cycle that was joined of parts they come in the order of its
    report."""
    joined = {it.cycle for it in state.closed()} if isinstance(state, JoinedState) else set()
    for cycle in sorted(joined):
        yield from state.runs(cycle)
    yield from (it for it in state.entries() if it.is_run() and it.cycle not in joined)


def reports(state: State) -> Iterator[tuple[int, str]]:
    """The reports of the folder with their cycles, the open one last."""
    for report in state.closed():
        yield report.cycle, report.path
    opened = state.open_report()
    if opened and os.path.getsize(opened):
        yield next((it.cycle + (it.stands == "ended") for it in state.standing()), 0), opened


def numbered(cycle: int, report: str) -> Iterator[tuple[int, int, str, str, str]]:
    """The lines of a report, each after its cycle and its number."""
    reading = Reading(report)
    for block in reading.blocks():
        for number, line in enumerate(block[1:-1].decode().split("\n"), reading.lines + 1):
            if line:
                code, path, detail = line.split("\t")
                yield cycle, number, code, path, detail


def show_unverified(date: str, state: State) -> None:
    """Writes the content files that no night has found right since a date."""
    if not is_date(date):
        raise Failed(date + " is not a date like 2025-03-01", 2)
    with tempfile.TemporaryDirectory() as folder:
        make(state, folder + "/database")
        database = sqlite3.connect(folder + "/database")
        for row in database.execute(UNVERIFIED, {"date": date}):
            sys.stdout.write("%s\t%s\t%s\t%s\n" % row)
        database.close()


def is_date(text: str) -> bool:
    """Whether this is a day or a time as the log has it."""
    try:
        return bool(DATE.fullmatch(text) and datetime.fromisoformat(text.rstrip("Z")))
    except ValueError:
        return False
