"""Questions to reports that need nothing but the reports."""
from __future__ import annotations

import contextlib
import json
import sqlite3
import sys
import tempfile
from collections import Counter
from itertools import islice
from typing import IO, Callable, Iterable, Iterator

from . import files, report
from .weights import Known, Weights

# So many findings are held in memory at once.
HELD = 100000
# So many files are the lines of a report divided into.
PARTS = 128


def show_findings(reports: list[str], older: str | None = None, known: str | None = None,
                  weights: Weights | None = None) -> None:
    """Writes the findings of reports: those that OLDER lacks, and that are not known; with weights
    the most serious first."""
    leave_out = Known(known)
    found = files.spool()
    for path in reports:
        for lines in report.findings(path):
            write_lines(found, leave_out.without(lines))
    if older:
        found = new_ones(found, older)
    if weights:
        found = by_weight(found, weights)
    files.pour(found)


def write_lines(out: IO[bytes], lines: list[bytes]) -> None:
    if lines:
        out.write(b"\n".join(lines) + b"\n")


def lines_of(spool: IO[bytes]) -> Iterator[bytes]:
    spool.seek(0)
    return (line.rstrip(b"\n") for line in spool)


def new_ones(found: IO[bytes], older: str) -> IO[bytes]:
    """Those of the lines that a report lacks, in their order. The report is read once for each
    100,000 lines, so that no more are in memory."""
    new, lines = files.spool(), lines_of(found)
    while held := dict.fromkeys(islice(lines, HELD)):
        for others in report.findings(older):
            for line in others:
                held.pop(line, None)
        write_lines(new, list(held))
    return new


def findings_in(path: str, each_block: Callable[[bytes], object] | None = None) -> IO[bytes]:
    """The findings of a report, which need not be whole, by one reading."""
    found = files.spool()
    for lines in report.findings(path, must_be_whole=False, each_block=each_block):
        write_lines(found, lines)
    return found


def count_lacking(found: IO[bytes], others: IO[bytes]) -> int:
    """How many of these lines are not among the others. No more than 100,000 are in memory."""
    count, lines = 0, lines_of(found)
    while held := list(islice(lines, HELD)):
        lacking = set(held).difference(lines_of(others))
        count += sum(line in lacking for line in held)
    return count


def by_weight(found: IO[bytes], weights: Weights) -> IO[bytes]:
    """These lines, the most serious first, and those of one weight in their order."""
    return gravest_first((weights.weight(line), line) for line in lines_of(found))


def gravest_first(weighed: Iterable[tuple[bytes, bytes]]) -> IO[bytes]:
    spools: dict[bytes, IO[bytes]] = {}
    for weight, line in weighed:
        if weight not in spools:
            spools[weight] = files.spool()
        spools[weight].write(line + b"\n")
    whole = files.spool()
    for weight in sorted(spools):
        files.pour(spools[weight], whole)
    return whole


def show_totals(reports: list[str]) -> None:
    """Writes how many lines of each code reports have."""
    counts: Counter[bytes] = Counter()
    for path in reports:
        reading = report.Reading(path)
        for _ in reading.whole():
            counts.update(line[:line.index(b"\t")] for line in reading.others)
        counts[b"ok"] += reading.lines
    counts[b"ok"] -= sum(counts.values()) - counts[b"ok"]
    for code in sorted(counts):
        if counts[code]:
            print("%s\t%d" % (code.decode(), counts[code]))


def show_bytes(reports: list[str]) -> None:
    """Writes how many content files reports call right, and the sum of their bytes."""
    count = total = 0
    for path in reports:
        for block in report.Reading(path).whole():
            sizes = report.RIGHT.findall(block)
            count += len(sizes)
            total += sum(map(int, sizes))
    print("%d files, %d bytes" % (count, total))


def show_json(reports: list[str]) -> None:
    """Writes each line of reports as a JSON object."""
    for path in reports:
        for _ in report.Reading(path).whole():
            pass
    for path in reports:
        for block in report.Reading(path).whole():
            for line in filter(None, block[1:-1].decode().split("\n")):
                sys.stdout.write(as_json(*line.split("\t")) + "\n")


def as_json(code: str, path: str, detail: str) -> str:
    line = {"code": code, "path": path, "detail": detail,
            "finding": code.encode() not in report.NO_FINDINGS}
    if code == "ok" and detail != "-":
        line["bytes"] = int(detail)
    return json.dumps(line, separators=(",", ":"))


def divided(path: str, opened: contextlib.ExitStack) -> list[IO[bytes]]:
    """The lines of a report in PARTS files, so that a line is in the same part of any report."""
    parts: list[IO[bytes]] = [opened.enter_context(tempfile.TemporaryFile())
                              for _ in range(PARTS)]
    for block in report.Reading(path).whole():
        lists: list[list[bytes]] = [[] for _ in parts]
        for line in block[1:-1].split(b"\n"):
            lists[hash(line) % PARTS].append(line)
        for part, lines in zip(parts, lists):
            write_lines(part, lines)
    return parts


def show_changed(older: str, newer: str) -> None:
    """Writes the lines that only one of two reports has, by path: `-` before those of the older
    one, `+` before those of the newer one. No more than a part of both is in memory."""
    database = sqlite3.connect("")
    database.execute("create table line (sign blob, path blob, line blob)")
    with contextlib.ExitStack() as opened:
        for parts in zip(divided(older, opened), divided(newer, opened)):
            before, after = (set(lines_of(part)) for part in parts)
            for sign, lines in ((b"-", before - after), (b"+", after - before)):
                database.executemany("insert into line values (?, ?, ?)", (
                    (sign, line.split(b"\t")[1], line) for line in lines))
    sys.stdout.flush()
    for sign, line in database.execute(
            "select sign, line from line order by path, sign desc, line"):
        sys.stdout.buffer.write(sign + b"\t" + line + b"\n")
    database.close()
