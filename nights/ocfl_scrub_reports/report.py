"""Reports by the grammar of their lines, some thousand lines at a time.

A block is a line feed and then whole lines, so that each line stands between two line feeds. The
searches below go over a whole block at once; a loop over lines would take many times as long.
"""
from __future__ import annotations

import hashlib
import re
from typing import Callable, Container, Iterable, Iterator, NamedTuple, Sequence

from . import files
from .shared import Failed
from .weights import Weights

CODE = rb"ok|E[0-9]{3}|S[0-9]{2}"
ESCAPE = rb"%(?:[01][0-9A-F]|25|7F|[89A-F][0-9A-F])"
TEXT = rb"(?:[ -$&-~]|" + ESCAPE + rb")+"
LINE = re.compile(rb"(" + CODE + rb")\t(" + TEXT + rb")\t(" + TEXT + rb")")
PRINTABLE = bytes(range(0x20, 0x7F))
KNOWN_CODE = re.compile(rb"(?:E[0-9]{3}|S[0-9]{2})\t")
BAD_ESCAPE = re.compile(rb"%(?!" + ESCAPE[1:] + rb")")
# The lines that are not `ok`.
OTHER = re.compile(rb"\n(?!ok\t)([^\n]+)")
# All lines but those of content files that were found right.
APART = re.compile(rb"\n(?!ok\t[^\t\n]+\t[0-9])([^\t\n]+)\t([^\t\n]+)\t([^\n]+)")
RIGHT = re.compile(rb"\nok\t[^\t\n]+\t([0-9]+)")
# Lines of these codes are no findings: of what is right, and the notes.
NO_FINDINGS = (b"ok", b"S07", b"S09")
NOTES = (b"S07\t", b"S09\t")
# How many bytes the digests of a report in a checkpoint take as one piece.
PIECE = 4 << 20


class Line(NamedTuple):
    number: int
    code: bytes
    path: bytes
    detail: bytes

    def text(self) -> bytes:
        return b"\t".join(self[1:])

    def is_finding(self) -> bool:
        return self.code not in NO_FINDINGS


class Mark(NamedTuple):
    """What a checkpoint has of a report (docs/RULES.md, "Checkpoint text"): its bytes and lines,
    the digest that chains its whole pieces of 4 MiB, and that of what follows them."""
    bytes: int
    lines: int
    pieces: str
    tail: str


def mark_in(lines: Iterable[str], path: str) -> Mark:
    """The mark in the lines of a checkpoint."""
    found = dict(line.split(" ", 1) for line in lines if " " in line)
    sizes = found.get("report", "").split(" ")
    if len(sizes) != 2 or not all(map(str.isdecimal, sizes)):
        raise Failed(path + " does not say how long the report is")
    return Mark(int(sizes[0]), int(sizes[1]), found.get("pieces", ""), found.get("tail", ""))


class Marking:
    """The mark of a report, as its bytes come."""

    def __init__(self) -> None:
        self.chain, self.piece = "0" * 64, bytearray()
        self.bytes = self.lines = 0

    def take(self, data: bytes) -> None:
        self.bytes += len(data)
        self.lines += data.count(b"\n")
        self.piece += data
        while len(self.piece) >= PIECE:
            whole = self.chain.encode() + b"\n" + self.piece[:PIECE]
            self.chain = hashlib.sha256(whole).hexdigest()
            del self.piece[:PIECE]

    def mark(self) -> Mark:
        return Mark(self.bytes, self.lines, self.chain, hashlib.sha256(self.piece).hexdigest())


class Comparing:
    """Whether a report has these marks, one after the other, as its bytes come."""

    def __init__(self, marks: Sequence[Mark]) -> None:
        self.marks, self.made = marks, [Marking()]

    def take(self, data: bytes) -> None:
        while len(self.made) < len(self.marks):
            room = self.marks[len(self.made) - 1].bytes - self.made[-1].bytes
            if len(data) < room:
                break
            self.made[-1].take(data[:room])
            self.made.append(Marking())
            data = data[room:]
        self.made[-1].take(data)

    def are_same(self) -> bool:
        return [it.mark() for it in self.made] == list(self.marks)


class Reading:
    """One reading of a report, from its first line to its last."""

    def __init__(self, path: str, each_block: Callable[[bytes], object] | None = None) -> None:
        self.path, self.each_block = path, each_block
        # How many lines were read, and how many of them are no lines of a report.
        self.lines = self.odd = self.first_odd = 0
        # The lines of the last block that are not `ok`.
        self.others: list[bytes] = []

    def blocks(self) -> Iterator[bytes]:
        """The blocks of the report. What is no line of a report is an empty line in them."""
        for block in files.blocks(self.path):
            if self.each_block:
                self.each_block(block[1:])
            count = self.count_lines(block)
            if count is None:
                count = max(1, block.count(b"\n") - 1)
                block = self.emptied(block)
                self.others = OTHER.findall(block)
            yield block
            self.lines += count

    def count_lines(self, block: bytes) -> int | None:
        """How many lines a block has, or None unless all of them are lines of a report. Notes those
        that are not `ok`."""
        columns = block.translate(None, PRINTABLE)
        count = (len(columns) - 1) // 3
        if columns != b"\n" + b"\t\t\n" * count or b"\t\t" in block or b"\t\n" in block:
            return None
        if b"%" in block and BAD_ESCAPE.search(block):
            return None
        right = block.count(b"\nok\t")
        self.others = OTHER.findall(block) if right < count else []
        is_whole = right + len(self.others) == count and all(map(KNOWN_CODE.match, self.others))
        return count if is_whole else None

    def emptied(self, block: bytes) -> bytes:
        """A block in which an empty line is in place of each that is no line of a report."""
        kept = [b""]
        for number, line in enumerate(block[1:].split(b"\n")[:-1], self.lines + 1):
            kept.append(line if LINE.fullmatch(line) else self.note_odd(number))
        if not block.endswith(b"\n"):
            self.note_odd(self.lines + len(kept))
        return b"\n".join(kept) + b"\n"

    def note_odd(self, number: int) -> bytes:
        self.odd += 1
        self.first_odd = self.first_odd or number
        return b""

    def refuse_odd(self) -> None:
        """Fails if something that was read is no line of a report."""
        if self.odd:
            raise Failed("%s: %s not of a report, the first is line %d" % (
                self.path, "a line is" if self.odd == 1 else "%d lines are" % self.odd,
                self.first_odd))

    def whole(self) -> Iterator[bytes]:
        """The blocks; fails at the end if something is no line of a report."""
        yield from self.blocks()
        self.refuse_odd()

    def apart(self) -> Iterator[Line]:
        """The lines of all but content files that were found right, with their numbers."""
        for block in self.blocks():
            number, at = self.lines + 1, 1
            for found in APART.finditer(block):
                number += block.count(b"\n", at, found.start() + 1)
                at = found.start() + 1
                yield Line(number, *found.groups())


def findings(path: str, must_be_whole: bool = True,
             each_block: Callable[[bytes], object] | None = None) -> Iterator[list[bytes]]:
    """The findings of a report as their lines, many at a time."""
    reading = Reading(path, each_block)
    for _ in reading.whole() if must_be_whole else reading.blocks():
        if reading.others:
            yield [line for line in reading.others if not line.startswith(NOTES)]


def paths(path: str) -> Iterator[list[bytes]]:
    """The paths of all lines, many at a time."""
    for block in Reading(path).blocks():
        yield block.split(b"\t")[1::2]


def lines_at(path: str, places: Container[bytes]) -> Iterator[Line]:
    """The lines at these places."""
    reading = Reading(path)
    for block in reading.blocks():
        if any(it in places for it in block.split(b"\t")[1::2]):
            for number, line in enumerate(block[1:-1].split(b"\n"), reading.lines + 1):
                columns = line.split(b"\t")
                if len(columns) == 3 and columns[1] in places:
                    yield Line(number, *columns)


def right_ones(path: str, sizes: Iterable[int] | None) -> Iterator[tuple[bytes, bytes, int]]:
    """The content files that were found right, those of these sizes or all: the object before each,
    its place and its size."""
    which = rb"[0-9]+" if sizes is None else b"|".join(b"%d" % it for it in sorted(sizes))
    right = re.compile(rb"\nok\t([^\t\n]+)\t(%s)(?=\n)" % which)
    weights, last = Weights(), b""
    for block in Reading(path).blocks():
        heads = [(found.start(), found[2]) for found in APART.finditer(block)
                 if weights.is_of_object(*found.groups())]
        at = 0
        for found in right.finditer(block):
            while at < len(heads) and heads[at][0] < found.start():
                last, at = heads[at][1], at + 1
            if is_within(found[1], last):
                yield last, found[1], int(found[2])
        last = heads[-1][1] if heads else last


def objects(path: str) -> Iterator[list[bytes]]:
    """The places of all lines of objects, many at a time."""
    weights = Weights()
    for block in Reading(path).blocks():
        yield [found[2] for found in APART.finditer(block) if weights.is_of_object(*found.groups())]


def is_within(path: bytes, above: bytes) -> bool:
    """Whether a place is at another one or below it."""
    return path == above or path.startswith(above + b"/")
