"""What is open: findings that no later report came to, and losses that did not come back.

Reports are read once more for each 100,000 of these, so that no more are in memory.
"""
from __future__ import annotations

from collections import Counter
from itertools import islice
from typing import Iterable, Iterator, NamedTuple

from . import files, report
from .state import State, numbered_in

HELD = 100000
OBJECTS = (b"object\t", b"undeclared\t", b"expected\t")
LOSSES = (b"object\t", b"undeclared\t", b"file\t")
EXPECTED = (b"expected\t",)
# Objects whose root inventory is another one: of the same version, an older one or a newer one.
MOVED = (b"changed\t", b"older\t", b"newer\t")
# The cycle of what is open still.
OPEN = 1 << 63


class Group(NamedTuple):
    """Reports of which each place is in one at most: a closed report alone, or those of parts in
    one cycle."""
    cycle: int
    reports: list[str]


def left_over(items: Iterable[bytes], later: list[list[str]],
              lists: Iterable[str] = ()) -> Iterator[bytes]:
    """Those of these lines whose place has no line in any later report, nor in any of these lists
    of what is gone. A line's second column is its place. What is said of an object needs a line of
    an object there."""
    rest = iter(items)
    again = list(lists)
    while held := list(islice(rest, HELD)):
        objects: dict[bytes, list[bytes]] = {}
        places: dict[bytes, list[bytes]] = {}
        for line in held:
            which = objects if line.startswith(OBJECTS) else places
            which.setdefault(line.split(b"\t", 2)[1], []).append(line)
        for path in (path for group in later for path in group):
            drop_seen(places, report.paths(path) if places else ())
            drop_seen(objects, report.objects(path) if objects else ())
        for path in again:
            drop_seen(places, places_gone(path) if places else ())
            drop_seen(objects, places_gone(path) if objects else ())
        for lines in [*objects.values(), *places.values()]:
            yield from lines


def drop_seen(places: dict[bytes, list[bytes]], paths: Iterable[list[bytes]]) -> None:
    """Removes the places that are seen. They come many at a time."""
    for seen in paths:
        if not places.keys().isdisjoint(seen):
            for place in seen:
                places.pop(place, None)


def places_gone(path: str) -> Iterator[list[bytes]]:
    """The places of what a list calls gone, one at a time."""
    return ([line.split(b"\t", 1)[1]] for line in files.lines(path) if line.startswith(LOSSES))


def losses_in(path: str) -> Iterator[bytes]:
    """What a list calls gone. Files of an object that it calls gone, or no longer declared, are not
    counted one by one: no night looked at them."""
    last = b""
    for line in files.lines(path):
        place = line.partition(b"\t")[2]
        if line.startswith(OBJECTS[:2]):
            last = place
            yield line
        elif line.startswith(b"file\t") and not report.is_within(place, last):
            yield line


def kinds_gone(path: str | None) -> Counter[bytes]:
    """How many lines of each kind a list of what is gone has, without files that nobody looked
    at."""
    if path is None:
        return Counter()
    count = Counter(line.partition(b"\t")[0] for line in losses_in(path))
    count[b"expected"] = sum(line.startswith(EXPECTED) for line in files.lines(path))
    return count


def kinds_moved(path: str | None) -> Counter[bytes]:
    """How many lines of each kind a list has of objects whose root inventory is another one."""
    return Counter(line.partition(b"\t")[0] for line in (files.lines(path) if path else ())
                   if line.startswith(MOVED))


def open_findings(state: State) -> Iterator[bytes]:
    """The findings that are open, those of the newest report first: the last whole report has them
    or a later one, and no later report came to their places."""
    groups = groups_of(state)
    for at in reversed(range(len(groups))):
        found = (line for path in groups[at].reports
                 for lines in report.findings(path, must_be_whole=False) for line in lines)
        yield from left_over(found, [it.reports for it in groups[at + 1:]])


def groups_of(state: State, upto: int | None = None) -> list[Group]:
    """The last whole report, those after it and the open one; or those up to a cycle."""
    closed = [it for it in state.closed() if upto is None or it.cycle <= upto]
    whole = [at for at, it in enumerate(closed) if it.is_whole]
    groups = [Group(it.cycle, [it.path]) for it in closed[whole[-1] if whole else 0:]]
    if upto is None:
        groups += [Group(OPEN if cycle is None else cycle, paths)
                   for cycle, paths in state.open_reports()]
    return groups


def losses(state: State, upto: int | None = None) -> Iterator[bytes]:
    """The objects and files that were gone, and the objects that were no longer declared, when some
    cycle was closed, and that are not back, as lines of the lists, each once: up to a cycle, or up
    to now. What is back has a line in the last whole report or in one after it."""
    lists = [it for it in numbered_in(state.reports, "gone") if upto is None or it.cycle <= upto]
    groups = groups_of(state, upto)
    for at in reversed(range(len(lists))):
        later = [it.reports for it in groups if it.cycle > lists[at].cycle]
        yield from left_over(losses_in(lists[at].path), later, [it.path for it in lists[at + 1:]])


def missing(state: State, cycle: int) -> Iterator[bytes]:
    """The expected objects that were missing when a cycle was closed, and have no line since, as
    lines of its list."""
    path = state.find("gone", cycle)
    lost = (line for line in files.lines(path) if line.startswith(EXPECTED)) if path else iter(())
    yield from left_over(lost, [it.reports for it in groups_of(state) if it.cycle > cycle])
