"""The list that `--expected` takes: made of OCFL ids by the inventories of a storage root or of a
report, and compared with a report."""
from __future__ import annotations

import os
import re
import sys
from typing import Iterator
from urllib.parse import unquote_to_bytes

from . import files, report, standing
from .objects import id_of, is_root, open_folder
from .shared import Failed, many
from .state import State

# What the declaration of an object is called.
DECLARATION = re.compile(b"0=ocfl_object_[0-9]")
# What a report line does not have as it is.
ESCAPED = re.compile(rb"[^ -$&-~]")
# The folder at the top of a storage root that is no part of its hierarchy.
EXTENSIONS = b"extensions"
# How a line of a list begins that is a remark, and one of a list of what is gone.
REMARK, EXPECTED = b"#", standing.EXPECTED[0]


def escaped(name: bytes) -> bytes:
    """A name as reports write it."""
    return ESCAPED.sub(lambda it: b"%%%02X" % it[0][0], name)


def shown(name: str) -> str:
    """An id for a message: without what a terminal would not show as it is."""
    return name if name.isprintable() else escaped(files.bytes_of(name)).decode()


def is_text(place: bytes) -> bool:
    """Whether the names of a place are UTF-8, without which no night reads it."""
    try:
        unquote_to_bytes(place).decode()
    except UnicodeDecodeError:
        return False
    return True


def entries(root: str, names: list[bytes]) -> tuple[list[bytes], bool]:
    """The folders in a folder of a storage root, by their names, and whether it is an object. No
    link is followed."""
    folder = open_folder(root, names)
    try:
        with os.scandir(folder) as found:
            listed = [(os.fsencode(it.name), it.is_dir(follow_symlinks=False)) for it in found]
    finally:
        os.close(folder)
    return (sorted(name for name, is_folder in listed if is_folder),
            any(DECLARATION.match(name) for name, _ in listed))


def objects_in(root: str) -> Iterator[bytes]:
    """The places of all objects of a storage root."""
    rest: list[list[bytes]] = [[]]
    while rest:
        names = rest.pop()
        folders, is_object = entries(root, names)
        if is_object and names:
            yield b"/".join(map(escaped, names))
        else:
            rest += [[*names, it] for it in reversed(folders) if names or it != EXTENSIONS]


def ids_in(path: str) -> dict[str, list[bytes]]:
    """The ids that a file lists, one a line, each with a place for those of its objects."""
    lines = (files.text_of(it.removesuffix(b"\r")) for it in files.lines(path))
    return {line: [] for line in lines if line}


def show(state: State, path: str) -> int:
    """Writes the places of the objects with the ids of a file, one a line, and names each id that
    no object has, or several have. Gives 1 if there is one, or if an object has no id that can be
    read or a place that no list has, and else 0."""
    root, wanted = state.bound_to("root"), ids_in(path)
    if not wanted:
        raise Failed(path + " lists no id", 2)
    if not is_root(root):
        raise Failed("there is no storage root at %s: is it mounted?" % (root or state.path))
    odd_ones = 0
    for place in objects_in(root):
        found = id_of(root, place) if is_text(place) else None
        if found is None:
            odd_ones += 1
            files.print_error("no id can be read: " + place.decode())
        elif found in wanted:
            wanted[found].append(place)
            odd_ones += write_place(place)
    odd = [it for it, places in wanted.items() if len(places) != 1]
    for name in odd:
        files.print_error("%s this id: %s" % (
            many(len(wanted[name]), "object") + " have" if wanted[name] else "no object has",
            shown(name)))
    return int(bool(odd or odd_ones))


def write_place(place: bytes) -> int:
    """Writes a place as a line of a list. Gives 1 if that lists nothing."""
    sys.stdout.write(place.decode() + "\n")
    if not place.startswith(REMARK):
        return 0
    files.print_error("a line that begins with # lists nothing: " + place.decode())
    return 1


def show_reported(state: State) -> int:
    """Writes the places of the objects that the last whole report has, one a line; if none is
    whole, those of the last one, which says so. Gives 1 if the list lacks objects, and else 0."""
    closed = state.closed()
    if not closed:
        raise Failed("no cycle of %s is closed" % state.path)
    last = ([it for it in closed if it.is_whole] or closed)[-1]
    odd_ones, before = int(not last.is_whole), b""
    for place in (it for places in report.objects(last.path) for it in places):
        odd_ones += write_place(place) if place != before else 0
        before = place
    if not last.is_whole:
        files.print_error("%s is not whole: the list lacks objects that were left out" % last.path)
    return int(odd_ones > 0)


def listed_in(path: str) -> Iterator[bytes]:
    """The places that a list has: neither empty lines nor remarks."""
    for line in files.lines(path):
        place = line.rstrip(b"/")
        if place and not place.startswith(REMARK):
            yield place


def show_missing(path: str, closed: str) -> int:
    """Writes the objects of a list that have no line of an object in a report, as a list of what is
    gone has them. Gives 1 if there is one."""
    if os.path.basename(closed).startswith("incomplete-"):
        raise Failed(closed + " is not whole: what it lacks may have been left out")
    if next(listed_in(path), None) is None:
        raise Failed(path + " lists no object", 2)
    count = 0
    for line in standing.left_over((EXPECTED + it for it in listed_in(path)), [[closed]]):
        count += 1
        sys.stdout.write(line.decode() + "\n")
    return int(count > 0)
