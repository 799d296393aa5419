"""Reads the files of edits, one for each source: `edits/place.edits` is of
`src/place.rt`, and `edits/specs/Path.edits` of `specs/Path.antt`. An edit is written so:

    [names_in_descending_order] gate for Name::cmp
    says: The greater name comes first.
    old: self.text.cmp(other.text)
    new: other.text.cmp(self.text)
    refused by: case `order_of_items`

`old` is text of one line that occurs once in the source, and `new` is what comes in its place.
Several such pairs change several places; after `file: src/order.rt` they change that file. What
follows the colon and one blank is taken as it is, and `new` may be empty. `gate` says that the gate
tries the edit. `for` names the public functions, divided by commas, for which an edit of a private
one counts. What refused the edit is there if it is known. A line that begins with `#` is a comment.
"""
from __future__ import annotations

import dataclasses
import os
import re

HEAD = re.compile(r"\[(\w+)\](?: (gate)(?: for (\S.*))?)?")
LINE = re.compile(r"(says|file|old|new|refused by):(?: (.*))?")
# The endings of sources and of files of edits, by the folder of the source.
ENDINGS = {"src": ".rt", "specs": ".antt", "proofs": ".antt"}


class Unreadable(Exception):
    """Says which line of a file of edits cannot be read, and why."""


@dataclasses.dataclass(frozen=True, order=True)
class Change:
    """What comes in the place of a text of a file."""
    file: str
    old: str
    new: str


@dataclasses.dataclass(frozen=True, order=True)
class Edit:
    """An edit: its crate, its path (the source without `src/` and ending, and its name), what it
    says, what it changes, whether the gate tries it, for which public functions it counts beside
    that in which it stands, and what refused it, if that is known."""
    crate: str
    path: str
    says: str
    changes: tuple[Change, ...]
    in_gate: bool = False
    callers: tuple[str, ...] = ()
    refused_by: str = ""

    @property
    def name(self) -> str:
        return os.path.basename(self.path)

    @property
    def source(self) -> str:
        return source_of(os.path.dirname(self.path))

    def text(self) -> str:
        """The edit as `rt` reads one."""
        return "".join("file: %s\nold: %s\nnew: %s\n" % dataclasses.astuple(change)
                       for change in self.changes)


def source_of(place: str) -> str:
    """The source that a file of edits changes, by its path below `edits` without the ending."""
    top = place.split("/")[0]
    path = place if top in ENDINGS else "src/" + place
    return path + ENDINGS[path.split("/")[0]]


def read(crate: str, place: str, text: str) -> list[Edit]:
    """The edits of a file, in its order."""
    found: list[Edit] = []
    for number, lines in blocks(text):
        try:
            found.append(edit_in(crate, place, lines))
        except ValueError as why:
            raise Unreadable("%s edits/%s.edits, line %d: %s" % (crate, place, number, why))
    return found


def blocks(text: str) -> list[tuple[int, list[str]]]:
    """The lines of each edit with the number of its first one, without comments. What comes before
    the first name is an edit without a name."""
    found: list[tuple[int, list[str]]] = []
    for number, line in enumerate(text.split("\n"), 1):
        if line.startswith("[") or line.strip() and not line.startswith("#") and not found:
            found.append((number, []))
        if line.strip() and not line.startswith("#"):
            found[-1][1].append(line)
    return found


def edit_in(crate: str, place: str, lines: list[str]) -> Edit:
    """The edit of these lines."""
    head = HEAD.fullmatch(lines[0])
    if head is None:
        raise ValueError("%r is no name in brackets, with or without a mark" % lines[0])
    words: dict[str, str] = {}
    pairs = pairs_in(lines[1:], source_of(place), words)
    if not words.get("says"):
        raise ValueError("%s says nothing" % head[1])
    if not pairs:
        raise ValueError("%s changes nothing" % head[1])
    callers = tuple(name.strip() for name in head[3].split(",")) if head[3] else ()
    return Edit(crate, place + "/" + head[1], words["says"], tuple(pairs), bool(head[2]), callers,
                words.get("refused by", ""))


def pairs_in(lines: list[str], file: str, words: dict[str, str]) -> list[Change]:
    """The changes of these lines; what else they say goes into `words`."""
    pairs: list[Change] = []
    old = ""
    for line in lines:
        key, value = key_of(line)
        if (key == "new") != bool(old):
            raise ValueError("%r does not follow its pair" % line)
        if key == "new":
            pairs, old = [*pairs, Change(file, old, value)], ""
        elif key == "old":
            old = value
        elif key == "file":
            file = value
        elif key in words:
            raise ValueError("it has two lines `%s`" % key)
        else:
            words[key] = value
    if old:
        raise ValueError("the last `old` has no `new`")
    return pairs


def key_of(line: str) -> tuple[str, str]:
    """The word before the colon of a line, and what follows."""
    found = LINE.fullmatch(line)
    if found is None or not found[2] and found[1] != "new":
        raise ValueError("%r cannot be read" % line)
    return found[1], found[2] or ""
