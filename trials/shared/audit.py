"""A model of the audit, with `--inventories` and without: the items of a storage root in a folder,
and which of them a run takes. It is written by the words of docs/RULES.md alone, with the standard
library, and knows nothing of the program."""
from __future__ import annotations

import json
import math
import os
import re
import stat
from typing import Any, Iterable, Mapping, NamedTuple, Optional

from shared.places import escaped, text_of
from shared.validity import digest

DEEPEST_LISTED = 127
LONGEST_INVENTORY = 268435456
LONGEST_SIDECAR = 4096
DEEPEST_JSON = 127
MOST_ELEMENTS = 128
LONGEST_NAME = 255
MOST = 2**62
KNOWN = (b"1.0", b"1.1")
SUPPORTED = ("md5", "sha1", "sha256", "sha512", "sha512/256")
# The algorithms of inventories and sidecars, with how many digits their digests have.
DIGITS = {"sha256": 64, "sha512": 128}
ROOT_DECLARATION = re.compile(rb"0=ocfl_([0-9].*)", re.S)
DECLARATION = re.compile(rb"0=ocfl_object_([0-9].*)", re.S)
VERSION = re.compile(rb"v[0-9]+")
INVENTORY = b"inventory.json"
OF_INVENTORY = (INVENTORY, *(INVENTORY + b"." + it.encode() for it in DIGITS))
Place = tuple[bytes, ...]
# Of a path of an inventory: whether the fixity block names it, the algorithm, the folded digest.
Named = tuple[bool, str, bytes]
Block = dict[str, list[str]]


class Note(NamedTuple):
    """What a line says of its place."""
    code: str
    detail: bytes = b"-"


class Item(NamedTuple):
    """A place with its lines, and what it costs."""
    place: Place
    notes: list[Note]
    cost: int = 0

    def text(self) -> str:
        return "".join("%s\t%s\t%s\n" % (code, text_of(self.place), escaped(detail))
                       for code, detail in self.notes)


class Stops(Exception):
    """A line of an object's head after which no line follows."""

    def __init__(self, code: str, detail: bytes = b"-") -> None:
        super().__init__(code)
        self.note = Note(code, detail)


class Table(NamedTuple):
    """What an inventory names that does not stop, and the lines about it."""
    algorithm: str
    content: bytes
    named: dict[Place, list[Named]]
    notes: list[Note]


def items_of(root: str, inventories: bool = False,
             unread: Optional[Mapping[Place, int]] = None) -> list[Item]:
    """The audit of the storage root in a folder, with the option or without. `unread` has the files
    that cannot be read to their end, with the bytes that they give before that."""
    audit = Audit(root, inventories, unread or {})
    audit.whole()
    return sorted(audit.items)


def report_of(items: Iterable[Item]) -> str:
    return "".join(item.text() for item in items)


def status_of(items: Iterable[Item]) -> int:
    """The status of a command that writes these items."""
    return int(any(note.code not in ("ok", "S07", "S09") for it in items for note in it.notes))


def cut(items: list[Item], budget: int, files: int = MOST) -> tuple[list[Item], list[Item]]:
    """What a run takes of the items that are left, by its limits, and what it leaves."""
    spent = started = 0
    for count, item in enumerate(items):
        if item.cost and (spent >= budget or started >= files):
            return items[:count], items[count:]
        spent, started = spent + item.cost, started + bool(item.cost)
    return items, []


# ---- inventories

def inventory_of(data: bytes) -> Table:
    """What the bytes of an inventory say; it stops with the first line that does."""
    members = members_of(data)
    algorithm = algorithm_of(members)
    content = content_of(members)
    manifest = block_of(of(members, "manifest", "E041"), "manifest")
    fixity = members.get("fixity", {})
    if not isinstance(fixity, dict):
        raise Stops("S03", b"fixity")
    blocks = {it: block_of(fixity[it], "fixity") for it in SUPPORTED if it in fixity}
    unsupported = sorted(it.encode() for it in fixity if it not in SUPPORTED)
    notes = [Note("E096", it) for it in repeated(manifest)]
    notes += [Note("E097", name.encode() + b" " + it) for name, block in blocks.items()
              for it in repeated(block)]
    notes += faults_of(manifest.values(), content)
    notes += faults_of((listed for block in blocks.values() for listed in block.values()), content)
    notes += [Note("E101", b"/".join(it)) for it in conflicts(manifest, content)]
    notes += [Note("S07", it) for it in unsupported]
    named = {**named_by(manifest, content, (False, algorithm))}
    for name, block in blocks.items():
        for path, digests in named_by(block, content, (True, name)).items():
            named.setdefault(path, set()).update(digests)
    return Table(algorithm, content, {path: sorted(it) for path, it in named.items()}, notes)


def members_of(data: bytes) -> dict[str, Any]:
    try:
        made = json.loads(data.decode(), parse_int=number, parse_float=number,
                          parse_constant=number)
        if not isinstance(made, dict) or depth_of(made) > DEEPEST_JSON:
            raise Stops("E033")
    except (ValueError, RecursionError):
        raise Stops("E033") from None
    return made


def number(text: str) -> float:
    """A number that a double can hold; the names of others are no JSON."""
    if not math.isfinite(float(text)):
        raise ValueError(text)
    return float(text)


def depth_of(value: Any) -> int:
    """How deep a value is nested. Fails on a text with a lone surrogate."""
    if isinstance(value, str):
        value.encode()
    if isinstance(value, dict):
        return 1 + max(map(depth_of, [*value, *value.values()]), default=0)
    return 1 + max(map(depth_of, value), default=0) if isinstance(value, list) else 0


def of(members: dict[str, Any], key: str, code: str) -> Any:
    if key not in members:
        raise Stops(code, key.encode())
    return members[key]


def algorithm_of(members: dict[str, Any]) -> str:
    name = of(members, "digestAlgorithm", "E036")
    if not isinstance(name, str):
        raise Stops("S03", b"digestAlgorithm")
    if name not in DIGITS:
        raise Stops("E025", name.encode())
    return name


def content_of(members: dict[str, Any]) -> bytes:
    name = members.get("contentDirectory", "content")
    if not isinstance(name, str) or not name:
        raise Stops("S03", b"contentDirectory")
    if "/" in name:
        raise Stops("E017", name.encode())
    if name in (".", ".."):
        raise Stops("E018", name.encode())
    return name.encode()


def block_of(value: Any, key: str) -> Block:
    """Digests with the paths that each lists."""
    if not isinstance(value, dict) or not all(
            isinstance(listed, list) and all(isinstance(it, str) for it in listed)
            for listed in value.values()):
        raise Stops("S03", key.encode())
    return value


def folded(key: str) -> bytes:
    """A digest text with its ASCII capitals small."""
    return key.encode().lower()


def repeated(block: Block) -> list[bytes]:
    """The folded digests that several keys have."""
    keys = [folded(key) for key in block]
    return sorted({key for key in keys if keys.count(key) > 1})


def fault_of(path: bytes, content: bytes) -> str:
    """The code of a bad path text; empty if it is kept."""
    names = path.split(b"/")
    if path.startswith(b"/") or path.endswith(b"/"):
        return "E100"
    if any(name in (b"", b".", b"..") for name in names):
        return "E099"
    is_content = len(names) > 2 and VERSION.fullmatch(names[0]) and names[1] == content
    if not is_content or len(names) > MOST_ELEMENTS or any(
            len(name) > LONGEST_NAME or b"\0" in name for name in names):
        return "S06"
    return ""


def faults_of(lists: Iterable[list[str]], content: bytes) -> list[Note]:
    """A line for each bad path text, once."""
    texts = sorted({it.encode() for listed in lists for it in listed})
    return [Note(fault_of(it, content), it) for it in texts if fault_of(it, content)]


def kept(listed: list[str], content: bytes) -> list[Place]:
    return [tuple(it.encode().split(b"/")) for it in listed if not fault_of(it.encode(), content)]


def conflicts(manifest: Block, content: bytes) -> list[Place]:
    """The kept paths that are listed twice, or that another one begins with."""
    paths = [path for listed in manifest.values() for path in kept(listed, content)]
    return sorted(it for it in set(paths) if sum(path[:len(it)] == it for path in paths) > 1)


def named_by(block: Block, content: bytes, kind: tuple[bool, str]) -> dict[Place, set[Named]]:
    """The digests that a block names for each kept path."""
    found: dict[Place, set[Named]] = {}
    for key, listed in block.items():
        for path in kept(listed, content):
            found.setdefault(path, set()).add((*kind, folded(key)))
    return found


def sidecar_of(data: bytes, algorithm: str) -> Optional[bytes]:
    """The digest of a sidecar of the form, folded."""
    form = rb"([0-9a-fA-F]{%d})[ \t]+inventory\.json[ \t\r\n]*" % DIGITS[algorithm]
    found = re.fullmatch(form, data)
    return found[1].lower() if found and len(data) <= LONGEST_SIDECAR else None


def differing(code: str, algorithm: str, expected: bytes, data: bytes) -> list[Note]:
    """A line if a file has not the digest that is expected of it."""
    found = digest(algorithm, data).encode()
    if found == expected:
        return []
    return [Note(code, b" ".join([algorithm.encode(), expected, found]))]


def missing(named: list[Named]) -> list[Note]:
    """The lines of a path at which there is no file: one for each block and algorithm."""
    kinds = sorted({(of_fixity, algorithm) for of_fixity, algorithm, _ in named})
    return [Note("E093" if of_fixity else "E092", algorithm.encode() + b" missing")
            for of_fixity, algorithm in kinds]


# ---- the walk

class Object(NamedTuple):
    """An object whose head does not stop: its table, the digest of its inventory by the table's
    algorithm, and the version that the inventory names as its head, if that is a text."""
    place: Place
    table: Table
    digest: bytes
    head: Optional[bytes]

    def named(self, place: Place) -> list[Named]:
        return self.table.named.get(place[len(self.place):], [])


class Audit:
    """The items of a storage root."""

    def __init__(self, root: str, inventories: bool, unread: Mapping[Place, int]) -> None:
        self.root, self.inventories, self.unread = os.fsencode(root), inventories, unread
        self.items: list[Item] = []

    def path(self, place: Place) -> bytes:
        return os.path.join(self.root, *place)

    def read(self, place: Place) -> bytes:
        with open(self.path(place), "rb") as file:
            return file.read()

    def file_at(self, place: Place) -> Optional[bytes]:
        """The bytes of a file; None if there is no file."""
        try:
            is_file = stat.S_ISREG(os.lstat(self.path(place)).st_mode)
        except (FileNotFoundError, NotADirectoryError):
            return None
        return self.read(place) if is_file else None

    def entries(self, place: Place) -> list[tuple[Place, str]]:
        """The places in a directory, each with what is there: a file, a directory, or another."""
        found = []
        with os.scandir(self.path(place)) as entries:
            for it in entries:
                kind = "file" if it.is_file(follow_symlinks=False) else "directory" if it.is_dir(
                    follow_symlinks=False) else "other"
                found.append(((*place, it.name), kind))
        return found

    def add(self, place: Place, notes: list[Note], cost: int = 0) -> None:
        if notes:
            self.items.append(Item(place, notes, cost))

    def whole(self) -> None:
        entries = self.entries(())
        declared = declarations(entries, ROOT_DECLARATION)
        if len(declared) != 1:
            self.add((), [Note("E076" if declared else "E069")])
        elif declared[0] not in KNOWN:
            self.add((), [Note("S01", declared[0])])
        else:
            self.add((), self.inexact((), b"ocfl_" + declared[0], "E080") or [Note("ok")])
            self.hierarchy([it for it in entries if it != ((b"extensions",), "directory")])

    def inexact(self, place: Place, text: bytes, code: str) -> list[Note]:
        """A line if a declaration has not its exact bytes."""
        return [Note(code)] if self.read((*place, b"0=" + text)) != text + b"\n" else []

    def hierarchy(self, entries: list[tuple[Place, str]]) -> None:
        for place, kind in entries:
            if kind == "file":
                self.add(place, [Note("E072")] if len(place) > 1 else [])
            elif kind == "other":
                self.add(place, [Note("S04")])
            elif len(place) > DEEPEST_LISTED:
                self.add(place, [Note("S05")])
            else:
                below = self.entries(place)
                declared = declarations(below, DECLARATION)
                if declared:
                    self.object(place, below, declared)
                else:
                    self.add(place, [] if below else [Note("E073")])
                    self.hierarchy(below)

    # An object

    def object(self, place: Place, entries: list[tuple[Place, str]], declared: list[bytes]) -> None:
        notes: list[Note] = []
        found = None
        try:
            self.declaration(place, declared, notes)
            data = self.inventory(place, notes)
            table = self.table(place, data, notes)
            head = members_of(data).get("head")
            found = Object(place, table, digest(table.algorithm, data).encode(),
                           head.encode() if isinstance(head, str) else None)
        except Stops as stop:
            notes.append(stop.note)
        self.add(place, (notes or [Note("ok")]) + self.is_now(found))
        if found:
            self.object_entries(found, entries)
            self.lost(found)

    def declaration(self, place: Place, declared: list[bytes], notes: list[Note]) -> None:
        if len(declared) > 1:
            raise Stops("E003")
        if declared[0] not in KNOWN:
            raise Stops("S01", declared[0])
        notes += self.inexact(place, b"ocfl_object_" + declared[0], "E007")

    def inventory(self, place: Place, notes: list[Note]) -> bytes:
        """The bytes of an object's inventory, after the lines of its sidecars."""
        path = (*place, INVENTORY)
        if not os.path.isfile(self.path(path)) or os.path.islink(self.path(path)):
            raise Stops("E063")
        if os.path.getsize(self.path(path)) > LONGEST_INVENTORY:
            raise Stops("S02")
        data, sidecars = self.read(path), self.sidecars(place)
        notes += [] if sidecars else [Note("E058")]
        for algorithm, text in sidecars.items():
            expected = sidecar_of(text, algorithm)
            notes += [Note("E061", algorithm.encode())] if expected is None else differing(
                "E060", algorithm, expected, data)
        return data

    def sidecars(self, place: Place) -> dict[str, bytes]:
        """The sidecars in a directory, by their algorithms."""
        found = {it: self.file_at((*place, INVENTORY + b"." + it.encode())) for it in DIGITS}
        return {it: data for it, data in found.items() if data is not None}

    def table(self, place: Place, data: bytes, notes: list[Note]) -> Table:
        """What an inventory says. That its own sidecar is missing comes before all but what leaves
        it without an algorithm."""
        sidecars, algorithm = self.sidecars(place), algorithm_of(members_of(data))
        if sidecars and algorithm not in sidecars:
            notes.append(Note("E058", algorithm.encode()))
        table = inventory_of(data)
        notes += table.notes
        return table

    def object_entries(self, within: Object, entries: list[tuple[Place, str]]) -> None:
        for place, kind in entries:
            name = place[-1]
            if kind == "file":
                is_own = DECLARATION.fullmatch(name) or name in OF_INVENTORY
                self.add(place, [] if is_own else [Note("E001")])
            elif kind == "other":
                self.add(place, [Note("S04")])
            elif not VERSION.fullmatch(name):
                self.add(place, [] if name in (b"extensions", b"logs") else [Note("E001")])
            elif len(place) > DEEPEST_LISTED:
                self.add(place, [Note("S05")])
            else:
                self.version_entries(within, place)

    def version_entries(self, within: Object, version: Place) -> None:
        for place, kind in self.entries(version):
            name = place[-1]
            if kind == "file":
                self.add(place, [] if name in OF_INVENTORY else [Note("E015")])
                if name == INVENTORY and self.inventories:
                    self.version_inventory(within, version)
            elif kind == "other":
                self.add(place, [Note("S04")])
            elif name == within.table.content and len(place) > DEEPEST_LISTED:
                self.add(place, [Note("S05")])
            elif name == within.table.content:
                self.content(within, place)

    # Content

    def content(self, within: Object, directory: Place) -> None:
        for place, kind in self.entries(directory):
            named = within.named(place)
            if kind == "file":
                self.content_file(place, named)
            elif kind == "other":
                self.add(place, [Note("S04"), *missing(named)])
            elif len(place) > DEEPEST_LISTED:
                self.add(place, [Note("S05"), *missing(named)])
            else:
                is_empty = not os.listdir(self.path(place))
                self.add(place, [Note("E024")] * is_empty + missing(named))
                self.content(within, place)

    def content_file(self, place: Place, named: list[Named]) -> None:
        notes = [] if any(not of_fixity for of_fixity, _, _ in named) else [Note("E023")]
        if not named:
            self.add(place, notes)
        elif place in self.unread:
            self.add(place, [*notes, Note("S08")], self.unread[place] + 1)
        else:
            data = self.read(place)
            for of_fixity, algorithm, expected in named:
                notes += differing("E093" if of_fixity else "E092", algorithm, expected, data)
            self.add(place, notes or [right(data)], len(data) + 1)

    def lost(self, within: Object) -> None:
        """The paths that the table names, and at which nothing is seen."""
        seen = {item.place for item in self.items}
        for path, named in within.table.named.items():
            if (*within.place, *path) not in seen:
                self.add((*within.place, *path), missing(named))

    # With --inventories

    def is_now(self, within: Optional[Object]) -> list[Note]:
        """What an object's root inventory is."""
        if within is None or not self.inventories:
            return []
        head = [] if within.head is None else [within.head]
        return [Note("S09", b" ".join([within.table.algorithm.encode(), within.digest, *head]))]

    def version_inventory(self, within: Object, version: Place) -> None:
        """The inventory of a version, by the sidecars beside it and by the root inventory."""
        place, sidecars = (*version, INVENTORY), self.sidecars(version)
        notes = [] if sidecars else [Note("E058")]
        expected = []
        for algorithm, text in sidecars.items():
            wanted = sidecar_of(text, algorithm)
            if wanted is None:
                notes.append(Note("E061", algorithm.encode()))
            else:
                expected.append(("E060", algorithm, wanted))
        if within.head == version[-1]:
            expected.append(("E064", within.table.algorithm, within.digest))
        if not expected:
            self.add(place, notes)
        elif place in self.unread:
            self.add(place, [*notes, Note("S08")], self.unread[place] + 1)
        else:
            data = self.read(place)
            for code, algorithm, wanted in expected:
                notes += differing(code, algorithm, wanted, data)
            self.add(place, notes or [right(data)], len(data) + 1)


def declarations(entries: list[tuple[Place, str]], form: re.Pattern[bytes]) -> list[bytes]:
    """The versions that the files of a directory declare."""
    found = (form.fullmatch(place[-1]) for place, kind in entries if kind == "file")
    return [it[1] for it in found if it]


def right(data: bytes) -> Note:
    return Note("ok", b"%d" % len(data))
