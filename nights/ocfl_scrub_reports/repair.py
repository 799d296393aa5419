"""What would repair open findings: the digest and the size that were expected, which other files
have them, and the command that copies one. It changes nothing."""
from __future__ import annotations

import hashlib
import os
import re
import shlex
import stat
import sys
from collections import Counter
from dataclasses import dataclass, field
from itertools import groupby
from typing import Any, Container, Iterable, Iterator
from urllib.parse import unquote_to_bytes

from . import files, report, standing
from .objects import INVENTORY, in_one_form, inventory_of, is_root, is_way_to, names_of, open_file
from .shared import Failed, many, many_are
from .state import State
from .statement import plain
from .weights import VERSION_INVENTORY, Known

# Findings that the right bytes repair: of content files, of inventories, and of their sidecars.
OF_CONTENT = (b"E092", b"E093", b"S08")
OF_INVENTORIES = (b"E060", b"E063")
OF_SIDECARS = (b"E058", b"E061")
# The algorithms of sidecars, and the one that Python calls otherwise.
SIDECARS = ("sha512", "sha256")
PYTHON_NAMES = {"sha512/256": "sha512_256"}
ALGORITHMS = {"md5", "sha1", "sha256", "sha512", "sha512/256"}
DIGEST = re.compile("[0-9A-Fa-f]+")
VERSION = re.compile(rb"v([0-9]+)")
# The version of OCFL that the type of an inventory names.
TYPE = re.compile(r"https://ocfl\.io/(1\.[01])/spec/#inventory")
SIDECAR = re.compile(rb"([0-9A-Fa-f]+)[ \t]+inventory\.json[ \t\r\n]*")
# So many closed reports are searched for the size of a file, and so many files are named that have
# its digest.
REPORTS = 12
SOURCES = 3


@dataclass
class Wanted:
    """A file whose right bytes are wanted: its place, its findings, its object and what its bytes
    must be."""
    place: bytes
    findings: list[bytes]
    object: bytes = b""
    algorithm: str = ""
    digest: str = ""
    size: int | None = None
    # Why nobody knows what its bytes must be, or why no copy helps.
    why: str = ""
    # Places of this root that should have them, and the one of them that is but another spelling
    # of this place, in no inventory.
    others: list[bytes] = field(default_factory=list)
    respelt: bytes = b""
    is_inventory: bool = False
    # Of a sidecar the digest is that of the inventory beside it, which it must name.
    is_sidecar: bool = False

    def is_content(self) -> bool:
        return not self.is_inventory and not self.is_sidecar

    def expect(self, algorithm: str, digest: str) -> None:
        """Takes the first digest that is one: an inventory can name any text."""
        is_one = algorithm in ALGORITHMS and DIGEST.fullmatch(digest)
        if is_one and not self.digest:
            self.algorithm, self.digest = algorithm, digest.lower()


# Words of a command line

def word(data: bytes) -> bytes:
    """A word of a command line for bash. What is not printed stands there as its bytes."""
    try:
        if data.decode().isprintable():
            return shlex.quote(data.decode()).encode()
    except UnicodeDecodeError:
        pass
    return b"$'%s'" % b"".join(map(letter, data.decode("utf-8", "surrogateescape")))


def letter(character: str) -> bytes:
    data = character.encode("utf-8", "surrogateescape")
    if not character.isprintable():
        return b"".join(b"\\x%02x" % byte for byte in data)
    return b"\\" + data if character in "\\'" else data


def path_of(folder: str, place: bytes) -> bytes:
    """The real path of a place below a folder."""
    return os.path.join(files.bytes_of(folder), *names_of(place))


def copying(source: bytes, to: bytes) -> bytes:
    """The command that copies a file to where one is wanted."""
    above = os.path.dirname(to)
    made = b"" if os.path.isdir(above) else b"mkdir -p -- %s && " % word(above)
    return made + b"cp -p -- %s %s" % (word(source), word(to))


# What is wanted

@dataclass
class Open:
    """What open findings want: files, the declarations of objects, each with how many files are
    outside of any object without it, and how many findings of each code no copy repairs. Of files
    that no inventory names the places, by their names in one form of Unicode."""
    wanted: list[Wanted] = field(default_factory=list)
    undeclared: dict[bytes, int] = field(default_factory=dict)
    others: Counter[str] = field(default_factory=Counter)
    strays: dict[str, bytes] = field(default_factory=dict)

    def take(self, place: bytes, findings: list[bytes]) -> None:
        codes = {line.partition(b"\t")[0] for line in findings}
        if not codes.isdisjoint((*OF_CONTENT, *OF_INVENTORIES, *OF_SIDECARS)):
            self.wanted.append(Wanted(place, findings))
        elif codes == {b"E072"} and self.is_undeclared(place):
            self.undeclared[self.last_undeclared()] += 1
        else:
            self.others.update(code.decode() for code in codes)
        if b"E023" in codes:
            self.strays[in_one_form(place)] = place

    def is_undeclared(self, place: bytes) -> bool:
        """Whether a file outside of any object is one of a folder that has an inventory, and is no
        version of another one. Its inventory comes before its versions."""
        above, _, name = place.rpartition(b"/")
        if self.undeclared and report.is_within(place, self.last_undeclared()):
            return True
        if name != INVENTORY or not above or VERSION.fullmatch(above.rpartition(b"/")[2]):
            return False
        self.undeclared[above] = 0
        return True

    def last_undeclared(self) -> bytes:
        return next(reversed(self.undeclared))


def open_in(state: State, leave_out: Known) -> Open:
    made = Open()
    found = (line for line in standing.open_findings(state) if not leave_out.has(line))
    for place, lines in groupby(found, lambda line: line.split(b"\t", 2)[1]):
        made.take(place, list(lines))
    for it in made.wanted:
        stray = made.strays.get(in_one_form(it.place), it.place)
        if stray != it.place:
            it.others, it.respelt = [stray], stray
    return made


def objects_of(reports: Iterable[str], places: Iterable[bytes]) -> dict[bytes, bytes]:
    """The object at or above each of these places, as these reports have it."""
    above = {place: ancestors(place) for place in places}
    sought = {it for every in above.values() for it in every}
    found = {it for path in reports for some in report.objects(path) for it in some if it in sought}
    return {place: next((it for it in every if it in found), b"")
            for place, every in above.items()}


def ancestors(place: bytes) -> list[bytes]:
    """A place and all that lead to it, from the place up."""
    names = place.split(b"/")
    return [b"/".join(names[:end]) for end in range(len(names), 0, -1)]


def expect_of(wanted: Wanted, root: str) -> None:
    """Finds what the bytes of a file must be."""
    of_code = {line.partition(b"\t")[0]: line.split(b"\t")[2] for line in reversed(wanted.findings)}
    if VERSION_INVENTORY.fullmatch(wanted.place):
        expect_of_version(wanted, root, of_code)
    elif not of_code.keys().isdisjoint(OF_INVENTORIES):
        wanted.object = wanted.object or wanted.place
        wanted.place, wanted.is_inventory = wanted.object + b"/" + INVENTORY, True
        expect_of_inventory(wanted, root, of_code.get(b"E060", b""))
    elif not of_code.keys().isdisjoint(OF_SIDECARS):
        wanted.object = wanted.object or wanted.place
        expect_of_sidecar(wanted, root)
    elif is_of_fixity_alone(of_code):
        wanted.why = "it is what the manifest says; what the fixity block says is wrong"
    else:
        expect_of_content(wanted, root, of_code.get(b"E092", of_code.get(b"E093", b"")))


def is_of_fixity_alone(of_code: dict[bytes, bytes]) -> bool:
    """Whether a file was read and has the digest of the manifest."""
    others = {b"E092", b"S08", b"E023"}
    return others.isdisjoint(of_code) and not of_code[b"E093"].endswith(b" missing")


def expect_of_content(wanted: Wanted, root: str, detail: bytes) -> None:
    """What a content file must be its finding says, or else the inventory of its object."""
    algorithm, _, digests = detail.partition(b" ")
    digest, _, found = digests.rpartition(b" ")
    if digest and found:
        wanted.expect(algorithm.decode(), files.text_of(unquote_to_bytes(digest)))
    elif wanted.object:
        inner = unquote_to_bytes(wanted.place[len(wanted.object) + 1:])
        for named in named_digests(inventory_of(root, wanted.object) or {}, inner):
            wanted.expect(*named)
    if not wanted.digest:
        wanted.why = "no inventory that can be read says what it must be"


def expect_of_inventory(wanted: Wanted, root: str, detail: bytes) -> None:
    """What an inventory must be its sidecar says."""
    algorithm, _, digests = detail.partition(b" ")
    if digests:
        wanted.expect(algorithm.decode(), digests.partition(b" ")[0].decode())
    for name in SIDECARS:
        wanted.expect(name, sidecar_of(root, wanted.object, name) or "")


def expect_of_version(wanted: Wanted, root: str, of_code: dict[bytes, bytes]) -> None:
    """The sidecar beside an inventory of a version says what that must be, and the root inventory
    may be it; or if the sidecar is damaged or missing, what it must name."""
    root_inventory = wanted.object + b"/" + INVENTORY
    wanted.object = wanted.place.rpartition(b"/")[0]
    if of_code.keys().isdisjoint((b"E060", b"S08")):
        expect_of_sidecar(wanted, root)
        return
    for name in SIDECARS:
        wanted.expect(name, sidecar_of(root, wanted.object, name) or "")
    if not wanted.digest:
        wanted.why = "no sidecar beside it says what it must be"
    elif has_digest(root, root_inventory, wanted):
        wanted.others = [root_inventory]


def expect_of_sidecar(wanted: Wanted, root: str) -> None:
    """What a sidecar must name is the digest of the inventory beside it."""
    wanted.is_sidecar = True
    algorithm = (inventory_of(root, wanted.object) or {}).get("digestAlgorithm")
    inventory = wanted.object + b"/" + INVENTORY
    digest = digest_at(root, inventory, algorithm) if algorithm in SIDECARS else None
    if digest is None:
        wanted.why = "its inventory cannot be read, or names no algorithm of sidecars"
        return
    wanted.place = inventory + b"." + algorithm.encode()
    wanted.why = "no sidecar names the digest of its inventory, which may be the damaged one"
    wanted.expect(algorithm, digest)


def sidecar_of(root: str, folder: bytes, algorithm: str) -> str | None:
    """The digest in a sidecar of an inventory, if there is one that can be read."""
    try:
        with open_file(root, folder + b"/" + INVENTORY + b"." + algorithm.encode()) as file:
            found = SIDECAR.fullmatch(file.read(4097))
    except OSError:
        return None
    return found[1].decode().lower() if found else None


def named_digests(inventory: dict[str, Any], path: bytes) -> Iterator[tuple[str, str]]:
    """The digests that an inventory names for a path, those of the manifest first."""
    text = path.decode("utf-8", "replace")
    return ((name, digest) for name, digest, paths in blocks_of(inventory) if text in paths)


def blocks_of(inventory: dict[str, Any]) -> Iterator[tuple[str, str, list[Any]]]:
    """Each algorithm, digest and list of paths of the manifest, and then of the fixity block."""
    algorithm, fixity = inventory.get("digestAlgorithm"), inventory.get("fixity")
    blocks = [(algorithm, inventory.get("manifest"))] + (
        sorted(fixity.items()) if isinstance(fixity, dict) else [])
    for name, block in blocks:
        for digest, paths in block.items() if isinstance(block, dict) else ():
            if isinstance(name, str) and isinstance(paths, list):
                yield name, digest, paths


# Who has it

def put_sizes(state: State, wanted: list[Wanted]) -> None:
    """The sizes of content files that an earlier report found right."""
    sought = {it.place: it for it in wanted if it.is_content()}
    for closed in reversed(state.closed()[-REPORTS:]):
        if not sought:
            return
        for line in report.lines_at(closed.path, sought.keys()):
            if line.code == b"ok" and line.detail.isdigit():
                sought[line.path].size = int(line.detail)
        sought = {place: it for place, it in sought.items() if it.size is None}


def put_others(state: State, root: str, wanted: list[Wanted]) -> None:
    """The files of this root that the last closed report found right, and for which an inventory
    names the wanted digest. Where a size is not known, the inventory of every object is read."""
    sought: dict[tuple[str, str], list[Wanted]] = {}
    for it in wanted:
        if it.digest and it.is_content():
            sought.setdefault((it.algorithm, it.digest), []).append(it)
    known = [it.size for every in sought.values() for it in every]
    sizes = None if None in known else {it for it in known if it is not None}
    closed = state.closed() if sought else []
    right_ones = report.right_ones(closed[-1].path, sizes) if closed else iter(())
    for place, right in groupby(right_ones, lambda it: it[0]):
        named = paths_of(inventory_of(root, place) or {}, sought)
        for _, path, _ in right if named else ():
            for key in named.get(unquote_to_bytes(path[len(place) + 1:]), ()):
                for it in sought[key]:
                    if path != it.place and len(it.others) < SOURCES:
                        it.others.append(path)


def paths_of(inventory: dict[str, Any], digests: Container[tuple[str, str]]
             ) -> dict[bytes, set[tuple[str, str]]]:
    """The paths for which an inventory names one of these digests, each with its algorithm."""
    made: dict[bytes, set[tuple[str, str]]] = {}
    for name, digest, paths in blocks_of(inventory):
        for path in paths if (name, digest.lower()) in digests else ():
            if isinstance(path, str):
                made.setdefault(path.encode("utf-8", "replace"), set()).add((name, digest.lower()))
    return made


def digest_at(root: str, place: bytes, algorithm: str) -> str | None:
    """The digest of a file; None if no file is there that can be read."""
    digest = hashlib.new(PYTHON_NAMES.get(algorithm, algorithm))
    try:
        with open_file(root, place) as file:
            while data := file.read(files.BLOCK):
                digest.update(data)
    except OSError:
        return None
    return digest.hexdigest()


def has_digest(root: str, place: bytes, wanted: Wanted) -> bool | None:
    """Whether a file has the wanted digest, or for a sidecar names it; None if no file is there
    that can be read."""
    if wanted.is_sidecar:
        named = sidecar_of(root, os.path.dirname(place), wanted.algorithm)
        return None if named is None else named == wanted.digest
    digest = digest_at(root, place, wanted.algorithm)
    return None if digest is None else digest == wanted.digest


def newest_version(root: str, place: bytes) -> tuple[bytes, Wanted] | None:
    """The folder of an object's newest version, and its inventory, if that has the digest of its
    sidecar and is about that version."""
    try:
        names = [it for it in os.listdir(path_of(root, place)) if VERSION.fullmatch(it)]
    except OSError:
        return None
    if not names:
        return None
    name = max(names, key=lambda it: int(it[1:]))
    version = place + b"/" + name
    inventory = inventory_of(root, version) or {}
    algorithm = inventory.get("digestAlgorithm")
    if inventory.get("head") != name.decode() or algorithm not in SIDECARS:
        return None
    made = Wanted(version + b"/" + INVENTORY, [], algorithm=algorithm,
                  digest=sidecar_of(root, version, algorithm) or "")
    return (version, made) if has_digest(root, made.place, made) else None


def is_declared(root: str | None, place: bytes) -> bool:
    """Whether a folder has a declaration."""
    try:
        names = os.listdir(path_of(root or "", place))
    except OSError:
        return False
    return any(it.startswith(b"0=") for it in names)


# What is written

class Repairs:
    """What is said of each file, as comments and commands of a shell."""

    def __init__(self, root: str, copy: str | None) -> None:
        self.root, self.copy = root, copy
        # How many files have no right one, and how many only have to be renamed.
        self.lacking = self.respelt = 0

    def say(self, wanted: Wanted) -> None:
        """Writes what is known of one file, and the command that copies it."""
        for line in wanted.findings:
            put(b"# " + line)
        if wanted.digest:
            size = "" if wanted.size is None else ", " + many(wanted.size, "byte")
            note("expected: %s%s %s%s" % ("that the sidecar names " * wanted.is_sidecar,
                                          wanted.algorithm, wanted.digest, size))
        if wanted.digest and has_digest(self.root, wanted.place, wanted):
            note("it names that digest now" if wanted.is_sidecar else "it has that digest now")
        else:
            self.say_source(wanted)
        put(b"")

    def say_source(self, wanted: Wanted) -> None:
        if wanted.respelt and self.say_spelling(wanted):
            return
        newest = self.sidecar_of_newest(wanted) if wanted.is_sidecar else self.of_newest(wanted)
        source, place = next(iter([*self.in_copy(wanted), *newest, *self.elsewhere(wanted)]),
                             (b"", wanted.place))
        if source and self.can_be_put(place):
            put(copying(source, path_of(self.root, place)))
            return
        self.lacking += 1
        note("what lies there, or on the way there, is neither a file nor a folder: remove it first"
             if source else wanted.why or "no right file was found")

    def say_spelling(self, wanted: Wanted) -> bool:
        """Writes the command that renames a file that has the right bytes under another spelling of
        its name. Gives whether there is one."""
        if not (wanted.digest and has_digest(self.root, wanted.respelt, wanted)
                and self.can_be_put(wanted.place)):
            return False
        note("it is there under another spelling of its name (E023), in another form of Unicode")
        put(b"mv -n -- %s %s" % (word(path_of(self.root, wanted.respelt)),
                                 word(path_of(self.root, wanted.place))))
        self.respelt += 1
        return True

    # Each of these gives the files that are right, with the place that they are for.

    def in_copy(self, wanted: Wanted) -> list[tuple[bytes, bytes]]:
        if self.copy is None or not wanted.digest:
            return []
        is_right = has_digest(self.copy, wanted.place, wanted)
        note("in the copy: %s" % ("not there, or it cannot be read" if is_right is None else
                                  "right" if is_right else "it has another digest"))
        return [(path_of(self.copy, wanted.place), wanted.place)] if is_right else []

    def elsewhere(self, wanted: Wanted) -> list[tuple[bytes, bytes]]:
        found = []
        for place in wanted.others:
            is_right = has_digest(self.root, place, wanted)
            note("in this root: %s%s" % (place.decode(), "" if is_right else ", which does not have it"))
            found += [(path_of(self.root, place), wanted.place)] if is_right else []
        return found

    def of_newest(self, wanted: Wanted) -> list[tuple[bytes, bytes]]:
        """Of an inventory: that of the newest version. If it is that already, its sidecar is the
        damaged one."""
        newest = newest_version(self.root, wanted.object) if wanted.is_inventory else None
        if newest is None:
            if wanted.is_inventory:
                note("the newest version has no inventory with the digest of its sidecar")
            return []
        version, inventory = newest
        note("the newest version: %s has the digest of its sidecar" % inventory.place.decode())
        if not wanted.digest or has_digest(self.root, inventory.place, wanted):
            return [(path_of(self.root, inventory.place), wanted.place)]
        if has_digest(self.root, wanted.place, inventory):
            note("and is the inventory of the object: the sidecar is the damaged one")
            end = b"." + inventory.algorithm.encode()
            return [(path_of(self.root, inventory.place + end), wanted.place + end)]
        note("but not the expected one")
        return []

    def sidecar_of_newest(self, wanted: Wanted) -> list[tuple[bytes, bytes]]:
        """That of the newest version, if its inventory is that of the object."""
        newest = newest_version(self.root, wanted.object) if wanted.digest else None
        if newest is None:
            return []
        place = newest[0] + wanted.place[len(wanted.object):]
        is_right = has_digest(self.root, place, wanted)
        note("the newest version: %s %s" % (place.decode(), "names that digest" if is_right
                                            else "names another digest, or is not there"))
        return [(path_of(self.root, place), wanted.place)] if is_right else []

    def declare(self, place: bytes, count: int) -> None:
        """Writes how an object is declared again whose files are outside of any object now."""
        put(b"# E072\t" + place)
        note("%s of an object whose declaration is missing" % many(count, "file"))
        kind = (inventory_of(self.root, place) or {}).get("type")
        version = TYPE.fullmatch(kind) if isinstance(kind, str) else None
        if is_declared(self.root, place):
            note("there is a declaration now")
        elif not version or not self.can_be_put(place + b"/0"):
            self.lacking += 1
            note("its inventory cannot be read, or names no version of OCFL that is known")
        else:
            note("its inventory says: OCFL " + version[1])
            name = "ocfl_object_" + version[1]
            put(b"printf '%s\\n' > %s" % (name.encode(), word(os.path.join(
                path_of(self.root, place), b"0=" + name.encode()))))
        put(b"")

    def bring_back(self, place: bytes) -> None:
        """Writes how an object that is gone comes back from the copy. No digest says what it must
        be, so it is audited there first."""
        to = path_of(self.root, place)
        put(b"# object\t" + place)
        if not is_way_to(self.copy or "", names_of(place)) or not is_declared(self.copy, place):
            note("in the copy: no object is there")
        elif os.path.isdir(to) and os.listdir(to):
            note("there is something in its place")
        elif is_way_to(self.root, names_of(place)):
            note("in the copy: an object, which nothing has audited; this does, and copies it")
            copy = files.bytes_of(self.copy or "")
            put(b"ocfl-scrub audit --under=%s -- %s > /dev/null && mkdir -p -- %s && cp -aT -- %s "
                b"%s" % tuple(map(word, (place, copy, os.path.dirname(to), path_of(
                    self.copy or "", place), to))))
        put(b"")

    def can_be_put(self, place: bytes) -> bool:
        """Whether a file can be copied to a place: through a link it would go elsewhere."""
        *above, last = names_of(place)
        try:
            kind = os.lstat(path_of(self.root, place)).st_mode
        except OSError:
            kind = stat.S_IFREG
        return stat.S_ISREG(kind) and is_way_to(self.root, above)


def put(line: bytes) -> None:
    sys.stdout.buffer.write(line + b"\n")


def note(text: str) -> None:
    """Writes a comment. A line feed would end it, and begin a command."""
    put(b"# " + plain("Place left out 1", text).encode())


def say_rest(others: Counter[str], losses: Iterable[bytes]) -> None:
    """Counts by their codes the findings that no copy repairs, and what is gone."""
    if others:
        note("no copy repairs %s: %s" % (many(sum(others.values()), "finding"), ", ".join(
            "%s %d" % it for it in sorted(others.items()))))
    gone = Counter(line.partition(b"\t")[0].decode() for line in losses)
    for kind in ("object", "file"):
        if gone[kind]:
            note("%s gone: bring back from a copy what nobody removed on purpose; status --list "
                 "has the list" % many_are(gone[kind], kind))


def show(state: State, copy: str | None, known: str | None) -> int:
    """Writes what would repair each open finding. Gives 1 if of some no right file was found, and
    else 0. Fails if the storage root, or the copy, is not there."""
    state.refuse_links()
    root = state.bound_to("root")
    if not root:
        raise Failed("%s is not bound to a storage root" % state.path)
    if copy is not None and not os.path.isdir(copy):
        raise Failed(copy + " is not a folder")
    if not is_root(root):
        raise Failed("there is no storage root at %s: is it mounted?" % root)
    leave_out = Known(known)
    found = open_in(state, leave_out)
    reports = [path for group in standing.groups_of(state) for path in group.reports]
    objects = objects_of(reports, [it.place for it in found.wanted])
    for it in found.wanted:
        it.object = objects[it.place]
        expect_of(it, root)
    put_sizes(state, found.wanted)
    put_others(state, root, found.wanted)
    repairs = Repairs(root, copy)
    sys.stdout.flush()
    for it in found.wanted:
        repairs.say(it)
    for place, count in found.undeclared.items():
        repairs.declare(place, count)
    losses = [line for line in standing.losses(state) if not leave_out.has(line)]
    for line in losses if copy is not None else ():
        kind, _, place = line.partition(b"\t")
        if kind == b"object":
            repairs.bring_back(place)
    say_rest(found.others - Counter(E023=repairs.respelt), losses)
    if found.wanted or found.undeclared:
        note(many_are(repairs.lacking, "file") + " without a right one")
    return int(repairs.lacking > 0)
