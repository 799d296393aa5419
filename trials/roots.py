#!/usr/bin/env python3
"""Tries that there is no false alarm on undamaged storage roots of four kinds, and that one changed
byte in each is found.

usage: roots.py [N]      (*many* has N objects of 50 files: 40 where N is not given)

The roots are made as rocfl, ocfl-java and ocfl-py write them (`shared/library.py`), as Fedora 6
does, with ten mutable heads (`shared/fedora.py`), as gocfl does, with five fixity algorithms
(`shared/gocfl.py`), and of many small files (`shared/many.py`). The check of samples
(`shared/validity.py`) finds nothing wrong with their objects, but that those of OCFL 1.0 are not of
1.1. Of each root:

- An audit has exactly the lines that the scripts' own count gives: `ok`, and S07 for each gocfl
  object, since blake2b-384 is not computed. Its status is 0, and it changes nothing.
- Two nights say that all files are right, and the second that nothing is new or gone. Statements
  have the same figures, and hold.
- Of a changed and of a lost file in a mutable head a night says nothing: no audit looks there.
- One byte changed in the first file: the audit has E092, and E093 for each computed fixity
  algorithm, in the place of its line, and the night names it.

A byte that was changed before the first audit made checks of each root fail.
"""
import os
import re
import sys
import time

import common
from common import check, line
from shared.fedora import files_in_head, has_head, make_fedora
from shared.gocfl import NOT_COMPUTED, make_gocfl
from shared.library import change, flip, make_library
from shared.many import make_many
from shared.messages import QUIET, findings_in
from shared.nights import Nights, ran
from shared.places import text_of
from shared.validity import digest, faults

# What the check of objects of OCFL 1.1 says of one of 1.0: its declaration and its type.
FAULTS = {"1.0": {"E004", "E038"}, "1.1": set()}


def place_of(it, path=None):
    """The names of an object or of a file in it, as bytes."""
    return tuple(os.fsencode("/".join([it.place, *[path] * bool(path)])).split(b"/"))


def expected(objects):
    """The lines of an audit in which all is right, by their places in order."""
    found = {(): line("ok", ".")}
    for it in objects:
        place = place_of(it)
        noted = NOT_COMPUTED in it.fixity
        found[place] = line("S07", text_of(place), NOT_COMPUTED) if noted else line(
            "ok", text_of(place))
        for path in it.files_there():
            size = os.path.getsize(os.path.join(it.folder, path))
            found[place_of(it, path)] = line("ok", text_of(place_of(it, path)), size)
    return dict(sorted(found.items()))


def differing(got, wanted):
    """The first lines in which two reports differ."""
    return [pair for pair in zip([*got, "(end)"], [*wanted, "(end)"]) if pair[0] != pair[1]][:3]


def audited(name, root, lines, status=0):
    """An audit has these lines."""
    ended, out, said = common.ran(["audit", root])
    check("%s: how an audit ends" % name, (ended, said), (status, ""))
    check("%s: its lines" % name,
          differing(out.splitlines(True), "".join(lines.values()).splitlines(True)), [])


def is_quiet(name, nights, objects, since):
    """A night says that all files are right and that nothing is new or gone."""
    status, out, said = ran(nights.words())
    time.sleep(1.1)
    check("%s: how the night ends" % name, (status, said), (0, ""))
    check("%s: nothing but the word at its end" % name, QUIET.sub("", out), "")
    files = str(sum(len(it.files_there()) for it in objects))
    check("%s: its count" % name, re.findall(r"(\d+) of (\d+) files right, (\d+) objects", out),
          [(files, files, str(len(objects)))])
    check("%s: %s" % (name, since), since in out, True)


def stated(name, nights, cycle, objects):
    """The figures of a statement."""
    sizes = [os.path.getsize(os.path.join(it.folder, path))
             for it in objects for path in it.files_there()]
    noted = sum(NOT_COMPUTED in it.fixity for it in objects)
    wanted = {"Objects": len(objects), "Objects without findings": len(objects),
              "Content files": len(sizes), "Files found right": len(sizes),
              "Bytes found right": sum(sizes), "Findings": 0,
              "Algorithms not computed": "%s %d" % (NOT_COMPUTED, noted) if noted else "none"}
    lines = nights.lines(cycle)
    check("%s: its statement" % name, {key: lines.get(key) for key in wanted},
          {key: str(value) for key, value in wanted.items()})
    check("%s: its statement holds" % name, nights.holds(cycle), 0)


def in_heads(name, root, nights, objects, lines):
    """A file of a mutable head that was changed, and one that is lost."""
    heads = [it for it in objects if has_head(it)]
    if not heads:
        return
    change(files_in_head(heads[0])[0], flip)
    os.remove(files_in_head(heads[1])[0])
    audited(name + ", damaged mutable heads", root, lines)
    is_quiet(name + ", damaged mutable heads", nights, objects, "Nothing new, nothing gone since")


def changed(name, root, nights, objects, lines):
    """One byte of a file is changed: its line alone becomes others, and a night names it."""
    it = objects[0]
    place = place_of(it, it.paths()[0])
    was = common.read(it.file())
    change(it.file(), flip)
    now = common.read(it.file())
    # Of the manifest, and then of each fixity algorithm by its name.
    by = [("E092", it.algorithm), *[("E093", algorithm) for algorithm in sorted(it.fixity)
                                    if algorithm != NOT_COMPUTED]]
    found = [line(code, text_of(place), " ".join([algorithm, digest(algorithm, was),
                                                  digest(algorithm, now)]))
             for code, algorithm in by]
    audited(name + ", a changed byte", root, {**lines, place: "".join(found)}, 1)
    status, out, said = ran(nights.words())
    check("%s, a changed byte: how the night ends" % name, (status, said), (1, ""))
    check("%s, a changed byte: what is found" % name, set(findings_in(out)),
          {"%s\t%s" % (code, text_of(place)) for code, _ in by})


def check_root(folder, name, make):
    root = os.path.join(folder, name)
    objects = make(root)
    check("%s: its objects are right as OCFL" % name,
          [it.place for it in objects if faults(it.folder) != FAULTS[it.edition]], [])
    lines, before = expected(objects), common.snapshot(root)
    audited(name, root, lines)
    nights = Nights(os.path.join(folder, name + "-state"), root)
    is_quiet(name + ", cycle 1", nights, objects, "Nothing to compare with")
    is_quiet(name + ", cycle 2", nights, objects, "Nothing new, nothing gone since cycle 1")
    for cycle in [1, 2]:
        stated("%s, cycle %d" % (name, cycle), nights, cycle, objects)
    check("%s: nothing was written below the root" % name, common.snapshot(root) == before, True)
    in_heads(name, root, nights, objects, lines)
    changed(name, root, nights, objects, lines)


def check_all(folder):
    count = int(sys.argv[1]) if len(sys.argv) > 1 else 40
    for name, make in [("library", make_library), ("fedora", make_fedora), ("gocfl", make_gocfl),
                       ("many", lambda root: make_many(root, count))]:
        check_root(folder, name, make)


if __name__ == "__main__":
    common.run_trial(check_all)
