"""The edits of `crates/*/edits`, which the prover must refuse, and what is wrong with them."""
from __future__ import annotations

import collections
import os
import re
import sys

from gate import toolchain
from gate.commands import fail
from gate.edits import edit_files
from gate.edits.edit_files import Edit
from gate.repository import crates, folder_of

# A use that an edit puts in: of the `specs` of which crate, and what of its modules.
USE = re.compile(r"(?:ghost )?use Rattle\.(ocfl_\w+)\.specs\.(.*\});?")
# A module of a use, and its names.
NAMES = re.compile(r"([\w.]+)\.\{([^{}]*)\}")


def files_of(crate: str) -> list[str]:
    """The files of a crate's edits, by their paths below `edits`."""
    top = os.path.join(folder_of(crate), "edits")
    return [os.path.relpath(os.path.join(folder, name), top)
            for folder, _, names in sorted(os.walk(top)) for name in sorted(names)]


def is_named_right(path: str) -> bool:
    return path.endswith(".edits")


def edits_of(crate: str) -> list[Edit]:
    """Each edit of a crate, file by file."""
    found = []
    for path in filter(is_named_right, files_of(crate)):
        with open(os.path.join(folder_of(crate), "edits", path), encoding="utf-8") as file:
            found += edit_files.read(crate, os.path.splitext(path)[0], file.read())
    return found


def every_edit() -> list[Edit]:
    """Each edit of the repository, crate by crate."""
    try:
        return [edit for crate in crates() for edit in edits_of(crate)]
    except edit_files.Unreadable as why:
        sys.exit("test: %s" % why)


def listed() -> list[Edit]:
    """The edits that the gate tries."""
    return [edit for edit in every_edit() if edit.in_gate]


def left_out() -> list[Edit]:
    """The edits that the gate does not try."""
    return [edit for edit in every_edit() if not edit.in_gate]


def named(crate: str, name: str) -> Edit:
    """The edit of a crate with this name, or with its source before it as in `place/NAME`."""
    found = [edit for edit in every_edit()
             if edit.crate == crate and name in (edit.path, edit.name)]
    if len(found) != 1:
        sys.exit("test: %s has %d edits with the name %s" % (crate, len(found), name))
    return found[0]


def looked_at() -> tuple[int, int]:
    """Looks at all edits without trying them, which is one check, and says what is wrong."""
    faults = misplaced() + unreadable() + unknown_names()
    for fault in faults:
        fail(fault)
    return int(not faults), len(faults)


def unreadable() -> list[str]:
    """The edits that do not fit their sources any more, as `rt` reads them."""
    rt, faults = toolchain.load(), []
    for edit in every_edit() if rt else []:
        _, why = toolchain.edited(rt, edit.text(), folder_of(edit.crate))
        faults += ["%s %s: %s" % (edit.crate, edit.path, why)] if why else []
    return faults


def unknown_names() -> list[str]:
    """The edits that use a name which its module no longer mentions: the prover could not read
    them."""
    faults = []
    for edit in every_edit():
        for used in filter(None, (USE.fullmatch(change.new) for change in edit.changes)):
            crate, taken = used.groups()
            faults += ["%s %s: %s" % (edit.crate, edit.path, it)
                       for module, names in NAMES.findall(taken)
                       for it in unknown_in(crate, module, names)]
    return faults


def unknown_in(crate: str, module: str, names: str) -> list[str]:
    """Which of some names a module of `specs` does not mention, if it is a file."""
    path = os.path.join(folder_of(crate), "specs", *module.split(".")) + ".antt"
    if not os.path.isfile(path):
        return []
    with open(path, encoding="utf-8") as file:
        known = set(re.findall(r"[^\s(){},;]+", file.read()))
    return ["%s has no %s" % (path, name)
            for name in names.split(", ") if name.split(" ")[0] not in known]


def misplaced() -> list[str]:
    """The files and edits that stand or are named otherwise than they should be."""
    faults = []
    for crate in crates():
        faults += ["%s: edits/%s does not end in .edits" % (crate, path)
                   for path in files_of(crate) if not is_named_right(path)]
        if os.path.lexists(os.path.join(folder_of(crate), "must-fail")):
            faults.append("%s has a folder must-fail: its edits belong in edits" % crate)
    edits = every_edit()
    faults += ["%s %s does not change %s" % (edit.crate, edit.path, edit.source) for edit in edits
               if edit.source not in [change.file for change in edit.changes]]
    times = collections.Counter(edit.name for edit in edits)
    return faults + ["%d edits are named %s" % (times[it], it) for it in times if times[it] > 1]
