"""Prints which edits change each definition, and what refused them.

usage: ./test --tried [CRATE..]

By some edits a definition says less or lets more through, by others it says more or lets less
through. They were tried in the crate of the definition, some alone, others together with edits of
other definitions, each of which a case, a clause or a function of its own refused. Those were tried
against the modules that refused them, and not against the whole crate. What refused an edit is a
worked case, a law, the contract of a function, or a lemma that one of these rests on. After `of a
law` the laws alone were tried, and refused it. The definitions that no edit changes come first.

A lemma that refuses a weaker definition may only be where the fact is made, in its stronger form.
Then the edit does not show that a law or a contract needs what was lost. This is said of the edits
of which it is known.
"""
from __future__ import annotations

import glob
import os
import re
import signal
import sys

from gate.commands import fail
from gate.edits import collection
from gate.edits.edit_files import Edit
from gate.pages import lists
from gate.repository import crates, folder_of

# What the page with the case says of them: how many no edit changes, and how many there are.
SAID = re.compile(r"no edit changes ([\d,]+) of the ([\d,]+) definitions of the reading list")
DEFINITION = re.compile(r"(?m)^(?:pub )?(?:abbrev|record|data|unfoldable) (?:pub )?(\w+)")


def print_tried(*chosen: str) -> None:
    """Prints it for some crates or for all."""
    for crate in set(chosen) - set(crates()):
        sys.exit("test: there is no crate %s" % crate)
    # (what reads it may stop early, as `head` does)
    signal.signal(signal.SIGPIPE, signal.SIG_DFL)
    print((__doc__ or "").split("CRATE..]\n\n")[1])
    all_edits = collection.every_edit()
    for crate in chosen or crates():
        found = by_definition([edit for edit in all_edits if edit.crate == crate])
        for module, names in unchanged(crate, set(found)):
            print("%s %s: no edit changes %s" % (crate, module, ", ".join(names)))
        for (source, name), edits in found.items():
            print("%s %s: %s" % (crate, os.path.splitext(source)[0][len("specs/"):], name))
            for edit in edits:
                print("    %s%s: %s%s" % (edit.name, " (gate)" * edit.in_gate, edit.says,
                                          edit.refused_by and " Refused by %s." % edit.refused_by))


def looked_at() -> tuple[int, int]:
    """Says whether the page counts the definitions of its reading list otherwise, as one check."""
    said = [tuple(int(it.replace(",", "")) for it in found)
            for found in SAID.findall(lists.text_of(lists.CASE))]
    true = counts(lists.listed(lists.PROMISES), collection.every_edit())
    if said == [true]:
        return 1, 0
    return fail("%s: it is to say once that no edit changes %s of the %s definitions of the "
                "reading list" % (lists.CASE, *(format(it, ",") for it in true)))


def counts(listed: set[tuple[str, str]], edits: list[Edit]) -> tuple[int, int]:
    """How many definitions of these files, each with its crate, no edit changes, and how many there
    are."""
    of = {crate: [edit for edit in edits if edit.crate == crate] for crate, _ in listed}
    changed = {crate: set(by_definition(its)) for crate, its in of.items()}
    return how_many(listed, changed), how_many(listed, dict.fromkeys(of, set()))


def how_many(listed: set[tuple[str, str]], changed: dict[str, set[tuple[str, str]]]) -> int:
    """How many definitions of these files are in none of the pairs of their crate."""
    return sum(len(names) for crate, pairs in changed.items()
               for file, names in unchanged(crate, pairs) if (crate, file) in listed)


def by_definition(edits: list[Edit]) -> dict[tuple[str, str], list[Edit]]:
    """The edits of definitions, by source and the definition that each changes."""
    found: dict[tuple[str, str], list[Edit]] = {}
    for edit in edits:
        if edit.source.startswith("specs/"):
            found.setdefault((edit.source, definition_of(edit)), []).append(edit)
    return found


def unchanged(crate: str, changed: set[tuple[str, str]]) -> list[tuple[str, list[str]]]:
    """The definitions of a crate that are in none of these pairs of a source and a name, by file;
    those of private functions are left out."""
    top, left = folder_of(crate), []
    for path in sorted(glob.glob(os.path.join(top, "specs", "*.antt"))):
        source = os.path.relpath(path, top)
        with open(path, encoding="utf-8") as file:
            names = [it for it in DEFINITION.findall(file.read()) if (source, it) not in changed]
        if names:
            left.append((os.path.basename(path)[:-len(".antt")], names))
    return left


def definition_of(edit: Edit) -> str:
    """The first definition of its source in which an edit changes something."""
    with open(os.path.join(folder_of(edit.crate), edit.source), encoding="utf-8") as file:
        text = file.read()
    for change in edit.changes:
        at = text.find(change.old) if change.file == edit.source else -1
        names = DEFINITION.findall(text[:at + len(change.old)]) if at >= 0 else []
        if names:
            return names[-1]
    return ""
