"""Types of many fields whose `Drop` is derived: each exit of a function that holds one lets go of
every field, and the proof has a step for each.

`gate/derived_drops.txt` holds those that stay so."""
from __future__ import annotations

import glob
import os
import re
from typing import Iterator

from gate.commands import fail
from gate.repository import TESTS, TOP, crates, folder_of

EXCEPTIONS = os.path.join(TOP, "gate", "derived_drops.txt")
# How many fields a type may have without a word on its `Drop`.
FEW = 3
# A struct with braces: what is derived for it, its name, and its fields.
STRUCT = re.compile(r"(?m)^#\[derive\(([^)]*)\)\]\n(?:#\[.*\n)*(?:pub(?:\([a-z]+\))? )?struct (\w+)"
                    r"[^{;]*\{\n((?:.*\n)*?)\}$")
FIELD = re.compile(r"(?m)^    (?:pub(?:\([a-z]+\))? )?\w+:")


def looked_at() -> tuple[int, int]:
    """Says which types have such a `Drop` and no line in the list, or a line in vain, as one
    check."""
    there, listed = found(), excepted()
    faults = ["%s: its Drop is derived, over more than %d fields: write it by hand, or give it a "
              "line in gate/derived_drops.txt" % (it, FEW) for it in sorted(there - listed)]
    faults += ["%s: gate/derived_drops.txt has it, and no such type derives Drop" % it
               for it in sorted(listed - there)]
    for fault in faults:
        fail(fault)
    return int(not faults), len(faults)


def found() -> set[str]:
    """The crates and names of all such types, except those of the tests."""
    paths = [(crate, path) for crate in crates() if crate != TESTS for path in glob.glob(
        os.path.join(folder_of(crate), "src", "**", "*.rt"), recursive=True)]
    return {"%s %s" % (crate, name) for crate, path in paths for name in derived(text_of(path))}


def derived(source: str) -> Iterator[str]:
    """The types of a source that have more than a few fields and a derived `Drop`."""
    for traits, name, fields in STRUCT.findall(source):
        if "Drop" in re.split(r"\W+", traits) and len(FIELD.findall(fields)) > FEW:
            yield name


def excepted() -> set[str]:
    return {line.partition(":")[0].strip() for line in text_of(EXCEPTIONS).splitlines()
            if line.strip() and not line.startswith("#")}


def text_of(path: str) -> str:
    with open(path, encoding="utf-8") as file:
        return file.read()
