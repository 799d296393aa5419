"""Which proofs a crate lends: those modules of `proofs/Lib.antt` with `pub` are there for the crates
above, and the checker lets no other be named there. Each of them is one that another crate uses."""
from __future__ import annotations

import glob
import os
import re
from typing import Iterator

from gate.commands import fail
from gate.pages.definitions import leaves
from gate.repository import TOP, crates, folder_of

# What a source takes from the proofs of a crate, and what it tells a tactic to use of them.
USE = re.compile(r"(?m)^ *(?:ghost )?(?:pub )?use Rattle\.(ocfl_\w+)\.proofs\.(.*?);?$")
USING = re.compile(r"\b(ocfl_\w+)::proofs::(\w+)")
# What is lent though no crate uses it: to take it back proves all above again.
NOT_YET_BACK = {"ocfl_rules UnreadLaws", "ocfl_walk WayDownLaws", "ocfl_scrub TakeLaws"}
LENT = re.compile(r"(?m)^pub mod (\w+)$")


def looked_at() -> tuple[int, int]:
    """Says which modules are lent in vain, as one check."""
    used = {it for crate in crates() for text in texts_of(crate)
            for it in taken(text) if not it.startswith(crate + " ")}
    faults = sorted(lent() - used - NOT_YET_BACK)
    for it in faults:
        fail("%s: no other crate uses these proofs, so drop `pub` in its proofs/Lib.antt" % it)
    return int(not faults), len(faults)


def taken(text: str) -> Iterator[str]:
    """The crates whose proofs a text takes, each with the module."""
    for crate, names in USE.findall(text):
        for leaf in leaves(names):
            yield "%s %s" % (crate, leaf.split(".")[0])
    for crate, module in USING.findall(text):
        yield "%s %s" % (crate, module)


def lent() -> set[str]:
    """The crates and modules that are lent."""
    found = set()
    for crate in crates():
        path = os.path.join(folder_of(crate), "proofs", "Lib.antt")
        if os.path.exists(path):
            with open(path, encoding="utf-8") as file:
                found.update("%s %s" % (crate, name) for name in LENT.findall(file.read()))
    return found


def texts_of(crate: str) -> Iterator[str]:
    """The sources, definitions, proofs and edits of a crate."""
    for ending in ("rt", "antt", "edits"):
        for folder in ("src", "specs", "proofs", "edits"):
            for path in glob.glob(os.path.join(folder_of(crate, TOP), folder, "**", "*." + ending),
                                  recursive=True):
                with open(path, encoding="utf-8") as file:
                    yield file.read()
