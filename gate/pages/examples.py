"""The examples that the heads of crates show, compared with the tests that run them."""
import glob
import os
import re

from gate.commands import fail
from gate.repository import TESTS, crates, folder_of

# What the comment at the head of a source shows as code.
SHOWN = re.compile(r"(?m)^//! ```\n((?:^//!.*\n)*?)^//! ```\n")


def looked_at():
    """Says which crates show another example than the one that a test runs, as one check."""
    tests = glob.glob(os.path.join(folder_of(TESTS), "src", "tests", "examples", "of_*.rt"))
    tried = {"ocfl_" + re.search(r"of_(\w+)\.rt$", path).group(1): tried_in(text_of(path))
             for path in tests}
    shown = {crate: shown_in(text_of(path)) for crate in crates()
             for path in glob.glob(os.path.join(folder_of(crate), "src", "lib.rt"))}
    faults = [crate for crate in sorted({*tried, *shown}) if shown.get(crate) != tried.get(crate)]
    for crate in faults:
        fail("%s: src/lib.rt shows another example than a test runs" % crate)
    return int(not faults), len(faults)


def tried_in(test):
    """The text of a test without the comment at its head. Its attribute is not shown: `rt ci` would
    look for a test in the crate."""
    return re.sub(r"\A(?://!.*\n)+", "", test).replace("#[test]\n", "")


def shown_in(source):
    """The code that the comment at the head of a source shows, and none if it shows none."""
    found = SHOWN.findall(source)
    return re.sub(r"(?m)^//! ?", "", "".join(found)) if found else None


def text_of(path):
    with open(path, encoding="utf-8") as file:
        return file.read()
