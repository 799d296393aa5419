"""The picture of the layers in `docs/MAP.md`, compared with what stands on what by `crates.txt`."""
from __future__ import annotations

import re
from typing import Iterator

PAGE = "docs/MAP.md"
PICTURE = re.compile(r"(?s)\nThe layers.*?\n```\n(.*?)```\n")
CRATE = re.compile(r"\bocfl_\w+")


def faults(page: str, lines: dict[str, str]) -> Iterator[str]:
    """What of the picture of a page is not as these lines of crates have it: each crate is there
    once, and stands on rows below its own alone, or on what is behind it in its row."""
    picture = PICTURE.search(page)
    rows = [CRATE.findall(row) for row in (picture[1] if picture else "").split("\n")]
    at = {name: (number, place) for number, row in enumerate(rows)
          for place, name in enumerate(row)}
    for name in sorted(set(at) ^ set(lines)):
        yield "%s: %s has it in the picture of the layers, and crates.txt has not" % (name, PAGE) \
            if name in at else "%s: %s lacks it in the picture of the layers" % (name, PAGE)
    for name in sorted({name for row in rows for name in row if sum(rows, []).count(name) > 1}):
        yield "%s: %s has it twice in the picture of the layers" % (name, PAGE)
    for name, line in lines.items():
        for other in CRATE.findall(line.split(":", 1)[1]):
            if name in at and other in at and at[other] <= at[name]:
                yield "%s: it stands on %s, and %s has that above it" % (name, other, PAGE)
