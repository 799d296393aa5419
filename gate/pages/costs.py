"""What a change of each crate costs: the processor minutes of its proof and its edits and of all
that stands on it, by `bench/proof_minutes.tsv`; and the table of `CONTRIBUTING.md` of that."""
from __future__ import annotations

import os
from typing import Mapping, Optional

from gate import minutes
from gate.commands import fail
from gate.repository import TESTS, TOP, crates

PAGE = os.path.join(TOP, "CONTRIBUTING.md")
BEGIN, END = "<!-- costs -->\n", "<!-- end of costs -->\n"
HEAD = ("| a change in | its proof | its edits | with all above | crates above |\n"
        "|---|---|---|---|---|\n")
# By crate, the minutes of its proof and of its edits, if these are known, and the commit of both.
Rows = Mapping[str, tuple[float, Optional[float], str]]


def above(lines: Mapping[str, str]) -> dict[str, list[str]]:
    """The crates that stand on each, themselves or through others, by the lines of `crates.txt`."""
    under = {crate: set(line.split(":")[1].split()) for crate, line in lines.items()}
    for crate in lines:
        for lower in sorted(under[crate] & set(lines)):
            under[crate] |= under[lower]
    return {crate: [it for it in lines if crate in under[it]] for crate in lines}


def table(rows: Rows, lines: Mapping[str, str]) -> str:
    """The table of these rows, the lowest crate first; crates without a row are left out."""
    known = {crate: line for crate, line in lines.items() if crate in rows}
    found = []
    for crate, higher in above(known).items():
        proof, edits, _ = rows[crate]
        whole = sum(minutes.total(rows[it]) for it in [crate, *higher])
        found.append("| `%s` | %.1f | %s | %.0f | %d |\n"
                     % (crate, proof, minutes.shown(edits), whole, len(higher)))
    return HEAD + "".join(found)


def put(text: str, made: str) -> str:
    """A page with this table between the two comments.

    Raises ValueError if the page does not have them."""
    before, begun, rest = text.partition(BEGIN)
    _, ended, after = rest.partition(END)
    if not begun or not ended:
        raise ValueError("there is no place for the table")
    return "%s%s\n%s\n%s%s" % (before, BEGIN, made, END, after)


def wanted() -> Optional[str]:
    """The table as it should be, or nothing where the minutes are not there."""
    if not os.path.exists(minutes.FILE):
        return None
    lines = {crate: line for crate, line in crates().items() if crate != TESTS}
    return table(minutes.parsed(minutes.read()), lines)


def looked_at() -> tuple[int, int]:
    """Says whether the page has another table than the minutes give, as one check."""
    with open(PAGE, encoding="utf-8") as file:
        text = file.read()
    made = wanted()
    if made is None:
        return 1, 0
    try:
        if put(text, made) == text:
            return 1, 0
    except ValueError:
        pass
    return fail("CONTRIBUTING.md: its table of costs is not that of bench/proof_minutes.tsv; "
                "bench/change_costs.py --write fixes it")


def write() -> None:
    """Puts the table into the page, if there are minutes."""
    made = wanted()
    if made is None:
        return
    with open(PAGE, encoding="utf-8") as file:
        text = put(file.read(), made)
    with open(PAGE, "w", encoding="utf-8") as file:
        file.write(text)
