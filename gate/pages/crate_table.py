"""The table of crates in `docs/PROMISES.md`, made from the heads of the crates: what each is for,
and what of it is proved. A crate that is new in `crates.txt` gets its row by `docs/registers table
--write`."""
from __future__ import annotations

import os
import re

from gate.pages import registers
from gate.repository import TESTS, TOP, crates

PAGE = os.path.join(TOP, "docs", "PROMISES.md")
BEGIN, END = "<!-- crates -->\n", "<!-- end of crates -->\n"
HEAD = "| crate | what it is | proved |\n|---|---|---|\n"


def table() -> str:
    """The table, the lowest crate first."""
    promising = {crate_of(it) for it in registers.calls() if "\nClauses: " in it.text}
    called = {crate_of(it) for it in registers.calls()} | {"ocfl_scrub_cli"}
    ruling = {crate_of(it) for it in registers.laws()}
    heads = {it.name: it.text for it in registers.heads()}
    return HEAD + "".join(
        "| `%s` | %s | %s |\n" % (crate, purpose(heads[crate]),
                                  proved(crate, crate in promising, crate in called,
                                         crate in ruling))
        for crate in crates())


def crate_of(entry: registers.Entry) -> str:
    return entry.place.partition(",")[0]


def purpose(head: str) -> str:
    """The first sentence of a crate's head."""
    sentence = re.split(r"(?<=[.])\s", head.split("\n")[0])[0].rstrip(".")
    return sentence.replace("|", "\\|")


def proved(crate: str, has_clauses: bool, has_code: bool, has_laws: bool) -> str:
    """What is proved of a crate, in a word or two."""
    if crate == TESTS:
        return "nothing: they are run"
    kinds = [*["contracts"] * has_clauses, *["laws"] * has_laws]
    if kinds or not has_code:
        return " and ".join(kinds) or "no code"
    return "that it is safe"


def put(text: str, made: str) -> str:
    """A page with this table between the two comments.

    Raises ValueError if the page does not have them."""
    before, begun, rest = text.partition(BEGIN)
    _, ended, after = rest.partition(END)
    if not begun or not ended:
        raise ValueError("there is no place for the table of crates")
    return "%s%s\n%s\n%s%s" % (before, BEGIN, made, END, after)


def faults() -> list[str]:
    """What is wrong with the table of the page."""
    text = registers.read(PAGE)
    try:
        if put(text, table()) == text:
            return []
    except ValueError as error:
        return ["docs/PROMISES.md: %s" % error]
    return ["docs/PROMISES.md: its table of crates is not that of their heads; "
            "docs/registers table --write fixes it"]


def write() -> None:
    """Puts the table into the page."""
    text = put(registers.read(PAGE), table())
    with open(PAGE, "w", encoding="utf-8") as file:
        file.write(text)


def main(words: list[str]) -> int:
    """Prints the table, or writes it; gives the exit status."""
    if words == ["--write"]:
        write()
        return 0
    print(table(), end="")
    return 0
