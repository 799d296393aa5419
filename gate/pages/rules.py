"""What the rules of nights cite, in `docs/RULES.md`: each definition is in the file that is named
with it, each clause is one of the contract that is named, and each law is there. So are those that
the page on what is proved of nights cites."""
from __future__ import annotations

import re
from typing import Iterator

from gate.commands import fail
from gate.pages import definitions
from gate.pages.lists import text_of

PAGE, TITLE, CRATE, FUNCTION = "docs/RULES.md", "Nights", "ocfl_night", "night"
# The crate of the laws of nights, and of the definitions that they alone cite.
LAWS_CRATE = "ocfl_night_laws"
PROVED = "docs/NIGHTS.md"
# A file of definitions with names of them: `Steps`: `IsLost`, `IsChanged`.
FILES = re.compile(r"`([A-Z]\w*)`: ((?:`\w+`(?:, )?)+)")
# Names of a file that is named after them: `night_text` in `Night` of `ocfl_messages`.
OTHERS = re.compile(r"((?:`\w+`(?:, )?)+) in `([A-Z]\w*)` of `(ocfl_\w+)`")
# Clauses, after the function whose they are, if that is another one: `leave_out`, clause `named`.
CLAUSES = re.compile(r"(?:`(\w+)`, )?\bclauses? ((?:`\w+`(?:, )?)+)")
# Laws, each with its crate if that is another one.
LAWS = re.compile(r"\blaws? ((?:`\w+`(?: of `ocfl_\w+`)?(?:, (?=`))?)+)")
LAW = re.compile(r"`(\w+)`(?: of `(ocfl_\w+)`)?")
NAMED = re.compile(r"`(\w+)`")


def looked_at() -> tuple[int, int]:
    """Says what is cited and is not there, as one check."""
    faults = ["%s: %s" % (PAGE, it) for it in lost(section(text_of(PAGE)))]
    faults += ["%s: %s" % (PROVED, it) for it in lost(text_of(PROVED), False)]
    for fault in faults:
        fail(fault)
    return int(not faults), len(faults)


def section(page: str) -> str:
    """The section on nights."""
    return re.split(r"(?m)^## ", page.split("\n## %s\n" % TITLE)[1])[0]


def lost(text: str, has_definitions: bool = True) -> Iterator[str]:
    """What a text cites and is not there; that it cites nothing is a fault too."""
    named = [(CRATE, file, name) for file, names in FILES.findall(text)
             for name in NAMED.findall(names)]
    named += [(crate, file, name) for names, file, crate in OTHERS.findall(text)
              for name in NAMED.findall(names)]
    for crate, file, name in named:
        if not is_defined(crate, file, name):
            yield "%s of %s has no definition, and no field, %s" % (file, crate, name)
    clauses = [(function or FUNCTION, clause) for function, names in CLAUSES.findall(text)
               for clause in NAMED.findall(names)]
    for function, clause in clauses:
        if clause not in clauses_of(function):
            yield "the contract of %s has no clause %s" % (function, clause)
    for law, crate in (law for laws in LAWS.findall(text) for law in LAW.findall(laws)):
        if (crate or LAWS_CRATE) not in (it for it, _ in definitions.sources().get(law, ())):
            yield "there is no law %s of %s" % (law, crate or LAWS_CRATE)
    if has_definitions and not named or not clauses:
        yield "it cites no definition, or no clause"


def is_defined(crate: str, file: str, name: str) -> bool:
    """Whether a file of definitions has this definition, or one with this field or case."""
    try:
        _, blocks, _ = definitions.module_at(crate, file)
    except OSError:
        return False
    lines = [line for block in blocks.values() for line in block]
    return name in blocks or any(re.match(r"  (?:pub )?%s :" % name, line) for line in lines)


def clauses_of(function: str) -> set[str]:
    """The names of the clauses of a function of the crate."""
    found: set[str] = set()
    for crate, module in definitions.sources().get(function, ()):
        if crate == CRATE:
            text = definitions.read(definitions.source_of(crate, module))
            contract = re.search(definitions.FUNCTION % re.escape(function), text)
            found.update(re.findall(r"\bensures (\w+) \{", contract[0] if contract else ""))
    return found
