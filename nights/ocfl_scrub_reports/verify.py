"""Compares a statement with its report, and with the lists and the JSON that lie beside it."""
from __future__ import annotations

import os

from . import files
from .counts import (ALSO_COMPARED, CHANGED, CHANGES, COMPARED, NEW_AND_KNOWN, REPAIRED, Before,
                     Count, of_changes, of_lines)
from .log import kinds_in
from .shared import Failed, refuse_links
from .standing import kinds_gone, kinds_moved
from .state import NOT_KNOWN, cycle_name, find
from .statement import (ADDED, GUESSING, KINDS, MOVED, NAMES, NOT_BACK, OPTIONAL, Statement,
                        as_json, kind_of, at_least, of_known, plain)

GONE = {**KINDS, "Expected objects missing": b"expected"}
# What statements of the forms before said of losses without knowing whether anything was compared.
GUESSED = {"Compared with cycle", *GONE, *NOT_BACK.values()}
LIST_OF_GONE = "List of what is gone, SHA-256"
LIST_OF_KNOWN = "List of known losses, SHA-256"
BEFORE = "Statement before, SHA-256"
# What a line says of a digest if there was no file, or if it was another one.
NONE = ("", "no list", "no statement", "no report", CHANGED)
# What a line says that says nothing.
EMPTY = (*NONE, NOT_KNOWN, "not asked")


class Check:
    """A statement, what is so, and what cannot be known for want of which file."""

    def __init__(self, path: str, report: str | None) -> None:
        self.path, self.folder = path, os.path.dirname(path)
        self.form, *self.rows = [files.text_of(row) for row in files.lines(path)]
        if self.form not in ADDED:
            raise Failed(path + " is not a statement")
        self.guesses = self.form in GUESSING
        forms = list(ADDED)
        later = set().union(*(ADDED[it] for it in forms[forms.index(self.form) + 1:]))
        self.names = [it for it in NAMES if it not in later]
        self.said = Statement.read(path)
        cycle = self.said.get("Cycle", "")
        if not cycle.isdecimal() or cycle.startswith("0"):
            raise Failed(path + " does not name a cycle")
        self.cycle = int(cycle)
        self.report = report or self.said.report_beside(self.folder)
        self.facts: dict[str, str] = {}
        self.lacking: dict[str, str] = {}
        self.unchecked: dict[str, list[str]] = {}
        # The lines of which only the JSON says the same, and those that were guessed.
        self.repeated: list[str] = []
        self.guessed: list[str] = []
        self.differences: list[str] = []
        self.json = path + ".json"
        self.has_json = os.path.isfile(self.json)

    # What is so

    def find_facts(self) -> None:
        count = Count(self.report, self.said.left())
        is_whole = self.said.get("Report", "").startswith("cycle-")
        report = cycle_name("cycle" if is_whole else "incomplete", self.cycle)
        self.facts.update(count.facts(), Cycle=str(self.cycle), Report=report,
                          Whole="yes" if is_whole else "no")
        gone = self.beside("gone", self.cycle, LIST_OF_GONE, *GONE, *MOVED)
        self.find_gone(gone)
        self.find_moved(gone, count)
        known = self.beside("known", self.cycle, LIST_OF_KNOWN, "Known losses")
        self.facts.update(of_known(files.read(known) if known else b""))
        before = self.beside("statement", self.cycle - 1, BEFORE)
        if before and self.said.get(BEFORE) not in NONE:
            self.facts[BEFORE] = files.digest_of(before)
        self.compare_reports(count)

    def compare_reports(self, count: Count) -> None:
        """Compares the findings with those of the earlier report once more."""
        compared = self.said.get("Compared with cycle", "")
        if not compared.isdecimal() or self.said.get(COMPARED) in NONE:
            return
        cycle = int(compared)
        kind = "incomplete" if find(self.folder, "incomplete", cycle) else "cycle"
        earlier = self.beside(kind, cycle, COMPARED, *CHANGES, *REPAIRED,
                              "Repaired finding *")
        if earlier is None:
            return
        if self.guesses:
            self.facts.update(of_lines(count.found, earlier))
            return
        left = self.left_before(cycle) if kind == "incomplete" else []
        found = of_changes(count.found, self.report, Before(earlier, None, left or ()),
                           self.whole_before(), count.left)
        if left is None:
            self.lacking["New findings"] = cycle_name("statement", cycle)
        if "New findings" in self.lacking or found["New findings"] == NOT_KNOWN:
            del found["New findings"]
        else:
            found["New findings"] = self.without_known(int(found["New findings"]))
        del found[NEW_AND_KNOWN]
        self.facts.update((name, value) for name, value in found.items()
                          if kind_of(name) in self.names)

    def without_known(self, new: int) -> str:
        """How many findings are new, without those that the statement calls known."""
        known = self.said.get(NEW_AND_KNOWN, "")
        return str(new - int(known)) if known.isdecimal() else str(new)

    def whole_before(self) -> Before | None:
        """The last whole report, if that was compared too."""
        cycle = self.said.get("Also compared with cycle", "")
        if not cycle.isdecimal():
            return None
        if self.said.get(ALSO_COMPARED) in NONE:
            self.lacking["New findings"] = cycle_name("cycle", int(cycle))
            return None
        path = self.beside("cycle", int(cycle), ALSO_COMPARED, "New findings")
        return Before(path) if path else None

    def left_before(self, cycle: int) -> list[bytes] | None:
        """The places that an earlier cycle left out, by its statement."""
        path = find(self.folder, "statement", cycle)
        left = Statement.read(path).left() if path else None
        return None if left is None else list(map(files.bytes_of, left))

    def beside(self, kind: str, cycle: int, digest: str, *others: str) -> str | None:
        """The file of a kind beside the statement. If the statement names one that is not there,
        these lines of it cannot be checked."""
        path = find(self.folder, kind, cycle)
        if path is None and self.said.get(digest, "") not in NONE:
            self.lacking.update((name, cycle_name(kind, cycle)) for name in (digest, *others))
        return path

    def find_gone(self, path: str | None) -> None:
        """What is gone. The statement of a joined cycle, in its form before, did not count it
        where parts were compared with different cycles; it has the digest of its list all the
        same."""
        if LIST_OF_GONE in self.lacking:
            return
        self.facts[LIST_OF_GONE] = files.digest_of(path) if path else "no list"
        count = kinds_in(path) if self.guesses else kinds_gone(path)
        for name, kind in GONE.items():
            said = self.said.get(name, "")
            if name not in self.names or self.guesses and said == NOT_KNOWN:
                continue
            if count[kind] or said[:1].isdecimal() and (path or said.strip("0")):
                self.facts[name] = at_least(count[kind], not said.startswith("at least"))

    def find_moved(self, path: str | None, count: Count) -> None:
        """Which objects have another root inventory, if root inventories were noted."""
        kinds = kinds_moved(path)
        if LIST_OF_GONE not in self.lacking and (count.noted or kinds):
            for name, kind in MOVED.items():
                is_known = self.said.get(name, "")[:1].isdecimal()
                self.facts[name] = at_least(kinds[kind], is_known)

    # What the statement says

    def compare(self) -> None:
        seen: set[str] = set()
        for number, row in enumerate(self.rows):
            if row or number > 0:
                self.compare_row(row, seen)
        for name in [*self.facts, *(it for it in self.names if it not in self.facts)]:
            if name not in seen and (name in self.facts or not (
                    name in OPTIONAL or name.endswith("*"))):
                fact = ", and it is " + self.facts[name] if name in self.facts else ""
                self.differences.append("%s: the statement lacks it%s" % (name, fact))
        same = as_json(files.text_of(files.read(self.path)))
        if self.has_json and files.read(self.json) != files.bytes_of(same):
            self.differences.append("%s does not say the same as %s" % (self.json, self.path))

    def compare_row(self, row: str, seen: set[str]) -> None:
        name, colon, value = row.partition(": ")
        if not colon or kind_of(name) not in self.names or name.endswith("*"):
            self.differences.append("no statement has the line: " + plain("", row))
            return
        if name in seen:
            self.differences.append(name + ": stands there twice")
        seen.add(name)
        if kind_of(name) == "Findings *":
            # What is counted has a fact: no line of the report has this code.
            self.facts.setdefault(name, "0")
        if kind_of(name) == "Repaired finding *" and "Repaired findings" in self.facts:
            self.facts.setdefault(name, "none")
        if kind_of(name) == "Reason given *":
            self.compare_reason(name)
        if self.facts.get(name, value) != value:
            self.differences.append("%s: the statement says %s, and it is %s"
                                    % (name, plain("", value), self.facts[name]))
        lacking = self.lacking.get(name) or self.lacking.get(kind_of(name))
        if lacking:
            self.unchecked.setdefault(lacking, []).append(name)
        elif self.guesses and name in GUESSED and value[:1].isdecimal():
            self.guessed.append(name)
        elif name not in self.facts and not self.has_json:
            self.unchecked.setdefault(os.path.basename(self.json), []).append(name)
        elif name not in self.facts and value not in EMPTY:
            self.repeated.append(name)

    def compare_reason(self, name: str) -> None:
        """A reason is one of a listed finding. The report has none: it is of the file of known
        findings that was given."""
        if name.replace("Reason given", "Repaired finding") not in self.said:
            self.differences.append(name + ": no repaired finding has this number")


def show(path: str, report: str | None) -> int:
    """Says whether the statement holds. Gives 0 if what can be checked was and holds, 1 if
    something does not hold, and 4 if something could not be checked or was guessed. Fails if it is
    not a statement, or if its report cannot be read."""
    refuse_links(path)
    check = Check(path, report)
    check.find_facts()
    check.compare()
    name, is_partly = os.path.basename(path), check.unchecked or check.guessed
    if check.differences:
        print("\n".join(check.differences))
    else:
        print("%s is what %s says%s" % (check.report, name,
                                        ", as far as it could be checked" if is_partly else ""))
    for file, lines in check.unchecked.items():
        print("not checked, without %s: %s" % (file, "; ".join(lines)))
    if check.repeated and not check.differences:
        print("only %s says the same: %s" % (os.path.basename(check.json),
                                             "; ".join(check.repeated)))
    if check.guessed and not check.differences:
        print("not known when statements of this form were made: " + "; ".join(check.guessed))
    return 1 if check.differences else 4 if is_partly else 0
