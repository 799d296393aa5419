"""What one reading of a report counts, and what it has that another report has not."""
from __future__ import annotations

import hashlib
import re
from collections import Counter
from itertools import groupby, islice
from typing import IO, Dict, Iterable, Iterator, List, NamedTuple, Sequence, Tuple

from . import files, questions, standing
from .report import APART, NO_FINDINGS, RIGHT, Comparing, Mark, Reading, is_within
from .state import NOT_KNOWN
from .weights import HIDING, Known, Weights

# Codes of lines whose detail begins with the algorithm of a digest that is not the expected one.
OF_DIGESTS = {b"E060", b"E064", b"E092", b"E093"}
# What is written like an algorithm. Inventories can name anything.
ALGORITHM = re.compile(rb"[A-Za-z0-9/_-]{1,40}")
MOST_ALGORITHMS = 20
# The lines of a statement on two reports.
CHANGES = ("New findings", "Changed findings", "Former findings", "Findings no longer looked at")
REPAIRED = ("Repaired findings", "Repaired findings not listed")
COMPARED = "Report compared with, SHA-256"
ALSO_COMPARED, NEW_AND_KNOWN = "Report also compared with, SHA-256", "New findings that are known"
CHANGED = "changed since it was closed"
# So many repaired findings are listed, and so many characters of a reason.
MOST_REPAIRED, MOST_OF_REASON = 100, 300
# A code and a place, and the details of their findings.
Found = Tuple[bytes, List[bytes]]


def add_algorithm(count: Counter[str], name: bytes) -> None:
    """Counts a line that names an algorithm: the first twenty that are met, and all others as
    one."""
    is_one = ALGORITHM.fullmatch(name) and (name.decode() in count
                                            or len(count) < MOST_ALGORITHMS)
    count[name.decode() if is_one else "others"] += 1


def algorithms_text(count: Counter[str]) -> str:
    return ", ".join("%s %d" % it for it in sorted(count.items())) or "none"


class Digests:
    """The SHA-256 of a report, as its bytes come, and whether it has these marks."""

    def __init__(self, marks: list[Mark] | None) -> None:
        self.digest, self.comparing = hashlib.sha256(), Comparing(marks) if marks else None

    def take(self, data: bytes) -> None:
        self.digest.update(data)
        if self.comparing:
            self.comparing.take(data)

    def text(self) -> str:
        return self.digest.hexdigest()

    def is_as_closed(self) -> bool:
        """Whether it has its marks; true also where there are none."""
        return self.comparing is None or self.comparing.are_same()


class Count:
    """What one reading of a report counts. An object of which a place was left out is none without
    findings. If nobody knows which places were, or the report lost lines, nobody can say it of any
    object."""

    def __init__(self, report: str, left: list[str] | None,
                 marks: list[Mark] | None = None) -> None:
        self.objects = self.sound = self.content = self.right = self.bytes = 0
        # How many objects have a note of what their root inventory is.
        self.noted = 0
        self.codes: Counter[str] = Counter()
        # The findings themselves, as lines.
        self.found = files.spool()
        # How many lines name each algorithm.
        self.wrong: Counter[str] = Counter()
        self.not_computed: Counter[str] = Counter()
        self.left = None if left is None else [files.bytes_of(place) for place in left]
        self.weights = Weights()
        self.object = self.file = b""
        self.is_sound = False
        digests = Digests(marks)
        reading = Reading(report, digests.take)
        for block in reading.blocks():
            sizes = RIGHT.findall(block)
            self.right += len(sizes)
            self.bytes += sum(map(int, sizes))
            for found in APART.finditer(block):
                self.line(*found.groups())
        self.lines, self.odd, self.digest = reading.lines, reading.odd, digests.text()
        self.is_as_closed = digests.is_as_closed()
        self.is_complete = self.left is not None and self.is_as_closed

    def line(self, code: bytes, path: bytes, detail: bytes) -> None:
        """A line of what is no content file that was found right."""
        if path != self.object and self.weights.is_of_object(code, path, detail):
            self.object = path
            self.is_sound = not any(is_within(place, path) for place in self.left or ())
            self.objects += 1
            self.sound += self.is_sound
        if path != self.file and self.weights.is_of_file(code, path):
            self.file = path
            self.content += 1
        if code == b"S07":
            add_algorithm(self.not_computed, detail)
        if code in OF_DIGESTS:
            add_algorithm(self.wrong, detail.partition(b" ")[0])
        self.noted += code == b"S09"
        if code in NO_FINDINGS:
            return
        self.codes[code.decode()] += 1
        self.found.write(b"%s\t%s\t%s\n" % (code, path, detail))
        if self.is_sound and is_within(path, self.object):
            self.is_sound = False
            self.sound -= 1

    def facts(self) -> dict[str, str]:
        numbers = {"Report lines": self.lines, "Broken lines": self.odd, "Objects": self.objects,
                   "Content files": self.content + self.right, "Files found right": self.right,
                   "Files not found right": self.content, "Bytes found right": self.bytes,
                   "Findings": sum(self.codes.values()),
                   **{"Findings " + code: self.codes[code] for code in sorted(self.codes)}}
        return {**{name: str(number) for name, number in numbers.items()},
                "Report SHA-256": self.digest,
                "Algorithms of wrong digests": algorithms_text(self.wrong),
                "Algorithms not computed": algorithms_text(self.not_computed),
                "Objects without findings": str(self.sound) if self.is_complete else NOT_KNOWN}


def found_in(spool: IO[bytes]) -> Iterator[Found]:
    """The codes and places of findings, each once, with the details there."""
    for place, lines in groupby(questions.lines_of(spool), lambda line: line.split(b"\t")[1]):
        made: Dict[bytes, List[bytes]] = {}
        for line in lines:
            code, _, detail = line.split(b"\t")
            made.setdefault(code + b"\t" + place, []).append(detail)
        yield from made.items()


def beside(found: IO[bytes], others: IO[bytes]) -> Iterator[tuple[bytes, bool, bool]]:
    """Each code and place of these findings, whether the others have it, and whether in other
    words. No more than 100,000 are in memory."""
    rest = found_in(found)
    while held := dict(islice(rest, questions.HELD)):
        known = {key: details for key, details in found_in(others) if key in held}
        for key, details in held.items():
            yield key, key in known, known.get(key, details) != details


class Before(NamedTuple):
    """An earlier report, the marks with which it was closed, and the places that it left out."""
    report: str
    marks: list[Mark] | None = None
    left: Sequence[bytes] = ()


def of_changes(found: IO[bytes], report: str, earlier: Before | None, whole: Before | None = None,
               left: Sequence[bytes] | None = None, known: Known | None = None) -> dict[str, str]:
    """How the findings of a report differ from those of an earlier one, by code and place. Nothing
    is known if there is none, or if it has not the marks with which it was closed. What that one
    left out is compared with the last whole report, and is not new if there is none. `left` has
    the places that this report left out; without it nobody knows what is repaired."""
    unknown = dict.fromkeys([*CHANGES, *REPAIRED, NEW_AND_KNOWN], NOT_KNOWN)
    if earlier is None:
        return {COMPARED: "no report", **unknown}
    digests, new, again = Digests(earlier.marks), 0, files.spool()
    before = questions.findings_in(earlier.report, digests.take)
    if not digests.is_as_closed():
        return {COMPARED: CHANGED, **unknown}
    for key, is_known, _ in beside(found, before):
        if is_within_any(key.split(b"\t")[1], earlier.left):
            again.write(key + b"\t-\n")
        else:
            new += not is_known
    also = of_whole(again, whole)
    more = also.pop("New findings", None)
    return {COMPARED: digests.text(), **also, NEW_AND_KNOWN: NOT_KNOWN,
            "New findings": NOT_KNOWN if more == NOT_KNOWN else str(new + int(more or 0)),
            **of_former(found, report, before, left, known or Known(None))}


def of_whole(again: IO[bytes], whole: Before | None) -> dict[str, str]:
    """How many of these findings a whole report does not have, and its digest; nothing if there is
    none."""
    if whole is None:
        return {}
    digests = Digests(whole.marks)
    before = questions.findings_in(whole.report, digests.take)
    if not digests.is_as_closed():
        return {ALSO_COMPARED: CHANGED, "New findings": NOT_KNOWN}
    return {ALSO_COMPARED: digests.text(),
            "New findings": str(sum(not is_known for _, is_known, _ in beside(again, before)))}


def of_former(found: IO[bytes], report: str, before: IO[bytes], left: Sequence[bytes] | None,
              known: Known) -> dict[str, str]:
    """What became of the findings of before."""
    lacking, count, changed = lacking_in(before, found)
    away, repaired = 0, files.spool()
    for there, gone in beside_places(lacking, report):
        away += gone
        questions.write_lines(repaired, looked_at(there, found, left or ()))
    return {"Changed findings": str(changed), "Former findings": str(count - away),
            "Findings no longer looked at": str(away),
            **(dict.fromkeys(REPAIRED, NOT_KNOWN) if left is None
               else of_repaired(repaired, before, known))}


def beside_places(lacking: IO[bytes], report: str) -> Iterator[tuple[list[bytes], int]]:
    """Those of these codes and places whose place has a line in the report, many at a time, and
    how many others there are."""
    rest = questions.lines_of(lacking)
    while held := list(islice(rest, questions.HELD)):
        away = set(standing.left_over(held, [[report]]))
        yield [it for it in held if it not in away], len(away)


def looked_at(there: list[bytes], found: IO[bytes], left: Sequence[bytes]) -> list[bytes]:
    """Those of these codes and places whose place was looked at: it was not left out, and no line
    there may hide a finding."""
    places = {it.split(b"\t")[1] for it in there}
    hidden = {path for code, path, _ in (line.split(b"\t") for line in (
        questions.lines_of(found) if places else ())) if code in HIDING and path in places}
    return [it for it in there if it.split(b"\t")[1] not in hidden
            and not is_within_any(it.split(b"\t")[1], left)]


def of_repaired(repaired: IO[bytes], before: IO[bytes], known: Known) -> dict[str, str]:
    """How many codes and places these are, and the most serious of them, each with the reason that
    the file of known findings has for it."""
    count = sum(1 for _ in questions.lines_of(repaired))
    # Without a name the spool is closed before it is read.
    weighed = questions.by_weight(repaired, Weights())
    keys = dict.fromkeys(islice(questions.lines_of(weighed), MOST_REPAIRED))
    facts = dict(zip(REPAIRED, (str(count), str(count - len(keys)))))
    details = {key: found for key, found in found_in(before) if key in keys} if keys else {}
    for at, key in enumerate(keys, 1):
        facts["Repaired finding %d" % at] = files.text_of(key.replace(b"\t", b" "))
        reason = files.text_of(known.reason(key + b"\t" + it for it in details[key]))
        if reason:
            facts["Reason given %d" % at] = shortened(reason)
    return facts


def shortened(reason: str) -> str:
    return reason if len(reason) <= MOST_OF_REASON else reason[:MOST_OF_REASON] + ".."


def lacking_in(before: IO[bytes], found: IO[bytes]) -> tuple[IO[bytes], int, int]:
    """The codes and places of before that are not found there now, how many they are, and how many
    others have another detail now."""
    lacking, count, changed = files.spool(), 0, 0
    for key, is_known, is_changed in beside(before, found):
        changed += is_changed
        if not is_known:
            count += 1
            lacking.write(key + b"\n")
    return lacking, count, changed


def former(found: IO[bytes], report: str, before: IO[bytes]) -> Iterator[bytes]:
    """The codes and places of before that are not found there now, though the place has a line."""
    # Without a name the spool is closed before it is read.
    lacking, _, _ = lacking_in(before, found)
    for there, _ in beside_places(lacking, report):
        yield from there


def is_within_any(path: bytes, places: Iterable[bytes]) -> bool:
    return any(is_within(path, place) for place in places)


def of_lines(found: IO[bytes], earlier: str) -> dict[str, str]:
    """The same by whole lines, as statements of the forms before have it."""
    digest = hashlib.sha256()
    before = questions.findings_in(earlier, digest.update)
    return {COMPARED: digest.hexdigest(),
            "New findings": str(questions.count_lacking(found, before)),
            "Former findings": str(questions.count_lacking(before, found))}
