"""The statement of a closed cycle: what was audited, when, by which program, with what result."""
from __future__ import annotations

import hashlib
import json
import os
import re
import subprocess
from collections import Counter
from dataclasses import dataclass, field

from . import files, standing
from .counts import Before, Count, of_changes
from .log import Closing, Comparisons, Entry
from .seal import is_sealed, put_seal
from .shared import Failed, find_program, put, refuse_links
from .state import NOT_KNOWN, State, cycle_name, find
from .weights import Known

FORM = "ocfl-scrub statement 4"
# What statements of these forms say of losses was said without knowing whether anything was
# compared.
GUESSING = ("ocfl-scrub statement 1", "ocfl-scrub statement 2")
# The lines that each form added to the one before it.
ADDED = {"ocfl-scrub statement 1": set(),
         "ocfl-scrub statement 2": {"Nights cut", "Places left out", "Place left out *"},
         "ocfl-scrub statement 3": {
             "Why left out *", "Not compared", "Changed findings", "Findings no longer looked at",
             "Objects no longer declared", "Files no longer looked at", "Objects back",
             "Expected objects listed", "List of expected objects, SHA-256",
             "Objects no longer declared, and not back", "Files read", "Bytes read",
             "Also compared with cycle", "Report also compared with, SHA-256",
             "New findings that are known"},
         FORM: {"Repaired findings", "Repaired finding *", "Reason given *",
                "Repaired findings not listed"}}
# The lines in their order. `*` stands for each code, and for the number of a place.
NAMES = [
    "Storage root", "Declaration sums SHA-256", "State folder", "Part from", "Part below", "Host",
    "Cycle", "First night", "Last night", "Oldest verification", "Closed", "Nights", "Nights cut",
    "Runs", "Files read", "Bytes read", "Lost lines", "Report", "Whole", "Places left out",
    "Place left out *", "Why left out *", "Report lines", "Broken lines", "Report SHA-256", "Objects",
    "Objects without findings", "Content files", "Files found right", "Files not found right",
    "Bytes found right", "Findings", "Findings *", "Algorithms of wrong digests",
    "Algorithms not computed", "Compared with cycle", "Not compared",
    "Report compared with, SHA-256", "Also compared with cycle",
    "Report also compared with, SHA-256", "New findings", "New findings that are known",
    "Changed findings", "Former findings", "Repaired findings", "Repaired finding *",
    "Reason given *", "Repaired findings not listed",
    "Findings no longer looked at", "Objects gone", "Objects no longer declared", "Files gone",
    "Files no longer looked at", "Objects back", "Objects changed without a new version",
    "Objects that went back", "Objects with a new version", "List of what is gone, SHA-256",
    "Expected objects listed", "Expected objects missing", "List of expected objects, SHA-256",
    "Objects gone and not back", "Objects no longer declared, and not back",
    "Files gone and not back", "Known losses",
    "List of known losses, SHA-256", "Program", "Program commit", "Program SHA-256",
    "Program file dated", "Programs of its runs, SHA-256", "Statement before, SHA-256",
    "Not looked at", "Not said"]
# Lines that only some statements have.
OPTIONAL = {"Part from", "Part below", "Not compared", "Also compared with cycle",
            "Report also compared with, SHA-256", "Files no longer looked at", "Objects back",
            "Objects changed without a new version", "Objects that went back",
            "Objects with a new version", "Known losses", "List of known losses, SHA-256"}
NUMBERS = {"Cycle", "Nights", "Nights cut", "Runs", "Files read", "Bytes read", "Places left out",
           "Report lines", "Broken lines", "Objects", "Objects without findings", "Content files",
           "Files found right", "Files not found right", "Bytes found right", "Findings",
           "Compared with cycle", "Also compared with cycle", "New findings",
           "New findings that are known", "Changed findings", "Former findings",
           "Repaired findings", "Repaired findings not listed", "Findings no longer looked at",
           "Objects gone", "Objects no longer declared", "Files gone", "Files no longer looked at",
           "Objects back", "Objects changed without a new version", "Objects that went back",
           "Objects with a new version", "Expected objects listed", "Expected objects missing",
           "Objects gone and not back", "Objects no longer declared, and not back",
           "Files gone and not back", "Known losses"}
# Lines whose values are places, which are written as in reports.
PLACES = re.compile("Part (from|below)|(Place|Why) left out .*|Repaired finding .*")
NOT_LOOKED_AT = ("versions, states and ids of inventories; inventories of versions; logs and "
                 "extensions; files of objects whose inventory cannot be used")
NOT_LOOKED_AT_FURTHER = NOT_LOOKED_AT.replace(" inventories of versions;", "")
NOT_SAID = ("whether bytes came from the medium or from a cache; whether the clock was right; what "
            "became of a file after it was read")
MANY = re.compile("(Findings|Place left out|Why left out|Repaired finding|Reason given) "
                  "[A-Za-z0-9]+")
# What a list of what is gone has, and the lines that count it.
KINDS = {"Objects gone": b"object", "Objects no longer declared": b"undeclared",
         "Files gone": b"file"}
# The same of objects whose root inventory is another one: only what an audit that checks the
# inventories of versions has noted is compared.
MOVED = {"Objects changed without a new version": b"changed", "Objects that went back": b"older",
         "Objects with a new version": b"newer"}
NOT_BACK = {b"object": "Objects gone and not back", b"file": "Files gone and not back",
            b"undeclared": "Objects no longer declared, and not back"}


def plain(name: str, value: str) -> str:
    """A value as a statement has it: `%` and two capital hexadecimal digits for every byte but
    printable ASCII, and for `%` itself, unless the value is a place, which is written so."""
    stays = PLACES.fullmatch(name)
    return "".join(chr(byte) if 0x20 <= byte < 0x7F and (stays or byte != 0x25) else "%%%02X" % byte
                   for byte in files.bytes_of(value))


def kind_of(name: str) -> str:
    """The name of a line, with `*` in the place of a code or a number."""
    found = MANY.fullmatch(name)
    return found[1] + " *" if found else name


class Statement(dict[str, str]):
    """What a statement says, by the names of its lines."""

    @classmethod
    def read(cls, path: str) -> Statement:
        made = cls()
        for row in list(files.lines(path))[2:]:
            name, _, value = files.text_of(row).partition(": ")
            made.setdefault(name, value)
        return made

    @classmethod
    def of(cls, state: State, cycle: int) -> Statement:
        """The statement of a cycle in a folder of state. Fails if there is none."""
        path = state.find("statement", cycle)
        if path is None:
            raise Failed("cycle %d has no statement in %s" % (cycle, state.reports))
        return cls.read(path)

    def report_beside(self, folder: str) -> str:
        """The report that the statement is about."""
        name = self.get("Report", "")
        cycle = int(self["Cycle"]) if self.get("Cycle", "").isdecimal() else 0
        path = find(folder, name.partition("-")[0], cycle)
        if path is None:
            raise Failed("the report %s is not there, in %s" % (name, folder or "."))
        return path

    def left(self) -> list[str] | None:
        """The places that were left out; None if some are not known, or lines were lost."""
        places = [value for name, value in self.items() if kind_of(name) == "Place left out *"]
        is_known = self.get("Places left out", "0") == str(len(places))
        return places if is_known and self.get("Lost lines") == "none" else None

    def text(self) -> str:
        # Codes by their letters, and places by their numbers.
        names = sorted(self, key=lambda it: (NAMES.index(kind_of(it)), re.sub(
            "[0-9]+$", lambda found: found[0].zfill(9), it)))
        return FORM + "\n\n" + "".join("%s: %s\n" % (name, plain(name, self[name]) or NOT_KNOWN)
                                       for name in names)


def as_json(text: str) -> str:
    """A statement's text as JSON: counts as numbers, `Whole` as true or false, the findings by
    their codes as an object of its own, places and repaired findings as lists, and all else as
    texts."""
    form, *rows = text.split("\n")
    made: dict[str, object] = {"form": form}
    codes: dict[str, int] = {}
    places: list[str] = []
    reasons: list[str] = []
    repaired: dict[str, dict[str, str]] = {}
    for row in filter(None, rows):
        name, _, value = row.partition(": ")
        is_number = value.isdecimal() and (value == "0" or value[0] != "0")
        kind, key = kind_of(name), re.sub("[^a-z0-9]+", "_", name.lower())
        if kind == "Findings *":
            codes[name.partition(" ")[2]] = int(value) if is_number else 0
        elif kind == "Place left out *":
            made["names_of_places_left_out"] = places
            places.append(value)
        elif kind == "Why left out *":
            made["reasons_of_places_left_out"] = reasons
            reasons.append(value)
        elif kind == "Repaired finding *":
            made["repaired_findings_listed"] = []
            code, _, place = value.partition(" ")
            repaired.setdefault(name.rpartition(" ")[2], {}).update(code=code, place=place)
        elif kind == "Reason given *":
            repaired.setdefault(name.rpartition(" ")[2], {})["reason"] = value
        elif name == "Whole":
            made[key] = value == "yes"
        else:
            made[key] = int(value) if name in NUMBERS and is_number else value
        if name == "Findings":
            made["findings_by_code"] = codes
    if repaired:
        made["repaired_findings_listed"] = list(repaired.values())
    return json.dumps(made, indent=2) + "\n"


# What the log says

@dataclass
class Cycle:
    """What the log says of a cycle."""
    number: int
    # When its nights began: of nights of parts that count as one, when the first of them did.
    nights: dict[tuple[str, int], str] = field(default_factory=dict)
    # When the night began that read first for it, if a row says so.
    began: str = ""
    cut: set[tuple[str, int]] = field(default_factory=set)
    # How many nights have begun so far, in any cycle: several may begin in one second.
    begun: int = 0
    runs: int = 0
    # The places that were left out, each with its reason.
    left: dict[str, str] = field(default_factory=dict)
    # When the cycle before was closed, if a row says it.
    begun_after: str = ""
    closed: str = ""
    closing: Closing = field(default_factory=Closing)
    comparisons: Comparisons = field(default_factory=Comparisons)

    def note(self, entry: Entry) -> None:
        if entry.kind == "ended":
            self.comparisons.take(entry)
        self.begun += entry.kind == "began"
        if entry.kind == "ended" and entry.cycle == self.number - 1:
            self.begun_after = self.begun_after or closed_at(entry)
        elif entry.cycle != self.number:
            return
        elif entry.kind == "began":
            # Of several that began where nothing had been read the last one did read. Of parts
            # the first one counts.
            if entry.stands == "start" and not (entry.of_part and self.began):
                self.began = entry.of_part or entry.night
        elif entry.kind == "left":
            self.left[entry.said] = entry.why or self.left.get(entry.said, "")
        elif entry.is_run():
            night = entry.night, 0 if entry.of_part else self.begun
            self.nights.setdefault(night, entry.of_part or entry.night)
            self.runs += entry.runs
            self.cut.update([night] * (entry.kind == "cut"))
        elif entry.kind == "ended":
            self.closing = self.comparisons.closings[self.number]
            self.closed = self.closed or closed_at(entry)
        elif entry.kind == "stands" and entry.runs > self.runs and not self.cut and not self.began:
            # No row tells of the night that made these runs.
            self.cut.add(("", 0))


def cycle_of(state: State, number: int) -> Cycle:
    """What the log says of a cycle. One of which it says nothing is known by its report."""
    cycle = Cycle(number)
    for entry in state.entries(True):
        cycle.note(entry)
    if number not in cycle.comparisons.closings:
        raise Failed("neither the log nor a report says that cycle %d was closed" % number)
    return cycle


def closed_at(entry: Entry) -> str:
    """When a cycle was closed; empty if no row says it."""
    return entry.began if entry.closing and entry.closing.is_logged else ""


def of_log(cycle: Cycle) -> dict[str, str]:
    closing, nights = cycle.closing, list(cycle.nights.values())
    left = str(max(closing.left, len(cycle.left)))
    runs = cycle.runs if closing.runs is None else closing.runs
    counts = {"Nights": len(nights), "Nights cut": len(cycle.cut), "Runs": runs}
    read = {"Files read": closing.read_files, "Bytes read": closing.read_bytes}
    return {"First night": nights[0] if nights else "", "Last night": nights[-1] if nights else "",
            "Closed": cycle.closed,
            **{name: str(count) if nights else "" for name, count in counts.items()},
            **{name: NOT_KNOWN if count is None else str(count) for name, count in read.items()},
            "Lost lines": "none" if closing.is_whole or left != "0" else NOT_KNOWN,
            "Report": closing.report, "Whole": "yes" if closing.is_whole else "no",
            "Places left out": left if closing.is_whole or closing.is_logged else NOT_KNOWN,
            **{"Place left out %d" % at: place for at, place in enumerate(cycle.left, 1)},
            **{"Why left out %d" % at: why for at, why in enumerate(cycle.left.values(), 1) if why},
            **of_comparison(cycle), **of_unlooked(closing), **of_expected(closing)}


def of_comparison(cycle: Cycle) -> dict[str, str]:
    """With which cycle it was compared, or why with none."""
    compared = cycle.closing.compared
    if compared is None and cycle.number > 1:
        return {"Compared with cycle": NOT_KNOWN}
    if compared:
        return {"Compared with cycle": ", ".join(map(str, compared))}
    return {"Compared with cycle": "nothing",
            "Not compared": cycle.closing.why_not_compared(cycle.number)}


def of_unlooked(closing: Closing) -> dict[str, str]:
    """How many files are no longer looked at, and how many objects are back. A row of an earlier
    version does not say it, and then these lines are left out."""
    counts = {"Files no longer looked at": closing.unlooked, "Objects back": closing.back}
    return {name: str(count) if closing.compared else NOT_KNOWN
            for name, count in counts.items() if count is not None}


def of_expected(closing: Closing) -> dict[str, str]:
    """How many objects were expected. How many of them are missing, their list says."""
    word = NOT_KNOWN if closing.compared is None or closing.why else "not asked"
    if not closing.list:
        return {"Expected objects listed": word, "Expected objects missing": word,
                "List of expected objects, SHA-256": "no list" if word == "not asked" else word}
    return {"Expected objects listed": str(closing.listed),
            "List of expected objects, SHA-256": closing.list}


def of_gone(cycle: Cycle, listed: str | None) -> dict[str, str]:
    """How much was gone when the cycle was closed, as its list says. Where nobody knows what it was
    compared with, a list with rows is told of all the same."""
    kinds, closing = standing.kinds_gone(listed), cycle.closing
    is_known = bool(closing.compared and listed)
    made = {name: at_least(kinds[kind], is_known) for name, kind in KINDS.items()}
    if closing.list or kinds[b"expected"]:
        made["Expected objects missing"] = str(kinds[b"expected"]) if listed else NOT_KNOWN
    return made


def of_moved(cycle: Cycle, listed: str | None, count: Count) -> dict[str, str]:
    """How many objects have another root inventory than before, as the list says; nothing if no
    root inventory was noted."""
    kinds, is_known = standing.kinds_moved(listed), bool(cycle.closing.compared and listed)
    return {name: at_least(kinds[kind], is_known) for name, kind in MOVED.items()
            if count.noted or kinds}


def of_runs(state: State, cycle: Cycle) -> dict[str, str]:
    """A time that no verification of the cycle is older than, and the programs of its nights. If no
    row says that the cycle began, a night that was killed may have none: the cycle may have begun
    as soon as the one before was closed."""
    runs = list(state.runs(cycle.number, True))
    cut = {it.night for it in runs if it.kind == "cut"}
    programs = dict.fromkeys(it.program for it in runs if it.program or it.night not in cut)
    oldest = cycle.began or min(filter(None, [cycle.begun_after, *(it.began for it in runs)]),
                                default="")
    return {"Oldest verification": oldest,
            "Programs of its runs, SHA-256": " ".join(programs) if all(programs) else ""}


def of_program() -> dict[str, str]:
    """Version, commit and digest of the program. The commit is known by what was written when it
    was installed, if that is of these very bytes."""
    done = subprocess.run([find_program(), "--version"], stdout=subprocess.PIPE, check=False)
    program = find_program()
    if done.returncode != 0:
        raise Failed(program + " does not say its version")
    version, *notes = files.text_of(done.stdout).split("\n")
    said = dict(row.split(" ", 1) for row in reversed(notes) if " " in row)
    digest = files.digest_of(program)
    return {"Program": version,
            "Program commit": said.get("commit", "") if said.get("sha256") == digest else "",
            "Program SHA-256": digest,
            "Program file dated": files.time_text(int(os.stat(program).st_mtime))}


# Making one

def losses_of(state: State, cycle: Cycle, known: Known) -> tuple[dict[str, str], bytes]:
    """What was gone when a cycle or one before was closed, and is not back: how much of it is not
    in the file of known losses, and the lines of what is."""
    listed, lost = [], Counter()  # type: list[bytes], Counter[bytes]
    for line in standing.losses(state, cycle.number):
        if known.has(line):
            listed.append(line + b"\n")
        else:
            lost[line.partition(b"\t")[0]] += 1
    has_lists = all(state.find("gone", number) for number, it in cycle.comparisons.closings.items()
                    if it.gone and number <= cycle.number)
    is_known = has_lists and not cycle.comparisons.why_unknown(cycle.number)
    facts = {name: at_least(lost[kind], is_known) for kind, name in NOT_BACK.items()}
    return {**facts, **of_known(b"".join(listed))}, b"".join(listed)


def at_least(count: int, is_known: bool) -> str:
    """A count of which it is known that there is no more, or not."""
    return str(count) if is_known else "at least %d" % count if count else NOT_KNOWN


def of_known(lines: bytes) -> dict[str, str]:
    """The losses that are known: how many, and the digest of their list."""
    return {"Known losses": str(lines.count(b"\n")),
            "List of known losses, SHA-256": hashlib.sha256(lines).hexdigest()} if lines else {}


def facts_of(state: State, cycle: Cycle, known: Known) -> Statement:
    """What the statement of a cycle says, but for losses that are not back."""
    number = cycle.number
    made = Statement(of_log(cycle), Cycle=str(number))
    report = made.report_beside(state.reports)
    gone, before = state.find("gone", number), state.find("statement", number - 1)
    made.update(of_folder(state))
    count = Count(report, made.left(), state.marks(number))
    if not count.is_as_closed:
        if made["Whole"] == "yes":
            raise Failed("%s was changed since it was closed: checkpoint-%06d has other digests"
                         % (report, number))
        made["Lost lines"] = NOT_KNOWN
    made.update(count.facts())
    made.update(changes_of(state, cycle, count, report, known))
    made.update(of_gone(cycle, gone))
    made.update(of_moved(cycle, gone, count))
    made["List of what is gone, SHA-256"] = files.digest_of(gone) if gone else "no list"
    made.update(of_program())
    made.update(of_runs(state, cycle))
    made["Statement before, SHA-256"] = files.digest_of(before) if before else "no statement"
    made["Not looked at"] = NOT_LOOKED_AT_FURTHER if count.noted else NOT_LOOKED_AT
    made["Not said"] = NOT_SAID
    return made


def changes_of(state: State, cycle: Cycle, count: Count, report: str,
               known: Known) -> dict[str, str]:
    """How the findings differ from those of the report that it was compared with. How many are new,
    and how many of these are known, the log says."""
    closing, compared = cycle.closing, cycle.closing.compared or ()
    made = of_changes(count.found, report, before_of(state, compared[0])
                      if len(compared) == 1 else None, before_of(state, closing.compared_whole),
                      count.left if count.is_complete else None, known)
    if closing.compared_whole:
        made["Also compared with cycle"] = str(closing.compared_whole)
    if compared and closing.new is not None:
        made["New findings"] = str(closing.new)
        made["New findings that are known"] = str(closing.known)
    return made


def before_of(state: State, cycle: int) -> Before | None:
    """The report of an earlier cycle; None if it is not there."""
    path = state.find_report(cycle) if cycle else None
    if path is None:
        return None
    if os.path.basename(path).startswith("cycle-"):
        return Before(path, state.marks(cycle))
    return Before(path, None, list(map(files.bytes_of, cycle_of(state, cycle).left)))


def of_folder(state: State) -> dict[str, str]:
    """What the folder is bound to, and the machine."""
    return {"Storage root": state.bound_to("root"), "Host": os.uname().nodename,
            "Declaration sums SHA-256": state.bound_to("declared"),
            "State folder": os.path.realpath(state.path),
            **{"Part " + word: place for word, place in state.ends().items()}}


def write(state: State, number: int, seal: str | None, known: str | None) -> None:
    """Writes the statement of a cycle beside its report, unless it is there, and seals it. Fails if
    the report is not the one that was closed, or if a night will still compare it."""
    path, listed = (os.path.join(state.reports, cycle_name(kind, number))
                    for kind in ("statement", "known"))
    state.refuse_links()
    refuse_links(path, path + ".json", path + ".sealed", listed)
    if not files.is_file(path):
        if not state.has_log() and not state.find_report(number):
            raise Failed("there is no log of nights in " + state.path)
        state.refuse_damage()
        cycle = cycle_of(state, number)
        if state.is_compared_later(number):
            raise Failed("what is gone since the cycle before is not known yet%s; the next night "
                         "compares them" % (cycle.closing.why and ": " + cycle.closing.why))
        named = Known(known)
        losses, known_ones = losses_of(state, cycle, named)
        text = Statement(facts_of(state, cycle, named), **losses).text()
        put_list(known_ones, listed)
        put(as_json(text).encode(), path + ".json")
        put(text.encode(), path)
    if seal is not None and not is_sealed(path):
        put_seal(path, seal)


def put_list(lines: bytes, path: str) -> None:
    """Puts a list in its place; none if nothing is in it."""
    if lines:
        put(lines, path)
    elif os.path.lexists(path):
        os.remove(path)
