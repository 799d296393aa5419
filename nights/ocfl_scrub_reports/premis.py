"""The fixity events of a closed cycle as PREMIS 3 XML."""
from __future__ import annotations

import os
import re
from bisect import bisect_left
from dataclasses import dataclass, field
from typing import Iterator

from . import files
from .counts import Digests
from .objects import id_of
from .report import Line, Reading, is_within
from .shared import Failed, many
from .state import State
from .statement import Statement
from .weights import Weights

HEAD = """<?xml version="1.0" encoding="UTF-8"?>
<premis xmlns="http://www.loc.gov/premis/v3"
    xmlns:xsi="http://www.w3.org/2001/XMLSchema-instance" version="3.0">
"""
VOCABULARY = "http://id.loc.gov/vocabulary/preservation/"
LOSSES = ("Objects gone", "Objects no longer declared", "Files gone", "Expected objects missing")
# What is said of a row of a list of what is gone.
NOTES = {b"expected": b"missing: ", b"undeclared": b"no longer declared, and not looked at: ",
         b"changed": b"changed without a new version: ",
         b"older": b"went back to an older version: "}
# What no document of XML 1.0 may hold.
FORBIDDEN = re.compile("[\x00-\x08\x0b\x0c\x0e-\x1f\ud800-\udfff\ufffe\uffff]")
# What is markup, and what other readers would make other characters of.
WRITTEN = {ord("&"): "&amp;", ord("<"): "&lt;", ord(">"): "&gt;", ord('"'): "&quot;",
           ord("\t"): "&#9;", ord("\n"): "&#10;", ord("\r"): "&#13;"}


@dataclass
class Event:
    """An event under way: the line at which it begins, the object that it is about (or `.`), and
    its outcomes, each with a note."""
    identifier: str
    detail: str
    first: int
    of: bytes
    outcomes: list[tuple[str, bytes]] = field(default_factory=list)


def element(name: str, *content: str, **attributes: str) -> str:
    """An element whose content is XML already, on lines of its own if it has elements."""
    given = "".join(' %s="%s"' % (key, text(value)) for key, value in attributes.items())
    inner = "".join(content)
    if "<" in inner:
        inner = "\n" + re.sub("(?m)^(?=<| )", "  ", inner)
    return "<%s%s>%s</%s>\n" % (name, given, inner, name)


def text(value: str) -> str:
    """A text as content of an element or of an attribute."""
    return FORBIDDEN.sub("\ufffd", value).translate(WRITTEN)


def term(name: str, kind: str, value: str, label: str) -> str:
    """An element with a term of a controlled vocabulary."""
    return element(name, label, authority=kind, authorityURI=VOCABULARY + kind,
                   valueURI="%s%s/%s" % (VOCABULARY, kind, value))


def identified(kind: str, *pairs: tuple[str, str]) -> str:
    """Identifiers of a kind, each with its type and its value."""
    return "".join(element(kind, element(kind + "Type", text(of)),
                           element(kind + "Value", text(value))) for of, value in pairs)


def outcome(word: str, note: bytes) -> str:
    return element("eventOutcomeInformation", element("eventOutcome", word), element(
        "eventOutcomeDetail", element("eventOutcomeDetailNote", text(
            note.replace(b"\t", b" ").decode()))) if note else "")


class Events:
    """The events of one cycle, as they are found, and the objects and programs that they name."""

    def __init__(self, state: State, cycle: int, each: str, with_ids: bool) -> None:
        self.state, self.cycle, self.each, self.with_ids = state, cycle, each, with_ids
        self.said = Statement.of(state, cycle)
        if each != "finding" and self.said["Whole"] != "yes":
            raise Failed("the report of cycle %d is not whole: try --each finding" % cycle)
        self.report = self.said.report_beside(state.reports)
        # The digests of the report, as it is read: only of the one that was closed is anything
        # said.
        self.digests = Digests(state.marks(cycle) if self.said["Whole"] == "yes" else None)
        self.root_folder = state.bound_to("root")
        if with_ids and not os.path.isdir(files.bytes_of(self.root_folder)):
            raise Failed("the storage root is not at %s, so no id can be read" % self.root_folder)
        self.root = "%s:%s" % (self.said["Host"], self.said["Storage root"])
        self.runs = [run for run in state.runs(cycle) if run.lines > 0]
        if not self.runs:
            raise Failed("no night of this cycle is logged")
        self.ends = [run.lines for run in self.runs]
        # All programs of the cycle are agents of each event.
        self.programs = dict.fromkeys(
            run.program or self.said["Program SHA-256"] for run in self.runs)
        self.objects, self.events = files.spool(), files.spool()
        self.weights = Weights()
        self.object = self.shown = b""
        self.identity: tuple[str, str] = ("", "")

    def time_of(self, line: int) -> str:
        """When the run began that wrote a line."""
        return self.runs[min(bisect_left(self.ends, line), len(self.ends) - 1)].began

    # Objects

    def name_object(self, path: bytes) -> tuple[str, str]:
        """Writes an object once, and gives how events link to it: by its OCFL id, or its path."""
        if path != self.shown:
            self.shown = path
            by_path = ("OCFL object path", path.decode())
            found = id_of(self.root_folder, path) if self.with_ids else None
            self.identity = ("OCFL object id", found) if found is not None else by_path
            pairs = [self.identity, by_path] if found is not None else [by_path]
            self.put_object(*pairs)
        return self.identity

    def put_object(self, *pairs: tuple[str, str]) -> None:
        made = element("object", identified("objectIdentifier", *pairs))
        made = made.replace("<object>", '<object xsi:type="intellectualEntity">', 1)
        self.objects.write(made.encode())

    # Events

    def event(self, event: Event, time: str | None = None) -> None:
        """Writes an event."""
        link = (("OCFL storage root", self.root) if event.of == b"."
                else self.name_object(event.of))
        self.events.write(element(
            "event",
            identified("eventIdentifier", ("ocfl-scrub event", self.name() + event.identifier)),
            term("eventType", "eventType", "fix", "fixity check"),
            element("eventDateTime", time or self.time_of(event.first)),
            element("eventDetailInformation", element("eventDetail", text(
                "%s; cycle %d, report %s with SHA-256 %s" % (
                    event.detail, self.cycle, self.said["Report"], self.said["Report SHA-256"])))),
            *(outcome(*it) for it in event.outcomes or [("pass", b"")]),
            identified("linkingAgentIdentifier",
                       *(("SHA-256 of the program", program) for program in self.programs)),
            identified("linkingObjectIdentifier", link)).encode())

    def name(self) -> str:
        """How the identifiers of all events begin. Two folders of state can be of one root, and
        one that was begun anew has its first cycle twice."""
        return ":".join([self.root, *map(self.said.__getitem__, ("State folder", "Closed",
                                                                 "Report"))])

    # What the lines of the report give

    def of_cycle(self) -> None:
        reading = Reading(self.report, self.digests.take)
        found = sum(line.is_finding() for line in reading.apart())
        lost = ["%s: %s" % (name, self.said[name]) for name in LOSSES
                if self.said.get(name, "").strip("0").isdecimal()]
        why = self.said.get("Not compared")
        unknown = [] if self.said["Objects gone"].isdecimal() else [
            "what is gone is not known" + (": " + why if why else "")]
        note = "; ".join([many(found, "finding") + " in " + many(reading.lines, "line"), *lost,
                          *unknown])
        came = "fail" if found or lost else "pass"
        event = Event("", "Audit of a storage root", 1, b".", [(came, note.encode())])
        self.event(event, self.runs[-1].began)

    def lines(self) -> Iterator[tuple[Line, bool]]:
        """The lines of the report apart from right files, and whether each begins an object."""
        for line in Reading(self.report, self.digests.take).apart():
            begins = line.path != self.object and self.weights.is_of_object(*line[1:])
            if begins:
                self.object = line.path
            yield line, begins

    def of_findings(self) -> None:
        for line, _ in self.lines():
            if line.is_finding():
                within = self.object and is_within(line.path, self.object)
                self.finding(line, self.object if within else b".")

    def finding(self, line: Line, of: bytes) -> None:
        event = Event(":finding:%d" % line.number, "Finding of an audit", line.number, of,
                      [("fail", line.text())])
        self.event(event)

    def of_objects(self) -> None:
        event = None
        number = 0
        for line, begins in self.lines():
            number = line.number
            within = event and is_within(line.path, event.of)
            # A finding outside of any object comes after the event of the object before it.
            if event and (begins or line.is_finding() and not within):
                self.event(event)
                event = None
            if begins:
                event = Event(":object:%d" % number, "Audit of an object", number, line.path)
            if line.is_finding() and event:
                event.outcomes.append(("fail", line.text()))
            elif line.is_finding():
                self.object = b""
                self.finding(line, b".")
        if event:
            self.event(event)

    def write(self) -> None:
        {"cycle": self.of_cycle, "finding": self.of_findings,
         "object": self.of_objects}[self.each]()
        if (self.digests.text() != self.said["Report SHA-256"]
                or not self.digests.is_as_closed()):
            raise Failed("%s was changed since it was closed" % self.report)
        self.of_losses()
        out = files.spool()
        out.write(HEAD.encode())
        objects, self.objects = self.objects, out
        self.put_object(("OCFL storage root", self.root))
        for part in (objects, self.events):
            files.pour(part, out)
        for program in self.programs:
            out.write(self.agent(program).encode())
        out.write(b"</premis>\n")
        files.pour(out)

    def of_losses(self) -> None:
        """What the cycle no longer found has no line in its report: an event for each line of the
        list of what is gone, at the time when the cycle was closed."""
        path = self.state.find("gone", self.cycle) if self.each != "cycle" else None
        last = b""
        for number, line in enumerate(files.lines(path) if path else [], 1):
            kind, _, place = line.partition(b"\t")
            if kind == b"newer":
                continue
            last = place if kind in (b"object", b"undeclared") else last
            is_away = kind == b"file" and is_within(place, last)
            note = (b"no longer looked at: " if is_away else NOTES.get(kind, b"gone: ")) + place
            event = Event(":gone:%d" % number, "Loss found by an audit", 0,
                          b"." if kind == b"file" else place, [("fail", note)])
            self.event(event, self.said["Closed"])

    def agent(self, program: str) -> str:
        """A program. Version and commit are known of the one that the statement describes."""
        name, _, version = self.said["Program"].partition(" ")
        described = program == self.said["Program SHA-256"]
        return element(
            "agent", identified("agentIdentifier", ("SHA-256 of the program", program)),
            element("agentName", text(name)), term("agentType", "agentType", "sof", "software"),
            *([element("agentVersion", text(version)),
               element("agentNote", text("commit " + self.said["Program commit"]))]
              if described else []))


def show(state: State, cycle: int, each: str, with_ids: bool) -> None:
    """Writes the events of a cycle: one for the cycle, or one for each finding or object."""
    state.refuse_links()
    Events(state, cycle, each, with_ids).write()
