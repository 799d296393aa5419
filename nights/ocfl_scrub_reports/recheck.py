"""Looks again at the places of open findings, and at what is gone, and says what is repaired."""
from __future__ import annotations

import subprocess
import sys
from itertools import groupby

from . import files, standing
from .report import NOTES
from .shared import Failed, find_program
from .state import State
from .weights import HIDING, Known, Weights


def show(state: State, known: str | None) -> int:
    """Writes each open finding after `repaired` or `open`, by its code as closings have it, and what
    was not found there before after `new`; what is gone comes after `back` or `gone`. Gives 1 if
    something is open, new or gone, 3 if a place was not looked at, and else 0. Fails if the storage
    root is not there."""
    state.refuse_links()
    root, leave_out = state.bound_to("root"), Known(known)
    if not root:
        raise Failed("%s is not bound to a storage root" % state.path)
    looking = Looking(find_program(), root, state.options())
    looking.refuse_other_root()
    status = 0
    found = (line for line in standing.open_findings(state) if not leave_out.has(line))
    for place, lines in groupby(found, lambda line: line.split(b"\t", 2)[1]):
        status = max(status, looking.at_findings(place, list(lines), leave_out))
    for line in standing.losses(state):
        if not leave_out.has(line):
            status = max(status, looking.at_loss(line))
    return status


# The code of a file outside of any object.
OUTSIDE = b"E072"


class Looking:
    """Looks at places of a storage root by the program, with the options of an audit."""

    def __init__(self, program: str, root: str, options: list[str]) -> None:
        self.command, self.root, self.weights = [program, "check", *options], root, Weights()
        # Whether the folders above files are objects that are looked into.
        self.objects: dict[bytes, bool] = {}

    def lines_at(self, place: bytes) -> list[bytes] | None:
        """The lines of a place; None, with a word on standard error, if the program could not
        tell."""
        done = subprocess.run([*self.command, "--", self.root, place],
                              stdout=subprocess.PIPE, stderr=subprocess.PIPE, check=False)
        if done.returncode in (0, 1):
            return done.stdout.splitlines()
        said = files.text_of(done.stderr.strip()).partition("\n")[0]
        files.print_error("could not be looked at: %s%s" % (place.decode(), said and ": " + said))
        return None

    def refuse_other_root(self) -> None:
        """Fails unless there is a storage root: in an empty folder nothing is found."""
        lines = self.lines_at(b".") or []
        if b"ok\t.\t-" not in lines:
            found = [files.text_of(it).partition("\t")[0] for it in lines[:1]]
            raise Failed("there is no sound storage root at %s%s: is it mounted? Nothing was looked "
                         "at." % (self.root, "".join(" (%s)" % it for it in found)))

    def at_findings(self, place: bytes, before: list[bytes], leave_out: Known) -> int:
        """Says what became of the findings at a place. Only what has a line of that very place was
        looked at, and none that may hide a finding. A file outside of any object has none once it
        is in one and need not be hashed."""
        lines = self.lines_at(place)
        if lines is None:
            return 3
        now = [line for line in lines if not line.startswith((b"ok\t", *NOTES))]
        codes = {code_of(it) for it in before}
        away = [it for it in before if code_of(it) not in set(map(code_of, now))]
        is_there = any(it.split(b"\t", 2)[1:2] == [place] for it in lines)
        is_looked_at = not any(code_of(it) in HIDING for it in now) if is_there else (
            codes == {OUTSIDE} and self.is_in_object(place))
        print_after("repaired" if is_looked_at else "no longer looked at", away)
        shown = leave_out.without(now)
        bad = print_after("open", [it for it in shown if code_of(it) in codes])
        bad += print_after("new", [it for it in shown if code_of(it) not in codes])
        return 3 if away and not is_looked_at else int(bad > 0)

    def is_in_object(self, place: bytes) -> bool:
        """Whether a folder above a place is an object that is looked into."""
        while b"/" in place:
            place = place[:place.rindex(b"/")]
            if place not in self.objects:
                lines = [it.split(b"\t", 2) for it in self.lines_at(place) or ()]
                self.objects[place] = not any(it[0] in HIDING for it in lines) and any(
                    it[1] == place and self.weights.is_of_object(*it) for it in lines
                    if len(it) == 3)
            if self.objects[place]:
                return True
        return False

    def at_loss(self, loss: bytes) -> int:
        """Says whether something that was gone is back: an object as one, a file as it should be
        or not."""
        word, _, place = loss.partition(b"\t")
        lines = self.lines_at(place)
        if lines is None:
            return 3
        there = [line.split(b"\t", 2) for line in lines]
        is_back = any(it[1] == place and (word == b"file" or self.weights.is_of_object(*it))
                      for it in there if len(it) == 3)
        print_after("back" if is_back else "gone", [loss])
        return int(not is_back)


def code_of(line: bytes) -> bytes:
    return line.partition(b"\t")[0]


def print_after(word: str, lines: list[bytes]) -> int:
    """Writes these lines after a word, and gives how many there are."""
    for line in lines:
        sys.stdout.write("%s\t%s\n" % (word, line.decode()))
    return len(lines)
