"""Sends what a night said, by mail or to standard error, which is the journal."""
from __future__ import annotations

import glob
import os
import signal
import subprocess
import sys
from dataclasses import dataclass
from typing import Mapping, NamedTuple, Sequence

from . import files
from .log import Closing
from .shared import Failed
from .state import State, is_held, open_state
from .statement import Statement, plain

WORDS = {"0": "{}: a message about the nights", "1": "findings in {}",
         "75": "{}: another night still runs"}
NO_TEXT = ("It left no text in its folder, or the text was sent already. If it could not write "
           "there,\n%s.\n")
NO_ROOM = "What it said could not be written into %s: is there room for it?\nElse %s.\n"
# How many seconds a mail may take. What hangs must not keep the messages of later nights.
PATIENCE = 300


class Folder:
    """A folder of state, and the texts in it: that of this night, and those of earlier ones of
    which nobody was told."""

    def __init__(self, path: str, number: str) -> None:
        self.path = path
        own = os.path.join(path, "tonight." + number)
        self.own = own if number and has_text(own) else None
        self.cut = own if number and is_empty(own) else None
        self.unsent = [] if is_held(path) else [it for it in self.texts() if it != own]

    def texts(self) -> list[str]:
        """The texts that were not sent, in the order of their nights."""
        names = glob.glob(os.path.join(glob.escape(self.path), "tonight.*"))
        return sorted((it for it in names if not it.endswith(".new") and has_text(it)),
                      key=lambda it: (os.stat(it).st_mtime_ns, it))

    def said(self) -> bytes:
        """What this night and earlier ones left to be sent."""
        return b"".join(map(files.read, [*self.unsent, *filter(None, [self.own])]))

    def forget(self) -> None:
        """The texts were sent: the last one stays as `tonight`, until another one is sent."""
        for path in [*self.unsent, *filter(None, [self.own])]:
            os.replace(path, os.path.join(self.path, "tonight"))
        if self.cut:
            os.remove(self.cut)


@dataclass
class Night:
    """A night as systemd tells of it, over one folder of state or several, and the texts that it
    left."""
    name: str
    states: Sequence[str]
    given: Mapping[str, str]

    def __post_init__(self) -> None:
        # A line feed would make a header of the mail, or a line of the text.
        self.shown = plain("", self.name)
        self.code = self.given.get("EXIT_CODE") or "exited"
        self.status = self.given.get("EXIT_STATUS") or "0"
        self.result = self.given.get("SERVICE_RESULT", "")
        # systemd has no status of a night that it could not begin.
        self.has_begun = bool(self.given.get("EXIT_CODE")) or self.result in ("", "success")
        self.folders = [Folder(it, self.given.get("INVOCATION_ID", "")) for it in self.states]
        self.has_own = any(it.own for it in self.folders)
        self.has_unsent = any(it.unsent for it in self.folders)

    def subject(self) -> str | None:
        """None where there is nothing to tell."""
        if not self.has_begun:
            return "%s: the night did not begin (%s)" % (self.shown, self.result)
        if self.code != "exited":
            why = self.status + (", " + self.result if self.result else "")
            return "%s: the night was killed (%s)" % (self.shown, why)
        if self.status == "0" and not self.has_own and not self.has_unsent:
            return None
        stopped = "{}: the night stopped with status " + self.status
        words = WORDS.get(self.status, stopped)
        if self.status == "0" and not self.has_unsent:
            words = good_words([closed_last(it.path) for it in self.folders]) or words
        return words.replace("{}", self.shown)

    def said(self) -> bytes:
        """What was left to be sent; of several folders after the path of each."""
        texts = [(it, it.said()) for it in self.folders]
        if len(texts) == 1:
            return texts[0][1]
        return b"\n".join(b"%s:\n\n%s" % (plain("", it.path).encode(), said)
                          for it, said in texts if said)

    def where(self) -> str:
        """Who has what a night said that left no text."""
        if "SERVICE_RESULT" in self.given:
            return "the journal has what it said: journalctl -u ocfl-scrub@" + self.shown
        return "its standard error has what it said"

    def text(self) -> bytes:
        said = self.said()
        if not self.has_own:
            said += self.why_no_text(bool(said)).encode()
        again = b"" if self.code == "exited" else (
            b"The next night continues from the last checkpoint.\n")
        return said + again

    def why_no_text(self, is_said: bool) -> str:
        """What is said of a night without a text. Empty if others are sent, and it ended well."""
        cut = [it.path for it in self.folders if it.cut]
        if cut and self.code == "exited" and self.status != "0":
            return NO_ROOM % (", ".join(plain("", it) for it in cut), self.where())
        if not self.has_begun:
            return ("Nothing was audited. systemctl status ocfl-scrub@%s says why.\n"
                    % self.shown)
        return "" if is_said or self.code != "exited" else NO_TEXT % self.where()

    def forget(self) -> None:
        for it in self.folders:
            it.forget()


class Ended(NamedTuple):
    """A cycle that the last night closed, what the log says of that, and its statement, which is
    empty if there is none."""
    cycle: int
    closing: Closing
    said: Statement

    def words(self) -> str:
        """What came of the cycle."""
        right, count = (self.said.get(it, "") for it in ("Files found right", "Content files"))
        if not right.isdecimal() or not count.isdecimal():
            return "cycle %d of {} has ended" % self.cycle
        is_new = self.closing.new or self.closing.gone or not self.closing.is_whole
        result = "all right" if right == count and not is_new else "%s of %s files right%s" % (
            right, count, "" if is_new else ", nothing new")
        return "cycle %d of {}: %s" % (self.cycle, result)


def closed_last(folder: str) -> list[Ended]:
    """The cycles that the last night of a folder closed, by the log: the words of a message may
    change. None if nobody can say it."""
    try:
        state = open_state(folder)
        state.refuse_links()
        night, ended = "", {}
        for entry in state.entries(True):
            if entry.kind == "told":
                night = entry.night
            elif entry.closing and entry.closing.is_logged:
                ended[entry.cycle] = entry
        return [Ended(cycle, it.closing or Closing(), said_of(state, cycle))
                for cycle, it in sorted(ended.items()) if it.night == night]
    except (Failed, OSError, ValueError):
        return []


def said_of(state: State, cycle: int) -> Statement:
    path = state.find("statement", cycle)
    return Statement.read(path) if path else Statement()


def good_words(closed: Sequence[Sequence[Ended]]) -> str:
    """What came of a night that found nothing bad, over one folder or several: of several cycles
    that ended, that of the last one. Empty if it is not known."""
    ended = [it for every in closed for it in every]
    if any(it.closing.repaired for it in ended):
        return "{}: findings repaired"
    if any(it.closing.back for it in ended):
        return "{}: objects are back"
    if len(closed) > 1:
        return "{}: cycles ended" if ended else ""
    return ended[-1].words() if ended else ""


def has_text(path: str) -> bool:
    return not os.path.islink(path) and os.path.isfile(path) and os.path.getsize(path) > 0


def is_empty(path: str) -> bool:
    """Whether the file of a text is there and took nothing."""
    return not os.path.islink(path) and os.path.isfile(path) and os.path.getsize(path) == 0


def send(night: Night) -> int:
    """Sends the text of a night. Gives 3 if it was not sent as asked: then the text goes to
    standard error, and the next call sends it once more."""
    subject = night.subject()
    if subject is None:
        return 0
    subject, text, to = "ocfl-scrub: " + subject, night.text(), night.given.get("MAIL", "")
    is_sent = not to or mail(subject, text, to)
    if not is_sent:
        files.print_error("tell: the mail to %s could not be sent" % plain("", to))
    if not to or not is_sent or night.given.get("JOURNAL") == "yes":
        sys.stderr.buffer.write(subject.encode() + b"\n" + text)
        sys.stderr.flush()
    if is_sent:
        night.forget()
    return 0 if is_sent else 3


def mail(subject: str, text: bytes, to: str) -> bool:
    # A mail program that ends before it has read all of it must not end this one.
    signal.signal(signal.SIGPIPE, signal.SIG_IGN)
    try:
        return subprocess.run(["mail", "-s", subject, to], input=text, check=False,
                              timeout=PATIENCE).returncode == 0
    except (OSError, subprocess.TimeoutExpired):
        return False
