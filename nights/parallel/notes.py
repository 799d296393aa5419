"""What the parts of a storage root left to be said."""
from __future__ import annotations

import fcntl
import os
import re
from typing import BinaryIO

from folder import UNNAMED, part
from given import ranges

# A note of a part, or of all of them as 0, which may have the status of what it says in its name.
NOTE = re.compile("([0-9]{6,})-[0-9]+[.][0-9]+(?:-([0-3]))?")
# The words by which a night names its part, and those of lines that stay as they are: they name a
# place of the root, or have a command over a file, which is quoted for a shell.
OF_PART = re.compile(rb"^([^/'\t]* in )part [0-9]+ of ")
STAYS = re.compile(rb"\t|^Object |^Elsewhere: |left out: |stopped at | not shown here: ")
# Stands for the folder of a part: no text has this byte.
OWN = b"\0"


def escaped(path: str) -> bytes:
    """A path as the program shows it."""
    return re.sub(rb"[^ -$&-~]", lambda it: b"%%%02X" % ord(it[0]), os.fsencode(path))


def held(path: str) -> BinaryIO | None:
    """Opens a file, which is held until it is closed. None if somebody else holds it, or if it has
    no longer this name. No link is followed."""
    try:
        file = open(os.open(path, os.O_RDWR | os.O_NOFOLLOW), "rb")
    except FileNotFoundError:
        return None
    try:
        fcntl.flock(file, fcntl.LOCK_EX | fcntl.LOCK_NB)
    except BlockingIOError:
        file.close()
        return None
    return file


class Notes:
    """The files of DIR/said, but for those into which a night still writes."""

    def __init__(self, state: str) -> None:
        self.state = state
        # How long each note was when it was read.
        self.lengths: dict[str, int] = {}
        # The numbers of the parts that said a text, which names the folder of none.
        self.texts: dict[bytes, list[int]] = {}
        # What somebody else put there.
        self.strange: list[str] = []
        # The status of what was said of all parts: 3, unless the names of the notes say less.
        self.status = 0
        folder = state + "/said"
        for name in sorted(os.listdir(folder) if os.path.isdir(folder) else []):
            named = NOTE.fullmatch(name.removesuffix(UNNAMED))
            if not named:
                self.strange.append(folder + "/" + name)
            elif name.endswith(UNNAMED):
                self.drop(folder + "/" + name)
            else:
                self.take(folder + "/" + name, int(named[1]))
                if int(named[1]) == 0 and folder + "/" + name in self.lengths:
                    self.status = max(self.status, int(named[2] or 3))

    def drop(self, path: str) -> None:
        """Removes what a part left that was killed before its note had a name. Nobody writes into
        such a file, so one with a text is somebody else's."""
        file = held(path)
        if file is None:
            return
        with file:
            if os.fstat(file.fileno()).st_size == 0 and os.path.lexists(path):
                os.remove(path)
            elif os.path.lexists(path):
                self.strange.append(path)

    def take(self, path: str, number: int) -> None:
        file = held(path)
        if file is None:
            return
        with file:
            lines = file.read().splitlines(True)
        self.lengths[path] = sum(map(len, lines))
        own = os.fsencode("%s/%s" % (self.state, part(number)))
        text = b"".join(self.without(own, it) for it in lines)
        if text:
            self.texts.setdefault(text, []).append(number)

    def without(self, own: bytes, line: bytes) -> bytes:
        """A line without the folder of its part, unless it stays as it is, and without the number
        of that."""
        if STAYS.search(line):
            return line
        for path in {own, escaped(os.fsdecode(own))}:
            line = re.sub(rb"(?<![^ '])" + re.escape(path) + rb"(?![^/:, '\n])", OWN, line)
        return OF_PART.sub(rb"\1", line)

    def numbers(self) -> set[int]:
        """The parts that said something; 0 for what was said of all."""
        return {number for numbers in self.texts.values() for number in numbers}

    def text(self) -> bytes:
        """What all of them say, in the order of parts. What several say is there once."""
        said = []
        for text, numbers in self.texts.items():
            own = part(numbers[0]) if len(set(numbers)) == 1 else "part-*"
            said.append(b"" if numbers[0] == 0 else b"In %s:\n" % ranges(set(numbers)).encode())
            said.append(text.replace(OWN, escaped(self.state + "/" + own)))
        said += [b"%s is not a note of a part, and was passed over: remove it.\n" % escaped(it)
                 for it in self.strange]
        return b"".join(said)

    def remove(self) -> None:
        """Removes the notes that were read. One that somebody holds or that has grown since stays:
        the next message has it as a whole."""
        for path, length in self.lengths.items():
            file = held(path)
            if file is None:
                continue
            with file:
                if os.fstat(file.fileno()).st_size == length:
                    os.remove(path)
