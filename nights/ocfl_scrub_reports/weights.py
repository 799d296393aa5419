"""How serious findings are, and which of them are known."""
from __future__ import annotations

import os
import re
from typing import Iterable

from . import files

# The codes of files that have another digest or are missing, which their detail says.
CAN_BE_MISSING = (b"E092", b"E093")
# Behind a line of these codes other findings of its place may be there and not be looked for, as
# `is_hiding` of crates/ocfl_codes/specs/Kinds.antt says.
HIDING = frozenset(
    b"E001 E003 E015 E017 E018 E023 E024 E025 E033 E036 E041 E063 E069 E072 E073 E076 S01 S02 S03 "
    b"S04 S05 S08".split())
# The codes of an inventory by its sidecars, and the place of one in a version directory, as
# crates/ocfl_codes/specs/Inventories.antt says: there its lines are said of that file.
BY_SIDECAR = frozenset((b"E058", b"E060", b"E061"))
VERSION_INVENTORY = re.compile(rb".+/v[0-9]+/inventory\.json")
# What these mean there and what to do first, as `meaning_at` and `first_step_at` of ocfl_codes say.
VERSION_WORDS = {b"E058": "its sidecar is missing", b"E060": "differs from its sidecar",
                 b"E061": "its sidecar cannot be used"}
WRITE_AGAIN = "compare it with a copy, and write its sidecar again if it is right"
VERSION_STEPS = {
    b"E058": WRITE_AGAIN, b"E061": WRITE_AGAIN,
    b"E060": "compare it and its sidecar with a copy, and restore the one that has changed"}
TABLE = os.path.join(os.path.dirname(os.path.abspath(__file__)), "codes")


class Weights:
    """The table of codes, as `ocfl-scrub codes` prints it: how serious each is, whether it is said
    of an object itself or of a content file, what it means and what to do first. A table may lack
    the last two: those of this one are used then."""

    def __init__(self, path: str = TABLE) -> None:
        self.of_code: dict[bytes, bytes] = {}
        self.of_objects: set[bytes] = set()
        self.of_files: set[bytes] = set()
        self.words: dict[bytes, str] = {}
        # What to do first, by the code.
        self.steps: dict[bytes, str] = {}
        for line in files.lines(path):
            columns = line.split(b"\t")
            if len(columns) in (3, 4, 5) and not line.startswith(b"#"):
                self.of_code[columns[0]] = columns[1]
                if columns[2] == b"object":
                    self.of_objects.add(columns[0])
                if columns[2] == b"file":
                    self.of_files.add(columns[0])
                self.words.update((columns[0], it.decode()) for it in columns[3:4])
                self.steps.update((columns[0], it.decode()) for it in columns[4:])

    def weight(self, line: bytes) -> bytes:
        """The weight of a finding. A code that the table lacks is grave until it has one."""
        return self.of_code.get(line.partition(b"\t")[0], b"1")

    def is_of_object(self, code: bytes, path: bytes, detail: bytes) -> bool:
        """Whether this line is of an object itself; the lines of its files follow it."""
        return path != b"." and (detail == b"-" if code == b"ok" else code in self.of_objects
                                 and not is_of_version(code, path))

    def is_of_file(self, code: bytes, path: bytes) -> bool:
        """Whether this line, which is not `ok`, is of a content file, or of the inventory in a
        version directory."""
        return code in self.of_files or is_of_version(code, path)

    def step(self, code: bytes, meaning: str) -> str:
        """What to do first about findings of this code that mean this."""
        steps = self.steps if meaning != VERSION_WORDS.get(code) else VERSION_STEPS
        return steps.get(code, "")

    def meaning(self, code: bytes, path: bytes, detail: bytes | None) -> str:
        """What a finding means, in words; empty if the table does not say it. Without its detail
        nobody knows whether a file is missing."""
        if is_of_version(code, path):
            return VERSION_WORDS[code]
        if code in CAN_BE_MISSING and detail is None:
            return self.words.get(code, "") + ", or missing"
        is_missing = code in CAN_BE_MISSING and (detail or b"").endswith(b" missing")
        return "missing" if is_missing else self.words.get(code, "")


def is_of_version(code: bytes, path: bytes) -> bool:
    """Whether this line says of the inventory in a version directory what its sidecars say."""
    return code in BY_SIDECAR and VERSION_INVENTORY.fullmatch(path) is not None


class Known:
    """What a file of known findings names. Each of its lines is a line of a report; or a code and a
    path, for every detail; or a code and a path with `/` after it, for all at and below that place,
    where `./` is the whole storage root. The remarks right above lines are the reason of these."""

    def __init__(self, path: str | None) -> None:
        # What is named, with its reason, which is empty if there is none.
        self.reasons: dict[bytes, bytes] = {}
        remarks: list[bytes] = []
        is_above = False
        for line in files.lines(path) if path else ():
            if line.startswith(b"#"):
                remarks = [*(remarks if is_above else ()), line.lstrip(b"#").strip()]
            elif line:
                self.reasons[line] = b" ".join(filter(None, remarks))
            else:
                remarks = []
            is_above = line.startswith(b"#")

    def entry_of(self, line: bytes) -> bytes | None:
        """What names this line: of several that do the one that names the fewest."""
        code, path, *_ = line.split(b"\t")
        for name in (line, code + b"\t" + path):
            if name in self.reasons:
                return name
        end = len(path)
        while end >= 0:
            name = code + b"\t" + path[:end] + b"/"
            if name in self.reasons:
                return name
            end = path.rfind(b"/", 0, end)
        name = code + b"\t./"
        return name if name in self.reasons else None

    def has(self, line: bytes) -> bool:
        return bool(self.reasons) and self.entry_of(line) is not None

    def reason(self, lines: Iterable[bytes]) -> bytes:
        """The reason of the first of these lines that has one; empty if none has."""
        names = filter(None, map(self.entry_of, lines if self.reasons else ()))
        return next(filter(None, map(self.reasons.__getitem__, names)), b"")

    def without(self, lines: list[bytes]) -> list[bytes]:
        """Those of these lines that are not known."""
        return [line for line in lines if not self.has(line)] if self.reasons else lines
