"""The calls that the program makes of the system for the places of a storage root.

It goes into the directories and names what it asks for by last names alone, so only the calls
before a call show what it is about."""
from __future__ import annotations

import os
import re
from typing import NamedTuple

import common

LOOKS = ["stat", "lstat", "newfstatat", "statx", "fstat"]
OPENS = ["openat", "open"]
READS = ["read", "pread64", "getdents64"]
TRACED = ["chdir", "close", *LOOKS, *OPENS, *READS]
RULES = ["-s", "300", "-e", "trace=" + ",".join(TRACED)]
LINE = re.compile(r'(\w+)\((?:(\d+)|AT_FDCWD)?(?:, )?(?:"([^"]*)")?.*\) += (-?\d+|\?)')


class Call(NamedTuple):
    """A call, the how manieth of its name it is, the path that it is about, as strace writes it,
    and whether it opens that as a folder."""
    name: str
    number: int
    path: str
    folder: bool = False

    def rule(self, what: str, count: int = 1) -> list[str]:
        """What has strace do that to the call, and to those of its name right after it, `count` in
        all."""
        last = "" if count == 1 else "..%d" % (self.number + count - 1)
        return ["-e", "inject=%s:%s:when=%d%s" % (self.name, what, self.number, last)]


def read_calls(log: str, here: str) -> list[Call]:
    """The calls of a log, of a program that was started in this folder."""
    files: dict[str, str] = {}
    counts: dict[str, int] = {}
    calls = []
    for text in common.read(log).decode(errors="replace").splitlines():
        found = LINE.match(text)
        if found is None or found[1] not in TRACED:
            continue
        name, file, path, result = found[1], found[2], found[3], found[4]
        counts[name] = counts.get(name, 0) + 1
        about = files.get(file, "?") if file else os.path.normpath(os.path.join(here, path or "?"))
        calls.append(Call(name, counts[name], about, "O_DIRECTORY" in text))
        if name == "chdir" and result == "0":
            here = about
        elif name in OPENS and not result.startswith("-"):
            files[result] = about
        elif name == "close" and file:
            files.pop(file, None)
    return calls


def made(words: list[str], log: str) -> list[Call]:
    """The calls that the program makes with these words."""
    common.traced(RULES, words, log)
    return read_calls(log, os.getcwd())


def on(path: str, calls: list[Call], names: list[str]) -> list[Call]:
    """Those of these names on a path."""
    return [call for call in calls if call.path == path and call.name in names]


def last_look(path: str, calls: list[Call]) -> Call | None:
    """The last look at a path before it is opened first."""
    last = None
    for call in calls:
        if call.path == path and call.name in OPENS:
            break
        if call.path == path and call.name in LOOKS:
            last = call
    return last


def stopped_at(call: Call | None, words: list[str]) -> common.Stopped:
    """The program, stopped right after a call; it never stops where there is none."""
    if call is None:
        return common.Stopped([], "chdir", words, 10**6)
    return common.Stopped([], call.name, words, call.number)
