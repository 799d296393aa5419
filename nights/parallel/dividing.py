"""Cuts a storage root into parts, once for a folder."""
from __future__ import annotations

import os
import shutil
import subprocess

from folder import part
from given import count_parts
from ocfl_scrub_reports.shared import (Failed, find_program, many, put, refuse_links,
                                       sync_folder)

OTHERS = "%s is divided into %s, which stay: leave --parts out, or take a new folder"


def asked(state: str) -> str:
    """The file that says how many parts were asked for, if a number was."""
    return state + "/parts.asked"


def refuse_others(state: str, parts: str) -> None:
    """Fails if a folder that is divided already is to have other parts than it has. The root may
    give fewer than were asked for."""
    if not parts or not os.path.isfile(state + "/parts"):
        return
    count, most = count_parts(state), None
    if parts.isdecimal():
        refuse_links(asked(state))
        if os.path.isfile(asked(state)):
            with open(asked(state), encoding="ascii") as file:
                most = int(file.read())
        is_same = int(parts) in (count, most) or most is None and int(parts) > count
    else:
        with open(state + "/parts", "rb") as now, open(parts, "rb") as others:
            is_same = now.read() == others.read()
    if not is_same:
        raise Failed(OTHERS % (state, many(count, "part")), 2)


def divide(state: str, parts: str, words: list[str]) -> None:
    """Gives each part its folder. The file of separators comes last, so that it is there if all of
    them are."""
    for name in ("said", "reports"):
        os.makedirs("%s/%s" % (state, name), 0o750, exist_ok=True)
    data = separators(parts, words[-1])
    try_night(state, data, words)
    for number in range(1, data.count(b"\n") + 2):
        os.makedirs("%s/%s" % (state, part(number)), 0o750, exist_ok=True)
    sync_folder(state)
    if parts.isdecimal():
        put(b"%d\n" % int(parts), asked(state))
    put(data, state + "/parts")


def separators(parts: str, root: str) -> bytes:
    """Those of at most so many parts, or of a file."""
    if parts.isdecimal():
        return output_of(["split", "--parts", parts, root])
    with open(parts, "rb") as file:
        return file.read()


def clear(path: str) -> None:
    """Removes a folder that this made, also one that a killed call left."""
    if os.path.lexists(path):
        refuse_links(path)
        shutil.rmtree(path)


def try_night(state: str, data: bytes, words: list[str]) -> None:
    """Has the program try root, separators and options: a night that is over before it begins."""
    tried = state + "/tried"
    clear(tried)
    os.mkdir(tried, 0o700)
    try:
        put(data, tried + "/parts")
        output_of(["night", "--create", "--state", tried + "/state", "--parts", tried + "/parts",
                   "--part", str(data.count(b"\n") + 1), "--end", "1", *words])
    finally:
        clear(tried)


def output_of(words: list[str]) -> bytes:
    """What the program writes. If it refuses, it says why."""
    done = subprocess.run([find_program(), *words], capture_output=True, check=False)
    if done.returncode != 0:
        said = os.fsdecode(done.stderr).removeprefix("ocfl-scrub: ").strip()
        raise Failed(said, 2 if done.returncode == 2 else 3)
    return done.stdout
