"""What the commands share with the scripts for parts: failures, links, files that are put in their
place whole, the program. It imports little, since each night of a part loads it."""
from __future__ import annotations

import io
import os

HERE = os.path.dirname(os.path.abspath(__file__))
BUILT = "crates/ocfl_scrub_cli/out/ocfl_scrub_cli"


def many(count: int, name: str) -> str:
    """A count and what it is of, with an `s` unless it is one."""
    return "%d %s%s" % (count, name, "" if count == 1 else "s")


def many_are(count: int, name: str) -> str:
    return many(count, name) + (" is" if count == 1 else " are")


def many_were(count: int, name: str) -> str:
    return many(count, name) + (" was" if count == 1 else " were")


class Failed(Exception):
    """Ends a command with a text and a status."""

    def __init__(self, text: str, status: int = 3) -> None:
        super().__init__(text)
        self.status = status


def find_program() -> str:
    """The program that the nights run: that of the environment, of this installation, or of the
    clone. In place of a clone's launcher it is what that built, if it is built."""
    there = [os.environ.get("OCFL_SCRUB", ""), HERE + "/../../../bin/ocfl-scrub",
             HERE + "/../../ocfl-scrub"]
    program = next((it for it in there if it and os.access(it, os.X_OK)), "")
    if not program:
        raise Failed("the program is not at " + there[-1])
    with open(program, "rb") as file:
        is_script = file.read(2) == b"#!"
    built = os.path.join(os.path.dirname(program) or ".", BUILT)
    return built if is_script and os.access(built, os.X_OK) else program


def refuse_links(*paths: str) -> None:
    """Fails if one of these is a link, wherever it leads: nothing in a state folder is one."""
    for path in paths:
        if os.path.islink(path):
            raise Failed(path + " is a link, and no link in a state folder is followed")


def create(path: str) -> io.BufferedWriter:
    """Makes a new file for its owner and the group, in the place of what a kill left there. No link
    is followed."""
    if os.path.lexists(path):
        os.remove(path)
    return open(os.open(path, os.O_WRONLY | os.O_CREAT | os.O_EXCL, 0o640), "wb")


def sync(file: io.BufferedWriter) -> None:
    """Brings what was written to the disk."""
    file.flush()
    os.fsync(file.fileno())


def sync_folder(path: str) -> None:
    """Brings the names in a folder to the disk."""
    number = os.open(path, os.O_RDONLY)
    os.fsync(number)
    os.close(number)


def put(data: bytes, path: str) -> None:
    """Puts a file in its place, whole or not at all. What lies there is exchanged, and no link is
    followed."""
    with create(path + ".new") as file:
        file.write(data)
        sync(file)
    os.replace(path + ".new", path)
    sync_folder(os.path.dirname(path) or ".")
