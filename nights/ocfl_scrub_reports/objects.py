"""Files and inventories of a storage root, by their places as reports write them. No link below the
root is followed."""
from __future__ import annotations

import json
import os
import re
import stat
import unicodedata
from typing import IO, Any, Iterable, Sequence
from urllib.parse import unquote_to_bytes

from . import files

# What an object's inventory is called, and how long one is read: as the program reads it.
INVENTORY = b"inventory.json"
MOST = 268435456
DECLARATION = re.compile("0=ocfl_[0-9]")


def names_of(place: bytes) -> list[bytes]:
    """The names of a place from the storage root down. Fails if one of them is not a name."""
    names = [] if place == b"." else [unquote_to_bytes(name) for name in place.split(b"/")]
    if any(name in (b"", b".", b"..") or b"/" in name or b"\0" in name for name in names):
        raise OSError("no place has the name of a folder above: " + place.decode())
    return names


def in_one_form(place: bytes) -> str:
    """A place in one form of Unicode: a copy may have written its names in another one."""
    return unicodedata.normalize("NFC", unquote_to_bytes(place).decode("utf-8", "replace"))


def open_folder(root: str, names: Iterable[bytes]) -> int:
    """Opens a folder below another one, name by name. Fails if it is not a folder, or behind a
    link."""
    folder = os.open(root, os.O_RDONLY | os.O_DIRECTORY)
    for name in names:
        try:
            inner = os.open(name, os.O_RDONLY | os.O_DIRECTORY | os.O_NOFOLLOW, dir_fd=folder)
        finally:
            os.close(folder)
        folder = inner
    return folder


def open_file(root: str, place: bytes) -> IO[bytes]:
    """Opens a file below a folder. Fails if it is not a file, or behind a link."""
    *above, last = names_of(place) or [b"."]
    folder = open_folder(root, above)
    try:
        # A pipe would wait for somebody who writes.
        number = os.open(last, os.O_RDONLY | os.O_NOFOLLOW | os.O_NONBLOCK, dir_fd=folder)
    finally:
        os.close(folder)
    file = open(number, "rb")
    if not stat.S_ISREG(os.fstat(number).st_mode):
        file.close()
        raise OSError("not a file: " + place.decode())
    return file


def is_way_to(root: str, names: Sequence[bytes]) -> bool:
    """Whether these names lead to a folder, or to where there is nothing yet, through no link and
    no file."""
    for end in range(len(names) + 1):
        try:
            os.close(open_folder(root, names[:end]))
        except FileNotFoundError:
            return True
        except OSError:
            return False
    return True


def inventory_of(root: str, place: bytes) -> dict[str, Any] | None:
    """The inventory of an object, or of one of its version folders, which is read whole; None if
    none can be read."""
    try:
        with open_file(root, place + b"/" + INVENTORY) as file:
            data = file.read(MOST + 1)
        known = json.loads(data) if len(data) <= MOST else None
    except (OSError, ValueError, RecursionError):
        return None
    return known if isinstance(known, dict) else None


def id_of(root: str, place: bytes) -> str | None:
    """The OCFL id in an object's inventory, if one can be read."""
    found = (inventory_of(root, place) or {}).get("id")
    return found if isinstance(found, str) and found else None


def is_root(path: str) -> bool:
    """Whether a storage root is there: a folder with a declaration."""
    return any(DECLARATION.match(name) for name in files.names_in(path))
