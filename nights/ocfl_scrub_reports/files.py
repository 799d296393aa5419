"""Files as the commands read and write them: whose they are, links, compression, whole lines."""
from __future__ import annotations

import hashlib
import os
import shutil
import stat
import sys
import tempfile
import zlib
from datetime import datetime, timezone
from typing import IO, Iterable, Iterator

from .shared import Failed

BLOCK = 1 << 20
# So little is inflated at once that no file makes much of it.
PACKED = 1 << 15


def print_error(text: str) -> None:
    """Writes a line to standard error."""
    print(text, file=sys.stderr, flush=True)


# Owners and links

def drop_to_owner_of(path: str) -> None:
    """Where root asks about what another user owns, continues with the rights of that user, who can
    put a link or anything else there. A link is of the user who made it, or of the user of what it
    leads to."""
    if os.geteuid() != 0:
        return
    for follows in (False, True):
        try:
            found = os.stat(path, follow_symlinks=follows)
        except OSError:
            continue
        if found.st_uid != 0:
            os.setgroups([])
            os.setresgid(found.st_gid, found.st_gid, found.st_gid)
            os.setresuid(found.st_uid, found.st_uid, found.st_uid)
            return


def drop_to_owners_of(paths: Iterable[str]) -> None:
    """The same for what a command is given: a folder, or a file and the folder that holds it."""
    for path in paths:
        drop_to_owner_of(path)
        if not os.path.isdir(path):
            drop_to_owner_of(os.path.dirname(path) or ".")


# Reading

def is_file(path: str) -> bool:
    """Whether a file is there. Fails if nobody can say."""
    try:
        return stat.S_ISREG(os.stat(path).st_mode)
    except (FileNotFoundError, NotADirectoryError):
        return False


def names_in(folder: str) -> list[str]:
    """The names in a folder, in their order; none if it is not there."""
    try:
        return sorted(os.listdir(folder))
    except (FileNotFoundError, NotADirectoryError):
        return []


def chunks(path: str) -> Iterator[bytes]:
    """The bytes of a file, plain or compressed, as they are without compression."""
    if not os.path.isfile(path):
        raise Failed(path + " cannot be read")
    try:
        with open(path, "rb", buffering=0) as file:
            is_packed = path.endswith(".gz") or file.read(2) == b"\x1f\x8b"
            file.seek(0)
            yield from inflated(file) if is_packed else iter(lambda: file.read(BLOCK), b"")
    except (OSError, EOFError, zlib.error) as error:
        raise Failed(path + " cannot be read") from error


def inflated(file: IO[bytes]) -> Iterator[bytes]:
    """What a gzip file holds, member after member."""
    inflater = zlib.decompressobj(31)
    while data := inflater.unused_data.lstrip(b"\0") or file.read(PACKED):
        if inflater.eof:
            data = data.lstrip(b"\0")
            if not data:
                continue
            inflater = zlib.decompressobj(31)
        yield inflater.decompress(data)
    if not inflater.eof:
        raise EOFError


def blocks(path: str) -> Iterator[bytes]:
    """The lines of a file, many at a time: each block is a line feed, and then whole lines. Only
    the last line of a file may lack its own line feed."""
    rest = [b"\n"]
    for chunk in chunks(path):
        end = chunk.rfind(b"\n") + 1
        if end:
            yield b"".join(rest) + chunk[:end]
            rest = [b"\n"]
        rest.append(chunk[end:])
    last = b"".join(rest)
    if last != b"\n":
        yield last


def lines(path: str) -> Iterator[bytes]:
    """The lines of a file without their line feeds."""
    for block in blocks(path):
        yield from block[1:].removesuffix(b"\n").split(b"\n")


def read(path: str) -> bytes:
    """All of a file, as it is without compression."""
    return b"".join(chunks(path))


def digest_of(path: str) -> str:
    """The SHA-256 of a file, as it is without compression."""
    digest = hashlib.sha256()
    for chunk in chunks(path):
        digest.update(chunk)
    return digest.hexdigest()


def text_of(data: bytes) -> str:
    """Bytes of any kind as text, which `bytes_of` makes the same bytes again."""
    return os.fsdecode(data)


def bytes_of(text: str) -> bytes:
    return os.fsencode(text)


# Writing

def spool() -> IO[bytes]:
    """A place for what is written once all of it is known: little in memory, more on the disk."""
    return tempfile.SpooledTemporaryFile(max_size=BLOCK)


def pour(file: IO[bytes], out: IO[bytes] | None = None) -> None:
    """Writes what a spool holds to standard output, or elsewhere."""
    file.seek(0)
    sys.stdout.flush()
    shutil.copyfileobj(file, out or sys.stdout.buffer, BLOCK)


def time_text(seconds: int) -> str:
    """A time in seconds since 1970, as statements have it."""
    return datetime.fromtimestamp(seconds, timezone.utc).strftime("%Y-%m-%dT%H:%M:%SZ")
