"""What is left to do when a night of `ocfl-scrub night` is over: statements and their seals, and
room for the next ones."""
from __future__ import annotations

import fcntl
import gzip
import os
import re
from contextlib import contextmanager
from typing import Iterator

from . import files, statement
from .seal import is_sealed
from .shared import Failed, create, refuse_links, sync, sync_folder
from .state import Closed, State, cycle_name

HELD = 75
# What a kill or a power cut leaves of a file of a statement that it kept from its place.
UNFINISHED = re.compile(r"(statement|known)-[0-9]{6,}([.].*)?[.]new")


@contextmanager
def hold_lock(state: State) -> Iterator[None]:
    """Holds the lock of a folder, as a night does."""
    path = state.at("lock")
    refuse_links(path)
    with open(os.open(path, os.O_RDWR | os.O_CREAT | os.O_NOFOLLOW, 0o640), "rb+") as lock:
        try:
            fcntl.flock(lock, fcntl.LOCK_EX | fcntl.LOCK_NB)
        except BlockingIOError as error:
            raise Failed("another night still runs in " + state.path, HELD) from error
        state.is_ours = True
        yield


def finish(state: State, seal: str | None, known: str | None, keep: int | None) -> int:
    """Makes and seals the statements that are missing, compresses the reports of earlier cycles,
    and removes those that are not to be kept. Gives 3 if a statement could not be made or
    sealed."""
    state.refuse_links()
    with hold_lock(state):
        status = max([make_statement(state, it, seal, known) for it in state.closed()], default=0)
        remove_unfinished(state)
        tidy(state, keep)
    return status


def remove_unfinished(state: State) -> None:
    for name in filter(UNFINISHED.fullmatch, files.names_in(state.reports)):
        os.remove(os.path.join(state.reports, name))


def make_statement(state: State, closed: Closed, seal: str | None, known: str | None) -> int:
    path = os.path.join(state.reports, cycle_name("statement", closed.cycle))
    if files.is_file(path) and (seal is None or is_sealed(path)):
        return 0
    try:
        statement.write(state, closed.cycle, seal, known)
    except (Failed, OSError) as error:
        files.print_error("The statement of cycle %d could not be made or sealed: %s"
                          % (closed.cycle, error))
        return 3
    return 0


def tidy(state: State, keep: int | None) -> None:
    """The reports from the last whole one but one on stay as they are: a night that was cut before
    it had compared these two compares them again. A report without a statement is never removed."""
    closed = state.closed()
    cycles = sorted({it.cycle for it in closed})
    whole = [it.cycle for it in closed if it.is_whole]
    needed = (whole or cycles or [0])[-2:][0]
    kept = cycles if keep is None else cycles[-keep:]
    for it in closed:
        if it.cycle >= needed:
            continue
        if it.cycle not in kept and state.find("statement", it.cycle):
            for path in filter(None, [it.path, state.find("checkpoint", it.cycle)]):
                os.remove(path)
        elif not it.path.endswith(".gz"):
            pack(it.path)


def pack(path: str) -> None:
    """Compresses a file. At any moment one of the two lies there whole."""
    new = create(path + ".gz.new")
    with new, gzip.GzipFile(filename="", fileobj=new, mode="wb", mtime=0) as packed:
        for chunk in files.chunks(path):
            packed.write(chunk)
        packed.close()
        sync(new)
    os.replace(path + ".gz.new", path + ".gz")
    sync_folder(os.path.dirname(path))
    os.remove(path)
