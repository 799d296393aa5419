"""Seals of statements: what a command left beside them."""
from __future__ import annotations

import os
import shutil
import subprocess
import tempfile
from pathlib import Path

from . import files
from .shared import Failed, put

# The endings of what lies beside a statement without a seal.
TAKEN = (".json", ".sealed")


def is_sealed(path: str) -> bool:
    """Whether the statement has a seal: all that its command left, as the list says, lies beside
    it. Copies that somebody made of the statement are none."""
    listed = path + ".sealed"
    if not files.is_file(listed) or not os.path.getsize(listed):
        return False
    folder = os.path.dirname(path)
    return all(has_bytes(os.path.join(folder, files.text_of(name))) for name in files.lines(listed))


def has_bytes(path: str) -> bool:
    return files.is_file(path) and os.path.getsize(path) > 0


def put_seal(path: str, command: str) -> None:
    """Runs the command in a folder that holds the statement alone, and keeps what it leaves there
    beside the statement."""
    name = os.path.basename(path)
    if os.path.lexists(path + ".sealed"):
        os.remove(path + ".sealed")
    with tempfile.TemporaryDirectory() as folder:
        shutil.copyfile(path, os.path.join(folder, name))
        done = subprocess.run(["sh", "-c", command, "seal", name], cwd=folder, check=False,
                              stdin=subprocess.DEVNULL, stdout=2)
        if done.returncode != 0:
            raise Failed("the statement is not sealed: " + command)
        sealed = Path(folder, name)
        if not sealed.is_file() or sealed.read_bytes() != Path(path).read_bytes():
            raise Failed("the seal's command changed the statement")
        left = sorted(it for it in os.listdir(folder)
                      if it.startswith(name + ".") and os.path.isfile(os.path.join(folder, it)))
        if not left:
            raise Failed("the seal's command left nothing beside the statement")
        refuse_names(folder, name, left)
        for it in left:
            put(Path(folder, it).read_bytes(), os.path.join(os.path.dirname(path), it))
    put("".join(it + "\n" for it in left).encode(), path + ".sealed")


def refuse_names(folder: str, name: str, left: list[str]) -> None:
    """Fails if what a command left is no seal: an empty file, or one whose name is taken, or is
    none for a list of names."""
    for it in left:
        if it in [name + end for end in TAKEN] or it.endswith(".new") or not it.isprintable():
            raise Failed("the seal's command left a file that is not its own: " + ascii(it))
        if not os.path.getsize(os.path.join(folder, it)):
            raise Failed("the seal's command left an empty file: " + it)
