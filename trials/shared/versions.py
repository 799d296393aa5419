"""Small storage roots of objects with an inventory in each version directory, and what can be wrong
with these inventories, with their sidecars and with the root inventory, at random."""
from __future__ import annotations

import json
import os
import random
from typing import Any, Callable, Mapping, NamedTuple, Optional, Sequence

from common import digest, write

PLACES = ["a", "a-b", "deep/er/o", "h%1/é", "v1"]
FILES = ["a", "b/c", "é\t", "inventory.json"]
CONTENTS = ["content", "content", "content", "data", "inventory.json"]
# What the root inventory can have as its head; none for that of its versions.
HEADS: list[Any] = [None] * 8 + ["v1", "v9", "v2 ", "content", "", "é\n", 2, ["v1"]]
OTHERS: dict[str, Any] = {"digestAlgorithm": "md5", "manifest": [], "contentDirectory": "a/b",
                          "fixity": {"sha1": {"00": ["v1/content/a"]}, "x": 1}}


class Version(NamedTuple):
    """A version directory's name, the files that it adds, and the algorithm of its inventory."""
    name: str
    files: Mapping[str, bytes]
    algorithm: str = "sha256"


def inventory_of(versions: Sequence[Version], content: str = "content", **members: Any) -> bytes:
    """The inventory of the last of these versions, by its algorithm. These members are added to it,
    or replace its own."""
    algorithm = versions[-1].algorithm
    manifest: dict[str, list[str]] = {}
    for version in versions:
        for path, data in version.files.items():
            manifest.setdefault(digest(data, algorithm), []).append(
                "%s/%s/%s" % (version.name, content, path))
    made = {"digestAlgorithm": algorithm, "head": versions[-1].name, "manifest": manifest,
            "contentDirectory": content, **members}
    return json.dumps(made, ensure_ascii=False).encode()


def sidecar_of(data: bytes, algorithm: str) -> bytes:
    return digest(data, algorithm).encode() + b" inventory.json\n"


def put(folder: str, data: bytes, *algorithms: str) -> None:
    """Writes an inventory with a sidecar of each of these algorithms."""
    write(os.path.join(folder, "inventory.json"), data)
    for algorithm in algorithms:
        write(os.path.join(folder, "inventory.json." + algorithm), sidecar_of(data, algorithm))


def make_object(folder: str, versions: Sequence[Version], content: str = "content",
                **members: Any) -> str:
    """An object of these versions, each with the inventory that it had then."""
    write(os.path.join(folder, "0=ocfl_object_1.1"), b"ocfl_object_1.1\n")
    for count, version in enumerate(versions, 1):
        for path, data in version.files.items():
            write(os.path.join(folder, version.name, content, path), data)
        put(os.path.join(folder, version.name), inventory_of(versions[:count], content),
            version.algorithm)
    put(folder, inventory_of(versions, content, **members), versions[-1].algorithm)
    return folder


def make_root(root: str, objects: Mapping[str, Sequence[Version]]) -> str:
    write(os.path.join(root, "0=ocfl_1.1"), b"ocfl_1.1\n")
    for place, versions in objects.items():
        make_object(os.path.join(root, place), versions)
    return root


# ---- at random

def changed(dice: random.Random, data: bytes) -> bytes:
    """A byte of it is another one, or some are gone."""
    at = dice.randrange(len(data))
    return dice.choice([data[:at], data[:at] + bytes([data[at] ^ 1]) + data[at + 1:], b""])


def odd_sidecar(dice: random.Random, data: bytes, algorithm: str) -> bytes:
    """A sidecar of the form that is written otherwise, or one that is not of the form, or wrong."""
    right = digest(data, algorithm).encode()
    return dice.choice([
        right.upper() + b"\t  inventory.json", right + b" inventory.json\r\n\n \t",
        right + b"  inventory.json" + b" " * dice.choice([4000, 4096]),
        right + b"inventory.json\n", right[:-1] + b" inventory.json\n", right + b"\n",
        right + b" inventory.jso", b"", b"0" * len(right) + b" inventory.json\n",
        right[:-1] + b"g inventory.json\n", right + b" *inventory.json\n",
        right + b" inventory.json x\n", sidecar_of(data, "sha1")])


def disturb(dice: random.Random, path: str) -> None:
    """Something else is in the place of a file, or nothing is."""
    if os.path.lexists(path):
        os.remove(path)
    kind = dice.randrange(4)
    if kind == 0:
        os.symlink("inventory.json", path)
    elif kind == 1:
        os.mkdir(path)
    elif kind == 2:
        os.mkfifo(path)


def spoil(dice: random.Random, folder: str) -> None:
    """One thing is changed of an inventory and its sidecars."""
    path = os.path.join(folder, "inventory.json")
    if not os.path.isfile(path) or os.path.islink(path):
        return
    with open(path, "rb") as file:
        data = file.read()
    algorithm = dice.choice(["sha256", "sha512"])
    beside = path + "." + algorithm
    act: Callable[[], Optional[object]] = dice.choice([
        lambda: write(path, changed(dice, data or b"{}")),
        lambda: disturb(dice, path), lambda: disturb(dice, beside),
        lambda: write(beside, odd_sidecar(dice, data, algorithm)),
        lambda: write(beside, sidecar_of(data, algorithm)),
        lambda: write(folder + "/inventory.json.md5", b"x")])
    if os.path.isfile(beside) or not os.path.lexists(beside):
        act()


def random_object(folder: str, dice: random.Random) -> None:
    """An object of one to three versions, whose inventories may be odd in any way."""
    names = dice.choice([["v1", "v2", "v3"], ["v001", "v002", "v003"], ["v0", "v1", "v10"]])
    versions = [Version(name, {it: dice.randbytes(dice.randrange(20))
                               for it in dice.sample(FILES, dice.randrange(3))},
                        dice.choice(["sha256", "sha256", "sha512"]))
                for name in names[:dice.randrange(1, 4)]]
    content, head = dice.choice(CONTENTS), dice.choice(HEADS)
    members = {} if head is None else {"head": head}
    if dice.random() < 0.1:
        name = dice.choice(sorted(OTHERS))
        members[name] = OTHERS[name]
    # A content directory of an inventory's name would be where that inventory is.
    if content == "inventory.json":
        make_object(folder, versions, "content", **members)
        put(folder, inventory_of(versions, content, **members), versions[-1].algorithm)
    else:
        make_object(folder, versions, content, **members)
    if dice.random() < 0.2:
        write(folder + "/v1/notes.txt", b"")
    folders = [folder, *(os.path.join(folder, it.name) for it in versions)]
    for _ in range(dice.choice([0, 1, 1, 2, 4])):
        spoil(dice, dice.choice(folders[1:] * 3 + folders))
    back_or_forged(dice, folder, versions)


def back_or_forged(dice: random.Random, folder: str, versions: Sequence[Version]) -> None:
    """The inventory of before is put back, or another one is forged, in some objects."""
    kind = dice.randrange(8)
    path = os.path.join(folder, "inventory.json")
    if kind > 1 or not os.path.isfile(path) or os.path.islink(path):
        return
    made = inventory_of(versions[:-1] if kind == 0 and versions[1:] else versions, "content",
                        **({} if kind == 0 else {"fixity": {}}))
    write(path, made)
    beside = path + "." + json.loads(made)["digestAlgorithm"]
    if os.path.isfile(beside) or not os.path.lexists(beside):
        write(beside, sidecar_of(made, json.loads(made)["digestAlgorithm"]))


def make_random(root: str, dice: random.Random) -> str:
    """A storage root of one to three such objects."""
    write(os.path.join(root, "0=ocfl_1.1"), b"ocfl_1.1\n")
    for place in dice.sample(PLACES, dice.choice([1, 1, 2, 3])):
        random_object(os.path.join(root, place), dice)
    return root
