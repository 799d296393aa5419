#!/usr/bin/env python3
"""Tries what a night says of a storage root of 160 objects in which damages were planted.

The root is as tools of the field write it (`shared/library.py`). After a night over it as it was
made, 21 objects are damaged, each in another way, and the next night's message has to name each of
them by its place, in at most 40 lines, none over 100 characters but for paths, and none twice.
Three more damages are of kinds that a night does not look at without `--inventories`: it says
nothing of them; `inventories.py` tries them with it. Three checks of its lines were seen to fail on
a program that showed twenty findings in three lines each.

Then bash runs what `ocfl-scrub-reports repair` shows with a copy of the root as it was made, and the
next night finds only what no copy repairs.

Each damage is also done to a small root, whose message has to say how many files of that object are
right, as its inventory and the files that are there say by themselves. There a name in another form
of Unicode is one line.

usage: damages.py
"""
import json
import os
import re
import shutil
import time

import common
from common import PROGRAM, check
from shared.library import DAMAGES, NAMES, UNSEEN, make_library
from shared.messages import OBJECT
from shared.nights import Nights, ask, ran, write

# What no copy repairs: files that no inventory names, a link in the place of a file, an inventory
# that is not that of the newest version, a wrong digest in an inventory.
NOT_REPAIRED = {"a stray", "another stray", "moved and linked", "inventory of before",
                "fixity wrong"}

RESPELT = "here under another spelling of its name (E092, E023)"


def longest(text, places):
    """The longest line, without the paths in it."""
    for place in places:
        text = text.replace(place, "")
    for name in NAMES:
        text = text.replace(name, "")
    return max(len(re.sub(r"'[^']*'", "", line)) for line in text.split("\n"))


def objects_for(objects):
    """Objects of two versions or more, one for each damage, the umlaut's first."""
    rest = [it for it in objects if len(it.versions) > 1]
    umlaut = next(it for it in rest if any("ü" in path for path in it.paths()))
    rest.remove(umlaut)
    return [umlaut if damage.name == "a name in two code points" else rest.pop(0)
            for damage in [*DAMAGES, *UNSEEN]]


def is_right(path, key, algorithm):
    """Whether a file is there, and no link, with this digest."""
    if os.path.islink(path) or not os.path.isfile(path):
        return False
    with open(path, "rb") as file:
        return common.digest(file.read(), algorithm) == key.lower()


def counted(it):
    """How many files of an object are right, and how many there are, as its inventory and its
    folder say; nothing of one whose inventory cannot be read, or which is none."""
    names = os.listdir(it.folder) if os.path.isdir(it.folder) else []
    if not any(name.startswith("0=") for name in names):
        return None
    try:
        with open(os.path.join(it.folder, "inventory.json"), "rb") as file:
            made = json.load(file)
    except ValueError:
        return None
    blocks = [(it.algorithm, made["manifest"]), *made["fixity"].items()]
    named = {path for paths in made["manifest"].values() for path in paths}
    wrong = {path for algorithm, block in blocks for key, paths in block.items() for path in paths
             if not is_right(os.path.join(it.folder, path), key, algorithm)}
    return len(named - wrong), len(named | it.files_there())


def said_of(it, message):
    """How many files of an object a message says to be right, of how many."""
    heads = [OBJECT.fullmatch(line) for line in message.splitlines()]
    return [head[2] and (int(head[2]), int(head[3])) for head in heads
            if head and head[1] == it.place]


def one_by_one(folder):
    for number, damage in enumerate(DAMAGES):
        root = os.path.join(folder, "root-%d" % number)
        objects = make_library(root, 9)
        nights = Nights(os.path.join(folder, "state-%d" % number), root)
        ran(nights.words())
        it = next(it for it in objects if len(it.versions) > 1
                  and any("ü" in path for path in it.paths()))
        damage.do(it)
        time.sleep(1.1)
        _, message, _ = ran(nights.words())
        wanted = counted(it)
        check("%s: files that are right" % damage.name, said_of(it, message) or [None], [wanted])
        check("%s: lines on another spelling" % damage.name, message.count(RESPELT),
              int(damage.name == "a name in two code points"))


def check_all(folder):
    one_by_one(folder)
    root = os.path.join(folder, "root")
    objects = make_library(root)
    nights = Nights(os.path.join(folder, "state"), root)
    _, first, _ = ran(nights.words())
    files = sum(len(it.paths()) for it in objects)
    check("a root as it was made", re.findall(r"(\d+) of (\d+) files right, (\d+) objects", first),
          [(str(files), str(files), str(len(objects)))])
    copy = os.path.join(folder, "a copy")
    shutil.copytree(root, copy)
    planted = list(zip([*DAMAGES, *UNSEEN], objects_for(objects)))
    for damage, it in planted:
        damage.do(it)
    time.sleep(1.1)
    _, message, _ = ran(nights.words())
    for damage, it in planted[:len(DAMAGES)]:
        check("%s is named" % damage.name, it.place in message, True)
    for damage, it in planted[len(DAMAGES):]:
        check("%s is not seen" % damage.name, it.place in message, False)
    lines = message.splitlines()
    check("lines of the message", len(lines) <= 40, True)
    check("its longest line", longest(message, [it.folder for it in objects]
                                      + [it.place for it in objects] + [root, nights.state]) <= 100,
          True)
    check("lines that are there twice", [it for it in lines if lines.count(it) > 1], [])
    repaired(folder, nights, copy, planted)


def repaired(folder, nights, copy, planted):
    """What is found after the commands of `repair` were run."""
    status, commands, said = ask("repair", "--copy", copy, nights.state)
    check("repair", (status, said), (1, ""))
    write(folder + "/bin/ocfl-scrub", '#!/bin/sh\nexec %s "$@"\n' % PROGRAM, 0o755)
    done = ran(["bash", "-euc", commands], PATH=folder + "/bin:" + os.environ["PATH"])
    check("its commands", done, (0, "", ""))
    time.sleep(1.1)
    _, message, _ = ran(nights.words())
    found = message.partition("\nCycle ")[0]
    check("what is still found", {damage.name for damage, it in planted if it.place in found},
          NOT_REPAIRED)
    check("no object is gone now", [it for it in ask("status", "--list", nights.state)[1].split("\n")
                                    if it.startswith(("object", "undeclared"))], [])


if __name__ == "__main__":
    common.run_trial(check_all)
