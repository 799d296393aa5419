#!/usr/bin/env python3
"""Checks that each object of the samples is a valid OCFL 1.1 object, but for the fault that it
shows, and follows what nights/REPAIR.md says of a damaged file.

usage: samples.py

Its steps repair a file whose name has a quote, a space, a letter that is not ASCII, a `%`, a
line feed, or what a shell takes for a command, and an inventory whose copy is in a version. Seen to
fail on steps that have the name as reports write it, or without quotes.
"""
import os
import re
import shlex

import common
from common import PROGRAM, TOP, check, digest
from shared.nights import ran, read, tried
from shared.pages import blocks_of_markdown
from shared.validity import faults

# What is wrong with objects of the gallery whose names do not say it by the specification's code.
OTHERWISE = {
    "S01_object_of_version_2": {"E004", "E038"},
    "S02_inventory_too_long": {"E033"},
    "S03_manifest_of_a_wrong_kind": {"E106"},
    "S04_link": {"E090"},
    "S06_path_outside_of_content": {"E042"},
    "minimal_version_without_inventory": {"no inventory in v1"},
}
# What is no object, nor meant to be one.
NO_OBJECTS = {"S05_too_deep"}


def made(folder, name, *words):
    root = os.path.join(folder, name + "".join(words))
    check("samples/" + name, ran([os.path.join(TOP, "samples", name), *words, root]), (0, "", ""))
    return root


def sample(folder):
    """The sample has one fault, and none once the damaged file has its letter again."""
    root = made(folder, "make")
    check("its declaration", common.read(root + "/0=ocfl_1.1"), b"ocfl_1.1\n")
    check("the damaged object", faults(root + "/letters"), {"E092"})
    common.write(root + "/letters/v1/content/damaged.txt", b"Yours sincerely\n")
    check("the object before", faults(root + "/letters"), set())


def gallery(folder):
    """Each object has the faults of the codes in its name, and no other."""
    for words in [[], ["--inventories"]]:
        root = made(folder, "gallery", *words)
        names = sorted(entry.name for entry in os.scandir(root) if entry.is_dir())
        for name in [name for name in names if name not in NO_OBJECTS]:
            shown = OTHERWISE.get(name, set(re.findall(r"E\d{3}", name)))
            check("faults of " + name, faults(os.path.join(root, name)), shown)


# nights/REPAIR.md

NAMES = ["Brief an Müller.pdf", "Mu\u0308ller.txt", "d'or.txt", "a  b.txt", "$(touch ran).txt",
         "a;b`touch ran`.txt", "100% fertig.txt", "%41", "-r", "n\nl", 'q"q\\n', "*"]


def steps_of_page():
    """Two blocks of the page: of a file, and of an inventory."""
    blocks = blocks_of_markdown(read(TOP + "/nights/REPAIR.md"))
    return [block for block in blocks if "$root" in block]


def followed(folder, block, root, line, place):
    """What the steps give for this root, this path as a report has it and this object."""
    for name, value in [("root", root), ("line", line), ("object", place)]:
        block = re.sub("(?m)^%s='.*'$" % name, lambda _: "%s=%s" % (name, shlex.quote(value)),
                       block)
    os.makedirs(folder + "/bin", exist_ok=True)
    if not os.path.exists(folder + "/bin/ocfl-scrub"):
        os.symlink(PROGRAM, folder + "/bin/ocfl-scrub")
    return ran(["bash", "-c", block.replace("/mnt/copy", folder + "/copy")], cwd=folder,
               HOME=folder, PATH=folder + "/bin:" + os.environ["PATH"])


def steps(folder):
    """The damaged file of each name is found, exchanged for its copy, and right then."""
    for number, name in enumerate(NAMES):
        where = "%s/steps-%d" % (folder, number)
        place = "o " + name
        for part in ["root", "copy"]:
            made = where + "/" + part
            common.write(made + "/0=ocfl_1.1", b"ocfl_1.1\n")
            common.make_object(made + "/" + place, {"v1/content/" + name: b"abc"},
                               algorithm="sha512")
        common.write("%s/root/%s/v1/content/%s" % (where, place, name), b"abd")
        before = ran([PROGRAM, "audit", where + "/root"])[1].splitlines(True)
        damaged = next((line for line in before if line.startswith("E092")), "\t\t")
        line = damaged.split("\t")[1]
        shown = line.split("/")[0]
        status, out, said = followed(where, steps_of_page()[0], where + "/root", line, shown)
        right = common.line("ok", line, 3)
        expected = [damaged, digest(b"abc", "sha512") + "  -\n", right, common.line("ok", shown),
                    right]
        check("the steps for " + name, (status, out, said), (0, "".join(expected), ""))
        check("what is left of " + name, sorted(os.listdir(where)),
              sorted({"root", "copy", "bin", name}))


def steps_of_inventory(folder):
    """The copy in the newest version has the digest that a damaged inventory should have."""
    root = made(folder + "/inventories", "make")
    whole = common.read(root + "/letters/inventory.json")
    common.write(root + "/letters/inventory.json", whole.replace(b"letters", b"lettres"))
    values = "root=%s\nobject=letters\n" % shlex.quote(root)
    status, out, said = followed(folder, values + steps_of_page()[1], root, "", "letters")
    sums = [row.split()[0] for row in out.splitlines()]
    check("who has the digest", (status, said, len(sums), sums[0] == digest(whole, "sha512"),
                                 [it == sums[0] for it in sums[1:]]),
          (0, "", 4, True, [False, False, True]))


def check_all(folder):
    tried(sample, folder)
    tried(gallery, folder)
    tried(steps, folder)
    tried(steps_of_inventory, folder)


common.run_trial(check_all)
