"""Storage roots with objects that are damaged in several ways, and with strays beside them."""
import hashlib
import json
import os
import shutil

from common import digest, make_object, put_inventory, write

# Names that begin as others do, that sort between a name and what is below it, or are escaped.
OBJECTS = ["a", "a-b", "ab", "deep/er/o", "deep/er-o", "h/o%1", "h/p q", "h/é"]
PATHS = ["v1/content/a-b", "v1/content/a/b", "v1/content/a/c", "v1/content/c", "v1/content/é\t",
         "v2/content/d e", "v2/content/z/z/z"]


def a_file(folder, files, dice):
    return os.path.join(folder, dice.choice(sorted(files)))


def change(folder, files, dice):
    """Content of another digest."""
    write(a_file(folder, files, dice), dice.randbytes(dice.randrange(1, 300)))


def remove_content(folder, files, dice):
    """Content that is gone."""
    os.remove(a_file(folder, files, dice))


def remove_version(folder, files, dice):
    """A version directory that is gone, which the inventory names."""
    shutil.rmtree(os.path.join(folder, "v1"))


def stray(folder, files, dice):
    """Content that is in no manifest, an empty directory, and files beside the content."""
    write(os.path.join(folder, "v1/content", dice.choice(["0", "b", "zz"])), b"stray")
    write(os.path.join(folder, "stray"), b"stray")
    write(os.path.join(folder, "v1/stray"), b"stray")
    os.makedirs(os.path.join(folder, "v1/content/empty/inner"))


def undeclared(folder, files, dice):
    """No declaration: the files are those of no object."""
    os.remove(os.path.join(folder, "0=ocfl_object_1.1"))


def without_inventory(folder, files, dice):
    os.remove(os.path.join(folder, "inventory.json"))


def other_sidecar(folder, files, dice):
    write(os.path.join(folder, "inventory.json.sha256"), b"0" * 64 + b" inventory.json\n")


def linked(folder, files, dice):
    os.symlink("c", os.path.join(folder, "v1/content/link"))


def fixity(folder, files, dice):
    """Places of two lines: one that lacks its file, and one whose digests are both others."""
    manifest, md5 = {}, {}
    for path, data in files.items():
        manifest.setdefault(digest(data), []).append(path)
        md5.setdefault(hashlib.md5(data).hexdigest(), []).append(path)
    inventory = {"digestAlgorithm": "sha256", "manifest": manifest, "fixity": {"md5": md5}}
    put_inventory(folder, json.dumps(inventory).encode())
    lost, changed = dice.sample(sorted(files), 2)
    os.remove(os.path.join(folder, lost))
    write(os.path.join(folder, changed), b"other")


DAMAGES = [change, remove_content, remove_version, stray, undeclared, without_inventory,
           other_sidecar, linked, fixity]


def make_damaged(root, damages, dice):
    """A storage root with these damages, each of one object; further objects are as listed."""
    write(os.path.join(root, "0=ocfl_1.1"), b"ocfl_1.1\n")
    objects = dice.sample(OBJECTS, len(OBJECTS))
    for number, place in enumerate(objects):
        paths = dice.sample(PATHS, dice.randrange(3, len(PATHS) + 1))
        files = {path: dice.randbytes(dice.choice([0, 1, 80, 700])) for path in paths}
        os.makedirs(os.path.join(root, place, "v1/content"), exist_ok=True)
        folder = make_object(os.path.join(root, place), files)
        if number < len(damages):
            damages[number](folder, files, dice)
    for path in ["h/stray.txt", "stray"]:
        write(os.path.join(root, path), b"stray")
    os.makedirs(os.path.join(root, "deep/empty"))
    os.symlink("a", os.path.join(root, "link"))
    return root


def directories_of(root):
    """The directories of the hierarchy, level by level; objects are not entered."""
    level, levels = [()], []
    while level:
        levels.append(level)
        level = [(*place, name) for place in level for name in below(root, place)]
    return levels


def below(root, place):
    """The names of the directories in a directory, but in an object."""
    path = os.path.join(os.fsencode(root), *place)
    names = sorted(os.listdir(path))
    if place and any(name.startswith(b"0=ocfl_object_") for name in names):
        return []
    whole = [(name, os.path.join(path, name)) for name in names]
    return [name for name, it in whole if os.path.isdir(it) and not os.path.islink(it)]
