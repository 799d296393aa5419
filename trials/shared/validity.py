"""A check of OCFL 1.1 objects, for the samples: the codes of what is wrong with one.

It reads the specification's rules anew, knows nothing of the program, and is no whole validator: no
warnings, no extensions, and only the layouts that the samples have.
"""
import hashlib
import json
import os
import re

DECLARATION = "0=ocfl_object_1.1"
TYPE = "https://ocfl.io/1.1/spec/#inventory"
VERSION = re.compile(r"v[1-9][0-9]*")
CREATED = re.compile(r"\d{4}-\d\d-\d\dT\d\d:\d\d:\d\d(\.\d+)?(Z|[+-]\d\d:\d\d)")
SIDECAR = re.compile(rb"([0-9a-fA-F]+)[ \t]+inventory\.json[ \t\r\n]*")
KNOWN = ("sha512", "sha256")
NEEDED = {"id": "E036", "type": "E036", "digestAlgorithm": "E036", "head": "E036",
          "manifest": "E041", "versions": "E043"}


def read(*path):
    with open(os.path.join(*path), "rb") as file:
        return file.read()


def digest(algorithm, data):
    if algorithm.startswith("blake2b-"):
        return hashlib.blake2b(data, digest_size=int(algorithm[8:]) // 8).hexdigest()
    return hashlib.new({"sha512/256": "sha512_256"}.get(algorithm, algorithm), data).hexdigest()


def folded(digests):
    return {digest_.lower() for digest_ in digests}


def faults(folder):
    """The codes of what is wrong with the object in a folder."""
    found = set(declaration(folder)) | set(entries(folder))
    if not os.path.isfile(os.path.join(folder, "inventory.json")):
        return found | {"E063"}
    inventory, wrong = inventory_of(folder)
    found |= wrong
    if inventory is None:
        return found
    for part in [versions, paths, contents, fixity, copies]:
        found |= set(part(folder, inventory))
    return found


def declaration(folder):
    names = [name for name in os.listdir(folder) if name.startswith("0=ocfl_object_")]
    if len(names) != 1:
        yield "E003"
    elif names[0] != DECLARATION:
        yield "E004"
    elif read(folder, DECLARATION) != b"ocfl_object_1.1\n":
        yield "E007"


def is_own(name, is_folder):
    if is_folder:
        return VERSION.fullmatch(name) or name in ("logs", "extensions")
    return name.startswith(("0=ocfl_object_", "inventory.json"))


def entries(folder):
    """What lies in the object's root and in its version directories."""
    for entry in os.scandir(folder):
        if not is_own(entry.name, entry.is_dir()):
            yield "E001"
        elif entry.is_dir() and VERSION.fullmatch(entry.name):
            yield from ("E015" for below in os.scandir(entry)
                        if below.is_file() and not below.name.startswith("inventory.json"))


def inventory_of(folder):
    """The inventory of a folder, or None where it cannot be used, and the codes of its faults."""
    data = read(folder, "inventory.json")
    try:
        inventory = json.loads(data)
    except ValueError:
        return None, {"E033"}
    missing = {code for key, code in NEEDED.items() if key not in inventory}
    if missing:
        return None, missing
    wrong = set(heads(inventory)) | set(sidecars(folder, inventory["digestAlgorithm"], data))
    if not isinstance(inventory["manifest"], dict):
        wrong.add("E106")
    return None if wrong & {"E017", "E018", "E106"} else inventory, wrong


def heads(inventory):
    if inventory["type"] != TYPE:
        yield "E038"
    if inventory["digestAlgorithm"] not in KNOWN:
        yield "E025"
    name = inventory.get("contentDirectory", "content")
    if "/" in name:
        yield "E017"
    if name in (".", ".."):
        yield "E018"


def sidecars(folder, algorithm, data):
    names = [name for name in os.listdir(folder) if name.startswith("inventory.json.")]
    if names != ["inventory.json." + algorithm]:
        yield "E058"
        return
    form = SIDECAR.fullmatch(read(folder, names[0]))
    if not form:
        yield "E061"
    elif form[1].decode().lower() != digest(algorithm, data):
        yield "E060"


def versions(folder, inventory):
    """The versions are a sequence up to the head, each a directory, with a state of their own."""
    names = ["v%d" % number for number in range(1, len(inventory["versions"]) + 1)]
    if not names:
        yield "E008"
    if sorted(inventory["versions"]) != sorted(names):
        yield "E010"
    if inventory["head"] not in names[-1:]:
        yield "E040"
    if sorted(version_folders(folder)) != sorted(names):
        yield "E046"
    used = set()
    for version in inventory["versions"].values():
        yield from version_faults(version, inventory["manifest"])
        used |= folded(version["state"])
    if used != folded(inventory["manifest"]):
        yield "E107"


def version_folders(folder):
    return [entry.name for entry in os.scandir(folder)
            if entry.is_dir() and VERSION.fullmatch(entry.name)]


def version_faults(version, manifest):
    if not CREATED.fullmatch(version.get("created", "")):
        yield "E048"
    if not folded(version["state"]) <= folded(manifest):
        yield "E050"
    logical = [path for paths_ in version["state"].values() for path in paths_]
    if len(set(logical)) < len(logical):
        yield "E095"


def paths(_, inventory):
    """The digests and paths of the manifest."""
    if len(folded(inventory["manifest"])) < len(inventory["manifest"]):
        yield "E096"
    listed = [path for paths_ in inventory["manifest"].values() for path in paths_]
    if len(set(listed)) < len(listed):
        yield "E101"
    content = inventory.get("contentDirectory", "content")
    for path in listed:
        if path.startswith("/") or path.endswith("/"):
            yield "E100"
        elif {"", ".", ".."} & set(path.split("/")):
            yield "E099"
        elif not re.match(r"v[1-9][0-9]*/%s/." % re.escape(content), path):
            yield "E042"


def good_paths(block):
    """Each digest with each path that can be one of a file."""
    return [(key, path) for key, listed in block.items() for path in listed
            if not path.startswith("/") and ".." not in path.split("/")]


def contents(folder, inventory):
    """Each content file is in the manifest and has its digest, and nothing else is there."""
    listed = good_paths(inventory["manifest"])
    content = inventory.get("contentDirectory", "content")
    for version in inventory["versions"]:
        yield from files_below(folder, os.path.join(version, content), {path for _, path in listed})
    for key, path in listed:
        if path.count("/") > 1 and not has_digest(folder, inventory["digestAlgorithm"], key, path):
            yield "E092"


def files_below(folder, below, listed):
    for at, folders, files in os.walk(os.path.join(folder, below)):
        if not folders and not files:
            yield "E024"
        for name in files:
            path = os.path.join(at, name)
            if os.path.islink(path):
                yield "E090"
            elif os.path.relpath(path, folder) not in listed:
                yield "E023"


def has_digest(folder, algorithm, key, path):
    path = os.path.join(folder, path)
    return os.path.isfile(path) and digest(algorithm, read(path)) == key.lower()


def fixity(folder, inventory):
    for algorithm, block in inventory.get("fixity", {}).items():
        if len(folded(block)) < len(block):
            yield "E097"
        if not all(has_digest(folder, algorithm, key, path) for key, path in good_paths(block)):
            yield "E093"


def copies(folder, inventory):
    """The inventory of each version directory is that of its version, and the head's the root's."""
    for name in inventory["versions"]:
        below = os.path.join(folder, name)
        if not os.path.isfile(os.path.join(below, "inventory.json")):
            yield "no inventory in " + name
            continue
        copy, wrong = inventory_of(below)
        # What is wrong with both was found in the root's.
        yield from wrong - inventory_of(folder)[1]
        if name == inventory["head"]:
            if read(below, "inventory.json") != read(folder, "inventory.json"):
                yield "E064"
        elif copy is None or copy["id"] != inventory["id"] or copy["head"] != name:
            yield "E037"
        elif any(copy["versions"].get(each) != inventory["versions"][each]
                 for each in inventory["versions"] if each in copy["versions"]):
            yield "E066"
