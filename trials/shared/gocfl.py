"""A storage root as gocfl writes it: clean paths, objects with extensions of their own, and five
fixity algorithms, of which the program does not compute one."""
import gzip
import json
import os

from common import write
from shared import layouts
from shared.library import Object, cumulated, declare, extend

FIXITY = ("md5", "sha1", "sha256", "sha512/256", "blake2b-384")
NOT_COMPUTED = "blake2b-384"
IDS = ["object-%d", "..hor_rib:lè-$%d", "https://hdl.handle.net/12345/test/bl ah %d",
       "urn:nbn:ch:bel-%d", "~ [draft] <%d>"]
FILES = ["master/image: %d.tif", "text (final)? %d.txt", "Übersicht & Plan %d.xml", "-notes-%d.md"]
MANAGER = "NNNN-gocfl-extension-manager"


def stored(path: str) -> str:
    """The subpath of content, and the clean path in it."""
    return "data/" + layouts.clean(path)


def make_extensions(it: Object) -> None:
    """What gocfl keeps of an object beside its inventory: its extensions, and what an indexer found
    in each version."""
    extend(it.folder, "0001-digest-algorithms", {})
    extend(it.folder, layouts.CLEAN, {"utfEncode": False, "replacementString": "_"})
    extend(it.folder, "NNNN-content-subpath", {"subPath": {"content": {"path": "data"}}})
    extend(it.folder, "NNNN-indexer", {"storageType": "extension", "compress": "gzip"})
    for number in range(1, len(it.versions) + 1):
        found = "".join(json.dumps({"Path": path}) + "\n" for path in it.paths())
        write(os.path.join(it.folder, "extensions", "NNNN-indexer", "metadata",
                           "indexer_v%d.jsonl.gz" % number), gzip.compress(found.encode()))
    write(os.path.join(it.folder, "logs", "gocfl.log"), b"added\n")


def make_gocfl(root: str, count: int = 20) -> list[Object]:
    declare(root, "1.1", layouts.CLEAN, {"utfEncode": False, "replacementString": "_"})
    extend(root, "initial", {"extension": MANAGER})
    extend(root, MANAGER, {"sort": {}, "exclusion": {}})
    objects = []
    for number in range(count):
        name = IDS[number % len(IDS)] % number
        versions = cumulated({FILES[(number + it) % len(FILES)] % version:
                              b"%d: file %d of version %d\n" % (number, it, version) * 20
                              for it in range(2 + number % 2)}
                             for version in range(1, 2 + number % 3))
        place = layouts.clean(name)
        objects.append(Object(place, os.path.join(root, place), "sha512", "content", versions, name,
                              "1.1", FIXITY, "%s inventory.json\n", stored).make())
        make_extensions(objects[-1])
    return objects
