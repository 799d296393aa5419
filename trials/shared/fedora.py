"""A storage root as Fedora 6 writes it: OCFL 1.0, hashed places, binaries with their descriptions,
and objects with a mutable head, which is a version that is not closed yet."""
import json
import os

from common import digest, write
from shared import layouts
from shared.library import Object, cumulated, declare

HEAD = "extensions/0005-mutable-head"


def header(number: int, version: int, name: str) -> bytes:
    made = {"id": "info:fedora/letters/%d/%s" % (number, name), "headersVersion": "1.0",
            "lastModifiedDate": "2024-01-0%dT00:00:00Z" % version, "deleted": False}
    return json.dumps(made).encode()


def triples(number: int, version: int, name: str) -> bytes:
    return ("<info:fedora/letters/%d/%s> <http://purl.org/dc/terms/title> \"Letter %d, %d\" .\n"
            % (number, name, number, version)).encode()


def files_of(number: int, version: int) -> dict[str, bytes]:
    """What a version of an archival group changes: headers, descriptions and a scan."""
    scan = "scan %d.tif" % version
    return {".fcrepo/fcr-root.json": header(number, version, ""),
            ".fcrepo/%s.json" % scan: header(number, version, scan),
            "fcr-container.nt": triples(number, version, ""),
            scan: b"scan %d of letter %d\n" % (version, number) * 50,
            "%s~fcr-desc.nt" % scan: triples(number, version, scan)}


def make_head(it: Object, number: int) -> None:
    """Two revisions of the version that comes next, each with its marker, and the sidecar that the
    root had before them."""
    made = json.loads(it.inventory(len(it.versions)))
    count = len(it.versions) + 1
    made["head"] = "v%d" % count
    state = {path: key for key, paths in made["versions"]["v%d" % (count - 1)]["state"].items()
             for path in paths}
    folder = os.path.join(it.folder, HEAD)
    for revision in ["r1", "r2"]:
        files = {"fcr-container.nt": triples(number, count, revision),
                 "note-%s.txt" % revision: b"%d in %s\n" % (number, revision.encode()) * 9}
        for path, data in files.items():
            place = "%s/head/content/%s/%s" % (HEAD, revision, path)
            write(os.path.join(it.folder, place), data)
            state[path] = digest(data, it.algorithm)
            made["manifest"].setdefault(state[path], []).append(place)
        write(os.path.join(folder, "revisions", revision), revision.encode())
    # A file that the next revision changed is in no state, and so not in the manifest.
    old = "%s/head/content/r1/fcr-container.nt" % HEAD
    made["manifest"] = {key: paths for key, paths in made["manifest"].items() if old not in paths}
    os.remove(os.path.join(it.folder, old))
    states: dict[str, list[str]] = {}
    for path, key in state.items():
        states.setdefault(key, []).append(path)
    made["versions"][made["head"]] = {"created": "2024-02-01T00:00:00Z", "state": states}
    it.seal(os.path.join(folder, "head"), json.dumps(made).encode())
    with open(os.path.join(it.folder, "inventory.json." + it.algorithm), "rb") as file:
        write(os.path.join(folder, "root-inventory.json." + it.algorithm), file.read())


def has_head(it: Object) -> bool:
    return os.path.isdir(os.path.join(it.folder, HEAD))


def files_in_head(it: Object) -> list[str]:
    """The files of a mutable head's revisions."""
    return sorted(os.path.join(top, name)
                  for top, _, names in os.walk(os.path.join(it.folder, HEAD, "head", "content"))
                  for name in names)


def make_fedora(root: str, count: int = 40) -> list[Object]:
    """The objects of the root; each fourth one has a mutable head."""
    declare(root, "1.0", layouts.HASHED, {**layouts.TUPLES, "shortObjectRoot": False})
    objects = []
    for number in range(count):
        name = "info:fedora/letters/%d" % number
        place = layouts.hashed(name)
        versions = cumulated(files_of(number, version) for version in range(1, 2 + number % 3))
        objects.append(Object(place, os.path.join(root, place), "sha512", "content", versions,
                              name, "1.0", (), "%s\tinventory.json").make())
        if number % 4 == 0:
            make_head(objects[-1], number)
    return objects
