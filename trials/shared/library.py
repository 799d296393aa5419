"""A storage root as tools of the field write it: hashed paths, several versions with an inventory
each, files that versions share, fixity blocks, content directories of another name, names that are
not ASCII; and damages to its objects, one each, with how a message names them."""
import itertools
import json
import os
import shutil
from typing import Callable, Iterable, Mapping, NamedTuple, Optional

from common import digest, write
from shared import layouts, validity

NAMES = ["Brief an Müller.pdf", "日本語/資料.txt", "a;b$(c).txt", "#hash&amp;.txt", "100% fertig.txt",
         "audio/interview 3.wav", "plain.xml"]


class Object(NamedTuple):
    """An object: its place in the root, its folder, and the versions' files by logical path; its
    id, its edition of OCFL, the algorithms of its fixity block, how its sidecars are written, and
    where below the content directory a logical path is stored."""
    place: str
    folder: str
    algorithm: str
    content: str
    versions: list[dict[str, bytes]]
    id: str
    edition: str = "1.1"
    fixity: tuple[str, ...] = ("md5",)
    sidecar: str = "%s  inventory.json\n"
    stored: Callable[[str], str] = str

    def manifest(self, count: int) -> dict[str, list[str]]:
        """The content paths of the first versions, by digest: what a version shares is there once."""
        found: dict[str, list[str]] = {}
        for number, files in enumerate(self.versions[:count], 1):
            for path, data in files.items():
                place = "v%d/%s/%s" % (number, self.content, self.stored(path))
                found.setdefault(digest(data, self.algorithm), [place])
        return found

    def paths(self) -> list[str]:
        return [path for paths in self.manifest(len(self.versions)).values() for path in paths]

    def file(self, index: int = 0) -> str:
        return os.path.join(self.folder, self.paths()[index])

    def bytes_of(self) -> dict[str, bytes]:
        """The bytes of each content path."""
        known = {digest(data, self.algorithm): data for files in self.versions
                 for data in files.values()}
        return {paths[0]: known[key]
                for key, paths in self.manifest(len(self.versions)).items()}

    def inventory(self, count: int) -> bytes:
        """The inventory of the first versions."""
        manifest = self.manifest(count)
        listed = {path for paths in manifest.values() for path in paths}
        whole = {path: data for path, data in self.bytes_of().items() if path in listed}
        versions = {"v%d" % number: {"created": "2024-01-0%dT00:00:00Z" % number,
                                     "state": {digest(data, self.algorithm): [path]
                                               for path, data in files.items()}}
                    for number, files in enumerate(self.versions[:count], 1)}
        fixity = {algorithm: {validity.digest(algorithm, data): [path]
                              for path, data in whole.items()} for algorithm in self.fixity}
        made = {"id": self.id, "type": "https://ocfl.io/%s/spec/#inventory" % self.edition,
                "digestAlgorithm": self.algorithm, "head": "v%d" % count, "manifest": manifest,
                "versions": versions, "contentDirectory": self.content, "fixity": fixity}
        return json.dumps(made, indent=2 if count % 2 else None).encode()

    def files_there(self) -> set[str]:
        """The paths of all files in the content folders, below the object, whoever names them."""
        found = set()
        for top, _, names in os.walk(self.folder):
            within = os.path.relpath(top, self.folder).split(os.sep)
            if within[1:2] == [self.content]:
                found.update("/".join([*within, name]) for name in names)
        return found

    def seal(self, folder: str, inventory: bytes) -> None:
        """Writes an inventory with its sidecar: the object's, a version's or a mutable head's."""
        write(os.path.join(folder, "inventory.json"), inventory)
        write(os.path.join(folder, "inventory.json." + self.algorithm),
              (self.sidecar % digest(inventory, self.algorithm)).encode())

    def make(self) -> "Object":
        """Writes all of the object."""
        for path, data in self.bytes_of().items():
            write(os.path.join(self.folder, path), data)
        for count in range(1, len(self.versions) + 1):
            self.seal(os.path.join(self.folder, "v%d" % count), self.inventory(count))
        self.seal(self.folder, self.inventory(len(self.versions)))
        write(os.path.join(self.folder, "0=ocfl_object_" + self.edition),
              ("ocfl_object_%s\n" % self.edition).encode())
        return self


def cumulated(added: Iterable[dict[str, bytes]]) -> list[dict[str, bytes]]:
    """Versions that keep the files of those before them, by what each adds or changes."""
    return list(itertools.accumulate(added, lambda before, files: {**before, **files}))


def declare(root: str, edition: str, layout: str, settings: Mapping[str, object]) -> None:
    """Writes the storage root's declaration, its layout, and the layout's extension."""
    write(os.path.join(root, "0=ocfl_" + edition), ("ocfl_%s\n" % edition).encode())
    said = {"extension": layout, "description": "See the extension " + layout}
    write(os.path.join(root, "ocfl_layout.json"), json.dumps(said, indent=2).encode())
    extend(root, layout, settings)


def extend(folder: str, extension: str, settings: Mapping[str, object]) -> None:
    """Writes what a storage root or an object says of an extension."""
    made = json.dumps({"extensionName": extension, **settings}, indent=2)
    write(os.path.join(folder, "extensions", extension, "config.json"), made.encode())


def make_object(root: str, number: int) -> Object:
    """An object of one to four versions, each of which adds a file and shares the first one."""
    first = b"letter %d\n" % number * 40
    versions = [{"first.txt": first,
                 **{NAMES[(number + it) % len(NAMES)]: b"%d in v%d\n" % (number, it + 1) * 30}}
                for it in range(1 + number % 4)]
    name = "urn:example:%d" % number
    place = layouts.hashed(name)
    return Object(place, os.path.join(root, place), "sha256" if number % 5 == 0 else "sha512",
                  "data" if number % 7 == 0 else "content", versions, name,
                  "1.0" if number % 3 == 0 else "1.1").make()


def make_library(root: str, count: int = 160) -> list[Object]:
    declare(root, "1.1", layouts.HASHED, {**layouts.TUPLES, "shortObjectRoot": False})
    return [make_object(root, number) for number in range(count)]


# ---- damages

class Damage(NamedTuple):
    """What is done to an object, how a message calls it, and below which path of the object, if it
    says so; without words a night sees nothing of it."""
    name: str
    do: Callable[[Object], Optional[str]]
    words: str


def change(path: str, by: Callable[[bytes], bytes]) -> None:
    with open(path, "rb") as file:
        data = file.read()
    write(path, by(data))


def flip(data: bytes) -> bytes:
    return data[:7] + bytes([data[7] ^ 1]) + data[8:]


def changed(index: int, by: Callable[[bytes], bytes]) -> Callable[[Object], str]:
    def do(it: Object) -> str:
        change(it.file(index), by)
        return it.paths()[index]
    return do


def exchange(it: Object) -> str:
    one, two = it.file(0), it.file(1)
    os.rename(one, one + ".x")
    os.rename(two, one)
    os.rename(one + ".x", two)
    return it.paths()[0]


def delete(it: Object) -> str:
    os.remove(it.file(1))
    return it.paths()[1]


def lose_version(it: Object) -> str:
    shutil.rmtree(os.path.join(it.folder, "v1"))
    return it.paths()[0]


def denormalize(it: Object) -> str:
    """The name as a Mac writes it: the umlaut in two."""
    path = next(path for path in it.paths() if "ü" in path)
    os.rename(os.path.join(it.folder, path),
              os.path.join(it.folder, path.replace("ü", "u\u0308")))
    return path


def stray(name: str) -> Callable[[Object], str]:
    def do(it: Object) -> str:
        write(os.path.join(it.folder, "v1", it.content, name), b"stray\n")
        return "v1/%s/%s" % (it.content, name)
    return do


def move_and_link(it: Object) -> str:
    path = it.file(1)
    os.rename(path, path + ".moved")
    os.symlink(os.path.basename(path) + ".moved", path)
    return it.paths()[1]


def in_the_folder(name: str, by: Callable[[bytes], bytes]) -> Callable[[Object], None]:
    def do(it: Object) -> None:
        change(os.path.join(it.folder, name), by)
    return do


def lose(name: str) -> Callable[[Object], None]:
    def do(it: Object) -> None:
        os.remove(next(os.path.join(it.folder, found) for found in os.listdir(it.folder)
                       if found.startswith(name)))
    return do


def wrong_fixity(it: Object) -> str:
    made = json.loads(it.inventory(len(it.versions)))
    path = it.paths()[0]
    made["fixity"]["md5"] = {"0" * 32: [path]}
    it.seal(it.folder, json.dumps(made).encode())
    return path


def put_back(it: Object) -> str:
    """The inventory of the version before, whose newest version had content."""
    count = len(it.versions) - 1
    it.seal(it.folder, it.inventory(count))
    return next(path for path in it.paths() if path.startswith("v%d/" % (count + 1)))


def empty(it: Object) -> None:
    shutil.rmtree(it.folder)
    os.mkdir(it.folder)


def remove(it: Object) -> None:
    shutil.rmtree(it.folder)


def remove_with_parents(it: Object) -> None:
    shutil.rmtree(it.folder)
    os.removedirs(os.path.dirname(it.folder))


def flip_of_version(it: Object) -> None:
    change(os.path.join(it.folder, "v1", "inventory.json"), flip)


def lose_of_version(it: Object) -> None:
    os.remove(os.path.join(it.folder, "v1", "inventory.json"))


def forge(it: Object) -> None:
    """Another first file, with an inventory and a sidecar that name it."""
    files = [{**files, "first.txt": b"forged\n"} for files in it.versions]
    forged = it._replace(versions=files)
    write(it.file(0), b"forged\n")
    it.seal(it.folder, forged.inventory(len(files)))


# Each for an object of its own: of how many versions at least, and which.
DAMAGES: list[Damage] = [
    Damage("a bit flipped", changed(0, flip), "bytes have changed"),
    Damage("cut", changed(1, lambda data: data[:-9]), "bytes have changed"),
    Damage("zeroed", changed(0, lambda data: bytes(len(data))), "bytes have changed"),
    Damage("appended to", changed(1, lambda data: data + b"x"), "bytes have changed"),
    Damage("exchanged", exchange, "bytes have changed"),
    Damage("a file that versions share", changed(0, lambda data: b"other\n"), "bytes have changed"),
    Damage("deleted", delete, "missing"),
    Damage("v1 lost", lose_version, "missing"),
    Damage("a name in two code points", denormalize, "here under another spelling of its name"),
    Damage("inventory flipped", in_the_folder("inventory.json", flip), "(E0"),
    Damage("inventory cut", in_the_folder("inventory.json", lambda data: data[:-9]), "(E0"),
    Damage("sidecar gone", lose("inventory.json."), "(E058)"),
    Damage("declaration gone", lose("0="), "(E072)"),
    Damage("fixity wrong", wrong_fixity, "(E093)"),
    Damage("a stray", stray("Thumbs.db"), "(E023)"),
    Damage("another stray", stray(".DS_Store"), "(E023)"),
    Damage("moved and linked", move_and_link, "missing"),
    Damage("inventory of before", put_back, "(E023)"),
    Damage("emptied", empty, "object"),
    Damage("removed", remove, "object"),
    Damage("removed with parents", remove_with_parents, "object"),
]
# What a night without `--inventories` cannot see, since it looks at neither inventories in version
# directories nor at what a root inventory was before.
UNSEEN: list[Damage] = [
    Damage("inventory of a version flipped", flip_of_version, ""),
    Damage("inventory of a version deleted", lose_of_version, ""),
    Damage("forged with inventory and sidecar", forge, ""),
]
