"""What a power cut may leave of a folder, rebuilt from the calls that changed it, of which strace
made a record.

The bytes of a file are on the disk once the file was synced, and a name once the folder that it is
in was synced. Of what is not there yet a power cut leaves all, nothing or a part: bytes may be cut
short or be zeros, and each change of names may be there without those before it, but for what it
rests on. A rename is one change: the file is at one of both names.
"""
import os
import re
from typing import Callable, Collection, Iterator, NamedTuple, Optional

CALLS = ("open openat creat close lseek write writev pwrite64 ftruncate truncate fsync fdatasync "
         "sync syncfs rename renameat renameat2 unlink unlinkat rmdir mkdir mkdirat chdir").split()
# What would change the folder in a way that is not rebuilt here.
UNKNOWN = ("openat2 pwritev pwritev2 fallocate copy_file_range sendfile splice msync link linkat "
           "symlink symlinkat dup dup2 dup3 fchdir").split()
RULES = ["-xx", "-s", str(1 << 20), "-e", "trace=" + ",".join("?" + it for it in CALLS + UNKNOWN)]

LINE = re.compile(r"(?:\d+ +)?(\w+)\((.*)\) += (-?\d+)\b")
TEXT = re.compile(r'"((?:\\x[0-9a-f]{2})*)"')
# A tree: the bytes of each file by its path, and None for a folder.
Tree = dict[str, Optional[bytes]]
# Files by their paths, and None for a folder.
Names = dict[str, Optional["File"]]


class Call(NamedTuple):
    """A call that ended: its name, its strings, its other words, and its result."""
    name: str
    texts: list[bytes]
    words: list[str]
    result: int

    def path(self, number: int = 0) -> str:
        return os.fsdecode(self.texts[number])

    def descriptor(self) -> int:
        return int(self.words[0])


def calls_of(record: str) -> Iterator[Call]:
    """The calls of a record that succeeded."""
    for line in record.splitlines():
        match = LINE.match(line)
        if match and int(match[3]) >= 0:
            texts = [bytes.fromhex(text.replace("\\x", "")) for text in TEXT.findall(match[2])]
            yield Call(match[1], texts, TEXT.sub('""', match[2]).split(", "), int(match[3]))


class File:
    """A file: its bytes as they are on the disk, and what was done to them since."""

    def __init__(self, synced: bytes = b"") -> None:
        self.synced = synced
        self.since: list[tuple[int, Optional[bytes]]] = []

    def write(self, offset: int, data: bytes) -> None:
        self.since.append((offset, data))

    def cut(self, length: int) -> None:
        self.since.append((length, None))

    def sync(self) -> None:
        self.synced, self.since = self.data(), []

    def data(self, changes: Optional[int] = None, share: float = 1) -> bytes:
        """The bytes after so many of the changes, of the last of which a share was done."""
        some = self.since[:changes]
        data = self.synced
        for number, (offset, new) in enumerate(some, 1):
            data = changed(data, offset, new, share if number == len(some) else 1)
        return data


def changed(data: bytes, offset: int, new: Optional[bytes], share: float) -> bytes:
    """Bytes after a write or a cut, of which a share was done."""
    if new is None:
        length = round(len(data) + (offset - len(data)) * share)
        return data[:length].ljust(length, b"\0")
    done = new[:round(len(new) * share)]
    return data[:offset].ljust(offset, b"\0") + done + data[offset + len(done):]


def lost(file: File) -> bytes:
    return file.synced


def kept(file: File) -> bytes:
    return file.data()


def zeros(file: File, first: float = 0, last: float = 1) -> bytes:
    """All that was done, but zeros between two shares of the bytes that are new."""
    data = file.data()
    start = min(len(os.path.commonprefix([data, file.synced])), len(data))
    low, high = (start + round((len(data) - start) * share) for share in (first, last))
    return data[:low] + bytes(high - low) + data[high:]


def torn(file: File) -> set[bytes]:
    """The bytes after some of the changes, or a part of one."""
    found = {file.data(count) for count in range(len(file.since))}
    for count in range(1, len(file.since) + 1):
        found |= {file.data(count, share) for share in (0.01, 0.5, 0.99)}
    return found


def torn_or_zeros(file: File) -> set[bytes]:
    """What a power cut may leave of a file beside nothing and all of what is not on the disk."""
    if not file.since:
        return set()
    shares = [(0, 1), (0, 0.5), (0.5, 1)]
    return torn(file) | {zeros(file, *pair) for pair in shares}


class Change(NamedTuple):
    """A change of names: at a path is now a file, or a folder (None), that was made, or what was at
    another path; or nothing. And the folders that are still to be synced."""
    path: str
    made: Optional[File]
    moved: Optional[str]
    is_removal: bool
    unsynced: set[str]

    def touches(self) -> set[str]:
        return {self.path} | ({self.moved} if self.moved else set())

    def rests_on(self, other: "Change") -> bool:
        """Whether this one needs an earlier one: that of a name of its own, or of its folder."""
        needed = self.touches() | {above(path) for path in self.touches()}
        return bool(needed & other.touches())


def above(path: str) -> str:
    """The folder that a path lies in; above `.` it is `..`."""
    return ".." if path == "." else os.path.dirname(path) or "."


def with_changes(names: Names, changes: list[Change]) -> Names:
    """The files and folders by their paths, after changes of names."""
    names = dict(names)
    for change in changes:
        if change.is_removal:
            names.pop(change.path, None)
        elif change.moved is None:
            names[change.path] = change.made
        elif change.moved in names:
            names[change.path] = names.pop(change.moved)
    return names


def choices(changes: list[Change]) -> list[set[int]]:
    """Which changes of names may be on the disk: all and none, the first ones, all but one, and one
    alone; each with what it rests on, and with those whose folders were synced."""
    count = len(changes)
    surely = with_needed(changes, {it for it in range(count) if not changes[it].unsynced})
    wanted = [set(range(size)) for size in range(count, -1, -1)]
    wanted += [without_needing(changes, set(range(count)) - {number}) for number in range(count)]
    wanted += [with_needed(changes, {number}) for number in range(count)]
    found: list[set[int]] = []
    for some in wanted:
        if some | surely not in found:
            found.append(some | surely)
    return found


def with_needed(changes: list[Change], some: set[int]) -> set[int]:
    """These changes, and what they rest on."""
    found = set(some)
    for number in range(len(changes) - 1, -1, -1):
        if any(changes[later].rests_on(changes[number]) for later in found if later > number):
            found.add(number)
    return found


def without_needing(changes: list[Change], some: set[int]) -> set[int]:
    """These changes, but for those that rest on one that is not among them."""
    found: set[int] = set()
    for number in sorted(some):
        earlier = (it for it in range(number) if changes[number].rests_on(changes[it]))
        if all(it in found for it in earlier):
            found.add(number)
    return found


class Opened:
    """An open file or folder."""

    def __init__(self, path: str, node: Optional[File], appends: bool) -> None:
        self.path, self.node, self.appends, self.offset = path, node, appends, 0


class Machine:
    """A folder, as calls left it: what reads show, and what is on the disk, which is at first a
    tree. The calls name it by this path, without links."""

    def __init__(self, folder: str, tree: Tree) -> None:
        self.folder = os.path.normpath(folder)
        self.at = os.getcwd()
        self.disk: Names = {path: None if data is None else File(data)
                            for path, data in tree.items()}
        self.changes: list[Change] = []
        self.opened: dict[int, Opened] = {}
        self.said = b""

    def names(self) -> Names:
        return with_changes(self.disk, self.changes)

    def shown(self) -> Tree:
        """What reads show of the folder."""
        return tree_of(self.names(), lambda path, file: kept(file))

    def place(self, path: str) -> Optional[str]:
        """The path below the folder, `.` or `..`, or None for one that lies elsewhere."""
        whole = os.path.normpath(os.path.join(self.at, path))
        place = os.path.relpath(whole, self.folder)
        return place if place == ".." or not place.startswith("../") else None

    def begin(self) -> None:
        """A process begins: nothing is open."""
        self.opened, self.at = {}, os.getcwd()

    def made(self, call: Call) -> bool:
        """Makes a call. Gives whether it changed the folder, what is on the disk, or what was
        said."""
        before = (len(self.changes), len(self.said))
        if call.name in ("fsync", "fdatasync", "sync", "syncfs"):
            return self.synced(call)
        if call.name in UNKNOWN and self.is_of_folder(call):
            raise ValueError("no power cut is rebuilt of %s" % call.name)
        step = getattr(self, "do_" + re.sub(r"(?<!cre)at2?$", "", call.name), None)
        wrote = step(call) if step else False
        return bool(wrote) or before != (len(self.changes), len(self.said))

    def is_of_folder(self, call: Call) -> bool:
        words = [int(word) for word in call.words if word.isdigit()]
        return any(self.place(os.fsdecode(text)) for text in call.texts) or any(
            number in self.opened for number in words)

    def change(self, path: str, made: Optional[File] = None, moved: Optional[str] = None,
               is_removal: bool = False) -> None:
        unsynced = {above(path)} | ({above(moved)} if moved else set())
        self.changes.append(Change(path, made, moved, is_removal, unsynced))

    def do_chdir(self, call: Call) -> None:
        self.at = os.path.normpath(os.path.join(self.at, call.path()))

    def do_open(self, call: Call) -> bool:
        place = self.place(call.path())
        flags = call.words[2 if call.name == "openat" else 1]
        if place is None:
            return False
        node = self.names().get(place)
        if node is None and "O_CREAT" in flags:
            node = File()
            self.change(place, node)
        self.opened[call.result] = Opened(place, node, "O_APPEND" in flags)
        if isinstance(node, File) and "O_TRUNC" in flags and node.data():
            node.cut(0)
            return True
        return False

    def do_creat(self, call: Call) -> bool:
        words = [*call.words[:1], "O_CREAT|O_TRUNC"]
        return self.do_open(call._replace(words=words))

    def do_close(self, call: Call) -> None:
        self.opened.pop(call.descriptor(), None)

    def do_lseek(self, call: Call) -> None:
        if call.descriptor() in self.opened:
            self.opened[call.descriptor()].offset = call.result

    def do_write(self, call: Call) -> bool:
        data = b"".join(call.texts)[:call.result]
        opened = self.opened.get(call.descriptor())
        if opened is None:
            self.said += data if call.descriptor() == 1 else b""
            return False
        file = opened.node
        offset = len(file.data()) if opened.appends else opened.offset
        file.write(offset, data)
        opened.offset = offset + len(data)
        return bool(data)

    do_writev = do_write

    def do_pwrite64(self, call: Call) -> bool:
        opened = self.opened.get(call.descriptor())
        if opened is None:
            return False
        offset = len(opened.node.data()) if opened.appends else int(call.words[-1])
        opened.node.write(offset, call.texts[0][:call.result])
        return call.result > 0

    def do_ftruncate(self, call: Call) -> bool:
        opened = self.opened.get(call.descriptor())
        if opened is None:
            return False
        opened.node.cut(int(call.words[-1]))
        return True

    def do_truncate(self, call: Call) -> bool:
        node = self.names().get(self.place(call.path()))
        if isinstance(node, File):
            node.cut(int(call.words[-1]))
        return isinstance(node, File)

    def do_mkdir(self, call: Call) -> None:
        place = self.place(call.path())
        if place is not None:
            self.change(place)

    def do_unlink(self, call: Call) -> None:
        place = self.place(call.path())
        if place is not None:
            self.change(place, is_removal=True)

    do_rmdir = do_unlink

    def do_rename(self, call: Call) -> None:
        old, new = self.place(call.path(0)), self.place(call.path(1))
        if (old is None) != (new is None):
            raise ValueError("no power cut is rebuilt of a rename into the folder, or out of it")
        if old is not None:
            self.change(new, moved=old)

    def synced(self, call: Call) -> bool:
        """What a call of `fsync` and its like brings to the disk."""
        whole = call.name in ("sync", "syncfs")
        opened = None if whole else self.opened.get(call.descriptor())
        nodes = self.names().values() if whole else [opened.node] if opened else []
        for node in nodes:
            if isinstance(node, File):
                node.sync()
        for change in self.changes:
            if whole:
                change.unsynced.clear()
            elif opened and not isinstance(opened.node, File):
                change.unsynced.discard(opened.path)
        while self.changes and not self.changes[0].unsynced:
            self.disk = with_changes(self.disk, [self.changes.pop(0)])
        return bool(nodes)

    def images(self, apart: Collection[str] = ()) -> Iterator[Tree]:
        """What a power cut may leave now. Of the files at the paths `apart` it leaves all, or what
        is on the disk."""
        for some in choices(self.changes):
            names = with_changes(self.disk, [self.changes[number] for number in sorted(some)])
            yield from images_of(names, apart)


def images_of(names: Names, apart: Collection[str]) -> Iterator[Tree]:
    """What may be in files with these names: all, nothing, or a part of what is not on the disk, of
    all of them and of each alone."""
    yield tree_of(names, lambda path, file: kept(file))
    yield tree_of(names, lambda path, file: lost(file))
    for path, file in names.items():
        if not isinstance(file, File) or path in apart:
            continue
        for data in sorted(torn_or_zeros(file)):
            for others in (kept, lost):
                yield tree_of(names, lambda at, it: data if at == path else others(it))
        if file.since:
            yield tree_of(names, lambda at, it: lost(it) if at == path else kept(it))
            yield tree_of(names, lambda at, it: kept(it) if at == path else lost(it))


def tree_of(names: Names, data: Callable[[str, File], bytes]) -> Tree:
    """The folder with these names, whose files have what `data` gives."""
    if "." not in names:
        return {}
    return {path: data(path, node) if isinstance(node, File) else None
            for path, node in sorted(names.items())}


def read_tree(folder: str) -> Tree:
    """The folder that is there."""
    found: Tree = {".": None} if os.path.isdir(folder) else {}
    for where, folders, files in os.walk(folder):
        for name in folders:
            found[os.path.relpath(os.path.join(where, name), folder)] = None
        for name in files:
            with open(os.path.join(where, name), "rb") as file:
                found[os.path.relpath(os.path.join(where, name), folder)] = file.read()
    return found


def build(tree: Tree, folder: str) -> None:
    """Makes the folder of a tree."""
    for path, data in sorted(tree.items()):
        where = os.path.normpath(os.path.join(folder, path))
        if data is None:
            os.mkdir(where, 0o750)
        else:
            with open(where, "xb") as file:
                file.write(data)
            os.chmod(where, 0o640)
