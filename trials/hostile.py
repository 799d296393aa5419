#!/usr/bin/env python3
"""Audits storage roots that hold what no archive should: pipes, sockets, devices, links and loops,
names and paths at the limits and beyond, and files that grow or shrink while they are read.

usage: hostile.py

Each audit ends, follows no link, and writes nothing below the root.

Tried, and what comes of it:

- Pipes, sockets, devices, links to a file, to a folder, to nothing, to themselves and in a loop,
  in each part of a storage root: S04, none opened.
- Pipes, sockets, devices and links that an inventory lists: S04, and missing.
- A pipe or a link in place of a declaration, an inventory or a sidecar; a link in place of an
  object, a version or its content: the lines of a file or directory that is not there.
- Names with each character of ASCII, of 255 bytes, and with leading dots; names that are not
  UTF-8: read as others; `stopped at` their directory.
- Whole paths of 4,094 to 4,097 bytes, and some of the longest that there are, of more than 31,000
  bytes and 94,000 characters in a report: audited, checked and resumed as others.
- Directories at depths 127 to 130, in content and in the hierarchy: S05 at depth 128.
- An inventory of 300 keys and 300 other members, 300 runs over it, 300 objects, a path of 126
  elements: as others.
- A directory of 70,000 entries: as others.
- A file that grows, shrinks or is emptied between two reads; one that is removed after its
  listing or its opening: E092 with the digest of the bytes that were read; S08; its line.

Seen to fail on these faults, each planted alone:

- A directory of more than 65,536 entries is taken for one that is too large.
"""
import json
import os
import socket
import stat

import common
from common import digest, expect, check, line, make_object, make_root, put_inventory, ran, write
from shared import calls

ABC = {"v1/content/f": b"abc"}
OK = [line("ok", "."), line("ok", "o"), line("ok", "o/v1/content/f", 3)]


def audits(name, root, items, said=None, status=None):
    """The audit is this one, and leaves the root as it was."""
    before = common.snapshot(root)
    wrong = any(not item.startswith(("ok", "S07")) for item in items)
    status = (1 if wrong else 0) if status is None else status
    expect(name, ["audit", root], status, items, said)
    check(name + ": the root is as it was", common.snapshot(root) == before, True)


def put_others(folder, outside):
    """Makes one of each kind that is neither a file nor a directory, and gives their names."""
    os.mkfifo(os.path.join(folder, "fifo"))
    bound = socket.socket(socket.AF_UNIX)
    here = os.open(folder, os.O_RDONLY)
    bound.bind("/proc/self/fd/%d/socket" % here)
    os.close(here)
    bound.close()
    os.symlink(os.path.join(outside, "file"), os.path.join(folder, "link-file"))
    os.symlink(outside, os.path.join(folder, "link-folder"))
    os.symlink("link-loop", os.path.join(folder, "link-loop"))
    os.symlink(".", os.path.join(folder, "link-self"))
    os.symlink("nothing", os.path.join(folder, "link-to-nothing"))
    try:
        os.mknod(os.path.join(folder, "device"), 0o600 | stat.S_IFCHR, os.makedev(1, 5))
    except PermissionError:
        print("hostile.py: no device node can be made here")
    return sorted(os.listdir(folder))


def others(folder, outside):
    """In each part of a root, what is neither a file nor a directory is S04."""
    parts = ["", "h", "o", "o/v1", "o/v1/content", "o/v1/content/deep"]
    for part in parts:
        root = os.path.join(folder, "others", part.replace("/", "-") or "base")
        make_root(root, {"o": ABC})
        at = os.path.join(root, part)
        os.makedirs(at, exist_ok=True)
        lines = {item.split("\t")[1]: item for item in OK}
        inner = os.path.join(folder, "inner")
        os.makedirs(inner)
        for name in put_others(inner, outside):
            os.rename(os.path.join(inner, name), os.path.join(at, name))
            place = (part + "/" if part else "") + name
            lines[place] = line("S04", place)
        os.rmdir(inner)
        order = sorted(lines, key=lambda place: [] if place == "." else place.split("/"))
        audits("others in '%s'" % part, root, [lines[place] for place in order])


def listed_others(folder, outside):
    """A path that an inventory names, and at which something else lies, is missing there."""
    root = os.path.join(folder, "listed")
    make_root(root, {"o": ABC})
    kinds = os.path.join(root, "o/v1/content/kinds")
    os.makedirs(kinds)
    names = put_others(kinds, outside)
    listed = {"v1/content/kinds/" + name: b"secret" for name in names if name != "link-folder"}
    listed["v1/content/kinds/link-folder/file"] = b"secret"
    make_object(os.path.join(root, "o"), {}, {**ABC, **listed})
    items = list(OK)
    for name in names:
        place = "o/v1/content/kinds/" + name
        items.append(line("S04", place))
        place += "/file" if name == "link-folder" else ""
        items.append(line("E092", place, "sha256 missing"))
    audits("listed others", root, items)


def others_as_metadata(folder, outside):
    """Pipes and links with the names of an object's own files are not opened."""
    write(os.path.join(outside, "0=ocfl_object_1.1"), b"ocfl_object_1.1\n")
    for name, code in [("inventory.json", "E063"), ("inventory.json.sha256", "E058"),
                       ("0=ocfl_object_1.1", None)]:
        for kind in ["fifo", "link"]:
            root = os.path.join(folder, "meta", kind, name)
            make_root(root, {"o": ABC})
            path = os.path.join(root, "o", name)
            os.rename(path, os.path.join(outside, kind + name))
            if kind == "fifo":
                os.mkfifo(path)
            else:
                os.symlink(os.path.join(outside, kind + name), path)
            place = "o/" + name
            items = [OK[0], line(code or "", "o"), line("S04", place), OK[2]]
            if code == "E063":
                items = items[:2]
            if code is None:
                below = ["inventory.json", "inventory.json.sha256"]
                items = [OK[0], line("S04", place)]
                items += [line("E072", "o/" + it) for it in below]
                items.append(line("E072", "o/v1/content/f"))
            audits("%s as %s" % (kind, name), root, items)
    root = make_root(os.path.join(folder, "meta", "root"), {"o": ABC})
    os.remove(os.path.join(root, "0=ocfl_1.1"))
    os.mkfifo(os.path.join(root, "0=ocfl_1.1"))
    audits("fifo as the root's declaration", root, [line("E069", ".")])


def content_is_a_link(folder, outside):
    """A version or content directory that is a link: what the inventory names there is missing."""
    missing = line("E092", "o/v1/content/f", "sha256 missing")
    for name, items in [("o/v1", [OK[0], OK[1], line("S04", "o/v1"), missing]),
                        ("o/v1/content", [OK[0], OK[1], line("S04", "o/v1/content"), missing]),
                        ("o", [OK[0], line("S04", "o")])]:
        root = make_root(os.path.join(folder, "linked", name.replace("/", "-")), {"o": ABC})
        away = os.path.join(outside, name.replace("/", "-"))
        os.rename(os.path.join(root, name), away)
        os.symlink(away, os.path.join(root, name))
        audits("link as %s" % name, root, items)


def roots(folder):
    """ROOT with slashes at its end, from within, and over a link."""
    root = make_root(os.path.join(folder, "roots"), {"o": ABC})
    link = os.path.join(folder, "link-to-root")
    os.symlink(root, link)
    for name in [root + "/", root + "//", root + "/.", os.path.join(root, "o", ".."), link]:
        expect("root as %s" % name[len(folder):], ["audit", name], 0, OK, None)
    check("root as .", ran(["audit", "."], cwd=root), (0, "".join(OK), ""))
    expect("a file as the root", ["audit", os.path.join(root, "0=ocfl_1.1")], 3, [],
           "stopped at .")
    os.mkfifo(os.path.join(folder, "root-fifo"))
    expect("a fifo as the root", ["audit", os.path.join(folder, "root-fifo")], 3, [],
           "stopped at .")
    expect("no text as the root", ["audit", ""], 3, [], "stopped at .")


def dots(folder):
    """Names that begin with a dot are names like others."""
    root = make_root(os.path.join(folder, "dots"), {"o": {**ABC, "v1/content/.listed": b"dot"}})
    for path in [".file", ".folder/.file", "o/.file", "o/v1/.file", "o/v1/content/.file",
                 "o/v1/content/..file", "o/v1/content/..."]:
        write(os.path.join(root, path), b"")
    os.makedirs(os.path.join(root, "o/v1/content/.empty"))
    items = [OK[0], line("E072", ".folder/.file"), OK[1], line("E001", "o/.file"),
             line("E015", "o/v1/.file"), line("E023", "o/v1/content/..."),
             line("E023", "o/v1/content/..file"), line("E024", "o/v1/content/.empty"),
             line("E023", "o/v1/content/.file"), line("ok", "o/v1/content/.listed", 3), OK[2]]
    audits("names with dots", root, items)


def escaped(name):
    return "".join(chr(byte) if 0x20 <= byte < 0x7F and byte != 0x25 else "%%%02X" % byte
                   for byte in name.encode())


def names(folder):
    """Names with all bytes that text can have, and of 255 bytes; each is listed and right."""
    odd = ["".join(map(chr, range(1, 0x2F))), "".join(map(chr, range(0x30, 0x80))), "é\t% ",
           "new\nline", "x" * 255, "é" * 127 + "e", "𝄞" * 63, "\u202e", "a\u0301", "á"]
    root = make_root(os.path.join(folder, "names"), {"o": {"v1/content/" + it: b"" for it in odd}})
    order = sorted(odd, key=str.encode)
    audits("odd names", root, OK[:2] + [line("ok", "o/v1/content/" + escaped(it), 0)
                                        for it in order])
    for at, stopped in [("", "."), ("h", "h"), ("o", "o"), ("o/v1", "o/v1"),
                        ("o/v1/content", "o/v1/content")]:
        root = make_root(os.path.join(folder, "no-text", at.replace("/", "-")), {"o": ABC})
        os.makedirs(os.path.join(root, at), exist_ok=True)
        write(os.path.join(os.fsencode(os.path.join(root, at)), b"\xff"), b"")
        items = {".": [], "h": OK[:1], "o": OK[:1]}.get(stopped, OK[:2])
        audits("a name that is no text in '%s'" % at, root, items, "stopped at " + stopped, 3)
        check("it is shown, in '%s'" % at, common.reason,
              "it holds a name that is not UTF-8: \\xFF")


def long_paths(folder):
    """Whole paths of 4,094 to 4,097 bytes, and the longest that there are: 127 names on the way, of
    255 bytes each, which reports write with three characters for each."""
    root = os.path.join(folder, "long", "as the system takes")
    room = 4095 - len(root) - len("/o/v1/content/") - 1
    way = ["n" * 200] * ((room - 10) // 201)
    room -= 201 * len(way)
    reads_all(root, way, ["s" * (room + size) for size in [0, 1, 2, 3]])
    root = os.path.join(folder, "long", "as names allow")
    reads_all(root, ["\u00e9" * 127 + "e"] * 123, ["\u00e9" * 127 + it for it in "ef"])
    reads_all(os.path.join(folder, "long", "in ASCII"), ["n" * 255] * 123, ["s" * 255, "t"])


def reads_all(root, way, names):
    """Files of these names behind these directories are audited, listed, checked and resumed."""
    make_root(root, {"o": ABC})
    here = os.open(os.path.join(root, "o/v1/content"), os.O_RDONLY)
    for name in way:
        os.mkdir(name, dir_fd=here)
        here, above = os.open(name, os.O_RDONLY, dir_fd=here), here
        os.close(above)
    for name in [*names, "unlisted"]:
        file = os.open(name, os.O_CREAT | os.O_WRONLY, 0o600, dir_fd=here)
        os.write(file, b"abc")
        os.close(file)
    os.close(here)
    front = "/".join(["v1/content", *way])
    listed = {"%s/%s" % (front, name): b"abc" for name in names}
    make_object(os.path.join(root, "o"), {}, {**ABC, **listed})
    lines = {}
    for name in sorted([*names, "unlisted"], key=os.fsencode):
        place = "o/" + "/".join(map(escaped, [*front.split("/"), name]))
        lines[place] = line("E023", place) if name == "unlisted" else line("ok", place, 3)
    kind = os.path.basename(root)
    print("hostile.py: paths of %d bytes, of up to %d in a report" % (
        len(os.fsencode("/".join([root, "o", front, names[0]]))), max(map(len, lines))))
    audits("paths " + kind, root, OK + list(lines.values()))
    for place, item in lines.items():
        status = 0 if item.startswith("ok") else 1
        expect("a check of a path " + kind, ["check", root, place], status, [item], None)
    run = ["run", "--cursor", root + "-cursor", "--budget", "1", root]
    check("runs over paths " + kind, "".join(common.nights(run)), "".join([*OK, *lines.values()]))


def deep(folder):
    """Directories of 127 names are listed, those of 128 are not."""
    for extra, place in [(124, 127), (125, 128), (127, 130)]:
        root = make_root(os.path.join(folder, "deep", str(place)), {"o": ABC})
        inner = "v1/content" + "/d" * extra
        path = inner + "/f"
        write(os.path.join(root, "o", path), b"abc")
        make_object(os.path.join(root, "o"), {}, {**ABC, path: b"abc"} if extra < 126 else ABC)
        chain = "o/v1/content" + "/d" * 125
        if place == 127:
            items = [line("ok", "o/" + path, 3)]
        elif place == 128:
            items = [line("S05", chain), line("E092", "o/" + path, "sha256 missing")]
        else:
            items = [line("S05", chain)]
        audits("a content directory of %d names" % place, root, OK[:2] + items + OK[2:])
    for depth in [127, 128, 129]:
        root = make_root(os.path.join(folder, "high", str(depth)), {})
        place = "/".join(["d"] * depth)
        make_object(os.path.join(root, place), ABC)
        head = line("ok", place)
        items = [line("S05", "/".join(["d"] * 128))]
        if depth == 127:
            missing = line("E092", place + "/v1/content/f", "sha256 missing")
            items = [head, line("S05", place + "/v1"), missing]
        audits("an object of %d names" % depth, root, OK[:1] + items)


def many(folder):
    """More members, keys and elements than any list of a fixed length would hold."""
    files = {"v1/content/%03d" % number: b"%d" % number for number in range(300)}
    root = make_root(os.path.join(folder, "many"), {"o": files})
    keys = {"algorithms%03d" % number: number for number in range(300)}
    manifest = {digest(data): [path] for path, data in files.items()}
    inventory = {"digestAlgorithm": "sha256", "manifest": manifest, **keys}
    put_inventory(os.path.join(root, "o"), json.dumps(inventory).encode())
    audits("300 files and 300 members", root, common.sound({"o": files}))
    cycle = ["cycle", "--budget", "1", "--runs", "300", root]
    cost = sum(map(len, files.values())) + 300
    expect("300 runs", cycle, 0, common.sound({"o": files}), "runs 300, cost %d, ended" % cost)
    path = "v1/content/" + "/".join(["e"] * 123) + "/f"
    root = make_root(os.path.join(folder, "elements"), {"o": {path: b"abc"}})
    audits("a path of 126 elements", root, OK[:2] + [line("ok", "o/" + path, 3)])
    folders = {"%03d/o" % number: {"v1/content/f": b"abc"} for number in range(300)}
    root = make_root(os.path.join(folder, "folders"), folders)
    audits("300 objects", root, common.sound(folders))


def wide(folder):
    """A directory of 70,000 entries, which are two files under many names."""
    root = make_root(os.path.join(folder, "wide"), {})
    os.mkdir(os.path.join(root, "d"))
    names = ["%05d" % number for number in range(70_000)]
    here = os.open(os.path.join(root, "d"), os.O_RDONLY)
    for number, name in enumerate(names):
        first = names[number - number % 35_000]
        if name == first:
            write(os.path.join(root, "d", name), b"")
        else:
            os.link(first, name, src_dir_fd=here, dst_dir_fd=here)
    os.close(here)
    audits("70,000 entries", root, OK[:1] + [line("E072", "d/" + name) for name in names])


def changing(folder):
    """A file grows or shrinks after its first block was read: its digest is of what was read."""
    data = os.urandom(200_000)
    for name, change, read in [
        ("grows", lambda file: file.write(b"more"), data + b"more"),
        ("shrinks", lambda file: file.truncate(100_000), data[:100_000]),
        ("is emptied", lambda file: file.truncate(0), data[:65_536]),
    ]:
        root = make_root(os.path.join(folder, name), {"o": {"v1/content/f": data}})
        path = os.path.join(root, "o/v1/content/f")
        words = ["audit", root]
        read_first = calls.on(path, calls.made(words, folder + "/log"), ["read"])[0]
        with calls.stopped_at(read_first, words) as stopped:
            with open(path, "r+b") as file:
                file.seek(0, os.SEEK_END)
                change(file)
        wrong = line("E092", "o/v1/content/f", "sha256 %s %s" % (digest(data), digest(read)))
        check("a file that " + name, stopped.ended, (1, "".join(OK[:2]) + wrong, ""))


def going(folder):
    """Content that goes away: once it is opened it is read, and once it is listed it is unread."""
    unread = OK[:2] + [line("S08", "o/v1/content/f")]
    # the second call of a listing finds its end
    for name, where, call, when, status, items in [
        ("once it is opened", "o/v1/content/f", "openat", 1, 0, OK),
        ("once it is listed", "o/v1/content", "getdents64", 2, 1, unread),
    ]:
        root = make_root(os.path.join(folder, name), {"o": ABC})
        words, path = ["audit", root], os.path.join(root, where)
        at = calls.on(path, calls.made(words, folder + "/log"), [call])[when - 1]
        with calls.stopped_at(at, words) as stopped:
            os.remove(os.path.join(root, "o/v1/content/f"))
        check("a file removed " + name, stopped.ended, (status, "".join(items), ""))


def check_all(folder):
    outside = os.path.join(folder, "outside")
    write(os.path.join(outside, "file"), b"secret")
    others(folder, outside)
    listed_others(folder, outside)
    others_as_metadata(folder, outside)
    content_is_a_link(folder, outside)
    roots(folder)
    dots(folder)
    names(folder)
    long_paths(folder)
    deep(folder)
    many(folder)
    wide(folder)
    changing(folder)
    going(folder)


common.run_trial(check_all, needs=["strace"])
