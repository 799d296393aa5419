#!/usr/bin/env python3
"""Tries the program's own nights over roots and folders that are not theirs, that are gone or
exchanged meanwhile, or that were changed between two nights, and over odd names.

usage: night_folders.py [PART]...

Tried, and what comes of it:

- The root unmounted, or something else mounted in its place, between two runs of a night and
  within one, in the night of a part too; ROOT a link that is pointed elsewhere: status 3, the
  root is named, nothing is closed, and no line is said that is not so; then the next nights close
  a report that is the audit, byte for byte, and each finding is said. It mounts for that. Of
  parts: `night_parts.py`.
- The state folder unmounted under a night: status 3, by the next night too; mounted again, the
  next nights close a report that is the audit, byte for byte, and each finding is said. It mounts
  for that.
- An object, a folder of a root, an empty one or none as the root; another root, declaration or
  part; a root that lost most of its names, also if some go each night: status 3, and nothing is
  written. Of parts: `night_parts.py`.
- A state folder in the root, also one that is not there yet or is named by a link, the root itself,
  and a folder that has the root in it: status 2, and nothing is made or written; a folder whose
  name only begins as the root's does: its nights are as any others.
- A folder of the nightly scripts; reports without a checkpoint; a state folder that is not
  mounted; the folder of a whole root's nights for a part, and for `join`: status 3, and nothing
  is written. Of parts: `night_parts.py`.
- A checkpoint, a report, a lock, a log or a folder of another user: status 3, the file is named
  with the system's reason. It needs root.
- A checkpoint with another digit, cut, empty, zeros, of another version: status 4, and nothing is
  written.
- A checkpoint of an earlier cycle that is put back, or a whole folder: status 3, and nothing is
  written; with the newest one the cycle is whole, and so is the next one with that of the last
  closed cycle, once the open report is moved away.
- A report that lost its end or all of it: status 3, it is closed as incomplete, and the next
  cycle is whole.
- A report of the right length with another size in a line, another byte, or zeros: it is closed
  as incomplete, which is said; what no output had taken of it before is said too.
- Links and pipes in place of each file of the folder: status 3, none is followed or opened.
- Nights under the masks 000, 022 and 077: nothing of the state is open to others or can be
  written by the group.
- Copies beside the reports; a killed night and then one that is refused; a file `stop`: they
  stay; the report is as whole as it was; no further run begins.
- Objects, roots and state folders whose names have backslashes, line feeds, controls, marks of
  direction or quotes, begin with `-`, or sort before `.`: the report is the audit, and what is said
  has nothing of a name that a terminal takes as its own.
- Folders with such names that cannot be listed: status 3, they are named as left out, with the
  name that is not UTF-8, all else is in a report that is incomplete; the next cycle is the audit,
  and other parts go on. Of parts: `night_parts.py`.

Seen to fail on these faults, each planted alone, or beside others that other rows see:

- A report is not cut.
- The root is not looked at again after a run.
- ROOT is not resolved; the folder above is taken where ROOT is no storage root.
- Links are followed; modes are wide; the file `stop` is not looked for.
- Each night has `--create`, or `--force-root`.
- A folder of another root or part, a damaged checkpoint, a folder of scripts or reports without a
  checkpoint are removed, and begun anew.
- A report is emptied where the root is not there.
- It is not asked whether the cycle that a checkpoint says is open is closed already.
- The names of a root are compared with those of the last night; all of a report that was changed
  counts as said; no run is bound by the files that its night may start.
- Status 3 is 0; status 2 is 0; nothing is said on standard error.
- All is said twice; by `echo` of a shell; with `%0A` and `%1B` decoded.
- A report that cannot be read, or all before a missing one, are left out of comparisons; an
  incomplete report is called whole.
- Copies are removed.
"""
import os
import re
import shutil
import subprocess
from typing import Any

import common
from common import Stopped, check, ran
from shared.messages import shown
from shared.nights import tried_apart
from shared.own_nights import SLICE, Audited, Exchanged, Got, Nights, is_finding, make_root
from shared.spaces import can_mount, folder_at, unmount

PLAN = ["--create", "--slice", SLICE]
MOUNTED = "is its file system mounted?"
NOBODY = 65534


def made(folder: str) -> tuple[Audited, Nights]:
    audited = Audited(make_root(folder + "/root"))
    return audited, Nights(folder + "/state", audited.root)


def is_refused(name: str, got: Got, status: int, said: str, nights: Nights,
               kept: dict[str, Any]) -> None:
    """A night that was refused says so, and changed nothing that nights rest on."""
    check(name, (got[0], said in got[1] + got[2]), (status, True))
    check(name + ": nothing was written", nights.kept(), kept)


NOTHING: dict[str, Any] = {"checkpoint": None, "report": None}


# Roots

def overlapping(folder: str) -> None:
    """No state folder lies in the root, or has it in it."""
    audited, _ = made(folder)
    os.symlink(audited.root + "/a", folder + "/link")
    before = sorted(os.walk(audited.root))
    for name, state in [("in the root", audited.root + "/state"), ("an object", audited.root + "/a"),
                        ("the root", audited.root), ("above the root", folder),
                        ("by a link", folder + "/link"), ("below a link", folder + "/link/new"),
                        ("by dots", folder + "/root/../root/state/")]:
        got = Nights(state, audited.root).first("--slice", SLICE)
        check("a state folder " + name, (got[0], "must not be inside" in got[2]), (2, True))
        check(name + ": nothing is made", sorted(os.walk(audited.root)), before)
    check("above the root: nothing is made", sorted(os.listdir(folder)), ["link", "root"])
    beside = Nights(audited.root + "-state", audited.root)
    check("beside the root", beside.first("--slice", SLICE)[0] in (0, 1), True)


def no_storage_root(folder: str) -> None:
    """An object, a folder of the root, an empty folder and no folder are no storage roots."""
    audited, _ = made(folder)
    os.makedirs(folder + "/empty")
    for name, root in [("an object", audited.root + "/a"), ("a version", audited.root + "/a/v1"),
                       ("an empty folder", folder + "/empty"), ("no folder", folder + "/none"),
                       ("a file", audited.root + "/0=ocfl_1.1")]:
        nights = Nights("%s/state %s" % (folder, name), root)
        is_refused(name, nights.first("--slice", SLICE), 3, "", nights, NOTHING)
        nights.root = audited.root
        check(name + ": the folder is still free", audited.faults_after(nights, ""), [])
        kept, nights.root = nights.kept(), root
        is_refused(name + " where a root was", nights.night(), 3, "", nights, kept)


def another_root(folder: str) -> None:
    """A folder that belongs to another root, by its path or by its declaration."""
    audited, nights = made(folder)
    said = nights.night(*PLAN, "--files", "3")[1]
    kept = nights.kept()
    other = Nights(nights.state, make_root(folder + "/other"))
    is_refused("another path", other.night(), 3, audited.root, nights, kept)
    is_refused("another path, with --create", other.first(), 3, audited.root, nights, kept)
    log = nights.has("log")
    is_refused("no such path", Nights(nights.state, folder + "/none").night(), 3, "", nights, kept)
    check("its log is not that root's", nights.has("log") == log, True)
    gone = Audited(audited.root).root
    os.rename(gone, folder + "/away")
    is_refused("the root is gone", nights.night(), 3, "", nights, kept)
    os.rename(folder + "/away", gone)
    check("that is logged", nights.has("log") == log, False)
    declaration = audited.root + "/0=ocfl_1.1"
    os.rename(declaration, audited.root + "/0=ocfl_1.0")
    common.write(audited.root + "/0=ocfl_1.0", b"ocfl_1.0\n")
    is_refused("another declaration", nights.night(), 3, "declaration", nights, kept)
    os.remove(audited.root + "/0=ocfl_1.0")
    is_refused("no declaration", nights.night(), 3, MOUNTED, nights, kept)
    common.write(declaration, b"ocfl_1.1\n")
    check("as before", audited.faults_after(nights, said), [])


def names_that_are_gone(folder: str) -> None:
    """More than half of the names in the root's folder are gone: it is refused but with a word."""
    audited, nights = made(folder)
    nights.night(*PLAN, "--files", "3")
    kept = nights.kept()
    for place in ["b", "d", "e", "0 empty"]:
        os.rename(audited.root + "/" + place, folder + "/gone " + place)
    is_refused("gone", nights.night(), 3, "--force-root", nights, kept)
    check("with a word", nights.night("--force-root", "--slice", SLICE)[0] in (0, 1), True)


def names_that_go_night_by_night(folder: str) -> None:
    """Two of the six names go before the second night, and two before the third: those are counted
    that were there when the cycle began."""
    audited, nights = made(folder)
    nights.night(*PLAN, "--files", "1")
    for names in [["0 empty", "e"], ["b", "d"]]:
        check("a night over what is left", nights.night("--files", "1")[0] in (0, 1), True)
        kept = nights.kept()
        for name in names:
            os.rename(audited.root + "/" + name, folder + "/gone " + name)
    is_refused("four of six are gone", nights.night("--files", "1"), 3, "4 of the 6 names", nights,
               kept)


def link_that_moves(folder: str) -> None:
    """ROOT is a link that is pointed to another snapshot in the night: no report has lines of
    both."""
    for name in ["one", "two"]:
        make_root("%s/%s" % (folder, name))
    shutil.rmtree(folder + "/two/d")
    for when in range(3, 12):
        os.symlink("one", folder + "/root")
        nights = Nights("%s/state-%d" % (folder, when), folder + "/root")
        stopped = Stopped([], "fsync", nights.words(*PLAN), when)
        with stopped:
            os.remove(folder + "/root")
            os.symlink("two", folder + "/root")
        os.remove(folder + "/root")
        os.symlink("one", folder + "/root")
        audited = Audited(folder + "/one")
        check("the night, %d" % when, stopped.ended[0] in (0, 1, 3), True)
        check("then, %d" % when, audited.faults_after(nights, stopped.ended[1]), [])
        os.remove(folder + "/root")


def exchanged(folder: str) -> None:
    """Another folder of the same declaration takes the root's place in the night: no report has
    lines of both."""
    audited, _ = made(folder)
    other, away = make_root(folder + "/other"), folder + "/away"
    shutil.rmtree(other + "/d")
    for when in range(4, 16, 2):
        nights = Nights("%s/state-%d" % (folder, when), audited.root)
        stopped = Stopped([], "fsync", nights.words(*PLAN), when)
        with stopped:
            os.rename(audited.root, away)
            os.rename(other, audited.root)
        os.rename(audited.root, other)
        os.rename(away, audited.root)
        status, out, note = stopped.ended
        check("the night, %d" % when, (status, "leads to another folder" in note, nights.closed(),
                                       audited.false_lines(out)), (3, True, [], []))
        check("then, %d" % when, audited.faults_after(nights, out), [])


def unmounted(folder: str) -> None:
    """The root is unmounted between two slices, and within one."""
    case = Exchanged(folder)
    last = case.last_look()
    check("so many moments", last > 15, True)
    for when in range(4, last + 1, 2):
        case.tried("unmounted after fsync %d" % when, [], "fsync", when)
    for place in ["a/v1/content/2", "b/c/inventory.json", "d/v1/content/3", "e/v1/content/0",
                  "e/0=ocfl_object_1.1"]:
        for name, word in [("openat", "opened"), ("read", "read")]:
            call = case.call_on(place, name)
            case.tried("unmounted as %s is %s" % (place, word), [], name, call.number)


def mounted_anew(folder: str) -> None:
    """Something else is mounted in the root's place."""
    case = Exchanged(folder)
    os.mkdir(folder + "/empty")
    older = make_root(folder + "/older")
    os.rename(older + "/0=ocfl_1.1", older + "/0=ocfl_1.0")
    common.write(older + "/0=ocfl_1.0", b"ocfl_1.0\n")
    like = make_root(folder + "/like")
    shutil.rmtree(like + "/d")
    for name, other in [("an empty folder", folder + "/empty"), ("another root", older),
                        ("an object", case.disk + "/a"), ("one like it", like)]:
        for when in range(5, 20, 4):
            case.tried("%s after fsync %d" % (name, when), [], "fsync", when, other)


# State folders

def not_mounted(folder: str) -> None:
    """A state folder that is not there, or is empty, begins no other cycle in silence."""
    audited, nights = made(folder)
    os.makedirs(folder + "/disk")
    os.makedirs(folder + "/mounted")
    below, itself = Nights(folder + "/mounted/state", audited.root), Nights(
        folder + "/mounted", audited.root)
    for name, nights in [("below", below), ("itself", itself)]:
        with folder_at(folder + "/mounted", folder + "/disk"):
            said = nights.night(*PLAN, "--files", "3")[1]
        got = nights.night()
        check(name + ", not mounted", (got[0], MOUNTED in got[1] + got[2],
                                       os.listdir(folder + "/mounted")), (3, True, []))
        with folder_at(folder + "/mounted", folder + "/disk"):
            check(name + ", mounted again", audited.faults_after(nights, said), [])
            shutil.rmtree(folder + "/disk/state", ignore_errors=True)
    nights = Nights(folder + "/none/state", audited.root)
    check("no folder above it", (nights.first()[0], os.path.exists(folder + "/none")), (3, False))


def unmounted_state(folder: str) -> None:
    """The state folder is unmounted under a night: what lies on its disk is taken up again once it
    is mounted, and a night that finds it gone says so."""
    audited, nights = made(folder)
    disk = folder + "/disk"
    for when in range(4, 20, 3):
        for path in (disk, nights.state):
            shutil.rmtree(path, ignore_errors=True)
            os.mkdir(path)
        with folder_at(nights.state, disk):
            stopped = Stopped([], "fsync", nights.words(*PLAN), when)
            with stopped:
                unmount(nights.state)
        status, out, note = stopped.ended
        check("unmounted after fsync %d" % when, (status, nights.state in note), (3, True))
        check("the next night, %d" % when, nights.night()[0], 3)
        with folder_at(nights.state, disk):
            check("mounted again, %d" % when, audited.faults_after(nights, out), [])


def give(state: str, name: str) -> None:
    """Gives all of a state folder to nobody, but a file of it, or the folder itself, to root."""
    for where, _, names in os.walk(state):
        for one in [".", *names]:
            os.chown(os.path.join(where, one), NOBODY, NOBODY)
    os.chown(os.path.join(state, name), 0, 0)
    os.chmod(os.path.join(state, name), 0o700 if name == "." else 0o600)


def files_of_another(folder: str) -> None:
    """A night of a user who may not read or write the files of the one before names the file."""
    audited, nights = made(folder)
    said = nights.night(*PLAN, "--files", "3")[1]
    # The program and what it reads are to be found by anybody.
    copy = shutil.copy(common.PROGRAM, folder + "/program")
    for path in [os.path.dirname(folder), folder, copy]:
        os.chmod(path, 0o755)
    for name in ["checkpoint", "report", "lock", "log", "."]:
        give(nights.state, name)
        kept = {it: nights.has(it) for it in ("checkpoint", "report")}
        status, out, note = common.end(subprocess.Popen(
            [copy, *nights.words("--slice", SLICE)], user=NOBODY, group=NOBODY, extra_groups=[],
            stdout=subprocess.PIPE, stderr=subprocess.PIPE))
        check("another's %s" % name, (status, nights.state in note, name in note,
                                      "Permission denied" in note), (3, True, True, True))
        said += out
        if name != "log":
            check("another's %s: nothing was written" % name,
                  {it: nights.has(it) for it in kept}, kept)
    check("then", audited.faults_after(nights, said), [])


def folder_of_scripts(folder: str) -> None:
    """A folder of the nightly scripts is refused by name."""
    audited, nights = made(folder)
    for name in ["cursor", "nights"]:
        nights.again()
        common.write(nights.path(name), b"")
        before = common.snapshot(nights.state)
        for more in [[], ["--create"]]:
            status, out, note = nights.night(*more)
            check("with %s %s" % (name, more), (status, nights.state in out + note), (3, True))
        check("with %s: nothing has changed" % name, common.snapshot(nights.state), before)


def no_checkpoint(folder: str) -> None:
    """A folder with reports and no checkpoint begins no cycle."""
    audited, nights = made(folder)
    cases: list[tuple[str, list[str]]] = [("an open report", ["--files", "3"]),
                                          ("a closed report", [])]
    for name, more in cases:
        nights.again()
        nights.night(*PLAN, *more)
        os.remove(nights.path("checkpoint"))
        kept = nights.kept()
        is_refused(name, nights.night(), 3, nights.state, nights, kept)
        is_refused(name + ", with --create", nights.first(), 3, nights.state, nights, kept)
    nights.again()
    common.write(nights.path("reports/cycle-000007"), audited.report.encode())
    kept = nights.kept()
    is_refused("a later report alone, with --create", nights.first(), 3, nights.state, nights, kept)
    nights.again()
    common.write(nights.path("report"), b"ok\t.\t-\n")
    kept = nights.kept()
    is_refused("a report alone", nights.night(), 3, nights.state, nights, kept)
    is_refused("a report alone, with --create", nights.first(), 3, nights.state, nights, kept)


def changed_checkpoint(folder: str) -> None:
    """A checkpoint that is not as it was written is refused, with status 4."""
    audited, nights = made(folder)
    said = nights.night(*PLAN, "--files", "3")[1]
    good = common.read(nights.path("checkpoint"))
    sealed = good.rindex(b"sha256 ")
    other = good[:sealed + 8] + (b"1" if good[sealed + 8:sealed + 9] == b"0" else b"0") \
        + good[sealed + 9:]
    later = good.replace(b"checkpoint 1\n", b"checkpoint 3\n", 1)
    for name, text in [("another digit", other), ("no text", b""), ("a text", b"cycle 1\n"),
                       ("half of it", good[:len(good) // 2]), ("without its end", good[:-1]),
                       ("zeros", bytes(len(good))), ("another version", later),
                       ("another number", good.replace(b"\ncycle 1\n", b"\ncycle 2\n")),
                       ("twice", good + good)]:
        common.write(nights.path("checkpoint"), text)
        kept = nights.kept()
        is_refused(name, nights.night(), 4, nights.path("checkpoint"), nights, kept)
        is_refused(name + ", with --create", nights.first(), 4, "", nights, kept)
    common.write(nights.path("checkpoint"), good)
    check("as it was", audited.faults_after(nights, said), [])


def older_checkpoint(folder: str) -> None:
    """A checkpoint of an earlier cycle, put back beside the reports of later ones, is refused."""
    audited, nights = made(folder)
    older = []
    for name, more in [("after the first cycle", []), ("in the second cycle", ["--files", "2"])]:
        nights.night(*PLAN, *more)
        older.append((name, common.read(nights.path("checkpoint"))))
    nights.night("--slice", SLICE)
    nights.night("--slice", SLICE, "--files", "2")
    newest = common.read(nights.path("checkpoint"))
    check("two cycles are closed", nights.closed(), ["cycle-000001", "cycle-000002"])
    for name, text in older:
        common.write(nights.path("checkpoint"), text)
        kept = nights.kept()
        is_refused(name, nights.night("--slice", SLICE), 3, nights.state, nights, kept)
        is_refused(name + ", with --create", nights.first(), 3, nights.state, nights, kept)
    common.write(nights.path("checkpoint"), newest)
    check("the newest", nights.night("--slice", SLICE)[0], 1)
    check("its cycle is whole", nights.whole(3) == audited.report, True)
    nights.night("--slice", SLICE, "--files", "2")
    shutil.copy(nights.path("reports/checkpoint-000003"), nights.path("checkpoint"))
    kept = nights.kept()
    is_refused("that of the last cycle", nights.night("--slice", SLICE), 3, nights.state, nights,
               kept)
    os.rename(nights.path("report"), folder + "/report")
    ended = [nights.night("--slice", SLICE)[0] for _ in range(2)]
    check("it goes on without the open report", (ended[-1], nights.closed()),
          (1, ["cycle-00000%d" % cycle for cycle in (1, 2, 3, 4)]))
    check("the next cycle is whole", nights.whole(4) == audited.report, True)


def older_folder(folder: str) -> None:
    """A copy of the whole folder, made in the second cycle and put back over it once that cycle is
    closed, is refused: what further nights would read was in no report."""
    _, nights = made(folder)
    nights.night(*PLAN)
    nights.night("--slice", SLICE, "--files", "2")
    shutil.copytree(nights.state, folder + "/copy")
    nights.night("--slice", SLICE)
    shutil.copytree(folder + "/copy", nights.state, dirs_exist_ok=True)
    kept = nights.kept()
    for name in ("a night", "the next one"):
        is_refused(name, nights.night("--slice", SLICE), 3, "where cycle 2 is closed already",
                   nights, kept)
    subprocess.run(["gzip", nights.path("reports/cycle-000002")], check=True)
    common.not_yet("beside the compressed report of that cycle", nights.night("--slice", SLICE)[0],
                   3, "the program takes the report of a cycle for one that is not there once it "
                   "is compressed, and closes a second one")


def after_a_change(name: str, folder: str, change: Any) -> tuple[Any, Any]:
    """A report that was changed between two nights: what the next one makes of its cycle, and
    whether the cycle after that is the audit."""
    audited, nights = made(folder + "/" + name.replace(" ", "-"))
    nights.night(*PLAN, "--files", "5")
    change(nights.path("report"))
    status, out, note = nights.night("--slice", SLICE)
    closed = (status, nights.closed(), (out + note).strip() != "")
    return closed, (nights.night("--slice", SLICE)[0], nights.whole(2) == audited.report)


INCOMPLETE = ((3, ["incomplete-000001"], True), (1, True))


def shorter_report(folder: str) -> None:
    """Of a report that is shorter than the checkpoint says it is said, and its cycle is closed as
    one that is not whole."""
    def shorter(path: str) -> None:
        os.truncate(path, os.path.getsize(path) - 2)

    for name, change in [("two bytes shorter", shorter), ("empty", lambda it: os.truncate(it, 0)),
                         ("gone", os.remove)]:
        check(name, after_a_change(name, folder, change), INCOMPLETE)


def changed_report(folder: str) -> None:
    """The same of a report that is as long as it says, and has other bytes."""
    def exchanged(path: str, at: int) -> None:
        data = bytearray(common.read(path))
        data[at] ^= 1
        common.write(path, bytes(data))

    def resized(path: str) -> None:
        common.write(path, common.read(path).replace(b"/0\t3\n", b"/0\t2\n", 1))

    for name, change in [("another size in a line", resized),
                         ("its first byte", lambda it: exchanged(it, 0)),
                         ("its last byte", lambda it: exchanged(it, -1)),
                         ("zeros", lambda it: common.write(it, bytes(os.path.getsize(it))))]:
        check(name, after_a_change(name, folder, change), INCOMPLETE)


def unsaid_in_a_changed_report(folder: str) -> None:
    """What no output took of a report that was changed since is said, as far as it is there."""
    _, nights = made(folder)
    with open("/dev/full", "wb") as full:
        status = nights.night(*PLAN, "--files", "5", stdout=full)[0]
    report = common.read(nights.path("report"))
    common.write(nights.path("report"), report.replace(b"/0\t3\n", b"/0\t2\n", 1))
    unsaid = [line for line in common.text_of(report).splitlines(True) if is_finding(line)]
    check("what is unsaid", (status, len(unsaid) > 2), (3, True))
    status, said, _ = nights.night("--files", "1")
    check("it is said after the change",
          (status, [line for line in unsaid if not shown(line, said)]), (3, []))


def longer_report(folder: str) -> None:
    """What a killed night appended beyond its checkpoint is cut away."""
    for name, more in [("half a line", b"ok\ta/v1/con"), ("zeros", bytes(5000)),
                       ("lines", b"ok\tzz\t-\n" * 100)]:
        audited, nights = made("%s/%s" % (folder, name))
        said = nights.night(*PLAN, "--files", "3")[1]
        common.write(nights.path("report"), common.read(nights.path("report")) + more)
        check(name, audited.faults_after(nights, said), [])


def links_in_the_folder(folder: str) -> None:
    """No link in the state folder is followed, nor is a pipe opened."""
    audited, nights = made(folder)
    secret = folder + "/secret"
    for name in ["checkpoint", "report", "lock", "log", "reports", "checkpoint.new"]:
        for kind in ["link", "pipe"]:
            nights.again()
            said = nights.night(*PLAN, "--files", "3")[1]
            common.write(secret, b"E092\tsecret\t-\n")
            aside = nights.path(name)
            if os.path.lexists(aside):
                os.rename(aside, folder + "/aside")
            (os.symlink(secret, aside) if kind == "link" else os.mkfifo(aside))
            status, out, note = nights.night(*PLAN)
            check("a %s as %s" % (kind, name), (status, "secret\t" in out + note), (3, False))
            check("what it led to", common.read(secret), b"E092\tsecret\t-\n")
            os.remove(aside)
            if os.path.lexists(folder + "/aside"):
                os.rename(folder + "/aside", aside)
            check("without it", audited.faults_after(nights, said), [])


def rights(folder: str) -> None:
    """The state is for its owner and his group, from its first moment, whatever the mask."""
    audited, nights = made(folder)
    for mask in (0o000, 0o022, 0o077):
        nights.again()
        before = os.umask(mask)
        try:
            stopped = Stopped([], "fsync", nights.words(*PLAN), 7)
            with stopped:
                seen = modes(nights.state)
            seen += modes(nights.state)
        finally:
            os.umask(before)
        check("under the mask %03o" % mask, (len(seen) > 6, [it for it in seen if it[0] & 0o027]),
              (True, []))


def modes(state: str) -> list[tuple[int, str]]:
    return [(os.stat(os.path.join(where, name)).st_mode & 0o7777, name)
            for where, folders, names in os.walk(state) for name in [".", *folders, *names]]


def copies_beside(folder: str) -> None:
    """Copies that somebody makes in the folder stay, and nothing is said of them."""
    audited, nights = made(folder)
    said = nights.night(*PLAN)[1]
    for copy in ["reports/cycle-000001.bak", "report.bak", "checkpoint.old"]:
        common.write(nights.path(copy), b"E092\tan/aside\t-\n")
    os.makedirs(nights.path("parts-000001.bak"))
    for _ in range(2):
        status, out, note = nights.night()
        check("a night", (status, "aside" in out + note), (1, False))
    check("the copies", [name for name in ["reports/cycle-000001.bak", "report.bak",
                                           "checkpoint.old", "parts-000001.bak"]
                         if not os.path.exists(nights.path(name))], [])
    check("the reports", [nights.whole(cycle) for cycle in (1, 2, 3)], [audited.report] * 3)
    check("what was said", audited.not_said(said), [])


def odd_folders(folder: str) -> None:
    """State folders and roots with odd names are as others, and no byte of a name gets out."""
    for name in ["incomplete-x", "a\tb", "a\nb", "a\\nb", "\033[2J", "-", "--create", "%41", "ä"]:
        where = "%s/%s" % (folder, name)
        audited = Audited(make_root(where + "/root"))
        nights = Nights(where + "/state", audited.root)
        out = nights.night(*PLAN)
        check("in " + name, (out[0], controls(out[1] + out[2])), (1, []))
        check("in %s: then" % name, audited.faults_after(nights, out[1]), [])
    for name in ["-", "--create", "-x"]:
        where = "%s/root %s" % (folder, name)
        make_root(where + "/" + name)
        got = ran(["night", "--create", "--state", "state", "--", name], cwd=where)
        check("ROOT is " + name, (got[0], common.read(where + "/state/reports/cycle-000001")),
              (1, ran(["audit", "--", name], cwd=where)[1].encode()))


def controls(text: str) -> list[str]:
    """The control characters of a text but its line feeds, its marks of direction (Unicode's
    `Bidi_Control`), and what else ends a line or a paragraph."""
    return re.findall("[\x00-\x09\x0b-\x1f\x7f-\x9f\u061c\u200e\u200f\u2028-\u202e\u2066-\u2069]",
                      text.replace("\t", ""))


# Names in the root

NAMES = ["-", "-rf", "+b", "(c)", " lead", "#hash", "$(touch x)", "`id`", "*", "b\\cx", "b\\nx",
         "b\\tx", "b\\0x", "n\nl", "t\tb", "z\\033[2J\\nAll is well: 0 findings.\\c", "\033[31m",
         "..hidden", ".hidden", "%41", "a|b", "a&<b>]]>", "cycle-000001", "\u0085", "x" * 255,
         "photo \u202egpj.exe", "\u200fr", "\u2066i\u2069", "l\u2028f"]


def odd_names(folder: str) -> None:
    """Names of objects that a shell, a terminal or a list might take as its own."""
    root = common.make_root(folder + "/root", {name: {"v1/content/a": b"abc"} for name in NAMES})
    for name in NAMES[::2]:
        common.write("%s/%s/v1/content/a" % (root, name), b"abd")
    audited, nights = Audited(root), Nights(folder + "/state", root)
    check("findings", len(audited.findings) >= len(NAMES[::2]), True)
    said = ""
    for _ in range(50):
        status, out, note = nights.night("--create", "--files", "4")
        check("a night", (status in (0, 1), controls(out + note), note), (True, [], ""))
        said += out
        if nights.whole(1) is not None:
            break
    check("each line is one of the report", audited.false_lines(said), [])
    check("and then", audited.faults_after(nights, said), [])
    check("nothing is gone a cycle later", nights.has("reports/gone-000002"), "")


def names_that_are_left_out(folder: str) -> None:
    """A folder that cannot be listed is left out of its cycle, and named as reports do; all else
    is in the report, which is incomplete. Once it can be listed, the next cycle is the audit."""
    for number, name in enumerate(["b\\cx", "b\\nx", "b\\tx", "-", "n\nl",
                                   "z\\033[2J\\nAll is well: 0 findings.\\c"]):
        where = "%s/%d" % (folder, number)
        root = common.make_root(where + "/root", {it: {"v1/content/a": b"abc"}
                                                  for it in ["!first", name, "~last"]})
        common.write(root + "/!first/v1/content/a", b"abd")
        bad = os.fsencode("%s/%s/" % (root, name)) + b"\xff"
        common.write(os.fsdecode(bad), b"")
        nights = Nights(where + "/state", root)
        place = name.replace("\n", "%0A")
        status, out, note = nights.night(*PLAN)
        check("a night, " + name, (
            status, "left out: %s: it holds a name that is not UTF-8: \\xFF\n" % place in note,
            controls(out + note), "\nAll is well" in out + note), (3, True, [], False))
        check("what was found is said", shown("E092\t!first/v1/content/a\t-", out), 1)
        os.remove(bad)
        audited = Audited(root)
        rest = [line for line in audited.report.splitlines(True)
                if line.split("\t")[1].split("/")[0] != place]
        check("its report", nights.has("reports/incomplete-000001"), "".join(rest))
        nights.night(*PLAN)
        check("then", nights.whole(2), audited.report)


# A night that is asked to stop

def stop_file(folder: str) -> None:
    """Where a file `stop` stands in the folder, no further run begins."""
    audited, nights = made(folder)
    said = nights.night(*PLAN, "--files", "3")[1]
    common.write(nights.path("stop"), b"")
    shown = nights.shown()
    status, out, _ = nights.night("--slice", SLICE)
    check("no run begins", (status in (0, 1), nights.shown()), (True, shown))
    said += out
    gone(nights.path("stop"))
    stopped = Stopped([], "fsync", nights.words("--slice", SLICE), 4)
    with stopped:
        common.write(nights.path("stop"), b"")
    said += stopped.ended[1]
    check("none after the one that is made", (stopped.ended[0] in (0, 1), nights.closed()),
          (True, []))
    gone(nights.path("stop"))
    check("then", audited.faults_after(nights, said), [])


def gone(path: str) -> None:
    """Removes a file that a night may have removed."""
    if os.path.exists(path):
        os.remove(path)


def cut_and_refused(folder: str) -> None:
    """A night that was killed, then one that was refused: the report is as whole as it was."""
    audited, nights = made(folder)
    rules = ["-e", "inject=fsync:signal=KILL:when=11"]
    said = common.traced(rules, nights.words(*PLAN))[1]
    os.rename(nights.root, folder + "/away")
    got = nights.night("--slice", SLICE)
    check("refused", (got[0], nights.root in got[1] + got[2]), (3, True))
    os.rename(folder + "/away", nights.root)
    check("then", audited.faults_after(nights, said), [])


PARTS = [overlapping, no_storage_root, another_root, names_that_are_gone,
         names_that_go_night_by_night, link_that_moves, exchanged, folder_of_scripts, no_checkpoint,
         changed_checkpoint, older_checkpoint, older_folder, shorter_report, changed_report,
         unsaid_in_a_changed_report, longer_report, links_in_the_folder, rights, copies_beside,
         odd_folders, odd_names, names_that_are_left_out, stop_file, cut_and_refused]
MOUNTING = [unmounted, mounted_anew, not_mounted, unmounted_state]
OF_ROOT = [files_of_another]


def check_all(folder: str) -> None:
    if os.getuid() != 0:
        print("not tried, since it takes root: files_of_another")
    parts = PARTS + (OF_ROOT if os.getuid() == 0 else [])
    tried_apart(parts + (MOUNTING if can_mount(MOUNTING) else []), folder)


common.run_trial(check_all, needs=["strace"])
