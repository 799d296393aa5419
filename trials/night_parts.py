#!/usr/bin/env python3
"""Tries the program's own nights over parts of a storage root: which part a state folder belongs
to, and the joining of the parts' closed reports.

usage: night_parts.py [PART]...

Tried, and what comes of it:

- The folder of parts as a state folder, with `--create`: status 3, nothing is made.
- Parts of several lists, killed nights of parts: their reports, one after the other, are the
  audit.
- Parts that are missing, open, changed, of another root or another list, given to `join`; one
  whose night runs: nothing is joined, status 3; status 75.
- A joining killed at each call that touches its folder, and each of these made to fail with EIO
  and ENOSPC: there is no joined report, or the whole one; the next joining makes it, and leaves
  nothing beside it.
- Copies and further folders beside those of the parts; a link in place of the report that a
  joining makes; joinings under the masks 000 and 077: the joined report is the audit; the link is
  not followed; nothing is open to others.
- A link in place of the folder of the joined reports: status 3, nothing is written outside.
- Another file in place of the joined report: status 3; it stays.

Seen to fail on these faults, each planted alone:

- A report is not cut.
- A file is copied over the other, not renamed.
- The root is not looked at again after a run.
- Links are followed; modes are wide; the file `stop` is not looked for.
- No lock is taken; a lock that is not given is that of another night.
- A folder of another root or part, a damaged checkpoint, a folder of scripts or reports without a
  checkpoint are removed, and begun anew.
- Status 3 is 0; status 2 is 0; nothing is said on standard error.
- All is said twice; by `echo` of a shell; with `%0A` and `%1B` decoded.
- A joining takes all folders and whatever they have.
- A part's report loses its first line; names of the top folder are kept for each part.
"""
import os
import shutil
import signal
from typing import Any

import common
from common import Stopped, check, ran, traced
from shared.messages import without_end
from shared.nights import tried_apart
from shared.own_nights import SLICE, Audited, Exchanged, Got, Nights, at_once, make_root, moments_of
from shared.spaces import can_mount

SEPARATORS = ["a/v1/content/2", "b", "d", "d/v1/content/1"]


class Parts:
    """State folders of all parts of a storage root, in one folder."""

    def __init__(self, folder: str, root: str, separators: list[str]) -> None:
        self.folder, self.root, self.count = folder + "/parts", root, len(separators) + 1
        self.file = folder + "/separators"
        os.makedirs(self.folder)
        self.cut(separators)

    def cut(self, separators: list[str]) -> None:
        common.write(self.file, "".join(it + "\n" for it in separators).encode())

    def state(self, number: int) -> Nights:
        return Nights("%s/part-%06d" % (self.folder, number), self.root)

    def words(self, number: int, *more: str, part: int = 0) -> list[str]:
        return self.state(number).words("--create", "--parts", self.file, "--part",
                                        str(part or number), *more)

    def night(self, number: int, *more: str, part: int = 0, **how: Any) -> Got:
        """A night of a part in its folder, or of another part in it."""
        return ran(self.words(number, *more, part=part), **how)

    def all_nights(self) -> str:
        """A night of each part, to its end; what they said."""
        said = ""
        for number in range(1, self.count + 1):
            status, out, note = self.night(number, "--slice", SLICE)
            check("a night of part %d" % number, (status in (0, 1), note), (True, ""))
            said += out
        return said

    def joined(self) -> Got:
        """What a joining comes to, without the word on a whole report."""
        status, out, note = ran(["join", "--parts", self.file, "--state", self.folder])
        return status, without_end(out), note

    def report(self, cycle: int = 1) -> Any:
        return Nights(self.folder, self.root).whole(cycle)


def made(folder: str, separators: list[str]) -> tuple[Audited, Parts]:
    audited = Audited(make_root(folder + "/root"))
    return audited, Parts(folder, audited.root, separators)


def each_part(folder: str) -> None:
    """The closed reports of all parts, one after the other, are the audit."""
    for number, separators in enumerate([SEPARATORS, [], ["!", "~"], ["a", "a/v1", "zz"]]):
        audited, parts = made("%s/%d" % (folder, number), separators)
        said = parts.all_nights()
        reports = [parts.state(it).whole(1) or "" for it in range(1, parts.count + 1)]
        check("%s: the reports" % separators, "".join(reports), audited.report)
        check("%s: what was said" % separators, audited.not_said(said), [])


def whose(folder: str) -> None:
    """The folder of a part is refused for another part, for the whole, and where the separators
    give its number other ends; so is one of the whole for a part."""
    audited, parts = made(folder, SEPARATORS)
    parts.night(3, "--slice", SLICE, "--files", "1")
    nights = parts.state(3)
    kept = nights.kept()
    got = {"another part": parts.night(3, part=2), "the next part": parts.night(3, part=4),
           "the whole": nights.night(), "the whole, with --create": nights.first()}
    parts.cut(["a", *SEPARATORS])
    got["the same number of other parts"] = parts.night(3)
    parts.cut(SEPARATORS[:2] + ["c"])
    got["the same beginning, another end"] = parts.night(3)
    for name, (status, out, note) in got.items():
        check(name, (status, nights.state in out + note, nights.kept()), (3, True, kept))
    parts.cut(SEPARATORS)
    whole = parts.state(9)
    whole.first("--slice", SLICE, "--files", "1")
    kept = whole.kept()
    check("a part where the whole was", (parts.night(9, part=3)[0], whole.kept()), (3, kept))
    said = parts.all_nights()
    reports = [parts.state(it).whole(1) or "" for it in range(1, parts.count + 1)]
    check("then", ("".join(reports), audited.not_said(said) != audited.findings),
          (audited.report, True))


def words(folder: str) -> None:
    """Numbers that no part has, and words that do not go together."""
    audited, parts = made(folder, SEPARATORS)
    state = ["--state", parts.folder + "/x", "--create"]
    rows = [["--parts", parts.file, "--part", "0"], ["--parts", parts.file, "--part", "6"],
            ["--parts", parts.file], ["--part", "1"],
            ["--parts", folder + "/none", "--part", "1"]]
    for row in rows:
        status, out, note = ran(["night", *state, *row, audited.root])
        check("usage: %s" % row[1:], (status in (2, 3), out, note != ""), (True, "", True))
    common.write(parts.file, b"b\na\n")
    status, out, note = ran(["night", *state, "--parts", parts.file, "--part", "1", audited.root])
    check("separators that do not ascend", (status in (2, 3), out), (True, ""))
    check("no part was begun", Nights(parts.folder + "/x", "").kept(),
          {"checkpoint": None, "report": None})


def killed(folder: str) -> None:
    """Nights of a part that are killed lose and repeat no line."""
    audited, parts = made(folder, SEPARATORS)
    said = ""
    for number in range(1, parts.count + 1):
        for when in range(1, 40, 3):
            nights = parts.state(number)
            words = nights.words("--create", "--slice", "4", "--parts", parts.file, "--part",
                                 str(number))
            rule = ["-e", "inject=fsync:signal=KILL:when=%d" % when]
            status, out, _ = traced(rule, words)
            said += out
            if status != -signal.SIGKILL or nights.closed():
                break
        if not parts.state(number).closed():
            said += parts.night(number, "--slice", "4")[1]
    reports = [parts.state(it).whole(1) or "" for it in range(1, parts.count + 1)]
    check("the reports", "".join(reports), audited.report)
    check("what was said", audited.not_said(said), [])


def wide_root(folder: str) -> None:
    """The folders of parts do not have the names of the root's top folder each."""
    root = common.make_root(folder + "/root", {"o%04d" % number: {"v1/content/a": b"abc"}
                                               for number in range(1200)})
    parts = Parts(folder, root, ["o0300", "o0600", "o0900"])
    for number in range(1, parts.count + 1):
        check("a night", parts.night(number, "--files", "5")[0], 0)
        size = sum(len(common.read(os.path.join(where, name)))
                   for where, _, names in os.walk(parts.state(number).state) for name in names)
        check("part %d is small" % number, size < 4000, True)


def a_part_with_a_branch_left_out(folder: str) -> None:
    """A folder that cannot be listed is left out of its part alone. The joined report is called
    incomplete, and it is named; the next one is whole."""
    for number, name in enumerate(["b\\cx", "b\\nx", "-", "n\nl"]):
        where = "%s/%d" % (folder, number)
        root = common.make_root(where + "/root", {place: {"v1/content/a": b"abc"}
                                                  for place in ["!a", name, "~z"]})
        bad = os.fsencode("%s/%s/" % (root, name)) + b"\xff"
        common.write(os.fsdecode(bad), b"")
        parts = Parts(where, root, ["~"])
        status, _, note = parts.night(1, "--slice", SLICE)
        check("a night, " + name, (
            status, "left out: %s: " % name.replace("\n", "%0A") in note), (3, True))
        check("the other part, beside " + name, (parts.night(2)[0], parts.state(2).whole(1)),
              (0, "ok\t~z\t-\nok\t~z/v1/content/a\t3\n"))
        status, out, note = parts.joined()
        check("it is joined as incomplete, " + name, (
            status, sorted(os.listdir(parts.folder + "/reports")),
            "left out: %s\n" % name.replace("\n", "%0A") in out + note),
            (3, ["incomplete-000001"], True))
        os.remove(bad)
        for number in (1, 2):
            parts.night(number)
        report = "".join(parts.state(it).whole(2) or "" for it in (1, 2))
        check("then, " + name, report, ran(["audit", root])[1])
        check("and joined, " + name, parts.joined()[0], 0)


def unmounted(folder: str) -> None:
    """The root is unmounted in the night of a part."""
    common.write(folder + "/separators", b"b\n")
    case = Exchanged(folder, "--parts", folder + "/separators", "--part", "2")
    for when in range(4, case.last_look() + 1, 3):
        case.tried("unmounted after fsync %d" % when, [], "fsync", when)


def joins(folder: str) -> None:
    """The joined report is the audit, and is made once."""
    for number, separators in enumerate([SEPARATORS, [], ["!", "~"]]):
        audited, parts = made("%s/%d" % (folder, number), separators)
        parts.all_nights()
        status, out, note = parts.joined()
        check("joined %d" % number, (status, parts.report()), (0, audited.report))
        before = common.snapshot(parts.folder + "/reports")
        parts.joined()
        check("once more", common.snapshot(parts.folder + "/reports"), before)
        parts.all_nights()
        parts.joined()
        check("the next cycle", (parts.report(1), parts.report(2)),
              (audited.report, audited.report))


def is_not_joined(name: str, parts: Parts, said: str) -> None:
    status, out, note = parts.joined()
    check(name, (status, said in out + note, parts.report()), (3, True, None))
    shutil.rmtree(parts.folder + "/reports", ignore_errors=True)


def no_joins(folder: str) -> None:
    """Parts that are missing, open, of another root or list, or were changed, are not joined."""
    audited, parts = made(folder, SEPARATORS)
    is_not_joined("no part", parts, "")
    parts.all_nights()
    third = parts.state(3)
    report = common.read(third.path("reports/cycle-000001"))
    shutil.copytree(third.state, folder + "/kept")

    def put_back() -> None:
        third.again()
        shutil.copytree(folder + "/kept", third.state)

    third.again()
    is_not_joined("a part is gone", parts, "part 3")
    parts.night(3, "--files", "1", "--slice", "1")
    is_not_joined("a part is open", parts, "part 3")
    third.again()
    shutil.copytree(parts.state(2).state, third.state)
    is_not_joined("a copy of another part", parts, "part 3")
    put_back()
    for change in [report + b"ok\tzz\t-\n", report[:-2], report.replace(b"ok", b"kk", 1), b""]:
        common.write(third.path("reports/cycle-000001"), change)
        is_not_joined("a changed report", parts, "part 3")
    os.remove(third.path("reports/cycle-000001"))
    is_not_joined("no report", parts, "part 3")
    put_back()
    other = Parts(folder + "/other", make_root(folder + "/other-root"), SEPARATORS)
    other.all_nights()
    third.again()
    shutil.copytree(other.state(3).state, third.state)
    is_not_joined("a part of another root", parts, "part 3")
    put_back()
    parts.cut(SEPARATORS[:-1])
    is_not_joined("another list", parts, "")
    parts.cut(SEPARATORS)
    check("as it was", (parts.joined()[0], parts.report()), (0, audited.report))


def other_folders(folder: str) -> None:
    """The folder of a whole root's nights is no part, and that of nights holds no parts; that of
    parts is none of nights."""
    audited, parts = made(folder, SEPARATORS)
    parts.all_nights()
    whole = Nights(folder + "/whole", audited.root)
    whole.first()
    before = common.snapshot(whole.state)
    status, out, note = ran(["join", "--parts", parts.file, "--state", whole.state])
    check("a folder of nights", (status, "part 1" in note, common.snapshot(whole.state)),
          (3, True, before))
    shutil.copytree(parts.state(3).state, folder + "/kept")
    parts.state(3).again(whole.state)
    is_not_joined("the folder of the whole", parts, "part 3")
    parts.state(3).again(folder + "/kept")
    above = Nights(parts.folder, audited.root)
    before = common.snapshot(parts.folder)
    got = above.night()
    check("a folder of parts", (got[0], common.snapshot(parts.folder)), (3, before))
    got = above.first()
    check("a folder of parts, with --create",
                  (got[0], common.snapshot(parts.folder) == before), (3, True))


def no_other_report(folder: str) -> None:
    """A file that is there already is called the joined report only where it is."""
    audited, parts = made(folder, SEPARATORS)
    parts.all_nights()
    for name, data in [("no report", b"junk\n"), ("half of it", audited.report[:200].encode()),
                       ("of another root", b"ok\t.\t-\n")]:
        common.write(parts.folder + "/reports/cycle-000001", data)
        check(name, parts.joined()[0], 3)
    os.remove(parts.folder + "/reports/cycle-000001")
    check("none", (parts.joined()[0], parts.report()), (0, audited.report))


def joined_after(audited: Audited, parts: Parts, number: int, rule: list[str]) -> tuple:
    """A joining that is disturbed, over folders of its own, and one that is not: whether both end
    well, and leave the joined report or none."""
    own = Nights("%s-%d" % (parts.folder, number), audited.root)
    own.again(parts.folder)
    words = ["join", "--parts", parts.file, "--state", own.state]
    status, _, note = common.traced(rule, words)
    is_well = status in (0, -signal.SIGKILL) or status == 3 and note != ""
    is_made = own.whole(1) in (None, audited.report)
    status, out, note = ran(words)
    found = is_well, is_made, (status, without_end(out), note), own.whole(1), own.reports()
    own.again()
    return found


def join_at_each_call(folder: str) -> None:
    """A joining that is killed, or of which a call fails, leaves the joined report, or none."""
    audited, parts = made(folder, ["b"])
    parts.all_nights()
    above = Nights(folder + "/first", audited.root)
    above.again(parts.folder)
    words = ["join", "--parts", parts.file, "--state", above.state]
    common.traced(["-y"], words, folder + "/log")
    moments = list(moments_of(common.read(folder + "/log").decode(errors="replace"), above))
    # strace closes no file where it makes that fail.
    rules = [(it, what) for it in moments for what in ("signal=KILL", "error=EIO", "error=ENOSPC")
             if what == "signal=KILL" or it.call != "close"]

    def disturb(number: int, rule: tuple) -> tuple:
        return joined_after(audited, parts, number, rule[0].rule(rule[1]))

    for (moment, what), found in zip(rules, at_once(disturb, rules)):
        check("%s of %s %d" % (what, *moment), found,
              (True, True, (0, "", ""), audited.report, ["cycle-000001"]))
    print("night_parts.py: %d calls of a joining" % len(moments))
    check("so many calls", len(moments) > 20, True)


def join_beside_others(folder: str) -> None:
    """Copies beside the folders of parts, more of them than there are parts, a night of a part, and
    links in place of what a joining makes."""
    audited, parts = made(folder, SEPARATORS)
    parts.all_nights()
    for copy in ["part-000001.bak", "part-000009", "part-1"]:
        shutil.copytree(parts.state(1).state, "%s/%s" % (parts.folder, copy))
    reports = parts.folder + "/reports"
    stopped = Stopped([], "fsync", parts.words(3), 4)
    with stopped:
        status, out, note = parts.joined()
        check("a night of a part runs", (status, parts.state(3).state in note, parts.report()),
              (75, True, None))
    common.write(folder + "/secret", b"secret")
    os.makedirs(reports)
    os.symlink(folder + "/secret", reports + "/cycle-000001.new")
    check("joined", (parts.joined(), parts.report()), ((0, "", ""), audited.report))
    check("what the link led to", common.read(folder + "/secret"), b"secret")
    check("the copies", sorted(os.listdir(parts.folder))[-3:],
          ["part-000009", "part-1", "reports"])
    shutil.rmtree(reports)
    os.mkdir(folder + "/outside")
    os.symlink(folder + "/outside", reports)
    status = parts.joined()[0]
    check("a link in place of the reports", (status, os.listdir(folder + "/outside")),
                  (3, []))


def join_under_masks(folder: str) -> None:
    """What a joining makes is for its owner and his group, whatever the mask."""
    audited, parts = made(folder, ["b"])
    parts.all_nights()
    for mask in (0o000, 0o077):
        before = os.umask(mask)
        try:
            parts.joined()
        finally:
            os.umask(before)
        made_there = [parts.folder + "/reports", parts.folder + "/reports/cycle-000001"]
        check("under the mask %03o" % mask, [os.stat(it).st_mode & 0o027 for it in made_there],
              [0, 0])
        shutil.rmtree(parts.folder + "/reports")


PARTS = [each_part, whose, words, killed, wide_root, a_part_with_a_branch_left_out]
JOINING = [joins, no_joins, other_folders, no_other_report, join_at_each_call, join_beside_others,
           join_under_masks]


def check_all(folder: str) -> None:
    mounting = [unmounted] if can_mount([unmounted]) else []
    tried_apart(PARTS + JOINING + mounting, folder)


common.run_trial(check_all, needs=["strace"])
