#!/usr/bin/env python3
"""Tries the joining of the closed reports of all parts of a storage root, by `ocfl-scrub join`.

usage: joins.py [PART]...

The state folders of the parts are made by hand: a checkpoint by its text, and a closed report.

Tried, and what comes of it:

- `ocfl-scrub join` over parts that are gone, open, copies of others or of another root, that lost
  their report or have a cut checkpoint; another list of separators: each is named, status 3, and
  nothing is joined.
- Parts that left places out, or lost lines: the joined report is called incomplete, and has the
  lines of all of them; the places are named, status 3, also once more, and the next cycle is whole.
  Before, nothing was joined while one folder could not be read.
- Cycles that all parts closed and that were not joined when they were the last: each is joined,
  the oldest first.
- A part that closed its cycle, and was killed before it said what was gone: it is named, status 3,
  and its cycle is joined once that was said.
- A joined report: how many files of it are right, in one line, once. Before, nothing was said.
- A full output, and a call that is killed before the joined report gets its name: nothing is put
  whose word was not said; the next call joins it, and says its word. Before, nobody was told of it.
- Two calls at once: one joins, and the other ends with 75; what a killed one left is replaced.
- A part that lost whole lines of its report, or whose report has other ones, than it was closed
  with: it is named, status 3, and nothing is joined.
"""
import os
import re
import shutil
import time
from typing import Any

import common
from common import check, digest, ran
from shared.messages import without_end
from shared.nights import tried_apart

SEPARATORS = ["b", "d"]
ENDS = list(zip(["start", *SEPARATORS], [*SEPARATORS, "end"]))
REPORTS = ["ok\t.\t-\nok\ta\t-\n", "ok\tb\t-\nE072\tc\t-\n", "ok\td\t-\n"]
NOTHING = "0" * 64
# The word on a joined report, and that on one that is incomplete.
WORD = "Cycle 1 ended: 0 of 0 files right, 3 objects, 0 bytes, 3 runs.\n"
INCOMPLETE = re.compile(r"(?m)^Cycle \d+ ended, but its report is incomplete: .*\nIn it: .*\n")
TEXT = """ocfl-scrub checkpoint 1
root %(root)s
declared %(declared)s
names 3 %(zeros)s
phase %(phase)s
whole yes
report %(report)s
pieces %(zeros)s
tail %(tail)s
told 0
left %(left)s
from %(from)s
below %(below)s
cycle %(cycle)d
runs 1
spent 9
files 1
%(state)s
"""


class Parts:
    """The state folders of three parts, and the file of their separators."""

    def __init__(self, folder: str) -> None:
        self.folder, self.file = folder + "/parts", folder + "/separators"
        self.cut(SEPARATORS)
        for number in (1, 2, 3):
            self.put(number)

    def cut(self, separators: list[str]) -> None:
        common.write(self.file, "".join(place + "\n" for place in separators).encode())

    def path(self, number: int, name: str = "") -> str:
        return "%s/part-%06d/%s" % (self.folder, number, name)

    def checkpoint(self, number: int, name: str, lines: bytes = b"", **said: Any) -> None:
        """A checkpoint of a part, of a report of these lines."""
        text = TEXT % {"declared": digest(b"declared"), "zeros": NOTHING, "tail": digest(lines),
                       "report": "%d %d" % (len(lines), lines.count(b"\n")), "left": "0", **said}
        seal = "sha256 %s\n" % digest(text.encode())
        common.write(self.path(number, name), (text + seal).encode())

    def put(self, number: int, of: int = 0, root: str = "/srv/ocfl", cycle: int = 1,
            state: str = "ended", whole: bool = True, left: str = "0") -> None:
        """The folder of a part, as a night leaves it that closed a cycle; or one of part `of`."""
        shutil.rmtree(self.path(number), ignore_errors=True)
        ends, lines = ENDS[(of or number) - 1], REPORTS[(of or number) - 1].encode()
        said = {"root": root, "from": ends[0], "below": ends[1]}
        self.checkpoint(number, "checkpoint", phase="open", cycle=cycle, state=state, **said)
        common.write(self.path(number, "lock"), b"")
        for closed in range(1, cycle + (state == "ended")):
            name = "reports/%s-%06d" % ("cycle" if whole else "incomplete", closed)
            common.write(self.path(number, name), lines)
            common.write(self.path(number, "reports/gone-%06d" % closed), b"")
            self.checkpoint(number, "reports/checkpoint-%06d" % closed, lines, phase="closing",
                            cycle=closed, state="ended", left=left, **said)

    def joined(self, cycle: int = 1) -> tuple[Any, Any, str]:
        """The status of a joining, the joined report or None, and what was said, without the word
        on it."""
        status, out, note = ran(["join", "--parts", self.file, "--state", self.folder])
        path = "%s/reports/cycle-%06d" % (self.folder, cycle)
        return (status, common.read(path).decode() if os.path.exists(path) else None,
                INCOMPLETE.sub("", without_end(out)) + note)

    def refused(self, name: str, said: str) -> None:
        status, report, text = self.joined()
        check(name, (status, report, said in text), (3, None, True))


def whole(folder: str) -> None:
    """The joined report has the lines of all parts in their order, and is made once."""
    parts = Parts(folder)
    check("the word on it", ran(["join", "--parts", parts.file, "--state", parts.folder]),
          (0, WORD, ""))
    before = common.snapshot(parts.folder + "/reports")
    check("once more", parts.joined(), (0, "".join(REPORTS), ""))
    check("it is made once", common.snapshot(parts.folder + "/reports"), before)
    check("nothing is left beside it", os.listdir(parts.folder + "/reports"), ["cycle-000001"])


def later_cycles(folder: str) -> None:
    """Each cycle that all parts have closed is joined, also one that was not when it was the
    last."""
    parts = Parts(folder)
    parts.put(1, cycle=3)
    parts.put(2, cycle=2)
    parts.put(3, cycle=3, state="after d")
    check("joined", parts.joined(2), (0, "".join(REPORTS), ""))
    check("the one before", parts.joined(1), (0, "".join(REPORTS), ""))
    check("no other cycle", sorted(os.listdir(parts.folder + "/reports")),
          ["cycle-000001", "cycle-000002"])
    before = os.stat(parts.folder + "/reports/cycle-000002").st_ino
    for number in (1, 2, 3):
        parts.put(number, cycle=5)
    os.remove(parts.path(2, "reports/cycle-000003"))
    os.rename(parts.folder + "/reports/cycle-000001", parts.folder + "/reports/cycle-000001.gz")
    check("not one of which a part has no report, nor one that was compressed",
          (parts.joined(5), sorted(os.listdir(parts.folder + "/reports"))),
          ((0, "".join(REPORTS), ""),
           ["cycle-000001.gz", *("cycle-%06d" % it for it in (2, 4, 5))]))
    check("those that were joined stay",
          os.stat(parts.folder + "/reports/cycle-000002").st_ino, before)


def untold(folder: str) -> None:
    """A part whose closing was not said yet is named, and its cycle is joined once it was."""
    parts = Parts(folder)
    os.remove(parts.path(2, "reports/gone-000001"))
    parts.refused("not said yet", "part 2: its closing of cycle 1 was not said yet")
    for number in (1, 3):
        parts.put(number, cycle=2)
    parts.put(2, cycle=2)
    os.remove(parts.path(2, "reports/gone-000001"))
    check("an earlier one waits, and the last does not", (parts.joined(2), parts.joined(1)[1]),
          ((0, "".join(REPORTS), ""), None))
    common.write(parts.path(2, "reports/gone-000001"), b"")
    check("it is joined then", parts.joined(1), (0, "".join(REPORTS), ""))


def word_first(folder: str) -> None:
    """The word on a joined report is said before it is there."""
    parts = Parts(folder)
    words = ["join", "--parts", parts.file, "--state", parts.folder]
    path = parts.folder + "/reports/cycle-000001"
    status, _, note = common.ran(words, ["sh", "-c", 'exec "$@" > /dev/full', "sh"])
    check("a full output", (status, "output failed" in note, os.path.exists(path)),
          (3, True, False))
    _, out, _ = common.traced(["-e", "inject=rename,renameat,renameat2:signal=KILL:when=1"], words)
    check("killed before it has its name", (out, os.path.exists(path)), (WORD, False))
    check("the next call", (ran(words), os.listdir(parts.folder + "/reports")),
          ((0, WORD, ""), ["cycle-000001"]))


def at_once(folder: str) -> None:
    """Of two calls at once one joins, and the other does nothing."""
    parts = Parts(folder)
    words = ["join", "--parts", parts.file, "--state", parts.folder]
    rules = ["--quiet=all", "-o", "/dev/null", "-e", "inject=fsync:delay_enter=1500000"]
    first = common.start(words, ["strace", *rules])
    beside = parts.folder + "/reports/cycle-000001.new"
    for _ in range(1000):
        if os.path.exists(beside):
            break
        time.sleep(0.01)
    status, report, text = parts.joined()
    check("the other", (status, report, "nothing was joined" in text), (75, None, True))
    check("the first", (common.end(first), parts.joined()),
          ((0, WORD, ""), (0, "".join(REPORTS), "")))
    common.write(beside, b"left by a call that was killed\n")
    os.remove(parts.folder + "/reports/cycle-000001")
    check("what a killed call left", parts.joined(), (0, "".join(REPORTS), ""))
    check("nothing is left of it", os.listdir(parts.folder + "/reports"), ["cycle-000001"])


def refused(folder: str) -> None:
    """Each part that cannot be joined is named, and then nothing is joined."""
    parts = Parts(folder)
    shutil.rmtree(parts.path(2))
    parts.refused("a part that is gone", "part 2: ")
    parts.put(2, state="after b")
    parts.refused("an open part", "part 2: ")
    parts.put(2, of=3)
    parts.refused("a copy of another part", "part 2: ")
    parts.put(2, root="/srv/other")
    parts.refused("a part of another root", "part 2: ")
    parts.put(2)
    os.remove(parts.path(2, "reports/cycle-000001"))
    parts.refused("a report that is gone", "part 2: ")
    parts.put(2)
    common.write(parts.path(2, "checkpoint"), common.read(parts.path(3, "checkpoint"))[:-2])
    parts.refused("a checkpoint that was cut", "part-000002")
    parts.put(2)
    for separators in (["b"], ["b", "c"], ["b", "d", "e"]):
        parts.cut(separators)
        parts.refused("another list: %s" % separators, "part ")
    parts.cut(SEPARATORS)
    check("as it was", parts.joined(), (0, "".join(REPORTS), ""))


def incomplete(folder: str) -> None:
    """Parts that are not whole are joined too, and what they left out is named."""
    parts = Parts(folder)
    parts.put(2, whole=False, left="2\nleft c/x\nafter b\nleft c/y%0A\nafter b")
    parts.put(3, whole=False)
    for name in ("joined", "once more"):
        status, report, text = parts.joined()
        check(name, (status, report, os.listdir(parts.folder + "/reports")),
              (3, None, ["incomplete-000001"]))
        check("its lines, " + name, common.read(
            parts.folder + "/reports/incomplete-000001").decode(), "".join(REPORTS))
        check("what is named, " + name, text.splitlines(), [
            "ocfl-scrub: part 2: its report is not whole: left out: c/x",
            "ocfl-scrub: part 2: its report is not whole: left out: c/y%0A",
            "ocfl-scrub: part 3: its report is not whole",
            "ocfl-scrub: the joined report of cycle 1 lacks what these parts left out: "
            + parts.folder + "/reports/incomplete-000001"])
    parts.put(1, cycle=2)
    for number in (2, 3):
        parts.put(number, cycle=2)
    check("the next one is whole", parts.joined(2), (0, "".join(REPORTS), ""))
    check("both are there", sorted(os.listdir(parts.folder + "/reports")),
          ["cycle-000002", "incomplete-000001"])
    other = parts.folder + "/reports/cycle-000002"
    os.rename(other, parts.folder + "/reports/incomplete-000002")
    status, report, text = parts.joined(2)
    check("one that is called incomplete and is whole", (status, "is not the joined report" in text),
          (3, True))


def lost_lines(folder: str) -> None:
    """A report that lost whole lines, or has others in their place; and one of which the checkpoint
    that closed it is not there."""
    parts = Parts(folder)
    for name, lines in [("lost lines", b"ok\tb\t-\n"),
                        ("other lines", REPORTS[1].replace("E072", "E092").encode())]:
        common.write(parts.path(2, "reports/cycle-000001"), lines)
        parts.refused(name, "part 2: ")
    parts.put(2)
    common.write(parts.path(2, "reports/checkpoint-000001"), b"")
    parts.refused("no checkpoint", "part 2: ")
    os.remove(parts.path(2, "reports/checkpoint-000001"))
    check("one that was not kept", parts.joined(), (0, "".join(REPORTS), ""))


PARTS = [whole, later_cycles, untold, word_first, at_once, refused, incomplete, lost_lines]


def check_all(folder: str) -> None:
    tried_apart(PARTS, folder)


common.run_trial(check_all, needs=["strace"])
