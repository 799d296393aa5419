"""What the trials of the program's own nights share: a storage root with findings, nights over it,
and what has to hold after nights that were killed, failed or lost what was not on the disk."""
import os
import re
import shutil
from multiprocessing.pool import ThreadPool
from typing import Any, Callable, Iterable, Iterator, NamedTuple, Optional, TypeVar

import common
from common import Stopped, check, ran
from shared import calls
from shared.calls import Call
from shared.messages import findings_in, key, without_end
from shared.spaces import folder_at, mount, unmount

# Each file costs its bytes and one; an object is a place and its files.
SIZES = {"a": [3, 0, 11, 7], "b/c": [5, 17, 2], "d": [0, 9, 4, 13], "e": [1]}
# The budget of a slice with which a cycle over these takes five slices.
SLICE = "14"
Got = tuple[Any, str, str]
Item = TypeVar("Item")
Found = TypeVar("Found")


def make_root(root: str) -> str:
    """A storage root of four objects with five findings, among them the first line but that of the
    root, and the last one."""
    objects = {place: {"v1/content/%d" % number: bytes([65 + number]) * size
                       for number, size in enumerate(sizes)} for place, sizes in SIZES.items()}
    common.make_root(root, objects)
    common.write(root + "/a/v1/content/2", b"damaged....")
    common.write(root + "/a/v1/content/3 more", b"nobody lists it")
    os.remove(root + "/b/c/v1/content/1")
    common.write(root + "/e/v1/content/0", b"d")
    os.mkdir(root + "/0 empty")
    return root


def is_finding(line: str) -> bool:
    return line.split("\t")[0] not in ("ok", "S07")


class Nights:
    """A state folder, and the program's nights over a storage root in it, or over the part of it
    that some words choose."""

    def __init__(self, state: str, root: str, *part: str) -> None:
        self.state, self.root, self.part = state, root, part

    def words(self, *more: str) -> list[str]:
        return ["night", "--state", self.state, *self.part, *more, self.root]

    def night(self, *more: str, **how: Any) -> Got:
        """A night, and what it says, without the word at the end of a cycle in which nothing is
        new or gone."""
        status, out, note = ran(self.words(*more), **how)
        return status, without_end(out), note

    def first(self, *more: str, **how: Any) -> Got:
        """A night that may be the first one in its folder."""
        return self.night("--create", *more, **how)

    def path(self, name: str) -> str:
        return os.path.join(self.state, name)

    def has(self, name: str) -> Optional[str]:
        """A file's text, or None where it is not there."""
        path = self.path(name)
        return common.text_of(common.read(path)) if os.path.lexists(path) else None

    def whole(self, cycle: int) -> Optional[str]:
        """The report of a cycle that is called whole."""
        return self.has("reports/cycle-%06d" % cycle)

    def reports(self) -> list[str]:
        where = self.path("reports")
        return sorted(os.listdir(where)) if os.path.isdir(where) else []

    def closed(self) -> list[str]:
        """The names of the closed reports."""
        return [name for name in self.reports() if name.startswith(("cycle-", "incomplete-"))]

    def kept(self) -> dict[str, Optional[str]]:
        """What nights rest on: the checkpoint, the report, and the closed reports."""
        names = ["checkpoint", "report", *("reports/" + name for name in self.reports())]
        return {name: self.has(name) for name in names}

    def shown(self) -> Any:
        """What the program shows of the checkpoint, or its status and note where it shows none."""
        return common.shown_cursor(self.path("checkpoint"))

    def again(self, kept: str = "") -> None:
        """Removes the folder, and puts a copy of another one in its place, if that is there."""
        shutil.rmtree(self.state, ignore_errors=True)
        if os.path.exists(kept):
            shutil.copytree(kept, self.state)

    def beside(self, number: int) -> "Nights":
        """Nights over the same root in a folder of their own."""
        return Nights("%s-%d" % (self.state, number), self.root, *self.part)


def at_once(work: Callable[[int, Item], Found], items: Iterable[Item]) -> list[Found]:
    """What some work gives for each of some items and its number, several of them at once."""
    with ThreadPool(os.cpu_count() or 1) as pool:
        return pool.starmap(work, enumerate(items), chunksize=1)


class Audited:
    """A storage root, or a part of it, that stays as it is, what its audit writes, and its
    findings."""

    def __init__(self, root: str, *part: str) -> None:
        self.root = root
        self.report = ran(["audit", *part, root])[1]
        self.findings = [line for line in self.report.splitlines(True) if is_finding(line)]

    def not_said(self, said: str) -> list[str]:
        """The findings that no night said."""
        shown = findings_in(said)
        return [line for line in self.findings if key(line) not in shown]

    def false_lines(self, said: str) -> list[str]:
        """What was said and is no finding."""
        keys = [key(line) for line in self.findings]
        return [it for it in findings_in(said) if it not in keys]

    def times_said(self, said: str) -> list[int]:
        """How often each finding was said."""
        shown = findings_in(said)
        return [shown.count(key(line)) for line in self.findings]

    def faults_of(self, nights: Nights) -> Iterator[str]:
        """What of the closed reports is not the audit, what is called gone, and what else lies
        there."""
        for name in nights.reports():
            form, right = name.partition("-")[0], nights.has("reports/" + name)
            if form == "checkpoint" or name.endswith(".new") and form == "gone":
                continue
            if form not in ("cycle", "gone"):
                yield "there is " + name
            elif right != (self.report if form == "cycle" else ""):
                yield name + " is not right"
        there = os.listdir(nights.state) if os.path.isdir(nights.state) else []
        yield from ("there is " + name for name in there if name not in KEPT)

    def faults_after(self, nights: Nights, said: str, most: int = 4) -> list[str]:
        """What does not hold once nights that nothing disturbs have closed the first cycle: each
        night ends well, the report is the audit, and each finding was said."""
        faults = []
        for _ in range(most):
            status, out, note = nights.first()
            said += out
            if status not in (0, 1):
                faults.append("status %s: %s%s" % (status, out, note))
            if nights.whole(1) is not None:
                break
        else:
            faults.append("the first cycle is not closed")
        faults += self.faults_of(nights)
        return faults + ["unsaid: " + line for line in self.not_said(said)]


class Exchanged:
    """A night that is stopped at a moment, the root then unmounted or another one mounted in its
    place; and the nights after it, with the root as it was."""

    def __init__(self, folder: str, *part: str) -> None:
        self.folder, self.disk = folder, make_root(folder + "/disk")
        os.mkdir(folder + "/root")
        self.nights = Nights(folder + "/state", folder + "/root", *part)
        self.words = ["--create", "--slice", SLICE]

    def last_look(self) -> int:
        """After how many calls of fsync a night looks at its root for the last time."""
        with folder_at(self.nights.root, self.disk):
            common.traced(["-e", "trace=fsync,openat"], self.nights.words(*self.words),
                          self.folder + "/log")
        text = common.read(self.folder + "/log").decode(errors="replace")
        return text[:text.rindex('"0=ocfl_1.1"')].count("\nfsync(")

    def call_on(self, place: str, name: str) -> Call:
        """The first call of this name on a place of the root."""
        self.nights.again()
        with folder_at(self.nights.root, self.disk):
            made = calls.made(self.nights.words(*self.words), self.folder + "/log")
        return calls.on("%s/%s" % (self.nights.root, place), made, [name])[0]

    def tried(self, name: str, rules: list[str], call: str, when: int, other: str = "") -> None:
        self.nights.again()
        with folder_at(self.nights.root, self.disk):
            audited = Audited(self.nights.root, *self.nights.part)
            stopped = Stopped(rules, call, self.nights.words(*self.words), when)
            with stopped:
                unmount(self.nights.root)
                if other:
                    mount("--bind", other, self.nights.root)
            if other:
                unmount(self.nights.root)
        status, out, note = stopped.ended
        check(name, (status, self.nights.root in out + note), (3, True))
        check(name + ": nothing is closed, nothing is said that is not so",
              (self.nights.closed(), audited.false_lines(out)), ([], []))
        with folder_at(self.nights.root, self.disk):
            check(name + ": then", audited.faults_after(self.nights, out), [])


# What lies in a state folder; beside a checkpoint what a killed night wrote of the next one.
KEPT = {"checkpoint", "checkpoint.new", "report", "reports", "lock", "log"}


class Moment(NamedTuple):
    """A call of the system, and the how manieth of its name it is."""
    call: str
    count: int

    def rule(self, what: str) -> list[str]:
        return ["-e", "inject=%s:%s:when=%d" % (self.call, what, self.count)]


def moments_of(record: str, nights: Nights) -> Iterator[Moment]:
    """The calls of a record by `strace -y` that touch the state folder or standard output."""
    counts: dict[str, int] = {}
    for line in record.splitlines():
        match = re.match(r"(\w+)\(", line)
        if match is None or match[1] == "execve":
            continue
        counts[match[1]] = counts.get(match[1], 0) + 1
        if nights.state in line or re.match(r"writev?\(1<", line):
            yield Moment(match[1], counts[match[1]])


def recorded(nights: Nights, log: str, *more: str) -> list[Moment]:
    """Makes a night, and gives the moments at which it touches the state folder."""
    common.traced(["-y"], nights.words(*more), log)
    return list(moments_of(common.read(log).decode(errors="replace"), nights))
