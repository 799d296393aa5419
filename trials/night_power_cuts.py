#!/usr/bin/env python3
"""Takes the power from the program's own nights, after each call that changes their folder.

usage: night_power_cuts.py [SEED]

The calls of nights are recorded by strace. From them each folder is rebuilt that a power cut may
leave: what was not synced is there, lost, cut short or zeros, and names are as before or after. On
each of them nights are made until the cycle is closed: its report is the audit, byte for byte, and
each finding was said, before the cut or after it.

Tried, and what comes of it:

- A power cut after each call of three nights that changed their folder, and of nights after a
  killed one: what was not synced is there, lost, cut short or zeros, names are as before or
  after: the nights that follow close a report that is the audit, byte for byte, and each finding
  was said.

Seen to fail on these faults, each planted alone:

- No folder is synced.
"""
import random
import sys
from typing import Iterator

import common
from common import check, traced
from shared import power
from shared.own_nights import SLICE, Audited, Moment, Nights, at_once, make_root, moments_of
from shared.power import Machine, Tree

DICE = random.Random(int(sys.argv[1]) if len(sys.argv) > 1 else 20)
PLAN = ["--create", "--slice", SLICE]
# How many folders are tried at most of all that the nights after a kill may leave.
MOST_AFTER_KILLS = 500
LOG = "log"


def key_of(tree: Tree) -> tuple:
    """What nights rest on: all but the log."""
    return tuple(sorted((path, data or b"", data is None) for path, data in tree.items()
                        if path != LOG))


class Cuts:
    """Folders that power cuts leave, each once, with what was said before the cut."""

    def __init__(self, audited: Audited, nights: Nights, log: str) -> None:
        self.audited, self.nights, self.log = audited, nights, log
        self.seen: set[tuple] = set()

    def record(self, machine: Machine, rules: list[str], *more: str) -> list[power.Call]:
        """Makes a night, whose record is the calls that a machine has to make next."""
        traced([*power.RULES, *rules], self.nights.words(*more), self.log)
        machine.begin()
        return list(power.calls_of(common.read(self.log).decode()))

    def after(self, machine: Machine, calls: list[power.Call]) -> Iterator[tuple[Tree, str]]:
        """What a power cut leaves after each of these calls that was not seen before."""
        for call in calls:
            if not machine.made(call):
                continue
            for image in machine.images({LOG}):
                if key_of(image) in self.seen:
                    continue
                self.seen.add(key_of(image))
                yield with_a_torn_log(machine, image), common.text_of(machine.said)

    def tried(self, cuts: list[tuple[str, Tree, str]]) -> None:
        """Makes nights on what each of these cuts left, after what was said."""
        def take_up(number: int, cut: tuple[str, Tree, str]) -> list[str]:
            own = self.nights.beside(number)
            power.build(cut[1], own.state)
            faults = self.audited.faults_after(own, cut[2])
            own.again()
            return faults

        for (name, image, _), faults in zip(cuts, at_once(take_up, cuts)):
            check("%s: %s" % (name, sizes_of(image)), faults, [])


def with_a_torn_log(machine: Machine, image: Tree) -> Tree:
    """The folder with one of the logs that a power cut may leave."""
    file = machine.names().get(LOG)
    if LOG not in image or file is None:
        return image
    logs = [image[LOG] or b"", *sorted(power.torn_or_zeros(file))]
    return {**image, LOG: DICE.choice(logs)}


def sizes_of(tree: Tree) -> str:
    return ", ".join("%s %s" % (path, "/" if data is None else len(data))
                     for path, data in tree.items()) or "nothing"


def is_rebuilt(name: str, machine: Machine, nights: Nights) -> None:
    """What the calls of a record made is what is there."""
    check(name, machine.shown(), power.read_tree(nights.state))


def whole_nights(cuts: Cuts) -> None:
    """A cycle in two nights and the first night of the next one, from no folder on."""
    machine = Machine(cuts.nights.state, {})
    plans = [("first", ["--files", "3"]), ("second", []), ("third", ["--files", "2"])]
    records = []
    for name, more in plans:
        calls = cuts.record(machine, [], *PLAN, *more)
        for call in calls:
            machine.made(call)
        is_rebuilt("what the %s night left" % name, machine, cuts.nights)
        records.append(calls)
    machine, found = Machine(cuts.nights.state, {}), []
    for calls in records:
        machine.begin()
        found += list(cuts.after(machine, calls))
    print("night_power_cuts.py: %d folders after power cuts of whole nights" % len(found))
    check("so many folders", len(found) > 100, True)
    cuts.tried([("power cut %d of whole nights" % count, image, said)
                for count, (image, said) in enumerate(found, 1)])


def changes_of(cuts: Cuts) -> list[Moment]:
    """The calls of a first night that change its folder: a kill before any other leaves nothing
    else."""
    cuts.nights.again()
    traced(["-y"], cuts.nights.words(*PLAN), cuts.log)
    changing = ("write", "pwrite64", "writev", "fsync", "fdatasync", "ftruncate", "rename",
                "renameat", "renameat2", "mkdir", "mkdirat", "unlink", "unlinkat")
    record = common.read(cuts.log).decode(errors="replace")
    return [moment for moment in moments_of(record, cuts.nights) if moment.call in changing]


def after_a_kill(cuts: Cuts, moment: Moment) -> list[tuple[Tree, str]]:
    """What power cuts leave of a night that takes up what a killed one left, of which nothing more
    came to the disk meanwhile."""
    cuts.nights.again()
    machine = Machine(cuts.nights.state, {})
    for call in cuts.record(machine, moment.rule("signal=KILL"), *PLAN):
        machine.made(call)
    name = "after a kill at %s %d" % moment
    is_rebuilt(name, machine, cuts.nights)
    calls = cuts.record(machine, [], *PLAN)
    return list(cuts.after(machine, calls))


def nights_after_kills(cuts: Cuts) -> None:
    found = [(moment, image, said) for moment in changes_of(cuts)
             for image, said in after_a_kill(cuts, moment)]
    count = len(found)
    if count > MOST_AFTER_KILLS:
        found = DICE.sample(found, MOST_AFTER_KILLS)
    cuts.tried([("power cut after a kill at %s %d" % moment, image, said)
                for moment, image, said in found])
    print("night_power_cuts.py: %d of %d more folders after power cuts of nights after a kill"
          % (len(found), count))


def check_all(folder: str) -> None:
    audited = Audited(make_root(folder + "/root"))
    check("findings of the root", len(audited.findings), 5)
    cuts = Cuts(audited, Nights(folder + "/state", audited.root), folder + "/record")
    whole_nights(cuts)
    nights_after_kills(cuts)


common.run_trial(check_all, needs=["strace"])
