"""Tries edits over kept work: each crate is proved once, and its edits are then checked over links
to what that proof kept, so that what they do not change is not checked again.

In the gate that proof is the one that `rt ci` makes, and the edits of a crate wait for it in the
queue of `rt ci`. Elsewhere it is one over what earlier checks kept. Where those kept nothing of a
crate, its largest round of edits comes before that proof: what the round does not change is proved
and kept by it, and the proof adds the rest."""
import collections
import functools
import json
import os
import subprocess
import sys
import tempfile
import threading
import time

from gate import toolchain
from gate.commands import fail, print_line
from gate.edits import above, rounds
from gate.edits.step import NAMES_ALONE
from gate.repository import TOP, below, copy_to, crates
from gate.toolchain import KEPT

# How long the proof of a crate may take, and the check of each edit, in seconds.
PROOF_LIMIT, EDIT_LIMIT = 7200, 900
# What `rt` says of a refusal that says little of a contract.
LITTLE = (NAMES_ALONE, "only by a limit of the prover")
PRINTING = threading.Lock()
# What a step gave: of each thing that it tried whether it went well and what is to be said of it,
# and its processor seconds.
Step = collections.namedtuple("Step", "told seconds")


def try_edits(edits):
    """Tries edits of any crates over what earlier checks in the repository kept, side by side as
    far as processors and memory allow, or as many at once as RT_JOBS says."""
    rt = toolchain.load()
    if rt is None:
        return fail("the command rt is not found; README.md says what it needs")
    began = time.monotonic()
    with tempfile.TemporaryDirectory(prefix="ocfl-scrub-edits-") as folder:
        copy_to(folder, below(above.crates_with({edit.crate for edit in edits})), kept=True)
        given = toolchain.share_out(rt, tasks_of(rt, folder, edits))
        wells, faults = count_refused(given)
    print_line("the edits took %.1f minutes" % ((time.monotonic() - began) / 60))
    return wells, faults


class Steps:
    """Steps as the queues of `rt` take them, by their keys: what each waits for, its work, its
    memory, and a call."""

    def __init__(self, rt, folder):
        self.rt, self.folder, self.tasks = rt, folder, {}
        self.made = toolchain.crates_of(rt, folder)

    def add(self, name, kind, waits, work, *tried):
        key = name, kind, tried
        call = functools.partial(step, self.folder, key, waits)
        return self.put(key, waits, work, call)

    def put(self, key, waits, work, call):
        memory = toolchain.memory_of(self.rt, self.made[key[0]])
        self.tasks[key] = waits, work, memory, call
        return key

    def lines(self, name):
        return toolchain.lines_of(self.made[name])

    def try_over(self, name, kind, waits, shared, alone):
        """Tries edits over what a step of that kind keeps of a crate, and then sees that it is
        still what that step left."""
        kept, lines = Kept(self.made[name]), self.lines(name)
        key = name, kind, ()
        proof = self.put(key, waits, lines // (10 if kind == "base" else 1),
                         functools.partial(kept.leave, self.folder, key, waits))
        tried = [self.add(name, "edits", [proof], len(it) * lines // 20, *it) for it in shared]
        tried += [self.add(name, "edits", [proof], lines // 10, it) for it in alone]
        key = name, "end", ()
        self.put(key, [proof, *tried], 0, functools.partial(kept.compare, key))


class Kept:
    """What is kept of a crate, over which its edits are tried."""

    def __init__(self, crate):
        self.place, self.files = os.path.join(crate.folder, KEPT), {}

    def leave(self, folder, key, waits, given, jobs):
        """Takes the step that keeps it."""
        result = step(folder, key, waits, given, jobs)
        self.files = listing(self.place)
        return result

    def compare(self, key, _given, _jobs):
        """Whether no file of it was changed since, lost or added."""
        well = listing(self.place) == self.files
        text = "what was kept is as it was" if well else "what was kept was changed by a check"
        return report_step(key, Step([(well, text)], 0))


def listing(place):
    """The files below a folder, each with its size and when it was changed."""
    found = {}
    for folder, _, names in os.walk(place):
        for path in (os.path.join(folder, name) for name in names):
            look = os.stat(path)
            found[os.path.relpath(path, place)] = look.st_size, look.st_mtime_ns
    return found


def tasks_beside(rt, folder, edits, whole):
    """The steps for the queue of `rt ci` in a folder. The edits of a crate whose library has its
    checked proofs wait for its proof there. Those of another need a proof of their own, which
    waits for the libraries below as that of `rt ci` does."""
    steps = Steps(rt, folder)
    for name, crate in steps.made.items():
        own = [edit for edit in edits if edit.crate == name]
        if not own:
            continue
        shared, alone = rounds.share(name, own)
        if name in whole:
            steps.try_over(name, "base", [(name, "proof")], shared, alone)
            continue
        waits = [(it, "proof") for it in toolchain.names_below(crate)]
        if shared:
            seed = steps.add(name, "seed", waits, steps.lines(name), *shared.pop(0))
            waits = [*waits, seed]
        steps.try_over(name, "proof", waits, shared, alone)
    return steps.tasks


def tasks_of(rt, folder, edits):
    """The steps over what may be out of date, which build the libraries below first."""
    steps, chosen = Steps(rt, folder), {edit.crate for edit in edits}
    lower = {it for name in chosen for it in toolchain.names_below(steps.made[name])}
    for name in below(chosen):
        if name not in steps.made:
            continue
        waits = [(it, "library", ()) for it in toolchain.names_below(steps.made[name])
                 if it in lower]
        lines = steps.lines(name)
        shared, alone = rounds.share(name, [it for it in edits if it.crate == name])
        if shared and not os.path.isdir(os.path.join(steps.made[name].folder, KEPT)):
            waits = waits + [steps.add(name, "seed", waits, lines, *shared.pop(0))]
        if name in lower:
            waits = [steps.add(name, "library", waits, lines)]
        if name in chosen:
            steps.try_over(name, "proof", waits, shared, alone)
    return steps.tasks


def step(folder, key, waits, given, jobs):
    """Takes one step in a process of its own, once those that it waits for went well, and says how
    it went. Whatever edits gave, what waits for them goes on."""
    crate, kind, edits = key
    if not all(went_well(it, given[it]) for it in waits):
        return report_step(key, not_tried(key, "not tried, since a step before it failed"))
    names = [edit.name for edit in edits]
    command = [sys.executable, "-B", "-m", "gate.edits.step", folder, crate, kind, str(jobs),
               *names]
    limit = EDIT_LIMIT * len(edits) + (0 if kind == "edits" else PROOF_LIMIT)
    how = {"cwd": TOP, "stdin": subprocess.DEVNULL, "stdout": subprocess.PIPE, "text": True}
    how["env"] = {**os.environ, "TMPDIR": folder}
    try:
        ran = subprocess.run(command, timeout=limit, **how)
        result = Step(*json.loads(ran.stdout.splitlines()[-1]))
    except subprocess.TimeoutExpired:
        result = not_tried(key, "no verdict after %d seconds" % limit)
    except (IndexError, ValueError, TypeError):
        result = not_tried(key, "no verdict: its process ended with %s" % ran.returncode)
    return report_step(key, result)


def went_well(key, gave):
    """Whether what a step waits for went well: a proof of `rt ci`, or a step that tries no edit."""
    if isinstance(gave, Step):
        return bool(key[2]) or all(well for well, _ in gave.told)
    return bool(gave)


def not_tried(key, why):
    return Step([(False, why)] * (len(key[2]) or 1), 0)


def report_step(key, result):
    """Says how each thing went that a step tried, and what the step took."""
    crate, kind, edits = key
    names = [edit.path for edit in edits] or [kind]
    took = "" if len(names) > 1 else " (%d s)" % result.seconds
    with PRINTING:
        for name, (well, text) in zip(names, result.told):
            text = "%s %s%s: %s" % (crate, name, took, text)
            print_line(text) if well else fail("FAILED " + text)
        if not took:
            print_line("%s: these %d edits took %d s together"
                       % (crate, len(names), result.seconds))
    return result


def count_refused(given):
    """Says how many edits of each crate were refused, and what that took, and counts the checks:
    each edit, and each step that keeps what they are tried over."""
    for crate in crates():
        own = {key: step for key, step in given.items() if key[0] == crate}
        tried = [step for key, step in own.items() if key[2]]
        minutes = [sum(step.seconds for step in steps) / 60
                   for steps in (tried, [step for step in own.values() if step not in tried])]
        if tried:
            wells = [well for step in tried for well, _ in step.told]
            print_line("%s: %d of %d edits refused in %.1f processor minutes, and %.1f of proofs"
                       % (crate, sum(wells), len(wells), *minutes))
    for why in LITTLE:
        little = sum(why in text for step in given.values() for _, text in step.told)
        if little:
            print_line("%d edits were refused %s" % (little, why))
    wells = [well for key, step in given.items() if key[1] != "library" for well, _ in step.told]
    return wells.count(True), wells.count(False)


def refused(given):
    """The edits that were refused, of those crates of which every other step went well."""
    failed = {key[0] for key, step in given.items()
              if not key[2] and not all(well for well, _ in step.told)}
    return {edit for key, step in given.items() if key[0] not in failed
            for edit, (well, _) in zip(key[2], step.told) if well}
