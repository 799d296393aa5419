#!/usr/bin/env python3
"""Makes each call fail that the program's own nights make on their folder, one at a time, and takes
their output, their room and their temporary folder.

usage: night_faults.py [PART]...

strace injects the errors. Whatever fails, the nights that follow close a report that is the audit,
byte for byte, and each finding is said; a night that could not go on says why, with status 3.

Tried, and what comes of it:

- Each call of nights on their folder made to fail: those that change it with EIO, ENOSPC, EDQUOT,
  EACCES and EROFS, once and from the second on, others with EIO, EACCES and ENOMEM; a lock that
  the file system does not give: status 0, 1 or 3, and 3 says why; then the next nights close a
  report that is the audit, byte for byte, and each finding is said.
- Standard output a full device, a closed pipe, closed, failing, or with room for a part; standard
  error full; no standard streams: status 3; what was not taken whole is said by the next night;
  nothing of it gets into the folder. It mounts for that.
- The device of the state folder full before a night and from one of its moments on; a limit on a
  file's size; a full or missing folder for temporary files; the state folder read-only, removed
  or moved under a night: status 3; then the next nights close a report that is the audit, byte
  for byte, and each finding is said; nothing is made anew in silence. It mounts for that.
- A folder that cannot be listed, with `--stop-at-faults`: status 3, nothing is left out and no
  report is closed; the cycle goes on once the folder can be read.
- Two nights at once: status 75, and nothing is changed.
- A night that gets SIGTERM, SIGINT or SIGHUP: it ends as by a kill, and the next one goes on.

Seen to fail on these faults, each planted alone:

- A write that fails is taken for one that did not.
- No lock is taken; a lock that is not given is that of another night.
- Closed standard streams are not taken.
- Each night has `--create`, or `--force-root`.
- Status 3 is 0; status 2 is 0; nothing is said on standard error.
- A failing output is taken for one that took all; a failing standard error stops a night; what is
  said goes through a temporary file.
- A signal ends a night with status 3.
- `--stop-at-faults` does nothing.
"""
import os
import resource
import shutil
import signal
import subprocess
from typing import Any

import common
from common import Stopped, end, check, start, traced
from shared.nights import tried_apart
from shared.own_nights import SLICE, Audited, Got, Moment, Nights, at_once, make_root, recorded
from shared.spaces import can_mount, folder_at, memory_at, mount, unmount

# The errors of a call that changes a folder, and of any other.
ERRORS = ["EIO", "ENOSPC", "EDQUOT", "EACCES", "EROFS"]
OTHERS = ["EIO", "EACCES", "ENOMEM"]
CHANGING = {"write", "fsync", "fdatasync", "rename", "renameat", "renameat2", "ftruncate", "mkdir",
            "unlink", "unlinkat"}
PLAN = ["--create", "--slice", SLICE]


def made(folder: str) -> tuple[Audited, Nights]:
    audited = Audited(make_root(folder + "/root"))
    return audited, Nights(folder + "/state", audited.root)


def is_explained(got: Got) -> bool:
    """Whether a night ended well, or says why it did not."""
    status, out, note = got
    return status in (0, 1) or status == 3 and (out + note).strip() != ""


def errors_of(moments: list[Moment]) -> list[tuple[Moment, str]]:
    """Each of these calls with each of its errors."""
    return [(moment, error) for moment in moments
            for error in (ERRORS if moment.call in CHANGING else OTHERS)]


def fail_each(audited: Audited, nights: Nights, log: str, before: str) -> None:
    """Nights of which each call on their folder fails, and those that follow."""
    def fail(number: int, failing: tuple[Moment, str]) -> tuple:
        moment, error = failing
        own = nights.beside(number)
        own.again(before)
        got = traced(moment.rule("error=" + error), own.words(*PLAN))
        faults = audited.faults_after(own, got[1])
        own.again()
        return got[0], (is_explained(got), faults)

    nights.again(before)
    failing = errors_of(recorded(nights, log, *PLAN))
    results = at_once(fail, failing)
    for (moment, error), (_, found) in zip(failing, results):
        check("%s of %s %d" % (error, *moment), found, (True, []))
    ended = sum(status == 3 for status, _ in results)
    print("night_faults.py: %d errors of calls, %d of them ended a night" % (len(results), ended))
    check("most of them end it", ended * 2 > len(results) > 100, True)


def each_call(folder: str) -> None:
    """Each call of a first night fails."""
    audited, nights = made(folder)
    fail_each(audited, nights, folder + "/log", "")


def going_on(folder: str) -> None:
    """The same of a night that finds a checkpoint and a report that is longer than it says."""
    audited, nights = made(folder)
    moments = recorded(nights, folder + "/log", *PLAN)
    appends = [moment for moment in moments if moment.call == "write"]
    nights.again()
    said = traced(appends[len(appends) * 2 // 3].rule("signal=KILL"), nights.words(*PLAN))[1]
    audited.findings = audited.not_said(said)
    shutil.copytree(nights.state, folder + "/kept")
    fail_each(audited, nights, folder + "/log", folder + "/kept")


def for_ever(folder: str) -> None:
    """All calls of one kind fail from one on."""
    audited, nights = made(folder)
    calls = {moment.call for moment in recorded(nights, folder + "/log", *PLAN)}
    failing = [(call, error) for call in sorted(calls & CHANGING) for error in ERRORS]

    def fail(number: int, rule: tuple[str, str]) -> tuple[bool, list[str]]:
        own = nights.beside(number)
        # A write that fails everywhere could not be said.
        files = ["-P", own.path("report"), "-P", own.path("checkpoint.new")]
        rules = ["-e", "inject=%s:error=%s:when=2+" % rule]
        got = traced([*(files if rule[0] == "write" else []), *rules], own.words(*PLAN))
        return is_explained(got), audited.faults_after(own, got[1])

    for (call, error), found in zip(failing, at_once(fail, failing)):
        check("%s of %s from the second on" % (error, call), found, (True, []))


def no_locks(folder: str) -> None:
    """A lock that the file system does not give is not that of another night."""
    audited, nights = made(folder)
    for call in ["flock", "fcntl"]:
        nights.again()
        got = traced(["-e", "inject=%s:error=ENOLCK" % call], nights.words(*PLAN))
        check("ENOLCK of " + call, is_explained(got), True)
        check("then", audited.faults_after(nights, got[1]), [])


# What nights say

def check_failed_output(name: str, folder: str, **how: Any) -> None:
    """A night whose output fails leaves what it found to the next one."""
    audited, nights = made(folder + "/" + name.replace(" ", "-"))
    status, out, note = nights.night(*PLAN, **how)
    check(name, (status, "output failed" in note), (3, True))
    check(name + ": the next night", audited.faults_after(nights, ""), [])


def full_output(folder: str) -> None:
    with open("/dev/full", "wb") as full:
        check_failed_output("a full device", folder, stdout=full)
    reading, writing = os.pipe()
    os.close(reading)
    check_failed_output("a closed pipe", folder, stdout=writing)
    os.close(writing)
    check_failed_output("no output", folder, stdout=None, preexec_fn=lambda: os.close(1))
    for error in ERRORS:
        audited, nights = made(folder + "/" + error)
        got = traced(["-P", "/dev/null", "-e", "inject=write:error=%s:when=1" % error],
                     nights.words(*PLAN), stdout=subprocess.DEVNULL)
        check(error + " of the output", (got[0], audited.faults_after(nights, "")), (3, []))


def no_streams(folder: str) -> None:
    """Without standard streams nothing that is said gets into the state."""
    audited, nights = made(folder)
    before = [os.path.join(folder, "root"), nights.state]
    status = nights.night(*PLAN, stdout=None, stderr=None,
                          preexec_fn=lambda: os.closerange(0, 3))[0]
    check("no streams", (status, audited.faults_after(nights, "")), (3, []))
    check("nothing else is there", sorted(os.listdir(folder)),
          sorted(map(os.path.basename, before)))


def full_error(folder: str) -> None:
    """Where standard error cannot be written, the status and the nights are the same."""
    audited, nights = made(folder)
    with open("/dev/full", "wb") as full:
        status, out, _ = nights.night(*PLAN, stderr=full)
    check("a full standard error", (status, audited.not_said(out)), (1, []))
    check("then", audited.faults_after(nights, out), [])


def output_for_a_part(folder: str) -> None:
    """An output with room for some of the lines: what it did not take is said again."""
    audited, nights = made(folder)
    os.mkdir(folder + "/small")
    with memory_at(folder + "/small", "4k"):
        for room in [0, 1, 100, 400, 600]:
            nights.again()
            common.write(folder + "/small/out", b"-" * (4096 - room))
            with open(folder + "/small/out", "ab") as out:
                status = nights.night(*PLAN, stdout=out)[0]
            said = common.text_of(common.read(folder + "/small/out")[4096 - room:])
            check("room for %d bytes" % room, status, 3)
            check("room for %d bytes: then" % room, audited.faults_after(nights, said), [])


# Room

def filled(path: str) -> None:
    """Fills the file system of a path."""
    try:
        with open(path, "wb", buffering=0) as file:
            while file.write(bytes(4096)):
                pass
    except OSError:
        pass


def full_state(folder: str) -> None:
    """The device of the state folder is full, before a night and from one of its moments on."""
    audited, _ = made(folder)
    os.mkdir(folder + "/disk")
    with memory_at(folder + "/disk", "256k"):
        nights = Nights(folder + "/disk/state", audited.root)
        filled(folder + "/disk/filler")
        got = nights.night(*PLAN)
        check("full", (got[0], is_explained(got)), (3, True))
        os.remove(folder + "/disk/filler")
        check("full: then", audited.faults_after(nights, got[1]), [])
        for when in range(1, 12, 2):
            nights.again()
            stopped = Stopped([], "fsync", nights.words(*PLAN), when)
            with stopped:
                filled(folder + "/disk/filler")
            check("full after fsync %d" % when, is_explained(stopped.ended), True)
            os.remove(folder + "/disk/filler")
            check("full after fsync %d: then" % when,
                  audited.faults_after(nights, stopped.ended[1]), [])


def limited_size(folder: str) -> None:
    """No file may have more bytes than a limit."""
    audited, nights = made(folder)

    def limit_to(most: int) -> None:
        signal.signal(signal.SIGXFSZ, signal.SIG_IGN)
        resource.setrlimit(resource.RLIMIT_FSIZE, (most, most))

    for most in [0, 100, 490, 520]:
        nights.again()
        got = nights.night(*PLAN, preexec_fn=lambda: limit_to(most))
        check("at most %d bytes" % most, (got[0], nights.state in got[2],
                                          "File too large" in got[2]), (3, True, True))
        check("at most %d bytes: then" % most, audited.faults_after(nights, got[1]), [])


def full_tmp(folder: str) -> None:
    """A night needs no room for temporary files."""
    os.mkdir(folder + "/tmp")
    with memory_at(folder + "/tmp", "4k"):
        filled(folder + "/tmp/filler")
        full = {**os.environ, "TMPDIR": folder + "/tmp"}
        for name, env in [("full", full), ("none", {**full, "TMPDIR": folder + "/nothing"})]:
            audited, nights = made(folder + "/" + name)
            status, out, note = nights.night(*PLAN, env=env)
            check("a temporary folder that is %s" % name,
                  (status, note, audited.not_said(out)), (1, "", []))
            check("%s: then" % name, audited.faults_after(nights, out), [])


def read_only(folder: str) -> None:
    """A state folder that cannot be written, before a night and while it runs."""
    audited, nights = made(folder)
    said = nights.night(*PLAN, "--files", "3")[1]
    kept = nights.kept()
    with folder_at(nights.state, nights.state, "ro"):
        got = nights.night("--slice", SLICE)
        check("read-only", (got[0], is_explained(got), nights.kept()), (3, True, kept))
    stopped = Stopped([], "fsync", nights.words("--slice", SLICE), 4)
    with stopped:
        mount("-t", "tmpfs", "-o", "ro", "none", nights.state)
    unmount(nights.state)
    check("while it runs", (stopped.ended[0], is_explained(stopped.ended)), (3, True))
    check("then", audited.faults_after(nights, said + stopped.ended[1]), [])


# A state folder that is gone

def removed(folder: str) -> None:
    """The state folder is removed, or moved, under a night."""
    audited, nights = made(folder)
    for when in range(2, 10):
        nights.again()
        stopped = Stopped([], "fsync", nights.words(*PLAN), when)
        with stopped:
            shutil.rmtree(nights.state)
        check("removed after fsync %d" % when, is_explained(stopped.ended), True)
        status, out, note = nights.night()
        check("the next night, without --create", (status, out + note != "", nights.kept()),
              (3, True, {"checkpoint": None, "report": None}))
        nights.again()
        stopped = Stopped([], "fsync", nights.words(*PLAN), when)
        with stopped:
            os.rename(nights.state, folder + "/moved")
        check("moved after fsync %d" % when, is_explained(stopped.ended), True)
        nights.again()
        os.rename(folder + "/moved", nights.state)
        check("moved back", audited.faults_after(nights, stopped.ended[1]), [])


def two_at_once(folder: str) -> None:
    """Another night holds the lock: status 75, and nothing is changed."""
    audited, nights = made(folder)
    for when in range(2, 10):
        nights.again()
        stopped = Stopped([], "fsync", nights.words(*PLAN), when)
        with stopped:
            before = common.snapshot(nights.state)
            status, out, note = nights.first()
            is_same = common.snapshot(nights.state) == before
            check("two at once, %d" % when, (status, out, note != "", is_same),
                  (75, "", True, True))
        check("the first one", stopped.ended[0] in (0, 1), True)
        check("then", audited.faults_after(nights, stopped.ended[1]), [])


def killed_as_a_group(folder: str) -> None:
    """SIGTERM, SIGINT and SIGHUP cut a night as a kill does, and leave no process."""
    audited, nights = made(folder)
    for number in (signal.SIGTERM, signal.SIGINT, signal.SIGHUP):
        nights.again()
        process = start(nights.words(*PLAN))
        os.killpg(process.pid, number)
        status, out, _ = end(process)
        check(number.name, status in (-number, 0, 1), True)
        check(number.name + ": then", audited.faults_after(nights, out), [])


def stop_at_faults(folder: str) -> None:
    """With `--stop-at-faults` a night ends at a place that cannot be read and leaves nothing out.
    Its cycle stays open, and goes on once the place can be read."""
    objects = {place: {"v1/content/a": b"abc"} for place in ["a", "m", "z"]}
    root = common.make_root(folder + "/root", objects)
    os.mkdir(root + "/k")
    common.write(os.fsdecode(os.fsencode(root + "/k/") + b"\xff"), b"")
    nights = Nights(folder + "/state", root)
    words = [*PLAN, "--stop-at-faults"]
    for name in ["first", "second"]:
        status, out, note = nights.night(*words)
        check("the %s night" % name, (status, "stopped at k" in note, "left out" in out + note,
                                      nights.closed()), (3, True, False, []))
    check("nothing is left out", "left 0\n" in nights.shown(), True)
    shutil.rmtree(root + "/k")
    status, _, note = nights.night(*words)
    check("then it goes on", (status, note, nights.whole(1)), (0, "", Audited(root).report))


PARTS = [each_call, stop_at_faults, going_on, for_ever, no_locks, full_output, no_streams,
         full_error, removed, two_at_once, killed_as_a_group, limited_size]
MOUNTING = [output_for_a_part, full_state, full_tmp, read_only]


def check_all(folder: str) -> None:
    tried_apart(PARTS + (MOUNTING if can_mount(MOUNTING) else []), folder)


common.run_trial(check_all, needs=["strace"])
