#!/usr/bin/env python3
"""Tries the program where standard output, standard error or the cursor's file fail.

usage: outputs.py

After each failure whole items were written, the cursor's file is whole, and going on writes what
is left of the audit.

Tried, and what comes of it:

- Standard output: a write of each line that fails with ENOSPC, EPIPE or EIO: `output failed`,
  status 3; the items before it, and a cursor that goes on.
- Standard output: a full device (each command and `--help`), a closed pipe, `head`, closed:
  `output failed`, status 3; the items before it, and a cursor that goes on.
- Standard output interrupted once, 899 times in a row, for ever: as without, twice; `output
  failed`.
- Standard error full or closed, at each status: the status is the same.
- The cursor file: each call that stores it fails; a device that is full; a limit on a file's
  size; its folder goes away: the report is whole, `cursor file failed`, status 3; the old file is
  whole, nothing is left beside it, and the next run goes on.
- The cursor file cannot be opened or read: `cursor file failed`, status 3; no report.
- The calls that store the cursor file, by its path and by its bare name: the text is synced,
  renamed, and its folder synced, in this order.

Seen to fail on these faults, each planted alone:

- The folder of the cursor file is not synced.
- `--version` has another digest than that of the running file, or does not say that `BUILD` names
  another.
"""
import os
import re
import resource
import signal
import subprocess

import common
from common import NEW, end, check, note, ran, read, shown_cursor, start, traced, write

FILES = {"v1/content/a": b"abc", "v1/content/b": b"", "v1/content/c": b"abc"}
ITEMS = common.sound({"o": FILES})
SUMMARY = "cycle 1, run 1, cost 9, ended"
STOPPED = NEW.replace("runs 0", "runs 1")
FAILED = note("output failed")


class Case:
    """A root, and a cursor's file in a folder of its own."""

    def __init__(self, folder, name):
        self.folder = os.path.join(folder, name)
        os.mkdir(self.folder)
        self.root = os.path.join(folder, "root")
        self.file = os.path.join(self.folder, "cursor")
        self.out = os.path.join(self.folder, "out")
        self.run = ["run", "--cursor", self.file, "--budget", "9", self.root]

    def goes_on(self, name, written):
        """The next run writes what is left, and nothing lies beside the cursor's file."""
        status, out, said = ran(self.run)
        check(name + ": joined, it is the audit", (status, written + out), (0, "".join(ITEMS)))
        left = [it for it in os.listdir(self.folder) if it not in ("cursor", "out")]
        check(name + ": nothing is left beside the file", left, [])


def full_output(folder):
    case = Case(folder, "full")
    with open("/dev/full", "wb") as full:
        status, _, said = ran(case.run, stdout=full)
    check("full device", (status, said), (3, FAILED))
    check("full device: cursor", shown_cursor(case.file), STOPPED)
    case.goes_on("full device", "")
    for words in [["audit", case.root], ["check", case.root, "o"], ["show", case.file],
                  ["cycle", "--budget", "1", "--runs", "9", case.root]]:
        with open("/dev/full", "wb") as full:
            status, _, said = ran(words, stdout=full)
        check("full device: " + words[0], (status, said), (3, FAILED))
    with open("/dev/full", "wb") as full:
        status, _, said = ran(["--help"], stdout=full)
    check("full device: help", (status, said), (3, FAILED))


def closed_pipe(folder):
    case = Case(folder, "pipe")
    reading, writing = os.pipe()
    os.close(reading)
    process = start(case.run, stdout=writing)
    os.close(writing)
    check("closed pipe", end(process), (3, "", FAILED))
    check("closed pipe: cursor", shown_cursor(case.file), STOPPED)
    case.goes_on("closed pipe", "")


def head(folder):
    """`| head -n 1`: the report is longer than a pipe holds."""
    files = {"v1/content/%0200d" % number: b"" for number in range(1000)}
    root = common.make_root(os.path.join(folder, "long"), {"o": files})
    words = "status=0; \"$0\" audit \"$1\" || status=$?; echo status $status >&2"
    shell = ["sh", "-c", "{ %s; } | head -n 1" % words, common.PROGRAM, root]
    done = subprocess.run(shell, capture_output=True, timeout=60)
    said = FAILED + "status 3\n"
    check("a head of the report", (done.stdout.decode(), done.stderr.decode()), (ITEMS[0], said))


def failing_write(folder):
    """A write fails at each line: the items before it went out, and the run goes on after them."""
    for error in ["ENOSPC", "EPIPE", "EIO"]:
        for number in range(len(ITEMS)):
            name = "%s at line %d" % (error, number + 1)
            case = Case(folder, name)
            write(case.out, b"")
            with open(case.out, "ab") as out:
                rule = "inject=write:error=%s:when=%d+" % (error, number + 1)
                how = {"log": "/dev/null", "stdout": out}
                status, _, said = traced(["-P", case.out, "-e", rule], case.run, **how)
            check(name, (status, said), (3, FAILED))
            written = read(case.out).decode()
            check(name + ": whole items", written, "".join(ITEMS[:number]))
            case.goes_on(name, written)


def interrupted_write(folder):
    for when, name in [("2", "interrupted once"), ("2..900", "interrupted 899 times")]:
        case = Case(folder, name)
        write(case.out, b"")
        with open(case.out, "ab") as out:
            rules = ["-P", case.out, "-e", "inject=write:error=EINTR:when=" + when]
            status, _, said = traced(rules, case.run, stdout=out)
        check(name, (status, said), (0, note(SUMMARY)))
        check(name + ": all is there", read(case.out).decode(), "".join(ITEMS))
    case = Case(folder, "always interrupted")
    write(case.out, b"")
    with open(case.out, "ab") as out:
        rules = ["-P", case.out, "-e", "inject=write:error=EINTR:when=2+"]
        status, _, said = traced(rules, case.run, stdout=out)
    check("always interrupted", (status, said), (3, FAILED))
    case.goes_on("always interrupted", read(case.out).decode())


def closed(numbers):
    """What closes these descriptors in the program before it begins."""
    return lambda: [os.close(number) for number in numbers]


def closed_streams(folder):
    case = Case(folder, "no output")
    status, _, said = ran(case.run, preexec_fn=closed([1]))
    check("closed output", (status, said), (3, FAILED))
    check("closed output: cursor", shown_cursor(case.file), STOPPED)
    case.goes_on("closed output", "")
    case = Case(folder, "no error")
    check("closed error", ran(case.run, preexec_fn=closed([2])), (0, "".join(ITEMS), ""))
    whole = shown_cursor(case.file)
    check("closed error: cursor", whole, "cycle 1\nruns 1\nspent 9\nfiles 3\nended\n")
    case = Case(folder, "nothing open")
    status, _, _ = ran(case.run, preexec_fn=closed([0, 1, 2]))
    check("all closed", (status, shown_cursor(case.file)), (3, STOPPED))
    case.goes_on("all closed", "")


def without_standard_error(folder):
    """Statuses where standard error is a full device, or closed."""
    case = Case(folder, "unsaid")
    bad = write(os.path.join(folder, "bad"), b"no cursor")
    wrong = os.path.join(folder, "wrong")
    common.make_root(wrong, {"o": {}})
    write(os.path.join(wrong, "o/v1/content/x"), b"")
    for status, words in [
        (0, case.run),
        (1, ["audit", wrong]),
        (1, ["cycle", "--budget", "1", "--runs", "1", wrong]),
        (2, ["audit"]),
        (2, ["check", case.root, "o//a"]),
        (3, ["audit", os.path.join(folder, "no-root")]),
        (4, ["show", bad]),
    ]:
        with open("/dev/full", "wb") as full:
            got = ran(words, stderr=full)[0]
        check("status %d with a full standard error" % status, got, status)
        got = ran(words, preexec_fn=closed([2]))[0]
        check("status %d with a closed standard error" % status, got, status)


def full_file(folder):
    """The cursor's file lies on a device that has room for one such file, and not for two."""
    case = Case(folder, "small")
    mounted = ["mount", "-t", "tmpfs", "-o", "size=4k", "tmpfs", case.folder]
    if os.geteuid() != 0 or subprocess.run(mounted, capture_output=True).returncode != 0:
        print("outputs.py: no device can be mounted here; the limit on a file's size stands for it")
        return
    try:
        case.run[4] = "1"
        write(case.file, b"")
        os.remove(case.file)
        check("first file on a small device", ran(case.run)[0], 0)
        before = read(case.file)
        got = ran(case.run)
        check("full device for the file", got, (3, ITEMS[3], note("cursor file failed")))
        check("full device for the file: it is whole", read(case.file), before)
        check("full device for the file: nothing beside it", os.listdir(case.folder), ["cursor"])
    finally:
        subprocess.run(["umount", case.folder], check=True)


def no_size():
    signal.signal(signal.SIGXFSZ, signal.SIG_IGN)
    resource.setrlimit(resource.RLIMIT_FSIZE, (20, 20))


def limited_file(folder):
    case = Case(folder, "limited")
    case.run[4] = "1"
    ran(case.run)
    before = read(case.file)
    got = ran(case.run, preexec_fn=no_size)
    check("file that may not grow", got, (3, ITEMS[3], note("cursor file failed")))
    check("file that may not grow: it is whole", read(case.file), before)
    check("file that may not grow: nothing beside it", os.listdir(case.folder), ["cursor"])


def failing_file(folder):
    """Each call that stores the cursor fails once."""
    for call, error in [
        ("openat", "ENOSPC"), ("openat", "EACCES"), ("openat", "EMFILE"), ("openat", "EROFS"),
        ("write", "ENOSPC"), ("write", "EIO"), ("write", "EDQUOT"), ("fsync", "EIO"),
        ("rename,renameat,renameat2", "EIO"), ("rename,renameat,renameat2", "EXDEV"),
    ]:
        name = "%s of %s" % (error, call.split(",")[0])
        case = Case(folder, name)
        case.run[4] = "1"
        ran(case.run)
        before = read(case.file)
        rules = ["-P", case.file + ".ocfl-scrub.new", "-e", "inject=%s:error=%s" % (call, error)]
        got = traced(rules, case.run)
        check(name, got, (3, ITEMS[3], note("cursor file failed")))
        check(name + ": the file is whole", read(case.file), before)
        case.run[4] = "9"
        status, out, _ = ran(case.run)
        check(name + ": goes on", (status, out), (0, "".join(ITEMS[3:])))
        check(name + ": nothing beside it", os.listdir(case.folder), ["cursor"])


def synced_file(folder):
    """The text is synced before it is put in place, and its folder after that."""
    case = Case(folder, "synced")
    log = os.path.join(folder, "synced-log")
    calls = "trace=fsync,fdatasync,rename,renameat,renameat2"
    for number, words in [(1, case.run), (2, case.run), (3, ["run", "--cursor", "cursor"])]:
        how = {"cwd": case.folder} if number == 3 else {}
        got = traced(["-y", "-e", calls], words[:3] + case.run[3:], log, **how)
        check("run %d that is synced" % number, got[0], 0)
        made = [re.match(r"([a-z]+)", it)[1] for it in read(log).decode().splitlines()]
        of = re.findall(r"^f[a-z]*sync\(\d+<(.*?)>\)", read(log).decode(), re.MULTILINE)
        kinds = ["sync" if it.endswith("sync") else it[:6] for it in made]
        check("run %d: synced, renamed, synced" % number, kinds, ["sync", "rename", "sync"])
        check("run %d: the text, and its folder" % number, of, [case.file + ".ocfl-scrub.new", case.folder])


def unread_file(folder):
    """The cursor's file is there and cannot be read: no call of the store is made."""
    for call, error in [("openat", "EACCES"), ("openat", "EIO"), ("read", "EIO")]:
        name = "%s of the file's %s" % (error, call)
        case = Case(folder, name)
        ran(case.run)
        before = read(case.file)
        rules = ["-P", case.file, "-e", "inject=%s:error=%s" % (call, error)]
        got = traced(rules, case.run)
        check(name, got, (3, "", note("cursor file failed")))
        check(name + ": it is whole", read(case.file), before)


def unread_program():
    """The program cannot read its own file, of which `--version` prints the digest."""
    said = "this file cannot be read, so its sha256 is not known"
    for call, error in [("openat", "ENOENT"), ("openat", "EACCES"), ("read", "EIO")]:
        path = "/proc/self/exe" if call == "openat" else common.PROGRAM
        rules = ["-P", path, "-e", "inject=%s:error=%s" % (call, error)]
        status, out, stderr = traced(rules, ["--version"])
        check("%s of the program's %s" % (error, call), (status, out.splitlines()[-1], stderr),
              (0, said, ""))


def vanishing_file(folder):
    """The cursor's file goes away while the run reads the root, or its folder does."""
    case = Case(folder, "vanishing")
    case.run[4] = "1"
    ran(case.run)
    os.remove(case.file)
    got = ran(case.run)
    check("file that is gone begins a cycle", got[:2], (0, "".join(ITEMS[:3])))
    with common.Stopped(["-P", "b"], "openat", case.run) as stopped:
        os.remove(case.file)
    check("file that vanishes", stopped.ended[:2], (0, ITEMS[3]))
    shown = "cycle 1\nruns 2\nspent 5\nfiles 2\nafter o/v1/content/b\n"
    check("file that vanishes: it is stored", shown_cursor(case.file), shown)
    with common.Stopped(["-P", "c"], "openat", case.run) as stopped:
        os.rename(case.folder, case.folder + "-gone")
    check("folder that vanishes", stopped.ended, (3, ITEMS[4], note("cursor file failed")))


def check_all(folder):
    root = common.make_root(os.path.join(folder, "root"), {"o": FILES})
    before = common.snapshot(root)
    full_output(folder)
    closed_pipe(folder)
    head(folder)
    failing_write(folder)
    interrupted_write(folder)
    closed_streams(folder)
    without_standard_error(folder)
    full_file(folder)
    limited_file(folder)
    failing_file(folder)
    synced_file(folder)
    unread_file(folder)
    vanishing_file(folder)
    unread_program()
    check("nothing was written below the root", common.snapshot(root), before)


common.run_trial(check_all, needs=["strace"])
