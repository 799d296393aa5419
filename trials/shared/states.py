"""What the trials of statements and of the status share: a folder of `ocfl-scrub night` as its
checkpoint, its log and its reports say, written by hand.

The scripts are those of the folder that OCFL_SCRUB_NIGHTS names. Without it, they are those of
`nights` at the top of the repository.
"""
import calendar
import gzip
import json
import os
import shutil
import subprocess
import sys
import time
import traceback

import common
from common import TOP, digest, check

NIGHTS = os.path.abspath(os.environ.get("OCFL_SCRUB_NIGHTS") or os.path.join(TOP, "nights"))
REPORTS = NIGHTS + "/ocfl-scrub-reports"
VERSION = """#!/bin/sh
printf 'ocfl-scrub 0.1.0\\ncommit 0123abcd\\nkit k\\nsha256 %s\\n' {digest}
"""
OWN = '"$(sha256sum < "$0" | cut -d " " -f 1)"'


def write(path, data, mode=None):
    common.write(path, data if isinstance(data, bytes) else data.encode())
    if mode:
        os.chmod(path, mode)
    return path


def read(path):
    if not os.path.exists(path):
        return None
    with (gzip.open if path.endswith(".gz") else open)(path, "rb") as file:
        return file.read().decode()


def ran(words, **environment):
    """The status, standard output and standard error of a command."""
    try:
        done = subprocess.run(words, capture_output=True, timeout=600, check=False,
                              stdin=subprocess.DEVNULL, env={**os.environ, **environment})
    except FileNotFoundError:
        return 127, "", words[0] + " is not there"
    return done.returncode, done.stdout.decode(), done.stderr.decode()


def ask(name, *words, **environment):
    return ran([REPORTS, name, *map(str, words)], **environment)


def line(code, path, detail="-"):
    return "%s\t%s\t%s\n" % (code, path, detail)


def tools(packages):
    """The tools that the trials need."""
    for tool, package in packages.items():
        where = "there" if shutil.which(tool) else "missing (Debian: %s)" % package
        check("the tool " + tool, where, "there")


def is_finding(text):
    return text.split("\t")[0] not in ("ok", "S07")


def seconds(shown):
    """The seconds since 1970 of a time such as 2026-01-01T22:00:00Z."""
    return calendar.timegm(time.strptime(shown, "%Y-%m-%dT%H:%M:%SZ"))


def escaped(text):
    return "".join(chr(byte) if 0x20 <= byte < 0x7F and byte != 0x25 else "%%%02X" % byte
                   for byte in text.encode())


class State:
    """A folder of the program's nights, written by hand: nights, reports, its checkpoint."""

    def __init__(self, path, root="/srv/ocfl", declaration="d" * 64):
        self.path, self.log = path, []
        self.root, self.declaration = root, declaration
        self.cycle, self.runs, self.spent, self.files = 1, 0, 0, 0
        write(path + "/lock", "")
        self.put_checkpoint("start")

    def put_checkpoint(self, line, whole="yes"):
        """Puts the checkpoint of where the cycle stands."""
        text = common.checkpoint_text(
            root=escaped(self.root), declared=self.declaration, whole=whole, cycle=str(self.cycle),
            runs=str(self.runs), spent=str(self.spent), files=str(self.files))
        body = text[:text.rindex(b"start\n")] + line.encode() + b"\n"
        write(self.path + "/checkpoint", body + b"sha256 %s\n" % digest(body).encode())

    def row(self, **row):
        self.log.append(json.dumps(row, sort_keys=True, separators=(",", ":")))
        write(self.path + "/log", "".join(it + "\n" for it in self.log))

    def night(self, began, cycle, cost, status=0, closes=None, runs=1, said=None):
        """A night of this cycle that reads so much. `closes` are the words of `close`, if it closes
        the cycle, and `said` is why it stopped."""
        if cycle != self.cycle:
            self.cycle, self.runs, self.spent, self.files = cycle, 0, 0, 0
        self.runs, self.spent, self.files = self.runs + runs, self.spent + cost, self.files + 1
        if closes is not None:
            self.close(began, cycle, **closes)
        if said is not None:
            self.row(row="refusal", time=seconds(began) + 60, night=seconds(began), status=status,
                     said=said)
        self.row(row="night", time=seconds(began) + 60, night=seconds(began), status=status,
                 runs=runs, cost=cost, seconds=60, findings=0)
        self.put_checkpoint("after o" if closes is None else "ended")

    def refuse(self, began, status=3):
        """A night that was refused."""
        spent, files = self.spent, self.files
        self.night(began, self.cycle, 0, status, runs=0, said="is its file system mounted?")
        self.spent, self.files = spent, files
        self.put_checkpoint("after o")

    def close(self, began, cycle, lines=None, gone="", whole=True, packed=False, at=None, **said):
        """Closes a cycle. `said` is what else its row says: with which cycle it was compared, which
        is the one before without it. Without more the row is one of an earlier version: it does not
        say what the cycle read."""
        name = "reports/%s-%06d" % ("cycle" if whole else "incomplete", cycle)
        data = "".join(lines or []).encode()
        write(self.path + "/" + name + (".gz" if packed else ""),
              gzip.compress(data) if packed else data)
        write(self.path + "/reports/gone-%06d" % cycle, gone)
        self.row(row="closing", time=seconds(at or began), night=seconds(began), cycle=cycle,
                 report=self.path + "/" + name, whole=whole, findings=0, repaired=0,
                 gone=gone.count("\n"), **{
                     "left": 0, "new": 0, "compared": cycle - 1 if whole else 0, "why": "",
                     "list": "", "listed": 0,
                     "objects": gone.count("object\t"), "files": gone.count("file\t"),
                     "expected": gone.count("expected\t"), "unlooked": 0, "back": 0, **said})

    def has(self, name):
        return read(self.path + "/" + name)


def program(folder, digest_=OWN):
    """A program that says of itself what an installed one says."""
    path = write(folder + "/program", VERSION.format(digest=digest_), 0o755)
    os.utime(path, (1767225600, 1767225600))
    return path


LINES = [line("ok", "."), line("E072", "a b"), line("ok", "o"), line("ok", "o/v1/content/01", "3"),
         line("ok", "o/v1/content/1", "4611686018427387904"), line("E007", "o2"),
         line("S07", "o2", "x"), line("ok", "o2/v1/content/a", "4611686018427387904"),
         line("S07", "o3", "x"), line("ok", "o3-4"), line("E023", "o3-4/v1/content/a"),
         line("S08", "o3-4/v1/content/a"), line("ok", "o3-4/v1/content/b", "0")]
GONE = "object\tp\nfile\to/v1/content/a\nfile\to/v1/content/b\nexpected\tz\n"
EXPECTED = {"listed": 160, "list": "e" * 64}
COUNTED = {"unlooked": 3, "back": 1, "new": 4, "known": 0, "runs": 2, "read_bytes": 6,
           "read_files": 2}


def audited(folder):
    """A folder with two closed cycles, its program, and its fifth night in cycle 3."""
    state = State(folder + "/state", '/srv/ocfl\t"\\\u00fc%|')
    state.night("2026-01-01T22:00:00Z", 1, 4, closes={
        "at": "2026-01-01T23:00:00Z", "lines": LINES[:1], "packed": True})
    state.night("2026-02-01T22:00:00Z", 2, 4)
    state.refuse("2026-02-02T22:00:00Z")
    state.night("2026-02-03T22:00:00Z", 2, 4, 1, closes={
        "at": "2026-02-03T23:00:00Z", "lines": LINES, "gone": GONE, **EXPECTED, **COUNTED})
    state.night("2026-02-04T22:00:00Z", 3, 4)
    return state, program(folder)


def tried(part, *given):
    """That a part breaks off is a failure, and the others go on."""
    try:
        part(*given)
    except Exception:
        common.failed.append(part.__name__)
        traceback.print_exc(file=sys.stdout)
