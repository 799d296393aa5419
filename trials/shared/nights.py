"""What the trials of the scripts share: storage roots, nights over them, and what they leave.

The scripts are those of the folder that OCFL_SCRUB_NIGHTS names. Without it, they are those of
`nights` at the top of the repository.
"""
import gzip
import json
import os
import subprocess
import sys
import time
import traceback

import common
from common import PROGRAM, TOP, digest
from shared.messages import without_end

NIGHTS = os.path.abspath(os.environ.get("OCFL_SCRUB_NIGHTS") or os.path.join(TOP, "nights"))
REPORTS = NIGHTS + "/ocfl-scrub-reports"
ITEMS = ["ok\t.\t-\n", "ok\to\t-\n", "ok\to/v1/content/a\t3\n", "ok\to/v1/content/b\t0\n",
         "ok\to/v1/content/c\t3\n"]
WRONG_B = "E092\to/v1/content/b\tsha256 %s %s\n" % (digest(b""), digest(b"b"))


def write(path, data, mode=None):
    common.write(path, data if isinstance(data, bytes) else data.encode())
    if mode:
        os.chmod(path, mode)


def read(path):
    if not os.path.exists(path):
        return None
    with (gzip.open if path.endswith(".gz") else open)(path, "rb") as file:
        return file.read().decode()


def make_root(root):
    """A storage root of one object, whose files `a`, `b` and `c` cost 4, 1 and 4."""
    files = {"v1/content/a": b"abc", "v1/content/b": b"", "v1/content/c": b"abc"}
    return common.make_root(root, {"o": files})


def ran(words, cwd=None, **environment):
    """The status, standard output and standard error of a command."""
    try:
        done = subprocess.run(words, capture_output=True, timeout=600, cwd=cwd, check=False,
                              stdin=subprocess.DEVNULL,
                              env={**os.environ, "OCFL_SCRUB": PROGRAM, **environment})
    except FileNotFoundError:
        return 127, "", words[0] + " is not there"
    return done.returncode, done.stdout.decode(), done.stderr.decode()


def text_of(lines):
    return "".join("\t".join(line) + "\n" for line in lines)


def is_found(line):
    return line[0] not in ("ok", "S07")


def in_an_hour(seconds_of=time.localtime):
    """A time of day that is not near: one that has just come would end a night at once."""
    return time.strftime("%H:%M", seconds_of(time.time() + 3600))


def ask(name, *words, **environment):
    return ran([REPORTS, name, *words], **environment)


def instead(folder, name, body):
    """A program in the place of the audited one, whose text is `body`: `{program}` is the real one,
    and all commands but `run` go to it."""
    path = os.path.join(folder, name)
    write(path, '#!/bin/sh\ncase $1 in run) ;; *) exec %s "$@" ;; esac\n%s\n'
          % (PROGRAM, body.replace("{program}", PROGRAM)), 0o755)
    return path


class Nights:
    """A folder of state, and the nights of `nightly` over a root in it."""

    def __init__(self, state, root):
        self.state, self.root = state, root

    def words(self, *more):
        """A night's words; those of a first one if the folder has no checkpoint."""
        create = [] if os.path.exists(self.path("checkpoint")) else ["--create"]
        return [NIGHTS + "/nightly", "--state", self.state, *create, *more, "--", self.root]

    def night(self, *more, program=PROGRAM, **environment):
        """A night, and what it says, without the word at the end of a cycle in which nothing is new
        or gone; without words that end it, of a whole cycle. The next night begins in another
        second, by which the log names it."""
        status, out, said = ran(self.words(*more), OCFL_SCRUB=program, **environment)
        time.sleep(1.1)
        return status, without_end(out), said

    def part(self, files="1", **how):
        """A night that reads no more than so many files."""
        return self.night("--files", files, **how)

    def path(self, name):
        return os.path.join(self.state, name)

    def has(self, name):
        return read(self.path(name))

    def rows(self, *kinds):
        """The rows of the log, of these kinds."""
        rows = [json.loads(line) for line in (self.has("log") or "").splitlines()]
        return [row for row in rows if not kinds or row["row"] in kinds]

    def lines(self, cycle):
        """The lines of a cycle's statement, by their names."""
        text = self.has("reports/statement-%06d" % cycle) or ""
        return dict(row.split(": ", 1) for row in text.splitlines()[2:])

    def holds(self, cycle):
        """What `verify` gives for the statement of a cycle."""
        return ask("verify", self.path("reports/statement-%06d" % cycle))[0]

    def reports(self):
        """The names of the closed reports."""
        names = os.listdir(self.path("reports"))
        return sorted(name for name in names if name.startswith(("cycle-", "incomplete-")))

    def whole(self, number):
        """The report of a cycle that is called whole."""
        plain = self.has("reports/cycle-%06d" % number)
        return plain if plain is not None else self.has("reports/cycle-%06d.gz" % number)


def tried(part, *given):
    """What a part gives; that it breaks off is a failure, and the others go on."""
    try:
        return part(*given)
    except Exception:
        common.failed.append(part.__name__)
        traceback.print_exc(file=sys.stdout)
        return []


def tried_apart(parts, folder):
    """Tries each part in a folder of its own; words of the command line pick some of them."""
    for part in parts:
        if len(sys.argv) > 1 and part.__name__ not in sys.argv[1:]:
            continue
        os.mkdir(os.path.join(folder, part.__name__))
        tried(part, os.path.join(folder, part.__name__))
