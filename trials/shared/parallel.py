"""What the trials of many processes share: a storage root with damage of each kind, and the folder
of its parts.

The scripts are those of the folder that OCFL_SCRUB_NIGHTS names. Without it, they are those of
`nights` at the top of the repository.
"""
import glob
import json
import os
import random
import shutil
import subprocess
import time

import common
from common import PROGRAM, TOP, check
from shared.messages import findings_in, key, without_end
from shared.nights import NIGHTS, REPORTS, ran, read, write

# A name that is not UTF-8 keeps a directory from being listed, for root too.
ODD = b"\xff"


def gallery(folder):
    """Objects with each fault that a folder can have."""
    made = folder + "/gallery"
    subprocess.run([TOP + "/samples/gallery", made], check=True)
    os.remove(made + "/0=ocfl_1.1")
    return made


def make_root(folder, count=300, seed=36, faults=True):
    """A storage root of so many objects, some of them damaged, and the objects of the gallery."""
    chance = random.Random(seed)
    faulty = gallery(folder) if faults else None
    objects = {}
    for number in range(count - (len(os.listdir(faulty)) if faulty else 0)):
        place = "%02d/o-%03d" % (number % 20, number)
        objects[place] = {"v1/content/%s%d" % (chance.choice("abc"), file): bytes(
            chance.randrange(3000)) for file in range(2)}
    root = common.make_root(folder + "/root", objects)
    places = ["%s/%s" % (place, path) for place, files in sorted(objects.items())
              for path in files]
    for path in chance.sample(places, max(2, count // 30)):
        write(root + "/" + path, "damaged")
    for path in chance.sample(places, max(1, count // 100)):
        os.remove(root + "/" + path)
    write(root + "/07/astray", "")
    write(root + "/19/o-019/v1/content/not listed", "x")
    if faulty:
        shutil.move(faulty, root + "/gallery")
    return root


def small_root(folder, damaged=(), count=9):
    """A storage root of objects of two files each, some of them damaged."""
    root = common.make_root(folder + "/root", {
        "o%02d" % number: {"v1/content/a": b"abc", "v1/content/b": b"d"}
        for number in range(count)})
    for place in damaged:
        write("%s/%s/v1/content/a" % (root, place), "damaged")
    return root


class Place:
    """A directory of a storage root that cannot be read until it is repaired."""

    def __init__(self, root, place):
        self.place = place
        self.name = os.path.join(os.fsencode(root + "/" + place), ODD)

    def spoil(self):
        with open(self.name, "wb"):
            pass

    def mend(self):
        os.remove(self.name)


def audit(root):
    return ran([PROGRAM, "audit", root])[1]


def findings(report):
    """The findings of a report, each by its code and its place."""
    return {key(line) for line in report.splitlines() if line.split("\t")[0] not in ("ok", "S07")}


def lines_in_message(said):
    """The findings that a message shows, in the same way."""
    return set(findings_in(said))


class Together:
    """The folder of the parts of a storage root."""

    def __init__(self, state, root):
        self.state, self.root = state, root

    def path(self, name):
        return os.path.join(self.state, name)

    def part(self, number, name=""):
        return self.path("part-%06d/%s" % (int(number), name))

    def has(self, name):
        return read(self.path(name))

    def words(self, *more, jobs=4, parts=24):
        return [NIGHTS + "/parallel/nightly", "--create", "--jobs", str(jobs), "--parts",
                str(parts), "--state", self.state, *more, self.root]

    def night(self, *more, jobs=4, parts=4, **environment):
        """A night of all parts, and what it says, without the word at the end of a cycle in which
        nothing is new or gone. The next one begins in another second, by which logs name it: what
        is gone in two nights of one second is not known."""
        status, out, said = ran(self.words(*more, jobs=jobs, parts=parts), **environment)
        time.sleep(1.01 - time.time() % 1)
        return status, without_end(out), said

    def start(self, *more, program=PROGRAM, **how):
        return subprocess.Popen(self.words(*more, **how), stdin=subprocess.DEVNULL,
                                stdout=subprocess.PIPE, stderr=subprocess.STDOUT,
                                start_new_session=True,
                                env={**os.environ, "OCFL_SCRUB": program})

    def by_hand(self, name, *words, root=True, **environment):
        """A call of `begin`, `part` or `end`."""
        last = [self.root] if root and name != "end" else []
        return ran([NIGHTS + "/parallel/" + name, "--state", self.state, *words, *last],
                   **environment)

    def given(self, *more):
        """The numbers of the parts that `begin` gives out."""
        status, out, said = self.by_hand("begin", "--create", "--parts", "4", *more)
        check("begin", (status, said), (0, ""))
        return out.split()

    def make(self, numbers, *more):
        for number in numbers:
            check("part " + number, self.by_hand("part", "--part", number, *more)[0] in (0, 1),
                  True)

    def end(self, *words):
        status, out, said = self.by_hand("end", *words)
        return status, without_end(out), said

    def level(self):
        """What `status` ends with, whatever the findings and the age."""
        return ran([REPORTS, "status", "--age", "-,-", "--findings", "-,-", "--damaged", "-,-",
                    self.state])[0]

    def rows(self, number):
        """The rows of the log of a part."""
        return [json.loads(row) for row in (read(self.part(number, "log")) or "").splitlines()]

    def count(self):
        return len(glob.glob(self.path("part-*")))

    def is_audit(self, name, cycle=1):
        """The joined report is what `audit` writes, byte for byte."""
        return check(name, self.has("reports/cycle-%06d" % cycle), audit(self.root))


def begun(folder, damaged=()):
    """The nights of a small root, and the numbers of its four parts."""
    nights = Together(folder + "/state", small_root(folder, damaged))
    return nights, nights.given()


def check_statement(name, nights, cycle):
    """The statement of a joined report holds."""
    statement = nights.path("reports/statement-%06d" % cycle)
    said = ran([REPORTS, "verify", statement])
    return check(name, (said[0] in (0, 4), "does not hold" in said[1] + said[2],
                        "\nWhole: yes\n" in (read(statement) or "")), (True, False, True))


__all__ = ["Place", "Together", "audit", "begun", "check_statement", "findings",
           "lines_in_message", "make_root", "small_root"]
