"""How long the gate takes, and how much of that goes to the proofs and the edits of each crate."""
import collections
import glob
import os
import threading
import time

from gate import minutes, toolchain
from gate.commands import print_line
from gate.repository import TESTS, crates

TICKS = os.sysconf("SC_CLK_TCK")
# A process: its parent, its name, and the processor seconds that it has taken.
Process = collections.namedtuple("Process", "parent name seconds")


class Clock:
    """Looks each second at the processes of the prover that were started below this one, and keeps
    what each had taken then, by its crate and by whether it checked an edit."""

    def __init__(self):
        self.began, self.taken = time.monotonic(), {}
        self.ended = threading.Event()
        self.watching = threading.Thread(target=self.watch, daemon=True)

    def __enter__(self):
        self.watching.start()
        return self

    def __exit__(self, *_):
        self.ended.set()
        self.watching.join()

    def watch(self):
        while not self.ended.wait(1):
            seen = processes()
            for number, process in seen.items():
                if process.name == "rattle" and is_below(number, os.getpid(), seen):
                    what = self.taken.get(number, (work_of(number), 0))[0]
                    self.taken[number] = what, process.seconds

    def minutes(self, crate, of_edits):
        return sum(seconds for what, seconds in self.taken.values()
                   if what == (crate, of_edits)) / 60

    def print_minutes(self):
        """Says the minutes of each crate, as far as they were seen, and those of the whole."""
        taken = {crate: (self.minutes(crate, False), self.minutes(crate, True))
                 for crate in crates() if crate != TESTS}
        for crate, both in taken.items():
            if any(both):
                print_line("%s: %.1f processor minutes of proofs, %.1f of edits" % (crate, *both))
        minutes.note(taken, crates())
        rt = toolchain.load()
        processors = toolchain.processors(rt) if rt else os.cpu_count()
        print_line("all of it took %.1f minutes on %d processors"
                   % ((time.monotonic() - self.began) / 60, processors))


def processes():
    """The processes of the system by their numbers, or none where it does not show them."""
    found = {}
    for file in glob.glob("/proc/[0-9]*/stat"):
        try:
            with open(file) as it:
                name, fields = it.read().split("(", 1)[1].rsplit(")", 1)
        except (OSError, IndexError):
            continue
        fields = fields.split()
        seconds = (int(fields[11]) + int(fields[12])) / TICKS
        found[int(file.split("/")[2])] = Process(int(fields[1]), name, seconds)
    return found


def is_below(number, above, seen):
    while number in seen and number != above:
        number = seen[number].parent
    return number == above


def work_of(number):
    """The crate that a process of the prover checks, and whether that is with an edit, which `rt`
    checks in a folder whose name says so."""
    try:
        with open("/proc/%d/cmdline" % number) as file:
            words = file.read().split("\0")
        folder = os.path.basename(os.readlink("/proc/%d/cwd" % number))
        return words[words.index("--crate-name") + 1], folder.startswith("rt-edit-")
    except (OSError, ValueError, IndexError):
        return None
