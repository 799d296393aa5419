#!/usr/bin/env python3
"""Says where the time of a crate's proof goes.

usage: bench/proof_times.py CRATE [HOW_MANY]

Proves the crate from nothing, by one process and over what is proved below it, and prints how many
seconds passed before each module of its proof was kept, the most first. `F.Lts` is made from the
body of the function F and grows faster than it; `F.Proof` is mostly what is searched for. The time
of `CRATE` itself, and of a module that is small in other runs, is mostly the reading of libraries,
which the first module that needs them waits for.
"""
import os
import shutil
import subprocess
import sys

TOP = os.path.dirname(os.path.dirname(os.path.realpath(__file__)))


def kept(folder):
    """The modules below a folder, each with the moment when it was kept, the first ahead."""
    found = []
    for room, _, names in os.walk(folder):
        # The records beside the modules are kept at the same moments.
        if os.path.basename(room) != "records":
            found += [(os.stat(os.path.join(room, name)).st_mtime, name)
                      for name in names if name.endswith(".oantt")]
    return sorted(found)


def main():
    if len(sys.argv) not in (2, 3) or sys.argv[1].startswith("-"):
        sys.exit(__doc__)
    crate = os.path.join(TOP, "crates", sys.argv[1])
    how_many = int(sys.argv[2]) if len(sys.argv) == 3 else 25
    folder = os.path.join(crate, "out", "incremental")
    shutil.rmtree(folder, ignore_errors=True)
    checked = subprocess.run(["rt", "check", "--jobs", "1"], cwd=crate, stdout=subprocess.DEVNULL)
    modules = kept(folder)
    times = [(at - before, name) for (before, _), (at, name) in zip(modules, modules[1:])]
    for seconds, name in sorted(times, reverse=True)[:how_many]:
        print("%6.1f %s" % (seconds, name.removesuffix(".oantt")))
    return checked.returncode


if __name__ == "__main__":
    sys.exit(main())
