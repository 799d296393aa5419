"""`rt ci` over a copy of the crates, in a process of its own: `FOLDER`, which holds the copy.

It is the kit's run, which proves each crate from nothing, but for two things. It builds libraries
on which few others stand with their checked proofs, which `rt ci` leaves out, since what stands on
a library reads its statements alone: so the edits of such a crate are tried over the proof that was
just made, and need none of their own. And the edits stand in the same queue, so that they fill what
proofs leave idle.

Only edits that are due are tried, as `gate/edits/due.py` says.

A line `edits: N passed, M failed` says how those went; the last line is that of `rt ci`."""
import os
import sys

from gate import toolchain
from gate.edits import collection, due, trying

# On how many crates at most a library stands that is built with its proofs: each of their checks
# reads those, which takes it seconds.
FEW = 3


def main():
    os.chdir(sys.argv[1])
    rt = toolchain.load()
    whole = built_whole(toolchain.crates_of(rt, os.getcwd()))
    toolchain.build_whole(rt, whole)
    edits = collection.listed()
    sums = due.sums_of(edits)
    fill(rt, due.chosen(edits, sums), whole, lambda refused: due.note(refused, edits, sums))
    return toolchain.prove_all(rt)


def built_whole(made):
    """The crates whose libraries are built with their proofs."""
    above = [it for crate in made.values() for it in toolchain.names_below(crate)]
    return {name for name in made if above.count(name) <= FEW}


def fill(rt, edits, whole, note):
    """Puts the steps of trying edits into the queue of `rt ci`, and notes those that were
    refused."""
    def ended(given):
        counts = trying.count_refused(given)
        note(trying.refused(given))
        print("edits: %d passed, %d failed" % counts, flush=True)

    toolchain.put_into_queue(
        rt, lambda: trying.tasks_beside(rt, os.getcwd(), edits, whole), ended)


if __name__ == "__main__":
    sys.exit(main())
