"""What the proofs and the edits of each crate cost: the file `bench/proof_minutes.tsv`, and which
crate became dearer. What the edits cost is not known until all of a crate were tried in one run.

All minutes of the file are those of one machine. Where most crates took more or less by about the
same factor, the machine is another one, and what it took is divided by that factor."""
import os
import statistics
import subprocess

from gate.commands import FAILURES, print_line
from gate.repository import TOP

FILE = os.path.join(TOP, "bench", "proof_minutes.tsv")
HEAD = "crate\tproof\tedits\tcommit"
# Stands for minutes that are not known.
UNKNOWN = "-"
# By how much a crate becomes dearer or cheaper, and by how many minutes at least.
MORE, LITTLE = 1.2, 0.3
# The crates of which not all edits were tried: what those took says nothing of what all take.
PARTLY = set()


def parsed(text):
    """The rows of the file: by crate the processor minutes of its proof and of its edits, if they
    are known, and the commit at which they were taken."""
    rows = [line.split("\t") for line in text.splitlines()[1:]]
    return {crate: (float(proof), None if edits == UNKNOWN else float(edits), commit)
            for crate, proof, edits, commit in rows}


def shown(minutes):
    """Minutes as the file has them, or that they are not known."""
    return UNKNOWN if minutes is None else "%.1f" % minutes


def total(row):
    """What the proof of a crate and its edits took, as far as that is known."""
    return row[0] + (row[1] or 0)


def written(rows, order):
    """The file with these rows, the crates in an order."""
    lines = ["\t".join([crate, shown(rows[crate][0]), shown(rows[crate][1]), rows[crate][2]])
             for crate in order if crate in rows]
    return "\n".join([HEAD, *lines, ""])


def pace(before, taken):
    """How long this machine takes for what took the file's a minute, by the crates of both."""
    both = [compared(before[crate], taken[crate]) for crate in taken if crate in before]
    ratios = [new / old for old, new in both if old > LITTLE]
    return statistics.median(ratios) if len(ratios) > 4 else 1


def compared(row, minutes):
    """What a crate took by its row and now: both without edits where one does not know them."""
    known = [at for at in (0, 1) if row[at] is not None and minutes[at] is not None]
    return sum(row[at] for at in known), sum(minutes[at] for at in known)


def changed(before, taken):
    """The crates that are new, or that became dearer or cheaper, each with its minutes at the
    file's pace."""
    factor, found = pace(before, taken), {}
    for crate, (proof, edits) in taken.items():
        row = before.get(crate, (0, None))
        old, new = compared(row, (proof, edits))
        new /= factor
        learnt = row[1] is None and edits is not None
        if learnt or crate not in before or max(old, new) > max(MORE * min(old, new),
                                                                min(old, new) + LITTLE):
            found[crate] = proof / factor, row[1] if edits is None else edits / factor
    return found


def note(taken, order):
    """Says which crates became dearer or cheaper since their rows were written, and writes those
    rows anew. What failed or was not proved from nothing says nothing of what that costs, nor do
    edits of which some were tried."""
    if FAILURES:
        return
    before = parsed(read()) if os.path.exists(FILE) else {}
    taken = {crate: (proof, None if crate in PARTLY else edits)
             for crate, (proof, edits) in taken.items() if proof > 0}
    found = changed(before, taken)
    for crate in found.keys() & before.keys():
        print_line("%s took %.1f minutes at %s, and %.1f now" % (
                   crate, total(before[crate]), before[crate][2], total(found[crate])))
    if found:
        now = {crate: (*minutes, commit_of(TOP)) for crate, minutes in found.items()}
        with open(FILE, "w") as file:
            file.write(written({**before, **now}, order))


def read():
    with open(FILE) as file:
        return file.read()


def commit_of(folder):
    """The commit of a folder, with a plus where it was changed since."""
    commands = [["rev-parse", "--short=7", "HEAD"], ["status", "--porcelain", "-uno"]]
    try:
        said = [subprocess.run(["git", *words], cwd=folder, stdout=subprocess.PIPE, check=True,
                               text=True).stdout.strip() for words in commands]
    except (OSError, subprocess.CalledProcessError):
        return "unknown"
    return said[0] + "+" * bool(said[1])
