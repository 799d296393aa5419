#!/usr/bin/env python3
"""Times `Table::read` beside reading the same JSON alone, over inventories that it makes.

    bench/inventories.py [PAIRS [CHECKOUT]]

Makes a copy of the crates with one program over them (`inventory_bench.txt`) in a new folder,
proves and builds it (a few minutes where no earlier check is kept in `out/`), and prints a table.
A pair is one run that reads the JSON alone and one that reads the table right after it, on one
processor, from the page cache; its ratio is that of their user and system times. The table has the
median of the ratios (of 9 pairs where PAIRS is not given), and the peaks of memory of both, in
times the bytes of the inventory. It needs `rt` and 1 GB of memory, and takes the new folder away
again. Where another checkout of this repository is named, its table is read right after this one,
and a last column has the median of this one's time to its.
"""
import hashlib
import json
import os
import pathlib
import shutil
import statistics
import subprocess
import sys
import tempfile

import measure

HERE = pathlib.Path(__file__).resolve().parent
TOP = HERE.parent
PAIRS = int(sys.argv[1]) if len(sys.argv) > 1 else 9
BELOW = ("ocfl_tree", "ocfl_report", "ocfl_digest", "ocfl_inventory")
LONG = ["directory-number-%03d" % number for number in range(120)]


def plain(number):
    above = "v1/content/collection-%03d/object-number-%05d" % (number % 7, number // 50)
    name = "scan-of-page-number-%08d.original-resolution.tiff" % number
    return "%s/some-longer-directory-name/pages-%04d/%s" % (above, number % 50, name)


def below(directories, number):
    return "/".join(["v1/content", *directories, "file-%06d.tiff" % number])


def chained(number):
    return below(LONG[: 1 + number % 120], number)


def shared(number):
    return below(LONG, number)


def short(number):
    return below(["d"] * 120, number)


def digest(algorithm, number):
    return hashlib.new(algorithm, str(number).encode()).hexdigest()


def listed(path, count, algorithm="sha512"):
    """A block in which each path has a digest of its own."""
    return {digest(algorithm, number): [path(number)] for number in range(count)}


def by_case():
    """A manifest in which each digest stands in small letters and in capitals."""
    manifest = {}
    for number in range(50_000):
        text = digest("sha512", number)
        manifest[text] = [plain(2 * number)]
        manifest[text.upper()] = [plain(2 * number + 1)]
    return {"manifest": manifest}


def by_three():
    """A fixity block of three algorithms beside the manifest."""
    algorithms = ("md5", "sha1", "sha256")
    fixity = {algorithm: listed(plain, 100_000, algorithm) for algorithm in algorithms}
    return {"manifest": listed(plain, 100_000), "fixity": fixity}


def under_one_key():
    return {"manifest": {digest("sha512", 0): [plain(number) for number in range(200_000)]}}


# each with the ratio that is wanted, or none
CASES = [
    ("100,000 files", lambda: {"manifest": listed(plain, 100_000)}, 1.5),
    ("200,000 files", lambda: {"manifest": listed(plain, 200_000)}, None),
    ("50,000 in one deep chain", lambda: {"manifest": listed(chained, 50_000)}, None),
    ("50,000 sharing 120 long elements", lambda: {"manifest": listed(shared, 50_000)}, None),
    ("50,000 sharing 120 one-letter elements", lambda: {"manifest": listed(short, 50_000)}, None),
    ("200,000 paths under one key", under_one_key, 2.5),
    ("100,000 files and three fixity algorithms", by_three, 2.5),
    ("100,000 digests repeated by case", by_case, 2.5),
]


def build(folder, top):
    """The bench program, proved and compiled over copies of the crates that it stands on."""
    crates = folder / "crates"
    for name in BELOW:
        shutil.copytree(top / "crates" / name, crates / name)
    source = crates / "inventory_bench" / "src"
    source.mkdir(parents=True)
    shutil.copy(HERE / "inventory_bench.txt", source / "main.rt")
    shutil.copy(top / "HANDLES", folder)
    lines = (top / "crates.txt").read_text().splitlines()
    kept = [line for line in lines if line.split(":")[0] in BELOW]
    kept.append("inventory_bench: ocfl_inventory serde_json\n")
    (folder / "crates.txt").write_text("\n".join(kept))
    crate = crates / "inventory_bench"
    done = subprocess.run(["rt", "run"], cwd=crate, capture_output=True, text=True)
    program = crate / "out" / "inventory_bench"
    if not program.exists():
        sys.exit(done.stdout + done.stderr)
    return program


def make(case, file):
    """Writes an inventory, in a process of its own: the peak of a run counts that of this one."""
    child = os.fork()
    if child == 0:
        inventory = {"digestAlgorithm": "sha512", "head": "v1", "versions": {}, **case()}
        file.write_text(json.dumps(inventory, separators=(",", ":")))
        os._exit(0)
    if os.waitpid(child, 0)[1] != 0:
        sys.exit("no inventory was made")


def run(program, mode, file):
    """The CPU seconds of one run, and the peak of its memory in bytes."""
    process = subprocess.Popen([program, mode, file], stdout=subprocess.PIPE)
    said = process.stdout.read()
    _, status, usage = os.wait4(process.pid, 0)
    if status != 0 or said != b"taken: true\n":
        sys.exit("%s %s: status %d, %r" % (mode, file, status, said))
    return usage.ru_utime + usage.ru_stime, usage.ru_maxrss * 1024


def measured(title, wanted, programs, file):
    """Prints the row of a case, and answers the median of the table's seconds.

    The first program is this one; a second one is run right after it.
    """
    rounds = []
    for _ in range(PAIRS):
        alone = run(programs[0], "json", file)
        rounds.append([alone, *(run(program, "table", file) for program in programs)])
    ratio = statistics.median(table[0] / alone[0] for alone, table, *_ in rounds)
    size = file.stat().st_size
    peaks = [max(row[which][1] for row in rounds) / size for which in (1, 0)]
    said = "| %s | %.2f | %s | %.2f | %.2f |" % (title, ratio, measure.at_most(wanted), *peaks)
    measure.note("inventories", title, ratio, wanted)
    for other in range(2, 1 + len(programs)):
        said += " %.2f |" % statistics.median(row[1][0] / row[other][0] for row in rounds)
    print(said, flush=True)
    return statistics.median(row[1][0] for row in rounds)


def main():
    tops = [TOP, *(pathlib.Path(word).resolve() for word in sys.argv[2:3])]
    folder = pathlib.Path(tempfile.mkdtemp(prefix="inventory_bench_"))
    try:
        programs = [build(folder / str(number), top) for number, top in enumerate(tops)]
        os.sched_setaffinity(0, {max(os.sched_getaffinity(0))})
        other = " to the other table |" * (len(tops) - 1)
        print("| inventory | CPU, table to JSON | wanted | peak, times the bytes |"
              " peak of the JSON alone |" + other)
        print("|---|---|---|---|---|" + "---|" * (len(tops) - 1))
        seconds = []
        for title, case, wanted in CASES:
            make(case, folder / "inventory.json")
            seconds.append(measured(title, wanted, programs, folder / "inventory.json"))
        print("\n200,000 files take %.2f times as long as 100,000." % (seconds[1] / seconds[0]))
    finally:
        shutil.rmtree(folder)


main()
