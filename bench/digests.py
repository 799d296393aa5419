#!/usr/bin/env python3
"""CPU time of `hash_open` against coreutils, each at its best of some rounds.

    bench/digests.py [ROUNDS]

Makes a copy of the repository's crates with one program over them in a new folder, proves and
builds it (a few minutes where no earlier check is kept in `out/`), makes the files, and prints a
table. It needs `rt`, coreutils and 2 GB of disk, and takes the new folder away again. Files are
read once before the rounds, so that they lie in the page cache. A round times our program and its
counterpart, one after the other, by the user and system time of the processes; the least time of
each counts.
"""
import os
import pathlib
import resource
import shutil
import subprocess
import sys
import tempfile

import measure

HERE = pathlib.Path(__file__).resolve().parent
TOP = HERE.parent
ROUNDS = int(sys.argv[1]) if len(sys.argv) > 1 else 5
BIG = 256 * 1024 * 1024
FEW, SMALL = 20_000, 1024


def build(folder):
    """The bench program, proved and compiled over copies of the crates that it stands on."""
    crates = folder / "crates"
    for name in ("ocfl_tree", "ocfl_folder", "ocfl_digest"):
        shutil.copytree(TOP / "crates" / name, crates / name)
    source = crates / "digest_bench" / "src"
    source.mkdir(parents=True)
    shutil.copy(HERE / "digest_bench.txt", source / "main.rt")
    (folder / "crates.txt").write_text(
        "ocfl_tree:\nocfl_folder: ocfl_tree\nocfl_digest: ocfl_tree sha2 sha1 md5\n"
        "digest_bench: ocfl_tree ocfl_folder ocfl_digest\n"
    )
    crate = crates / "digest_bench"
    done = subprocess.run(["rt", "run"], cwd=crate, capture_output=True, text=True)
    program = crate / "out" / "digest_bench"
    if not program.exists():
        sys.exit(done.stdout + done.stderr)
    return program


def cpu(command):
    """The user and system time of a command, in seconds."""
    before = resource.getrusage(resource.RUSAGE_CHILDREN)
    subprocess.run(command, check=True, stdout=subprocess.DEVNULL)
    after = resource.getrusage(resource.RUSAGE_CHILDREN)
    return after.ru_utime - before.ru_utime + after.ru_stime - before.ru_stime


def best(ours, theirs):
    """The least that ours took in any round, and the least that theirs did."""
    rounds = [(sum(map(cpu, ours)), sum(map(cpu, theirs))) for _ in range(ROUNDS)]
    return min(pair[0] for pair in rounds), min(pair[1] for pair in rounds)


def processor():
    for line in pathlib.Path("/proc/cpuinfo").read_text().splitlines():
        if line.startswith("model name"):
            return line.split(":", 1)[1].strip()
    return "unknown"


def main():
    folder = pathlib.Path(tempfile.mkdtemp(prefix="digest_bench_"))
    try:
        program = str(build(folder))
        big, many = folder / "big", folder / "many"
        big.mkdir()
        many.mkdir()
        (big / "f").write_bytes(os.urandom(BIG))
        for i in range(FEW):
            (many / str(i)).write_bytes(os.urandom(SMALL))
        big_file = str(big / "f")

        def of_big(names):
            return [program, str(big), names]

        all_small = [str(many / str(i)) for i in range(FEW)]
        cpu(of_big("md5"))
        cpu([program, str(many), "md5"])
        four = ["md5", "sha1", "sha256", "sha512"]
        rows = [
            ("sha512", [of_big("sha512")], [["sha512sum", big_file]], "`sha512sum`", 1.0),
            ("sha256", [of_big("sha256")], [["sha256sum", big_file]], "`sha256sum`", 1.0),
            ("sha1", [of_big("sha1")], [["sha1sum", big_file]], "`sha1sum`", None),
            ("md5", [of_big("md5")], [["md5sum", big_file]], "`md5sum`", None),
            ("the four together", [of_big(",".join(four))], [of_big(a) for a in four],
             "the four alone", 1.1),
            ("sha256, 20,000 files", [[program, str(many), "sha256"]],
             [["sha256sum", *all_small]], "`sha256sum`", 1.2),
        ]
        print(f"Processor: {processor()}\n")
        print("| case | seconds | against | seconds | ratio | wanted |")
        print("|---|---|---|---|---|---|")
        for name, ours, theirs, against, wanted in rows:
            mine, other = best(ours, theirs)
            limit = measure.at_most(wanted)
            measure.note("digests", name, mine / other, wanted)
            figures = f"{mine:.2f} | {against} | {other:.2f} | {mine / other:.2f}"
            print(f"| {name} | {figures} | {limit} |", flush=True)
    finally:
        shutil.rmtree(folder)


main()
