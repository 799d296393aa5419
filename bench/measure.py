"""What the scripts of this folder share: the program, CPU times, peaks of memory, folders that they
make, and rows.

Folders are made below TMPDIR. A row that has a ratio is written into the file that
OCFL_BENCH_ROWS names too, for `bench/run`: its table, its name, the ratio and what is wanted.
OCFL_BENCH_ROUNDS says how often commands take turns.
"""
import hashlib
import os
import resource
import shutil
import subprocess
import tempfile

HERE = os.path.dirname(os.path.abspath(__file__))
BUILT = os.path.join(HERE, "..", "crates", "ocfl_scrub_cli", "out", "ocfl_scrub_cli")
PROGRAM = os.path.abspath(os.environ.get("OCFL_SCRUB", BUILT))
ROUNDS = int(os.environ.get("OCFL_BENCH_ROUNDS", "3"))


def write(path, data):
    os.makedirs(os.path.dirname(path), exist_ok=True)
    with open(path, "wb") as file:
        file.write(data)


def digest(algorithm, data):
    return hashlib.new(algorithm, data).hexdigest()


def cpu_while(call):
    """The CPU seconds, user and system, of the processes that a call starts and waits for."""
    before = resource.getrusage(resource.RUSAGE_CHILDREN)
    call()
    after = resource.getrusage(resource.RUSAGE_CHILDREN)
    return after.ru_utime + after.ru_stime - before.ru_utime - before.ru_stime


def cpu_of(command):
    """The CPU seconds of a command of the shell; it may fail."""
    return cpu_while(lambda: subprocess.run(command, shell=True, stdout=subprocess.DEVNULL))


def peak_of(command):
    """The peak of resident memory, in MiB, of a command that the shell becomes (`exec`).
    `ru_maxrss` would count that of this script too."""
    peak, process = 0, subprocess.Popen(command, shell=True, stdout=subprocess.DEVNULL)
    while process.poll() is None:
        with open("/proc/%d/status" % process.pid) as status:
            found = [line.split()[1] for line in status if line.startswith("VmHWM:")]
        peak = max([peak, *map(int, found)])
    return peak / 1024


def audit_of(root):
    return "exec %s audit %s" % (PROGRAM, root)


def bests(rounds, *calls):
    """The least seconds of each call, of rounds in which they take turns, after one that counts
    for nothing."""
    for call in calls:
        call()
    return [min(column) for column in zip(*([call() for call in calls] for _ in range(rounds)))]


def with_root(make, *tell):
    """Makes a storage root in a new folder, tells of it, and takes it away."""
    root = tempfile.mkdtemp(prefix="ocfl-bench-")
    try:
        write(os.path.join(root, "0=ocfl_1.1"), b"ocfl_1.1\n")
        make(root)
        for each in tell:
            each(root)
    finally:
        shutil.rmtree(root)


def head(*names):
    print("| %s |" % " | ".join(names))
    print("|%s" % ("---|" * len(names)), flush=True)


def at_most(wanted):
    return "at most %.2f" % wanted if wanted else ""


def note(table, row, ratio, wanted=None):
    """Keeps a ratio for `bench/run`."""
    rows = os.environ.get("OCFL_BENCH_ROWS")
    if rows:
        with open(rows, "a") as file:
            file.write("%s\t%s\t%.3f\t%s\n" % (table, row, ratio, wanted or "-"))
