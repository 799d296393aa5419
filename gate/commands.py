"""Runs commands that end in a count of what passed and what failed."""
import io
import os
import re
import signal
import subprocess
import threading

from gate.repository import TOP

COUNT = re.compile(r"^(\d+) passed, (\d+) failed$")
# The lines in which a trial, the tests and `rt ci` name what failed.
NAMED = re.compile(r"failed: |test (?!result:).* FAILED|rt: FAILED: ")
# The lines in which a trial names what it could not try.
SKIP = re.compile(r"(\S+: )?skipped: ")
# What failed and what was skipped, to be shown once more at the end.
FAILURES = []
SKIPPED = []
# What runs in a session of its own, which a terminal's interrupt does not reach.
RUNNING = set()
INTERRUPTED = threading.Event()


def print_line(text):
    print("test: " + text, flush=True)


def fail(text):
    """Says what failed, also at the end, and gives the count of it."""
    print_line(text)
    FAILURES.append(text)
    return 0, 1


def added(counts):
    """Adds up how many checks passed and how many failed."""
    return tuple(sum(column) for column in zip((0, 0), *counts))


def counted(name, command, limit=None, count=COUNT, out=None, meets=None, **how):
    """Runs a command, shows what it writes, and gives how many of its checks passed and failed.

    Its last line must be that count, or of another form of count the last that there is; it is
    shown with the name in front. `meets` is called with each line.
    """
    how = {"cwd": TOP, **how}
    try:
        started = subprocess.Popen(command, stdin=subprocess.DEVNULL, stdout=subprocess.PIPE,
                                   text=True, errors="replace", start_new_session=limit is not None,
                                   **how)
    except OSError as error:
        return fail("%s could not be started: %s" % (name, error))
    timer = threading.Timer(limit, stop, [started, name, limit]) if limit else None
    if timer:
        RUNNING.add(started)
        timer.start()
        # An interrupt that came before this was added did not reach it.
        if INTERRUPTED.is_set():
            os.killpg(started.pid, signal.SIGINT)
    last, named = None, []
    for line in started.stdout:
        if meets is not None:
            meets(line)
        if NAMED.match(line):
            named.append(line.rstrip("\n"))
        if SKIP.match(line):
            SKIPPED.append(line.rstrip("\n"))
        found = count.match(line.rstrip("\n"))
        last = found or (None if count is COUNT else last)
        print("%s: %s" % (name, line) if found else line, end="", flush=True, file=out)
    status = started.wait()
    if timer:
        timer.cancel()
        RUNNING.discard(started)
    if not last:
        return fail("%s ended with status %s and without a count" % (name, status))
    passed, failed = int(last[1]), int(last[2])
    if failed > 0:
        FAILURES.extend(named or ["%s: %d of its checks" % (name, failed)])
    elif status != 0:
        failed = fail("%s ended with status %s" % (name, status))[1]
    return passed, failed


def stop(started, name, limit):
    """Ends a command with all that it started."""
    fail("%s has not ended after %d seconds" % (name, limit))
    os.killpg(started.pid, signal.SIGKILL)


def interrupt():
    """Hands an interrupt on to what it did not reach."""
    INTERRUPTED.set()
    for started in list(RUNNING):
        os.killpg(started.pid, signal.SIGINT)


def show_failures():
    """Shows once more what was skipped and what failed, a line each."""
    for text in SKIPPED:
        print("skipped: " + text.replace("skipped: ", "", 1), flush=True)
    for text in FAILURES:
        print("failed: " + text.removeprefix("failed: "), flush=True)


def shown(name, command, limit, count=COUNT, **how):
    """Runs a command beside others: what it writes is shown when it has ended."""
    out = io.StringIO()
    counts = counted(name, command, limit, count, out, **how)
    print(out.getvalue(), end="", flush=True)
    return counts
