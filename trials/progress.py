#!/usr/bin/env python3
"""Tries what is shown on a terminal while the program works.

usage: progress.py

Whatever is shown, the report is the same bytes, and where there is no terminal nothing is shown.
`hours.c` is a clock that goes by hours.

Seen to fail on these faults, each planted alone:

- Progress is shown where there is no terminal, for `check`, or in spite of `--quiet` (of `audit`,
  `run` and `cycle`).
- Progress is not removed, at the end or before a line of the report on the same terminal.
- Progress names another place, or more of it than fits; or it counts bytes twice, no files, or
  files that are not content.
- Progress shows a share where the cursor does not have the cost of an earlier cycle, or a wrong
  one; or one of more than three digits.
- Progress shows minutes where the last cycle's cost is reached; those of the whole cycle, or
  those that have passed, in place of those left.
- Progress does not name a directory that is listed.
- `--quiet` is ignored for a branch or a part; a cursor is read from a pipe before the run reads
  it.
"""
import os
import pty
import re
import stat
import subprocess
import threading

import common
from common import end, check, note, ran, start
from shared.shims import compiled

# More than the program reads from one showing to the next.
LARGE = 300 << 20
FILES = {"v1/content/a": b"abc", "v1/content/z": b""}
# An object whose name has a tab, and is longer than what is shown of a place.
OBJECT = "n" * 70 + "\to"
LARGE_PLACE = "n" * 70 + "%09o/v1/content/large"
SHOWN = LARGE_PLACE[-40:]
COST = LARGE + 1 + 4 + 1
SUMMARY = "cycle 1, run 1, cost %d, ended" % COST
CYCLE = "runs 1, cost %d, ended" % COST


def make(folder):
    """A root with one object."""
    root = os.path.join(folder, "root")
    common.make_root(root, {})
    make_large(os.path.join(root, OBJECT))
    return root


def make_large(folder):
    """An object with a large file between two small ones."""
    large = os.path.join(folder, "v1/content/large")
    os.makedirs(os.path.dirname(large))
    with open(large, "wb") as file:
        file.truncate(LARGE)
    with open(large, "rb") as file:
        common.make_object(folder, FILES, listed={})
        listed = {**FILES, "v1/content/large": file.read()}
    common.make_object(folder, FILES, listed=listed)


class Terminal:
    """A terminal for the program's outputs: what it was sent, and what stands on it at the end."""

    def __init__(self):
        self.ours, self.theirs = pty.openpty()
        self.sent = b""

    def ran(self, words, before=(), how=None, **outputs):
        """The status, what came by pipes, and this terminal's text."""
        ends = {name: self.theirs for name in outputs if outputs[name]}
        process = start(words, before, **ends, **(how or {}))
        os.close(self.theirs)
        while True:
            try:
                part = os.read(self.ours, 65536)
            except OSError:
                break
            if not part:
                break
            self.sent += part
        os.close(self.ours)
        return end(process)

    def text(self):
        """What stands there: a return goes to the line's beginning, and letters replace letters."""
        lines = []
        for sent in self.sent.decode().replace("\r\n", "\n").split("\n"):
            stands = ""
            for part in sent.split("\r"):
                stands = part + stands[len(part):]
            lines.append(stands.rstrip(" "))
        return "\n".join(lines)


def on_standard_error(folder, root, report):
    cursor = os.path.join(folder, "cursor")
    run = ["run", "--cursor", cursor, "--budget", "1G", root]
    cycle = ["cycle", "--budget", "1G", "--runs", "9", root]
    for words, said in [(["audit", root], ""), (run, note(SUMMARY)),
                        (cycle, note(CYCLE))]:
        terminal = Terminal()
        status, out, _ = terminal.ran(words, stderr=True)
        check(words[0] + ": the report", (status, out), (0, report))
        # Two files of content were opened by then, behind four others.
        check(words[0] + ": progress", shown_on(terminal), ["2 files, 255 MiB, at " + SHOWN])
        check(words[0] + ": what is left on the terminal", terminal.text(), said)
        check(words[0] + ": it fits into a line", widest(terminal) <= 79, True)


def without_proc(root, report):
    """A terminal is one by what it is, also if no file system has a name for it."""
    if os.geteuid() != 0:
        return note_left_out("a terminal without /proc: mounting needs root")
    hidden = ["unshare", "-m", "sh", "-c", 'mount -t tmpfs none /proc && exec "$@"', "sh"]
    terminal = Terminal()
    status, out, _ = terminal.ran(["audit", root], hidden, stderr=True)
    check("without /proc: the report", (status, out), (0, report))
    check("without /proc: progress", shown_on(terminal), ["2 files, 255 MiB, at " + SHOWN])


def note_left_out(what):
    print("progress.py: skipped: %s" % what, flush=True)


def shown_on(terminal):
    """The progress that a terminal was sent, line by line."""
    parts = terminal.sent.decode().split("\r")
    return [part.rstrip(" ") for part in parts if " MiB, " in part]


def widest(terminal):
    return max(len(part) for part in terminal.sent.decode().split("\r"))


def in_the_next_cycle(folder, root, report):
    """The cursor of a cycle that has ended tells what it cost, of the whole and of a part."""
    parts = common.write(os.path.join(folder, "parts"), ran(["split", "--parts", "1", root])[1]
                         .encode())
    for name, choice in [("of the whole", []), ("of a part", ["--parts", parts, "--part", "1"])]:
        cursor = os.path.join(folder, "cursor " + name)
        run = ["run", "--cursor", cursor, *choice, "--budget", "1G", root]
        for cycle, share in [(1, ""), (2, "85 % of the last cycle, 1 min left, ")]:
            terminal = Terminal()
            status, out, _ = terminal.ran(run, stderr=True)
            check("%s, cycle %d: the report" % (name, cycle), (status, out), (0, report))
            done = "2 files, 255 MiB, %sat " % share
            check("%s, cycle %d: progress" % (name, cycle), shown_on(terminal),
                  [done + LARGE_PLACE[-min(40, 79 - len(done)):]])
            check("%s, cycle %d: it fits into a line" % (name, cycle), widest(terminal) <= 79,
                  True)


def in_an_open_cycle(folder, root):
    """What an earlier run of the same cycle cost tells nothing of the whole."""
    run = ["run", "--cursor", os.path.join(folder, "open"), "--budget", "1", root]
    check("a run that leaves its cycle open", ran(run)[0], 0)
    terminal = Terminal()
    check("the run that goes on", terminal.ran(run, stderr=True)[0], 0)
    check("the run that goes on: progress", shown_on(terminal), ["1 files, 255 MiB, at " + SHOWN])


def cursor_that_cost(folder, cost):
    """The file of a cursor whose cycle has ended, and cost this."""
    body = b"ocfl-scrub cursor 2\ncycle 1\nruns 1\nspent %d\nfiles 1\nended\n" % cost
    text = body + b"digest %s\n" % common.digest(body).encode()
    return common.write(os.path.join(folder, "cursor that cost"), text)


def shares_of_a_cycle(folder, root):
    """Beyond the last cycle's cost no time is told, and the share stays in its room."""
    for cost, share in [(255 << 20, "100 %"), (200 << 20, "127 %"), (1, "999 %")]:
        terminal = Terminal()
        run = ["run", "--cursor", cursor_that_cost(folder, cost), "--budget", "1G", root]
        check("a last cycle of %d" % cost, terminal.ran(run, stderr=True)[0], 0)
        done = "2 files, 255 MiB, %s of the last cycle, at " % share
        check("a last cycle of %d: progress" % cost, shown_on(terminal),
              [done + LARGE_PLACE[-min(40, 79 - len(done)):]])
        check("a last cycle of %d: it fits into a line" % cost, widest(terminal) <= 79, True)


def minutes_that_are_left(folder, root):
    """An hour after the first hundredths, by a clock that goes by hours."""
    hours = {**os.environ, "LD_PRELOAD": compiled(folder, "hours")}
    # A quarter is done in 60 minutes: 180 are left, and one more for the seconds of the last.
    for share, minutes in [(25, 181), (75, 21)]:
        # Half a hundredth more than that is done, of what is read by then.
        cursor = cursor_that_cost(folder, (511 << 19) * 200 // (2 * share + 1))
        terminal = Terminal()
        run = ["run", "--cursor", cursor, "--budget", "1G", root]
        check("%d %%: the run" % share, terminal.ran(run, how={"env": hours}, stderr=True)[0], 0)
        shown = re.findall(r"MiB, (.*) at ", "".join(shown_on(terminal)))
        check("%d %%: the minutes left" % share, shown,
              ["%d %% of the last cycle, %d min left," % (share, minutes)])


def at_a_directory(folder):
    """Where nothing is read, the directory that is listed is shown."""
    root = common.make_root(os.path.join(folder, "directories"), {})
    for number in range(8_200):
        os.mkdir(os.path.join(root, "d%04d" % number))
    terminal = Terminal()
    # A pipe has no room for all of its lines.
    with open(os.devnull, "wb") as null:
        status = terminal.ran(["audit", root], how={"stdout": null}, stderr=True)[0]
    check("many directories", status, 1)
    # 8,192 calls are the work of 256 MiB: the first two list the root and open its declaration.
    check("many directories: progress", shown_on(terminal), ["0 files, 0 MiB, at d8189"])


def from_a_pipe(folder, root, report):
    """A cursor from a pipe is read once, by the run itself."""
    file = os.path.join(folder, "pipe")
    given = [common.read(cursor_that_cost(folder, COST))]
    os.mkfifo(file)

    def give():
        try:
            # The program puts a file in the pipe's place at its end.
            while stat.S_ISFIFO(os.stat(file).st_mode):
                with open(os.open(file, os.O_WRONLY), "wb") as pipe:
                    pipe.write(given.pop() if given else b"")
        except FileNotFoundError:
            pass

    threading.Thread(target=give, daemon=True).start()
    terminal = Terminal()
    run = ["run", "--cursor", file, "--budget", "1G", root]
    check("a cursor from a pipe", terminal.ran(run, stderr=True)[:2], (0, report))
    check("a cursor from a pipe: progress", shown_on(terminal), ["2 files, 255 MiB, at " + SHOWN])
    check("a cursor from a pipe: what is said", terminal.text(),
          note(SUMMARY.replace("cycle 1", "cycle 2")))


def over_many_objects(folder):
    """Content files are counted as the cursor counts them, and no other files."""
    files = {**FILES, "v1/content/0=ocfl_object_1.1": b"", "v2/content/d/e": b"abc"}
    root = common.make_root(os.path.join(folder, "many"), {
        name: files for name in ["a", "b/c", "b/d/e", "f"]})
    make_large(os.path.join(root, "g"))
    # A stray file, which does not make the storage root an object.
    common.write(os.path.join(root, "0=ocfl_object_1.1"), b"")
    cursor = os.path.join(folder, "cursor of many")
    terminal = Terminal()
    run = ["run", "--cursor", cursor, "--budget", "1G", root]
    check("many objects, and a stray file", terminal.ran(run, stderr=True)[0], 0)
    counted = int(re.search(r"files (\d+)", common.shown_cursor(cursor))[1])
    # The last file of the last object comes behind the line, and the listings took a MiB of it.
    check("many objects: progress", shown_on(terminal),
          ["%d files, 254 MiB, at g/v1/content/large" % (counted - 1)])


def quietly(folder, root, report):
    cursor = os.path.join(folder, "quiet")
    parts = common.write(os.path.join(folder, "quiet parts"), b"")
    part = ["--parts", parts, "--part", "1"]
    for words, said in [
        (["audit", root], ""),
        (["audit", "--under", ".", root], ""),
        (["audit", *part, root], ""),
        (["run", "--cursor", cursor + "-part", "--budget", "1G", *part, root], note(SUMMARY)),
        (["run", "--cursor", cursor, "--budget", "1G", root], note(SUMMARY)),
        (["cycle", "--budget", "1G", "--runs", "9", root], note(CYCLE)),
    ]:
        terminal = Terminal()
        got = terminal.ran([words[0], "--quiet", *words[1:]], stderr=True)[:2]
        check("quiet %s: the report" % words[:2], got, (0, report))
        shown = terminal.sent.decode().replace("\r\n", "\n")
        check("quiet %s: no more is shown than is said" % words[:2], shown, said)
    terminal = Terminal()
    checked = common.line("ok", LARGE_PLACE, LARGE)
    status, out, _ = terminal.ran(["check", root, LARGE_PLACE], stderr=True)
    check("check: the line", (status, out), (0, checked))
    check("check: nothing is shown", terminal.sent, b"")
    check("no terminal", ran(["audit", root]), (0, report, ""))
    with open(os.devnull, "wb") as null:
        check("no terminal, but a device", ran(["audit", root], stderr=null)[:2], (0, report))
    said = os.path.join(folder, "said")
    with open(said, "wb") as file:
        check("no terminal, but a file", ran(["audit", root], stderr=file)[:2], (0, report))
    check("no terminal, but a file: nothing is shown", common.read(said), b"")
    process = start(["audit", root], stderr=subprocess.STDOUT)
    check("one pipe for both", end(process)[:2], (0, report))


def on_one_terminal(folder, root, report):
    terminal = Terminal()
    status, _, _ = terminal.ran(["audit", root], stdout=True, stderr=True)
    check("both on one terminal", (status, terminal.text()), (0, report))
    check("both on one terminal: progress is shown", b" MiB, at " in terminal.sent, True)
    terminal = Terminal()
    _, _, said = terminal.ran(["audit", root], stdout=True)
    check("report on a terminal alone", (terminal.text(), said), (report, ""))


def check_all(folder):
    root = make(folder)
    status, report, said = ran(["audit", root])
    check("without a terminal", (status, said, report.count("\n")), (0, "", 5))
    for tells in [on_standard_error, quietly, on_one_terminal, in_the_next_cycle, from_a_pipe]:
        tells(folder, root, report)
    without_proc(root, report)
    for tells in [in_an_open_cycle, shares_of_a_cycle, minutes_that_are_left]:
        tells(folder, root)
    over_many_objects(folder)
    at_a_directory(folder)


common.run_trial(check_all)
