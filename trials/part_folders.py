#!/usr/bin/env python3
"""Tries what nights of all parts say of what went wrong, by `begin`, `part` and `end` of
`nights/parallel`: parts that nobody ran or that were killed, broken folders, an interrupted
division, messages without room, links, the folder of another user.

usage: part_folders.py [PART]...

Tried, and what comes of it. Each row was seen to fail on scripts that lacked it:

- Parts that were given out and that nobody ran; the same without `end`: they are named once, with
  status 3; `status` is not OK until they were run.
- A part that is killed on each of its nights: it is told each time, and goes on once its run
  comes to its end.
- The folder of a part that is gone, is another's or another root's, has a damaged checkpoint or
  none, or is a link: it is named, status 3; the other parts go on, and nothing is joined until it
  is put back.
- Separators that are gone, broken, out of order or cut short: named, status 3; never written
  again.
- A division that is killed at each fourth of its calls: it is made again as a whole.
- A root that is not mounted: `begin` refuses it once, and what all parts say is there once, with
  status 3; no first night.
- A full standard output; a full disk of the state: status 3, and the next `end` says all of it.
  It mounts for that; where it cannot, it says so.
- Links in the place of each file that is read or written; root in the folder of another user;
  umask 0: none is followed; nothing is done; files are 0640.
- A state folder in the root, and that of a whole root: refused, and nothing is written there.
- Each call of `flock` made to fail with ENOLCK: status 3, the lock is named, and nobody waits.
"""
import glob
import os
import shutil
import signal
import stat
import subprocess
import time

import common
from common import PROGRAM, check
from shared.nights import NIGHTS, ran, read, tried_apart, write
from shared.parallel import Together, audit, begun, findings, small_root, lines_in_message


def nobody_ran(folder):
    """Parts that were given out and that nobody ran are named once, and `status` says so."""
    nights, numbers = begun(folder)
    check("four parts", numbers, ["1", "2", "3", "4"])
    nights.make(["1", "4"])
    status, out, said = nights.end()
    check("the others are named", (status, said, " in parts 2-3: " in out), (3, "", True))
    check("status", nights.level(), 2)
    check("it is said once", (nights.end(), nights.level()), ((0, "", ""), 2))
    nights.make(nights.given())
    check("then all are run", (nights.end(), nights.level()), ((0, "", ""), 0))
    nights.is_audit("and joined")


def nobody_ended(folder):
    """A night that nothing ended is said by the next one, with what was found in it."""
    nights, numbers = begun(folder, ["o01"])
    nights.make(numbers[:2])
    nights.make(nights.given())
    status, out, _ = nights.end()
    check("it is said", (status, "parallel/end did not end" in out, " in parts 3-4: " in out),
          (3, True, True))
    check("and the finding", lines_in_message(out), findings(audit(nights.root)))


def open_somewhere(path):
    """Whether a process has a file open."""
    for link in glob.glob("/proc/[0-9]*/fd/*"):
        try:
            if os.readlink(link) == path:
                return True
        except OSError:
            continue
    return False


def killed(folder):
    """A part that is killed is told on each night, until its run comes to its end."""
    nights, numbers = begun(folder)
    file = nights.root + "/o08/v1/content/a"
    with open(file, "r+b") as large:
        large.truncate(1 << 36)
    nights.make(numbers[:-1])
    for _ in range(2):
        part = subprocess.Popen([NIGHTS + "/parallel/part", "--state", nights.state, "--part", "4",
                                 nights.root], env={**os.environ, "OCFL_SCRUB": PROGRAM})
        until = time.monotonic() + 60
        while not open_somewhere(file) and time.monotonic() < until:
            time.sleep(0.01)
        part.send_signal(signal.SIGKILL)
        part.wait()
        status, out, _ = nights.end()
        check("killed", (status, " in part 4: " in out, nights.level()), (3, True, 2))
        check("it alone is given out", nights.given(), ["4"])
    write(file, "abc")
    nights.make(["4"])
    check("then it is audited", nights.end(), (0, "", ""))
    nights.is_audit("joined")


def broken(folder):
    """A folder of a part that is gone, is another's, or has no sound checkpoint is named with
    status 3, and the other parts go on."""
    for name in ["gone", "another part", "another root", "damaged", "no checkpoint", "a link"]:
        there = "%s/%s" % (folder, name)
        os.mkdir(there)
        nights, numbers = begun(there)
        nights.make(numbers)
        nights.end()
        own = nights.part(2).rstrip("/")
        kept = shutil.move(own, there + "/kept")
        spoil(name, nights, own, kept)
        numbers = nights.given()
        for number in numbers:
            nights.by_hand("part", "--part", number)
        status, out, _ = nights.end()
        # A monitor gets UNKNOWN for a link.
        check(name, (status, " in part 2: " in out, nights.level()),
              (3, True, 3 if name == "a link" else 2))
        check(name + ": which is named", out.count("part-000002") > 0, True)
        check(name + ": the others", [nights.rows(number)[-1]["status"] for number in (1, 3, 4)],
              [0, 0, 0])
        check(name + ": nothing is joined", nights.has("reports/cycle-000002"), None)
        if os.path.islink(own):
            os.remove(own)
        shutil.rmtree(own, ignore_errors=True)
        shutil.move(kept, own)
        nights.make(nights.given())
        check(name + ": put back", nights.end(), (0, "", ""))
        nights.is_audit(name + ": joined", 2)


def spoil(name, nights, own, kept):
    """Puts something else in the place of a part's folder."""
    if name == "another part":
        shutil.copytree(nights.part(3), own)
    elif name == "a link":
        os.symlink(kept, own)
    elif name != "gone":
        shutil.copytree(kept, own)
    if name == "another root":
        other = shutil.copytree(nights.root, nights.root + "-other")
        shutil.rmtree(own)
        ran([PROGRAM, "night", "--create", "--state", own, "--parts", nights.path("parts"),
             "--part", "2", other])
    elif name == "damaged":
        write(own + "/checkpoint", read(own + "/checkpoint").replace("runs ", "runs 1"))
    elif name == "no checkpoint":
        os.remove(own + "/checkpoint")


def separators(folder):
    """A file of separators that is gone, cut short or broken is named; nothing is divided again."""
    nights, numbers = begun(folder)
    nights.make(numbers)
    nights.end()
    kept = read(nights.path("parts"))
    for name, text in [("gone", None), ("broken", kept[:-2] + "\0"), ("out of order", "z\na\n"),
                       ("cut short", kept.split("\n")[0] + "\n")]:
        write(nights.path("parts"), text or "")
        if text is None:
            os.remove(nights.path("parts"))
        before = read(nights.path("parts"))
        status, out, said = nights.by_hand("begin", "--create", "--parts", "4")
        for number in out.split():
            nights.by_hand("part", "--part", number)
        status, out, _ = nights.end()
        check(name, (status, nights.path("parts") in out or "bad parts" in out, nights.level()),
              (3, True, 2))
        check(name + ": it stays", read(nights.path("parts")), before)
    write(nights.path("parts"), kept)
    nights.make(nights.given())
    check("put back", nights.end()[0], 0)
    check("joined", nights.has("reports/cycle-000002"), audit(nights.root))


def interrupted(folder):
    """A division that was cut at any call leaves nothing that a night takes for whole."""
    nights = Together(folder + "/state", small_root(folder))
    words = [NIGHTS + "/parallel/begin", "--create", "--parts", "4", "--state", nights.state,
             nights.root]
    for call in range(1, 60, 4):
        shutil.rmtree(nights.state, ignore_errors=True)
        killed_at = ["strace", "--quiet=all", "-o", "/dev/null", "-e",
                     "inject=mkdir,rename,fsync,flock:signal=KILL:when=%d" % call]
        if ran([*killed_at, *words])[0] == 0:
            break
        numbers = nights.given()
        check("parts after call %d" % call, (numbers, nights.count()), (["1", "2", "3", "4"], 4))
    check("it was cut", call > 8, True)
    for number in ("1", "2", "3", "4"):
        nights.by_hand("part", "--part", number)
    nights.end()
    nights.is_audit("the cycle")


def begin_refused(folder):
    """That a night could not begin is said by `end` once, and `status` shows it."""
    nights, numbers = begun(folder)
    os.rename(nights.root, nights.root + ".away")
    os.mkdir(nights.root)
    status, out, said = nights.by_hand("begin")
    check("refused", (status, out, "is its file system mounted?" in said), (3, "", True))
    check("status before the end", nights.level(), 2)
    status, out, _ = nights.end()
    check("the end says why", (status, out.count("is its file system mounted?")), (3, 1))
    check("status after it", nights.level(), 2)
    for number in numbers:
        nights.by_hand("part", "--part", number)
    status, out, _ = nights.end()
    check("what all say is there once", (status, out.count("is its file system mounted?"),
                                         "In parts 1-4:" in out), (3, 1, True))
    other = Together(folder + "/other", nights.root)
    status, out, said = other.by_hand("begin", "--create", "--parts", "4")
    check("no first night", (status, os.path.exists(other.path("parts"))), (3, False))
    shutil.rmtree(nights.root)
    os.rename(nights.root + ".away", nights.root)
    check("a state folder that is away", Together(folder + "/none", nights.root).by_hand(
        "begin")[0:2], (3, ""))
    check("is not made", os.path.exists(folder + "/none"), False)


# Leaves so many KiB on a small disk that has the state.
SMALL = """mount -t tmpfs -o size=1m tmpfs "$1" || exit 99
cp -a "$2/." "$1" || exit 98
head -c 4M /dev/zero > "$1/filler" 2> /dev/null
shift 2
"$@"; status=$?
rm -f "$DISK/filler"; rm -rf "$KEPT"; cp -a "$DISK" "$KEPT"
exit $status
"""


def no_room(folder):
    """A message that could not be written, or for which the disk has no room, is said later."""
    nights, numbers = begun(folder, ["o01", "o07"])
    nights.make(numbers)
    found = findings(audit(nights.root))
    end = [NIGHTS + "/parallel/end", "--state", nights.state]
    status, _, _ = ran(["sh", "-c", 'exec "$@" > /dev/full', "sh", *end])
    check("a full output", status, 3)
    os.mkdir(folder + "/disk")
    kept = folder + "/kept"
    words = [NIGHTS + "/parallel/end", "--for-tell", "--state", folder + "/disk"]
    status, out, said = ran(["unshare", "-m", "sh", "-c", SMALL, "sh", folder + "/disk",
                             nights.state, *words], DISK=folder + "/disk", KEPT=kept)
    if status == 99:
        print("not tried: nothing can be mounted here")
    else:
        check("a full disk", (status, bool(said)), (3, True))
        status, out, _ = Together(kept, nights.root).end()
        check("then said", lines_in_message(out), found)
    check("said at last", lines_in_message(nights.end()[1]), found)


def for_tell(folder):
    """A message that was not sent stays when the end is made again, and is sent whole."""
    nights, numbers = begun(folder, ["o08"])
    nights.make(numbers)
    for _ in range(2):
        check("left", nights.by_hand("end", "--for-tell", INVOCATION_ID="x")[1:], ("", ""))
    nights.make(nights.given()[:1])
    nights.by_hand("end", "--for-tell", INVOCATION_ID="x")
    text = nights.has("tonight.x")
    check("all of it", (lines_in_message(text) == findings(audit(nights.root)), "No night" in text),
          (True, True))


def files_are_ones_own(folder):
    """From their first moment files are 0640 and folders 0750, whatever the umask says."""
    nights = Together(folder + "/state", small_root(folder, ["o01"]))
    made = folder + "/calls"
    words = ["sh", "-c", "umask 0; exec \"$@\"", "sh", "strace", "-f", "-o", made, "-e",
             "trace=open,openat,mkdir,umask", *nights.words("--for-tell", jobs=1, parts=2)]
    ran(words)
    modes = {line.split("O_CREAT")[1].split(", ")[1].split(")")[0]
             for line in read(made).splitlines() if "O_CREAT" in line and ", 0" in line
             and nights.state in line}
    check("files are made 0640", modes - {"0640", "0600"}, set())
    for where, folders, names in os.walk(nights.state):
        for name in [*names, *folders]:
            look = os.lstat(os.path.join(where, name))
            wanted = (0o750, 0o700) if stat.S_ISDIR(look.st_mode) else (0o640, 0o600)
            check("%s/%s" % (where, name), stat.S_IMODE(look.st_mode) in wanted, True)
    check("the folder", stat.S_IMODE(os.stat(nights.state).st_mode), 0o750)


def links(folder):
    """No link in the folder is followed."""
    nights, numbers = begun(folder)
    nights.make(numbers)
    secret = folder + "/secret"
    write(secret, "secret\n")
    notes = ["said/000001-9.9", "said/000001-9.9.new"]
    for name in ["parts", "log", "given", *notes, "lock.parts", "reports"]:
        kept = nights.path(name) + ".kept"
        there = os.path.lexists(nights.path(name))
        if there:
            os.rename(nights.path(name), folder + "/kept")
        os.symlink(secret, nights.path(name))
        for call in ["begin", "end"]:
            status, out, said = nights.by_hand(call)
            check("%s with a link as %s" % (call, name), (status, "secret\n" in out + said),
                  (3, False) if call == "end" or name not in notes else (0, False))
        check("as it was: " + name, read(secret), "secret\n")
        os.remove(nights.path(name))
        if there:
            os.rename(folder + "/kept", nights.path(name))
        assert not os.path.lexists(kept)


def another_user(folder):
    """Root does nothing in the folder of another user."""
    if os.geteuid() != 0:
        print("not tried: only root can be refused")
        return
    nights, numbers = begun(folder)
    subprocess.run(["chown", "-R", "nobody", nights.state], check=True)
    before = common.snapshot(nights.state)
    for name, words in [("nightly", []), ("begin", []), ("part", ["--part", "1"]), ("end", [])]:
        status, out, said = nights.by_hand(name, *words)
        check(name, (status, out, "belongs to the user" in said), (3, "", True))
    check("nothing has changed", common.snapshot(nights.state) == before, True)


def other_folders(folder):
    """The folder of a night of the whole root is refused, and nothing is written into a root."""
    nights, _ = begun(folder)
    whole = Together(folder + "/whole", nights.root)
    ran([PROGRAM, "night", "--create", "--state", whole.state, nights.root])
    for name, state, status in [("of a whole root", whole.state, 3), ("the root", nights.root, 2),
                                ("in the root", nights.root + "/state", 2)]:
        before = common.snapshot(nights.root), common.snapshot(whole.state)
        for call in ["begin", "nightly", "part"]:
            got = ran([NIGHTS + "/parallel/" + call, "--state", state, *(
                ["--part", "1"] if call == "part" else ["--create", "--parts", "4"]), nights.root])
            check("%s: %s" % (call, name), got[0], status)
        check(name + ": nothing is written", (common.snapshot(nights.root), common.snapshot(
            whole.state)) == before, True)


def without_locks(folder):
    """Where no lock can be had, that is said, and nobody waits."""
    nights, _ = begun(folder)
    failing = ["strace", "-f", "--quiet=all", "-o", "/dev/null", "-e", "trace=flock", "-e",
               "inject=flock:error=ENOLCK"]
    for name in ["begin", "end"]:
        root = [nights.root] if name == "begin" else []
        status, _, said = ran([*failing, NIGHTS + "/parallel/" + name, "--state", nights.state,
                               *root])
        check(name, (status, "cannot be locked" in said), (3, True))


def by_cost(folder):
    """The separators can be those of a file, such as one by the costs of a report."""
    nights = Together(folder + "/state", small_root(folder))
    write(folder + "/report", audit(nights.root))
    write(folder + "/parts", ran([PROGRAM, "split", "--budget", "12", "--report", folder
                                  + "/report"])[1])
    check("a night", nights.night(parts=folder + "/parts")[0], 0)
    check("these parts", nights.has("parts"), read(folder + "/parts"))
    nights.is_audit("the cycle")


PARTS = [nobody_ran, nobody_ended, killed, broken, separators, interrupted, begin_refused, no_room,
         for_tell, files_are_ones_own, links, another_user, other_folders, without_locks, by_cost]


def check_all(folder):
    tried_apart(PARTS, folder)


common.run_trial(check_all, needs=["parallel", "strace"])
