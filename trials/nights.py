#!/usr/bin/env python3
"""Tries the nights of `nights/nightly`: one call makes the night, the statements that are missing
and their seals, and room; what it leaves for `tell`; and which words it takes.

usage: nights.py [PART]...

What `ocfl-scrub night` itself keeps and says is tried by the trials `night_*.py`.

Tried, and what comes of it:

- A program that cannot say its version, a seal that fails, a whole night killed between the end
  of its cycle and the statement: status 3 and why, or killed; the next night makes it.
- What a seal's command leaves running: it holds neither the night nor its lock.
- `--keep 1`, after a cycle that lost lines too; a copy beside the reports: the last two whole
  reports stay, and the copy.
- No folder for temporary files: the report is whole, and the statement is there after the next
  night.
- Another night holds the lock: status 75, and nothing is stated or removed.
- Words that are missing, unknown or empty, and names that begin with `-`: status 2, or the night
  of what they name.
- `--for-tell` under the mask 000; a link in the place of the text; no room for it: the text is
  for owner and group; status 3, and the link is not followed; the next night says it. It mounts
  for that.
- A night that is killed after it said something: `tell` sends it.
"""
import gzip
import os
import shutil
import signal
import subprocess
import time

import common
from common import PROGRAM, check
from shared.messages import shown
from shared.nights import (ITEMS, NIGHTS, REPORTS, WRONG_B, Nights, ask, in_an_hour, make_root, ran,
                           read, tried_apart, write)

# What seals a statement in these trials.
SEAL = ["--seal", 'rev "$1" > "$1.rev"']


def made(folder):
    return Nights(folder + "/state", make_root(folder + "/root"))


def plain_nights(folder):
    """Nights go on where the one before ended; a good one says nothing, but for the word at the end
    of a cycle."""
    nights = made(folder)
    check("first night", nights.part(), (0, "", ""))
    check("its report", nights.has("report"), "".join(ITEMS[:3]))
    last = ran(nights.words(), OCFL_SCRUB=PROGRAM)
    check("the cycle's report", nights.whole(1), "".join(ITEMS))
    check("the word at its end", (last[0], last[2]), (0, ""))
    check("what it says", last[1], "Cycle 1 ended: 3 of 3 files right, 1 object, 6 bytes, 2 runs.\n"
          "Nothing to compare with.\n")
    check("what lies there", sorted(os.listdir(nights.state)),
          ["checkpoint", "lock", "log", "reports"])
    check("and beside the report", sorted(os.listdir(nights.path("reports"))),
          ["checkpoint-000001", "cycle-000001", "gone-000001", "statement-000001",
           "statement-000001.json"])
    check("the log", [row["row"] for row in nights.rows()],
          ["began", "slice", "night", "began", "slice", "closing", "night"])
    write(nights.root + "/o/v1/content/b", "b")
    status, out, said = nights.night()
    check("a finding", (status, shown(WRONG_B, out), said), (1, 1, ""))
    os.rename(nights.root, folder + "/away")
    status, out, said = nights.night()
    check("not mounted", (status, out, nights.root in said), (3, "", True))


def check_statement(name, nights, report):
    """The cycle of this report has a statement, and that holds."""
    file = "reports/statement-" + report.split("-")[1]
    status, out, said = ask("verify", nights.path(file))
    check(name, (status, out.splitlines()[:1], said),
          (0, ["%s is what %s says" % (nights.path("reports/" + report), file[8:])], ""))


def statements(folder):
    """Each cycle that ends has a statement beside its report, with or without a seal."""
    nights = made(folder)
    check("a whole cycle", nights.night(), (0, "", ""))
    check_statement("its statement", nights, "cycle-000001")
    first = nights.has("reports/statement-000001") or ""
    check("half a cycle", nights.part(), (0, "", ""))
    check("has none", nights.has("reports/statement-000002"), None)
    write(nights.path("report"), "".join(nights.has("report").splitlines(True)[1:]))
    check("the rest of it", nights.night()[0], 3)
    check_statement("a statement of what is not whole", nights, "incomplete-000002")
    check("says so", nights.lines(2).get("Whole"), "no")
    check("sealed", nights.night(*SEAL), (0, "", ""))
    check_statement("under its seal", nights, "cycle-000003")
    check("the seal", sorted(it for it in os.listdir(nights.path("reports")) if "3." in it),
          ["statement-000003.json", "statement-000003.rev", "statement-000003.sealed"])
    check("the earlier ones too", [nights.has("reports/statement-%06d.rev" % cycle) is not None
                                   for cycle in (1, 2)], [True, True])
    check("the first one stays", (nights.has("reports/statement-000001"), "\nCycle: 1\n" in first),
          (first, True))


def a_seal_that_lingers(folder):
    """What the seal's command leaves running holds neither the night nor its lock."""
    nights = made(folder)
    seal = 'sleep 600 > /dev/null 2>&1 & echo $! > %s/pid; rev "$1" > "$1.rev"' % folder
    check("sealed", nights.night("--seal", seal), (0, "", ""))
    check("the next night", nights.part(), (0, "", ""))
    os.kill(int(read(folder + "/pid")), signal.SIGKILL)


def statements_that_fail(folder):
    """That is said, with status 3. The cycle is closed all the same, and the next night tries it
    again."""
    nights = made(folder)
    mute = folder + "/mute"
    write(mute, '#!/bin/sh\n[ "$1" != --version ] || exit 9\nexec %s "$@"\n' % PROGRAM, 0o755)
    said = "The statement of cycle %d could not be made or sealed: "
    status, _, text = nights.night(program=mute)
    check("none", (status, said % 1 in text, "%s does not say its version\n" % mute in text),
          (3, True, True))
    check("its cycle is closed", nights.whole(1), "".join(ITEMS))
    check("the next night makes it", nights.part(), (0, "", ""))
    check_statement("it holds", nights, "cycle-000001")
    status, _, text = nights.night("--seal", "false")
    check("a seal that fails", (status, said % 2 in text), (3, True))
    check_statement("its statement", nights, "cycle-000002")
    check("the next night seals it", (nights.part(), nights.night(*SEAL)[0], nights.has(
        "reports/statement-000002.rev") is None), ((0, "", ""), 0, False))
    nights.night(program=mute)
    check("by hand", ask("statement", nights.state, "4"), (0, "", ""))
    check_statement("made by hand", nights, "cycle-000004")


def killed_before_the_statement(folder):
    """A kill between the end of a cycle and its statement: the next night makes it."""
    nights = made(folder)
    killing = folder + "/killing"
    write(killing, '#!/bin/sh\n[ "$1" != --version ] || kill -KILL 0\nexec %s "$@"\n' % PROGRAM,
          0o755)
    night = subprocess.Popen(nights.words(), start_new_session=True,
                             env={**os.environ, "OCFL_SCRUB": killing})
    check("killed", (night.wait(timeout=120), nights.whole(1), nights.has(
        "reports/statement-000001")), (-9, "".join(ITEMS), None))
    check("the next night", nights.part(), (0, "", ""))
    check_statement("makes it", nights, "cycle-000001")
    nights.night()
    os.rename(nights.path("reports"), folder + "/away")
    check("reports that were moved away", nights.part()[0] in (0, 3), True)
    check("have none", os.path.exists(nights.path("reports/statement-000002")), False)


def room(folder):
    """Of the reports the last ones stay, and the last two whole ones; copies stay, and all
    statements."""
    nights = made(folder)
    for _ in range(3):
        nights.night("--keep", "1")
    check("the last two whole ones", nights.reports(), ["cycle-000002", "cycle-000003"])
    write(nights.path("reports/cycle-000001.bak"), "a copy\n")
    nights.part()
    write(nights.path("report"), "")
    check("one that is not whole", nights.night("--keep", "1")[0], 3)
    check("what it is compared with stays", nights.reports(),
          ["cycle-000001.bak", "cycle-000002", "cycle-000003", "incomplete-000004"])
    nights.night()
    check("without --keep they are compressed", nights.reports(),
          ["cycle-000001.bak", "cycle-000002.gz", "cycle-000003", "cycle-000005",
           "incomplete-000004"])
    with gzip.open(nights.path("reports/cycle-000002.gz")) as packed:
        check("whole", packed.read().decode(), "".join(ITEMS))
    # The report that the first of them was compared with is gone by --keep: status 4.
    check("each has its statement", [nights.holds(cycle) for cycle in (2, 3, 4, 5)], [4, 0, 0, 0])


def no_room(folder):
    """No room for temporary files: the night is made, and its statement by the next one."""
    nights = made(folder)
    given = {"TMPDIR": folder + "/none", "TEMP": folder + "/none", "TMP": folder + "/none"}
    check("no folder for them", nights.night(**given)[0] in (0, 3), True)
    check("the report", nights.whole(1), "".join(ITEMS))
    check("the next night", nights.part(), (0, "", ""))
    check_statement("states it", nights, "cycle-000001")


def one_at_a_time(folder):
    """While another night runs, the status is 75, and nothing is stated or removed."""
    nights = made(folder)
    nights.night()
    before = sorted(os.listdir(nights.path("reports")))
    holding = "exec flock '%s' sh -c 'echo held; read word'" % nights.path("lock")
    held = subprocess.Popen(["sh", "-c", holding], stdin=subprocess.PIPE, stdout=subprocess.PIPE)
    held.stdout.readline()
    check("locked", nights.night(*SEAL, "--keep", "1")[0], 75)
    held.communicate(b"\n")
    check("nothing has changed", sorted(os.listdir(nights.path("reports"))), before)


# Words

def words(folder):
    """What is not its own goes to the program as it is."""
    nights = made(folder)
    nightly = NIGHTS + "/nightly"
    for name, given in [("no state", [nights.root]), ("no value", ["--state"]), ("none", []),
                        ("no command", ["--state", nights.state, nights.root, "--seal"]),
                        ("no number", ["--state", nights.state, nights.root, "--keep"]),
                        ("no root", ["--state", nights.state]),
                        ("an unknown word", [*nights.words()[1:3], "--what", nights.root])]:
        status, out, said = ran([nightly, *given], cwd=folder)
        check("usage: " + name, (status, out, said != ""), (2, "", True))
    check("nothing is there", os.path.exists(nights.state), False)
    status, out, said = ran([nightly, "--state", "x", "--help"])
    check("help", (status, out.startswith("usage: nightly "), "\nexample:\n  nightly " in out,
                   said), (0, True, True, ""))
    status, out, _ = ran([nightly, "--create", "--for-tell", "--keep", "", "--seal", "", "--state",
                          nights.state, "--until", in_an_hour(), nights.root])
    check("empty values", (status, out.startswith("Cycle 1 ended: 3 of 3 files right, "),
                           nights.whole(1)), (0, True, "".join(ITEMS)))
    time.sleep(1.1)
    check("words with their values", (ran([nightly, "--state=" + nights.state,
                                           "--until=" + in_an_hour(), nights.root])[0], nights.lines(2)["Whole"]), (0, "yes"))
    odd = folder + "/--seal"
    make_root(odd)
    at = ["--create", "--state", "state-2", "--", "--seal"]
    check("names like options", (ran([nightly, *at], cwd=folder)[0], read(
        folder + "/state-2/reports/statement-000001") is None), (0, False))
    os.symlink(nightly, folder + "/link")
    status, _, said = ran([folder + "/link", "--state", nights.state, nights.root])
    check("by a link it finds nothing beside it", (status == 0, said != ""), (False, True))


def lists(folder):
    """What is known and expected."""
    nights = made(folder)
    write(nights.root + "/o/v1/content/b", "b")
    write(folder + "/known", WRONG_B)
    write(folder + "/expected", "o\np\n")
    status, out, _ = nights.night("--known", folder + "/known", "--expected", folder + "/expected")
    check("known and expected", (status, "E092" in out, "\nexpected\tp\n" in out),
          (1, False, True))
    check("in the statement", nights.lines(1).get("Expected objects missing"), "1")
    shutil.copytree(nights.root + "/o", nights.root + "/q")
    nights.night()
    shutil.rmtree(nights.root + "/q")
    write(folder + "/known", WRONG_B.replace("o/", "q/"))
    status, out, _ = nights.night("--known", folder + "/known")
    check("what is gone is no finding", (status, "object\tq\n" in out), (1, True))
    check("and is stated", [nights.lines(3).get(name) for name in [
        "Objects gone", "Objects gone and not back", "Known losses"]], ["1", "1", None])


# What is left for `tell`

def for_tell(folder):
    """What is said stands in the folder, for its owner and group, and nowhere else."""
    nights = made(folder)
    nights.part()
    write(nights.root + "/o/v1/content/b", "b")
    before = os.umask(0)
    try:
        said = nights.night("--for-tell", INVOCATION_ID="one")
    finally:
        os.umask(before)
    text = nights.has("tonight.one") or ""
    check("left", (said, shown(WRONG_B, text)), ((1, "", ""), 1))
    check("who may read it", os.stat(nights.path("tonight.one")).st_mode & 0o7777, 0o640)
    os.rename(nights.root, folder + "/away")
    check("a reason too", (nights.night("--for-tell", INVOCATION_ID="two"), nights.root in (
        nights.has("tonight.two") or "")), ((3, "", ""), True))
    os.rename(folder + "/away", nights.root)
    write(nights.root + "/o/v1/content/b", "")
    nights.night()
    check("a good night leaves none", (nights.part(INVOCATION_ID="three"), nights.has(
        "tonight.three")), ((0, "", ""), None))
    write(folder + "/secret", "secret\n")
    os.symlink(folder + "/secret", nights.path("tonight.four"))
    check("no link is followed", (nights.night("--for-tell", INVOCATION_ID="four")[0], read(
        folder + "/secret")), (0, "secret\n"))
    check("without a folder it is said", ran(
        [NIGHTS + "/nightly", "--for-tell", "--state", folder + "/none", nights.root])[0], 3)


def killed_while_it_says(folder):
    """A night that is killed after it said something: `tell` has it."""
    nights = made(folder)
    write(nights.root + "/o/v1/content/b", "b")
    nights.part(files="1")
    killing = folder + "/killing"
    write(killing, '#!/bin/sh\n[ "$1" = night ] || exec %s "$@"\n%s "$@"\nkill -KILL 0\n'
          % (PROGRAM, PROGRAM), 0o755)
    night = subprocess.Popen(nights.words("--for-tell"), start_new_session=True,
                             env={**os.environ, "OCFL_SCRUB": killing, "INVOCATION_ID": "one"})
    check("killed", night.wait(timeout=120), -9)
    given = {"INVOCATION_ID": "one", "MAIL": "", "EXIT_CODE": "killed", "EXIT_STATUS": "KILL"}
    tell = [REPORTS, "tell", "archive", nights.state]
    check("told", (shown(WRONG_B, ran(tell, **given)[2]), nights.has("tonight.one")), (1, None))
    check("and stated by the next night", (nights.part()[0], nights.holds(1)), (0, 0))


def full_state(folder):
    """No room for the text: the status is 3, and the next night says what was found."""
    if ran(["unshare", "-rm", "sh", "-c", "mount -t tmpfs none /mnt"])[0] != 0:
        print("nights.py: not tried, since nothing can be mounted here: full_state")
        return
    nights = made(folder)
    write(nights.root + "/o/v1/content/b", "b")
    os.mkdir(folder + "/disk")
    small = Nights(folder + "/disk/state", nights.root)
    script = """mount -t tmpfs -o size=128k none '%s' && mkdir '%s'
head -c 9M /dev/zero > '%s/filler' 2> /dev/null
"$@"; echo $? > '%s/first'; rm '%s/filler'
"$@" > '%s/second'; cat '%s'/tonight.* > '%s/left' 2> /dev/null""" % (
        folder + "/disk", small.state, *[folder + end for end in ["/disk", "", "/disk", "", "",
                                                                  ""]])
    script = script.replace("cat '%s'" % folder, "cat '%s'" % small.state)
    ran(["unshare", "-rm", "sh", "-c", script, "sh", *small.words("--for-tell")])
    check("full", read(folder + "/first"), "3\n")
    check("then it is left for `tell`", shown(WRONG_B, read(folder + "/left") or ""), 1)


PARTS = [plain_nights, statements, a_seal_that_lingers, statements_that_fail,
         killed_before_the_statement, room, no_room, one_at_a_time, words, lists, for_tell,
         killed_while_it_says, full_state]


def check_all(folder):
    tried_apart(PARTS, folder)


common.run_trial(check_all)
