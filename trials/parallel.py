#!/usr/bin/env python3
"""Tries the nights of all parts of `nights/parallel`: 300 objects with damage of each kind, in 24
parts with 4 at once. Nights are killed, parts are, and the joined report of each cycle is the
audit. What a part costs beside its reading is measured.

usage: parallel.py [PART]...

Tried, and what comes of it:

- 15 nights of 24 parts; parts and nights that SIGKILL and SIGTERM end: each joined report is
  `audit`, byte for byte, and of each object, and of each code outside objects, the messages of a
  cycle show or count as many findings as the audit has.
- A place that cannot be read: named with its part, status 3; the other parts end; the joined
  report is called incomplete, and its statement names the place and why; repaired, the next cycle
  is the audit. Before, nothing was joined, and no cycle had a statement.
- Cycles whose joined report is incomplete: damage, its repair, a loss and its return: `status` has
  each once, as the last cycle has it; before, damage counted once a cycle and losses were forgotten.
- A cycle that no `end` joined: it is joined and stated with the next one, and what was lost in it
  is gone until it is back. Before, it had no report, no statement and no list.
- A part that is killed between the closing of its cycle and its list of what is gone: nothing is
  joined before that list is there. Before, the list of all lacked it for ever.
- `begin` that is killed, or has no room: status 3, and why. Before: status 0, without a word.
- A cycle ends with one word for all parts; before, with none.
- A list of expected objects: each that is missing is named once, and the statement counts them;
  before, the list was refused.
- Other parts than the folder has: status 2. Closed outputs: no file has the message, and the next
  `end` says it. A part that saw a root of far fewer names: it is named.
- A part that is killed at each renaming of its night: it is given out again until its cycle is
  closed, and the cycle is joined; before, a part killed while it closed its cycle was never given
  out again.
- Parts that are killed in one night after another, at a call of their own, also between what they
  say and the checkpoint that counts it as said: each finding is told. Before, the trial took what
  the second one left for what the first one had left, said once more, and missed a finding that was
  told.
- `end` while a part makes the file of its note: the next message has what the part says, and what a
  part left that was killed there is removed. Before, what it said was in no message.
- SIGTERM, SIGINT, SIGHUP: the part under way ends and is named; the next night goes on.
- Words that are wrong, also `--hours 0`: status 2, and nothing is written. A folder and a root that
  begin with `-`: as others.
- 40 parts by GNU parallel and by xargs: the joined report is the audit; `part` takes at most 40
  ms of a processor.
"""
import glob
import os
import random
import re
import resource
import shutil
import signal
import subprocess
import time

import common
from common import PROGRAM, check
from shared.messages import findings_in, key, miscounted, nights_in, without_end
from shared.nights import NIGHTS, REPORTS, in_an_hour, ran, read, tried_apart, write
from shared.parallel import (Place, Together, audit, begun, findings, check_statement, make_root,
                             small_root, lines_in_message)


def processes(session):
    """The processes of a session: the number and the words of each."""
    found = {}
    for name in filter(str.isdigit, os.listdir("/proc")):
        try:
            stat = common.read("/proc/%s/stat" % name).split(b") ")[-1].split()
            words = common.read("/proc/%s/cmdline" % name).split(b"\0")
        except (FileNotFoundError, ProcessLookupError):
            continue
        if int(stat[3]) == session:
            found[int(name)] = words
    return found


# The night of a part has the folder of the part among its words. That which `begin` tries has not.
FOLDER = re.compile(rb"/part-[0-9]+$")
KINDS = {"part": lambda words: any(map(FOLDER.search, words)),
         "night": lambda words: any(b"parallel/nightly" in word for word in words)}


def of_kind(night, kind):
    """The numbers of the processes of a night that are of this kind."""
    return [pid for pid, words in processes(night.pid).items() if KINDS[kind](words)]


def strike(night, kind, number, chance):
    """Sends a signal to a process of a night that is of this kind, a moment after there is one."""
    until = time.monotonic() + 20
    while night.poll() is None and time.monotonic() < until:
        time.sleep(chance.uniform(0, 0.1) if of_kind(night, kind) else 0.005)
        found = of_kind(night, kind)
        if found:
            try:
                os.kill(chance.choice(found), number)
                return True
            except ProcessLookupError:
                continue
    return False


def cycles(folder):
    """Cycles under signals to the processes of nights."""
    chance = random.Random(36)
    nights = Together(folder + "/state", make_root(folder))
    said, struck = "", 0
    events = [("part", "KILL"), ("night", "TERM"), ("night", "KILL"), ("part", "TERM"), None]
    for number in range(3 * len(events)):
        night = nights.start("--budget", "60K", "--slice", "4K")
        event = events[number % len(events)]
        if event:
            time.sleep(chance.uniform(0, 1))
            struck += strike(night, event[0], getattr(signal, "SIG" + event[1]), chance)
        said += night.communicate(timeout=240)[0].decode()
        # (parts that had just been begun are no nights yet)
        while any(b"--part" in words for words in processes(night.pid).values()):
            time.sleep(0.05)
    check("signals came", struck > 5, True)
    all_told(nights, said)


def all_told(nights, said):
    """Two nights later each joined report is the audit, and each finding of it was told, or counted
    with those of its object."""
    whole = audit(nights.root)
    for _ in range(2):
        said += nights.night("--slice", "4K", jobs=4, parts=24)[1]
    joined = sorted(glob.glob(nights.path("reports/cycle-*")))
    check("cycles were joined", len(joined) > 1, True)
    check("each is the audit", [path for path in joined if read(path) != whole], [])
    for cycle in (int(re.search(r"cycle-(\d+)", path)[1]) for path in joined):
        of_cycle = [night for night in nights_in(said) if night.cycle == cycle]
        check("each finding of cycle %d was told" % cycle,
              miscounted(of_cycle, findings(whole))[:3], [])
    check("and nothing else", sorted(lines_in_message(said) - findings(whole))[:3], [])
    check_statement("the first statement", nights, 1)


# Kills the night of a part at the entry of a call, if the part's line of a file has its number.
KILLED_AT = '''#!/bin/sh
case $1:$6 in night:--part) when=$(sed -n "$7p" "$0.when") ;; *) when= ;; esac
[ -n "$when" ] || exec "%s" "$@"
calls=write,rename,renameat,renameat2
exec strace --quiet=all -o /dev/null -e trace=$calls -e "inject=$calls:signal=KILL:when=$when" \\
  "%s" "$@"
'''


def killed_at_calls(folder):
    """Nights of which most parts are killed at some call that writes or renames a file, as often in
    a cycle as it comes."""
    chance = random.Random(36)
    nights, said = Together(folder + "/state", make_root(folder)), ""
    program = folder + "/program"
    write(program, KILLED_AT % (PROGRAM, PROGRAM), 0o755)
    for _ in range(10):
        when = [chance.randrange(4, 40) if chance.random() < 0.75 else "" for _ in range(24)]
        write(program + ".when", "".join("%s\n" % it for it in when))
        night = nights.start("--slice", "2K", program=program)
        said += night.communicate(timeout=240)[0].decode()
    check("parts were killed", said.count("No night has ended since") > 4, True)
    all_told(nights, said)


def one_message(folder):
    """What all parts say comes in one message, in the order of parts, and once."""
    nights = Together(folder + "/state", small_root(folder, ["o01", "o07"]))
    status, out, said = nights.night(jobs=1)
    wrong = [key(line) for line in audit(nights.root).splitlines(True) if key(line) in findings(
        audit(nights.root))]
    check("a night", (status, said, findings_in(out)), (1, "", wrong))
    nights.is_audit("the cycle")
    check("nothing is left to be said", (nights.end(), os.listdir(nights.path("said"))),
          ((0, "", ""), []))
    write(nights.root + "/o01/v1/content/a", "abc")
    write(nights.root + "/o07/v1/content/a", "abc")
    status, out, _ = nights.night()
    check("what is repaired", (status, out.count("repaired") > 0), (0, True))
    nights.is_audit("the second cycle", 2)
    check("a night without a word", nights.night(), (0, "", ""))


def words_at_ends(folder):
    """A cycle of all parts ends with one word."""
    nights = Together(folder + "/state", small_root(folder))
    status, out, said = ran(nights.words("--slice", "10", parts=4))
    check("the word at its end", (status, re.sub(r"\d+ runs", "N runs", out), said), (
        0, "Cycle 1 ended: 18 of 18 files right, 9 objects, 36 bytes, N runs.\n", ""))
    write(nights.root + "/o03/v1/content/b", "e")
    status, out, _ = ran(nights.words(parts=4))
    check("behind what the parts say", (status, re.sub(r"\d+ runs", "N runs",
                                                       out.splitlines()[-1])),
          (1, "Cycle 2 ended: 17 of 18 files right, 9 objects, 35 bytes, N runs."))
    status, out, _ = nights.by_hand("end")
    check("it is said once", (status, out), (0, ""))


def expected(folder):
    """Objects of a list that no part has are missing, each in the part in which it would be."""
    nights = Together(folder + "/state", small_root(folder))
    file = folder + "/expected"
    write(file, "".join("o%02d\n" % number for number in range(9)) + "lost\no04x\nz/1\n")
    status, out, said = nights.night("--expected", file)
    check("missing", (status, said, sorted(it for it in out.splitlines() if "expected\t" in it)),
          (1, "", ["expected\tlost", "expected\to04x", "expected\tz/1"]))
    facts = nights.has("reports/statement-000001").splitlines()
    check("its statement", [it for it in facts if it.startswith("Expected")],
          ["Expected objects listed: 12", "Expected objects missing: 3"])
    check("the list is named", "List of expected objects, SHA-256: " + common.digest(
        common.read(file)) in facts, True)
    write(file, "".join("o%02d\n" % number for number in range(9)))
    check("none is missing", nights.night("--expected", file), (0, "", ""))


def by_schedulers(folder):
    """GNU parallel and xargs start the same parts, and each costs little beside its reading."""
    nights = Together(folder + "/state", small_root(folder, ["o17"], 60))
    status, out, _ = nights.by_hand("begin", "--create", "--parts", "40")
    check("begin", (status, len(out.split()) > 30), (0, True))
    part = [NIGHTS + "/parallel/part", "--state", nights.state, nights.root, "--part"]
    before = resource.getrusage(resource.RUSAGE_CHILDREN)
    subprocess.run(["parallel", "-j", "4", *part], input=out.encode(), check=False)
    after = resource.getrusage(resource.RUSAGE_CHILDREN)
    spent = after.ru_utime + after.ru_stime - before.ru_utime - before.ru_stime
    print("GNU parallel: %.0f ms of a processor for a part" % (1000 * spent / len(out.split())))
    check("the end", nights.end()[0], 1)
    nights.is_audit("by GNU parallel")
    out = nights.by_hand("begin")[1]
    subprocess.run(["xargs", "-P", "4", "-n", "1", *part], input=out.encode(), check=False)
    check("the end too", nights.end()[0], 1)
    nights.is_audit("by xargs", 2)
    check("a start costs at most 40 ms", cost_of_start(nights) <= 40, True)


def cost_of_start(nights):
    """What `part` takes of a processor before the program is there, in milliseconds. What else the
    machine does can make a start dearer and none cheaper, so the cheapest of many counts."""
    costs = []
    for _ in range(20):
        before = resource.getrusage(resource.RUSAGE_CHILDREN)
        nights.by_hand("part", "--part", "1", OCFL_SCRUB="/bin/true")
        after = resource.getrusage(resource.RUSAGE_CHILDREN)
        costs.append(1000 * (after.ru_utime + after.ru_stime - before.ru_utime - before.ru_stime))
    print("%.1f ms of a processor before the program" % min(costs))
    return min(costs)


def unread(folder):
    """A place that cannot be read is left out of its part alone. The joined report is called
    incomplete, and its statement names the place; the next one is the audit, once the place is
    repaired."""
    nights = Together(folder + "/state", small_root(folder))
    place = Place(nights.root, "o03/v1/content")
    place.spoil()
    status, out, _ = nights.night()
    check("it is named", (status, "o03/v1/content" in out, nights.level()), (3, True, 2))
    check("the others have ended", [len(glob.glob(nights.part(number, "reports/cycle-*")))
                                    for number in range(1, 5)], [1, 0, 1, 1])
    check("it is not called whole", nights.has("reports/cycle-000001"), None)
    check("the message says so", [row for row in out.splitlines() if "incomplete" in row
                                  or row.startswith("Left out: ")][:1], [
        "The joined report of cycle 1 is incomplete: that of part 2 is not whole."])
    statement = nights.has("reports/statement-000001") or ""
    check("its statement", [row for row in statement.splitlines() if re.match(
        "Whole|Lost|Place|Report:", row)], [
            "Lost lines: none", "Report: incomplete-000001", "Whole: no", "Places left out: 1",
            "Place left out 1: o03/v1/content"])
    check("with why", "\nWhy left out 1: " in statement, True)
    check("which holds", ran([REPORTS, "verify", nights.path("reports/statement-000001")])[0], 0)
    place.mend()
    check("it is joined as incomplete", nights.has("reports/incomplete-000001"), "".join(
        line for line in audit(nights.root).splitlines(True) if "\to03/v1/content" not in line))
    check("repaired", nights.night(), (0, "", ""))
    nights.is_audit("then it is the audit", 2)


def unjoined(folder):
    """Of cycles whose joined report is incomplete, `status` takes each place as the last one has it,
    and what was gone in them is gone until it is back. Each of them was compared with the one
    before, so no more is gone."""
    nights = Together(folder + "/state", small_root(folder, ["o01"]))
    place = Place(nights.root, "o03/v1/content")
    nights.night()
    place.spoil()

    def counted():
        words = [REPORTS, "status", nights.state]
        return re.findall(r"\b(?:findings|damaged|gone)=([0-9]+|U)", ran(words)[1])

    check("before", counted(), ["1", "1", "U"])
    shutil.rmtree(nights.root + "/o05")
    check("an incomplete one", (nights.night()[0], counted()), (3, ["1", "1", "1"]))
    check("a second one", (nights.night()[0], counted()), (3, ["1", "1", "1"]))
    write(nights.root + "/o01/v1/content/a", "abc")
    check("repaired in a third one", (nights.night()[0], counted()), (3, ["0", "0", "1"]))
    check("it has ended", "cycle 4 has ended" in ran([REPORTS, "status", nights.state])[1], True)
    place.mend()
    nights.night()
    nights.is_audit("joined", 5)
    check_statement("its statement", nights, 5)
    check("gone still", (counted(), "\nObjects gone and not back: 1\n" in nights.has(
        "reports/statement-000005")), (["0", "0", "1"], True))
    check("of a part", sorted(map(os.path.basename, glob.glob(nights.part(1, "reports/cycle-*")))),
          ["cycle-000004", "cycle-000005"])
    shutil.copytree(nights.root + "/o06", nights.root + "/o05")
    nights.night()
    check("back", counted()[2], "0")


def missed_end(folder):
    """A cycle that no `end` joined is joined before its parts are given out anew, and stated; what
    was lost in it is gone until it is back."""
    nights = Together(folder + "/state", small_root(folder))
    nights.night()
    shutil.rmtree(nights.root + "/o05")
    nights.make(nights.given())
    second = audit(nights.root)
    write(nights.root + "/o01/v1/content/a", "damaged")
    # Nights of parts that begin in one second cannot be told apart by the log.
    time.sleep(1.1)
    status, out, said = nights.night()
    check("the next night", (status, "end did not end the last night" in out, said), (3, True, ""))
    check("both are joined", (nights.has("reports/cycle-000002"), nights.has(
        "reports/cycle-000003")), (second, audit(nights.root)))
    check("what is gone", (nights.has("reports/gone-000002") or "").splitlines(),
          ["object\to05"])
    for cycle in (2, 3):
        check_statement("statement %d" % cycle, nights, cycle)
    check("not back", "\nObjects gone and not back: 1\n" in (nights.has(
        "reports/statement-000003") or ""), True)


def untold_closing(folder):
    """A part that is killed between the closing of its cycle and its list of what is gone is given
    out again; nothing is joined before, and then all that is gone is listed."""
    for call in range(4, 13):
        there = "%s/%d" % (folder, call)
        os.mkdir(there)
        nights = Together(there + "/state", small_root(there))
        nights.night()
        for place in ("o01", "o04"):
            shutil.rmtree(nights.root + "/" + place)
        numbers = nights.given()
        ran(["strace", "-f", "--quiet=all", "-o", "/dev/null", "-e",
             "inject=rename,renameat,renameat2:signal=KILL:when=%d" % call, NIGHTS
             + "/parallel/part", "--state", nights.state, "--part", "2", nights.root])
        nights.make([number for number in numbers if number != "2"])
        is_cut = os.path.exists(nights.part(2, "reports/cycle-000002")) and not os.path.exists(
            nights.part(2, "reports/gone-000002"))
        nights.end()
        if is_cut:
            check("not joined after call %d" % call, nights.has("reports/cycle-000002"), None)
        nights.make(nights.given())
        nights.end()
        check("all is listed after call %d" % call, [row for row in (nights.has(
            "reports/gone-000002") or "").splitlines() if row.startswith("object")],
            ["object\to01", "object\to04"])
        if is_cut:
            return
    check("a part was killed there", False, True)


def traced_part(nights, call, what, when=1):
    """The words of part 2, of which strace does this at its first call of these names, or a later
    one. Each of its runs reads a file."""
    return ["strace", "--quiet=all", "-o", nights.state + ".calls", "-e", "trace=" + call, "-e",
            "inject=%s:%s:when=%d" % (call, what, when), NIGHTS + "/parallel/part", "--state",
            nights.state, "--part", "2", "--slice", "1", nights.root]


def end_before(folder, call):
    """Nights of a root in which all is damaged, and what `end` says while part 2 waits before a call
    by which it makes its note. Where `end` took longer than that, other nights wait longer."""
    for seconds in (2, 10, 50):
        there = "%s/%s-%d" % (folder, call[:6], seconds)
        os.mkdir(there)
        nights, numbers = begun(there, ["o%02d" % number for number in range(9)])
        nights.make([number for number in numbers if number != "2"])
        part = subprocess.Popen(traced_part(nights, call, "delay_enter=%ds" % seconds),
                                env={**os.environ, "OCFL_SCRUB": PROGRAM})
        while part.poll() is None and not glob.glob(nights.path("said/000002-*")):
            time.sleep(0.01)
        said = nights.end()[1]
        is_before = "DELAYED" not in read(nights.state + ".calls")
        check("the part", part.wait(), 1)
        if is_before:
            return nights, said
    raise TimeoutError("no `end` came before " + call)


def end_of_beginning(folder):
    """An `end` that comes while a part makes the file of its note loses nothing that the part says
    then, and has no word on that file, also if the part was killed there."""
    for call in ("flock", "rename,renameat,renameat2"):
        nights, said = end_before(folder, call)
        check("no word: before " + call, "not a note" in said, False)
        later = lines_in_message(nights.end()[1])
        check("the part says it later: before " + call, bool(later), True)
        check("nothing is lost: before " + call, lines_in_message(said) | later,
              findings(audit(nights.root)))
        check("nothing is left: before " + call, os.listdir(nights.path("said")), [])
        there = "%s/killed-%s" % (folder, call[:6])
        os.mkdir(there)
        nights, numbers = begun(there)
        nights.make([number for number in numbers if number != "2"])
        check("killed before " + call, ran(traced_part(nights, call, "signal=KILL"))[0], -9)
        status, said, _ = nights.end()
        check("no word on it: before " + call, (status, "in part 2: " in said, len(
            said.splitlines()), os.listdir(nights.path("said"))), (3, True, 1, []))


def held_join(folder):
    """Where another call of `join` is under way, `end` waits for it."""
    nights, numbers = begun(folder)
    nights.make(numbers)
    write(folder + "/program", '''#!/bin/sh
if [ "$1" = join ] && [ ! -e "$0.second" ]; then : > "$0.second"; echo held >&2; exit 75; fi
exec "%s" "$@"
''' % PROGRAM, 0o755)
    status, out, said = nights.by_hand("end", OCFL_SCRUB=folder + "/program")
    check("it waits", (status, without_end(out), said), (0, "", ""))
    nights.is_audit("joined")


def other_roots(folder):
    """A part that saw a root of far fewer names than another one is named, and its cycle is not
    joined."""
    nights, numbers = begun(folder)
    away = nights.root + "-away"
    nights.make(numbers[:3])
    for number in range(8):
        os.makedirs(away, exist_ok=True)
        os.rename("%s/o%02d" % (nights.root, number), "%s/o%02d" % (away, number))
    nights.make(numbers[3:])
    status, out, _ = nights.end()
    check("it is named", (status, "had 10 names when parts 1-3 began" in out,
                          "at most 2 when part 4" in out), (3, True, True))
    check("once", nights.end(), (0, "", ""))
    check("it is not joined", nights.has("reports/cycle-000001"), None)
    status, _, said = ran([PROGRAM, "join", "--parts", nights.path("parts"), "--state",
                           nights.state])
    check("nor by hand", (status, "part 4: the storage root had 2 names when its cycle 1 began, "
                          "and 10 when that of another part did" in said,
                          nights.has("reports/cycle-000001")), (3, True, None))
    for number in range(8):
        os.rename("%s/o%02d" % (away, number), "%s/o%02d" % (nights.root, number))
    nights.make(nights.given())
    check("the next cycle", nights.end()[0], 0)
    nights.is_audit("the next cycle", 2)
    check("and the first one still not", nights.has("reports/cycle-000001"), None)


# Does what `begin` asks of the program, and kills the one that asks.
KILLING = '''#!/bin/sh
case $* in *" --end 1 "*) kill -KILL $PPID ;; esac
exec "%s" "$@"
'''


def no_beginning(folder):
    """A night of which `begin` is killed, or has no room, is told with status 3."""
    nights = Together(folder + "/state", small_root(folder, ["o01"]))
    nights.night()
    write(folder + "/program", KILLING % PROGRAM, 0o755)
    status, out, said = nights.night(OCFL_SCRUB=folder + "/program")
    check("killed", (status, "was not begun" in out + said, "signal 9" in out + said),
          (3, True, True))
    check("status", nights.level(), 2)
    check("nothing is left of it", (nights.night()[0], [name for name in os.listdir(
        nights.state) if name.startswith("t")]), (1, []))
    os.mkdir(folder + "/disk")
    words = nights.words(parts=4)
    words[words.index("--state") + 1] = folder + "/disk"
    status, out, said = ran(["unshare", "-m", "sh", "-c", FULL, "sh", folder + "/disk",
                             nights.state, *words])
    if status == 99:
        print("not tried: nothing can be mounted here")
    else:
        check("no room", (status, "was not begun" in said, "No space left" in said),
              (3, True, True))


# A small disk that has the state and no room.
FULL = '''mount -t tmpfs -o size=2m tmpfs "$1" || exit 99
cp -a "$2/." "$1" || exit 98
head -c 8M /dev/zero > "$1/filler" 2> /dev/null
shift 2
exec "$@"
'''


def other_parts(folder):
    """Other parts than a folder has are refused, and the same words as before are not."""
    nights = Together(folder + "/state", small_root(folder))
    nights.night(parts=4)
    before = common.snapshot(nights.state)
    for words in (["--create"], []):
        for parts in ("8", "3"):
            status, out, said = ran([NIGHTS + "/parallel/nightly", *words, "--parts", parts,
                                     "--state", nights.state, nights.root])
            check("%s parts" % parts, (status, out, "is divided into 4 part" in said,
                                       "new folder" in said), (2, "", True, True))
    write(folder + "/parts", "o01\n")
    check("a file of others", nights.night(parts=folder + "/parts")[0], 2)
    kept = {path: it for path, it in before.items() if b"/lock." not in path}
    now = common.snapshot(nights.state)
    check("no night was made", [path for path in kept if path.endswith(b"log")
                                and kept[path] != now[path]], [])
    check("the same words", nights.night(parts=4), (0, "", ""))
    many = Together(folder + "/many", nights.root)
    check("more than the root gives", (many.night(parts=500)[0], many.night(parts=500)[0]), (0, 0))
    write(folder + "/same", nights.has("parts"))
    check("the same separators", nights.night(parts=folder + "/same")[0], 0)


def closed_output(folder):
    """A message for which standard output is closed is written into no file, and is said later."""
    nights, numbers = begun(folder, ["o01"])
    nights.make(numbers)
    end = [NIGHTS + "/parallel/end", "--state", nights.state]
    for closing in (">&-", ">&- 2>&-", "<&- >&- 2>&-"):
        check("closed: " + closing, ran(["sh", "-c", 'exec "$@" ' + closing, "sh", *end])[0], 3)
    check("no lock has it", [nights.has(name) for name in ("lock.parts", "log") if "E092" in (
        nights.has(name) or "")], [])
    check("then it is said", lines_in_message(nights.end()[1]), findings(audit(nights.root)))


def rows_of_parts(nights):
    """What the rows in the log of each part are of."""
    return [[row["row"] for row in nights.rows(number)] for number in range(1, 5)]


def ends(folder):
    """An end by the clock is one for all parts, and a part after it counts as run."""
    nights = Together(folder + "/state", small_root(folder))
    check("over before it begins", nights.night("--end", "5"), (0, "", ""))
    check("each part has its rows", rows_of_parts(nights), [["began", "night"]] * 4)
    check("by hours", nights.night("--hours", "0.0001", "--budget", "1")[0], 0)
    for zone in ("UTC", "Europe/Berlin"):
        until = ran(["date", "-d", "1 hour", "+%H:%M"], TZ=zone)[1].strip()
        check("until, in " + zone, nights.night("--until", until, TZ=zone)[0], 0)
    nights.is_audit("a cycle")


def signals(folder):
    """A signal ends the parts under way and begins no other; the message says which made none."""
    for name in ("TERM", "INT", "HUP"):
        there = "%s/%s" % (folder, name)
        os.mkdir(there)
        nights = Together(there + "/state", small_root(there))
        with open(nights.root + "/o08/v1/content/a", "r+b") as large:
            large.truncate(1 << 36)
        night = nights.start(jobs=4, parts=4)
        until = time.monotonic() + 120
        while len([number for number in range(1, 5) if nights.rows(number)[-1:] and nights.rows(
                number)[-1]["row"] == "night"]) < 3 and time.monotonic() < until:
            time.sleep(0.02)
        os.kill(night.pid, getattr(signal, "SIG" + name))
        said = night.communicate(timeout=60)[0].decode()
        check("SIG" + name, (night.returncode, "No night has ended since" in said
                             and " in part 4: " in said, nights.level()), (3, True, 2))
        write(nights.root + "/o08/v1/content/a", "abc")
        check("the next night", nights.night()[0], 0)
        nights.is_audit("after SIG" + name)


def cut_closing(folder):
    """A part that was killed while it closed its cycle is given out again, and the cycle is
    joined."""
    for call in range(1, 9):
        there = "%s/%d" % (folder, call)
        os.mkdir(there)
        nights, numbers = begun(there)
        ran(["strace", "-f", "--quiet=all", "-o", "/dev/null", "-e",
             "inject=rename,renameat,renameat2,linkat:signal=KILL:when=%d" % call, NIGHTS
             + "/parallel/part", "--state", nights.state, "--part", "2", nights.root])
        nights.make([number for number in numbers if number != "2"])
        nights.end()
        nights.make(nights.given())
        check("after call %d" % call, nights.end()[0], 0)
        if not nights.is_audit("joined after call %d" % call):
            break


def killed_again(folder):
    """A part that is killed in one night after another says each finding. What it left unsaid, and
    what it said that did not come to count as said, the next night says as of all runs until then:
    that is no repetition of what was said of these runs before."""
    nights = Together(folder + "/state", small_root(folder, ["o%02d" % it for it in range(12)], 12))
    nights.make([number for number in nights.given("--slice", "1") if number != "2"])
    said = others = nights.end()[1]
    # A night renames its note, the checkpoint that it takes up, that which counts as said what was
    # left, if something was, that of each run, and that which counts as said what these found. So
    # they are killed in run 2, before run 1 counts as said, in run 4, and before runs 4 to 6 do.
    for when in (4, 3, 6, 7):
        nights.given("--slice", "1")
        words = traced_part(nights, "rename,renameat,renameat2", "signal=KILL", when)
        check("killed", ran(words)[0], -9)
        said += nights.end()[1]
    nights.make(nights.given("--slice", "1"), "--slice", "1")
    said += nights.end()[1]
    check("of which runs", re.findall("tonight in .*, (runs? .*):", said[len(others):]),
          ["run 1", "run 1", "runs 1 to 3", "runs 4 to 6", "runs 1 to 6"])
    check("each finding was told", miscounted(nights_in(said), findings(audit(nights.root))), [])
    nights.is_audit("the cycle")


def two_at_once(folder):
    """A second night in the folder does nothing."""
    nights = Together(folder + "/state", small_root(folder))
    nights.night("--end", "5")
    status, out, said = ran(["flock", nights.path("lock.nightly"), *nights.words()])
    check("75", (status, out, "another night still runs" in said), (75, "", True))
    check("no part made a night", rows_of_parts(nights), [["began", "night"]] * 4)


def room(folder):
    """Of a part the last two closed reports are kept, and joined ones all."""
    nights = Together(folder + "/state", small_root(folder, ["o01"]))
    for _ in range(4):
        nights.night()
    check("of a part", sorted(map(os.path.basename, glob.glob(nights.part(1, "reports/cycle-*")))),
          ["cycle-000003", "cycle-000004"])
    check("joined", len(glob.glob(nights.path("reports/cycle-*"))), 4)
    check("kept", (nights.night("--keep", "2")[0], len(glob.glob(nights.path("reports/cycle-*")))),
          (1, 2))
    shutil.rmtree(nights.root + "/o05")
    nights.night()
    gone = nights.has("reports/gone-000006")
    check("what is gone is listed of all", gone.splitlines(), ["object\to05"])


def seals(folder):
    """The joined report has its statement and its seal; one that fails is said."""
    nights = Together(folder + "/state", small_root(folder))
    status, out, _ = nights.night("--seal", "false")
    check("a seal that fails", (status, "could not be made or sealed" in out), (3, True))
    check("is made by the next night", nights.night("--seal", 'rev "$1" > "$1.rev"')[0], 0)
    check("it lies there", os.path.exists(nights.path("reports/statement-000001.rev")), True)
    check_statement("the statement", nights, 1)


def by_a_service(folder):
    """What CLUSTERS.md puts into the service of systemd, with settings that are left empty."""
    nights = Together(folder + "/state", small_root(folder))
    nights.night("--end", "1")
    line = re.search(r"ExecStart=(/\S+/parallel/nightly(?:.*\\\n)*.*)", read(
        NIGHTS + "/CLUSTERS.md"))[1].replace("\\\n", "")
    given = {"${UNTIL}": [in_an_hour()], "${KEEP}": [""], "${SEAL}": [""], "$OPTIONS": [],
             "${ROOT}": [nights.root], "%S/ocfl-scrub/%i": [nights.state]}
    words = [word for it in line.split() for word in given.get(it, [it])]
    words[0] = NIGHTS + "/parallel/nightly"
    with open(nights.root + "/" + next(place for place in audit(nights.root).split() if "/v1/"
                                       in place), "ab") as file:
        file.write(b"x")
    status, out, said = ran(words, INVOCATION_ID="one")
    check("a night", (status, out, said), (1, "", ""))
    check("its text", lines_in_message(nights.has("tonight.one")), findings(audit(nights.root)))


def usage(folder):
    """Wrong words are refused before anything is written."""
    nights = Together(folder + "/state", small_root(folder))
    for words in [["--budget", "4x"], ["--until", "25:00"], ["--hours", "x"], ["--nothing"],
                  ["--hours", "0"], ["--hours", "inf"], ["--jobs", "x"], ["--jobs", "0"],
                  ["--state"]]:
        status, out, said = nights.night(*words)
        check("usage: %s" % words, (status, out, bool(said)), (2, "", True))
    for name in ["nightly", "begin", "part", "end"]:
        status, out, _ = ran([NIGHTS + "/parallel/" + name, "--help"])
        check("help of " + name, (status, out.startswith("usage: parallel/" + name), out.rstrip()
                                  .rsplit("\n", 1)[-1][:10]), (0, True, "  parallel"))
    check("no part was given out", os.path.exists(nights.path("parts")), False)


def dashes(folder):
    """The folder and the root may begin with `-`."""
    os.rename(small_root(folder), folder + "/-root")
    expected = audit(folder + "/-root")
    words = [NIGHTS + "/parallel/nightly", "--create", "--jobs", "2", "--parts", "4", "--state",
             "-state", "--", "-root"]
    check("a night", ran(words, cwd=folder)[0], 0)
    check("its report", read(folder + "/-state/reports/cycle-000001"), expected)
    part = [NIGHTS + "/parallel/part", "--state", "-state", "--part", "1", "--", "-root"]
    check("a part", ran(part, cwd=folder)[0], 0)
    check("an end", ran([NIGHTS + "/parallel/end", "--state=-state"], cwd=folder)[0], 0)


PARTS = [cycles, killed_at_calls, one_message, words_at_ends, expected, by_schedulers, unread,
         unjoined, missed_end, untold_closing, end_of_beginning, held_join, other_roots,
         no_beginning, other_parts, closed_output, ends, signals, cut_closing, killed_again,
         two_at_once, room, seals, by_a_service, usage, dashes]


def check_all(folder):
    # What started the trial may ignore these, and then so would each night that it starts.
    for number in (signal.SIGINT, signal.SIGHUP, signal.SIGTERM):
        signal.signal(number, signal.SIG_DFL)
    tried_apart(PARTS, folder)


common.run_trial(check_all, needs=["parallel", "strace"])
