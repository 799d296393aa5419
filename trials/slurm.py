#!/usr/bin/env python3
"""Tries the nights of `nights/slurm` on a Slurm of its own whose arrays have at most ten tasks, for
14 parts: tasks that are queued again, that fail, that are made twice, that die at once; an array
that is cancelled, a controller that is killed, a mail that is under way when its job is queued
again. Then what `submit` does where Slurm refuses, with commands in its place.

usage: slurm.py [PART]...

Tried, and what comes of it:

- An array that is cancelled: the message names its parts, and `status` is not OK.
- Tasks that die at once; one that fails: the message names its parts, and `status` is not OK.
- A task that is queued again; a controller that is killed: the cycle is the audit.
- 14 parts where an array has ten tasks; 1,300 parts, a Slurm without arrays, one that refuses a
  job: several arrays; nothing is begun; status 3, and `status` is not OK. The last two use
  commands in the place of Slurm's.
- A second night while the job that ends the last one waits: 75, and no job is given. Before, all
  parts were given out twice, with an alarm.
- The job of the message queued again while its mail hangs: the mail is sent.
"""
import os
import re
import shutil
import subprocess
import time

import common
from common import PROGRAM, check
from shared.messages import findings_in
from shared.nights import NIGHTS, ran, read, tried, write
from shared.parallel import Together, audit, findings, check_statement
from shared.slurm import Slurm

PARTS = 14
# What the trial wants of a night of part K is in the files `held-K` and `fails-K`.
GUIDED = """#!/bin/sh
[ "$1" = night ] || exec {program} "$@"
for word in "$@"; do
  case $before in --part) part=$word ;; esac
  before=$word
done
if [ -e {folder}/fails-$part ]; then kill -KILL $$; fi
while [ -e {folder}/held-$part ]; do touch {folder}/begun-$part; sleep 0.3; done
exec {program} "$@"
"""
# Takes a mail: the first one hangs.
MAIL = """#!/bin/sh
if [ ! -e {folder}/hung ]; then : > {folder}/hung; sleep 120; fi
cat >> {folder}/mailed
"""


class Site:
    """Nights over a small root, by scripts that lie where this trial can take some away."""

    def __init__(self, folder, slurm):
        self.folder, self.slurm = folder, slurm
        self.root = common.make_root(folder + "/root", {
            "o%02d" % number: {"v1/content/a": b"a"} for number in range(PARTS)})
        write(self.root + "/o05/v1/content/a", "damaged")
        self.scripts = shutil.copytree(NIGHTS, folder + "/nights")
        self.nights = Together(folder + "/state", self.root)
        write(folder + "/bin/mail", MAIL.replace("{folder}", folder), 0o755)
        write(folder + "/guided", GUIDED.replace("{folder}", folder).replace("{program}", PROGRAM),
              0o755)
        self.jobs = []

    def words(self, *more):
        return [self.scripts + "/slurm/submit", "--create", "--parts", str(PARTS), "--state",
                self.nights.state, "--hours", "0.5", self.root, *more]

    def submit(self, *more, **environment):
        """A night, as the kinds and numbers of its jobs."""
        status, out, said = ran(self.words(*more), **{
            **self.slurm.how, "OCFL_SCRUB": self.folder + "/guided", **environment})
        check("submit", (status, said), (0, ""))
        self.jobs = [tuple(line.split()) for line in out.splitlines()]
        return self.jobs

    def numbers(self, kind):
        return [number for of, number in self.jobs if of == kind]

    def mark(self, kind, part):
        write("%s/%s-%s" % (self.folder, kind, part), "")

    def unmark(self, kind, part):
        os.remove("%s/%s-%s" % (self.folder, kind, part))

    def wait_for(self, part):
        """Waits until a part that is held runs."""
        begun = "%s/begun-%s" % (self.folder, part)
        self.slurm.wait(lambda: os.path.exists(begun), "part %s" % part)
        os.remove(begun)

    def finish(self, limit=90):
        """Waits until the jobs of the night have ended; what a killed controller lost is
        cancelled."""
        until = time.monotonic() + limit
        while self.slurm.left() and time.monotonic() < until:
            time.sleep(0.2)
        left = self.slurm.left()
        if left:
            print("cancelled: %s" % left)
            self.slurm.output_of(["scancel", *{row.split()[0].split("_")[0] for row in left}])
            self.slurm.wait(lambda: not self.slurm.left(), "the queue")

    def message(self):
        return "".join(read("%s/slurm/end-%s.out" % (self.nights.state, number)) or ""
                       for number in self.numbers("end"))

    def check_unmade(self, name, parts):
        """These parts are told as ones that made no night, and the night is no good one."""
        check(name, (" in %s: " % parts in self.message(), self.nights.level()), (True, 2))


def cancelled(site):
    """An array that is cancelled before it begins."""
    site.submit("--", "--begin=now+30", "--hold")
    site.slurm.output_of(["scancel", *site.numbers("part")])
    site.slurm.output_of(["scontrol", "update", "JobId=" + site.numbers("end")[0], "StartTime=now"])
    site.slurm.output_of(["scontrol", "release", *site.numbers("end")])
    site.finish()
    site.check_unmade("an array that is cancelled", "parts 1-14")


def dying(site):
    """Tasks that die at once: a script of theirs is missing on their node."""
    os.rename(site.scripts + "/parallel/part", site.folder + "/part")
    site.submit()
    site.finish()
    os.rename(site.folder + "/part", site.scripts + "/parallel/part")
    site.check_unmade("tasks that die at once", "parts 1-14")


def requeued(site):
    """A task is queued again, one fails, one is made twice."""
    for kind, part in [("held", "2"), ("held", "4"), ("fails", "5")]:
        site.mark(kind, part)
    site.submit()
    array = site.numbers("part")[0]
    site.wait_for("2")
    subprocess.run(["scontrol", "requeue", array + "_2"], env=site.slurm.how, check=True)
    site.unmark("held", "2")
    site.wait_for("4")
    site.unmark("held", "4")
    site.finish()
    out = read(site.nights.path("slurm/part-2.out"))
    check("the task that was queued again", re.findall(r"part 2 .*, start (\d)\n", out)[-2:],
          ["1", "2"])
    check("its part", site.nights.rows(2)[-1]["status"], 0)
    site.check_unmade("the one that failed", "part 5")
    check("findings fail no task", site.slurm.states(array).get(array + "_6", [None])[0],
          "COMPLETED")
    check("nothing is joined", site.nights.has("reports/cycle-000001"), None)
    site.unmark("fails", "5")


def killed_controller(site):
    """The controller is killed and started again while a task runs. It may forget or repeat what
    came in its last seconds."""
    site.mark("held", "5")
    site.submit()
    site.wait_for("5")
    site.slurm.wait_for_save(site.numbers("part")[0] + "_1")
    site.slurm.kill_controller()
    site.slurm.start_controller()
    site.unmark("held", "5")
    site.finish(60)
    for _ in range(3):
        if site.nights.has("reports/cycle-000001") is None:
            site.submit()
            site.finish()
    site.nights.is_audit("the cycle")
    check_statement("its statement", site.nights, 1)
    check("at the end no part waits", site.nights.level() in (0, 1), True)


def requeued_message(site):
    """More parts than an array has tasks are all audited; the job of the message is queued again
    while its mail is under way, and then the mail is sent."""
    site.submit("--at-once", "4", MAIL="her@example.org",
                PATH=site.folder + "/bin:" + site.slurm.how["PATH"])
    check("several arrays", len(site.numbers("part")), 2)
    site.slurm.wait(lambda: os.path.exists(site.folder + "/hung"), "the mail", 90)
    subprocess.run(["scontrol", "requeue", *site.numbers("end")], env=site.slurm.how, check=True)
    site.finish()
    site.nights.is_audit("the next cycle", 2)
    mailed = read(site.folder + "/mailed") or ""
    check("the mail", findings_in(mailed), sorted(findings(audit(site.root))))


# In the place of Slurm: takes jobs as one with arrays of so many tasks does, and notes them.
SBATCH = """#!/bin/sh
for word in "$@"; do
  case $word in --array=*) array=${word#--array=}; array=${array%%%*} ;; esac
done
if [ "${array##*[-,]}" -ge "${WIDEST:-1001}" ] 2> /dev/null || [ -e "$TAKEN.full" ]; then
  echo "sbatch: error: Batch job submission failed: Invalid job array specification" >&2
  exit 1
fi
echo "${array:-no array}" >> "$TAKEN"
echo "1234567890123456789$(wc -l < "$TAKEN")"
"""
SCONTROL = """#!/bin/sh
echo "MaxArraySize            = ${WIDEST:-1001}"
"""


# Shows each job that it is asked for as one that waits.
SQUEUE = """#!/bin/sh
[ ! -e "$TAKEN.queued" ] || echo PENDING
"""


def without_slurm(folder):
    """A night of more parts than one array takes is given whole; a Slurm without arrays is named
    before anything is begun; one that refuses a job leaves a night that is no good one."""
    root = common.make_root(folder + "/root", {})
    for number in range(1300):
        os.mkdir("%s/n-%04d" % (root, number))
    for name, text in [("sbatch", SBATCH), ("scontrol", SCONTROL), ("scancel", "#!/bin/sh\n"),
                       ("squeue", SQUEUE)]:
        write("%s/bin/%s" % (folder, name), text, 0o755)
    taken = folder + "/taken"
    for widest, arrays in [(0, None), (100001, ["1-1300"]), (501, ["1-500", "1-500", "1-300"])]:
        nights = Together("%s/state-%d" % (folder, widest), root)
        if os.path.exists(taken):
            os.remove(taken)
        status, out, said = submitted(folder, nights, widest)
        if arrays is None:
            check("no arrays", (status, out, "MaxArraySize" in said, os.path.exists(nights.state)),
                  (3, "", True, False))
            continue
        check("arrays of less than %d" % widest, (status, said, read(taken).splitlines()),
              (0, "", [*arrays, "no array"]))
    write(taken + ".queued", "")
    status, out, said = submitted(folder, nights, 501)
    check("a second night while the last one is queued", (status, out, "is still pending" in said,
                                                          len(read(taken).splitlines())),
          (75, "", True, 4))
    os.remove(taken + ".queued")
    for number in range(70):
        for name in ("parts-%d.1", "end-%d.out"):
            write(nights.path("slurm/" + name % number), "")
            os.utime(nights.path("slurm/" + name % number), (number, number))
    write(taken + ".full", "")
    status, out, said = submitted(folder, nights, 501)
    names = os.listdir(nights.path("slurm"))
    check("what is older than sixty nights is gone", [len(names), "parts-10.1" in names,
                                                      "end-9.out" in names], [122, False, False])
    check("refused", (status, "Slurm refused a job" in said, nights.level()), (3, True, 2))
    check("the parts are told", " in parts 1-1300: " in out, True)
    for words in [["--hours", "x"], ["--budget", "4x"], ["--at-once", "x"]]:
        new = Together(folder + "/new", root)
        status, _, _ = submitted(folder, new, 501, *words)
        check("usage: %s" % words, (status, os.path.exists(new.path("parts"))), (2, False))


def submitted(folder, nights, widest, *more):
    return ran([NIGHTS + "/slurm/submit", "--create", "--parts", "1300", "--state", nights.state,
                *more, nights.root], PATH=folder + "/bin:" + os.environ["PATH"],
               WIDEST=str(widest), TAKEN=folder + "/taken")


def check_all(folder):
    with Slurm(more="MaxArraySize=11\n") as slurm:
        os.mkdir(folder + "/site")
        site = Site(folder + "/site", slurm)
        for part in (cancelled, dying, requeued, killed_controller, requeued_message):
            tried(part, site)
    os.mkdir(folder + "/none")
    tried(without_slurm, folder + "/none")


common.run_trial(check_all, needs=["slurmctld"])
