#!/usr/bin/env python3
"""Tries what scripts do in the folder of another user, who can put links and files into it: what
root calls there reads and writes nothing that this user may not. And what scripts do with links in
a folder of one's own.

usage: owners.py [PART]...

What only root can try is skipped and named where another user runs it.

Tried, and what comes of it. Each row was seen to fail on scripts that lacked it:

- Links and files in the folder of another user, in the place of what root writes or reads there:
  nothing of root's is written or shown; nights are refused, and leave nothing. It needs root;
  another user leaves that out and says so.
- Links in the place of what a night, a statement, a question or `status` reads or writes: status
  3, and the link is named.
"""
import os
import shutil

import common
from common import PROGRAM, check
from shared.nights import NIGHTS, REPORTS, Nights, make_root, ran, read, tried_apart, write

NOBODY = 65534
SECRET = "E092\tsecret\t-\n"


class Other:
    """The folder of state of another user, with a whole cycle; the scripts and the program where
    that user can reach them; and a file that root alone may read."""

    def __init__(self, folder):
        for at in [folder, os.path.dirname(folder)]:
            os.chmod(at, 0o755)
        self.folder, self.scripts = folder, folder + "/nights"
        shutil.copytree(NIGHTS, self.scripts)
        self.program = shutil.copy(PROGRAM, folder + "/program")
        self.secret = folder + "/secret"
        write(self.secret, SECRET, 0o600)
        os.makedirs(folder + "/of-nobody/state")
        os.mkdir(folder + "/tmp", 0o777)
        os.chmod(folder + "/tmp", 0o1777)
        for at in ["/of-nobody", "/of-nobody/state"]:
            os.chown(folder + at, NOBODY, NOBODY)
        self.nights = Nights(folder + "/of-nobody/state", make_root(folder + "/root"))
        self.calls("nightly", "--create", "--state", self.nights.state, self.nights.root,
                   user=NOBODY)

    def calls(self, name, *words, user=0, **given):
        """What a script gives as root, or as a user."""
        before = ["setpriv", "--reuid", str(user), "--regid", str(user), "--clear-groups"]
        return ran([*(before if user else []), "%s/%s" % (self.scripts, name), *words],
                   OCFL_SCRUB=self.program, TMPDIR=self.folder + "/tmp", **given)

    def asks(self, *words):
        return self.calls("ocfl-scrub-reports", *words)

    def link(self, name, to=None):
        """Puts a link into the folder, as its user can."""
        path = self.nights.path(name)
        if os.path.lexists(path):
            os.remove(path)
        os.symlink(to or self.secret, path)
        os.chown(path, NOBODY, NOBODY, follow_symlinks=False)

    def is_safe(self, name):
        check("the file of root after " + name, (read(self.secret), os.stat(self.secret).st_uid),
              (SECRET, 0))

    def owners(self):
        """The users whose the files of the folder are."""
        found = set()
        for where, folders, names in os.walk(self.nights.state):
            found |= {os.lstat(os.path.join(where, name)).st_uid for name in folders + names}
        return found


def writing(folder):
    """Links in the place of what scripts write."""
    other = Other(folder)
    state, root = other.nights.state, other.nights.root
    check("a night of the user", "cycle-000001" in os.listdir(state + "/reports"), True)
    for name in ["statement-000001", "statement-000001.json"]:
        os.remove(other.nights.path("reports/" + name))
        for end in ["", ".new"]:
            other.link("reports/" + name + end)
        other.asks("statement", state, "1")
        other.is_safe("a statement in the place of " + name)
        for end in ["", ".new"]:
            os.remove(other.nights.path("reports/" + name + end))
    check("a statement as root", (other.asks("statement", state, "1")[0], os.stat(
        other.nights.path("reports/statement-000001")).st_uid), (0, NOBODY))
    before = common.snapshot(state)
    for words in [["--state", state, root], ["--for-tell", "--state", state, root],
                  ["--create", "--state", state + "/first", root]]:
        status, out, said = other.calls("nightly", *words)
        check("a night as root", (status, out, "belongs to another user" in said), (3, "", True))
    check("nothing in the folder has changed", common.snapshot(state) == before, True)
    check("all of it is the user's", other.owners(), {NOBODY})
    for name in ["checkpoint.new", "log", "report", "tonight"]:
        other.link(name)
    other.calls("nightly", "--state", state, root)
    other.is_safe("a night of root")


def reading(folder):
    """Links in the place of what scripts read: nothing of what they lead to is shown."""
    other = Other(folder)
    state = other.nights.state
    report = other.nights.path("reports/cycle-000001")
    for name in ["reports/cycle-000001", "reports/cycle-000002", "report", "reports/gone-000001",
                 "log", "checkpoint", "reports/statement-000001",
                 "reports/statement-000001.sealed", "reports/known-000001"]:
        kept = common.read(other.nights.path(name)) if os.path.exists(
            other.nights.path(name)) else None
        other.link(name)
        for words in [["status", "--list", state], ["findings", report],
                      ["findings", other.nights.path("report")], ["totals", report],
                      ["json", report],
                      ["verify", other.nights.path("reports/statement-000001")],
                      ["premis", "--each", "finding", state, "1"],
                      ["cycle", state, "1"], ["page", state], ["repair", state],
                      ["unverified", "2030-01-01", state],
                      ["database", state, folder + "/tmp/db"]]:
            said = other.asks(*words)
            check("%s with a link as %s" % (words[0], name), [
                "secret" in text.replace(other.secret, "") for text in said[1:]], [False, False])
            if os.path.exists(folder + "/tmp/db"):
                check("the database has nothing of it", b"secret" in common.read(
                    folder + "/tmp/db"), False)
                os.remove(folder + "/tmp/db")
        os.remove(other.nights.path(name))
        if kept is not None:
            write(other.nights.path(name), kept)
            os.chown(other.nights.path(name), NOBODY, NOBODY)
    check("without links root has its answers", [other.asks(*words)[0] for words in [
        ["status", "--age", "-,-", state], ["totals", report],
        ["verify", other.nights.path("reports/statement-000001")]]], [0, 0, 0])


def links_of_ones_own(folder):
    """No link in a folder of state is followed, whoever calls."""
    nights = Nights(folder + "/state", make_root(folder + "/root"))
    nights.night()
    secret = folder + "/secret"
    write(secret, SECRET)
    report, statement = nights.path("reports/cycle-000001"), nights.path(
        "reports/statement-000001")
    for name in ["reports/cycle-000001", "log"]:
        kept = common.read(nights.path(name))
        os.remove(nights.path(name))
        os.symlink(secret, nights.path(name))
        status, out, _ = ran([REPORTS, "status", "--list", nights.state])
        check("status with a link as " + name, (status, "secret\t" in out, nights.path(
            name) + " is a link" in out), (3, False, True))
        os.remove(nights.path(name))
        write(nights.path(name), kept)
    for name in ["lock", "reports"]:
        kept = nights.path(name) + ".kept"
        if os.path.exists(nights.path(name)):
            os.rename(nights.path(name), kept)
        os.symlink(secret, nights.path(name))
        for words in [nights.words(), [REPORTS, "finish", nights.state]]:
            status, _, said = ran(words)
            check("%s with a link as %s" % (os.path.basename(words[0]), name),
                  (status, said != ""), (3, True))
        os.remove(nights.path(name))
        if os.path.exists(kept):
            os.rename(kept, nights.path(name))
    check("what the links led to", read(secret), SECRET)
    os.rename(report, folder + "/report")
    os.symlink(folder + "/report", report)
    check("verify", ran([REPORTS, "verify", statement])[0], 3)
    os.remove(statement)
    check("a statement", ran([REPORTS, "statement", nights.state, "1"])[0:2], (3, ""))
    os.remove(report)
    os.rename(folder + "/report", report)
    os.symlink(secret, statement + ".new")
    check("a new statement", ran([REPORTS, "statement", nights.state, "1"])[0:2], (0, ""))
    check("what the link led to", (read(secret), os.path.islink(statement)), (SECRET, False))


PARTS = [links_of_ones_own] + ([writing, reading] if os.geteuid() == 0 else [])


def check_all(folder):
    if os.geteuid() != 0:
        print("owners.py: skipped: what root calls: this is not root")
    tried_apart(PARTS, folder)


common.run_trial(check_all)
