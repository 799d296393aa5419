#!/usr/bin/env python3
"""Runs the commands that README.md, the pages of nights and the manual page show, in their order,
and compares what they print with what the page shows.

usage: pages.py

Where a tool is missing, that is a failure which names Debian's package.

A page is one session, with a home and a working folder of its own. Its `/srv`, `/tmp`, `/usr/local`
and the like lie in a folder of the trial, and `/srv/ocfl` is the sample with its damaged file. A
command that is neither run nor named below is a failure, and so is an entry that no page has.
"""
import os
import re
import subprocess

import common
from common import PROGRAM, TOP, check
from shared.clones import make_clone
from shared.nights import NIGHTS, ran, read, tried
from shared.pages import blocks_of_manual, blocks_of_markdown, commands_of
from shared.states import tools

PACKAGES = {"git": "git", "jq": "jq", "sqlite3": "sqlite3", "gzip": "gzip",
            "perl": "perl", "cmp": "diffutils"}

# How commands begin that are not run, and why not.
NOT_RUN = {
    "systemd-sysusers ": "adds a user to the system",
    "systemd-tmpfiles ": "needs that user",
    "runuser ": "needs that user",
    "systemctl ": "needs a service manager",
    "sudo apt install ": "changes the system; trials/package.py installs the package",
    "slurm/submit ": "needs a cluster; trials/slurm.py makes one",
}
# How blocks begin of which no line is run, and why not.
NO_COMMANDS = {
    "[Service]": "lines of a unit",
    "[Unit]": "lines of a unit",
    "ocfl-scrub-reports statement --seal ": "needs keys, which trials/statements.py makes",
    "Subject: ": "a message, which docs/message makes",
    "# The controller wrote ": "a file of known findings",
}
# Statuses of commands that may end otherwise than with 0: the sample has a damaged file.
ENDS = [(r"# still E092", {1}), (r"# ok$|# the rest of its object", {0}),
        (r"xargs .*\n.*ocfl-scrub audit ", {0, 123}),
        (r"ocfl-scrub (--unproved )?(audit|run|night|check) |/nightly |zdiff ", {0, 1}),
        (r"ocfl-scrub-reports recheck ", {0, 1}), (r"\| grep -naxv ", {1}),
        (r"ocfl-scrub-reports status ", {2})]
# What else a user has done before the further commands of a page, which need two whole cycles.
THEN = {
    "./nightly --create --state ~/audit --until 06:00 /srv/ocfl": [
        "mkdir -p /mnt/copy/letters/v1/content",
        "echo 'Yours sincerely' > /mnt/copy/letters/v1/content/damaged.txt"],
    "./nightly --create --state ~/audit --hours 1 /srv/ocfl": [
        "./nightly --state ~/audit --hours 1 /srv/ocfl",
        "sleep 1.1; ./nightly --state ~/audit --slice 1 --files 1 /srv/ocfl",
        "mkdir -p /var/lib/node_exporter /var/lib/ocfl-scrub /srv/www/fixity",
        "cp -R ~/audit /var/lib/ocfl-scrub/archive",
        "mkdir -p /mnt/copy/letters/v1/content",
        "echo 'Yours sincerely' > /mnt/copy/letters/v1/content/damaged.txt"],
    "ocfl-scrub-reports expected ~/audit > ~/objects": [
        "mkdir /mnt/new", "cp -R /srv/ocfl /mnt/new/ocfl"],
    "/usr/local/share/ocfl-scrub/nightly --create --state /var/lib/audit \\\n    --until 06:00 "
    "/srv/ocfl": [
        "/usr/local/share/ocfl-scrub/nightly --state /var/lib/audit --hours 1 /srv/ocfl"],
}
# What differs from one run to the next.
MASKS = [(r"\d{4}-\d\d-\d\dT\d\d:\d\d:\d\dZ", "TIME"), (r"\d{4}-\d\d-\d\d", "DAY"),
         (r"age=\d+s", "age=s"),
         (r"(?m)^(Host|State folder|Program commit|Program SHA-256): .*", r"\1: ."),
         (r"(?m)^(Programs of its runs, SHA-256): .*", r"\1: .")]
# Folders of the system that a page names.
SYSTEM = re.compile(r"(?<![\w.~/])/(?=(?:tmp|srv|usr/local|var/lib|mnt|etc)\b)")
# Others: a command that names one is not run.
OTHER = re.compile(r"(?<![\w.~/])/(?!dev/null)(?=(?:bin|boot|dev|home|lib|media|opt|proc|root|run|"
                   r"sbin|sys|usr|var)\b)")
# What pages set for their further commands.
VARIABLES = ["root", "line", "object", "file"]
# The pages of nights that come first, in this order, and those that need several machines.
FIRST, NOT_FOLLOWED = ["README.md", "STATEMENTS.md", "REPORTS.md", "REPAIR.md"], ["CLUSTERS.md"]
used = set()


def masked(text):
    for pattern, mask in MASKS:
        text = re.sub(pattern, mask, text)
    return text


def fits(shown, got):
    """Whether this was printed: `..` stands for the rest of a digest, and times differ."""
    parts = re.split(r"(?<=[0-9a-f])\.\.", masked(shown))
    return re.fullmatch("[0-9a-f]*".join(map(re.escape, parts)), masked(got)) is not None


class Session:
    """What a user of a page has: a home, a working folder, and the folders of the system."""

    def __init__(self, folder, at):
        self.folder = os.path.realpath(folder)
        # A home and a folder of states that hold nothing at all look like disks that are away.
        for name in ["home/mail", "tmp", "srv", "usr/local", "var/lib/dpkg", "mnt/usb",
                     "etc/systemd/system", "etc/ocfl-scrub"]:
            os.makedirs(os.path.join(self.folder, name))
        self.clone = make_clone(self.folder + "/clone")
        home = self.folder + "/home"
        path = "%s/.local/bin:%s/usr/local/bin:%s" % (home, self.folder, os.environ["PATH"])
        self.how = {**os.environ, "HOME": home, "PATH": path, "TMPDIR": self.folder + "/tmp"}
        self.how.pop("OCFL_SCRUB", None)
        self.call("./clone/samples/make /srv/ocfl", self.folder)
        self.at = self.folder + at

    def here(self, text):
        """What a page shows, with the folders of the trial. The clone has the proved program, and
        no sources for a look."""
        return SYSTEM.sub(self.folder + "/", text).replace("ocfl-scrub --unproved ", "ocfl-scrub ")

    def call(self, command, at=None):
        """Status and output of a command, in the folder that the one before left, with the
        variables of pages as it left them."""
        self.at = at or self.at
        words = ["sh", "-c", 'eval "$1"; status=$?; pwd > "$2"; for name in %s; do '
                 'eval "echo \\"\\${$name:-}\\""; done > "$3"; exit $status' % " ".join(VARIABLES),
                 "sh", self.here(command), self.folder + "/at", self.folder + "/variables"]
        done = subprocess.run(words, cwd=self.at, env=self.how, stdin=subprocess.DEVNULL,
                              stdout=subprocess.PIPE, stderr=subprocess.STDOUT, timeout=600)
        self.at = read(self.folder + "/at").rstrip("\n")
        self.how.update(zip(VARIABLES, read(self.folder + "/variables").splitlines()))
        return done.returncode, common.text_of(done.stdout).replace(self.folder, "")

    def run(self, page, command, shown):
        """Runs a command of a page, and what its user does then."""
        name = "%s: %s" % (page, command.strip())
        ends = [ends for pattern, ends in ENDS if re.search(pattern, command)] or [{0}]
        is_apart = OTHER.search(SYSTEM.sub("", re.sub(r" #.*", "", command))) is None
        status, got = self.call(command) if is_apart else ("not run", "")
        if status not in ends[0]:
            check(name, (status, got), ends[0])
        elif shown is None:
            check(name, True, True)
        else:
            check(name, shown if fits(shown, got) else got, shown)
        for more in THEN.get(command.strip(), []):
            self.call(more)


def is_left(text, beginnings):
    """Whether a block or a command begins so; notes which of the beginnings are used."""
    found = [beginning for beginning in beginnings if text.startswith(beginning)]
    used.update(found)
    return bool(found)


def follow(session, page, blocks):
    """Runs the blocks of a page, each command on its own."""
    for block in blocks:
        if is_left(block, NO_COMMANDS):
            continue
        for command, shown in commands_of(block):
            if not is_left(command, NOT_RUN):
                session.run(page, command, shown)


def readme(folder):
    session = Session(folder, "/clone")
    follow(session, "README.md", blocks_of_markdown(read(TOP + "/README.md")))


def written(folder):
    """README's message is that which the programs write now, but for times."""
    shown = re.findall(r"(?s)<!-- message -->\n\n(.*?)\n<!-- end ", read(TOP + "/README.md"))
    status, got, said = ran([TOP + "/docs/message"], OCFL_SCRUB=PROGRAM, TMPDIR=folder)
    check("docs/message", (status, said), (0, ""))
    check("README has what docs/message prints", masked("\n".join(shown)), masked(got))


def installed(folder):
    """A session in which the program is installed below /usr/local."""
    session = Session(folder, "/home")
    session.call("./install /usr/local", session.clone)
    session.at = session.folder + "/home"
    return session


def nightly(folder):
    """The pages of nights are one session, since the first one makes the nights."""
    session = installed(folder)
    session.call("./install", session.clone)
    session.at = session.folder + "/home"
    others = {name for name in os.listdir(NIGHTS) if name.endswith(".md")} - set(NOT_FOLLOWED)
    for page in [*FIRST, *sorted(others - set(FIRST))]:
        follow(session, "nights/" + page, blocks_of_markdown(read(NIGHTS + "/" + page)))


def manual(folder):
    text = read(NIGHTS + "/man/ocfl-scrub.1")
    follow(installed(folder), "ocfl-scrub.1", blocks_of_manual(text))


def check_all(folder):
    tools(PACKAGES)
    for part in [written, readme, nightly, manual]:
        os.mkdir(os.path.join(folder, part.__name__))
        tried(part, os.path.join(folder, part.__name__))
    check("what is not run, and no page has", sorted({*NOT_RUN, *NO_COMMANDS} - used), [])


common.run_trial(check_all, needs=["parallel"])
