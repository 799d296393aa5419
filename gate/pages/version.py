"""The version: the file VERSION holds it, and each other place that names it has to agree."""
import datetime
import os
import re

from gate.commands import fail
from gate.repository import TOP

FILE = os.path.join(TOP, "VERSION")
NUMBER = r"\d+\.\d+\.\d+"
# The files that name the version, each with what comes before it there.
PLACES = {
    "crates/ocfl_arguments/src/command.rt": r'const VERSION: &str = "',
    "crates/ocfl_tests/src/tests/line.rt": r'"ocfl-scrub ',
    "nights/man/ocfl-scrub.1": r"ocfl\\-scrub ",
    "nights/man/ocfl-scrub-reports.1": r"ocfl\\-scrub ",
    "nights/STATEMENTS.md": r"Program: ocfl-scrub ",
    "README.md": r"ocfl-scrub_",
}


def agreed():
    """Compares each place with the file VERSION, which is one check, and says what differs."""
    faults = differing(text_of(FILE))
    for fault in faults:
        fail(fault)
    return int(not faults), len(faults)


def differing(text):
    """What is wrong with the version, given the text of its file."""
    version = text.removesuffix("\n")
    if not re.fullmatch(NUMBER, version):
        return ["VERSION is not three numbers with dots between them: %r" % text]
    faults = []
    for path, before in PLACES.items():
        named = re.findall("%s(%s)" % (before, NUMBER), text_of(os.path.join(TOP, path)))
        faults += [] if named else ["%s does not name the version" % path]
        faults += ["%s has version %s, and VERSION has %s" % (path, it, version)
                   for it in named if it != version]
    return faults + undated(version)


def undated(version):
    """What is wrong with the first section of CHANGELOG.md, but for one of what is not released."""
    heads = re.findall(r"(?m)^## (.*)$", text_of(os.path.join(TOP, "CHANGELOG.md")))
    head = next((it for it in heads if it != "Not released"), "nothing")
    name, _, date = head.partition(", ")
    try:
        if name == version and datetime.date.fromisoformat(date).isoformat() == date:
            return []
    except ValueError:
        pass
    return ["CHANGELOG.md begins with %s, and not with %s and its date" % (head, version)]


def text_of(path):
    with open(path) as file:
        return file.read()
