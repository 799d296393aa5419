"""A clone of the repository with the program built in it: what `install` and `package` work on."""
import os
import shutil
import subprocess

from common import PROGRAM, TOP
from shared.nights import NIGHTS, ran, write

# What the clone has beside `nights`.
PARTS = ["README.md", "CHANGELOG.md", "CONTRIBUTING.md", "SECURITY.md", "VERSION", "install",
         "package", "ocfl-scrub", "crates.txt", "samples", "docs", "bench"]


def git(clone, *words):
    who = ["-c", "user.name=trial", "-c", "user.email=trial@example.org"]
    return ran(["git", "-C", clone] + who + list(words))[1]


def make_clone(folder, parts=PARTS):
    """The clone is a repository of its own, with one commit."""
    os.makedirs(folder, exist_ok=True)
    for name in parts:
        copy(os.path.join(TOP, name), os.path.join(folder, name))
    copy(NIGHTS, os.path.join(folder, "nights"))
    write(os.path.join(folder, ".gitignore"), "out/\n")
    git(folder, "init", "-q")
    git(folder, "add", "-A")
    git(folder, "commit", "-q", "-m", "as it is")
    put_program(folder)
    return folder


def copy(of, to):
    if os.path.isdir(of):
        shutil.copytree(of, to)
    else:
        shutil.copy2(of, to)


def put_program(clone):
    """Puts the program where the launcher looks for what it built."""
    out = os.path.join(clone, "crates/ocfl_scrub_cli/out")
    os.makedirs(out)
    made = shutil.copy(PROGRAM, os.path.join(out, "ocfl_scrub_cli"))
    with open(made, "rb") as program:
        stamp = subprocess.run(["cksum"], stdin=program, capture_output=True, check=True).stdout
    write(os.path.join(out, "built"), stamp)
