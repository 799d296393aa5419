#!/usr/bin/env python3
"""Tries the launcher `ocfl-scrub` in a folder of its own, with a command `rt` that builds at once.

usage: launcher.py

Tried, and what comes of it:

- The launcher: no toolchain or one of another logic, a build that fails or is stopped, links to
  it, CDPATH, a folder that cannot be written, a newer source, an empty or a half-written program;
  how far it is, on a terminal and elsewhere: it builds exactly where it has to, leaves no log,
  and says last what is missing.
- A look without proof: roots by a relative path, each status, one that takes too long, other
  commands: report and status are handed on, standard error says that nothing was proved, and
  nothing is built.
"""
import os
import pty
import re
import shutil
import signal
import subprocess
import time

import common
from common import check, write


def read(path):
    return common.text_of(common.read(path))


README = read(os.path.join(common.TOP, "README.md"))
# The kit that README names, by its logic, and how long it says that a build takes.
LOGIC = re.search(r"`logic (\w+)`", README)[1]
MINUTES = re.search(r"proves and builds the program, in ([\w ]+ minutes)", README)[1]
CRATES = b"# lowest first\nlow:\nbeside: low\nmiddle: low sha2\nocfl_tests: low beside\n" \
         b"ocfl_scrub_cli: middle\n"
NEEDED = b"low:\nmiddle: low sha2\nocfl_scrub_cli: middle\n"
PROVED = ["low", "middle", "ocfl_scrub_cli"]
# What stands for the command `rt`. It proves these crates, and makes a program that shows its words
# and ends with 7; counts how often it did; and does a look as `rt try` does.
RT = b"""#!/bin/sh
case $1 in
  version) echo "${RT_KIT-rattle-kit-99 logic %s}" ;;
  ci)
    cat crates.txt > "$READ"
    echo "rt: low is kept: an earlier run on this machine proved the same files"
    for name in middle ocfl_scrub_cli; do
      printf '== %%s\\nfn of %%s: proved\\n' "$name" "$name"
      [ "$RT_FAILS" = "" ] || { echo "fn x: not proved"; echo "rt: $name NOT PROVED"; exit 1; }
      echo "rt: $name proved"
    done
    echo built >> "$COUNT"
    [ "$RT_WAITS" = "" ] || { echo $$ > "$COUNT.pid"; exec sleep 30; }
    cd crates/ocfl_scrub_cli && [ -f src/main.rt ] && [ ! -e edits ] && mkdir out || exit 1
    printf '#!/bin/sh\\necho "$*"\\nexit 7\\n' > out/ocfl_scrub_cli
    chmod 755 out/ocfl_scrub_cli ;;
  try)
    while [ "$1" != -- ]; do shift; done
    shift
    printf '%%s\\n' "$@"
    echo "ocfl-scrub: said by the program" >&2
    echo "interpreter: no-answer: a call of a function is not supported" >&2
    if [ "$RT_ENDS" = "" ]; then
      echo "checked: no-answer: ${RT_SAYS-the program did not end within the time limit}" >&2
      echo "run=no-answer proved=no" >&2
      exit 6
    fi
    echo "checked: ended status=$RT_ENDS" >&2
    echo "run=ended status=$RT_ENDS runners=1 proved=no" >&2
    exit "$RT_ENDS" ;;
esac
""" % LOGIC.encode()


class Copy:
    """The launcher beside a crate, and what it is called with."""

    def __init__(self, folder):
        self.top = os.path.join(folder, "top")
        self.crate = os.path.join(self.top, "crates/ocfl_scrub_cli")
        self.program = os.path.join(self.crate, "out/ocfl_scrub_cli")
        self.source = write(os.path.join(self.crate, "src/main.rt"), b"")
        write(os.path.join(self.top, "crates.txt"), CRATES)
        self.launcher = os.path.join(self.top, "ocfl-scrub")
        shutil.copy(os.path.join(common.TOP, "ocfl-scrub"), self.launcher)
        self.logs = os.path.join(folder, "logs")
        os.mkdir(self.logs)
        rt = write(os.path.join(folder, "bin/rt"), RT)
        os.chmod(rt, 0o755)
        self.count = write(os.path.join(folder, "count"), b"")
        self.read = write(os.path.join(folder, "read"), b"")
        path = "%s:/usr/bin:/bin" % os.path.dirname(rt)
        self.how = {"PATH": path, "TMPDIR": self.logs, "COUNT": self.count, "READ": self.read}

    def called(self, words, launcher=None, cwd=None, before=(), **more):
        """Status, output, what was said, and how often it was built until now."""
        command = [*before, launcher or self.launcher, *words]
        done = subprocess.run(command, capture_output=True, cwd=cwd, timeout=60,
                              stdin=subprocess.DEVNULL, env={**self.how, **more})
        return done.returncode, done.stdout.decode(), done.stderr.decode(), self.builds()

    def builds(self):
        return len(read(self.count).splitlines())


def age(path):
    """Makes a file one minute older than it is."""
    look = os.stat(path)
    os.utime(path, (look.st_atime - 60, look.st_mtime - 60))


def no_toolchain(copy):
    """What is missing is the last thing said: a night passes on no more than that."""
    status, out, said, builds = copy.called(["audit"], PATH="/usr/bin:/bin")
    last = said.splitlines()[-1]
    check("no toolchain", (status, out, builds), (3, "", 0))
    check("no toolchain: the reason comes last",
          [part in last for part in ["it is not built", "command rt is not found", "README.md"]],
          [True, True, True])
    for name, kit in [("another kit", "rattle-kit-13b logic 0123456789abcdef"),
                      ("a kit whose logic begins so", "rattle-kit-99 logic %s0" % LOGIC),
                      ("a kit without a name", "")]:
        status, out, said, builds = copy.called(["audit"], RT_KIT=kit)
        check(name, (status, out, builds), (3, "", 0))
        check(name + ": it is named, and so is what is wanted",
              [len(said.splitlines()), kit in said, "logic %s:" % LOGIC in said,
               "README.md" in said], [1, True, True, True])


def fails(copy):
    status, out, said, builds = copy.called(["audit"], RT_FAILS="1")
    check("a build that fails", (status, out, builds, "fn x: not proved" in said),
          (3, "", 0, True))
    check("it shows nothing that was proved", "fn of" in said, False)
    check("it leaves no log", os.listdir(copy.logs), [])


def is_running(pid):
    return os.path.exists("/proc/%d" % int(pid or 0))


def stopped(copy):
    """A build that is stopped leaves no log and nothing that runs, and the next call builds."""
    for name, stop in [("the group", os.killpg), ("the launcher alone", os.kill)]:
        write(copy.count + ".pid", b"")
        process = subprocess.Popen([copy.launcher, "audit"], stderr=subprocess.PIPE,
                                   env={**copy.how, "RT_WAITS": "1"}, start_new_session=True)
        end = time.monotonic() + 20
        while not read(copy.count + ".pid").endswith("\n") and time.monotonic() < end:
            time.sleep(0.01)
        stop(process.pid, signal.SIGTERM)
        process.communicate(timeout=60)
        check("a build of which %s is stopped" % name,
              (process.returncode, os.listdir(copy.logs), is_running(read(copy.count + ".pid"))),
              (3, [], False))


def builds_once(copy):
    status, out, said, builds = copy.called(["one", "two words"])
    check("it builds, and hands on words and status", (status, out, builds),
          (7, "one two words\n", 3))
    check("it says so", [part in said for part in [
        "it is not built.", MINUTES, copy.launcher + " --unproved audit ROOT", copy.logs,
        "README.md"]], [True] * 5)
    check("where there is no terminal, each crate that is proved has its line",
          [line.split(": ")[1:] for line in said.splitlines() if " proved, " in line],
          [["%d of 3 crates proved, 0 min so far" % (at + 1), name]
           for at, name in enumerate(PROVED)])
    check("it proves what the program stands on", read(copy.read), NEEDED.decode())
    check("it leaves no log behind it", os.listdir(copy.logs), [])
    check("it builds once", copy.called(["again"]), (7, "again\n", "", 3))


def on_a_terminal(copy):
    """There the progress is one line, which is gone in the end."""
    os.remove(copy.program)
    ours, theirs = pty.openpty()
    process = subprocess.Popen([copy.launcher, "x"], stdout=subprocess.PIPE, stderr=theirs,
                               stdin=subprocess.DEVNULL, env=copy.how)
    os.close(theirs)
    sent = b""
    while part := read_some(ours):
        sent += part
    out = process.communicate(timeout=60)[0]
    os.close(ours)
    lines = sent.decode().replace("\r\n", "\n").split("\n")
    check("on a terminal", (process.returncode, out, len(lines)), (7, b"x\n", 4))
    shown = [part.rstrip() for part in lines[-1].split("\r")]
    check("on a terminal: how far it is",
          "ocfl-scrub: 3 of 3 crates proved, 0 min so far" in shown, True)
    check("on a terminal: it fits into a line", max(len(part) for part in shown) < 80, True)
    check("on a terminal: nothing of it is left", shown[-2:], ["", ""])


def read_some(terminal):
    try:
        return os.read(terminal, 65536)
    except OSError:
        return b""


def unproved(folder, copy):
    """A look hands on the report, what the program said, and its status, and builds nothing."""
    root = os.path.join(folder, "a root")
    os.mkdir(root)
    before = copy.builds()
    for name, words, cwd, given in [
        ("a look", [root], "/", [root]),
        ("a look at a relative root", ["a root"], folder, [root]),
        ("a look at one object", ["--under", "a root", "."], folder,
         ["--under", "a root", folder + "/."]),
    ]:
        for status in [0, 1, 3]:
            done = copy.called(["--unproved", "audit", *words], cwd=cwd, RT_ENDS=str(status))
            check("%s, status %d" % (name, status), done[:2] + done[3:],
                  (status, "".join(word + "\n" for word in ["audit", *given]), before))
            check("%s, status %d: what is said" % (name, status),
                  ["nothing is proved" in done[2], "ocfl-scrub: said by the program\n" in done[2],
                   "unproved program\n" in done[2], "no-answer" in done[2], "run=" in done[2]],
                  [True, True, True, False, False])
    status, _, said, _ = copy.called(["--unproved", "audit", root])
    check("a look that takes too long", (status, "did not end in" in said), (3, True))
    status, _, said, _ = copy.called(["--unproved", "audit", root], RT_SAYS="it broke")
    check("a look without an answer", (status, "it broke" in said), (3, True))
    for words in [[], ["audit"], ["audit", root, "--quiet"], ["check", root], ["audit", "gone"]]:
        status, out, said, _ = copy.called(["--unproved", *words])
        check("--unproved %s" % words, (status, out, "--unproved takes audit" in said),
              (2, "", True))
    said = copy.called(["--unproved", "audit", root], PATH="/usr/bin:/bin")[2]
    check("a look without a toolchain", "command rt is not found" in said, True)
    check("a look leaves nothing behind it", os.listdir(copy.logs), [])


def from_anywhere(folder, copy):
    links = os.path.join(folder, "links")
    os.makedirs(os.path.join(links, "top"))
    whole, near = os.path.join(links, "whole"), os.path.join(links, "near")
    os.symlink(copy.launcher, whole)
    os.symlink("../top/ocfl-scrub", near)
    os.symlink("near", os.path.join(links, "twice"))
    good = (7, "x\n", "", 3)
    for name, launcher, cwd in [
        ("from its folder", "./ocfl-scrub", copy.top),
        ("from another", "../top/ocfl-scrub", links),
        ("by a link", whole, "/"),
        ("by a link that is relative", near, "/"),
        ("by a link to a link", "./twice", links),
    ]:
        check(name, copy.called(["x"], launcher, cwd), good)
        check(name + ", with CDPATH", copy.called(["x"], launcher, cwd, CDPATH=folder), good)
    if os.geteuid() == 0:
        os.chmod(folder, 0o755)
        nobody = ["setpriv", "--reuid=65534", "--regid=65534", "--clear-groups"]
        check("where nothing can be written", copy.called(["x"], before=nobody), good)


def builds_anew(copy):
    """It is built anew for a newer source, and where the program is not what was built."""
    stamp = os.path.join(copy.crate, "out/built")
    for path in [copy.source, os.path.join(copy.top, "crates.txt"), stamp]:
        age(path)
    check("an older source", copy.called(["x"]), (7, "x\n", "", 3))
    write(os.path.join(copy.crate, "edits/an.edits"), b"")
    check("edits are no sources", copy.called(["x"]), (7, "x\n", "", 3))
    write(copy.source, b"changed")
    check("a newer source", copy.called(["x"])[:2] + (copy.builds(),), (7, "x\n", 4))
    for name, data in [("an empty program", b""), ("half a program", b"#!/bin/sh\nexit 0\n")]:
        write(copy.program, data)
        before = copy.builds()
        check(name, copy.called(["x"])[:2] + (copy.builds(),), (7, "x\n", before + 1))
    os.remove(copy.program)
    check("no program", copy.called(["x"])[:2] + (copy.builds(),), (7, "x\n", 7))


def below_edits(folder):
    """A newer source is seen in a clone below a folder `edits`, too."""
    copy = Copy(os.path.join(folder, "edits"))
    copy.called(["x"])
    age(os.path.join(copy.crate, "out/built"))
    write(copy.source, b"changed")
    check("a newer source, below a folder of edits",
          copy.called(["x"])[:2] + (copy.builds(),), (7, "x\n", 2))


def check_all(folder):
    copy = Copy(folder)
    no_toolchain(copy)
    fails(copy)
    unproved(folder, copy)
    stopped(copy)
    builds_once(copy)
    from_anywhere(folder, copy)
    builds_anew(copy)
    below_edits(folder)
    on_a_terminal(copy)


common.run_trial(check_all)
