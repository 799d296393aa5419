#!/usr/bin/env python3
"""Tries `ocfl-scrub-reports tell`, as the services run it after `nights/nightly`: each night's
text, once, and of no other night.

usage: telling.py [PART]...

Tried, and what comes of it. Each row was seen to fail on scripts that lacked it:

- A night's text that nothing sends, or whose mail is killed or fails: the next night's message
  has it, once.
- A night's text that nothing sends, or whose mail is killed or fails: the next call of `tell`
  sends it, once.
- The text of a night that is under way: what tells of another night leaves it.
- A text that was sent: nothing sends it again, and no journal is named that has nothing.
- A night that systemd could not begin: told.
- Two nights with one ID: both are sent. Before, the second one was not run.
- A disk without room for the text: the night says so to its own standard error, and the message
  too. Before, no reason was anywhere.
- The line for cron: its mail has the root and the result in its subject.
- Outputs that are closed: no file of the folder has what was written to them.
- Names with line feeds, control bytes and backslashes: they make no header, no line and no
  control byte.
- The command in a message, pasted into a shell, for names with quotes, `$(..)`, spaces,
  percent signs, control bytes, marks of direction and letters outside ASCII: it looks at that file
  and runs nothing else.
- Names with marks of direction, or with what ends a line or a paragraph: no message has any of
  them. Before, such a mark turned the rest of its line around.
- Nights that begin in the middle of an object: their messages name it. Before, such findings stood
  under `Elsewhere`.
"""
import os
import re
import shlex
import shutil
import subprocess
import time

import common
from common import PROGRAM, check
from shared.messages import shown
from shared.nights import (NIGHTS, REPORTS, WRONG_B, Nights, in_an_hour, make_root, ran, read,
                           tried_apart, write)


def words_of_tell(nights):
    return [REPORTS, "tell", "archive", nights.state]


def mailing(folder):
    """The environment of a mail that is put into a file."""
    bin_ = folder + "/bin"
    write(bin_ + "/mail", '#!/bin/sh\necho "$@" > %s/mailed; cat >> %s/mailed\n' % (folder, folder),
          0o755)
    return {"PATH": bin_ + ":" + os.environ["PATH"], "MAIL": "her@example.org"}


def in_service(nights, number, program=PROGRAM, **environment):
    """A night and what tells of it, as the service runs both: the status, and what the journal and
    the mail have."""
    unit = read(NIGHTS + "/systemd/ocfl-scrub@.service")
    line = re.sub(r"\\\n", "", re.search(r"^ExecStart=((?:.*\\\n)*.*)$", unit, re.MULTILINE)[1])
    given = {"UNTIL": in_an_hour(), "KEEP": "", "SEAL": "", "ROOT": nights.root,
             "OPTIONS": "" if os.path.exists(nights.path("checkpoint")) else "--create"}
    words = [re.sub(r"\$\{(\w+)\}", lambda found: given[found[1]], word)
             .replace("%S/ocfl-scrub/%i", nights.state)
             .replace("/usr/local/share/ocfl-scrub", NIGHTS) for word in line.split()]
    at = words.index("$OPTIONS")
    words[at:at + 1] = shlex.split(given["OPTIONS"])
    environment = {"INVOCATION_ID": "night%d" % number, "MAIL": "", "JOURNAL": "", **environment}
    os.makedirs(nights.state, exist_ok=True)
    status, out, said = ran(words, OCFL_SCRUB=program, **environment)
    told = ran(words_of_tell(nights), EXIT_CODE="exited", EXIT_STATUS=str(status), **environment)
    return status, out + said + told[1] + told[2]


def by_hand(folder):
    nights = Nights(folder + "/state", "")
    write(nights.path("tonight.a"), "1 finding\n")
    mail = mailing(folder)
    tell = words_of_tell(nights)
    check("told of 1", ran(tell, EXIT_CODE="exited", EXIT_STATUS="1", **mail), (0, "", ""))
    check("mail", read(folder + "/mailed"),
          "-s ocfl-scrub: findings in archive her@example.org\n1 finding\n")
    write(nights.path("tonight.b"), "2 findings\n")
    status, _, said = ran(tell, EXIT_CODE="exited", EXIT_STATUS="3", MAIL="")
    check("told of 3", (status, said.splitlines()),
          (0, ["ocfl-scrub: archive: the night stopped with status 3", "2 findings"]))
    check("what was sent last", nights.has("tonight"), "2 findings\n")
    status, _, said = ran(tell, EXIT_CODE="killed", EXIT_STATUS="KILL", SERVICE_RESULT="oom-kill",
                          MAIL="")
    check("told of a kill", said.splitlines()[:1],
          ["ocfl-scrub: archive: the night was killed (KILL, oom-kill)"])
    os.remove(folder + "/mailed")
    check("told of 0", ran(tell, EXIT_CODE="exited", EXIT_STATUS="0", **mail), (0, "", ""))
    check("no mail", read(folder + "/mailed"), None)


def once(folder):
    """A night's text is in the journal once, or in a mail, and in both where that is asked."""
    nights = Nights(folder + "/state", make_root(folder + "/root"))
    write(nights.root + "/o/v1/content/b", "b")
    status, said = in_service(nights, 1)
    check("in the journal once", (status, shown(WRONG_B, said)), (1, 1))
    mail = mailing(folder)
    status, said = in_service(nights, 2, **mail)
    check("by mail", shown(WRONG_B, read(folder + "/mailed") or ""), 1)
    check("and not in the journal", (status, said), (1, ""))
    status, said = in_service(nights, 3, JOURNAL="yes", **mail)
    check("in both where asked", (shown(WRONG_B, read(folder + "/mailed") or ""),
                                  shown(WRONG_B, said)), (1, 1))


def of_this_night(folder):
    """A night that fails early is told with its own text, and never with that of the one before."""
    nights = Nights(folder + "/state", make_root(folder + "/root"))
    write(nights.root + "/o/v1/content/b", "b")
    in_service(nights, 1)
    root, nights.root = nights.root, ""
    status, said = in_service(nights, 2)
    check("no root", (status in (2, 3), "E092" in said), (True, False))
    nights.root = root
    write(folder + "/no_program", "#!/none\n", 0o755)
    status, said = in_service(nights, 3, program=folder + "/no_program", PATH="/none")
    check("nothing can be run", "E092" in said, False)
    os.rename(root, root + ".away")
    status, said = in_service(nights, 4)
    check("not mounted", (status, "E092" in said, said.count(root)), (3, False, 1))
    os.rename(root + ".away", root)
    shutil.copytree(nights.state, folder + "/kept")
    shutil.rmtree(nights.state)
    os.mkdir(nights.state)
    words = [NIGHTS + "/nightly", "--for-tell", "--state", nights.state, root]
    check("an empty folder is not begun anew", (ran(words, INVOCATION_ID="night5")[0], "--create"
                                                in (nights.has("tonight.night5") or "")), (3, True))


def a_word_of_a_good_night(folder):
    """A night without findings that has something to say is told: a file is repaired."""
    nights = Nights(folder + "/state", make_root(folder + "/root"))
    write(nights.root + "/o/v1/content/b", "b")
    in_service(nights, 1)
    write(nights.root + "/o/v1/content/b", "")
    status, said = in_service(nights, 2)
    check("told", (status, "archive: findings repaired" in said, "repaired in cycle 2" in said),
          (0, True, True))
    # The log names nights by the second in which they begin.
    time.sleep(1.01 - time.time() % 1)
    status, said = in_service(nights, 3)
    check("then the word at the end of a cycle", (status, "cycle 3 of archive: all right" in said,
                                                  len(said.splitlines())), (0, True, 3))


def under_way(folder):
    """The text of a night that is under way is not sent by what tells of another one."""
    nights = Nights(folder + "/state", make_root(folder + "/root"))
    nights.night()
    write(nights.path("tonight.other"), "half a text\n")
    holding = "exec flock '%s' sh -c 'echo held; read word'" % nights.path("lock")
    held = subprocess.Popen(["sh", "-c", holding], stdin=subprocess.PIPE, stdout=subprocess.PIPE)
    held.stdout.readline()
    check("not yet", (run_tell(nights, 1, 0), nights.has("tonight.other")),
          ((0, ""), "half a text\n"))
    held.communicate(b"\n")
    check("then", run_tell(nights, 1, 0)[1].count("half a text"), 1)


def links(folder):
    """What lies there in the place of a text is not followed."""
    nights = Nights(folder + "/state", make_root(folder + "/root"))
    nights.part()
    write(folder + "/secret", "secret\n", 0o600)
    for name in ["tonight", "tonight.night1"]:
        os.symlink(folder + "/secret", nights.path(name))
    for environment in [{}, {"INVOCATION_ID": "night1"}]:
        said = ran(words_of_tell(nights), EXIT_CODE="exited", EXIT_STATUS="1", MAIL="",
                   **environment)
        check("not shown", ["secret" in text for text in said[1:]], [False, False])
    write(nights.root + "/o/v1/content/b", "b")
    in_service(nights, 1)
    check("not written", read(folder + "/secret"), "secret\n")
    in_service(nights, 2)
    check("nor as the last text", (read(folder + "/secret"), os.path.islink(
        nights.path("tonight"))), ("secret\n", False))


def as_the_user(folder):
    """Where root runs it, it reads as the user whose folder it is."""
    if os.geteuid() != 0:
        return
    shutil.copytree(NIGHTS, folder + "/nights")
    for where in [folder, os.path.dirname(folder)]:
        os.chmod(where, 0o755)
    os.makedirs(folder + "/state")
    write(folder + "/state/tonight.a", "secret\n", 0o600)
    os.chown(folder + "/state", 65534, 65534)
    said = ran([folder + "/nights/ocfl-scrub-reports", "tell", "archive", folder + "/state"],
               EXIT_CODE="exited", EXIT_STATUS="1", MAIL="")
    check("as the user", "secret" in said[2], False)
    unit = read(NIGHTS + "/systemd/ocfl-scrub-tell@.service")
    check("the service too", re.findall(r"^(?:User=.*|ExecStart=.)", unit, re.MULTILINE),
          ["User=ocfl-scrub", "ExecStart=/"])


def given_up(folder, body):
    """The environment of a mail that does this."""
    write(folder + "/bin/mail", "#!/bin/sh\n" + body, 0o755)
    return {"PATH": folder + "/bin:" + os.environ["PATH"], "MAIL": "her@example.org"}


def night_alone(nights, number):
    """A night for `tell`, which is not called."""
    os.makedirs(nights.state, exist_ok=True)
    return nights.night("--for-tell", INVOCATION_ID="night%d" % number)[0]


def run_tell(nights, number, status, **environment):
    """What tells of a night: its status, and what it says."""
    done = ran(words_of_tell(nights), EXIT_CODE="exited", EXIT_STATUS=str(status),
               INVOCATION_ID="night%d" % number, **{"MAIL": "", "JOURNAL": "", **environment})
    return done[0], done[1] + done[2]


def not_sent(folder):
    """What was not sent is told by the next night: where nothing called `tell`, where it was
    killed, where the mail failed. The file is right again in the meantime."""
    for name, body in [("never", None), ("killed", "cat > /dev/null; kill -KILL $PPID\n"),
                       ("failed", "cat > /dev/null; exit 1\n")]:
        there = "%s/%s" % (folder, name)
        nights = Nights(there + "/state", make_root(there + "/root"))
        write(nights.root + "/o/v1/content/b", "b")
        check(name + ": found", night_alone(nights, 1), 1)
        if body:
            given = run_tell(nights, 1, 1, **given_up(there, body))
            check(name + ": not sent", given[0] != 0, True)
        if name == "failed":
            check("the journal has what no mail had", shown(WRONG_B, given[1]), 1)
        write(nights.root + "/o/v1/content/b", "")
        status = night_alone(nights, 2)
        mail = mailing(there)
        told = run_tell(nights, 2, status, **mail)[0]
        mailed = read(there + "/mailed") or ""
        check(name + ": sent", (told, shown(WRONG_B, mailed)), (0, 2))
        os.remove(there + "/mailed")
        status = night_alone(nights, 3)
        run_tell(nights, 3, status, **mail)
        check(name + ": once", (status, shown(WRONG_B, read(there + "/mailed") or "")), (0, 0))


def sent(folder):
    """What was sent is not sent again, by no night."""
    nights = Nights(folder + "/state", make_root(folder + "/root"))
    write(nights.root + "/o/v1/content/b", "b")
    mail = mailing(folder)
    check("sent", run_tell(nights, 1, night_alone(nights, 1), **mail)[0], 0)
    check("by mail", shown(WRONG_B, read(folder + "/mailed") or ""), 1)
    os.remove(folder + "/mailed")
    os.makedirs(nights.root + "/extensions")
    nights.part()
    check("not by the next night", (run_tell(nights, 2, 0, **mail), read(folder + "/mailed")),
          ((0, ""), None))
    check("the last text is still there", shown(WRONG_B, nights.has("tonight") or ""), 1)


def no_text(folder):
    """A night of which there is no text is not said to have one in the journal."""
    nights = Nights(folder + "/state", make_root(folder + "/root"))
    write(nights.root + "/o/v1/content/b", "b")
    night_alone(nights, 1)
    run_tell(nights, 1, 1)
    said = run_tell(nights, 1, 1)[1]
    check("a second call", ("sent already" in said, "The journal has the text" in said),
          (True, False))


def not_begun(folder):
    """A night that systemd could not begin is told, though it has no status."""
    nights = Nights(folder + "/state", make_root(folder + "/root"))
    nights.night()
    given = {"EXIT_CODE": "", "EXIT_STATUS": "", "INVOCATION_ID": "night1", "MAIL": ""}
    said = ran(words_of_tell(nights), SERVICE_RESULT="resources", **given)[2]
    check("a night that did not begin", said.splitlines()[:1],
          ["ocfl-scrub: archive: the night did not begin (resources)"])
    check("a good night", ran(words_of_tell(nights), SERVICE_RESULT="success", **{
        **given, "EXIT_CODE": "exited", "EXIT_STATUS": "0"}), (0, "", ""))
    unit = read(NIGHTS + "/systemd/ocfl-scrub@.service")
    check("no night is left out without a word", re.findall("(?m)^Condition.*", unit), [])


def names(folder):
    """No byte of a name makes a line of its own, in a header or in a text, or controls a
    terminal."""
    nights = Nights(folder + "/state", make_root(folder + "/root"))
    write(folder + "/bin/mail", '#!/bin/sh\nprintf "%%s\\n" "$2" > %s/subject; cat > %s/body\n'
          % (folder, folder), 0o755)
    mail = {"PATH": folder + "/bin:" + os.environ["PATH"], "MAIL": "her@example.org"}
    for name, shown in [("x\nBcc: evil@example.org", "x%0ABcc: evil@example.org"),
                        ("x\r\nSubject: y", "x%0D%0ASubject: y"), ("\033[2Jx", "%1B[2Jx"),
                        ("a \u00fc\u009b%41\t", "a %C3%BC%C2%9B%2541%09"), ("-n", "-n"),
                        ("x\\n", "x\\n")]:
        for text in ["", "1 finding\n"]:
            write(nights.path("tonight.a"), text)
            words = [REPORTS, "tell", "--", name, nights.state]
            ran(words, EXIT_CODE="exited", EXIT_STATUS="1", **mail)
            check("the subject of %r" % name, read(folder + "/subject"),
                  "ocfl-scrub: findings in %s\n" % shown)
            check("no such byte in its text", [part in (read(folder + "/body") or "") for part in [
                "\nBcc", "\r", "\033", "\u009b", "\nSubject"]], [False] * 5)
            said = ran(words, EXIT_CODE="exited", EXIT_STATUS="1", MAIL="")[2]
            check("nor in the journal", said.splitlines()[:1],
                  ["ocfl-scrub: findings in " + shown])


def of_a_user(folder):
    """The unit of a user's own nights tells of each of them too, by the words of the same units."""
    unit = read(NIGHTS + "/systemd/user/ocfl-scrub@.service").replace("\\\n", " ")
    of_all = read(NIGHTS + "/systemd/ocfl-scrub@.service").replace("\\\n", " ")
    at = {"%h/.local/state/ocfl-scrub/%i": "%S/ocfl-scrub/%i"}
    starts = [re.search("(?m)^ExecStart=(.*)$", text)[1].split() for text in [unit, of_all]]
    check("the same night", [at.get(word, word) for word in starts[0]], starts[1])
    after = re.search("(?m)^ExecStopPost=(.*)$", unit)[1].split()
    check("and then it is told", after, [
        "/usr/local/share/ocfl-scrub/ocfl-scrub-reports", "tell", "--", "%i",
        "%h/.local/state/ocfl-scrub/%i"])


def one_session(folder):
    """Two nights by hand in one session of a user's service manager, which have one ID: both leave
    their texts, and both are sent."""
    nights = Nights(folder + "/state", make_root(folder + "/root"))
    os.makedirs(nights.state)
    write(nights.root + "/o/v1/content/b", "b")
    check("the first", night_alone(nights, 1), 1)
    write(nights.root + "/o/v1/content/b", "")
    check("the second", nights.night("--for-tell", INVOCATION_ID="night1"), (0, "", ""))
    said = run_tell(nights, 1, 0)
    check("both are sent", (said[0], shown(WRONG_B, said[1]) > 0, " repaired" in said[1]),
          (0, True, True))
    check("once", run_tell(nights, 1, 0), (0, ""))


# A small disk that has the state and no room, for a night of each of two IDs.
FULL = """mount -t tmpfs -o size=1m tmpfs "$1" || exit 99
mkdir "$1/state" && head -c 4M /dev/zero > "$1/filler" 2> /dev/null
shift
INVOCATION_ID=night1 "$@"; status=$?
ls "$DISK/state"
INVOCATION_ID=night1 EXIT_CODE=exited EXIT_STATUS=$status SERVICE_RESULT=exit-code MAIL= \\
    "$REPORTS" tell archive "$DISK/state" 2>&1
exit $status
"""


def no_room(folder):
    """A night whose text could not be written says so to its own standard error, and so does what
    tells of it."""
    make_root(folder + "/root")
    os.mkdir(folder + "/disk")
    words = [NIGHTS + "/nightly", "--create", "--for-tell", "--state", folder + "/disk/state",
             folder + "/root"]
    status, out, said = ran(["unshare", "-m", "sh", "-c", FULL, "sh", folder + "/disk", *words],
                            DISK=folder + "/disk", REPORTS=REPORTS)
    if status == 99:
        print("not tried: nothing can be mounted here")
        return
    check("the night", (status, "nightly: status 3" in said, "room" in said), (3, True, True))
    check("what tells of it", ("could not be written into" in out, "journalctl" in out),
          (True, True))


def by_cron(folder):
    """The line for cron sends a mail whose subject has the root and the result; without `mail` the
    same goes to cron."""
    nights = Nights(folder + "/state", make_root(folder + "/root"))
    nights.part()
    write(nights.root + "/o/v1/content/b", "b")
    text = read(NIGHTS + "/ocfl-scrub.cron").replace("/usr/local/share/ocfl-scrub", NIGHTS)
    settings = dict(re.findall(r"(?m)^([A-Z]+)=(.*)$", text))
    settings.update(STATE=nights.state, ROOT=nights.root, LIMIT="unlimited")
    line = re.search(r"(?m)^[0-9*].*$", text)[0].split(None, 6)[6]
    sent = mailing(folder)
    for name, mail in [("by mail", {"MAIL": "root", "PATH": sent["PATH"]}), ("by cron", {
            "MAIL": ""})]:
        write(nights.root + "/o/v1/content/b", name)
        status, out, said = ran(["sh", "-c", line], **{**settings, **mail})
        got = out + said if name == "by cron" else (read(folder + "/mailed") or "").replace(
            "-s ", "").replace(" root\n", "\n", 1)
        check(name, (status, got.splitlines()[0], "E092" in got),
              (0, "ocfl-scrub: findings in " + nights.root, True))
        check(name + " alone", (out + said != "") == (name == "by cron"), True)


def closed_output(folder):
    """A night for which outputs are closed writes what it says into no file of its folder."""
    nights = Nights(folder + "/state", make_root(folder + "/root"))
    write(nights.root + "/o/v1/content/b", "b")
    for closing in (">&-", "2>&-", ">&- 2>&-", "<&- >&- 2>&-"):
        shutil.rmtree(nights.state, ignore_errors=True)
        words = nights.words()
        ran(["sh", "-c", 'exec "$@" ' + closing, "sh", *words])
        there = [name for name in os.listdir(nights.state) if name not in ("report", "reports")
                 and "E092\t" in (nights.has(name) or "") and os.path.isfile(nights.path(name))]
        check("closed: " + closing, there, [])


def limits(folder):
    """What sends has an end by the clock in each unit."""
    for name in ("ocfl-scrub-tell@", "ocfl-scrub-tell-failed@"):
        unit = read("%s/systemd/%s.service" % (NIGHTS, name))
        check(name, "\nTimeoutStartSec=10min\n" in unit, True)
    unit = read(NIGHTS + "/systemd/user/ocfl-scrub@.service")
    check("of a user", "\nTimeoutStopSec=10min\n" in unit, True)


# Names that mean something to a shell, or that reports escape.
NAMES = ["a;b$(touch ran).txt", "it's `touch ran`.txt", "it's & 'it'", "Brief an M\u00fcller.pdf",
         "interview 3.wav", "#hash&amp;.txt", "100% fertig.txt", "a%25b", "line\nfeed\ttab",
         "\033[2J\u009b", "*?", "a\\nb", "!x", "photo \u202egpj.exe", "\u2067a\u2069 \u200fb\u061c",
         "a\u2028b\u2029"]
# Marks of direction (Unicode's `Bidi_Control`), and what ends a line or a paragraph.
TURNING = re.compile("[\u061c\u200e\u200f\u2028-\u202e\u2066-\u2069]")


def pasted(folder):
    """The command in a night's message can be pasted, whatever root and file are called: it looks
    at that file, and runs nothing else."""
    os.makedirs(folder + "/bin")
    os.symlink(os.path.abspath(PROGRAM), folder + "/bin/ocfl-scrub")
    path = folder + "/bin:" + os.environ["PATH"]
    for number, name in enumerate(NAMES):
        root = "%s/a root; it's $(touch ran) %d" % (folder, number)
        common.make_root(root, {"o": {"v1/content/" + name: b"abc"}})
        write(root + "/o/v1/content/" + name, "x")
        out = ran([PROGRAM, "night", "--create", "--state", "%s/state-%d" % (folder, number),
                   "--", root])[1]
        check("nothing turns a line around: %r" % name, TURNING.findall(out), [])
        command = out.partition("\tTo look again: ")[2].partition("\n")[0]
        status, found, said = ran(["sh", "-c", command], cwd=folder, PATH=path)
        wrong = [line for line in ran([PROGRAM, "audit", "--", root])[1].splitlines(True)
                 if line.startswith("E092")]
        check("pasted: %r" % name, (status, [found], said), (1, wrong, ""))
    check("and nothing else ran", os.path.exists(folder + "/ran"), False)


def within_an_object(folder):
    """A night that begins in the middle of an object names it."""
    names = ["v1/content/%d" % number for number in range(5)]
    root = common.make_root(folder + "/root", {it: {name: b"abc" for name in names}
                                               for it in ["a/o", "a/p"]})
    for name in names:
        write("%s/a/o/%s" % (root, name), "x")
    said = ""
    for _ in range(20):
        said += ran([PROGRAM, "night", "--create", "--files", "1", "--state", folder + "/state",
                     "--", root])[1]
        if os.path.exists(folder + "/state/reports/cycle-000001"):
            break
    check("each night names the object", re.findall("(?m)^(?:Object|Elsewhere).*", said),
          ["Object a/o, 0 of 1 file right of those read tonight:"] * len(names))


PARTS = [one_session, no_room, by_cron, closed_output, limits, by_hand, once, of_this_night,
         a_word_of_a_good_night, under_way, links, as_the_user, not_sent, sent, no_text, not_begun,
         names, pasted, within_an_object, of_a_user]


def check_all(folder):
    tried_apart(PARTS, folder)


common.run_trial(check_all)
