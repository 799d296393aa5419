#!/usr/bin/env python3
"""Tries installing, the manual page, and what systemd and cron run.

usage: install.py

Where a tool is missing, that is a failure which names Debian's package.

Seen to fail on these faults, each planted alone:

- `--version` has another digest than that of the running file, or does not say that `BUILD` names
  another.
"""
import os
import re
import shutil

import common
from common import PROGRAM, TOP, digest, check, version
from shared.clones import git, make_clone
from shared.nights import ITEMS, NIGHTS, make_root, ran, read, tried, write
from shared.rules import codes_of_rules

PACKAGES = {"man": "man-db", "groff": "groff", "systemd-analyze": "systemd", "flock": "util-linux",
            "ionice": "util-linux", "git": "git"}


def tools():
    """The tools that the trials need."""
    for tool, package in PACKAGES.items():
        where = "there" if shutil.which(tool) else "missing (Debian: %s)" % package
        check("the tool " + tool, where, "there")


# Installing

INSTALLED = """bin/ocfl-scrub 755
bin/ocfl-scrub-reports 755
share/doc/ocfl-scrub/CONTRIBUTING.md 644
share/doc/ocfl-scrub/README.md 644
share/doc/ocfl-scrub/SECURITY.md 644
share/doc/ocfl-scrub/bench/README.md 644
share/doc/ocfl-scrub/docs/ASSURANCE.md 644
share/doc/ocfl-scrub/docs/DECISIONS.md 644
share/doc/ocfl-scrub/docs/GALLERY.md 644
share/doc/ocfl-scrub/docs/MAP.md 644
share/doc/ocfl-scrub/docs/NIGHTS.md 644
share/doc/ocfl-scrub/docs/PROMISES.md 644
share/doc/ocfl-scrub/docs/RECIPES.md 644
share/doc/ocfl-scrub/docs/RULES.md 644
share/doc/ocfl-scrub/docs/TOOLCHAIN.md 644
share/doc/ocfl-scrub/docs/TRIED.md 644
share/doc/ocfl-scrub/docs/page.png 644
share/doc/ocfl-scrub/nights/CLUSTERS.md 644
share/doc/ocfl-scrub/nights/FAQ.md 644
share/doc/ocfl-scrub/nights/LOG.md 644
share/doc/ocfl-scrub/nights/README.md 644
share/doc/ocfl-scrub/nights/REPAIR.md 644
share/doc/ocfl-scrub/nights/REPORTS.md 644
share/doc/ocfl-scrub/nights/STATEMENTS.md 644
share/man/man1/ocfl-scrub-reports.1 644
share/man/man1/ocfl-scrub.1 644
share/ocfl-scrub/BUILD 644
share/ocfl-scrub/CLUSTERS.md 644
share/ocfl-scrub/FAQ.md 644
share/ocfl-scrub/INSTALLED 644
share/ocfl-scrub/LOG.md 644
share/ocfl-scrub/README.md 644
share/ocfl-scrub/REPAIR.md 644
share/ocfl-scrub/REPORTS.md 644
share/ocfl-scrub/STATEMENTS.md 644
share/ocfl-scrub/nightly 755
share/ocfl-scrub/ocfl-scrub-reports 755
share/ocfl-scrub/ocfl-scrub.cron 644
share/ocfl-scrub/ocfl_scrub_reports/__init__.py 644
share/ocfl-scrub/ocfl_scrub_reports/codes 644
share/ocfl-scrub/ocfl_scrub_reports/command.py 644
share/ocfl-scrub/ocfl_scrub_reports/counts.py 644
share/ocfl-scrub/ocfl_scrub_reports/cycle_page.py 644
share/ocfl-scrub/ocfl_scrub_reports/database.py 644
share/ocfl-scrub/ocfl_scrub_reports/expected.py 644
share/ocfl-scrub/ocfl_scrub_reports/files.py 644
share/ocfl-scrub/ocfl_scrub_reports/finish.py 644
share/ocfl-scrub/ocfl_scrub_reports/log.py 644
share/ocfl-scrub/ocfl_scrub_reports/markup.py 644
share/ocfl-scrub/ocfl_scrub_reports/objects.py 644
share/ocfl-scrub/ocfl_scrub_reports/page.py 644
share/ocfl-scrub/ocfl_scrub_reports/premis.py 644
share/ocfl-scrub/ocfl_scrub_reports/questions.py 644
share/ocfl-scrub/ocfl_scrub_reports/recheck.py 644
share/ocfl-scrub/ocfl_scrub_reports/repair.py 644
share/ocfl-scrub/ocfl_scrub_reports/report.py 644
share/ocfl-scrub/ocfl_scrub_reports/seal.py 644
share/ocfl-scrub/ocfl_scrub_reports/shared.py 644
share/ocfl-scrub/ocfl_scrub_reports/standing.py 644
share/ocfl-scrub/ocfl_scrub_reports/state.py 644
share/ocfl-scrub/ocfl_scrub_reports/statement.py 644
share/ocfl-scrub/ocfl_scrub_reports/status.py 644
share/ocfl-scrub/ocfl_scrub_reports/tell.py 644
share/ocfl-scrub/ocfl_scrub_reports/units.py 644
share/ocfl-scrub/ocfl_scrub_reports/verify.py 644
share/ocfl-scrub/ocfl_scrub_reports/weights.py 644
share/ocfl-scrub/parallel/begin 755
share/ocfl-scrub/parallel/dividing.py 644
share/ocfl-scrub/parallel/end 755
share/ocfl-scrub/parallel/folder.py 644
share/ocfl-scrub/parallel/given.py 644
share/ocfl-scrub/parallel/joining.py 644
share/ocfl-scrub/parallel/nightly 755
share/ocfl-scrub/parallel/notes.py 644
share/ocfl-scrub/parallel/part 755
share/ocfl-scrub/samples/gallery 755
share/ocfl-scrub/samples/make 755
share/ocfl-scrub/samples/nights 755
share/ocfl-scrub/slurm/end.sbatch 755
share/ocfl-scrub/slurm/part.sbatch 755
share/ocfl-scrub/slurm/submit 755
share/ocfl-scrub/systemd/archive.conf 644
share/ocfl-scrub/systemd/ocfl-scrub-tell-failed@.service 644
share/ocfl-scrub/systemd/ocfl-scrub-tell@.service 644
share/ocfl-scrub/systemd/ocfl-scrub@.service 644
share/ocfl-scrub/systemd/ocfl-scrub@.timer 644
share/ocfl-scrub/systemd/sysusers.conf 644
share/ocfl-scrub/systemd/tmpfiles.conf 644
share/systemd/user/ocfl-scrub@.service 644
share/systemd/user/ocfl-scrub@.timer 644
"""


def tree(folder):
    """The files below a folder, with their modes."""
    lines = []
    for where, _, names in os.walk(folder):
        for name in names:
            path = os.path.join(where, name)
            mode = os.stat(path).st_mode & 0o777
            lines.append("%s %o\n" % (os.path.relpath(path, folder), mode))
    return "".join(sorted(lines))


def installing(folder):
    clone, prefix = make_clone(folder + "/clone"), folder + "/prefix"
    install = clone + "/install"
    check("install --help", (ran([install, "--help"])[0::2]), (0, ""))
    for name, words in [("option", ["--what"]), ("two prefixes", ["/a", "/b"]),
                        ("space", ["/a b"])]:
        check("install refuses: " + name, ran([install] + words)[0:2], (2, ""))
    status, out, _ = ran([install, prefix])
    check("install", (status, out.splitlines()[-1:]), (0, ["installed in %s/bin" % prefix]))
    check("what is installed", tree(prefix), INSTALLED)
    commit = git(clone, "rev-parse", "HEAD").strip()
    kit = ran(["rt", "version"])[1].strip() if shutil.which("rt") else "unknown"
    build = "ocfl-scrub %s\ncommit %s\nkit %s\nsha256 %s\n" % (
        version(), commit, kit, digest(common.read(PROGRAM)))
    check("BUILD", read(prefix + "/share/ocfl-scrub/BUILD"), build)
    versions(prefix, build)
    page = read(prefix + "/share/man/man1/ocfl-scrub.1")
    check("the page's commit", ['"ocfl\\-scrub %s (%s)"' % (version(), commit[:7]) in page,
                                "Built from commit %s by %s." % (commit, kit) in page], [True,
                                                                                         True])
    installing_again(clone, prefix, folder)


def versions(prefix, build):
    """What `--version` prints beside its BUILD, beside that of another program, and without any."""
    show, notes = [prefix + "/bin/ocfl-scrub", "--version"], prefix + "/share/ocfl-scrub/BUILD"
    own = "this file has sha256 %s" % digest(common.read(PROGRAM))
    check("--version with its BUILD", ran(show), (0, build + own + "\n", ""))
    other = re.sub("(?m)^sha256 .*", "sha256 " + digest(b""), build)
    write(notes, other)
    check("--version with another BUILD", ran(show),
          (0, other + own + " (differs from BUILD)\n", ""))
    cut = build[:build.index("sha256 ")]
    write(notes, cut)
    check("--version with a BUILD that has no digest", ran(show), (0, cut + own + "\n", ""))
    os.remove(notes)
    check("--version without BUILD", ran(show),
          (0, "ocfl-scrub %s\n%s\n" % (version(), own), ""))
    write(notes, build)


def installing_again(clone, prefix, folder):
    install = clone + "/install"
    with open(prefix + "/bin/ocfl-scrub", "rb") as held:
        before = os.fstat(held.fileno()).st_ino
        check("install again", ran([install, prefix])[0], 0)
        check("the program is exchanged, not overwritten",
              os.stat(prefix + "/bin/ocfl-scrub").st_ino != before, True)
    check("nothing is left beside it", tree(prefix), INSTALLED)
    write(clone + "/nights/changed", "")
    check("install to HOME, with DESTDIR",
          ran([install], HOME="/home/her", DESTDIR=folder + "/package")[0], 0)
    check("below DESTDIR", tree(folder + "/package/home/her/.local"), INSTALLED)
    package = folder + "/package/home/her/.local/share/ocfl-scrub/"
    check("a changed clone is told", ", with changes\nkit" in read(package + "BUILD"), True)
    unit = read(package + "systemd/ocfl-scrub@.service")
    check("units know the PREFIX", "ExecStart=/home/her/.local/share/ocfl-scrub/nightly " in unit,
          True)
    write(folder + "/file", "")
    status, _, said = ran([install, folder + "/file"])
    check("PREFIX that is a file", (status, "could not be made" in said), (3, True))
    shutil.rmtree(clone + "/crates/ocfl_scrub_cli/out")
    status, _, said = ran([install, folder + "/none"], PATH="/usr/bin:/bin")
    check("neither built nor rt", (status, "the program is not built; nothing" in said,
                                   os.path.exists(folder + "/none")), (3, True, False))


# Uninstalling

def everything(folder):
    """The files and folders below a folder; folders end with a slash."""
    found = []
    for where, folders, names in os.walk(folder):
        found += [os.path.join(where, name) + "/" for name in folders]
        found += [os.path.join(where, name) for name in names]
    return sorted(os.path.relpath(path, folder) + "/" * path.endswith("/") for path in found)


def uninstalling(folder):
    clone, prefix = make_clone(folder + "/another"), folder + "/there"
    install = clone + "/install"
    refusals(install, prefix, folder)
    check("install, to uninstall", ran([install, prefix])[0], 0)
    listed = dict(row.split()[::-1] for row in read(prefix + "/" + LIST).splitlines())
    made = everything(prefix)
    check("the list names all but itself",
          sorted(path + "/" * (it == "folder") for path, it in listed.items()),
          [path for path in made if path != LIST])
    check("it has the digest of each", [path for path, it in listed.items() if it != "folder"
                                        and it != digest(common.read(prefix + "/" + path))], [])
    status, out, said = ran([install, prefix, "--uninstall"])
    check("uninstall", (status, sorted(out.splitlines()), said),
          (0, sorted("removed %s/%s" % (prefix, path) for path in made), ""))
    check("nothing is left", everything(prefix), [])
    given = {"HOME": "/home/her", "DESTDIR": folder + "/below"}
    ran([install], **given)
    check("uninstall from HOME, with DESTDIR", ran([install, "--uninstall"], **given)[0], 0)
    check("what is left there", everything(folder + "/below"),
          ["home/", "home/her/", "home/her/.local/"])
    others_stay(install, prefix)
    older_version(clone, install, prefix)


LIST = "share/ocfl-scrub/INSTALLED"
CODES = "ocfl_scrub_reports/codes"


def refusals(install, prefix, folder):
    """What `--uninstall` refuses; it removes nothing then."""
    status, out, said = ran([install, "--uninstall", prefix])
    check("nothing is installed", (status, out, "nothing is installed below" in said),
          (3, "", True))
    ran([install, prefix])
    made, kept = everything(prefix), read(prefix + "/" + LIST)
    write(folder + "/outside", "")
    empty = digest(b"")
    for path in ["../outside", "share/../../outside", "share/..", folder + "/outside", ""]:
        write(prefix + "/" + LIST, kept + "%s %s\n" % (empty, path))
        for words in [["--uninstall", prefix], [prefix]]:
            status, out, said = ran([install, *words])
            check("a list that names '%s'" % path, (status, out, "is damaged, so" in said),
                  (3, "", True))
    check("nothing was removed", [everything(prefix), os.path.exists(folder + "/outside")],
          [made, True])
    os.remove(prefix + "/" + LIST)
    status, out, said = ran([install, "--uninstall", prefix])
    check("an installation without a list", (status, out, "install once more" in said),
          (3, "", True))
    shutil.rmtree(prefix)


def others_stay(install, prefix):
    """What was there before, what came later, and what was changed since."""
    share = prefix + "/share/ocfl-scrub/"
    os.makedirs(prefix + "/share/man")
    others = [prefix + "/bin/other", share + "audit/cursor", share + CODES[:-5] + "mine"]
    write(others[0], "")
    ran([install, prefix])
    for other in others[1:]:
        write(other, "")
    write(share + CODES, "changed")
    os.remove(share + "ocfl-scrub.cron")
    os.rename(share + "nightly", share + "mine")
    os.symlink("mine", share + "nightly")
    status, out, said = ran([install, "--uninstall", prefix])
    stay = [share + name for name in [CODES[:-6], CODES, "nightly"]] + [share[:-1]]
    check("uninstall beside other files", (status, sorted(said.splitlines())), (0, sorted(
        "install: %s stays: %s" % (path, "it holds other files" if os.path.isdir(path)
                                   else "it was changed after it was installed")
        for path in stay)))
    check("it reports nothing that stays", [path for path in stay if "removed %s\n" % path in out],
          [])
    check("other files stay", everything(prefix), [
        "bin/", "bin/other", "share/", "share/man/", "share/ocfl-scrub/", "share/ocfl-scrub/audit/",
        "share/ocfl-scrub/audit/cursor", "share/ocfl-scrub/mine", "share/ocfl-scrub/nightly",
        "share/ocfl-scrub/ocfl_scrub_reports/", "share/ocfl-scrub/" + CODES,
        "share/ocfl-scrub/ocfl_scrub_reports/mine"])
    shutil.rmtree(prefix)


def older_version(clone, install, prefix):
    """Files that only an earlier version had are removed, unless they were changed."""
    older = [clone + "/nights/older/two", clone + "/nights/older/one"]
    for path in older:
        write(path, "")
    ran([install, prefix])
    shutil.rmtree(os.path.dirname(older[1]))
    there = prefix + "/share/ocfl-scrub/"
    write(there + "older/one", "changed")
    status, out, said = ran([install, prefix])
    check("install over an older one",
          (status, "removed %solder/two\n" % there in out, "older/one stays: it" in said),
          (0, True, True))
    os.remove(there + "older/one")
    ran([install, "--uninstall", prefix])
    check("folders of the older one are known", everything(prefix), [])


# The manual page

def manual(prefix):
    page, others = TOP + "/nights/man/ocfl-scrub.1", TOP + "/nights/man/ocfl-scrub-reports.1"
    installed = prefix + "/share/man/man1/"
    for name, file in [("page", page), ("installed page", installed + "ocfl-scrub.1"),
                       ("second page", others),
                       ("second page, installed", installed + "ocfl-scrub-reports.1")]:
        for words in [["man", "--warnings", "-l", "-E", "UTF-8", file],
                      ["groff", "-man", "-Tutf8", "-wall", file]]:
            check("%s by %s" % (name, words[0]), ran(words)[0::2], (0, ""))
    said = ran(["man", "-M", prefix + "/share/man", "ocfl-scrub"])
    check("man finds it", (said[0], "ocfl-scrub - audit" in re.sub(" +", " ", said[1])), (0, True))
    text = read(page)
    check("no long line", [row for row in text.splitlines() if len(row) > 80], [])
    told = set(re.findall(r"^\.B (ok|[ES]\d+)$", text, re.MULTILINE))
    check("each code is in the page", sorted(codes_of_rules() - told), [])
    check("each code of the page is a rule's", sorted(told - codes_of_rules()), [])
    for command in ["audit", "run", "cycle", "night", "check", "split", "join", "show", "codes"]:
        check("the page tells of " + command, "\n.BI %s\\~ " % command in text, True)
    shown = "".join(ran([PROGRAM, command, "--help"])[1]
                    for command in ["audit", "run", "cycle", "night", "split", "join"])
    options = {word.replace("-", "\\-") for word in re.findall(r"--[a-z-]+", shown)}
    check("the page tells of each option", sorted(o for o in options if o not in text), [])
    of_reports(read(others))


def of_reports(text):
    """The page of the questions has each command, and each of their options."""
    tool = NIGHTS + "/ocfl-scrub-reports"
    commands = re.findall(r"(?m)^    ([a-z]+)\b", ran([tool, "--help"])[1])
    check("the commands of the second page", re.findall(r"(?m)^\.TP\n\.B ([a-z]+)$", text),
          commands)
    shown = "".join(ran([tool, command, "--help"])[1] for command in commands)
    options = {word.replace("-", "\\-") for word in re.findall(r"--[a-z-]+", shown)}
    check("its options", sorted(o for o in options - {"\\-\\-help"} if o not in text), [])
    check("no long line in it", [row for row in text.splitlines() if len(row) > 80], [])


# systemd and cron

def units(prefix):
    folder = prefix + "/share/ocfl-scrub/systemd"
    names = ["ocfl-scrub@.service", "ocfl-scrub@.timer", "ocfl-scrub-tell@.service",
             "ocfl-scrub-tell-failed@.service"]
    for name in names:
        check("systemd-analyze verify " + name,
              ran(["systemd-analyze", "verify", os.path.join(folder, name)],
                  MANPATH=prefix + "/share/man"), (0, "", ""))
    check("two names of one unit", read(folder + "/" + names[2]), read(folder + "/" + names[3]))
    service = read(folder + "/ocfl-scrub@.service")
    wanted = ["ProtectSystem=strict", "StateDirectory=ocfl-scrub/%i", "SuccessExitStatus=1",
              "MemoryMax=2G", "IOSchedulingClass=idle", "Nice=19",
              "OnSuccess=ocfl-scrub-tell@%i.service",
              "OnFailure=ocfl-scrub-tell-failed@%i.service", "SystemCallErrorNumber=EPERM"]
    check("what the service asks for", [w for w in wanted if "\n%s\n" % w not in service], [])
    check("nothing runs outside of the sandbox, or as root", re.findall(
        r"^Exec\w+=[-+!:@]*[+!].*", service + read(folder + "/" + names[2]), re.MULTILINE), [])
    check("exposed by at most 0.5", ran(["systemd-analyze", "security", "--offline=true",
                                         "--threshold=5", os.path.join(folder, names[0])])[0], 0)
    check("it ends by the clock", "--until ${UNTIL}" in service, True)
    user_units(prefix)


def user_units(prefix):
    """Those of a user's own nights lie where the user's service manager looks below a home."""
    folder = prefix + "/share/systemd/user"
    for name in ["ocfl-scrub@.service", "ocfl-scrub@.timer"]:
        check("systemd-analyze verify user/" + name,
              ran(["systemd-analyze", "verify", os.path.join(folder, name)],
                  MANPATH=prefix + "/share/man"), (0, "", ""))
    check("the same timer", read(folder + "/ocfl-scrub@.timer"),
          read(prefix + "/share/ocfl-scrub/systemd/ocfl-scrub@.timer"))


def users_and_folders(folder, prefix):
    """What systemd makes by sysusers.d and tmpfiles.d, below a folder: the user, and the folders of
    the settings and the states; what is there stays."""
    root, where = folder + "/system", prefix + "/share/ocfl-scrub/systemd"
    os.makedirs(root + "/etc")
    os.makedirs(root + "/var/lib")
    for _ in range(2):
        check("the user", ran(["systemd-sysusers", "--root=" + root,
                               where + "/sysusers.conf"])[0], 0)
        row = re.search("(?m)^ocfl-scrub:.*$", read(root + "/etc/passwd"))[0].split(":")
        check("its home and shell", row[4:], ["Nights of ocfl-scrub", "/var/lib/ocfl-scrub",
                                              "/usr/sbin/nologin"])
        check("the folders", ran(["systemd-tmpfiles", "--root=" + root, "--create",
                                  where + "/tmpfiles.conf"])[0], 0)
        state, settings = root + "/var/lib/ocfl-scrub", root + "/etc/ocfl-scrub"
        look = os.stat(state)
        check("whose the states are", (look.st_mode & 0o777, look.st_uid), (0o750, int(row[2])))
        check("and the settings", (os.stat(settings).st_mode & 0o777, os.stat(settings).st_uid),
              (0o755, 0))
        write(state + "/archive/checkpoint", "kept")
    check("a state stays", read(state + "/archive/checkpoint"), "kept")


def cron(folder, prefix):
    """The line for cron, with its own variables and other paths, by the shell that cron runs."""
    make_root(folder + "/root")
    settings, command = {}, None
    for line in read(prefix + "/share/ocfl-scrub/ocfl-scrub.cron").splitlines():
        if line.startswith("#"):
            continue
        if re.match(r"[A-Z]+=", line):
            settings.update([line.split("=", 1)])
        else:
            command = line.split(None, 6)
    check("when, and who", command[:6], ["0", "22", "*", "*", "*", "ocfl-scrub"])
    settings.update(STATE=folder + "/state", ROOT=folder + "/root", MAIL="")
    check("it ends by the clock too", settings.get("UNTIL"), "06:00")
    first = [prefix + "/share/ocfl-scrub/nightly", "--create", "--files", "1", "--state",
             folder + "/state", folder + "/root"]
    check("the first night", ran(first), (0, "", ""))
    status, out, said = ran(["sh", "-c", command[6]], **settings)
    check("the line for cron", (status, out, "Cycle 1 ended: 3 of 3 files right" in said),
          (0, "", True))
    check("its report", read(folder + "/state/reports/cycle-000001"), "".join(ITEMS))


def check_all(folder):
    prefix = folder + "/prefix"
    tools()
    tried(installing, folder)
    tried(uninstalling, folder)
    tried(manual, prefix)
    tried(units, prefix)
    if os.geteuid() == 0:
        tried(users_and_folders, folder, prefix)
    tried(cron, folder + "/cron", prefix)


common.run_trial(check_all)
