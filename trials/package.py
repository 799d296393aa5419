#!/usr/bin/env python3
"""Makes the package twice, and installs, uses, upgrades, removes and purges it.

usage: package.py

It is installed by dpkg under a layer that this process lays over /usr, /etc and /var. Nobody else
sees that layer, and all that is written into it goes away with it. That needs root. What cannot be
tried is skipped and named.

Tried, and what comes of it. Each row was seen to fail on scripts that lacked it:

- An upgrade of the package within a cycle; removal and purge: the next night goes on; the state,
  the settings and the user stay.
"""
import ctypes
import gzip
import io
import os
import re
import shutil
import subprocess
import tarfile
import time

import common
from common import PROGRAM, TOP, digest, check, version
from shared.clones import git, make_clone
from shared.nights import ITEMS, make_root, ran, read, tried, write

NAME = "ocfl-scrub_%s_amd64" % version()
DOCUMENTS = "usr/share/doc/ocfl-scrub/"
SHARE = "usr/share/ocfl-scrub/"
UNITS = "usr/lib/systemd/system/"
# Where systemd looks for what `./install` puts elsewhere.
MOVED = {SHARE + "systemd/sysusers.conf": "usr/lib/sysusers.d/ocfl-scrub.conf",
         SHARE + "systemd/tmpfiles.conf": "usr/lib/tmpfiles.d/ocfl-scrub.conf",
         "usr/share/systemd/user/ocfl-scrub@.service": "usr/lib/systemd/user/ocfl-scrub@.service",
         "usr/share/systemd/user/ocfl-scrub@.timer": "usr/lib/systemd/user/ocfl-scrub@.timer"}
# What each user has: the toolchain, which BUILD names, may be out of reach.
CLEAN = {"PATH": "/usr/sbin:/usr/bin:/sbin:/bin", "HOME": "/nowhere"}


def skip(name, why):
    """Names what cannot be tried here."""
    print("package.py: skipped: %s: %s" % (name, why))


# What is made

def building(folder):
    """Makes the package, and makes it again elsewhere, as another user where root can. Gives the
    first."""
    clone, other = make_clone(folder + "/clone"), folder + "/another/clone"
    shutil.copytree(clone, other)
    made, again = folder + "/made/", folder + "/again/"
    os.mkdir(again)
    status, out, said = ran([clone + "/package", made], **CLEAN)
    check("package", (status, said), (0, ""))
    words = ["sh", "-c", 'umask 077 && cd / && "$0" "$1"', other + "/package", again]
    if os.geteuid() == 0:
        ran(["chown", "-R", "65534:65534", folder + "/another", again])
        words = ["setpriv", "--reuid=65534", "--regid=65534", "--clear-groups", *words]
    check("the same again", ran(words, TZ="Asia/Tokyo", LC_ALL="C.UTF-8", **CLEAN),
          (status, out, ""))
    files = [NAME + ".deb", NAME + ".tar.gz"]
    check("what is made", sorted(os.listdir(made)), files)
    digests = ["%s  %s" % (digest(common.read(made + name)), name) for name in files]
    check("its digests", out.splitlines()[:2], digests)
    check("the same bytes", [digest(common.read(again + name)) for name in files],
          [row.split()[0] for row in digests])
    check("it has no time of its own", times(made + files[1]),
          {int(git(clone, "log", "-1", "--format=%ct"))})
    refusals(other, again)
    return made + NAME


def refusals(clone, folder):
    for words in [["--what"], ["/a", "/b"]]:
        check("package refuses %s" % words, ran([clone + "/package", *words])[:2], (2, ""))
    shutil.rmtree(folder)
    ran(["chown", "-R", "%d:%d" % (os.getuid(), os.getgid()), clone])
    write(clone + "/VERSION", "9.9.9\n")
    for name, why in [("a version that is not in CHANGELOG", "no section of 9.9.9"),
                      ("a program of another version", "is not ocfl-scrub 9.9.9")]:
        status, out, said = ran([clone + "/package", folder])
        check(name, (status, out, why in said), (3, "", True))
        write(clone + "/CHANGELOG.md", "## 9.9.9, 2026-01-01\n\n- It is new.\n")
    check("nothing is made", os.listdir(folder), [])


def times(archive):
    with tarfile.open(archive) as file:
        return {member.mtime for member in file}


def members(data):
    """The files and links of an archive, each with its mode, its owner and what is in it."""
    with tarfile.open(fileobj=io.BytesIO(data)) as file:
        return {member.name.removeprefix("./"):
                ("%o" % member.mode, member.uname, member.gname,
                 member.linkname or file.extractfile(member).read())
                for member in file if not member.isdir()}


def holding(folder, made):
    """What the package holds is what `./install` puts there, units where systemd looks for them,
    and what a package of Debian has."""
    data = subprocess.run(["dpkg-deb", "--fsys-tarfile", made + ".deb"], capture_output=True)
    held = members(data.stdout)
    check("the tarball holds the same", members(common.read(made + ".tar.gz")), held)
    check("owners", {it[1:3] for it in held.values()}, {("root", "root")})
    ran([folder + "/clone/install", "/usr"], DESTDIR=folder + "/installed", **CLEAN)
    for path, mode, data in installed(folder + "/installed"):
        got = held.pop(path, ("", "", "", b""))
        got = got[0], gzip.decompress(got[3]) if path.endswith(".gz") else got[3]
        check("in the package: " + path, got, (mode, data))
    check("and beside them", {path: it[3] if it[0] == "777" else it[0]
                              for path, it in held.items()}, {
        DOCUMENTS + "BUILD": "../../ocfl-scrub/BUILD",
        DOCUMENTS + "changelog.Debian.gz": "644", DOCUMENTS + "changelog.gz": "644",
        DOCUMENTS + "copyright": "644", "usr/share/lintian/overrides/ocfl-scrub": "644"})
    texts = [gzip.decompress(held[DOCUMENTS + name][3]).decode()
             for name in ["changelog.Debian.gz", "changelog.gz"]]
    check("what changed", [texts[0].split("\n")[0], texts[1]],
          ["ocfl-scrub (%s) unstable; urgency=medium" % version(), read(TOP + "/CHANGELOG.md")])
    check("no licence", b"has not granted a licence yet" in held[DOCUMENTS + "copyright"][3], True)


def installed(folder):
    """The files of an installation as the package has them: path, mode and what is in them."""
    for where, _, names in os.walk(folder):
        for name in names:
            file = os.path.join(where, name)
            path = os.path.relpath(file, folder)
            if path.startswith(SHARE) and "@" in name:
                path = UNITS + name
            path = MOVED.get(path, path)
            if name.endswith(".1"):
                path += ".gz"
            if name != "INSTALLED":
                yield path, "%o" % (os.stat(file).st_mode & 0o777), common.read(file)


def control(made):
    fields = dict(row.split(": ", 1) for row in ran(["dpkg-deb", "-f", made + ".deb"])[1]
                  .splitlines() if not row.startswith(" "))
    floor = re.search(r"glibc ([\d.]+) or later", read(TOP + "/README.md"))[1]
    check("control", [fields[name] for name in ["Package", "Version", "Architecture", "Depends"]],
          ["ocfl-scrub", version(), "amd64", "libc6 (>= %s), python3 (>= 3.9)" % floor])
    symbols = ran(["readelf", "-W", "--dyn-syms", PROGRAM])[1]
    asked = [tuple(map(int, it.split("."))) for it in re.findall(r"@GLIBC_([\d.]+)", symbols)]
    check("the floor is what its symbols ask for", ".".join(map(str, max(asked))), floor)


def unpacked(folder, made):
    """A night from the tarball, unpacked anywhere."""
    there = folder + "/unpacked"
    os.mkdir(there)
    check("unpack", ran(["tar", "-xzf", made + ".tar.gz", "-C", there]), (0, "", ""))
    make_root(folder + "/root")
    given = {**CLEAN, "TMPDIR": folder}
    done = subprocess.run([there + "/" + SHARE + "nightly", "--create", "--state",
                           folder + "/alone", folder + "/root"], env=given, capture_output=True)
    check("a night from the tarball", (done.returncode, done.stderr), (0, b""))
    check("its report", read(folder + "/alone/reports/cycle-000001"), "".join(ITEMS))


# What is installed

class Layer:
    """A layer over the folders that packages write into, which this process and its children see.
    `why` says why there is none."""

    FOLDERS = ["/usr", "/etc", "/var"]
    # CLONE_NEWNS: mounts of one's own.
    MOUNTS = 0x00020000

    def __init__(self, folder):
        self.folder, self.why = folder, ""
        self.call = ctypes.CDLL(None, use_errno=True)

    def __enter__(self):
        if os.geteuid() != 0:
            self.why = "only root can lay a layer over the system"
            return self
        self.before = os.open("/proc/self/ns/mnt", os.O_RDONLY)
        if self.call.unshare(self.MOUNTS) != 0:
            self.why = "mounts of one's own: " + os.strerror(ctypes.get_errno())
            return self
        os.mkdir(self.folder)
        self.mount("--make-rprivate", "/")
        self.mount("-t", "tmpfs", "-o", "mode=755", "tmpfs", self.folder)
        for number, lower in enumerate(self.FOLDERS):
            upper, work = ["%s/%s%d" % (self.folder, name, number) for name in ["upper", "work"]]
            os.mkdir(upper)
            os.mkdir(work)
            self.mount("-t", "overlay", "-o", "lowerdir=%s,upperdir=%s,workdir=%s"
                       % (lower, upper, work), "overlay", lower)
        return self

    def mount(self, *words):
        status, _, said = ran(["mount", *words]) if not self.why else (0, "", "")
        if status != 0:
            self.why = "no layer can be mounted: " + said.strip()

    def __exit__(self, *_):
        if os.geteuid() == 0:
            self.call.setns(self.before, self.MOUNTS)
            os.close(self.before)


def dpkg(*words):
    """The status of dpkg, and what it says where it fails."""
    done = subprocess.run(["dpkg", *words], env={**CLEAN, "DEBIAN_FRONTEND": "noninteractive"},
                          stdin=subprocess.DEVNULL, capture_output=True)
    return done.returncode, done.stderr.decode() if done.returncode else ""


def older(folder, made):
    """The package with a lower version, one more file, another script and another program."""
    tree = folder + "/older"
    ran(["dpkg-deb", "--raw-extract", made + ".deb", tree])
    text = read(tree + "/DEBIAN/control")
    write(tree + "/DEBIAN/control", text.replace("Version: " + version(), "Version: 0.9.0"))
    write("%s/%solder.sh" % (tree, SHARE), "")
    with open("%s/%snightly" % (tree, SHARE), "a") as file:
        file.write("# older\n")
    with open(tree + "/usr/bin/ocfl-scrub", "ab") as program:
        program.write(b"older\n")
    ran(["dpkg-deb", "--root-owner-group", "-Zgzip", "--build", tree, tree + ".deb"])
    return tree + ".deb"


class Service:
    """The night of `archive`, by the unit of the package, as its user."""

    STATE = "/var/lib/ocfl-scrub/archive"
    SETTINGS = "/etc/ocfl-scrub/archive.conf"

    def __init__(self, root):
        for words in [["systemd-sysusers"], ["systemd-tmpfiles", "--create", "/" + MOVED[
                SHARE + "systemd/tmpfiles.conf"]]]:
            check(words[0], ran(words)[0], 0)
        text = read("/" + SHARE + "systemd/archive.conf").replace("ROOT=/srv/ocfl", "ROOT=" + root)
        write(self.SETTINGS, text)
        self.root = root

    def first(self):
        """The first night, by hand."""
        return self.calls("/" + SHARE + "nightly", "--create", "--files", "1", "--state",
                          self.STATE, self.root)

    def calls(self, *words):
        """Status, output and what is said, without any right of root."""
        done = subprocess.run(words, env=CLEAN, stdin=subprocess.DEVNULL, capture_output=True,
                              cwd="/", user="ocfl-scrub", group="ocfl-scrub", extra_groups=[])
        return done.returncode, done.stdout.decode(), done.stderr.decode()

    def night(self):
        """What `ExecStart` runs, with the settings of the unit and of its file."""
        unit = read("/" + UNITS + "ocfl-scrub@.service").replace("\\\n", " ")
        settings = dict(re.findall(r"([A-Z]+)=(\S*)", re.search("(?m)^Environment=.*", unit)[0]))
        settings.update(re.findall(r"(?m)^([A-Z]+)=(.*)$", read(self.SETTINGS)))
        settings.update(UNTIL=time.strftime("%H:%M", time.localtime(time.time() + 21600)))
        words = re.search("(?m)^ExecStart=(.*)$", unit)[1].replace("%i", "archive")
        words = words.replace("$OPTIONS ", "")
        return self.calls(*[re.sub(r"\$\{(\w+)\}", lambda it: settings[it[1]], word)
                            for word in words.replace("%S", "/var/lib").split()])

    def has(self, name):
        return read(os.path.join(self.STATE, name))

    def kept(self):
        """All that is in the state folder, and the settings."""
        found = {self.SETTINGS: read(self.SETTINGS)}
        for where, _, names in os.walk(self.STATE):
            for name in names:
                file = os.path.join(where, name)
                found[file] = common.read(file), os.stat(file).st_uid, os.stat(file).st_mode
        return found


def installing(folder, made, paths):
    # What a system leaves out of packages, such as pages, is tried too. The index of all its manual
    # pages is not made anew, which takes longer than all of this.
    shutil.rmtree("/etc/dpkg/dpkg.cfg.d", ignore_errors=True)
    if os.path.exists("/var/lib/man-db/auto-update"):
        os.remove("/var/lib/man-db/auto-update")
    dpkg("--purge", "ocfl-scrub")
    check("install an older one", dpkg("--install", older(folder, made)), (0, ""))
    service = Service(folder + "/root")
    check("a night of the older one", service.first(), (0, "", ""))
    check("its cycle is open", service.has("report"), "".join(ITEMS[:3]))
    check("upgrade", dpkg("--install", made + ".deb"), (0, ""))
    check("what only the older one had", os.path.exists("/%solder.sh" % SHARE), False)
    check("dpkg finds each file as it was made", ran(["dpkg", "--verify", "ocfl-scrub"]),
          (0, "", ""))
    check("the next night goes on", service.night(), (0, "", ""))
    check("the report of the cycle", service.has("reports/cycle-000001"), "".join(ITEMS))
    check("its statement names the program that made it", digest(common.read(PROGRAM))
          in service.has("reports/statement-000001"), True)
    using(service)
    units()
    kept = service.kept()
    check("the user is there", b"\nocfl-scrub:" in common.read("/etc/passwd"), True)
    for words in [["--remove"], ["--purge"]]:
        check(words[0], dpkg(*words, "ocfl-scrub"), (0, ""))
        check("what is left after " + words[0], [it for it in paths if os.path.lexists("/" + it)],
              [])
        check("state and settings stay after " + words[0], service.kept(), kept)
        check("the user stays too", b"\nocfl-scrub:" in common.read("/etc/passwd"), True)
    check("dpkg knows it no more", ran(["dpkg", "--status", "ocfl-scrub"])[0], 1)


def using(service):
    """What else the user of the nights calls."""
    build = "ocfl-scrub %s\n" % version() + "".join(
        read("/" + SHARE + "BUILD").splitlines(True)[1:])
    own = "this file has sha256 %s\n" % digest(common.read(PROGRAM))
    check("--version", service.calls("ocfl-scrub", "--version"), (0, build + own, ""))
    check("BUILD has the digest of the program", "\nsha256 %s\n" % digest(common.read(PROGRAM))
          in build, True)
    asks = "ocfl-scrub-reports"
    check("statement", service.calls(asks, "statement", service.STATE, "1"), (0, "", ""))
    text = service.has("reports/statement-000001") or ""
    check("its program", ["Program: ocfl-scrub " + version() in text, "not known" in
                          re.findall("(?m)^Program commit: (.*)$", text)], [True, False])
    status, out, _ = service.calls(asks, "status", service.STATE)
    check("status", (status, out[:13]), (0, "OCFL-SCRUB OK"))
    status, out, said = service.calls("/" + SHARE + asks, "tell", "archive", service.STATE)
    check("tell", (status, out, "\nCycle 1 ended: 3 of 3 files right, " in said), (0, "", True))
    check("it has no right to write elsewhere", service.calls("touch", "/" + SHARE + "x")[0], 1)


def units():
    names = sorted(name for name in os.listdir("/" + UNITS) if name.startswith("ocfl-scrub"))
    check("units", names, ["ocfl-scrub-tell-failed@.service", "ocfl-scrub-tell@.service",
                           "ocfl-scrub@.service", "ocfl-scrub@.timer"])
    if not shutil.which("systemd-analyze"):
        return skip("the units", "there is no systemd-analyze")
    given = ["systemd-analyze", "verify", *["/" + UNITS + name for name in names]]
    return check("systemd-analyze verify", ran(given), (0, "", ""))


def traces(paths):
    """What the system has of an installation and of the user of its nights."""
    paths = [*paths, "etc/ocfl-scrub", "var/lib/ocfl-scrub", "var/lib/dpkg/info/ocfl-scrub.list"]
    files = ["/var/lib/dpkg/status", "/etc/passwd"]
    return [it for it in paths if os.path.lexists("/" + it)] + [
        it for it in files if os.path.exists(it) and b"ocfl-scrub" in common.read(it)]


# What Debian asks of packages

def begin_lintian(made):
    if not shutil.which("lintian"):
        return skip("lintian", "it is not installed")
    return subprocess.Popen(["lintian", "--allow-root", made + ".deb"], stdin=subprocess.DEVNULL,
                            stdout=subprocess.PIPE, stderr=subprocess.PIPE, text=True)


def end_lintian(started):
    if started:
        check("lintian", (started.communicate()[0], started.returncode), ("", 0))


def check_all(folder):
    if not shutil.which("dpkg-deb"):
        return skip("the package", "there is no dpkg")
    os.chmod(folder, 0o755)
    made = building(folder)
    lintian = begin_lintian(made)
    tried(holding, folder, made)
    tried(control, made)
    tried(unpacked, folder, made)
    paths = members(common.read(made + ".tar.gz"))
    before = traces(paths)
    with Layer(folder + "/layers") as layer:
        why = layer.why or before and "it is on this system: %s" % ", ".join(before[:3])
        if why:
            skip("installing the package", why)
        else:
            tried(installing, folder, made, paths)
    check("the system is as it was", traces(paths), before)
    return end_lintian(lintian)


common.run_trial(check_all)
