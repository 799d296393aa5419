"""What the trials share: storage roots that they make, the program run on them, and the count.

The program is the file that OCFL_SCRUB names. Without it, it is the one that the launcher at the
top of the repository builds.
"""
import hashlib
import json
import os
import re
import shutil
import signal
import stat
import subprocess
import sys
import tempfile
import time
import traceback

from shared.packages import has, why_not

TOP = os.path.dirname(os.path.dirname(os.path.abspath(__file__)))
LIMIT = 60
NEW = "cycle 1\nruns 0\nspent 0\nfiles 0\nstart\n"
REASON = re.compile(r"(ocfl-scrub: stopped at (.*)\n)ocfl-scrub: \2: (.*)\n")
passed = 0
failed = []
# why the last program stopped at a place, in the system's words
reason = None


def built():
    """The program itself, which the launcher builds where it is not built."""
    subprocess.run([os.path.join(TOP, "ocfl-scrub"), "--version"], stdout=subprocess.DEVNULL)
    return os.path.join(TOP, "crates", "ocfl_scrub_cli", "out", "ocfl_scrub_cli")


PROGRAM = os.path.abspath(os.environ.get("OCFL_SCRUB") or built())


def check(name, got, expected):
    """Counts whether what came is what is expected, and shows both where it is not."""
    global passed
    if got == expected:
        passed += 1
        return True
    failed.append(name)
    print("%s:\n  expected %s\n  got      %s" % (name, shown(expected), shown(got)), flush=True)
    return False


def not_yet(name, got, expected, why):
    """Counts a check that is known to fail, and says why. Once it holds, that is a failure: it is
    then a check as any other."""
    if got == expected:
        return check("%s: it holds now, so let it be a check" % name, "holds", "known to fail")
    print("known to fail: %s: %s" % (name, why), flush=True)
    return check(name, True, True)


def shown(value):
    text = repr(value)
    return text if len(text) < 1500 else text[:700] + " .. " + text[-700:]


def run_trial(check_all, needs=(), wants=()):
    """Calls `check_all` with a new folder, and ends with the names of the checks that failed and, as
    last line, the count.

    Where a tool that it needs is missing and cannot be installed, the trial is skipped and named;
    under CI (`CI=true`) that is a failure. A tool that it wants is not installed, and the trial is
    skipped without it everywhere."""
    name = os.path.basename(sys.argv[0])
    absent = [tool for tool in wants if not has(tool)]
    if absent:
        print("skipped: %s: not there: %s" % (name, ", ".join(absent)))
        print("0 passed, 0 failed")
        sys.exit(0)
    lacking = why_not(needs)
    if lacking and os.environ.get("CI", "") in ("", "0", "false"):
        print("skipped: %s: %s" % (name, lacking))
        print("0 passed, 0 failed")
        sys.exit(0)
    if lacking:
        print("failed: %s: %s" % (name, lacking))
        print("0 passed, 1 failed")
        sys.exit(1)
    folder = tempfile.mkdtemp(prefix="ocfl-scrub-trial-")
    try:
        check_all(folder)
    except Exception as error:
        traceback.print_exc(file=sys.stdout)
        failed.append("an exception: %r" % error)
    finally:
        shutil.rmtree(folder, ignore_errors=True)
    for each in failed:
        print("failed: %s: %s" % (name, " ".join(each.split())))
    print("%d passed, %d failed" % (passed, len(failed)))
    sys.exit(1 if failed else 0)


def text_of(data):
    return data.decode("utf-8", "surrogateescape")


def without_reason(said):
    """What was said, without the line that has the system's words on a stop. They are kept."""
    global reason
    found = REASON.search(said)
    reason = found[3] if found else None
    return REASON.sub(r"\1", said)


def end(process, limit=LIMIT):
    """Status, output and what was said; the status is `no end` where the limit passed."""
    try:
        out, said = process.communicate(timeout=limit)
    except subprocess.TimeoutExpired:
        os.killpg(process.pid, signal.SIGKILL)
        out, said = process.communicate()
        return "no end", text_of(out or b""), text_of(said or b"")
    return process.returncode, text_of(out or b""), without_reason(text_of(said or b""))


def start(words, before=(), **how):
    """Starts the program in a process group of its own, with the words of `before` before it."""
    how = {"stdout": subprocess.PIPE, "stderr": subprocess.PIPE, **how}
    command = [*before, PROGRAM, *words]
    return subprocess.Popen(command, stdin=subprocess.DEVNULL, start_new_session=True, **how)


def ran(words, before=(), limit=LIMIT, **how):
    return end(start(words, before, **how), limit)


def traced(rules, words, log="/dev/null", **how):
    """As `ran`, under strace with its rules."""
    if shutil.which("strace") is None:
        return "no strace", "", ""
    return ran(words, ["strace", "--quiet=all", "-o", log, *rules], **how)


def note(text):
    return "ocfl-scrub: %s\n" % text if text else ""


def expect(name, words, status, items, said):
    """The status, the items written, and what is said after the program's name."""
    return check(name, ran(words), (status, "".join(items), note(said)))


def write(path, data):
    os.makedirs(os.path.dirname(path), exist_ok=True)
    with open(path, "wb") as file:
        file.write(data)
    return path


def read(path):
    with open(path, "rb") as file:
        return file.read()


def version():
    """The version that the program has to have."""
    return text_of(read(os.path.join(TOP, "VERSION"))).rstrip("\n")


def digest(data, algorithm="sha256"):
    return hashlib.new(algorithm, data).hexdigest()


def line(code, place, detail="-"):
    return "%s\t%s\t%s\n" % (code, place, detail)


def put_inventory(folder, inventory, algorithm="sha256"):
    """Writes an object's declaration, inventory and sidecar."""
    write(os.path.join(folder, "0=ocfl_object_1.1"), b"ocfl_object_1.1\n")
    write(os.path.join(folder, "inventory.json"), inventory)
    sidecar = digest(inventory, algorithm) + " inventory.json\n"
    write(os.path.join(folder, "inventory.json." + algorithm), sidecar.encode())


def make_object(folder, files, listed=None, algorithm="sha256"):
    """An object with these files (bytes by path), whose inventory lists them, or what `listed`."""
    manifest = {}
    for path, data in files.items():
        write(os.path.join(folder, path), data)
    for path, data in (files if listed is None else listed).items():
        manifest.setdefault(digest(data, algorithm), []).append(path)
    inventory = json.dumps({"digestAlgorithm": algorithm, "manifest": manifest}).encode()
    put_inventory(folder, inventory, algorithm)
    return folder


def make_root(folder, objects):
    """A storage root with these objects: files by the place of the object."""
    write(os.path.join(folder, "0=ocfl_1.1"), b"ocfl_1.1\n")
    for place, files in objects.items():
        make_object(os.path.join(folder, place), files)
    return folder


def sound(objects):
    """The lines of the audit of a root with these objects, all as listed."""
    lines = {(): line("ok", ".")}
    for place, files in objects.items():
        lines[tuple(place.split("/"))] = line("ok", place)
        for path, data in files.items():
            whole = "%s/%s" % (place, path)
            lines[tuple(whole.split("/"))] = line("ok", whole, len(data))
    # a beginning comes before what extends it, and names go by their bytes
    order = sorted(lines, key=lambda names: [name.encode() for name in names])
    return [lines[names] for names in order]


def snapshot(root):
    """All that lies below a folder: names, kinds, sizes, times and bytes."""
    found = {}
    for at, folders, files, here in os.fwalk(os.fsencode(root)):
        for name in [b".", *folders, *files]:
            look = os.stat(name, dir_fd=here, follow_symlinks=False)
            known = [look.st_mode, look.st_size, look.st_mtime_ns, look.st_ctime_ns]
            if stat.S_ISREG(look.st_mode):
                with open(os.open(name, os.O_RDONLY, dir_fd=here), "rb") as file:
                    known.append(hashlib.sha256(file.read()).hexdigest())
            found[at + b"/" + name] = known
    return found


def checkpoint_text(**lines):
    """The text of a checkpoint as the rules have it, in which these lines say something else."""
    nothing = digest(b"")
    said = {"root": "/srv/ocfl", "declared": nothing, "names": "2 " + nothing, "phase": "open",
            "whole": "yes", "report": "0 0", "pieces": "0" * 64, "tail": nothing, "told": "0",
            "left": "0", "cycle": "1", "runs": "0", "spent": "0", "files": "0", **lines}
    body = "ocfl-scrub checkpoint 1\n"
    body += "".join("%s %s\n" % it for it in said.items()) + "start\n"
    return (body + "sha256 %s\n" % digest(body.encode())).encode()


def shown_cursor(file):
    """What the program shows of a cursor, or its status and note where it shows none."""
    status, out, said = ran(["show", file])
    return out if status == 0 else (status, said)


def nights(run, most=100):
    """The reports of a cycle's runs, one each, until it has ended."""
    reports = []
    for _ in range(most):
        status, out, said = ran(run)
        reports.append(out)
        if status not in (0, 1) or said.endswith(", ended\n"):
            break
    return reports


class Stopped:
    """The program, stopped by strace after a call; it goes on when the block is left.

    `ended` is then what `ran` gives, or says that it never stopped there.
    """

    def __init__(self, rules, call, words, when=1, limit=LIMIT):
        self.log = tempfile.NamedTemporaryFile(prefix="ocfl-scrub-calls-")
        stop = "inject=%s:signal=STOP:when=%d" % (call, when)
        before = ["strace", "--quiet=all", "-o", self.log.name, *rules, "-e", stop]
        self.limit = limit
        self.ended = ("not stopped", "", "")
        self.process = start(words, before) if shutil.which("strace") else None

    def __enter__(self):
        until = time.monotonic() + self.limit
        while self.process and self.process.poll() is None and time.monotonic() < until:
            if b"stopped by SIGSTOP" in read(self.log.name):
                break
            time.sleep(0.002)
        return self

    def __exit__(self, *_):
        was_stopped = b"stopped by SIGSTOP" in read(self.log.name)
        self.log.close()
        if self.process is None:
            return
        if was_stopped:
            os.kill(child_of(self.process.pid), signal.SIGCONT)
        ended = end(self.process, self.limit)
        self.ended = ended if was_stopped else ("not stopped", *ended[1:])


def child_of(pid):
    """The one child of a process."""
    for name in filter(str.isdigit, os.listdir("/proc")):
        try:
            parent = read("/proc/%s/stat" % name).split(b") ")[-1].split()[1]
        except (FileNotFoundError, ProcessLookupError):
            continue
        if int(parent) == pid:
            return int(name)
    raise ProcessLookupError(pid)
