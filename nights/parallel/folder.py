"""The folder of the parts of a storage root, which `begin`, `part`, `end` and `nightly` share."""
from __future__ import annotations

import fcntl
import os
import sys

HERE = os.path.dirname(os.path.realpath(__file__))
sys.path.insert(0, os.path.dirname(HERE))
from ocfl_scrub_reports.shared import Failed, refuse_links, sync_folder

# What the name of a note ends with until it is held.
UNNAMED = ".new"


def hold_numbers() -> None:
    """Opens the numbers 0 to 2 where they are closed, so that no file gets the number of an output,
    and what is written there fails."""
    file = os.open("/dev/null", os.O_RDONLY)
    while file <= 2:
        os.set_inheritable(file, True)
        file = os.open("/dev/null", os.O_RDONLY)
    os.close(file)


def run_as(name: str, main: object) -> None:
    """Does what a script does, and ends with its status."""
    hold_numbers()
    try:
        sys.exit(main(sys.argv[1:]))  # type: ignore[operator]
    except (Failed, OSError, ValueError) as error:
        print("%s: %s" % (name, error), file=sys.stderr)
        sys.exit(getattr(error, "status", 3))


def taken(words: list[str], values: str, flags: str = "") -> tuple[dict[str, str], list[str]]:
    """The options of these names, and the other words, of which those after `--` are no options.
    --state is one of them."""
    found, rest, left = {}, [], iter(words)
    for word in left:
        name, equals, value = word.partition("=")
        if word == "--":
            rest += ["./" + it if it.startswith("-") else it for it in left]
        elif word in ("--help", "-h"):
            raise SystemExit(print((sys.modules["__main__"].__doc__ or "").strip()))
        elif name in ("--state " + values).split():
            # No word has a NUL.
            value = value if equals else next(left, "\0")
            if value == "\0":
                raise Failed("the value of %s is missing; try --help" % word, 2)
            # A setting of a unit that was left empty gives no option.
            found.update({name: value} if value else {})
        elif word in flags.split():
            found[word] = "yes"
        else:
            rest.append(word)
    if "--state" not in found:
        raise Failed("--state is missing; try --help", 2)
    if found["--state"].startswith("-"):
        found["--state"] = "./" + found["--state"]
    return found, rest


def given_on(found: dict[str, str], *names: str) -> list[str]:
    """The options of these names as words."""
    return [word for name in names if name in found for word in (name, found[name])]


def number(found: dict[str, str], name: str, default: str) -> float:
    """The value of an option, which is a number above 0."""
    try:
        value = float(found.get(name, default))
    except ValueError:
        value = 0
    if name in found and not 0 < value < 1e9:
        raise Failed("%s needs a number above 0, and not %s" % (name, found[name]), 2)
    return value


def use(state: str, words: list[str] | None = None, create: bool = False) -> str:
    """Refuses a folder in which root would leave files for another user, links in it, that of
    another kind of night, and one in the storage root, which is the last of the words. Gives its
    path."""
    os.umask(0o027)
    if words == [] or words and words[-1].startswith("-"):
        raise Failed("the storage root is missing; try --help", 2)
    roots = [os.path.realpath(root) + "/" for root in [*(words or [])[-1:], state]]
    if words and (roots[0].startswith(roots[1]) or roots[1].startswith(roots[0])):
        raise Failed("the state folder must not be inside the storage root, or contain it", 2)
    above = state if os.path.lexists(state) else os.path.dirname(os.path.abspath(state))
    for follows in (False, True) if os.geteuid() == 0 and os.path.exists(above) else ():
        owner = os.stat(above, follow_symlinks=follows).st_uid
        if owner != 0:
            raise Failed("%s belongs to the user %d: run this as that user" % (above, owner))
    if create and not os.path.lexists(state):
        os.mkdir(state, 0o750)
    if not os.path.isdir(state):
        raise Failed(state + " is not there: is its file system mounted? For a first night, give "
                             "--create and --parts.")
    for name in ("checkpoint", "cursor", "nights"):
        if os.path.lexists(state + "/" + name):
            raise Failed("%s is not a folder of parts: it has a file %s" % (state, name))
    refuse_links(*(state + "/" + name for name in ("parts", "said", "log", "given", "reports")))
    return state


def part(number: int) -> str:
    return "part-%06d" % number


def opened(path: str, flags: int = os.O_EXCL, lock: int = fcntl.LOCK_EX) -> int:
    """Opens a file for its owner and the group, and holds it. What is written is on the disk then.
    No link is followed."""
    file = os.open(path, os.O_RDWR | os.O_APPEND | os.O_CREAT | os.O_NOFOLLOW | os.O_DSYNC | flags,
                   0o640)
    try:
        fcntl.flock(file, lock)
    except BlockingIOError as error:
        raise Failed("another night still runs in %s; nothing was done" % os.path.dirname(path),
                     75) from error
    except OSError as error:
        raise Failed("%s cannot be locked: %s" % (path, error.strerror)) from error
    return file


def note(state: str, number: int, end: str = "") -> int:
    """A new file for what a part says, or for 0 what is said of all of them, whose name has this
    end. It gets the name of a note once it is held, so that `end` takes none into which something
    is still to be written."""
    import time
    while True:
        path = "%s/said/%06d-%d.%d%s" % (state, number, time.time_ns(), os.getpid(), end)
        file = opened(path + UNNAMED)
        if os.path.lexists(path):
            raise Failed(path + " is there already")
        try:
            os.rename(path + UNNAMED, path)
        except FileNotFoundError:
            # It was not held yet when `end` came, which took it for one of a part that was killed.
            os.close(file)
            continue
        sync_folder(state + "/said")
        return file
