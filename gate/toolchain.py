"""The command `rt` of the toolchain, as a module: how it reads an edit and judges what the prover
says of it, and how it shares processors and memory. Kits of several numbers have one logic, and
their commands differ inside: no other file of the gate names anything of that, and `missing` says
what a kit lacks of what is used here."""
from __future__ import annotations

import hashlib
import importlib.machinery
import importlib.util
import io
import json
import os
import re
import shutil
import subprocess
import sys
from dataclasses import dataclass
from typing import Any, Callable, Iterable, Iterator, Mapping, Optional

# What is used of the command. Some kits also have `Kept`, which keeps proofs for later runs.
USED = ("Crate.below", "Crate.build_rlib", "Crate.ci", "Crate.count", "Crate.words", "checked",
        "edited", "in_lanes", "main", "must_fail", "need", "processors", "unread", "rtlib.ALLOW_C",
        "rtlib.RATTLE", "rtlib.STALE", "rtlib.crates_below", "rtlib.guarded")
# And of each crate that it knows.
USED_OF_CRATE = ("cuts_libraries", "deps", "folder", "name", "of_kit", "out", "rlib")
# What a check keeps of a crate, below its folder.
KEPT = "out/incremental"
# What a library says of the build of the prover that made it.
BUILD = re.compile(r"(?m)^rattle-build (\S+)$")
# The command, as a module.
Command = Any
# What a check ended with: its status, and its lines.
Ran = subprocess.CompletedProcess
# Steps of a queue by their keys: what each waits for, its work in lines, its memory, and a call,
# which gets what was given so far and how many jobs it may use.
Steps = Mapping[Any, tuple[Any, int, int, Callable[[Any, int], Any]]]


@dataclass(frozen=True)
class Crate:
    """A crate of a repository: its name, its folder, and the crate as the command has it."""
    name: str
    folder: str
    known: Any


# ---- the command


def load() -> Command:
    """The module, or nothing where the command is not found."""
    command = shutil.which("rt")
    if command is None:
        return None
    loader = importlib.machinery.SourceFileLoader("rt", os.path.realpath(command))
    spec = importlib.util.spec_from_loader("rt", loader)
    assert spec is not None
    module = importlib.util.module_from_spec(spec)
    sys.modules["rt"] = module
    loader.exec_module(module)
    return module


def missing(rt: Command, top: str) -> list[str]:
    """The names that are used here and this command lacks, or a crate of this repository in it."""
    lacking = [name for name in USED if not has(rt, name)]
    crate = None if lacking else next(iter(rt.rtlib.crates_below(top)))
    return lacking + ["a crate's " + name for name in USED_OF_CRATE
                      if crate and not hasattr(crate, name)]


def has(rt: Command, name: str) -> bool:
    for part in name.split("."):
        if not hasattr(rt, part):
            return False
        rt = getattr(rt, part)
    return True


def processors(rt: Command) -> int:
    """How many processors there are to use."""
    return rt.processors()


def forbid_c(rt: Command) -> None:
    """Lets no check of this process trust code in C, whatever the environment says."""
    os.environ.pop(rt.rtlib.ALLOW_C, None)


# ---- crates


def crates_of(rt: Command, top: str) -> dict[str, Crate]:
    """The crates of a repository by their names, lowest first."""
    return {it.name: Crate(it.name, it.folder, it) for it in rt.rtlib.crates_below(top)}


def names_below(crate: Crate) -> list[str]:
    """The crates on which one stands, themselves or through others."""
    return [it.name for it in crate.known.below()]


def lines_of(crate: Crate) -> int:
    """How many lines a crate has, which tells the work of its proof."""
    return crate.known.count(rb"\n")


def memory_of(rt: Command, crate: Crate) -> int:
    """The most memory that a check of a crate is likely to take, in bytes."""
    return rt.need(crate.known)


# ---- checks


def build_library(crate: Crate, flags: list[str]) -> tuple[bool, str]:
    """Builds a crate for those that stand on it: whether that went well, and what was said."""
    crate.known.out = io.StringIO()
    status = crate.known.build_rlib(flags, anew=False)
    return not status, crate.known.out.getvalue()


def check(rt: Command, crate: Crate, texts: Mapping[str, str], flags: list[str],
          kept: Optional[str]) -> Ran:
    """Checks a crate with these texts in place of its own, over what is kept in a folder."""
    return rt.checked(crate.known, texts, flags, kept)


def check_over_source(rt: Command, crate: Crate, lower: Crate, source: str, flags: list[str],
                      kept: str) -> Ran:
    """Checks a crate that reads one below it from a folder, and not its library."""
    words = words_over(crate, lower, source, flags)
    command = [*rt.rtlib.guarded(), rt.rtlib.RATTLE, "check", *words, "--incremental", kept]
    return subprocess.run(command, cwd=crate.folder, stdin=subprocess.DEVNULL,
                          stdout=subprocess.PIPE, stderr=subprocess.STDOUT, errors="replace",
                          check=False)


def words_over(crate: Crate, lower: Crate, source: str, flags: list[str]) -> list[str]:
    """The words of such a check."""
    below = lower.known
    words = crate.known.words(flags, keeps=False)
    at = words.index("%s=%s" % (lower.name, below.rlib))
    kit = next(it for it in words if it.startswith("std=")).removeprefix("std=")
    used = dict.fromkeys(["core", *below.of_kit, *(it.name for it in below.deps)])
    passed = {it.partition("=")[0] for it in words[:at]}
    words[at - 1:at + 1] = ["--lib", "%s:%s=%s/src/lib.rt" % (lower.name, ",".join(used), source)]
    for name in used:
        if name not in passed and name in ("core", *below.of_kit):
            words += ["--extern", "%s=%s" % (name, kit.replace("std.rlib", name + ".rlib"))]
    return words


def was_read(rt: Command, ran: Ran, changed: Iterable[str]) -> bool:
    """Whether the prover read what was changed, over libraries that it could use."""
    lines = ran.stdout.rstrip("\n").split("\n")
    return (not any(rt.unread(line, changed) for line in lines)
            and not rt.rtlib.STALE.search(ran.stdout))


# ---- edits


def edited(rt: Command, text: str, folder: str) -> tuple[dict[str, str], str]:
    """The texts that an edit makes of the files of a crate, by their paths there, and what is
    wrong with the edit, or nothing."""
    texts, fault = rt.edited(text, folder)
    return texts or {}, fault or ""


def try_edit(rt: Command, crate: Crate, file: str, kept: str) -> tuple[bool, str]:
    """Checks the whole crate with the edit of a file: whether that is refused, and what is said."""
    verdict, text = rt.must_fail(crate.known, file, ["--jobs", "1"], kept)
    return is_refusal(rt, verdict), text


def is_refusal(rt: Command, verdict: Any) -> bool:
    """Whether this verdict on an edit is a refusal. Some kits have a word for each verdict, of
    which two are refusals, and others tell only whether it is one."""
    words = [getattr(rt, name) for name in ("REFUSED", "AT_LIMIT") if hasattr(rt, name)]
    return verdict in words if words else bool(verdict)


# ---- what a library keeps of its proof


def lay_out(crate: Crate) -> None:
    """Lays out the checked modules that a crate's library carries as a check keeps them: each in a
    file of its own, in a folder for this build of the prover. A check takes only what is up to
    date.

    Raises OSError, ValueError or TypeError where the library carries none, or has another form."""
    library = crate.known.rlib
    with open(os.path.join(library, "format"), encoding="utf-8") as it:
        build = BUILD.search(it.read())
    if build is None:
        raise ValueError("the library names no build")
    whole = os.path.join(crate.folder, KEPT)
    folder = os.path.join(whole + ".new", build[1].replace("/", "_"))
    carried = os.path.join(library, "toolchain", "checked")
    with open(carried + ".json", encoding="utf-8") as it:
        rows = [json.loads(line) for line in it]
    os.makedirs(os.path.join(folder, "long"))
    with open(carried + ".a", "rb") as modules:
        for name, begin, size in rows:
            # (statements of modules, and a sum of all, have a slash in their names)
            if "/" not in name:
                modules.seek(begin)
                module = modules.read(size)
                for path in paths_of(name):
                    with open(os.path.join(folder, path), "wb") as file:
                        file.write(module)
    # (another step may link what is kept, and then must find each file whole)
    os.rename(whole + ".new", whole)


def paths_of(module: str) -> Iterator[str]:
    """The files in which a check looks for a module. Those of long names stand apart, by a sum of
    their length and name; from which length on is between these two."""
    name = module.encode()
    if len(name) <= 128:
        yield module + ".oantt"
    if len(name) > 117:
        size = len(name).to_bytes(8, "little")
        yield os.path.join("long", hashlib.sha256(size + name).hexdigest() + ".oantt")


# ---- `rt ci` and its queue


def prove_all(rt: Command) -> int:
    """Runs `rt ci` in the current folder; gives its status."""
    return rt.main(["ci"])


def share_out(rt: Command, steps: Steps) -> dict[Any, Any]:
    """Takes steps side by side, as far as processors and memory allow; gives what each gave."""
    return rt.in_lanes(steps)


def put_into_queue(rt: Command, made: Callable[[], Steps],
                   ended: Callable[[dict[Any, Any]], None]) -> None:
    """Has `rt ci` take these steps beside its own, in one queue. Once all have ended, `ended` gets
    what these gave."""
    queue = rt.in_lanes

    def in_lanes(tasks: Steps) -> dict[Any, Any]:
        steps = made()
        given = queue({**tasks, **steps})
        ended({key: given[key] for key in steps})
        return given

    rt.in_lanes = in_lanes


def build_whole(rt: Command, whole: Iterable[str]) -> None:
    """Has `rt ci` build the libraries of these crates with their proofs, and take none without
    from an earlier run, where the kit keeps proofs."""
    made = rt.Crate.ci

    def ci(crate: Any, flags: list[str], tests: bool) -> int:
        if crate.name in whole:
            crate.cuts_libraries = False
        return made(crate, flags, tests)

    rt.Crate.ci = ci
    if not hasattr(rt, "Kept"):
        return
    key = rt.Kept.key
    rt.Kept.key = lambda kept, crate: key(kept, crate) + "-with-proofs" * (crate.name in whole)
