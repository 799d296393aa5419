"""One step of trying edits, in a process of its own: `FOLDER CRATE KIND JOBS [EDIT..]`.

Its last line says in JSON of each thing that it tried whether that went well and what is to be said
of it, and the seconds of processors that it took."""
import contextlib
import json
import os
import re
import resource
import shutil
import sys
import tempfile

from gate import toolchain
from gate.edits import above, collection, functions, rounds
from gate.repository import copy_or_link
from gate.toolchain import KEPT

# The status of a check that was called wrongly, as with a path that fits no function.
UNASKED = 2
# What says no more than that a proof names what is gone, or rests on another that failed.
GONE = r"(note: )?(\./)?proofs/.*(has no field|is not in scope|has no `)"
NAMES = re.compile(GONE + r"|.*(was|is) not admitted")
# What `rt` says of an edit that is refused by no more than the first.
NAMES_ALONE = "only because a proof file names what the edit took away"
# What it says at a place that it refuses, of a law whose proof it refuses, and of a function that
# is not proved for what it does itself.
SAID = re.compile(r"note: \S+:\d+:\d+: |\S+:\d+:\d+: error")
NOT_PROVED = re.compile(r"fn \S+: not proved")
REFUSED = re.compile(r"fn (\S+): (?:not proved|no proof)(?!: it calls)")


def library(rt, crate, jobs):
    """Builds a crate for those that stand on it."""
    well, said = toolchain.build_library(crate, jobs)
    return well, "built" if well else said[-2000:]


def whole(rt, crate, jobs):
    """Checks a crate as it is, over what it kept."""
    ran = toolchain.check(rt, crate, {}, jobs, os.path.join(crate.folder, KEPT))
    return not ran.returncode, "proved" if not ran.returncode else ran.stdout[-2000:]


def base(rt, crate, jobs):
    """Checks a crate as it is, over the proof that `rt ci` just made of it. What its library lacks
    of that is proved from nothing."""
    with contextlib.suppress(OSError, ValueError, TypeError):
        toolchain.lay_out(crate)
    return whole(rt, crate, jobs)


@contextlib.contextmanager
def over(rt, crate):
    """Links to what a crate kept, so that each check is made over the same."""
    with tempfile.TemporaryDirectory() as room:
        kept = os.path.join(room, "kept")
        if os.path.isdir(os.path.join(crate.folder, KEPT)):
            shutil.copytree(os.path.join(crate.folder, KEPT), kept, copy_function=copy_or_link)
        yield kept


@contextlib.contextmanager
def in_file(edit):
    """Writes an edit into a file of its own, from which `rt` reads it."""
    with tempfile.TemporaryDirectory() as room:
        file = os.path.join(room, edit.name + ".edit")
        with open(file, "w", encoding="utf-8") as it:
            it.write(edit.text())
        yield file


def alone(rt, crate, edit):
    """Checks a crate with one edit. What is sooner done comes first: of an edit of definitions the
    laws alone, which say more of it, and of one of a body its function. Where these refuse nothing,
    the whole crate is checked."""
    with over(rt, crate) as kept, in_file(edit) as file:
        refused = by_laws(rt, crate, edit, kept)
        if refused:
            return True, "refused by a law: " + refused[:160]
        refused = by_function(rt, crate, edit, kept)
        if refused:
            return True, refused
        well, text = toolchain.try_edit(rt, crate, file, kept)
    return well, text.split(": ", 1)[-1]


def by_laws(rt, crate, edit, kept):
    """What refuses an edit of definitions, of the crate's laws or of those that stand above it in a
    crate of their own, or nothing."""
    texts, fault = toolchain.edited(rt, edit.text(), crate.folder)
    if fault or not all(path.startswith("specs/") for path in texts):
        return ""
    laws = functions.laws_of(crate.name)
    flags = ["--jobs", "1", *only(laws)]
    lines = (laws and lines_of_check(rt, crate, texts, flags, kept)) or []
    return refused_by_law(lines) or refused_by_law(lines_above(rt, crate, texts, kept))


def refused_by_law(lines):
    """What of these lines says that a law is not proved, or nothing."""
    if not any(NOT_PROVED.match(line) for line in lines):
        return ""
    return refusal([line for line in lines if SAID.match(line)])


def lines_above(rt, crate, texts, kept):
    """The lines of a check of the laws that stand above a crate, with these texts in the crate: none
    where the prover refused nothing."""
    top = os.path.dirname(os.path.dirname(crate.folder))
    laws = toolchain.crates_of(rt, top).get(above.LAWS_OF.get(crate.name))
    if laws is None:
        return []
    with contextlib.suppress(OSError):
        shutil.copytree(os.path.join(laws.folder, KEPT), kept, copy_function=copy_or_link,
                        dirs_exist_ok=True)
    return refusing(rt, above.checked(rt, laws, crate, texts, kept), "only=", texts)


def by_function(rt, crate, edit, kept):
    """What refuses an edit of one function's body there, or nothing."""
    bodies = body_edits_of(crate, [edit])
    said = at_functions(rt, crate, bodies, ["--jobs", "1"], kept).get(edit, [])
    why = refusal(said)
    gone = next((line for line in said if re.match(GONE, line)), "")
    if gone and not why:
        return "refused, %s: %s" % (NAMES_ALONE, gone[:160])
    return why and "refused: " + why[:160]


def together(rt, crate, edits, jobs="1", first=False):
    """Checks the functions that several edits change, and then one by one the edits that were not
    refused so. The first check of a crate is of all of it, and keeps what it proves."""
    begun = contextlib.nullcontext(os.path.join(crate.folder, KEPT))
    with begun if first else over(rt, crate) as kept:
        said = at_functions(rt, crate, body_edits_of(crate, edits), ["--jobs", jobs], kept, first)
    found = {edit: refusal(lines) for edit, lines in said.items()}
    return [(True, "refused: " + found[edit][:160]) if found.get(edit) else alone(rt, crate, edit)
            for edit in edits]


def body_edits_of(crate, edits):
    """What these edits make of one function each; one that does more than that is left out."""
    known = functions.functions_of(crate.name)
    bodies = [rounds.body_edit_of(crate.name, edit, known) for edit in edits]
    return [body for body in bodies if body]


def only(paths):
    """The flags of a check of these functions and of what they call. It leaves out what calls
    them, which knows them by their contracts."""
    return [word for path in paths for word in ("--only", path)]


def at_functions(rt, crate, bodies, flags, kept, whole=False):
    """What the prover says at the function of each of these edits that it does not prove, by the
    edits. The whole crate is checked where that is asked for, or where the prover does not know a
    function by its path."""
    if not bodies:
        return {}
    texts = rounds.texts_of(crate.name, bodies)
    paths = {body.edit: functions.path_of(body.function) for body in bodies}
    some = [*flags, *only(paths.values())]
    lines = None if whole else lines_of_check(rt, crate, texts, some, kept)
    if lines is None:
        lines = lines_of_check(rt, crate, texts, flags, kept) or []
    told = rounds.by_function(crate.name, lines, functions.functions_of(crate.name))
    refused = {found[1] for found in map(REFUSED.match, lines) if found}
    return {body.edit: told[body.function] for body in bodies
            if crate.name + "::" + paths[body.edit] in refused}


def lines_of_check(rt, crate, texts, flags, kept):
    """The lines of a check with these texts: none where the prover refused nothing, or gave no
    verdict on what it was asked for, and nothing at all where it could not be asked so."""
    ran = toolchain.check(rt, crate, texts, flags, kept)
    if ran.returncode == UNASKED:
        return None
    last = "only=" if "--only" in flags else "logic=not-proved"
    return refusing(rt, ran, last, texts)


def refusing(rt, ran, last, texts):
    """The lines of a check that refused something, and whose last line begins so, or none."""
    lines = ran.stdout.rstrip("\n").split("\n")
    told = ran.returncode == 1 and lines[-1].startswith(last)
    return lines if told and toolchain.was_read(rt, ran, texts) else []


def refusal(told):
    """What of the lines at its function refuses an edit, or nothing."""
    return next((line for line in told if not NAMES.match(line)), "")


def main():
    folder, name, kind, jobs, *names = sys.argv[1:]
    rt = toolchain.load()
    toolchain.forbid_c(rt)
    crate = toolchain.crates_of(rt, folder)[name]
    edits = [collection.named(crate.name, it) for it in names]
    if kind == "seed":
        told = together(rt, crate, edits, jobs, first=True)
    elif kind == "edits":
        told = together(rt, crate, edits) if len(edits) > 1 else [alone(rt, crate, edits[0])]
    else:
        does = {"library": library, "base": base, "proof": whole}[kind]
        told = [does(rt, crate, ["--jobs", jobs])]
    used = resource.getrusage(resource.RUSAGE_CHILDREN)
    print("\n" + json.dumps([told, used.ru_utime + used.ru_stime]))


if __name__ == "__main__":
    main()
