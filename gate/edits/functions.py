"""Which public functions no edit of the gate changes, read from sources as `rt fmt` lays them out.

An edit changes a function if what it changes is in the body of that one and of no other. So
what refuses it is a clause of that function, or a proof that needs what it does. Where a public
function only hands on what a private one does, an edit of that one counts for it too, if the edit
names it after `for`, and if it leads there by private functions alone."""
import collections
import dataclasses
import os
import re

from gate.commands import fail
from gate.edits import collection
from gate.repository import TESTS, TOP, crates, folder_of

EXCEPTIONS = os.path.join(TOP, "gate", "exceptions.txt")
# The program and what stands beside its runs are proved to be safe and to end, and no more: trials
# try what they do (`night_closings.py`, `joins.py`, `nights.py`, `night_folders.py`).
WITHOUT_CONTRACTS = (TESTS, "ocfl_scrub_cli", "ocfl_terminal", "ocfl_given", "ocfl_tasks")
START = re.compile(r"( *)(pub(?:\([a-z]+\))? )?(?:const )?(?:unsafe )?fn (\w+)")
CLAUSE = re.compile(r"\s*(ensures|requires|ghost)\b")
FIELD = re.compile(r"&?(?:mut )?self(\.\w+)+(\.as_(str|slice)\(\))?")
# A function: its name, the type that it belongs to, whether callers of the crate see it, its file,
# where it begins and ends there, and its body.
Function = collections.namedtuple("Function", "name owner public file begin end body")


def unedited():
    """Says which public functions no edit of the gate changes though one should, as one check."""
    faults, excepted = [], exceptions()
    for crate in crates():
        if crate in WITHOUT_CONTRACTS:
            continue
        functions = functions_of(crate)
        reached = edited_in(crate, functions, faults)
        for function in functions:
            name = "%s %s" % (crate, function.name)
            if not function.public or needs_none(function):
                continue
            if (name in excepted) == (function in reached):
                faults.append("%s: it %s" % (name, "is an exception, and an edit changes it"
                                             if function in reached else "has no edit"))
            excepted.discard(name)
    faults += ["%s: it is an exception, and no public function" % name for name in sorted(excepted)]
    for fault in faults:
        fail(fault)
    return int(not faults), len(faults)


def exceptions():
    """The functions that need no edit, each with its crate."""
    with open(EXCEPTIONS) as file:
        lines = [line.split("#")[0].strip() for line in file]
    return {line.split(": ")[0] for line in lines if line}


def needs_none(function):
    """Whether there is nothing to change: a law has no body, a field is read as it is, and no clause
    speaks of letting a value go."""
    body = function.body.strip()
    return not body or bool(FIELD.fullmatch(body)) or function.name.endswith(" as Drop>::drop")


def edited_in(crate, functions, faults):
    """The public functions of a crate that edits of the gate change."""
    found, named = set(), {function.name: function for function in functions if function.public}
    for edit in collection.listed():
        if edit.crate != crate:
            continue
        changed = changed_in(crate, edit, functions)
        found.update(changed if len(changed) == 1 else [])
        for other in edit.callers:
            if other in named and any(leads(named[other], it, functions) for it in changed):
                found.add(named[other])
            else:
                faults.append("%s %s: it changes nothing that %s calls" % (crate, edit.path, other))
    return found


def changed_in(crate, edit, functions):
    """The functions in whose bodies an edit changes something."""
    found = []
    for file, old, new in map(dataclasses.astuple, edit.changes):
        if file.startswith("src/"):
            with open(os.path.join(folder_of(crate), file)) as it:
                text = it.read()
            before = len(os.path.commonprefix([old, new]))
            # (what is only put in stands in front of what follows it)
            behind = min(len(os.path.commonprefix([old[::-1], new[::-1]])), len(old) - before)
            begin = text.find(old) + before
            end = max(begin + len(old) - before - behind, begin + 1)
            found += [it for it in functions
                      if it.file == file and old in text and it.begin < end and begin < it.end]
    return [it for at, it in enumerate(found) if it not in found[:at]]


def leads(function, to, functions):
    """Whether a function calls another by private functions alone."""
    seen, left = [], [function]
    while left:
        caller = left.pop()
        for callee in functions:
            if callee not in seen and not callee.public and calls(caller, callee):
                seen.append(callee)
                left.append(callee)
    return to in seen


def calls(caller, callee):
    """Whether a body names another function, or a method of its own type or of a type it names."""
    name = callee.name.rsplit("::", 1)[-1]
    if not callee.owner:
        return bool(re.search(r"(?<![.\w])%s\b" % name, caller.body))
    if caller.owner == callee.owner and re.search(r"\bSelf::%s\b" % name, caller.body):
        return True
    return bool(re.search(r"(\.|\b%s::)%s\b" % (callee.owner, name), caller.body))


def functions_of(crate):
    """The functions of a crate that have a body."""
    top, found = os.path.join(folder_of(crate), "src"), []
    shown = seen_outside(top)
    for folder, _, names in sorted(os.walk(top)):
        for name in sorted(names):
            path = os.path.join(folder, name)
            with open(path) as file:
                text = file.read()
            found += functions_in(text, os.path.relpath(path, folder_of(crate)), shown)
    return found


def laws_of(crate):
    """The laws of a crate, as paths below it: functions that have clauses and do nothing."""
    return [path_of(it) for it in functions_of(crate) if not it.owner and not it.body.strip()]


def path_of(function):
    """The path of a function below its crate, as the prover has it: a method of a trait stands
    below the names of its type, of the trait without its modules, and of the trait's types with
    theirs, run together."""
    modules = os.path.splitext(function.file)[0].split(os.sep)[1:]
    of_trait = re.fullmatch(r"<(\w+) as (.*)>::(\w+)", function.name)
    name = function.name
    if of_trait:
        trait, _, types = of_trait[2].partition("<")
        # (without parameters, which have one letter)
        words = [trait.rsplit("::", 1)[-1], *re.findall(r"\w\w+", types)]
        words = "".join(it[0].upper() + it[1:] for it in words)
        name = "%s%s::%s" % (of_trait[1], words, of_trait[3])
    return "::".join([*(it for it in modules if it not in ("lib", "main", "mod")), name])


def seen_outside(top):
    """The public modules of a crate, and the names that it passes on of the others."""
    with open(os.path.join(top, "lib.rt")) as file:
        text = file.read()
    names = {"mod " + name for name in re.findall(r"(?m)^pub mod (\w+);", text)}
    for path in re.findall(r"(?ms)^pub use (.*?);", text):
        names.update(re.findall(r"\w+", path.split("::", 1)[-1]))
    return names


def functions_in(text, file, shown):
    """The functions of one file."""
    lines, found, head = text.split("\n"), [], ""
    starts = [0]
    for line in lines:
        starts.append(starts[-1] + len(line) + 1)
    for at, line in enumerate(lines):
        if re.match(r"(unsafe )?(impl|(pub )?trait)\b", line):
            head = line
        elif line == "}":
            head = ""
        start = START.match(line)
        if start and len(start[1]) == (4 if head else 0):
            first = body_of(lines, at, start[1])
            if first is None:
                continue
            last = first if lines[first].endswith("{}") else lines.index(start[1] + "}", first)
            body = text[starts[first] + len(lines[first]):starts[last]]
            place = (file, starts[at], starts[last], body)
            found.append(function_of(start, head, shown, place))
    return found


def body_of(lines, at, indent):
    """The line on which the body of the function at a line begins, or none where it has none."""
    has_clauses, depth = False, 0
    for number in range(at, len(lines)):
        line = lines[number]
        has_clauses = has_clauses or bool(CLAUSE.match(line))
        if line in (indent + "{", indent + "{}") or not has_clauses and line.endswith(("{", "{}")):
            return number
        # (within braces it ends a field of a record)
        depth += line.count("{") - line.count("}")
        if line.endswith(";") and depth <= 0:
            return None
    return None


def function_of(start, head, shown, place):
    """A function with its whole name: that of its type before it, and of its trait."""
    name, owner, trait = start[3], "", ""
    of_impl = re.match(
        r"(?:unsafe )?impl(?:<(?:[^<>{]|<[^<>{]*>)*>)? (?:([^{]+?) for )?(\w+)", head)
    if of_impl:
        trait, owner = of_impl[1] or "", of_impl[2]
        name = "<%s as %s>::%s" % (owner, trait, name) if trait else "%s::%s" % (owner, name)
    module = os.path.splitext(os.path.basename(place[0]))[0]
    seen = "mod " + module in shown or (owner or start[3]) in shown
    public = seen and (bool(trait) or start[2] == "pub ")
    return Function(name, owner, public, *place)
