"""Edits that are tried together.

The callers of a function know it by its contract alone. So an edit in its body is refused where
that function is checked and nowhere else, and edits of several functions that do not call one
another can be tried in one check: each must be refused at its own function. Any other edit is
tried alone, and so is one that its round did not refuse."""
import collections
import dataclasses
import os
import re

from gate.edits import functions
from gate.repository import folder_of

# The most edits of one round, so that rounds can be shared among processors.
MOST = 16
# A change: its file, where it begins and ends there, and what is then there.
Change = collections.namedtuple("Change", "file begin end new")
# An edit of one function's body: the function as it is and as the edit makes it, and the changes.
BodyEdit = collections.namedtuple("BodyEdit", "edit function edited changes")


def share(crate, edits):
    """Shares out the edits of a crate: the rounds, the largest first, and those that must be tried
    alone."""
    known = functions.functions_of(crate)
    bodies = [body_edit_of(crate, edit, known) for edit in edits]
    alone = [edit for edit, body in zip(edits, bodies) if body is None]
    rounds = fewest([body for body in bodies if body])
    rounds = sorted(([body.edit for body in it] for it in rounds), key=len, reverse=True)
    return [it for it in rounds if len(it) > 1], alone + [it[0] for it in rounds if len(it) == 1]


def fewest(bodies):
    """Rounds of edits that are apart: packed in their order, or first those that fit
    with the fewest others, whichever makes fewer rounds."""
    others = [sum(not apart(body, other) for other in bodies) for body in bodies]
    crowded = sorted(range(len(bodies)), key=lambda at: -others[at])
    return min(packed(bodies), packed([bodies[at] for at in crowded]), key=len)


def packed(bodies):
    """Puts each edit into the first round that it fits into."""
    rounds = []
    for body in bodies:
        fitting = (it for it in rounds if len(it) < MOST and all(apart(body, at) for at in it))
        found = next(fitting, None)
        if found is None:
            rounds.append(found := [])
        found.append(body)
    return rounds


def body_edit_of(crate, edit, known):
    """What an edit makes of the one function in whose body it is, or nothing."""
    changes = changes_of(crate, edit)
    if not changes:
        return None
    at = {it for change in changes for it in known if holds(it, change)}
    if len(at) != 1 or "Model" in (function := at.pop()).name:
        return None
    body, begin = function.body, function.end - len(function.body)
    if not all(holds(function, it) for it in changes):
        return None
    for change in sorted(changes, key=lambda it: -it.begin):
        body = body[:change.begin - begin] + change.new + body[change.end - begin:]
    return BodyEdit(edit, function, function._replace(body=body), changes)


def holds(function, change):
    """Whether a change is in the body of a function."""
    begin = function.end - len(function.body)
    return function.file == change.file and begin <= change.begin and change.end <= function.end


def changes_of(crate, edit):
    """The changes of an edit, or none where one does not fit the source as it is."""
    found = []
    for file, old, new in map(dataclasses.astuple, edit.changes):
        text = text_of(crate, file)
        if not file.startswith("src/") or text.count(old) != 1:
            return []
        begin = text.index(old)
        found.append(Change(file, begin, begin + len(old), new))
    found.sort(key=lambda it: (it.file, it.begin))
    after = zip(found, found[1:])
    return [] if any(a.file == b.file and b.begin < a.end for a, b in after) else found


def text_of(crate, file):
    try:
        with open(os.path.join(folder_of(crate), file)) as it:
            return it.read()
    except OSError:
        return ""


def apart(one, other):
    """Whether two edits change different functions, of which neither calls the other."""
    if one.function == other.function:
        return False
    bodies = [(one.function, other.function), (one.edited, other.function),
              (other.function, one.function), (other.edited, one.function)]
    return not any(functions.calls(caller, callee) for caller, callee in bodies)


def texts_of(crate, bodies):
    """The sources with all changes of a round, by their names."""
    texts = {}
    changes = [change for body in bodies for change in body.changes]
    for change in sorted(changes, key=lambda it: -it.begin):
        text = texts.get(change.file) or text_of(crate, change.file)
        texts[change.file] = text[:change.begin] + change.new + text[change.end:]
    return texts


def by_function(crate, lines, known):
    """The lines of the prover by the function at which each stands: in its source, or in its own
    proof. A line that several functions may have is none of theirs."""
    spans = {it: span_of(crate, it) for it in known}
    proofs, found = collections.defaultdict(list), collections.defaultdict(list)
    for function in known:
        for folder in folders_of(function):
            proofs[folder].append(function)
    for line in lines:
        place = re.match(r"(?:note: )?(?:\./)?(\S+?):(\d+):\d+: ", line)
        if not place:
            continue
        file, number = place[1], int(place[2])
        at = proofs.get(os.path.dirname(file)) or [
            it for it in known if it.file == file and spans[it][0] <= number <= spans[it][1]]
        if len(at) == 1:
            found[at[0]].append(line)
    return found


def span_of(crate, function):
    """The lines of a function's source, first and last."""
    text = text_of(crate, function.file)
    return tuple(text.count("\n", 0, at) + 1 for at in (function.begin, function.end))


def folders_of(function):
    """The folders that may hold a function's own proof."""
    module = os.path.splitext(function.file)[0].removeprefix("src/")
    name = re.match(r"<(\w+) as ([\w:]+)", function.name)
    owner = name[1] + name[2].rsplit("::", 1)[-1] if name else function.owner
    short = function.name.rsplit("::", 1)[-1]
    return [os.path.normpath(os.path.join("proofs", top, owner, short)) for top in (module, "")]
