"""Which edits of the gate are due: those of each source at which something changed that refuses
them since they were last refused, and of each tenth crate all, by the commit.

What refuses an edit is read from the source and its proofs, from the definitions and lemmas of the
crate that these cite, themselves or through others, and from what all of them cite by name of other
files and of crates below: definitions and lemmas, and the statements of sources without bodies. An
edit of a definition, or of more than the body of one function, may be refused anywhere in its
crate, or by the laws that stand above it. Comments are left out, and of the edits themselves what
they say. The file `gate/refused.tsv` keeps, by source, the sum of all this at which the edits of
the gate were refused, and the commit at which that was seen."""
from __future__ import annotations

import functools
import hashlib
import os
import re
from typing import Iterable, Mapping, NamedTuple

from gate import minutes, repository
from gate.commands import print_line
from gate.edits import above, cited, rounds
from gate.edits.cited import File, files_of, read_by
from gate.edits.edit_files import Edit
from gate.edits.functions import Function, functions_of
from gate.repository import TOP

FILE = os.path.join(TOP, "gate", "refused.tsv")
HEAD = "crate\tsource\tsum\tcommit"
# What is said of a crate: how many of its edits are not due, and where they were refused.
NOT_DUE = "%s: %d of %d edits are not due: refused at %s, and nothing that they read has changed"
# Of the crates that did not change, one of so many is due at a commit.
SHARE = 10


class Source(NamedTuple):
    """A file that edits change, by its path below its crate."""
    crate: str
    path: str


class Seen(NamedTuple):
    """That all edits of a source were refused: at which sum, and at which commit."""
    total: str
    commit: str


def by_source(edits: Iterable[Edit]) -> dict[Source, list[Edit]]:
    """Some edits, by what they change."""
    found: dict[Source, list[Edit]] = {}
    for edit in edits:
        found.setdefault(Source(edit.crate, edit.source), []).append(edit)
    return found


# ---- what the edits of a source are tried on


def sums_of(edits: Iterable[Edit]) -> dict[Source, str]:
    """Of each source of some edits the SHA-256 of all that refuses its edits."""
    cited.forget()
    known_of.cache_clear()
    return {source: sum_of(source, own) for source, own in by_source(edits).items()}


def sum_of(source: Source, edits: list[Edit]) -> str:
    """The SHA-256 of all that refuses the edits of a source, and of what tries them."""
    files, statements = read_by(*begun_by(source, edits))
    own = File(source.crate, "edits/%s.edits" % os.path.dirname(edits[0].path))
    texts = [*((file, cited.code_of(file)) for file in files),
             *((it.file, it.text) for it in statements),
             (own, "".join(edit.text() for edit in edits))]
    found = hashlib.sha256(("logic %s\n%s\n" % (logic(), tactics(source.crate))).encode())
    for file, text in sorted(texts):
        found.update(("%s %s %s\n" % (*file, hashed(text))).encode())
    return found.hexdigest()


@functools.lru_cache(maxsize=None)
def hashed(text: str) -> str:
    return hashlib.sha256(text.encode()).hexdigest()


def logic() -> str:
    """The logic that proofs are checked by, as the launcher names it."""
    with open(os.path.join(repository.TOP, "ocfl-scrub"), encoding="utf-8") as file:
        return re.findall(r"(?m)^logic=(\w+)$", file.read())[0]


def tactics(crate: str) -> list[str]:
    """What a crate says of all of its proofs."""
    return re.findall(r"(?m)^#!\[.*\]$", rounds.text_of(crate, "src/lib.rt"))


def begun_by(source: Source, edits: list[Edit]) -> tuple[set[File], set[str]]:
    """The files with which what refuses the edits of a source begins, and their crates."""
    known = known_of(source.crate)
    if all(rounds.body_edit_of(source.crate, it, known) for it in edits):
        changed = {File(source.crate, it.file) for edit in edits for it in edit.changes}
        return changed | proofs_of(source, known), {source.crate}
    own = {source.crate}
    crates = above.crates_with(own) if source.path.startswith("specs/") else own
    return {file for crate in crates for file in files_of(crate)}, crates


@functools.lru_cache(maxsize=None)
def known_of(crate: str) -> list[Function]:
    return functions_of(crate)


def proofs_of(source: Source, known: list[Function]) -> set[File]:
    """The proofs of the functions of a source."""
    module = os.path.splitext(source.path)[0].removeprefix("src/")
    folders = {os.path.join("proofs", module)}
    folders.update(folder for it in known if it.file == source.path
                   for folder in rounds.folders_of(it))
    return {it for it in files_of(source.crate) if it.path.startswith(tuple(
        folder + os.sep for folder in folders))}


# ---- the file


def parsed(text: str) -> dict[Source, Seen]:
    """The rows of the file."""
    rows = [line.split("\t") for line in text.splitlines()[1:]]
    return {Source(crate, path): Seen(total, commit) for crate, path, total, commit in rows}


def written(rows: Mapping[Source, Seen]) -> str:
    """The file with these rows, the lowest crate first."""
    place = list(repository.crates()).index
    lines = ["\t".join((*source, *rows[source]))
             for source in sorted(rows, key=lambda it: (place(it.crate), it.path))]
    return "\n".join([HEAD, *lines, ""])


def read() -> dict[Source, Seen]:
    if not os.path.exists(FILE):
        return {}
    with open(FILE, encoding="utf-8") as file:
        return parsed(file.read())


def note(refused: set[Edit], edits: Iterable[Edit], sums: Mapping[Source, str]) -> None:
    """Keeps of which sources all edits of the gate were refused, at these sums. Rows of sources
    without edits are dropped."""
    rows, commit = read(), minutes.commit_of(TOP)
    now = by_source(edits)
    seen = {source: Seen(sums[source], commit) for source, own in now.items()
            if refused.issuperset(own)}
    with open(FILE, "w", encoding="utf-8") as file:
        file.write(written({**{it: rows[it] for it in rows if it in now}, **seen}))


# ---- what is due


def is_in_turn(crate: str, commit: str) -> bool:
    """Whether a crate that did not change is due at a commit; each is if the commit is not
    known."""
    number = int(hashlib.sha256(("%s %s" % (commit, crate)).encode()).hexdigest(), 16)
    return commit == "unknown" or number % SHARE == 0


def due_sources(sums: Mapping[Source, str], commit: str) -> set[Source]:
    """The sources whose edits are due at a commit, of those with these sums."""
    seen = read()
    return {source for source, total in sums.items()
            if source not in seen or seen[source].total != total
            or is_in_turn(source.crate, commit)}


def chosen(edits: list[Edit], sums: Mapping[Source, str]) -> list[Edit]:
    """Those of some edits that are due at the commit of the repository. Says of which crates how
    many are not."""
    now = due_sources(sums, minutes.commit_of(TOP).rstrip("+"))
    seen, left = read(), [it for it in edits if Source(it.crate, it.source) not in now]
    for crate in dict.fromkeys(edit.crate for edit in left):
        own = [edit for edit in left if edit.crate == crate]
        commits = dict.fromkeys(seen[it].commit for it in by_source(own))
        print_line(NOT_DUE % (crate, len(own), sum(it.crate == crate for it in edits),
                              ", ".join(commits)))
    return [it for it in edits if Source(it.crate, it.source) in now]
