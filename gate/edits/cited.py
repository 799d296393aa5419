"""What the files of a crate cite by name, and what of it stands in other files.

Of a definition (`specs`) or a lemma (`proofs`) that is its file. Of what stands in `src` it is the
statement: the head of a function with its contract and without its body, and of a type, a trait or
a constant the definition, with the heads of the traits that a type has. What a name may mean in
several files or types is taken of all of them."""
from __future__ import annotations

import functools
import os
import re
from typing import Iterable, Iterator, NamedTuple

from gate import repository
from gate.edits import rounds
from gate.edits.above import PARTS
from gate.edits.functions import functions_in
from gate.pages.definitions import leaves

# The comments of sources, and of definitions and proofs.
COMMENTS = {".rt": re.compile(r"(?m)^ *//.*\n|(?<=[ ;{,])//.*$"),
            ".antt": re.compile(r"(?m)^ *--.*\n")}
# What a file takes from the definitions, lemmas and declarations of a crate of this repository.
GHOST_USE = re.compile(r"(?m)^ *(?:pub )?(?:ghost )?(?:pub )?use Rattle\.(ocfl_\w+\..*?);?$")
# What a source takes from others.
USE = re.compile(r"(?ms)^ *(?:pub(?:\([a-z]+\))? )?use ((?:crate|super|self|ocfl_\w+)\b.*?);$")
PATH = re.compile(r"(?<![\w:.])\w+(?:::\w+)+")
CALL = re.compile(r"\.(\w+)(?:::<[^()]*>)?\(")
WORD = re.compile(r"\w+")
ALIAS = re.compile(r"(?m)^(?:pub(?:\(.*?\))? )?type ")
# What says which values a type has.
TYPE = re.compile(r"(?m)^(?:pub(?:\(.*?\))? )?(?:struct|enum|type) |^impl(?:<.*>)? Model for ")
# A constant or another type's name; a type or a trait; the traits of a type.
ITEM = re.compile(
    r"(?m)^(?:#\[.*\]\n)*(?:pub(?:\([a-z]+\))? )?(?:unsafe )?"
    r"(?:(?:const|static|type) (?P<value>\w+)\b(?:.*\n)*?.*;$"
    r"|(?:(?:trait|struct|enum) (?P<type>\w+)|impl(?:<.*?>)? [^{\n]*? for (?P<of>\w+))\b"
    r"[^\n]*?(?:;$|\{\}$|\n(?:.*\n)*?\}$))")


class File(NamedTuple):
    """A file of a crate, by its path below the crate."""
    crate: str
    path: str


class Name(NamedTuple):
    """What sources of a crate state under a name. That of a method has its type before it, or only
    the colons where that is not known."""
    crate: str
    name: str


class Statement(NamedTuple):
    """What a source states, without bodies, and of which type it is a method, if it is one."""
    file: File
    owner: str
    text: str


@functools.lru_cache(maxsize=None)
def files_of(crate: str) -> frozenset[File]:
    """The files of a crate that a proof reads."""
    folder = repository.folder_of(crate)
    return frozenset(File(crate, os.path.relpath(os.path.join(at, name), folder))
                     for part in PARTS for at, _, names in os.walk(os.path.join(folder, part))
                     for name in names)


@functools.lru_cache(maxsize=None)
def code_of(file: File) -> str:
    """The text of a file without comments."""
    comments = COMMENTS.get(os.path.splitext(file.path)[1])
    text = rounds.text_of(*file)
    return comments.sub("", text) if comments else text


@functools.lru_cache(maxsize=None)
def below(crate: str) -> list[str]:
    """A crate and those below it."""
    return repository.below([crate])


def forget() -> None:
    """Lets go of what was read, so that files that changed since are read again."""
    for function in (files_of, code_of, below, stated, cited_by):
        function.cache_clear()


# ---- what a crate states


@functools.lru_cache(maxsize=None)
def stated(crate: str) -> dict[Name, set[Statement]]:
    """What the sources of a crate state, by name; a method is there by both of its names."""
    found: dict[Name, set[Statement]] = {}
    for file in files_of(crate):
        if file.path.startswith("src/"):
            for owner, name, text in statements_in(code_of(file)):
                names = ["::" + name, owner + "::" + name] if owner else [name]
                for it in names:
                    found.setdefault(Name(crate, it), set()).add(Statement(file, owner, text))
    return found


def statements_in(code: str) -> Iterator[tuple[str, str, str]]:
    """What a source states: the type of which it is a method, or nothing, its name and its text."""
    left, at = "", 0
    for function in functions_in(code, "", set()):
        end = function.end - len(function.body)
        yield function.owner, function.name.rsplit("::", 1)[-1], code[function.begin:end]
        left, at = left + code[at:end], function.end
    for item in ITEM.finditer(left + code[at:]):
        yield "", item["value"] or item["type"] or item["of"], item[0]


# ---- what a file cites


@functools.lru_cache(maxsize=None)
def cited_by(file: File) -> tuple[frozenset[File], frozenset[Statement]]:
    """The files of definitions and lemmas that a file cites, and the statements."""
    code, files, names = code_of(file), set(), set()
    taken = [it.partition(" as ")[0] for use in GHOST_USE.findall(code) for it in leaves(use)]
    if file.path.endswith(".rt"):
        of_attributes, names = paths_in(file.crate, code)
        taken += of_attributes
    for crate, part, *path in (it.split(".") for it in taken if it.count(".") > 1):
        found = file_at(crate, part, path)
        files.update([found] if found else [])
        names.update(() if found else (Name(crate, it) for it in path))
    statements = {it for name in names for it in meant(name)}
    if file.path.endswith(".rt"):
        statements = called_in(file.crate, code, statements)
    return frozenset(files), frozenset(statements)


def meant(name: Name) -> set[Statement]:
    """What a crate states under a name, or else hands on of crates below it."""
    return stated(name.crate).get(name) or {
        it for crate in below(name.crate) for it in stated(crate).get(Name(crate, name.name), ())}


def file_at(crate: str, part: str, path: list[str]) -> File | None:
    """The file of definitions or lemmas to which a path leads, or none where it leads to what is
    declared of a source."""
    ways = (File(crate, os.path.join(part, *path[:many]) + ".antt")
            for many in range(len(path), 0, -1))
    return next((it for it in ways if it in files_of(crate)), None)


def paths_in(own: str, code: str) -> tuple[list[str], set[Name]]:
    """The paths of a source that lead to definitions and lemmas, as `use` has them, and the names
    that its other paths lead to."""
    known = {it: (own, "") for it in ("crate", "super", "self")}
    ghost, names = [], set()
    for leaf in (it for use in USE.findall(code) for it in leaves(use.replace("::", "."))):
        path, _, known_as = leaf.partition(" as ")
        first, *rest = path.strip().removesuffix(".self").split(".")
        crate = known.get(first, (first, ""))[0]
        known[known_as.strip() or [first, *rest][-1]] = crate, [first, *rest][-1]
        names.update(Name(crate, it) for it in rest)
    for first, *rest in (it.split("::") for it in PATH.findall(USE.sub("", code))):
        crate, owner = known.get(first, (first if first.startswith("ocfl_") else own, first))
        if rest[0] in ("specs", "proofs"):
            ghost.append(".".join([crate, *rest]))
        names.update(Name(crate, it) for it in rest)
        names.update(methods(own, rest[-2] if len(rest) > 1 else owner, rest[-1]))
    return ghost, names


def methods(own: str, owner: str, name: str) -> set[Name]:
    """The names of a method of a type that a crate knows by this name, which may be an alias."""
    aliases = [it.text for crate in below(own) for it in stated(crate).get(Name(crate, owner), ())
               if ALIAS.search(it.text)]
    owners = {owner, *(word for text in aliases for word in WORD.findall(text))}
    return {Name(crate, "%s::%s" % (it, name)) for crate in below(own) for it in owners}


def called_in(own: str, code: str, cited: set[Statement]) -> set[Statement]:
    """The methods that a source calls on values and the types that these may have: those that are
    named in it, in what it cites, or in these again."""
    called = {it for name in CALL.findall(code) for crate in below(own)
              for it in stated(crate).get(Name(crate, "::" + name), ())}
    found, words = set(cited), set()
    new = {code, *(it.text for it in cited)}
    while new:
        more = {word for text in new for word in WORD.findall(text)} - words
        types = {it for word in more for it in types_of(word, own)}
        words |= more
        met = (types | {it for it in called if it.owner in words}) - found
        found |= met
        new = {it.text for it in met}
    return found


def types_of(word: str, own: str) -> set[Statement]:
    """The types of this name that a crate may know: its own, and those of crates below it."""
    return {it for crate in below(own) for it in stated(crate).get(Name(crate, word), ())
            if TYPE.search(it.text)}


# ---- what proofs read


def read_by(begun: Iterable[File], crates: set[str]) -> tuple[set[File], set[Statement]]:
    """What the proofs of some files of crates read: these files, the definitions and lemmas that
    they cite, themselves or through others of these crates, and what all of them cite of other
    sources."""
    left, files, statements = list(begun), set(), set()
    while left:
        file = left.pop()
        if file not in files:
            files.add(file)
            more, cited = cited_by(file) if file.crate in crates else ((), ())
            left.extend(more)
            statements.update(cited)
    return files, {it for it in statements if it.file not in files}
