"""The definitions that contracts cite, themselves or through others: the script `docs/definitions`,
and which of them the contracts that a page names cite.

A definition is named by its crate, its file below `specs` (with points) and its own name."""
from __future__ import annotations

import functools
import glob
import os
import re
import sys
from typing import Iterable, Iterator, Optional

from gate.repository import TOP

Named = tuple[str, str, str]
# What a source or a definition takes from the definitions of a crate of this repository.
USE = re.compile(r"(?m)^ *(?:ghost )?(?:pub )?use Rattle\.(ocfl_\w+)\.specs\.(.*?);?$")
# Where a definition begins: other lines at a line's start are equations of the last one.
BEGIN = re.compile(r"(?:pub )?(?:(?:abbrev|unfoldable|record|data) )(?:pub )?(\S+)"
                   r"|(?:pub )?(\S+) :")
# A trait or a type of a source, up to its end.
BLOCK = r"(?m)^(?:pub )?(?:trait|struct|enum) %s\b[^\n]*?(?:;$|\n(?:.*\n)*?\}$)"
# A function of a source, up to its body or its end.
FUNCTION = (r"(?m)^( *)(?:pub(?:\(crate\))? )?(?:const )?(?:unsafe )?fn %s\b"
            r"(?:[^\n]*(?:\{\}|\{|;)$|(?:.*\n)*?(?:\1\{.*|\1\).*\{|.*\{\}|.*;)$)")
WORD = re.compile(r"[\w-]+")


def leaves(text: str, before: str = "") -> Iterator[str]:
    """The names of a use, each with the modules before it: those of `A.{b, C.{d as e}}` are `A.b`
    and `A.C.d as e`."""
    depth, item = 0, ""
    for sign in text + ",":
        depth += (sign == "{") - (sign == "}")
        if sign != "," or depth > 0:
            item += sign
            continue
        head, brace, rest = item.strip().partition("{")
        if brace:
            yield from leaves(rest.rstrip().removesuffix("}"), before + head)
        elif head:
            yield before + head
        item = ""


def uses(text: str) -> dict[str, Named]:
    """What a file takes, as the name that it uses and where that is defined, except what the
    toolchain declares of types."""
    found = {}
    for crate, taken in USE.findall(text):
        for leaf in leaves(taken):
            path, _, known_as = leaf.partition(" as ")
            module, _, name = path.strip().rpartition(".")
            if module and not module.startswith("declared"):
                found[known_as.strip() or name] = crate, module, name
    return found


def file_of(crate: str, module: str) -> str:
    """The path of a file of definitions."""
    return os.path.join(TOP, "crates", crate, "specs", *module.split(".")) + ".antt"


def source_of(crate: str, module: str) -> str:
    """The path of a source."""
    return os.path.join(TOP, "crates", crate, "src", module + ".rt")


@functools.lru_cache(maxsize=None)
def read(path: str) -> str:
    with open(path, encoding="utf-8") as file:
        return file.read()


@functools.lru_cache(maxsize=None)
def module_at(crate: str, module: str) -> tuple[dict[str, Named], dict[str, list[str]],
                                                dict[str, str]]:
    """What a file of definitions takes, its definitions (the lines of each, by name), and of each
    constructor the data type that it makes."""
    text, name = read(file_of(crate, module)), ""
    blocks: dict[str, list[str]] = {}
    for line in text.split("\n"):
        if not line.strip() or line.lstrip().startswith("--") or line.startswith(("use ", "infix")):
            continue
        if begun := BEGIN.match(line):
            name = begun.group(1) or begun.group(2)
        blocks.setdefault(name, []).append(line.split(" -- ")[0])
    of = {word: name for name, lines in blocks.items() if "data " in lines[0]
          for word in re.findall(r"(?m)^  (\w+) :", "\n".join(lines))}
    return uses(text), blocks, of


def cited(crate: str, module: str, name: str) -> Iterator[Named]:
    """The definitions that one of a file cites."""
    takes, blocks, of = module_at(crate, module)
    # What follows a point is a field.
    text = re.sub(r"\.[A-Za-z_][\w-]*", "", "\n".join(blocks[name]))
    words = {*WORD.findall(text), *("◌%s◌" % it for it in re.findall(r"[^\s\w]+", text))}
    for word in sorted(words):
        if word in takes:
            yield takes[word]
        elif of.get(word, word) in blocks:
            yield crate, module, of.get(word, word)


def contract(source: str, name: Optional[str]) -> list[Named]:
    """What a source's contracts cite, or those of one of its functions, traits or types.

    Raises LookupError if the source has nothing of that name."""
    text = read(source)
    takes = uses(text)
    if name is None:
        return list(takes.values())
    found = (re.search(FUNCTION % re.escape(name), text)
             or re.search(BLOCK % re.escape(name), text))
    if found is None:
        raise LookupError("no function %s in %s" % (name, source))
    words = set(WORD.findall(found[0]))
    return [it for word, it in takes.items() if word in words]


def closure(begun: Iterable[Named]) -> set[Named]:
    """These definitions, and all that they cite through others."""
    left, found = list(begun), set()
    while left:
        crate, module, name = left.pop()
        _, blocks, of = module_at(crate, module)
        it = crate, module, of.get(name, name)
        if it not in found and it[2] in blocks:
            found.add(it)
            left.extend(cited(*it))
    return found


@functools.lru_cache(maxsize=None)
def sources() -> dict[str, list[tuple[str, str]]]:
    """Where the functions, traits and types of that name are: their crates and files."""
    found: dict[str, list[tuple[str, str]]] = {}
    for path in sorted(glob.glob(os.path.join(TOP, "crates", "*", "src", "**", "*.rt"),
                                 recursive=True)):
        crate, _, file = os.path.relpath(path, os.path.join(TOP, "crates")).split(os.sep, 2)
        begun = r"(?m)^ *pub (?:const )?(?:unsafe )?(?:fn|trait|struct|enum) (\w+)"
        for name in set(re.findall(begun, read(path))):
            found.setdefault(name, []).append((crate, file[:-len(".rt")]))
    return found


def shown(found: set[Named], by_name: bool) -> str:
    """The files of these definitions, one crate a line, or with their names, one file a line; and
    how many definitions there are."""
    files = sorted({it[:2] for it in found})
    if by_name:
        lines = ["%s, %s: %s" % (*file, " ".join(it for it in module_at(*file)[1]
                                                 if (*file, it) in found)) for file in files]
    else:
        lines = [crate + ": " + " ".join(module for of, module in files if of == crate)
                 for crate in sorted({crate for crate, _ in files})]
    length = sum(len(module_at(*it[:2])[1][it[2]]) for it in found)
    lines.append("%d definitions of %d lines in %d files" % (len(found), length, len(files)))
    return "\n".join(lines)


def cited_by(words: Iterable[str]) -> set[Named]:
    """The definitions that contracts cite, each `CRATE/FILE` or `CRATE/FILE:NAME`.

    Raises ValueError if a word is not of this form, OSError if there is no such file, and
    LookupError if it has nothing of that name."""
    begun: list[Named] = []
    for word in words:
        found = re.fullmatch(r"(\w+)/([\w/]+)(?::(\w+))?", word)
        if found is None:
            raise ValueError(word)
        begun += contract(source_of(found[1], found[2]), found[3])
    return closure(begun)


def split(words: list[str]) -> tuple[list[str], list[str], bool]:
    """The contracts of a command line, those after `--beyond`, and whether names are wanted."""
    own, known, by_name, words = [], [], False, list(words)
    while words:
        word = words.pop(0)
        if word == "--beyond" and words:
            known.append(words.pop(0))
        elif word == "--names":
            by_name = True
        else:
            own.append(word)
    return own, known, by_name


def main(words: list[str], usage: str) -> int:
    """Prints which definitions contracts cite; gives the exit status."""
    own, known, by_name = split(words)
    if words == ["--help"]:
        print(usage)
        return 0
    try:
        found = cited_by(own) - cited_by(known)
    except ValueError:
        own = []
    except (OSError, LookupError) as error:
        print("docs/definitions: %s" % error, file=sys.stderr)
        return 1
    if not own:
        print(usage, file=sys.stderr)
        return 2
    print(shown(found, by_name))
    return 0
