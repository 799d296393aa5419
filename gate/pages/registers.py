"""The registers of the repository, read from its sources: what each crate is for and what is proved
of it, its public functions with the names of their clauses, the laws, the definitions, on which
faults tests were seen to fail, and what the trials try."""
import ast
import glob
import os
import re
import sys
import textwrap
from dataclasses import dataclass
from typing import Callable, Iterator

from gate.edits.functions import seen_outside
from gate.repository import TESTS, TOP, crates, folder_of

# The modules that have laws, beside those whose name, or that of their crate, says so.
OF_LAWS = ("headline", "records", "commands", "parts", "handing")
BLOCK = re.compile(r"(?:unsafe )?impl(?:<.*?>)? |(?:pub )?trait ")
OWNER = re.compile(r"(?:.*\bfor )?(?:pub )?(?:unsafe )?(?:trait |impl(?:<.*?>)? )?(\w+)")
FUNCTION = re.compile(r"( *)(pub(?:\(crate\))? )?(?:const )?(?:unsafe )?fn (\w+)")
CLAUSE = re.compile(r" *ensures (\w+) \{")
TEST = re.compile(r"((?: *// .*\n)+) *#\[test\]\n(?: *#\[.*\n)* *fn (\w+)")
DEFINITION = re.compile(r"(?:abbrev|unfoldable|record|data) (?:pub )?([\w'-]+)"
                        r"|pub (?:record|data) ([\w'-]+)")
WIDTH = 100
# What a line of code begins with in the text of an entry.
CODE = "``` "


@dataclass(frozen=True)
class Entry:
    """One thing of a register: where it is, its name, and what is said of it there."""
    place: str
    name: str
    text: str

    def has(self, words: list[str]) -> bool:
        whole = " ".join([self.place, self.name, self.text]).lower()
        return all(word.lower() in whole for word in words)


@dataclass(frozen=True)
class Function:
    """A function with a docstring: the type that it belongs to, its name, whether it is public,
    what is said of it, the names of its clauses, and whether it has no body."""
    owner: str
    name: str
    is_public: bool
    text: str
    clauses: tuple[str, ...]
    is_empty: bool


def read(path: str) -> str:
    with open(path, encoding="utf-8") as file:
        return file.read()


def joined(lines: list[str]) -> str:
    """Paragraphs, titles and items of lists, each on one line, and code as it is, after `CODE`."""
    found, is_code = [""], False
    for line in lines:
        is_code ^= line.strip() == "```"
        if line.strip() == "```":
            found.append("")
        elif is_code:
            found.append(CODE + line)
        else:
            if not line.strip() or line.startswith(("- ", "#")):
                found.append("")
            found[-1] = (found[-1] + " " + line.strip()).strip()
    return "\n".join(filter(None, found))


def documented(text: str) -> Iterator[Function]:
    """The functions of a source that have a docstring."""
    block, says, lines = "", [], text.split("\n")
    for at, line in enumerate(lines):
        if BLOCK.match(line) or line == "}":
            block = line
        begun = FUNCTION.match(line)
        if begun and says and len(begun[1]) == (4 if BLOCK.match(block) else 0):
            yield function_of(begun, block, joined(says), lines[at:])
        if line.lstrip().startswith("///"):
            says.append(line.lstrip()[3:].removeprefix(" "))
        elif not line.lstrip().startswith("#["):
            says = []


def function_of(begun: re.Match[str], block: str, text: str, lines: list[str]) -> Function:
    """A function with its clauses, which end where its body begins."""
    end = next((at for at, line in enumerate(lines)
                if line.strip() in ("{", "{}") or line.endswith((" {", ";", "{}"))), 0)
    clauses = [found[1] for found in map(CLAUSE.match, lines[:end + 1]) if found]
    owner = OWNER.match(block) if BLOCK.match(block) else None
    is_public = begun[2] == "pub " or " for " in block or "trait " in block
    return Function(owner[1] if owner else "", begun[3], is_public, text, tuple(clauses),
                    lines[end].endswith("{}"))


def functions() -> Iterator[tuple[str, str, Function]]:
    """The documented functions of all crates but the tests, each with its crate and module."""
    for crate in crates():
        top = os.path.join(folder_of(crate), "src")
        for path in sorted(glob.glob(os.path.join(top, "**", "*.rt"), recursive=True)):
            if crate != TESTS:
                module = os.path.relpath(path, top)[:-len(".rt")].replace(os.sep, "::")
                yield from ((crate, module, it) for it in documented(read(path)))


def is_law(crate: str, module: str, function: Function) -> bool:
    named = module in OF_LAWS or crate.endswith("laws") or module.endswith("laws")
    return named or function.is_empty


def laws() -> Iterator[Entry]:
    """The functions that state a law, with what they say."""
    for crate, module, function in functions():
        if is_law(crate, module, function) and not function.owner:
            yield Entry("%s, %s" % (crate, module), function.name, function.text)


def calls() -> Iterator[Entry]:
    """What other crates can call, with what it says and the names of its clauses."""
    shown = {crate: seen_outside(os.path.join(folder_of(crate), "src")) for crate in crates()
             if os.path.exists(os.path.join(folder_of(crate), "src", "lib.rt"))}
    for crate, module, it in functions():
        seen = shown.get(crate, set())
        if is_law(crate, module, it) or not it.is_public or crate not in shown:
            continue
        if "mod " + module.rsplit("::", 1)[-1] in seen or (it.owner or it.name) in seen:
            name = it.owner + "::" + it.name if it.owner else it.name
            named = "\nClauses: %s." % ", ".join(it.clauses) if it.clauses else ""
            yield Entry("%s, %s" % (crate, module), name, it.text + named)


def heads() -> Iterator[Entry]:
    """What each crate is for, and what is proved of it."""
    for crate in crates():
        src = os.path.join(folder_of(crate), "src")
        path = next(path for path in (os.path.join(src, "lib.rt"), os.path.join(src, "main.rt"))
                    if os.path.exists(path))
        lines = [line[3:].removeprefix(" ") for line in read(path).split("\n")
                 if line.startswith("//!")]
        yield Entry("", crate, joined(lines))


def definitions() -> Iterator[Entry]:
    """The files of `specs`, and their definitions with the comment above each."""
    for crate in crates():
        top = os.path.join(folder_of(crate), "specs")
        for path in sorted(glob.glob(os.path.join(top, "**", "*.antt"), recursive=True)):
            file = os.path.relpath(path, top)[:-len(".antt")]
            yield from defined(read(path), "%s, %s" % (crate, file))


def defined(text: str, place: str) -> Iterator[Entry]:
    """What a file of definitions says at its head, and each definition with its comment."""
    says: list[str] = []
    for at, line in enumerate(text.split("\n")):
        begun = DEFINITION.match(line)
        if begun:
            yield Entry(place, begun[1] or begun[2], joined(says))
        elif says and len(says) == at and not line.startswith("--"):
            yield Entry(place, "", joined(says))
        says = [*says, line[2:].removeprefix(" ")] if line.startswith("--") else []


def tests() -> Iterator[Entry]:
    """The tests that say on which fault they were seen to fail, and the modules that do."""
    top = os.path.join(folder_of(TESTS), "src")
    for path in sorted(glob.glob(os.path.join(top, "**", "*.rt"), recursive=True)):
        module = os.path.relpath(path, top)[:-len(".rt")].replace(os.sep, "::")
        text = read(path)
        head = [line[3:].strip() for line in text.split("\n") if line.startswith("//!")]
        said = [("", joined(head)), *((name, joined([line.strip()[3:] for line in
                 says.split("\n")])) for says, name in TEST.findall(text))]
        yield from (Entry(module, name, it) for name, it in said if "Seen to fail" in it)


def trials() -> Iterator[Entry]:
    """What each trial tries, as it says of itself."""
    for path in sorted(glob.glob(os.path.join(TOP, "trials", "*.py"))):
        said = ast.get_docstring(ast.parse(read(path))) or ""
        yield Entry("", os.path.basename(path), joined(said.split("\n")))


REGISTERS: dict[str, Callable[[], Iterator[Entry]]] = {
    "crates": heads, "calls": calls, "laws": laws, "definitions": definitions,
    "tests": tests, "trials": trials}


def written(entry: Entry) -> list[str]:
    """An entry as lines of at most so many columns."""
    first, *more = entry.text.split("\n")
    begin = "  " if entry.place else ""
    lines = wrapped(": ".join(filter(None, [entry.name, first])), begin, begin + "    ")
    for text in more:
        if text.startswith(CODE):
            lines.append((begin + "        " + text.removeprefix(CODE)).rstrip())
            continue
        deep = "      " if text.startswith("- ") else "    "
        lines += wrapped(text, begin + "    ", begin + deep)
    return lines


def wrapped(text: str, first: str, further: str) -> list[str]:
    return textwrap.wrap(text, WIDTH, initial_indent=first, subsequent_indent=further,
                         break_long_words=False, break_on_hyphens=False)


def shown(entries: Iterator[Entry], words: list[str]) -> str:
    """The entries that have all of these words, below the place of each."""
    lines: list[str] = []
    place = ""
    for entry in entries:
        if entry.has(words):
            lines += ["", entry.place] if entry.place != place else []
            lines += written(entry)
            place = entry.place
    return "".join(line + "\n" for line in lines[0 if place == "" else 1:])


def main(words: list[str], usage: str) -> int:
    """Prints a register, or what of it has some words; gives the exit status."""
    if words[:1] == ["--help"]:
        print(usage)
        return 0
    if not words or words[0] not in REGISTERS:
        print(usage, file=sys.stderr)
        return 2
    text = shown(REGISTERS[words[0]](), words[1:])
    print(text or "registers: nothing has these words", end="" if text else "\n",
          file=sys.stdout if text else sys.stderr)
    return 0 if text else 1
