#!/usr/bin/env python3
"""Measures what the proof of a function takes at least.

usage: floor.py [--files] [--only WORDS] [NUMBER NUMBER..]

For each kind of function in KINDS, or those whose row has the words, it makes crates that have 1,
20 and 50 of it, or the numbers given. Each stands on the standard library alone, in a repository
of its own, and is proved from nothing by one process (`rt verdict --jobs 1`, which takes nothing
that an earlier check kept). A row has the CPU seconds of each, user and system, and what each
function more takes: the slope of the line that fits them best. With --files each function has a
file of its own.

The second table says where the time of a function goes: what each kind of module that the prover
makes takes of the last crate.
"""
from __future__ import annotations

import argparse
import os
import subprocess
import sys
import tempfile
from typing import NamedTuple, Sequence

import measure
import proof_times

NUMBERS = (1, 20, 50)
HEAD = "//! Functions that do as little as they can.\n#![tactic(auto)]\n"


class Kind(NamedTuple):
    """A function that does little: what its row is called, the imports of its file, and its text,
    with a place for its number."""
    row: str
    imports: str
    text: str


SAME = "ghost use Rattle.std.specs.Prelude.{◌≡◌};\n"
FAILS = "ghost use Rattle.std.specs.Prelude.{◌≡◌, IfOk};\nuse std::alloc::AllocError;\n"


def returning(value: str) -> str:
    """A function that gives back its number, by an expression."""
    return """\
/// The number.
pub fn given_%%d(number: u64) -> u64
    ensures { result ≡ number }
{
    %s
}
""" % value


def trying(calls: int) -> str:
    """A function that gives back its number after so many calls, each of which may fail."""
    return """\
/// The number, unless memory runs out.
pub fn given_%%d(number: u64) -> Result<u64, AllocError>
    ensures { IfOk result (λ it. it ≡ number) }
{
%s    Ok(number)
}
""" % ("    let number = crate::may_fail(number)?;\n" * calls)


# What functions of the crate call, in its root.
CALLED = SAME.replace("};", ", IfOk};") + """\
use std::alloc::AllocError;

/// The number.
pub fn same(number: u64) -> u64
    ensures { result ≡ number }
{
    number
}

/// The number.
pub fn may_fail(number: u64) -> Result<u64, AllocError>
    ensures { IfOk result (λ it. it ≡ number) }
{
    Ok(number)
}
"""
KINDS = (
    Kind("no contract", "", """\
/// The number.
pub fn given_%d(number: u64) -> u64 {
    number
}
"""),
    Kind("one clause", SAME, returning("number")),
    Kind("one clause, ten calls", SAME, returning("crate::same(" * 10 + "number" + ")" * 10)),
    Kind("one clause, a call and `?`", FAILS, trying(1)),
    Kind("one clause, ten calls and `?`", FAILS, trying(10)),
    Kind("one clause, a loop", SAME, returning("for _ in 0..number {}\n    number")),
    Kind("one clause, a match, a text let go",
         "ghost use Rattle.std.specs.Prelude.{◌≡◌, IfOk};\n", """\
/// The number, or 0 for a text.
pub fn given_%d(read: Result<u64, String>) -> u64
    ensures { IfOk read (λ it. result ≡ it) }
{
    match read {
        Ok(number) => number,
        Err(_) => 0,
    }
}
"""),
    Kind("one clause, a byte appended",
         "ghost use Rattle.std.specs.Prelude.{◌≡◌, ◌++◌, ◌∷◌, [], OnOk};\n"
         "use std::alloc::AllocError;\n", """\
/// Appends a line feed.
pub fn given_%d(text: &mut Vec<u8>) -> Result<(), AllocError>
    ensures { OnOk result (text.new.items ≡ text.old.items ++ 10 ∷ []) }
{
    text.push(b'\\n')?;
    Ok(())
}
"""),
)


def sources(kind: Kind, number: int, is_by_file: bool) -> dict[str, str]:
    """The files of a crate that has so many functions, by their names in `src`: a root with what
    they call, and the functions in a file, or in one each."""
    each = 1 if is_by_file else number
    names = ["part_%d" % at for at in range(0, number, each)]
    own = {"%s.rt" % name: "//! Functions of one kind.\n%s" % kind.imports + "".join(
        "\n" + kind.text % at for at in range(first, first + each))
        for name, first in zip(names, range(0, number, each))}
    mods = "".join("pub mod %s;\n" % name for name in names)
    return {"lib.rt": HEAD + CALLED.replace("\n/// ", "\n" + mods + "\n/// ", 1), **own}


def made(top: str, files: dict[str, str]) -> str:
    """Makes a repository that has one crate with these files, and gives the crate's folder."""
    crate = os.path.join(top, "crates", "at_least")
    measure.write(os.path.join(top, "crates.txt"), b"at_least:\n")
    for name, text in files.items():
        measure.write(os.path.join(crate, "src", name), text.encode())
    return crate


def proved(crate: str, *words: str) -> float:
    """The CPU seconds of a command that proves the crate."""
    return measure.cpu_while(lambda: subprocess.run(
        ["rt", *words, "--jobs", "1"], cwd=crate, stdout=subprocess.DEVNULL, check=True))


def seconds_of(kind: Kind, number: int, is_by_file: bool) -> float:
    with tempfile.TemporaryDirectory(prefix="ocfl-bench-") as top:
        return proved(made(top, sources(kind, number, is_by_file)), "verdict")


def slope(points: Sequence[tuple[int, float]]) -> float:
    """By how much the line that fits these points best rises for each step to the right."""
    across = sum(x for x, _ in points) / len(points)
    height = sum(y for _, y in points) / len(points)
    spread = sum((x - across) ** 2 for x, _ in points)
    return sum((x - across) * (y - height) for x, y in points) / spread


def row(kind: Kind, numbers: Sequence[int], seconds: Sequence[float]) -> str:
    cells = ["%.1f" % it for it in seconds] + ["%.2f" % slope(list(zip(numbers, seconds)))]
    return "| %s | %s |" % (kind.row, " | ".join(cells))


def by_module(kept: Sequence[tuple[float, str]]) -> list[tuple[str, float, int]]:
    """For each kind of module, by the moments when the modules were kept, how many seconds passed
    before those of the kind and how many there are; the most first."""
    found: dict[str, tuple[float, int]] = {}
    for (before, _), (at, name) in zip(kept, kept[1:]):
        which = name.removesuffix(".oantt").rsplit(".", 1)[-1]
        which = "the contract" if which.startswith("given_") else which
        seconds, count = found.get(which, (0.0, 0))
        found[which] = seconds + at - before, count + 1
    return sorted(((which, *both) for which, both in found.items()), key=lambda it: -it[1])


def print_modules(kind: Kind, number: int) -> None:
    """Prints what each kind of module takes of a crate."""
    print("\n%d functions with %s:\n" % (number, kind.row))
    measure.head("module", "seconds", "modules")
    with tempfile.TemporaryDirectory(prefix="ocfl-bench-") as top:
        crate = made(top, sources(kind, number, False))
        proved(crate, "check")
        kept = proof_times.kept(os.path.join(crate, "out", "incremental"))
    for which, seconds, count in by_module(kept):
        if count >= number and seconds >= 0.05:
            print("| %s | %.1f | %d |" % (which, seconds, count))


def asked(words: Sequence[str]) -> argparse.Namespace:
    reader = argparse.ArgumentParser(description=__doc__,
                                     formatter_class=argparse.RawDescriptionHelpFormatter)
    reader.add_argument("--files", action="store_true", help="a file for each function")
    reader.add_argument("--only", default="", metavar="WORDS", help="of kinds with these words")
    reader.add_argument("numbers", nargs="*", type=int, metavar="NUMBER", help="how many functions")
    asks = reader.parse_args(words)
    asks.numbers = asks.numbers or list(NUMBERS)
    if len(set(asks.numbers)) < 2 or min(asks.numbers) < 1:
        reader.error("two numbers at least, each above 0")
    if not chosen(asks):
        reader.error("no kind has these words")
    return asks


def chosen(asks: argparse.Namespace) -> list[Kind]:
    return [kind for kind in KINDS if asks.only in kind.row]


def main(words: Sequence[str]) -> int:
    asks = asked(words)
    measure.head("each function has", *("CPU seconds of %d" % it for it in asks.numbers),
                 "of each more")
    kinds = chosen(asks)
    for kind in kinds:
        seconds = [seconds_of(kind, number, asks.files) for number in asks.numbers]
        print(row(kind, asks.numbers, seconds), flush=True)
    print_modules(kinds[-1], max(asks.numbers))
    return 0


if __name__ == "__main__":
    sys.exit(main(sys.argv[1:]))
