#!/usr/bin/env python3
"""Prints what a change of each crate costs: the processor minutes of its proof, of its edits, and
of both with those of all crates that stand on it.

usage: bench/change_costs.py [--write]

The minutes are those of proof_minutes.tsv, which `./test` writes. With --write the table is put
into CONTRIBUTING.md.
"""
import os
import sys

sys.dont_write_bytecode = True
sys.path.insert(0, os.path.join(os.path.dirname(os.path.realpath(__file__)), ".."))

from gate.pages import costs


def main(words: list[str]) -> int:
    if words not in ([], ["--write"]):
        print(__doc__, file=sys.stderr)
        return 2
    made = costs.wanted()
    if made is None:
        print("change_costs.py: there is no bench/proof_minutes.tsv; ./test writes it",
              file=sys.stderr)
        return 1
    if words:
        costs.write()
    else:
        print(made, end="")
    return 0


if __name__ == "__main__":
    sys.exit(main(sys.argv[1:]))
