"""The names of tests and of their modules: each is there once, so that a failure is found by it."""
import collections
import os
import re

from gate.commands import fail
from gate.repository import TESTS, folder_of

TEST = re.compile(r"(?m)^ *#\[test\]\n(?: *#\[.*\n)*(?: *//.*\n)* *fn (\w+)")
MODULE = re.compile(r"(?m)^ *(?:pub(?:\([a-z]+\))? )?mod (\w+)")


def looked_at():
    """Says which name two tests have, or two modules, as one check."""
    tests, modules = found()
    faults = ["%d tests are named %s" % (tests[name], name) for name in sorted(tests)
              if tests[name] > 1]
    faults += ["%d modules of tests are named %s" % (modules[name], name)
               for name in sorted(modules) if modules[name] > 1]
    for fault in faults:
        fail(fault)
    return int(not faults), len(faults)


def found():
    """How often each name is that of a test, and of a module of tests."""
    tests, modules = collections.Counter(), collections.Counter()
    for folder, _, names in os.walk(os.path.join(folder_of(TESTS), "src")):
        for name in names:
            with open(os.path.join(folder, name), encoding="utf-8") as file:
                text = file.read()
            tests.update(TEST.findall(text))
            modules.update(MODULE.findall(text))
    return tests, modules
