"""The repository: its crates, and copies of what a command reads of them."""
import os
import shutil

TOP = os.path.dirname(os.path.dirname(os.path.realpath(__file__)))
# The crate of the tests.
TESTS = "ocfl_tests"
# Files among those that a check keeps, into which each check writes.
WRITTEN = ("offered.json", "rattle-last-used")


def crates():
    """The lines of `crates.txt` that name a crate, by that name."""
    with open(os.path.join(TOP, "crates.txt")) as file:
        return {line.split(":")[0]: line for line in file if not line.startswith("#")}


def below(chosen):
    """Some crates and all that they stand on, lowest first."""
    found = set(chosen)
    for name, line in reversed(crates().items()):
        if name in found:
            found.update(line.split(":")[1].split())
    return [name for name in crates() if name in found]


def folder_of(crate, top=TOP):
    return os.path.join(top, "crates", crate)


def copy_to(folder, chosen, kept=False):
    """Copies some crates without their edits, and with or without what earlier checks of them
    kept, which is linked: a check replaces the files that it keeps, and writes into few."""
    left = shutil.ignore_patterns("edits", *([] if kept else ["out"]))
    for crate in chosen:
        shutil.copytree(folder_of(crate), folder_of(crate, folder), ignore=left,
                        copy_function=copy_or_link)
    with open(os.path.join(folder, "crates.txt"), "w") as file:
        file.writelines(crates()[crate] for crate in chosen)
    shutil.copy(os.path.join(TOP, "HANDLES"), folder)


def copy_or_link(of, to):
    """Links a file of an `out` folder where that can be done, and copies any other. What is linked
    already stays."""
    if (os.sep + "out" + os.sep) in of and os.path.basename(of) not in WRITTEN:
        try:
            return os.link(of, to)
        except FileExistsError:
            return to
        except OSError:
            pass
    return shutil.copy2(of, to)
