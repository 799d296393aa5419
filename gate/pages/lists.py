"""What pages list or name, compared with what is there: crates, libraries, trials, definitions, and
the names of sources."""
import glob
import os
import re

from gate.commands import fail
from gate.pages import crate_table, definitions, layers
from gate.repository import TESTS, TOP, crates, folder_of

# The page with all promises and the definitions to believe, and that with the case.
PROMISES, CASE = "docs/PROMISES.md", "docs/ASSURANCE.md"
# The names in a cell of a table, without the modules before them.
NAMED = re.compile(r"`(?:\w+::)*(\w+)`")
# A crate, and files of its definitions.
FILES = re.compile(r"`(ocfl_\w+)`: ((?:`\w+`(?:, )?)+)")
# A crate or a name, with the modules before it, in a cell of a table.
CONTRACT = re.compile(r"`(?:(ocfl_\w+)|(?:\w+::)*(\w+))`")
# The contracts of a cycle, and of a night and of the laws of nights.
CYCLE = [("ocfl_scrub", "cycling", "cycle")]
NIGHTS = [("ocfl_night", "nights", "night"), ("ocfl_night_laws", "nights", None)]
# Crates of which no contract is named.
WITHOUT_CONTRACTS = (TESTS, "ocfl_scrub_cli", "ocfl_files", "ocfl_kept", "ocfl_reading",
                     "ocfl_tasks")
# What stands in backquotes, and a file of a crate, whose name stands before it on the line.
QUOTED = re.compile(r"`([^`]+)`")
SOURCE = re.compile(r"(?:(\w+)/)?((?:src|specs|proofs)/[\w/]+\.(?:rt|antt))")
# A name of several words, as functions, types and definitions have.
CITED = re.compile(r"`(?:\w+::)*([A-Za-z]\w*(?:[a-z][A-Z]|_)\w+)`")


def looked_at():
    """Says which lists differ from the tree, as one check."""
    faults = [*of_crates(), *of_definitions(), *of_case(), *of_names(), *of_recipes()]
    for fault in faults:
        fail(fault)
    return int(not faults), len(faults)


def differing(what, page, listed, there):
    """What one of the two lacks."""
    return (["%s: %s has the %s, which is not there" % (it, page, what)
             for it in sorted(set(listed) - set(there))]
            + ["%s: %s lacks the %s" % (it, page, what)
               for it in sorted(set(there) - set(listed))])


def of_crates():
    """The tables of crates and of trials, and the libraries that are trusted."""
    lines = crates().values()
    stands_on = {word for line in lines for word in line.split(":")[1].split()}
    trials = {os.path.basename(it) for it in glob.glob(os.path.join(TOP, "trials", "*.py"))}
    named = re.findall(r"`(\w+\.py)`", " ".join(row[1] for row in rows("docs/TRIED.md", "Trials")))
    trust = text_of(CASE).split("**Trusted**")[1].split(":")[1].split(".")[0]
    shown = {name: line for name, line in crates().items() if name != TESTS}
    return (crate_table.faults() + list(layers.faults(text_of(layers.PAGE), shown))
            + differing("trial", "docs/TRIED.md", named, trials - {"common.py"})
            + differing("library", CASE, NAMED.findall(trust), stands_on - set(crates())))


def of_definitions():
    """The definitions to believe, and those of the tables of definitions."""
    faults = []
    columns = [{"%s %s" % it for it in column} for column in reading_list(PROMISES)]
    of_cycle, of_nights, others = to_read(contracts_of(all_rows(PROMISES, "All promises")))
    for what, listed, cited in [
            ("that `cycle` cites", columns[0], of_cycle),
            ("that `night` and the laws of nights cite, and `cycle` does not", columns[1],
             of_nights),
            ("that only other contracts of its promises cite", columns[2], others)]:
        faults += differing("definitions " + what, PROMISES, listed, cited)
    for crate, files in FILES.findall(text_of("docs/MAP.md")):
        faults += ["%s %s: docs/MAP.md names it, and there is no such file" % (crate, file)
                   for file in NAMED.findall(files) if not os.path.exists(specs_of(crate, file))]
    return faults


def of_case():
    """The contracts that the promises of the case name, and that none of all promises does."""
    promised = set(contracts_of(all_rows(PROMISES, "All promises")))
    named = contracts_of(rows(CASE, "Promises"))
    return ["%s: %s names it, and no promise of %s does"
            % (" ".join(filter(None, it)), CASE, PROMISES) for it in named if it not in promised]


def reading_list(page):
    """The files of definitions that a page lists, each with its crate, in each column."""
    columns = [set(), set(), set()]
    for crate, *cells in rows(page, "The definitions to believe"):
        (crate,) = NAMED.findall(crate)
        for column, cell in zip(columns, cells):
            column.update((crate, file) for file in NAMED.findall(cell))
    return columns


def listed(page):
    """The same of all columns."""
    return set().union(*reading_list(page))


def to_read(contracts):
    """The files of definitions that `cycle` cites, those with what `night` and the laws of nights
    cite beyond that, and those that other contracts cite beside all of these."""
    first, added = files_of(cited(CYCLE)), files_of(cited(NIGHTS) - cited(CYCLE))
    return first, added, files_of(cited(contracts)) - first - added


def cited(contracts):
    """The definitions that these contracts cite, themselves or through others."""
    return definitions.closure(it for crate, module, name in contracts
                               for it in definitions.contract(
                                   definitions.source_of(crate, module), name))


def files_of(found):
    """The files of these definitions, except those of private functions."""
    return {"%s %s" % it[:2] for it in found if not it[1].startswith("Internal.")}


def contracts_of(table):
    """The contracts that the last column of a table names: crate, file, and the function, or None
    where a trait or a type is named, whose calls are those of its file.

    After the name of a crate, names are those of that crate if it has them."""
    found = set()
    for row in table:
        within = ""
        for crate, name in CONTRACT.findall(row[-1]):
            within = crate or within
            there = [it for it in definitions.sources().get(name, ())
                     if it[0] not in WITHOUT_CONTRACTS]
            chosen = [it for it in there if it[0] == within] or there
            found.update((*it, None if name[0].isupper() else name) for it in chosen)
    return sorted(found, key=str)


def of_names():
    """The names of functions, types and definitions that pages cite, and that no source has."""
    files = [file for kind in ("src", "specs") for file in glob.glob(
        os.path.join(TOP, "crates", "*", kind, "**", "*.*"), recursive=True)]
    known = {word for file in ["crates.txt", *files] for word in re.findall(r"\w+", text_of(file))}
    return ["%s: %s names it, and no source has it" % (name, page)
            for page in ("README.md", CASE, PROMISES, "docs/MAP.md", "docs/NIGHTS.md")
            for name in sorted(set(CITED.findall(text_of(page))) - known)]


def of_recipes():
    """The files of crates that recipes name, and that are not there."""
    page = "docs/RECIPES.md"
    return ["%s: %s names it, and there is no such file" % (path, page)
            for line in text_of(page).split("\n") for path in sources_in(line)
            if not os.path.exists(os.path.join(TOP, path))]


def sources_in(line):
    """The files of crates that a line names, below the repository."""
    found, crate = [], ""
    for name in QUOTED.findall(line):
        first, source = name.split("/")[0], SOURCE.fullmatch(name)
        crate = first if "ocfl_" + first in crates() else crate
        # (a new crate has a name of its own)
        if source and (source[1] or crate):
            found.append("crates/ocfl_%s/%s" % (source[1] or crate, source[2]))
    return found


def rows(page, title):
    """The rows of the first table below a title, each as its cells."""
    body = re.split(r"(?m)^#+ %s\n" % re.escape(title), text_of(page))[1]
    return rows_of(body.split("\n#")[0])


def all_rows(page, title):
    """The rows of the first table below each of the titles that stand below one of a page."""
    body = re.split(r"(?m)^## %s\n" % re.escape(title), text_of(page))[1]
    return [row for part in re.split(r"(?m)^### ", body.split("\n## ")[0])[1:]
            for row in rows_of(part)]


def rows_of(text):
    """The rows of a text with one table, each as its cells."""
    found = [[cell.strip() for cell in line.strip("|").split("|")] for line in text.split("\n")
             if line.startswith("|") and not set(line) <= set("|- ")]
    return found[1:]


def specs_of(crate, file):
    return os.path.join(folder_of(crate), "specs", file + ".antt")


def text_of(path):
    with open(os.path.join(TOP, path), encoding="utf-8") as file:
        return file.read()
