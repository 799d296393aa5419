"""Laws that stand in a crate of their own, above the crate whose definitions they pin. They refuse
edits of these definitions, and so are tried with them: the lower crate is read from source there,
with the edit, and of its proofs only what the laws rest on is checked."""
import contextlib
import os
import shutil
import tempfile

from gate import toolchain
from gate.edits import functions
from gate.repository import crates

# The crates of such laws, by the crate whose definitions they pin.
LAWS_OF = {"ocfl_scrub": "ocfl_laws", "ocfl_night": "ocfl_night_laws"}
# The folders that a check reads of a crate.
PARTS = ("src", "specs", "proofs")


def crates_with(chosen):
    """Some crates, and those of laws that are tried with their edits."""
    return {*chosen, *(LAWS_OF[name] for name in chosen if LAWS_OF.get(name) in crates())}


def checked(rt, laws, lower, texts, kept):
    """Checks the laws of a crate over a lower one with these texts in place of its own."""
    with with_texts(lower, texts) as source:
        paths = [functions.path_of(it) for it in functions.functions_of(laws.name)]
        flags = ["--jobs", "1", *(word for path in paths for word in ("--only", path))]
        ran = toolchain.check_over_source(rt, laws, lower, source, flags, kept)
        # (so that files of the lower crate are named as in a check of it)
        ran.stdout = ran.stdout.replace(source + "/", "")
        return ran


@contextlib.contextmanager
def with_texts(crate, texts):
    """A copy of a crate with these texts in place of its own."""
    with tempfile.TemporaryDirectory(prefix="ocfl-scrub-edit-") as room:
        for part in PARTS:
            if os.path.isdir(os.path.join(crate.folder, part)):
                shutil.copytree(os.path.join(crate.folder, part), os.path.join(room, part))
        for path, text in texts.items():
            with open(os.path.join(room, path), "w", encoding="utf-8") as file:
                file.write(text)
        yield room
