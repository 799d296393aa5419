"""The block of README that the programs write, a night's message as it comes by mail: the script
`docs/message`. The page on nights of the same storage root is what README's picture shows."""
from __future__ import annotations

import hashlib
import json
import os
import shutil
import subprocess
import sys
import tempfile

from gate.repository import TOP

PAGE = os.path.join(TOP, "README.md")
NIGHTS = os.path.join(TOP, "nights")
BEGIN, END = "<!-- message -->\n", "<!-- end of message -->\n"
# The objects of the storage root, each with its files, before the second night and after it.
OBJECTS = {"letters": {"Brief an Müller.txt": b"Dear reader,\n", "later.txt": b"P.S.\n"},
           "minutes": {"2024-01.txt": b"Present: all\n"},
           "photographs": {"0001.tif": b"II*\0" * 300, "0002.tif": b"II*\0" * 400}}
DAMAGED, GONE = "letters/v1/content/Brief an Müller.txt", "minutes"
# As the block names the storage root and the state folder.
ROOT, STATE = "/srv/ocfl", "/var/lib/ocfl-scrub/archive"
# So many digits of a digest are shown.
DIGITS = 12


class Failed(Exception):
    """Ends the command with a text."""


def make_object(folder: str, name: str, contents: dict[str, bytes]) -> None:
    """Makes an object of one version."""
    def put(path: str, data: bytes) -> str:
        os.makedirs(os.path.dirname(os.path.join(folder, path)), exist_ok=True)
        with open(os.path.join(folder, path), "wb") as file:
            file.write(data)
        return hashlib.sha512(data).hexdigest()

    put("0=ocfl_object_1.1", b"ocfl_object_1.1\n")
    manifest: dict[str, list[str]] = {}
    for path, data in contents.items():
        manifest[put("v1/content/" + path, data)] = ["v1/content/" + path]
    state = {digest: [paths[0].removeprefix("v1/content/")] for digest, paths in manifest.items()}
    inventory = {"id": "urn:example:" + name, "type": "https://ocfl.io/1.1/spec/#inventory",
                 "digestAlgorithm": "sha512", "head": "v1", "manifest": manifest,
                 "versions": {"v1": {"created": "2024-01-01T09:00:00Z", "state": state}}}
    for place in ["", "v1/"]:
        digest = put(place + "inventory.json", json.dumps(inventory).encode())
        put(place + "inventory.json.sha512", ("%s inventory.json\n" % digest).encode())


def ran(words: list[str], expected: set[int], **given: str) -> str:
    """What a command writes to its two outputs, where it ends as expected."""
    done = subprocess.run(words, env={**os.environ, "MAIL": "", "JOURNAL": "", **given},
                          stdout=subprocess.PIPE, stderr=subprocess.STDOUT, check=False)
    text = done.stdout.decode()
    if done.returncode not in expected:
        raise Failed("%s ends with %d: %s" % (words, done.returncode, text))
    return text


def sample(folder: str) -> tuple[str, str]:
    """The message of a night and the page after it, over a root in this folder that was damaged
    since the night before. It does not name the folder."""
    root, state = folder + ROOT, folder + STATE
    os.makedirs(root)
    os.makedirs(os.path.dirname(state))
    with open(root + "/0=ocfl_1.1", "wb") as file:
        file.write(b"ocfl_1.1\n")
    for name, contents in OBJECTS.items():
        make_object(os.path.join(root, name), name, contents)
    night = [NIGHTS + "/nightly", "--state", state, "--for-tell", root]
    ran([*night, "--create"], {0})
    with open(os.path.join(root, DAMAGED), "r+b") as file:
        file.write(b"d")
    shutil.rmtree(os.path.join(root, GONE))
    ran(night, {1}, INVOCATION_ID="second")
    command = NIGHTS + "/ocfl-scrub-reports"
    mail = ran([command, "tell", "archive", state], {0}, EXIT_STATUS="1", INVOCATION_ID="second")
    page = ran([command, "page", state], {0, 1, 2})
    return mail.replace(folder, ""), page.replace(folder, "")


def block(text: str) -> str:
    """A text as a block of the page, with digests cut."""
    lines = [" ".join(cut(word) for word in line.split(" ")) for line in text.splitlines()]
    return "".join("    %s\n" % line if line else "\n" for line in lines)


def cut(word: str) -> str:
    """A word, of which a digest keeps its first digits."""
    is_digest = len(word) >= 32 and set(word) <= set("0123456789abcdef")
    return word[:DIGITS] + ".." if is_digest else word


def put(text: str, made: str) -> str:
    """A page with this block in its place.

    Raises ValueError if the page has no such place."""
    before, begun, rest = text.partition(BEGIN)
    _, ended, after = rest.partition(END)
    if not begun or not ended:
        raise ValueError("there is no place for the message")
    return "%s%s\n%s\n%s%s" % (before, BEGIN, made, END, after)


def main(words: list[str], usage: str) -> int:
    """Prints the block, or puts it into README; gives the exit status."""
    if words == ["--help"]:
        print(usage)
        return 0
    if words not in ([], ["--write"]):
        print(usage, file=sys.stderr)
        return 2
    try:
        with tempfile.TemporaryDirectory() as folder:
            mail, _ = sample(os.path.realpath(folder))
    except (Failed, OSError) as error:
        print("docs/message: %s" % error, file=sys.stderr)
        return 3
    made = block("Subject: " + mail)
    if not words:
        print(made, end="")
        return 0
    with open(PAGE, encoding="utf-8") as file:
        text = put(file.read(), made)
    with open(PAGE, "w", encoding="utf-8") as file:
        file.write(text)
    return 0
