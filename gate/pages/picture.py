"""The picture of README: the page on nights, as Chromium shows it. The script `docs/picture`."""
from __future__ import annotations

import os
import shutil
import subprocess
import sys
import tempfile

from gate.pages import message

BROWSERS = ("chromium", "chromium-browser", "google-chrome")
# The size of the window, and the most bytes of the picture.
SIZE = (820, 890)
MOST_BYTES = 80000


class Failed(Exception):
    """Ends the command with a text."""


def shot(folder: str, page: str) -> bytes:
    """What the browser shows of a page."""
    browser = next(filter(None, map(shutil.which, BROWSERS)), None)
    if browser is None:
        raise Failed("Chromium is not there (Debian: chromium)")
    path, made = os.path.join(folder, "page.html"), os.path.join(folder, "page.png")
    with open(path, "w", encoding="utf-8") as file:
        file.write(page)
    done = subprocess.run(
        [browser, "--headless", "--no-sandbox", "--disable-gpu", "--hide-scrollbars",
         "--disable-lcd-text", "--user-data-dir=" + folder + "/profile",
         "--window-size=%d,%d" % SIZE, "--screenshot=" + made, "file://" + path],
        stdout=subprocess.PIPE, stderr=subprocess.STDOUT, timeout=120, check=False)
    if not os.path.isfile(made):
        raise Failed("%s made no picture: %s" % (browser, done.stdout.decode()[-300:]))
    with open(made, "rb") as picture:
        return picture.read()


def main(words: list[str], usage: str) -> int:
    """Makes the picture; gives the exit status."""
    if words == ["--help"]:
        print(usage)
        return 0
    if len(words) != 1 or words[0].startswith("-"):
        print(usage, file=sys.stderr)
        return 2
    try:
        with tempfile.TemporaryDirectory() as folder:
            _, page = message.sample(os.path.realpath(folder))
            made = shot(folder, page)
        if len(made) > MOST_BYTES:
            raise Failed("the picture has %d bytes, and at most %d are good" % (
                len(made), MOST_BYTES))
        with open(words[0], "wb") as file:
            file.write(made)
    except (Failed, message.Failed, OSError, subprocess.TimeoutExpired) as error:
        print("docs/picture: %s" % error, file=sys.stderr)
        return 3
    return 0
