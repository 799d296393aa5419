"""The links between pages: each leads to a file and to a title in it, in the repository and where
`./install` puts the pages. So do those to pictures, which have no titles."""
from __future__ import annotations

import glob
import os
import re
import subprocess
from typing import Iterator

from gate.commands import fail
from gate.repository import TOP

LINK = re.compile(r"\[[^]]*\]\(([^)\s]+)\)")
CODE = re.compile(r"(?ms)^```.*?^```|^    .*?$|`[^`\n]*`")
TITLE = re.compile(r"(?m)^#+ (.*)$")
# What is not of this repository.
ELSEWHERE = re.compile(r"[a-z]+:")


def looked_at() -> tuple[int, int]:
    """Says which links lead nowhere, as one check."""
    faults = [*lost(in_repository()), *lost(as_installed())]
    for fault in faults:
        fail(fault)
    return int(not faults), len(faults)


def in_repository() -> dict[str, str]:
    """The path of each page, by the path at which it is read."""
    pages = [os.path.relpath(page, TOP) for pattern in ["*.md", "*/*.md", "docs/*.png"]
             for page in glob.glob(os.path.join(TOP, pattern))]
    return {page: page for page in sorted(pages)}


def as_installed() -> dict[str, str]:
    """The same of the pages that `./install` puts below a folder."""
    said = subprocess.run([os.path.join(TOP, "install"), "--pages"], stdout=subprocess.PIPE,
                          check=True, text=True).stdout
    return {place: page for page, place in map(str.split, said.splitlines())}


def lost(pages: dict[str, str]) -> Iterator[str]:
    """The links of these pages that lead to none of them, or to no title of one."""
    texts = {place: text_of(page) for place, page in pages.items()}
    for place, text in texts.items():
        for link in links_of(text):
            path, _, title = link.partition("#")
            to = os.path.normpath(os.path.join(os.path.dirname(place), path)) if path else place
            if to not in texts:
                yield "%s links to %s, which is not there" % (place, link)
            elif title and title not in titles_of(texts[to]):
                yield "%s links to %s, and there is no such title" % (place, link)


def links_of(text: str) -> list[str]:
    """What a page links to, except what is elsewhere."""
    return [link for link in LINK.findall(CODE.sub("", text)) if not ELSEWHERE.match(link)]


def titles_of(text: str) -> set[str]:
    """The titles of a page, as links name them."""
    shown = (re.sub(r"[^\w\- ]", "", title.strip().lower()) for title in
             TITLE.findall(re.sub(r"(?ms)^```.*?^```", "", text)))
    return {title.replace(" ", "-") for title in shown}


def text_of(page: str) -> str:
    """The text of a page; a picture has none."""
    if page.endswith(".png"):
        return ""
    with open(os.path.join(TOP, page), encoding="utf-8") as file:
        return file.read()
