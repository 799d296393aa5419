#!/usr/bin/env python3
"""Looks at the pages of `ocfl-scrub-reports page` and `cycle` in a browser (Chromium): what it makes
of hostile names, whether a page is wider than its window, and what it prints.

usage: browser.py [PART]...

The folders of state are written by hand.

Seen to fail on these faults, each planted alone:

- A page shows a name as markup, or a mark of direction as it is: elements that the page does not
  have, and other texts.
- A page without its policy: a script that is put into it runs.
- A long name is not broken into lines, or a wide table not shown in a frame of its own on a narrow
  screen: the page is wider than its window.
- A row of each table is hidden: the print lacks it.
"""
import html.parser
import os
import re

import common
from common import PROGRAM, TOP, check, digest
from shared.nights import tried_apart
from shared.states import State, ask, escaped, line, program, ran, read, write

# Names of files, and as a page shows them: frames as brackets.
RUNS = "document.title='ran'"
NAMES = [("<script>%s</script>" % RUNS,) * 2, ("\"><img src=x onerror=\"%s\">" % RUNS,) * 2,
         ("'><svg onload=%s>" % RUNS,) * 2, ("</td></table></main><b>",) * 2, ("it's \"so\"",) * 2,
         ("&amp;&lt;i&gt;",) * 2, ("\u202egpj.exe", "[%E2%80%AE]gpj.exe"),
         ("\u2066a\u2069b", "[%E2%81%A6]a[%E2%81%A9]b"), ("Mu\u0308ller.pdf",) * 2,
         ("M\xfcller.pdf",) * 2, ("a\nb\tc", "a[%0A]b[%09]c"), ("L" * 200,) * 2,
         ("\u65e5\u672c\u8a9e.txt",) * 2, ("two  spaces ", "two  spaces[%20]"),
         ("100% fertig.txt",) * 2, ("\x1b[31mred", "[%1B][31mred"), ("a-" * 100,) * 2]
ONE, TWO = (digest(it, "sha512") for it in (b"1", b"2"))
# The elements of a page, whatever its names are.
ELEMENTS = {"html", "head", "meta", "title", "style", "body", "main", "section", "h1", "h2", "h3",
            "p", "ul", "li", "table", "caption", "thead", "tbody", "tr", "th", "td", "span", "bdi",
            "wbr", "pre", "svg", "rect", "line", "text", "article", "a"}
NOW = ["--now", "2026-08-01T05:00:00Z"]
# What a browser says of a page by its title: by how much it is wider than its window.
WIDER = ("<script>document.title = document.documentElement.scrollWidth"
         " - document.documentElement.clientWidth</script>")


class Shown(html.parser.HTMLParser):
    """A page as the browser has it: its text, with brackets for frames and `|` after a cell, its
    elements, and its title."""

    def __init__(self, page):
        super().__init__()
        self.text, self.title, self.elements, self.inside = "", "", set(), []
        self.feed(page)
        self.close()

    def handle_starttag(self, tag, attrs):
        self.elements.add(tag)
        if tag not in ("meta", "wbr"):
            self.inside.append((tag, dict(attrs).get("class")))
        self.text += "[" * (self.inside[-1:] == [("span", "byte")])

    def handle_endtag(self, tag):
        last = self.inside.pop() if self.inside else ("", "")
        self.text += "]" * (last == ("span", "byte")) + "|" * (tag in ("td", "th"))

    def handle_data(self, data):
        if self.inside and self.inside[-1][0] == "title":
            self.title = self.title or data
        elif not self.inside or self.inside[-1][0] != "style":
            self.text += data


def browse(folder, page, *words):
    """What the browser writes about a page."""
    path = write(folder + "/page.html", page)
    call = ["chromium", "--headless", "--no-sandbox", "--disable-gpu",
            "--user-data-dir=" + folder + "/profile", *words, "file://" + path]
    return ran(call)[1]


def shown(folder, page):
    return Shown(browse(folder, page, "--dump-dom"))


def looked_at(name, folder, page):
    """What the browser makes of a page. It has no element of a name, runs no script, and is not
    wider than a window of a screen or of a telephone."""
    made = shown(folder, page)
    check(name + " has no element of a name", made.elements - ELEMENTS, set())
    check(name + " runs nothing", made.title != "ran" and made.title != "", True)
    put = page.replace("</body>", "<script>%s</script></body>" % RUNS)
    check(name + " has a policy against scripts", shown(folder, put).title, made.title)
    free = re.sub("<meta http-equiv[^>]*>", "", page).replace("</body>", WIDER + "</body>")
    for width in (1100, 500):
        wider = Shown(browse(folder, free, "--window-size=%d,900" % width, "--dump-dom")).title
        check("%s in a window of %d" % (name, width), wider, "0")
    return made


def printed(folder, page):
    """The text of a page as it is printed."""
    browse(folder, page, "--no-pdf-header-footer", "--print-to-pdf=" + folder + "/page.pdf")
    return ran(["pdftotext", "-layout", folder + "/page.pdf", "-"])[1]


def pages_of(state, cycle, folder):
    """Both pages of a folder, after its statements are made."""
    made = program(folder)
    for number in range(1, cycle + 1):
        check("statement %d" % number, ask("statement", state.path, number, OCFL_SCRUB=made)[::2],
              (0, ""))
    both = ask("page", *NOW, state.path), ask("cycle", state.path, cycle)
    check("pages", [(status in (0, 1, 2), said) for status, _, said in both], [(True, "")] * 2)
    return [page for _, page, _ in both]


def picture(folder):
    """The picture of README can be made anew."""
    made = folder + "/page.png"
    check("docs/picture", ran([TOP + "/docs/picture", made], OCFL_SCRUB=PROGRAM, TMPDIR=folder),
          (0, "", ""))
    with open(made, "rb") as file:
        check("a picture", file.read(8), b"\x89PNG\r\n\x1a\n")


def hostile(folder):
    """Names that would be markup, and those that would change how others are shown."""
    state = State(folder + "/state", "/srv/<b onclick=%s>\u202e\"&amp;" % RUNS)
    places = sorted(escaped("o/v1/content/" + name) for name, _ in NAMES)
    state.night("2026-07-01T22:00:00Z", 1, 4, closes={"lines": [line("ok", "."), line("ok", "o"), *(
        line("ok", it, "3") for it in places)]})
    state.row(row="left", time=1, night=1785535200, cycle=2, place=escaped("z/<i>"),
              why="it holds a name that is not UTF-8: M\\xFC<b>")
    state.night("2026-07-31T22:00:00Z", 2, 4, 3, closes={
        "lines": [line("ok", "."), line("ok", "o"), *(
            line("E092", it, "sha512 %s %s" % (ONE, TWO)) for it in places)],
        "whole": False, "compared": 1, "left": 1, "new": len(places),
        "gone": "".join(sorted("object\t%s\n" % escaped("p/" + name) for name, _ in NAMES))})
    for name, page in zip(("page", "cycle"), pages_of(state, 2, folder)):
        text = looked_at(name, folder, page).text
        check(name + " has the names", [it for _, it in NAMES if "v1/content/%s|bytes have changed|"
                                        "E092|" % it not in text], [])
        check(name + " has what is gone", [it for _, it in NAMES
                                           if "object|p/%s|" % it not in text], [])
        check(name + " has the root and what was left out", [it for it in [
            "/srv/<b onclick=%s>[%%E2%%80%%AE]\"&amp;" % RUNS, "z/<i>", "M\\xFC<b>"]
                                                             if it not in text], [])


def history(folder):
    """Thirty cycles: all that is on the pages is printed, and the nights have a scale."""
    state, nights = State(folder + "/state"), []
    for cycle in range(1, 31):
        nights.append("2026-07-%02dT22:00:00Z" % cycle)
        gone = "object\tgone-at-12\n" if cycle == 12 else ""
        state.night(nights[-1], cycle, cycle * 10 ** 11, closes={"gone": gone, "lines": [
            line("ok", "."), line("ok", "o"), line("ok", "o/v1/content/a", cycle)]})
    page, cycle = pages_of(state, 30, folder)
    text = looked_at("page", folder, page).text
    check("the scales", [it for it in ["0 TB", "3 TB", "0 min", "1 min"] if it not in text], [])
    looked_at("cycle", folder, cycle)
    check("a state in its colour", 'class="level critical">CRITICAL' in page, True)
    text = printed(folder, page)
    check("all is printed", [it for it in [*nights, "gone-at-12", *(
        "statement-%06d" % it for it in range(1, 31))] if it not in text], [])
    check("on several pages", text.count("\f") > 1, True)
    lines = read(state.path + "/reports/statement-000030").splitlines()
    text = "".join(printed(folder, cycle).split())
    check("the statement is printed", [it for it in lines if "".join(it.split()) not in text], [])


def nothing_yet(folder):
    """No night, and a first cycle over a root without objects."""
    state = State(folder + "/state")
    page = ask("page", *NOW, state.path)[1]
    check("no night", [it for it in ["UNKNOWN", "no night has run"]
                       if it not in looked_at("page", folder, page).text], [])
    check("and no status of one", "no finding|" in shown(folder, page).text, False)
    state.night("2026-07-31T22:00:00Z", 1, 0, closes={"lines": [line("ok", ".")]})
    page, cycle = pages_of(state, 1, folder)
    looked_at("page", folder, page)
    check("no object", [it for it in ["OK", "nothing was there to read", "there is no earlier cycle"]
                        if it not in looked_at("cycle", folder, cycle).text], [])


def several(folder):
    """A page of several roots, one of which nobody can say anything of."""
    states = [State(folder + "/" + name, "/srv/" + name) for name in ("<b>", "b")]
    for state in states:
        state.night("2026-07-31T22:00:00Z", 1, 4, closes={"lines": [line("ok", ".")]})
    status, page, said = ask("page", *NOW, *(it.path for it in states), folder + "/none")
    check("one page", (status, said), (0, ""))
    text = looked_at("page", folder, page).text
    check("of each", [it for it in ["/srv/<b>|OK|0|", "/srv/b|OK|0|", "/none|UNKNOWN|not known|"]
                      if it not in text], [])
    check("each from a new sheet on", printed(folder, page).count("\f") > 2, True)


def check_all(folder):
    os.environ.pop("DISPLAY", None)
    tried_apart([picture, hostile, history, nothing_yet, several], folder)


# A browser is large, and most machines of a gate have none.
common.run_trial(check_all, wants=["chromium", "pdftotext"])
