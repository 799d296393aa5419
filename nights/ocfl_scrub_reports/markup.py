"""Pieces of HTML for the pages, which need no other file and run no script. All texts are escaped
here."""
from __future__ import annotations

import re
from html import escape
from typing import Iterable, Sequence
from urllib.parse import unquote_to_bytes

from . import files
from .counts import OF_DIGESTS
from .status import WORDS

STYLE = """
:root { color-scheme: light dark; --bar: #36c; --line: #8888; --good: #187a50; --warn: #8a5a00;
  --bad: #b3261e; }
body { font: 1rem/1.5 system-ui, sans-serif; max-width: 70rem; margin: 2rem auto; padding: 0 1rem;
  overflow-wrap: anywhere; }
table { border-collapse: collapse; margin: 1rem 0; max-width: 100%; }
caption, h2, h3 { text-align: left; font-weight: 600; }
h3 { margin-bottom: 0; } h3 + p { margin-top: 0; }
th, td { border-bottom: 1px solid var(--line); padding: .2rem .8rem .2rem 0; text-align: left;
  vertical-align: top; overflow-wrap: break-word; }
caption { white-space: nowrap; } bdi { overflow-wrap: anywhere; }
tbody th { font-weight: normal; }
.number { text-align: right; } td.number, .time, .name { white-space: nowrap; }
.place, pre { white-space: pre-wrap; }
table .place { display: inline-block; max-width: 32rem; }
.findings { table-layout: fixed; width: 100%; } .findings .place { max-width: 100%; }
.findings thead th:nth-child(1) { width: 31%; } .findings thead th:nth-child(2) { width: 17%; }
.findings thead th:nth-child(3) { width: 3.2rem; }
.findings thead th:nth-child(5) { width: 7.5rem; }
.findings.open thead th:nth-child(1) { width: 45%; }
.byte { border: 1px solid; border-radius: .2em; padding: 0 .1em; margin: 0 .1em; font-size: .8em;
  font-family: monospace; }
svg { width: 100%; height: auto; max-width: 45rem; display: block; }
svg rect { fill: var(--bar); } svg .done { fill: var(--good); } svg .open { fill: var(--line); }
svg .bad { fill: var(--bad); }
svg text { fill: currentColor; font-size: 9px; } svg line { stroke: var(--line); }
.verdict { font-size: 1.2rem; }
.level { --of: #666; padding: .1rem .6rem; border-radius: .3rem; border: 2px solid var(--of);
  color: #fff; background: var(--of); font-weight: 600; }
.level.ok { --of: var(--good); } .level.warning { --of: var(--warn); }
.level.critical { --of: var(--bad); }
@media (prefers-color-scheme: dark) { :root { --bar: #8ad; } svg .done { fill: #5c9; }
  svg .bad { fill: #f88; } }
@media screen and (max-width: 45rem) {
  table { display: block; overflow-x: auto; } caption { display: block; white-space: normal; }
  .findings thead { display: none; }
  .findings, .findings tbody, .findings tr, .findings tbody th, .findings td { display: block; }
  .findings tbody th, .findings tbody td { border: 0; padding: 0; }
  .findings tr { border-bottom: 1px solid var(--line); padding: .3rem 0; }
}
@media print {
  :root { color-scheme: light; --bar: #36c; }
  @page { margin: 15mm; }
  body { max-width: none; margin: 0; padding: 0; font-size: 10pt; }
  .level[class] { color: var(--of); background: none; }
  h2, h3, caption { break-after: avoid; } h3 + p { break-after: avoid; }
  tr, svg { break-inside: avoid; } article { break-before: page; }
  thead { display: table-header-group; }
}
"""
# A browser runs and loads nothing, whatever stands on the page.
POLICY = ('<meta http-equiv="Content-Security-Policy" content="default-src \'none\'; '
          'style-src \'unsafe-inline\'">\n')
# A time as logs and statements have it.
TIME = re.compile("[0-9]{4}-[0-9]{2}-[0-9]{2}T[0-9:]{8}Z")
# The name of a file that belongs to a cycle.
NAME = re.compile("[a-z]{1,16}-[0-9]{6,12}([.][a-z]{1,8})?")
# How many digits of a digest are shown.
DIGITS = 12


class Markup(str):
    """A text that is HTML already."""


# Texts

def text(value: object) -> str:
    """A text as HTML. What would not be seen, or would change how others are shown, is written as
    its bytes, each as `%` and two digits in a frame: controls, marks of direction, bytes that are
    no UTF-8."""
    if isinstance(value, Markup):
        return value
    given = str(value)
    return escape(given) if given.isprintable() else "".join(
        escape(it) if it.isprintable() else framed(bytes_in(it)) for it in given)


def bytes_in(character: str) -> str:
    """The bytes of a character; of one that stands for a byte that is no UTF-8, that byte."""
    is_byte = "\udc80" <= character <= "\udcff"
    return "".join("%%%02X" % byte for byte in character.encode(
        "utf-8", "surrogateescape" if is_byte else "surrogatepass"))


def shown(escaped: bytes) -> Markup:
    """A text as reports write it, as it is. No mark of direction in it reaches beyond it."""
    return Markup("<bdi>%s</bdi>" % text(unquote_to_bytes(escaped).decode(
        "utf-8", "surrogateescape")))


def place(path: bytes) -> Markup:
    """A place as reports write it, with its names as they are. Spaces at the end of a name are
    written as bytes, since nobody would see them."""
    return Markup('<span class="place" dir="ltr">%s</span>' % "/<wbr/>".join(
        "%s%s" % (shown(it.rstrip(b" ")), framed("%20") * (len(it) - len(it.rstrip(b" "))))
        for it in (name.replace(b"%20", b" ") for name in path.split(b"/"))))


def framed(byte: str) -> str:
    return '<span class="byte">%s</span>' % byte


def detail(code: bytes, said: bytes) -> Markup:
    """The detail of a finding: of digests the first digits, else what it says, if anything."""
    if said == b"-" or code not in OF_DIGESTS:
        return Markup("") if said == b"-" else shown(said)
    algorithm, _, digests = said.partition(b" ")
    expected, _, found = digests.rpartition(b" ")
    if not expected:
        return Markup("expected a digest of %s" % shown(algorithm))
    return Markup("expected %s %s, found %s" % (shown(algorithm), cut(expected), cut(found)))


def cut(digest: bytes) -> str:
    return shown(digest) if len(digest) <= DIGITS else "%s.." % shown(digest[:DIGITS])


# Elements

def paragraph(value: object) -> str:
    return "<p>%s</p>\n" % text(value)


def listed(values: Iterable[object]) -> str:
    made = "".join("<li>%s</li>" % text(it) for it in values)
    return "<ul>%s</ul>\n" % made if made else ""


def table(caption: str, heads: Sequence[str], rows: Iterable[Sequence[object]],
          kind: str = "") -> str:
    """A table. One of findings, as `kind` says, has columns of the same widths as others. The head
    of a column of numbers stands above their last digits."""
    rows = list(rows)
    head = "".join('<th scope="col"%s>%s</th>' % (
        ' class="number"' if any(isinstance(row[at], int) for row in rows if at) else "",
        text(name)) for at, name in enumerate(heads))
    body = "".join('<tr><th scope="row"%s>%s</th>%s</tr>\n' % (
        kind_of(first), text(first), "".join(map(cell, others))) for first, *others in rows)
    return ("<table%s>%s\n<thead><tr>%s</tr></thead>\n<tbody>%s</tbody></table>\n" % (
        ' class="%s"' % kind if kind else "",
        "<caption>%s</caption>" % text(caption) if caption else "", head, body))


def cell(value: object) -> str:
    if isinstance(value, int):
        return '<td class="number">{:,}</td>'.format(value)
    return "<td%s>%s</td>" % (kind_of(value), text(value))


def kind_of(value: object) -> str:
    """The attribute of a cell that is not broken into lines: a time, or the name of a file of the
    state folder."""
    kind = "time" if TIME.fullmatch(str(value)) else "name" if NAME.fullmatch(str(value)) else ""
    return kind and ' class="%s"' % kind


def section(name: str, *content: str) -> str:
    made = "".join(content)
    return "<section><h2>%s</h2>\n%s</section>\n" % (text(name), made) if made else ""


def badge(number: int) -> Markup:
    """How grave it is as a word, in a frame and a colour of its own."""
    return Markup('<span class="level %s">%s</span>' % (WORDS[number].lower(), WORDS[number]))


def level(number: int, reasons: Iterable[object]) -> str:
    """How grave it is, and why."""
    return "<p class=\"verdict\">%s</p>\n%s" % (badge(number), listed(reasons))


def write(title: str, body: str) -> None:
    """Writes a page to standard output."""
    page = ('<!DOCTYPE html>\n<html lang="en">\n<head>\n<meta charset="utf-8">\n%s<meta name='
            '"viewport" content="width=device-width">\n<title>%s</title>\n<style>%s</style>\n'
            '</head>\n<body>\n<main>\n%s</main>\n</body>\n</html>\n'
            % (POLICY, text(title), STYLE, body))
    out = files.spool()
    out.write(page.encode("ascii", "xmlcharrefreplace"))
    files.pour(out)
