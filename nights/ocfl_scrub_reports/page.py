"""A page in HTML that shows how the nights of a storage root are going. It needs no other file and
runs no script."""
from __future__ import annotations

import math
import os
from dataclasses import dataclass
from typing import Iterable, Sequence

from . import files, markup, questions
from .counts import CHANGES, Before, of_changes
from .log import Closing, Entry
from .markup import Markup, detail, place, section, shown, table, text
from .shared import many, many_are
from .standing import kinds_gone, kinds_moved
from .state import NOT_KNOWN, State, cycle_name
from .statement import Statement, plain
from .status import Log, Root, Standing, with_reason, worst_of
from .units import SIZES, SPANS, Units, measured, size, span, unit_of
from .weights import Weights

SHOWN = 200
# What the words of a list of what is gone stand for.
LOST = {b"undeclared": "object, no longer declared", b"expected": "expected object, missing"}
# What CHANGES count.
HEADS_OF_CHANGES = ("new", "with another detail", "no longer there", "not looked at again")
# What the status of a night means.
RESULTS = {"0": ", no finding", "1": ", findings", "cut": ""}
NIGHTS = 60


@dataclass
class Night:
    """What one night read, how long its runs took, and its status, if it has ended."""
    bytes: int = 0
    seconds: int = 0
    status: str = "cut"

    def has_failed(self) -> bool:
        return self.status not in ("0", "1", "under way")


def nights_of(entries: Iterable[Entry]) -> list[tuple[str, Night]]:
    """The last nights, by when they began; several may have begun in one second."""
    found: dict[tuple[str, int], Night] = {}
    begun = 0
    for entry in entries:
        begun += entry.kind == "began" and not entry.of_part
        if entry.is_run() or entry.kind == "told":
            night = found.setdefault((entry.night, 0 if entry.of_part else begun), Night())
            night.bytes += entry.cost * entry.is_run()
            night.seconds += entry.seconds * entry.is_run()
            refused = entry.kind if entry.is_run() and entry.cycle == 0 else ""
            night.status = entry.status or refused or night.status
    return [(began, night) for (began, _), night in found.items()][-NIGHTS:]


# Plots

def plot(title: str, height: int, drawn: Iterable[str]) -> str:
    return '<p>%s</p>\n<svg viewBox="0 0 600 %d" role="img" aria-label="%s">%s</svg>\n' % (
        text(title), height, text(title), "".join(drawn))


def steps_to(most: float) -> list[float]:
    """Round numbers from 0 on, in equal steps: two to four of them above 0, of which the last one
    is the first that is not below `most`."""
    power = 10.0 ** math.floor(math.log10(most))
    step = next(it * power for it in (0.5, 1, 2, 5) if most <= 4 * it * power)
    return [at * step for at in range(math.ceil(most / step) + 1)]


def bars(title: str, values: Sequence[tuple[str, float, bool]], units: Units) -> str:
    """A plot of bars over a scale: the name and the value of each, in the least unit, and whether
    its night failed, which an x above the bar says."""
    most = max((value for _, value, _ in values), default=0)
    if most <= 0:
        return ""
    of_unit, unit = unit_of(most, units)
    steps = steps_to(most / of_unit)
    width, scale = 530 / max(len(values), 12), 80 / steps[-1] / of_unit
    lines = ['<line x1="0" x2="530" y1="%.1f" y2="%.1f"/><text x="535" y="%.1f">%s</text>' % (
        at, at, at + 3, text("%g %s" % (step, unit)))
        for step in steps for at in [110 - scale * of_unit * step]]
    ends = ['<text x="0" y="122">%s</text>' % text(values[0][0][:10])]
    if len(values) > 2:
        ends.append('<text x="%.1f" y="122" text-anchor="%s">%s</text>' % (
            max(len(values) * width, 100), "end" if len(values) > 3 else "start",
            text(values[-1][0][:10])))
    return plot(title, 126, [*lines, *ends, *(
        '<text x="%.1f" y="%.1f" text-anchor="middle">x</text>' % (
            (at + 0.4) * width, 107 - scale * value)
        for at, (_, value, is_bad) in enumerate(values) if is_bad), *(
        '<rect%s x="%.1f" y="%.1f" width="%.1f" height="%.1f"><title>%s: %s</title></rect>' % (
            ' class="bad"' * is_bad, at * width, 110 - scale * value, width * 0.8, scale * value,
            text(name), text(measured(value, units)))
        for at, (name, value, is_bad) in enumerate(values))])


def strip(done: Sequence[bool]) -> str:
    """A strip of parts, which shows which are done."""
    width = 600 / max(len(done), 1)
    return plot("%d of %s done" % (sum(done), many_are(len(done), "part")), 20, (
        '<rect class="%s" x="%.2f" width="%.2f" height="20"/>' % (
            "done" if it else "open", at * width, width * 0.9)
        for at, it in enumerate(done))) if done else ""


# Sections

def about_cycle(state: State, standing: Standing) -> str:
    log = standing.log
    if not log.night:
        return ""
    facts: list[tuple[str, str]] = [("cycle", "none" if log.cycle is None else str(log.cycle)),
             ("files read", "{:,}".format(log.files)),
             ("bytes read", size(log.spent - log.files)),
             ("nights so far" if log.is_open else "nights", str(log.count_nights())),
             ("the last night began", log.night),
             ("status of the last night", log.status + RESULTS.get(log.status, "")
              + (", under way" if log.is_under_way else ""))]
    if log.is_open:
        facts += about_progress(standing)
    if log.cycle in log.left_out:
        facts.append(("left out", shown(files.bytes_of("; ".join(
            with_reason(*it) for it in log.left_out[log.cycle].items())))))
    parts = [not log.is_open or any(it.cycle == log.cycle for it in state.closed_of_part(part))
             for part in state.folders()]
    return section("The open cycle" if log.is_open else "The last cycle",
                   table("Progress", ("what", "value"), facts), strip(parts))


def about_progress(standing: Standing) -> list[tuple[str, str]]:
    """How far the open cycle is, and how much is left of it, as far as that is known."""
    log, facts = standing.log, []  # type: Log, list[tuple[str, str]]
    if log.place:
        facts.append(("place reached, in the order of names", place(files.bytes_of(log.place))))
    if standing.done is None:
        return facts + [("how much is left", standing.why_not_reckoned())]
    facts.append(("done, by what the cycle before read", "%d %%" % standing.done))
    read = log.closing.read_bytes
    facts.append(("how much is left", "%d %%%s" % (100 - standing.done, "" if read is None else (
        ", about %s" % size(max(0, read - (log.spent - log.files)))))))
    facts.append(("nights left", NOT_KNOWN if standing.left is None else str(standing.left)))
    return facts


def about_nights(nights: list[tuple[str, Night]], is_under_way: bool) -> str:
    """The last nights. The last one of all may be under way."""
    if nights and is_under_way:
        nights[-1][1].status = "under way"
    rows = [(began, size(it.bytes), span(it.seconds),
             size(it.bytes / it.seconds) + "/s" if it.seconds else "",
             it.status + RESULTS.get(it.status, ", failed" if it.has_failed() else ""))
            for began, it in reversed(nights)]
    plots = [bars("How much each night read", [
        (began, it.bytes, it.has_failed()) for began, it in nights], SIZES),
        bars("How long each night read", [(began, it.seconds, it.has_failed())
                                          for began, it in nights], SPANS)]
    has_failed = any(plots) and any(it.has_failed() for _, it in nights)
    return section(
        "Nights", *plots, markup.paragraph("A night with an x above its bar was cut, or failed.")
        if has_failed else "",
        table("The last nights", ("began", "read", "in", "speed", "status"), rows)
        if rows else "")


def about_findings(standing: Standing) -> str:
    found = standing.found
    words_of = Weights()
    rows: list[list[str]] = []
    gone: list[tuple[str, str]] = []
    for line in questions.lines_of(found.listed):
        words = line.split(b"\t")
        if len(words) == 3 and len(rows) < SHOWN:
            rows.append([place(words[1]), words_of.meaning(*words), words[0].decode(),
                         detail(words[0], words[2])])
        elif len(words) == 2 and len(gone) < SHOWN:
            gone.append((LOST.get(words[0], words[0].decode()), place(words[1])))
    left = standing.open + standing.gone - len(rows) - len(gone)
    more = "<p>and {:,} more, which status --list has</p>\n".format(left) if left > 0 else ""
    unknown = "<p>What %s is not known: %s</p>\n" % (
        "else is gone" if standing.gone else "is gone", text(standing.unknown))
    return section(
        "What is open",
        "" if standing.are_said else "<p>%s</p>\n" % text(standing.findings_text()),
        table("Open findings", ("place", "what", "code", "detail"), rows, "findings open")
        if rows else "",
        table("Gone and not back", ("what", "place"), gone) if gone else "",
        unknown if standing.unknown else "", more)


def about_changes(state: State) -> str:
    """How the findings of the last closed report differ from those of the one before."""
    closed = [it.path for it in state.closed()][-2:]
    if len(closed) < 2:
        return ""
    facts = of_changes(questions.findings_in(closed[1]), closed[1], Before(closed[0]))
    return section("Since the cycle before", table(
        "Findings of %s beside those of %s" % tuple(map(os.path.basename, reversed(closed))),
        HEADS_OF_CHANGES, [[facts[name] for name in CHANGES]]))


def about_cycles(state: State, standing: Standing) -> str:
    ended = {it.cycle: it for it in state.entries(True) if it.closing}
    closings = standing.log.comparisons.closings
    rows = [(cycle, it.began if closings[cycle].is_logged else NOT_KNOWN,
             *of_statement(state, cycle), "yes" if closings[cycle].is_whole else "no",
             gone_text(state, cycle, closings[cycle]), back_text(closings[cycle]), cycle_name(
                 "statement", cycle) if state.find("statement", cycle) else "none")
            for cycle, it in sorted(ended.items(), reverse=True)[:SHOWN]]
    return section("Closed cycles", table("Their reports and statements lie in %s" % plain(
        "", state.reports), ("cycle", "closed", "files found right", "bytes found right", "whole",
                             "gone", "back", "statement"), rows) if rows else "")


def of_statement(state: State, cycle: int) -> tuple[int | str, str]:
    """How many files and bytes a cycle found right, by its statement."""
    path = state.find("statement", cycle)
    said = Statement.read(path) if path else Statement()
    count, sizes = (said.get(name, "") for name in ("Files found right", "Bytes found right"))
    return (int(count) if count.isdecimal() else NOT_KNOWN,
            size(int(sizes)) if sizes.isdecimal() else NOT_KNOWN)


def gone_text(state: State, cycle: int, closing: Closing) -> str:
    """What was gone when a cycle was closed."""
    listed = state.find("gone", cycle)
    kinds = kinds_gone(listed) + kinds_moved(listed)
    gone = [many(kinds[word], name) + more for word, name, more in (
        (b"object", "object", ""), (b"undeclared", "object", " no longer declared"),
        (b"file", "file", ""), (b"expected", "expected object", " missing"),
        (b"changed", "object", " changed without a new version"),
        (b"older", "object", " gone back to an older version")) if kinds[word]]
    if closing.unlooked:
        gone.append(many(closing.unlooked, "file") + " no longer looked at")
    why = closing.why_not_compared(cycle)
    return ", ".join(gone + ["not known: " + why] * bool(why)) or "nothing"


def back_text(closing: Closing) -> str:
    """How many objects were back when a cycle was closed."""
    if closing.back is None or not closing.compared:
        return NOT_KNOWN
    return many(closing.back, "object") if closing.back else "nothing"


def about_root(root: Root) -> str:
    """All that is said of one storage root."""
    if root.state is None or root.standing is None:
        return markup.level(3, [root.error])
    state, standing = root.state, root.standing
    return "".join([
        markup.level(standing.level, standing.reasons), about_cycle(state, standing),
        about_findings(standing), about_changes(state),
        about_nights(nights_of(state.entries(True)), standing.log.is_under_way),
        about_cycles(state, standing)])


def about_all(roots: Sequence[Root]) -> str:
    """A table of several storage roots, each with the place on the page where more is said."""
    rows = [(Markup('<a href="#root-%d">%s</a>' % (at, text(it.root))), markup.badge(it.level),
             *in_short(it.standing)) for at, it in enumerate(roots, 1)]
    return table("The storage roots", ("root", "state", "open findings", "gone", "last night",
                                       "cycle"), rows)


def in_short(standing: Standing | None) -> tuple[object, ...]:
    if standing is None:
        return NOT_KNOWN, NOT_KNOWN, NOT_KNOWN, NOT_KNOWN
    log = standing.log
    done = "" if standing.done is None else ", %d %% done" % standing.done
    return (standing.open, standing.gone if standing.gone or not standing.unknown else NOT_KNOWN,
            log.night or "never", "none" if log.cycle is None else "%d %s%s" % (
                log.cycle, "is open" if log.is_open else "has ended", done))


def show(roots: Sequence[Root], now: str) -> None:
    """Writes a page about one storage root, or several, to standard output."""
    as_of = markup.paragraph("As of %s" % now)
    if len(roots) == 1:
        name = roots[0].root
        markup.write("Fixity of " + plain("", name), "<h1>Fixity of %s</h1>\n%s%s" % (
            text(name), as_of, about_root(roots[0])))
        return
    name = many(len(roots), "storage root")
    body = "".join('<article id="root-%d">\n<h1>%s</h1>\n%s</article>\n' % (
        at, text(it.root), about_root(it)) for at, it in enumerate(roots, 1))
    markup.write("Fixity of " + name, "<h1>Fixity of %s</h1>\n%s%s%s%s" % (
        name, as_of, markup.level(worst_of(roots), []), about_all(roots), body))
