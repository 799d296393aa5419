"""A closed cycle as one page of HTML, to be filed or printed: what was read, what was found, what
is gone or back, what was not looked at, and its statement."""
from __future__ import annotations

import os
from collections import Counter
from itertools import islice
from typing import Iterable, Iterator, NamedTuple

from . import files, markup, questions, standing
from .counts import Digests, beside, former
from .markup import Markup, detail, paragraph, place, section, shown, table, text
from .objects import id_of, in_one_form, is_root
from .report import Line, Reading, is_within, lines_at
from .shared import Failed, many, many_are, many_were, refuse_links
from .state import NOT_KNOWN, State, cycle_name
from .statement import MOVED, Statement, cycle_of, kind_of, plain
from .verify import GUESSED, LIST_OF_GONE, Check
from .units import size
from .weights import Weights

# So many rows of one kind are shown.
SHOWN = 1000
LOST = {b"object": "object", b"undeclared": "object, no longer declared", b"file": "file",
        b"expected": "expected object, missing"}
# The lines of a statement on losses: of this cycle, and what is said of them.
GONE = [("Objects gone", "object", "gone"), ("Objects no longer declared", "object",
                                             "no longer declared"),
        ("Files gone", "file", "gone"), ("Expected objects missing", "expected object", "missing")]
NOT_BACK = ["Objects gone and not back", "Objects no longer declared, and not back",
            "Files gone and not back"]
# Those on objects whose root inventory is another one; the first two are grave.
REWRITTEN = list(MOVED)
OTHER_FORM = ": the name of a missing file in another form of Unicode"


class Found(NamedTuple):
    """A finding, its weight, and the object that it is in: empty if in none."""
    line: Line
    weight: bytes
    object: bytes


class Findings:
    """The most serious findings of a report, in its order, and how many there are of each
    weight."""

    def __init__(self, report: str, weights: Weights, undeclared: set[bytes],
                 digests: Digests) -> None:
        self.of_weight: dict[bytes, list[Found]] = {}
        self.count: Counter[bytes] = Counter()
        # How many files are damaged or unreadable, each of which can have several findings.
        self.grave_files, self.last_grave = 0, b""
        # How many there are of each code and meaning.
        self.of_meaning: Counter[tuple[str, str]] = Counter()
        words = Weights()
        of_object = b""
        for line in Reading(report, digests.take).apart():
            if weights.is_of_object(*line[1:]):
                of_object = line.path
            if line.is_finding():
                within = of_object if of_object and is_within(line.path, of_object) else (
                    object_above(line.path, undeclared))
                self.add(Found(line, weights.weight(line.text()), within))
                self.of_meaning[line.code.decode(), words.meaning(*line[1:])] += 1
        held = (it for weight in sorted(self.of_weight) for it in self.of_weight[weight])
        self.shown = sorted(islice(held, SHOWN), key=lambda it: it.line.number)
        self.all = sum(self.count.values())

    def add(self, found: Found) -> None:
        self.count[found.weight] += 1
        if found.weight == b"1":
            self.grave_files += found.line.path != self.last_grave
            self.last_grave = found.line.path
        held = self.of_weight.setdefault(found.weight, [])
        if len(held) < SHOWN:
            held.append(found)

    def by_object(self) -> list[tuple[bytes, list[Found]]]:
        """The shown ones by their objects, the object with the most serious one first."""
        made: dict[bytes, list[Found]] = {}
        for it in self.shown:
            made.setdefault(it.object, []).append(it)
        return sorted(made.items(), key=lambda it: min(one.weight for one in it[1]))


def object_above(path: bytes, objects: set[bytes]) -> bytes:
    """The object of these at or above a place; empty if none of them is."""
    while path not in objects and b"/" in path:
        path = path[:path.rindex(b"/")]
    return path if path in objects else b""


class Page:
    """What a page says of one cycle. Fails if it has no statement, or if that does not hold."""

    def __init__(self, state: State, cycle: int, weights: Weights) -> None:
        self.state, self.cycle = state, cycle
        self.said = Statement.of(state, cycle)
        self.report = self.said.report_beside(state.reports)
        self.is_whole = self.said.get("Whole") == "yes"
        self.words = Weights()
        self.root = state.bound_to("root")
        self.check = Check(state.find("statement", cycle) or "", self.report)
        # What statements of earlier forms say of losses was guessed.
        self.is_guessed = self.check.guesses
        self.gone = self.gone_now()
        undeclared = {it.partition(b"\t")[2] for it in self.gone or ()
                      if it.startswith(b"undeclared\t")}
        digests = Digests(state.marks(cycle) if self.is_whole else None)
        self.findings = Findings(self.report, weights, undeclared, digests)
        if digests.text() != self.said.get("Report SHA-256") or not digests.is_as_closed():
            raise Failed("%s was changed since it was closed" % self.report)
        self.check.find_facts()
        self.check.compare()
        if self.check.differences:
            raise Failed("%s does not hold: %s" % (self.check.path, self.check.differences[0]))
        self.earlier, self.why_no_earlier = self.find_earlier()

    def gone_now(self) -> list[bytes] | None:
        """What is gone since the cycle before, and expected objects that are missing, as lines of
        the list; None if that is not there any more."""
        path, digest = self.state.find("gone", self.cycle), self.said.get(LIST_OF_GONE, "")
        if path is None:
            return None if len(digest) == 64 else []
        if files.digest_of(path) != digest:
            raise Failed("%s was changed since the statement was made" % path)
        return [*standing.losses_in(path),
                *(it for it in files.lines(path) if it.startswith(standing.EXPECTED))]

    def find_earlier(self) -> tuple[str | None, str]:
        """The report that this one was compared with, or why its lines are not known."""
        compared = self.said.get("Compared with cycle", NOT_KNOWN)
        if not compared.isdecimal() or self.is_guessed:
            return None, self.why_not_compared()
        path = self.state.find_report(int(compared))
        why = "" if path else "the report of cycle %s is not there any more" % compared
        return path, why

    def why_not_compared(self) -> str:
        compared = self.said.get("Compared with cycle", NOT_KNOWN)
        if self.is_guessed:
            return "a statement of its form does not say whether anything was compared"
        if "," in compared:
            return "its parts were compared with the cycles " + compared
        return self.said.get("Not compared") or (
            "the log does not say what it was compared with")

    def number(self, name: str) -> int | None:
        """A count of the statement; None if it is not known."""
        value = self.said.get(name, "").removeprefix("at least ")
        if self.is_guessed and name in GUESSED:
            return None
        return int(value) if value.isdecimal() else None

    def number_text(self, name: str, why: str) -> str:
        """A count of the statement, or why it is not known."""
        count = self.number(name)
        at_least = "at least " * self.said.get(name, "").startswith("at least ")
        return not_known(why) if count is None else "%s%s" % (at_least, "{:,}".format(count))

    # How grave it is

    def level(self) -> int:
        """0 if all is well, 2 if bytes or objects are lost, and else 1."""
        lost_objects = [name for name, kind, _ in GONE if kind == "object"] + NOT_BACK[:2]
        if self.findings.count.get(b"1") or any(map(self.number, lost_objects)):
            return 2
        losses = [name for name, _, _ in GONE] + NOT_BACK + REWRITTEN[:2]
        is_unknown = self.number("Objects gone") is None and self.cycle > 1
        return int(bool(self.findings.all or not self.is_whole or is_unknown
                        or self.number("Broken lines") or any(map(self.number, losses))))

    def reasons(self) -> Iterator[str]:
        """What came of the cycle, a sentence each."""
        right, objects = self.number("Files found right") or 0, self.number("Objects") or 0
        grave = self.findings.grave_files
        if self.findings.all:
            more = ", " + many(grave, "damaged or unreadable file") if grave else ""
            yield many(self.findings.all, "finding") + more
        elif not objects and not right and self.is_whole:
            yield "Nothing was found, and nothing was there to read: the report has no object"
        else:
            yield "Nothing was found%s: %s of %s %s read to the end, and %s right" % (
                "" if self.is_whole else " where it looked", many(right, "content file"),
                many(objects, "object"), *(("was", "is") if right == 1 else ("were", "are")))
        yield from self.loss_reasons()
        if not self.is_whole:
            yield "The report is not whole: " + self.why_not_whole()

    def loss_reasons(self) -> Iterator[str]:
        counts = [(self.number(name), name, kind, state) for name, kind, state in GONE]
        yield from ("%s %s" % (many_are(count, kind), state)
                    for count, _, kind, state in counts if count)
        if self.number("Objects gone") is None:
            yield "What %s is not known: %s" % ("else is gone" if any(
                count for count, *_ in counts) else "is gone", self.why_not_compared())
        elif not any(count for count, *_ in counts):
            yield self.nothing_gone()
        yield from ("%s: %s" % (name, self.said[name]) for name in REWRITTEN if self.number(name))
        before = len(list(islice(self.gone_before(), SHOWN)))
        if before:
            yield "What was gone before, and is not back: %s%s" % (
                "at least " * (before == SHOWN), "1 object or file" if before == 1
                else "%d objects and files" % before)

    def nothing_gone(self) -> str:
        return "Nothing is gone since cycle %s%s" % (
            self.said.get("Compared with cycle", ""),
            ", outside of what was left out" * bool(self.number("Places left out")))

    def why_not_whole(self) -> str:
        left = self.number("Places left out")
        if left:
            return many_were(left, "place") + " left out"
        return "lines of it were lost"

    # What was read

    def about_reading(self) -> str:
        said, log = self.said, "the log has no rows of its nights"
        nights, cut_short = self.number("Nights"), self.number("Nights cut")
        right = self.number("Bytes found right")
        facts: list[tuple[str, object]] = [
            ("storage root", of_statement(said, "Storage root")),
            *(("part " + word, of_statement(said, "Part " + word)) for word in ("from", "below")
              if "Part " + word in said),
            ("machine", of_statement(said, "Host")), ("cycle", str(self.cycle)),
            ("nights", not_known(log) if nights is None else "%s, from %s to %s%s" % (
                many(nights, "night"), said.get("First night"), said.get("Last night"),
                "; %s cut" % many_were(cut_short, "night") if cut_short else "")),
            ("each file was read", "between %s and %s, when the cycle was closed" % (
                said.get("Oldest verification", NOT_KNOWN), said.get("Closed", NOT_KNOWN))),
            ("objects", self.number_text("Objects", "")),
            ("objects without findings", self.number_text(
                "Objects without findings", "lines were lost, or what was left out is not known")),
            ("content files", self.number_text("Content files", "")),
            ("files found right", self.number_text("Files found right", "")),
            ("files not found right", self.number_text("Files not found right", "")),
            ("bytes found right", NOT_KNOWN if right is None else "%s%s" % (
                size(right), " (%s bytes)" % "{:,}".format(right) if right > 999 else "")),
            ("program", of_statement(said, "Program"))]
        return section("What was read", table("", ("what", "value"), facts))

    def about_whole(self) -> str:
        broken = self.number("Broken lines")
        if self.is_whole:
            made = paragraph("Yes: the report has every line of its cycle, and no place was left "
                             "out.")
        else:
            made = paragraph("No: %s." % self.why_not_whole())
        return section("Is it whole?", made, paragraph("Broken lines: %d" % broken) if broken
                       else "")

    # What was found

    def about_findings(self) -> str:
        rows = [(meaning, code, count, self.words.step(code.encode(), meaning))
                for (code, meaning), count in sorted(self.findings.of_meaning.items())]
        if not self.findings.all:
            return section("What was found", paragraph("Nothing: no line of the report is a "
                                                       "finding."))
        left = self.findings.all - len(self.findings.shown)
        now = self.compared_with_before()
        has_ids = is_root(self.root)
        return section(
            "What was found", table("By code", (
                "what", "code", "lines", "what to do first"), rows),
            paragraph("Below are the %d most serious; %s in %s." % (
                len(self.findings.shown), "{:,} more are".format(left), os.path.basename(
                    self.report))) if left else "",
            "" if self.earlier else paragraph("What of it is new is not known: %s."
                                              % self.why_no_earlier),
            "" if has_ids else paragraph("Objects are named by their places: no storage root is at "
                                         "%s now, so no inventory can be read." % self.root),
            *(self.about_object(place_of, found, now, has_ids)
              for place_of, found in self.findings.by_object()))

    def about_object(self, path: bytes, found: list[Found], now: dict[bytes, str],
                     has_ids: bool) -> str:
        """The findings of one object, or of what is in none."""
        identity = id_of(self.root, path) if path and has_ids else None
        head = ("<h3>Outside of any object</h3>\n" if not path else
                "<h3>Object <bdi>%s</bdi></h3>\n<p>%s</p>\n" % (text(identity), place(path))
                if identity else
                "<h3>Object at %s</h3>\n" % place(path))
        missing = {in_one_form(it.line.path) for it in found
                   if it.line.detail.endswith(b" missing")}
        return head + table("", ("place", "what", "code", "detail", self.head_of_changes()), [
            (place_within(it.line.path, path), self.words.meaning(*it.line[1:])
             + OTHER_FORM * (it.line.code == b"E023" and in_one_form(it.line.path) in missing),
             it.line.code.decode(), detail(it.line.code, it.line.detail),
             now.get(it.line.code + b"\t" + it.line.path, NOT_KNOWN)) for it in found],
            "findings")

    def head_of_changes(self) -> str:
        return "since cycle %s" % self.said["Compared with cycle"] if self.earlier else "before"

    def compared_with_before(self) -> dict[bytes, str]:
        """Of each shown finding, by its code and place, what the report before had there."""
        if self.earlier is None:
            return {}
        spool = files.spool()
        questions.write_lines(spool, [it.line.text() for it in self.findings.shown])
        left = [files.bytes_of(it) for it in self.left_before()]
        return {key: ("as before" if not is_changed else "with another detail") if is_known
                else "not looked at then" if any(is_within(key.split(b"\t")[1], it) for it in left)
                else "new" for key, is_known, is_changed in beside(
                    spool, questions.findings_in(self.earlier))}

    def left_before(self) -> Iterable[str]:
        """The places that the report before left out."""
        compared = int(self.said["Compared with cycle"])
        is_complete = os.path.basename(self.earlier or "").startswith("cycle-")
        return () if is_complete else cycle_of(self.state, compared).left

    # What is gone, back and repaired

    def gone_before(self) -> Iterator[bytes]:
        """What was gone when an earlier cycle was closed, and is not back."""
        now = set(self.gone or ())
        return (it for it in standing.losses(self.state, self.cycle) if it not in now)

    def about_losses(self) -> str:
        now = self.gone or []
        known = self.state.find("known", self.cycle)
        known_ones = set(files.lines(known)) if known else set()
        is_known, why = self.number("Objects gone") is not None, self.why_not_compared()
        unlooked = self.number("Files no longer looked at")
        return section(
            "What is gone",
            rows_of("Gone since cycle %s" % self.said.get("Compared with cycle", ""), now,
                    known_ones) or (paragraph(self.nothing_gone() + ".")
                                    if is_known and self.gone == [] else ""),
            paragraph("The list of it is not there any more.") if self.gone is None else "",
            "" if is_known else paragraph("What %s is not known: %s." % (
                "else is gone" if now else "is gone", why)),
            rows_of("Gone before, and not back", self.gone_before(), known_ones),
            paragraph("%s no longer looked at, because of an object that is gone or whose "
                      "inventory cannot be used." % many_are(unlooked, "file"))
            if unlooked else "",
            paragraph("Expected objects: %s listed, and missing of them: %s." % (
                self.number_text("Expected objects listed", ""),
                self.number_text("Expected objects missing", "")))
            if self.number("Expected objects listed") is not None else "")

    def back(self) -> list[bytes]:
        """What was gone when an earlier cycle was closed, and is back in this one."""
        still = {it.partition(b"\t")[2] for it in standing.losses(self.state, self.cycle)}
        return [it for it in standing.losses(self.state, self.cycle - 1)
                if it.partition(b"\t")[2] not in still] if self.cycle > 1 else []

    def about_repaired(self) -> str:
        """What is back and what is repaired."""
        back, objects = self.back(), self.number("Objects back")
        count = self.number("Repaired findings")
        if count is None and self.earlier:
            count = cycle_of(self.state, self.cycle).closing.repaired
        return section(
            "What is back or repaired",
            paragraph(many_are(objects, "object") + " back.") if objects else "",
            rows_of("Back", back, set()),
            paragraph("What is repaired is not known: %s." % self.why_no_earlier)
            if self.earlier is None else paragraph("How many findings of the report before are "
                                                   "repaired, the log does not say.")
            if count is None else paragraph(
                many_are(count, "finding") + " repaired." if count else "No finding is repaired."),
            self.former_ones())

    def former_ones(self) -> str:
        """The findings of the report before that are not there any more, and what is there."""
        if self.earlier is None:
            return ""
        found, before = map(questions.findings_in, (self.report, self.earlier))
        rows = [it.split(b"\t") for it in islice(former(found, self.report, before), SHOWN)]
        now: dict[bytes, list[str]] = {}
        for line in lines_at(self.report, {it[1] for it in rows}):
            now.setdefault(line.path, []).append(
                "right" if not line.is_finding() else self.words.meaning(*line[1:]))
        left = (self.number("Former findings") or 0) - len(rows)
        reasons = self.reasons_given()
        head = ("place", "what it was", "code", "now", *("reason given" for _ in reasons and [1]))
        return (table("Findings of the report before that are not there any more", head, [
            (place(path), self.words.meaning(code, path, None), code.decode(),
             ", ".join(dict.fromkeys(now.get(path, []))), *(
                 [reasons.get((code, path), "")] if reasons else [])) for code, path in rows])
                if rows else "") + (paragraph("and {:,} more".format(left)) if left > 0 else "")

    def reasons_given(self) -> dict[tuple[bytes, bytes], Markup]:
        """The reasons that the statement has, by the codes and places of its repaired findings."""
        reasons: dict[tuple[bytes, bytes], Markup] = {}
        for name in self.said:
            reason = name.replace("Repaired finding ", "Reason given ")
            if kind_of(name) == "Repaired finding *" and reason in self.said:
                code, _, path = files.bytes_of(self.said[name]).partition(b" ")
                reasons[code, path] = of_statement(self.said, reason)
        return reasons

    # What was not looked at

    def about_unlooked(self) -> str:
        said, left = self.said, []
        for at in range(1, (self.number("Places left out") or 0) + 1):
            name = said.get("Place left out %d" % at)
            if name is not None:
                why = said.get("Why left out %d" % at)
                left.append((place(files.bytes_of(name)),
                             shown(files.bytes_of(why)) if why else not_known(
                                 "the log does not say it")))
        unnamed = (self.number("Places left out") or 0) - len(left)
        away = self.number("Findings no longer looked at")
        return section(
            "What was not looked at",
            table("Places left out", ("place", "why"), left) if left else "",
            paragraph("%s left out whose name the log does not say." % many_were(
                unnamed, "place")) if unnamed else "",
            paragraph("Places left out: %s" % not_known("lines of the report were lost"))
            if self.number("Places left out") is None else "",
            paragraph("%s not looked at again: %s of the report before, at %s without a line now."
                      % (many_were(away, "finding"), "it is" if away == 1 else "they are",
                         "a place" if away == 1 else "places")) if away else "",
            paragraph("Algorithms of fixity blocks that were not computed: %s" % said.get(
                "Algorithms not computed", NOT_KNOWN)),
            paragraph("No audit looks at these: %s." % said.get("Not looked at", NOT_KNOWN)),
            paragraph("No audit says: %s." % said.get("Not said", NOT_KNOWN)))

    # The statement

    def about_statement(self) -> str:
        path = os.path.join(self.state.reports, cycle_name("statement", self.cycle))
        refuse_links(path + ".sealed")
        seal = [os.path.join(self.state.reports, os.path.basename(files.text_of(it))) for it in (
            files.lines(path + ".sealed") if files.is_file(path + ".sealed") else ())]
        refuse_links(*seal)
        rows: list[tuple[object, object, object]] = [
            ("statement", plain("", os.path.basename(path)), files.digest_of(path)),
            ("report, without compression", self.said.get("Report"),
             self.said.get("Report SHA-256"))]
        rows += [(name, cycle_name(kind, self.cycle), self.said[line]) for name, kind, line in (
            ("list of what is gone", "gone", "List of what is gone, SHA-256"),
            ("list of known losses", "known", "List of known losses, SHA-256"))
            if len(self.said.get(line, "")) == 64]
        rows += [("seal", os.path.basename(it), files.digest_of(it) if files.is_file(it)
                  else "it is not there") for it in seal]
        return section(
            "The statement", table("", ("what", "file", "SHA-256"), rows),
            "" if seal else paragraph("The statement has no seal."),
            paragraph("It was compared with its report for this page, and holds%s." % (
                ", as far as it could be checked" if self.check.unchecked else "")),
            markup.listed("not checked, without %s: %s" % (file, "; ".join(names))
                          for file, names in self.check.unchecked.items()),
            '<pre class="statement">%s</pre>\n' % "\n".join(
                text(it) for it in files.text_of(files.read(path)).split("\n")))

    def write(self) -> None:
        name = of_statement(self.said, "Storage root")
        body = "".join([
            "<h1>Cycle %d of %s</h1>\n" % (self.cycle, name),
            markup.level(self.level(), [it + "." for it in self.reasons()]),
            self.about_reading(), self.about_whole(), self.about_findings(), self.about_losses(),
            self.about_repaired(), self.about_unlooked(), self.about_statement()])
        markup.write("Cycle %d of %s" % (self.cycle, self.said.get("Storage root", "")), body)


def not_known(why: str) -> str:
    return NOT_KNOWN + (": " + why if why else "")


def of_statement(said: Statement, name: str) -> Markup:
    """A value of a statement that is written as in reports, as it is."""
    return shown(files.bytes_of(said.get(name) or NOT_KNOWN))


def place_within(path: bytes, above: bytes) -> object:
    if path == b".":
        return "the storage root itself"
    return "the object itself" if path == above else place(
        path[len(above) + 1:] if above else path)


def rows_of(caption: str, lines: Iterable[bytes], known: set[bytes]) -> str:
    """Lines of a list of what is gone as a table; empty if there are none."""
    rows = [(LOST.get(it.partition(b"\t")[0], "") + (", known" if it in known else ""),
             place(it.partition(b"\t")[2])) for it in islice(lines, SHOWN + 1)]
    more = paragraph("and more, which the list has") if len(rows) > SHOWN else ""
    return table(caption, ("what", "place"), rows[:SHOWN]) + more if rows else ""


def show(state: State, cycle: int, weights: Weights) -> None:
    """Writes the page of a closed cycle to standard output."""
    state.refuse_links()
    Page(state, cycle, weights).write()
