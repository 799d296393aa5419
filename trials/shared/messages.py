"""What the messages of nights say, read back: the findings that they show, each by its code and its
place as reports write them, and the word at the end of a cycle."""
import os
import re
from collections import Counter
from typing import Iterable, Mapping, NamedTuple, Optional

TOP = os.path.dirname(os.path.dirname(os.path.dirname(os.path.realpath(__file__))))
# The words at the end of a cycle in which nothing is new or gone, and those on a joined report.
QUIET = re.compile(
    r"(?m)^Cycle \d+ ended: \d+ of \d+ files? right, \d+ objects?, [0-9.]+ (?:bytes?|[kMGT]B)"
    r"(?:, \d+ runs?)?\.\n"
    r"(?:(?:Nothing new, nothing gone since cycle \d+|Nothing to compare with)\.\n"
    # Nothing is compared for a joined report.
    r"|(?!Nothing |\d+ new findings?, |What is new ))")
# How many files of an object are right, in whatever words.
RIGHT = r"(?:, \d+ of \d+ [^,:/]*)?"
# The line before the findings of an object: its path, and how many of its files are right.
OBJECT = re.compile(r"Object (.*?)(?:, (\d+) of (\d+) files? right(?: of those read tonight)?)?:")
# A finding: its path, unless it is the object's own, its words, its code and its detail.
FINDING = re.compile(r"\t(?:(.*): )?([^:\t]+) \(([ES]\d+)\)(.*)")
# An object in one line: its path, its first finding, and how many more it has, of any code. So are
# findings in none, of one code.
BRIEF = re.compile(
    r"(?:Object (.*?)" + RIGHT
    + r"|Elsewhere): (?:(.*): )?([^:\t]+) \(([ES]\d+)\)(?:, and (\d+) more)?")
# The line before what a night found, the parts that said it, and what is counted and not shown.
NIGHT = re.compile(r"\d+ findings? tonight in .*, cycle (\d+), runs? (\d+)(?: to (\d+))?:")
PARTS = re.compile(r"In parts? (.*):")
FOLDED = re.compile(r"\tand (\d+) more: ([^:\t]+) \(([ES]\d+)\)")
# A file that is missing and one that is in no inventory, which are one but for their spelling: that
# of the first is shown. So are more of them counted together.
RESPELT = re.compile(
    r"\t(?:and (\d+) more|(.*)): here under another spelling of its name \(E092, E023\)")
ELSEWHERE = re.compile(r"Elsewhere, [ES]\d+:")
LEFT = re.compile(r"(\d+) not shown here: .*")
# Findings that a message shows or counts together: those of an object, or of none, with one code.
# An empty one stands for any code of the object.
Group = tuple[str, str]


def meanings() -> dict[str, str]:
    """What the codes mean, by the table of codes."""
    with open(TOP + "/nights/ocfl_scrub_reports/codes", encoding="utf-8") as file:
        rows = [line.split("\t") for line in file if not line.startswith("#")]
    return {row[0]: row[3] for row in rows}


MEANINGS = meanings()


def escaped(path: str) -> str:
    """A path of a message as reports write it: what has a percent sign is written so already."""
    if "%" in path:
        return path
    return re.sub(rb"[^ -$&-~]", lambda it: b"%%%02X" % ord(it[0]), os.fsencode(path)).decode()


def place_in(of_object: str, path: Optional[str]) -> str:
    """The place of a finding with this path below an object, if it is in one."""
    return "/".join(it for it in (of_object, escaped(path or "")) if it)


def findings_in(text: str) -> list[str]:
    """The findings that a text shows, each by its code and its place."""
    found, of_object = [], ""
    for line in text.split("\n"):
        head = OBJECT.fullmatch(line)
        if not line.startswith("\t"):
            of_object = escaped(head[1]) if head else ""
        made, brief = FINDING.fullmatch(line), BRIEF.fullmatch(line)
        respelt = RESPELT.fullmatch(line)
        if respelt and not respelt[1]:
            found.append("E092\t%s" % place_in(of_object, respelt[2]))
        elif made and made[2] in (MEANINGS[made[3]], "missing") and not line.startswith("\tand "):
            found.append("%s\t%s" % (made[3], place_in(of_object, made[1])))
        elif brief:
            found.append("%s\t%s" % (brief[4], place_in(escaped(brief[1] or ""), brief[2])))
    return found


def key(line: str) -> str:
    """The code and the place of a line of a report."""
    return "\t".join(line.split("\t")[:2])


def shown(line: str, text: str) -> int:
    """How often a text shows the finding of a line of a report."""
    return findings_in(text).count(key(line))


def without_end(text: str) -> str:
    """A text without the word at the end of a cycle in which nothing is new or gone."""
    return QUIET.sub("", text)


class Said(NamedTuple):
    """What a night, or a night of a part, said of its findings: how many of each group it showed or
    counted, and how many it left to the report."""
    parts: str
    cycle: int
    first: int
    last: int
    groups: Counter[Group]
    left: list[int]

    def repeats(self, other: "Said") -> bool:
        """The same part said the same once more. Where a night was killed before its words counted
        as said, the next one says them before its first run, so the last run is the same. That one
        names all runs up to it, since no checkpoint says of which runs something was not said: so
        runs of which all was said may be among those that it names."""
        return (self.parts, self.cycle, self.last) == (other.parts, other.cycle, other.last) and (
            self.first in (1, other.first))


def nights_in(text: str) -> list[Said]:
    """What the nights of a text said, without what a later night said once more: one that was
    killed, or whose words were perhaps not read."""
    made: list[Said] = []
    parts, of_object, night = "", "", None
    for line in text.split("\n"):
        begun, of_parts, head = NIGHT.fullmatch(line), PARTS.fullmatch(line), OBJECT.fullmatch(line)
        brief = BRIEF.fullmatch(line)
        if brief and night:
            night.groups.update(group_in_brief(brief))
        elif begun:
            first = int(begun[2])
            night = Said(parts, int(begun[1]), first, int(begun[3] or first), Counter(), [])
            made.append(night)
        elif not line.startswith("\t") and not head and not ELSEWHERE.fullmatch(line):
            parts = of_parts[1] if of_parts else parts
            left = LEFT.fullmatch(line)
            if night and left:
                night.left.append(int(left[1]))
            night = None
        if not line.startswith("\t"):
            of_object = escaped(head[1]) if head else ""
        elif night:
            night.groups.update(group_in(of_object, line))
    return [it for at, it in enumerate(made)
            if not any(later.repeats(it) for later in made[at + 1:])]


def group_in_brief(brief: "re.Match[str]") -> Counter[Group]:
    """What a line says that is all of a group: its first finding, and how many more there are."""
    of_object = escaped(brief[1] or "")
    said = Counter([(of_object, brief[4])])
    if brief[5]:
        said[of_object, "" if of_object else brief[4]] += int(brief[5])
    return said


def group_in(of_object: str, line: str) -> Counter[Group]:
    """What a line below the head of a group says: one finding, or how many more there are."""
    folded, shown = FOLDED.fullmatch(line), FINDING.fullmatch(line)
    respelt = RESPELT.fullmatch(line)
    if respelt:
        return Counter({(of_object, code): int(respelt[1] or 1) for code in ("E092", "E023")})
    if folded and folded[2] == MEANINGS[folded[3]]:
        return Counter({(of_object, folded[3]): int(folded[1])})
    is_one = shown and shown[2] in (MEANINGS[shown[3]], "missing")
    return Counter([(of_object, shown[3])] if shown and is_one else [])


def miscounted(nights: Iterable[Said], findings: Iterable[str]) -> list[str]:
    """The groups of which the nights of one cycle said another number than there are among these
    findings, each by its code and its place; nothing if the difference is what they left to the
    report."""
    said: Counter[Group] = Counter()
    left = 0
    for night in nights:
        said.update(night.groups)
        left += sum(night.left)
    there = Counter(group_of(finding, said) for finding in findings)
    more = {group: there[group] - said[group] for group in {*there, *said}
            if there[group] != said[group]}
    too_many = {group: number for group, number in more.items()
                if number + others_in(group, more) < 0}
    if not too_many and sum(more.values()) == left:
        return []
    return ["%s of %s: %d more" % (code, place or "no object", number) for (place, code), number
            in sorted((too_many or more).items())] + ["left: %d" % left] * bool(left)


def others_in(group: Group, more: Mapping[Group, int]) -> int:
    """How many findings of other groups may have been counted with this one: those of the same
    object, if it stands for any code, and those of objects in which a night began, which it does
    not name."""
    place, code = group
    if place and code:
        return 0
    return sum(max(number, 0) for (of_object, of_code), number in more.items()
               if of_object and (of_object == place if place else of_code == code))


def group_of(finding: str, groups: Iterable[Group]) -> Group:
    """The group of a finding among these: that of the innermost object that has one of its code."""
    code, place = finding.split("\t")
    within = [of_object for of_object, of_code in groups if of_code in (code, "") and of_object
              and (place + "/").startswith(of_object + "/")]
    return max(within, key=len, default=""), code
