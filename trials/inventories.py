#!/usr/bin/env python3
"""Tries the option `--inventories` of each command that has it, against a model of the audit that
is written by the words of docs/RULES.md (`shared/audit.py`).

usage: inventories.py [PART]...      (OCFL_TRIAL_SEED is the seed of the random roots, or 68)

Tried, and what comes of it:

- The two storage roots of the gallery, one as tools of the field write it, and damaged ones: an
  audit with the option and one without it, a check of each place, runs within several limits, a
  cycle, the audits and runs of parts, nights over the whole and over parts, joined: each writes
  what the model has, and the reports of pieces, joined, are the audit. Cursors and checkpoints say
  that they are of such an audit, and are shown.
- 400 random roots, whose inventories, sidecars and heads are odd in many ways: both audits are the
  model's, and the one without the option has no E064, no S09 and no line of a version's inventory.
- A version's inventory that is flipped or deleted, a cut sidecar, an inventory of before that is
  put back, an object that is forged with inventory and sidecar: without the option the report stays
  as it was, and with it there is a finding, a line is gone, or S09 is another one.
- The scripts over such nights: the statement counts what S09 says; `recheck` looks again with the
  option; what `repair` shows brings a version's inventory back from a copy.
- A cursor, a part's cursor and a state folder of the other kind: refused, status 4 and 3; nothing
  is written. Parts of which one is of the other kind are not joined, and it is named.
- Openings: each sidecar of a version at most once, each file once, and without the option nothing
  of a version's inventory.
- A version's inventory that cannot be read has S08, and its sidecar stops a run.
- An object so deep that its version directories are not listed.
"""
import os
import random
import shutil
from collections import Counter

import common
from common import check, digest, ran, read, shown_cursor, write
from shared import audit, calls, damage, nights as nightly, versions
from shared.audit import cut, items_of, report_of, status_of
from shared.library import UNSEEN, Damage, cumulated, make_library
from shared.nights import tried_apart
from shared.own_nights import Nights, at_once
from shared.places import (lies_in, parts_of, place_of, read_separators, separators_text,
                           text_of)
from shared.versions import Version

SEED = int(os.environ.get("OCFL_TRIAL_SEED") or 68)
RANDOM_ROOTS = 400
OPTION = "--inventories"
WITH = "the cursor is of an audit with --inventories"
WITHOUT = "the cursor is of an audit without --inventories"
LINE = "checks inventories\n"
NOBODY = ["setpriv", "--reuid=65534", "--regid=65534", "--clear-groups"]
LETTERS = [Version("v1", {"a": b"abc", "b": b""}), Version("v2", {"c": b"abcd"}),
           Version("v3", {}, "sha512")]


def is_of_version(place):
    """Whether a place is one of a version's inventory."""
    return len(place) > 2 and place[-1] == audit.INVENTORY and bool(
        audit.VERSION.fullmatch(place[-2]))


def joined(items):
    return [item.text() for item in items]


def gives(name, words, items):
    """A command writes these items, and ends with their status."""
    return check(name, ran(words), (status_of(items), report_of(items), ""))


class Root:
    """A storage root, and its items by the model."""

    def __init__(self, folder, name, root):
        self.folder, self.name, self.root = os.path.join(folder, name + "-beside"), name, root
        os.mkdir(self.folder)
        self.items, self.plain = items_of(root, True), items_of(root)

    def file(self, name):
        """A file beside the root that is not there."""
        path = os.path.join(self.folder, name)
        if os.path.exists(path):
            os.remove(path)
        return path

    def cost(self):
        return sum(item.cost for item in self.items)


def made_roots(folder):
    """The roots of the gallery, one of the field, and two with damages of other kinds."""
    dice = random.Random(SEED)
    for words in [[], [OPTION]]:
        made = os.path.join(folder, "gallery" + "".join(words))
        done = os.spawnl(os.P_WAIT, common.TOP + "/samples/gallery", "gallery", *words, made)
        check("samples/gallery %s" % words, done, 0)
        yield Root(folder, "gallery" + "".join(words), made)
    made = os.path.join(folder, "library")
    make_library(made, 9)
    yield Root(folder, "library", made)
    for number in range(2):
        made = os.path.join(folder, "damaged-%d" % number)
        damage.make_damaged(made, damage.DAMAGES[number::2], dice)
        for place in damage.OBJECTS[::2]:
            for version in ["v1", "v2"]:
                versions.put(os.path.join(made, place, version), place.encode(), "sha256")
            versions.spoil(dice, os.path.join(made, place, dice.choice(["v1", "v2"])))
        yield Root(folder, "damaged-%d" % number, made)


# ---- audits and checks

def audits(root):
    gives(root.name + ": audit with the option", ["audit", OPTION, root.root], root.items)
    gives(root.name + ": audit without it", ["audit", root.root], root.plain)
    lines = ran(["audit", root.root])[1].splitlines()
    check(root.name + ": without it no E064 and S09",
          [it for it in lines if it.startswith(("E064\t", "S09\t"))], [])
    check(root.name + ": without it no line of a version's inventory", [it for it in lines if
          is_of_version(place_of(it.split("\t")[1])) and not it.startswith("E072\t")], [])


def checks(root):
    """A check of each place that has lines, and of some that have none."""
    by_place = {item.place: item for item in root.items}
    others = {place[:end] for place in by_place for end in range(1, len(place))}
    others |= {(*place[:-1], place[-1] + b".sha256") for place in by_place if place}

    def look(_, place):
        text, items = text_of(place), [by_place[place]] if place in by_place else []
        got = ran(["check", OPTION, root.root, text])
        said = "" if items else common.note("no item at " + text)
        return check("%s: check of %s" % (root.name, text), got,
                     (status_of(items), report_of(items), said))

    at_once(look, sorted({*by_place, *others}))
    plain = {item.place: item for item in root.plain}
    for place in sorted(by_place):
        if place not in plain:
            check("%s: check without the option of %s" % (root.name, text_of(place)),
                  ran(["check", root.root, text_of(place)]),
                  (0, "", common.note("no item at " + text_of(place))))


# ---- runs and cycles

def cursor_of(items, cycle, runs, spent, files, left):
    """What `show` writes of a cursor after these items."""
    stands = "ended" if not left else "after " + text_of(items[-1].place) if items else "start"
    numbers = "cycle %d\nruns %d\nspent %d\nfiles %d\n" % (cycle, runs, spent, files)
    return LINE + numbers + stands + "\n"


def runs(root, budget, files=None):
    """Each run takes what the model cuts, and its cursor says where it ended."""
    name = "%s: runs of %s and %s files" % (root.name, budget, files)
    cursor = root.file("cursor")
    words = ["run", OPTION, "--cursor", cursor, "--budget", str(budget),
             *(["--files", str(files)] if files else []), root.root]
    left, taken, count, spent, started = root.items, [], 0, 0, 0
    while left or not count:
        now, left = cut(left, budget, files or audit.MOST)
        taken, count, cost = taken + now, count + 1, sum(it.cost for it in now)
        spent, started = spent + cost, started + sum(it.cost > 0 for it in now)
        said = "cycle 1, run %d, cost %d, %s" % (count, cost, "open" if left else "ended")
        if not (check("%s, %d" % (name, count), ran(words),
                      (status_of(now), report_of(now), common.note(said)))
                and check("%s, %d: its cursor" % (name, count), shown_cursor(cursor),
                          cursor_of(taken, 1, count, spent, started, left))):
            return
    check(name + ": joined", report_of(taken), report_of(root.items))


def cursor_bytes(root):
    """The text of a cursor, whose digest is computed here."""
    cursor = root.file("cursor")
    ran(["run", OPTION, "--cursor", cursor, "--budget", "1", root.root])
    now, left = cut(root.items, 1)
    body = ("ocfl-scrub cursor 3\n" + cursor_of(now, 1, 1, sum(it.cost for it in now),
                                                sum(it.cost > 0 for it in now), left)).encode()
    check(root.name + ": bytes of a cursor", read(cursor), body + b"digest %s\n" % digest(
        body).encode())


def cycles(root):
    budget = max(1, root.cost() // 5)
    left, count = root.items, 0
    while left or not count:
        left, count = cut(left, budget)[1], count + 1
    words = ["cycle", OPTION, "--budget", str(budget), "--runs", "100", root.root]
    said = "runs %d, cost %d, ended" % (count, root.cost())
    check(root.name + ": cycle", ran(words),
          (status_of(root.items), report_of(root.items), common.note(said)))


# ---- parts

def parts(root):
    """Audits and runs of parts, by separators of both kinds and at places of all items."""
    dice = random.Random(SEED)
    listed = ran(["split", OPTION, "--parts", "4", root.root])
    check(root.name + ": split", listed, ran(["split", "--parts", "4", root.root]))
    report = write(root.file("report"), report_of(root.items).encode())
    budget = max(1, root.cost() // 4)
    by_cost = ran(["split", "--budget", str(budget), "--report", report])
    check(root.name + ": split by costs", by_cost, (0, separators_text(of_costs(root, budget)), ""))
    places = [item.place for item in root.items]
    some = sorted(dice.sample(places, min(len(places), 5)))
    for name, separators in [("by listing", read_separators(listed[1])),
                             ("by costs", read_separators(by_cost[1])), ("at places", some)]:
        of_parts("%s, %s" % (root.name, name), root, separators)


def of_costs(root, budget):
    """The separators that a report determines, in which a file with a finding counts as nothing."""
    found, spent = [], 0
    for item in root.items:
        code, detail = item.notes[0]
        cost = int(detail) + 1 if code == "ok" and detail != b"-" else 0
        if cost and spent >= budget:
            found.append(item.place)
            spent = 0
        spent += cost
    return found


def of_parts(name, root, separators):
    file = write(root.file("separators"), separators_text(separators).encode())
    whole = []
    for number, ends in enumerate(parts_of(separators), 1):
        items = [it for it in root.items if lies_in(it.place, *ends)]
        part = ["--parts", file, "--part", str(number)]
        gives("%s: audit of part %d" % (name, number), ["audit", OPTION, *part, root.root], items)
        cursor = root.file("cursor-%d" % number)
        reports = common.nights(["run", OPTION, "--cursor", cursor, "--budget", "500", "--files",
                                 "3", *part, root.root])
        check("%s: runs of part %d" % (name, number), "".join(reports), report_of(items))
        shown = ["start" if ends[0] is None else text_of(ends[0]),
                 "end" if ends[1] is None else text_of(ends[1])]
        got = shown_cursor(cursor)
        check("%s: cursor of part %d" % (name, number), (got[:got.find("cycle")], got[-6:]),
              ("from %s\nbelow %s\n%s" % (*shown, LINE), "ended\n"))
        check("%s: version of the cursor of part %d" % (name, number),
              read(cursor).split(b"\n")[0], b"ocfl-scrub part cursor 2")
        whole += reports
    check(name + ": joined", "".join(whole), report_of(root.items))


# ---- nights

def nights(root):
    """Nights of a few files each close the model's report."""
    state = Nights(os.path.join(root.folder, "state"), root.root)
    words = [OPTION, "--slice", "300", "--files", "7"]
    until_closed(root.name + ": nights", state, words, 1)
    check(root.name + ": their report", state.whole(1), report_of(root.items))
    text = state.has("checkpoint") or ""
    check(root.name + ": their checkpoint",
          (text.split("\n")[0], text.count("\n" + LINE + "cycle ")), ("ocfl-scrub checkpoint 2", 1))
    check(root.name + ": it is shown", state.shown(),
          text[text.find("\n") + 1:text.rfind("sha256 ")])
    until_closed(root.name + ": nights of cycle 2", state, [OPTION], 2)
    check(root.name + ": the report of cycle 2", state.whole(2), report_of(root.items))


def until_closed(name, state, words, cycle, most=60):
    """Makes nights until a cycle is closed."""
    for _ in range(most):
        status, out, said = state.first(*words)
        if not check(name + " end well", (status in (0, 1), said), (True, "")):
            print(out)
            break
        if state.whole(cycle) is not None:
            break


def nights_of_parts(root):
    """The reports of all parts, joined, are the model's."""
    separators = [root.items[len(root.items) * at // 3].place for at in (1, 2)]
    file = write(root.file("separators"), separators_text(separators).encode())
    folder = os.path.join(root.folder, "parts")
    os.mkdir(folder)
    for number in (1, 2, 3):
        state = Nights("%s/part-%06d" % (folder, number), root.root, "--parts", file, "--part",
                       str(number))
        until_closed("%s: nights of part %d" % (root.name, number), state,
                     [OPTION, "--files", "9"], 1)
    status, _, said = ran(["join", "--parts", file, "--state", folder])
    check(root.name + ": join", (status, said), (0, ""))
    check(root.name + ": the joined report", read(folder + "/reports/cycle-000001").decode(),
          report_of(root.items))


def commands(folder):
    """Each command over each root."""
    for root in made_roots(folder):
        before = common.snapshot(root.root)
        audits(root)
        checks(root)
        for limits in [(1,), (700,), (500, 2), (2**62,)]:
            runs(root, *limits)
        cursor_bytes(root)
        cycles(root)
        parts(root)
        nights(root)
        nights_of_parts(root)
        check(root.name + ": nothing was written below the root",
              common.snapshot(root.root) == before, True)


def random_roots(folder):
    """Both audits of random roots."""
    dice = random.Random(SEED)
    seeds = [dice.randrange(2**32) for _ in range(RANDOM_ROOTS)]
    codes = Counter()

    def tried(number, seed):
        made = versions.make_random(os.path.join(folder, str(number)), random.Random(seed))
        for words in [[OPTION], []]:
            items = items_of(made, bool(words))
            codes.update(note.code for item in items if words for note in item.notes)
            gives("random root %d (seed %d), %s" % (number, SEED, words), ["audit", *words, made],
                  items)
        shutil.rmtree(made)

    at_once(tried, seeds)
    wanted = {"ok", "E058", "E060", "E061", "E064", "E092", "S04", "S09"}
    check("random roots: the codes", wanted - set(codes), set())


# ---- damages

def cut_sidecar(it):
    common.write(it.folder + "/v1/inventory.json." + it.algorithm, b"0123")


def go_back(it):
    """The inventory of the version before, of an object whose newest version has no content."""
    count = len(it.versions) - 1
    it.seal(it.folder, it.inventory(count))


def keep_files(it):
    """A version that adds nothing."""
    return it._replace(versions=cumulated([*it.versions, {}])).make()


# Each with the codes of the lines that are new after it, and those of the lines that are gone.
SEEN = {
    "inventory of a version flipped": (["E060"], ["ok"]),
    "inventory of a version deleted": ([], ["ok"]),
    "forged with inventory and sidecar": (["S09", "ok", "E064"], ["S09", "ok", "ok"]),
    "sidecar of a version cut": (["E061"], ["ok"]),
    "put back, and no content with it": (["S09"], ["S09"]),
}
# The rows in the list of what is gone.
ROWS = {
    "inventory of a version deleted": "file\t%s/v1/inventory.json",
    "forged with inventory and sidecar": "changed\t%s",
    "put back, and no content with it": "older\t%s",
}
PLANTED = [*UNSEEN, Damage("sidecar of a version cut", cut_sidecar, ""),
           Damage("put back, and no content with it", go_back, "")]


def damages(folder):
    """What no audit sees without the option is seen on the next night with it."""
    root = os.path.join(folder, "root")
    objects = [keep_files(it) for it in make_library(root, 12) if len(it.versions) > 1]
    for state, words in [("with", [OPTION]), ("without", [])]:
        Nights(os.path.join(folder, state), root).first(*words)
    planted = dict(zip(PLANTED, objects))
    check("objects for all damages", len(planted), len(PLANTED))
    for it, chosen in planted.items():
        it.do(chosen)
    for name, words in [("with", [OPTION]), ("without", [])]:
        state = Nights(os.path.join(folder, name), root)
        out = state.first(*words)[1]
        check(name + ": the report is the model's", state.whole(2),
              report_of(items_of(root, bool(words))))
        before, after = (Counter((state.whole(cycle) or "").splitlines()) for cycle in (1, 2))
        for it, chosen in planted.items():
            lines = [sorted_codes(some, chosen.place)
                     for some in (after - before, before - after)]
            expected = SEEN[it.name] if words else forged_alone(it)
            check("%s the option: %s" % (name, it.name), lines, [*map(sorted, expected)])
            if words and "E0" in "".join(SEEN[it.name][0]):
                check("the message names it: " + it.name, chosen.place in out, True)
        rows = (state.has("reports/gone-000002") or "").splitlines()
        wanted = [ROWS[it.name] % chosen.place for it, chosen in planted.items()
                  if words and it.name in ROWS]
        check(name + " the option: the list of what is gone", sorted(rows), sorted(wanted))


def forged_alone(it):
    """Without the option only the length of the forged file is another."""
    return (["ok"], ["ok"]) if it.name.startswith("forged") else ([], [])


def sorted_codes(lines, place):
    """The codes of those of these lines that are of an object or below it."""
    return sorted(line.split("\t")[0] for line in lines.elements()
                  if (line.split("\t")[1] + "/").startswith(place + "/"))


def scripts(folder):
    """What the scripts of nights make of it: a statement, `recheck`, and what `repair` shows."""
    root = versions.make_root(os.path.join(folder, "root"), {"o": LETTERS, "p": LETTERS[:1]})
    copy = shutil.copytree(root, os.path.join(folder, "copy"))
    nights_ = nightly.Nights(os.path.join(folder, "state"), root)
    nights_.night(OPTION)
    write(root + "/o/v1/inventory.json", b"{}")
    versions.put(root + "/p", versions.inventory_of(LETTERS[:1], fixity={}), "sha256")
    check("a night by nightly", nights_.night(OPTION)[0], 1)
    said = nights_.lines(2)
    check("its statement", [said.get(name) for name in (
        "Findings E060", "Findings E064", "Objects changed without a new version",
        "Objects that went back", "Objects with a new version", "Content files")],
        ["1", "1", "1", "0", "0", "9"])
    check("it holds", nights_.holds(2), 0)
    found = [it for it in nights_.whole(2).splitlines() if it.startswith("E06")]
    check("recheck", nightly.ask("recheck", nights_.state),
          (1, "".join("open\t%s\n" % it for it in found), ""))
    status, commands, said = nightly.ask("repair", "--copy", copy, nights_.state)
    check("repair", (status, said, "no copy repairs 1 finding: E064 1" in commands), (0, "", True))
    check("its commands", nightly.ran(["bash", "-euc", commands]), (0, "", ""))
    check("recheck after it", nightly.ask("recheck", nights_.state),
          (1, "repaired\t%s\nopen\t%s\n" % tuple(found), ""))


# ---- the other kind

def other_cursors(folder):
    """A cursor, and a part's, of the other kind is refused and stays; each is shown."""
    root = versions.make_root(os.path.join(folder, "root"), {"o": LETTERS})
    file = write(os.path.join(folder, "separators"), b"o/v2\n")
    for name, part in [("a cursor", []), ("a part's cursor", ["--parts", file, "--part", "2"])]:
        for its, other, why in [([OPTION], [], WITH), ([], [OPTION], WITHOUT)]:
            cursor = os.path.join(folder, "cursor")
            run = ["run", "--cursor", cursor, "--budget", "1", *part, root]
            ran(run + its)
            stored = read(cursor)
            check("%s %s: refused" % (name, its), ran(run + other),
                  (4, "", common.note("cursor refused: " + why)))
            check("%s %s: untouched" % (name, its), read(cursor), stored)
            check("%s %s: shown" % (name, its), LINE in shown_cursor(cursor), bool(its))
            check("%s %s: it goes on" % (name, its), ran(run + its)[0] in (0, 1), True)
            os.remove(cursor)


def other_nights(folder):
    """A night over the folder of nights of the other kind is refused, also with --force-root."""
    root = versions.make_root(os.path.join(folder, "root"), {"o": LETTERS})
    for number, (its, other, word) in enumerate([([OPTION], [], " with "),
                                                 ([], [OPTION], " without ")]):
        for files in (["--files", "1"], []):
            state = Nights("%s/state-%d%d" % (folder, number, len(files)), root)
            state.first(*its, *files)
            kept = state.kept()
            for more in [[], ["--force-root"], ["--create"]]:
                status, out, said = state.night(*other, *more)
                check("a night %s over nights %s" % ([*other, *more], its),
                      (status, word + OPTION in out + said), (3, True))
                check("a night %s over nights %s: untouched" % ([*other, *more], its),
                      state.kept(), kept)
            status, _, said = state.night(*its)
            check("nights %s go on" % its, (status in (0, 1), said), (True, ""))


def other_parts(folder):
    """Parts of which one is of the other kind are not joined, and that one is named."""
    root = versions.make_root(os.path.join(folder, "root"), {"o": LETTERS, "p": LETTERS})
    file = write(os.path.join(folder, "separators"), b"p\n")
    for number, (first, second, word) in enumerate([([OPTION], [], "without"),
                                                     ([], [OPTION], "with")]):
        parts = "%s/parts-%d" % (folder, number)
        os.mkdir(parts)
        for part, its in [(1, first), (2, second)]:
            state = Nights("%s/part-%06d" % (parts, part), root, "--parts", file, "--part",
                           str(part))
            until_closed("parts of two kinds, part %d %s" % (part, its), state, its, 1)
        status, out, said = ran(["join", "--parts", file, "--state", parts])
        wanted = "part 2: its nights are of an audit %s --inventories" % word
        check("a join of parts of two kinds %s" % first, (status, wanted in out + said), (3, True))
        check("a join of parts of two kinds %s: nothing is put" % first,
              os.path.exists(parts + "/reports/cycle-000001"), False)


def other_kind(folder):
    other_cursors(folder)
    other_nights(folder)
    other_parts(folder)


# ---- what is opened, and what cannot be

def opened(folder, root, words):
    """How often each file below a root is opened."""
    made = calls.made(words, folder + "/log")
    return Counter(it.path[len(root) + 1:] for it in made
                   if it.name in calls.OPENS and not it.folder and it.path.startswith(root + "/"))


def openings(folder):
    root = versions.make_root(os.path.join(folder, "root"), {"o": LETTERS, "p": LETTERS[:1]})
    os.remove(root + "/o/v2/inventory.json.sha256")
    os.remove(root + "/p/v1/inventory.json.sha256")
    versions.put(root + "/p", b"{}", "sha256")
    content = ["o/v1/content/a", "o/v1/content/b", "o/v2/content/c"]
    heads = ["0=ocfl_1.1", *("%s/%s" % (it, name) for it in "op" for name in (
        "0=ocfl_object_1.1", "inventory.json"))]
    sidecars = ["o/inventory.json.sha512", "p/inventory.json.sha256"]
    further = ["o/v1/inventory.json", "o/v1/inventory.json.sha256", "o/v3/inventory.json",
               "o/v3/inventory.json.sha512"]
    for words, expected in [([], [*content, *heads, *sidecars]),
                            ([OPTION], [*content, *heads, *sidecars, *further])]:
        check("what an audit opens %s" % words, opened(folder, root, ["audit", *words, root]),
              Counter(expected))


def unreadable(folder):
    """A version's inventory that cannot be read has S08; its sidecar stops what needs it."""
    root = versions.make_root(os.path.join(folder, "root"), {"o": LETTERS})
    inventory, sidecar = root + "/o/v2/inventory.json", root + "/o/v2/inventory.json.sha256"
    items = items_of(root, True, {(b"o", b"v2", b"inventory.json"): 0})
    # The program and what it reads are to be found by anybody.
    program, before = common.PROGRAM, NOBODY if os.geteuid() == 0 else []
    common.PROGRAM = shutil.copy(program, os.path.join(folder, "program"))
    for path, mode in [(os.path.dirname(folder), 0o755), (folder, 0o755), (common.PROGRAM, 0o755),
                       (inventory, 0)]:
        os.chmod(path, mode)
    check("an inventory that cannot be read", ran(["audit", OPTION, root], before),
          (1, report_of(items), ""))
    check("its line", [it for it in joined(items) if it.startswith("S08")],
          ["S08\to/v2/inventory.json\t-\n"])
    check("without the option", ran(["audit", root], before), (0, report_of(items_of(root)), ""))
    os.chmod(inventory, 0o644)
    os.chmod(sidecar, 0)
    at = next(number for number, it in enumerate(items)
              if it.place == (b"o", b"v2", b"inventory.json"))
    check("a sidecar that cannot be read", ran(["audit", OPTION, root], before),
          (3, report_of(items[:at]), common.note("stopped at o/v2/inventory.json.sha256")))
    check("without the option it stops nothing", ran(["audit", root], before)[0], 0)
    os.chmod(sidecar, 0o644)
    common.PROGRAM = program


def deep(folder):
    """An object at depth 127 has version directories that are not listed; one above it has."""
    for above in (126, 127):
        root = os.path.join(folder, str(above))
        versions.make_root(root, {"/".join(["d"] * above): [Version("v1", {})]})
        items = items_of(root, True)
        gives("an object at depth %d" % above, ["audit", OPTION, root], items)
        check("an object at depth %d: its last line" % above, items[-1].notes[0].code,
              "ok" if above == 126 else "S05")


PARTS = [commands, random_roots, damages, scripts, other_kind, openings, unreadable, deep]


if __name__ == "__main__":
    common.run_trial(lambda folder: tried_apart(PARTS, folder))
