"""Tests how edits are shared out among rounds and steps, and over what they are tried."""
import collections
import contextlib
import io
import os
import tempfile
import types
import unittest
from unittest import mock

from gate import commands, repository, toolchain
from gate.edits import proving, rounds, step, trying
from gate.edits.collection import listed as every_listed
from gate.repository import below, crates


def listed(crate):
    return [edit for edit in every_listed() if edit.crate == crate]


class Rounds(unittest.TestCase):
    def test_each_edit_is_tried_once(self):
        for crate in filter(listed, crates()):
            edits = listed(crate)
            shared, alone = rounds.share(crate, edits)
            tried = [edit for it in shared for edit in it] + alone
            self.assertEqual(sorted(tried), sorted(edits), crate)

    def test_edits_of_a_round_stand_apart(self):
        known = rounds.functions.functions_of("ocfl_digest")
        shared, _ = rounds.share("ocfl_digest", listed("ocfl_digest"))
        self.assertTrue(shared)
        for it in shared:
            bodies = [rounds.body_edit_of("ocfl_digest", edit, known) for edit in it]
            self.assertLessEqual(len(it), rounds.MOST)
            self.assertEqual(len({body.function for body in bodies}), len(bodies))
            self.assertTrue(all(rounds.apart(one, other)
                                for at, one in enumerate(bodies) for other in bodies[:at]))

    def test_rounds_are_few(self):
        """Of four functions in a chain of calls, the list has the ends first, which leaves the
        two between them apart."""
        function = collections.namedtuple("Function", "name owner body")
        called = {"one": "two()", "two": "three()", "three": "four()", "four": ""}
        bodies = [rounds.BodyEdit(name, it, it, []) for name in ["one", "four", "two", "three"]
                 for it in [function(name, "", called[name])]]
        self.assertEqual(len(rounds.packed(bodies)), 3)
        self.assertEqual(len(rounds.fewest(bodies)), 2)


class Rooms(unittest.TestCase):
    """Tests that have crates in a folder of their own, and may fail steps."""

    def setUp(self):
        failures = list(commands.FAILURES)
        self.addCleanup(commands.FAILURES.__setitem__, slice(None), failures)
        self.room = tempfile.TemporaryDirectory()
        self.addCleanup(self.room.cleanup)
        self.made = {}
        for name in below(["ocfl_digest", "ocfl_separators"]):
            if name.startswith("ocfl_"):
                folder = os.path.join(self.room.name, "crates", name)
                self.made[name] = toolchain.Crate(name, folder, None)
        self.rt, self.ended = object(), []
        self.stand_in(crates_of=lambda rt, top: self.made, names_below=self.names_below,
                      lines_of=lambda crate: 1000, memory_of=lambda rt, crate: 1,
                      put_into_queue=lambda rt, made, ended: self.ended.append((made, ended)))

    def stand_in(self, **functions):
        """Has these functions stand in for those of the toolchain."""
        standing = mock.patch.multiple(toolchain, **functions)
        standing.start()
        self.addCleanup(standing.stop)

    def names_below(self, crate):
        return [it for it in below([crate.name]) if it in self.made and it != crate.name]

    def crate(self):
        return self.made["ocfl_digest"]

    def write(self, path, content):
        file = os.path.join(self.crate().folder, path)
        os.makedirs(os.path.dirname(file), exist_ok=True)
        with open(file, "wb") as it:
            it.write(content)


def one_by_one(tasks):
    """Takes steps one after the other, as the queue of `rt` may."""
    given = {}
    for key, (waits, _, _, call) in tasks.items():
        assert all(it in given for it in waits), key
        given[key] = call(given, 1)
    return given


class Steps(Rooms):
    def steps(self, tasks_of, *chosen, **how):
        edits = [edit for crate in chosen for edit in listed(crate)]
        tasks = tasks_of(self.rt, self.room.name, edits, **how)
        return {key[:2]: [it[:2] for it in tasks[key][0]] for key in tasks}

    def test_over_what_may_be_out_of_date(self):
        steps = self.steps(trying.tasks_of, "ocfl_digest")
        self.assertEqual(steps["ocfl_tree", "library"], [])
        self.assertEqual(steps["ocfl_digest", "seed"], [("ocfl_tree", "library")])
        self.assertIn(("ocfl_digest", "seed"), steps["ocfl_digest", "proof"])
        self.assertEqual(steps["ocfl_digest", "edits"], [("ocfl_digest", "proof")])

    def test_over_kept_work(self):
        os.makedirs(os.path.join(self.crate().folder, trying.KEPT))
        self.assertNotIn(("ocfl_digest", "seed"), self.steps(trying.tasks_of, "ocfl_digest"))

    def test_beside_rt_ci(self):
        """The edits of a crate that is built whole wait for its own proof, and for no other."""
        steps = self.steps(trying.tasks_beside, "ocfl_digest", "ocfl_separators", whole=self.made)
        self.assertEqual(steps["ocfl_digest", "base"], [("ocfl_digest", "proof")])
        self.assertEqual(steps["ocfl_digest", "edits"], [("ocfl_digest", "base")])
        self.assertEqual(steps["ocfl_separators", "base"], [("ocfl_separators", "proof")])
        self.assertEqual({kind for _, kind in steps}, {"base", "edits", "end"})
        self.assertIn(("ocfl_digest", "edits"), steps["ocfl_digest", "end"])

    def test_beside_rt_ci_over_statements(self):
        """Another crate is proved once more, over the libraries that `rt ci` proved."""
        steps = self.steps(trying.tasks_beside, "ocfl_digest", whole={"ocfl_separators"})
        self.assertEqual(steps["ocfl_digest", "seed"], [("ocfl_tree", "proof")])
        self.assertEqual(steps["ocfl_digest", "proof"],
                         [("ocfl_tree", "proof"), ("ocfl_digest", "seed")])
        self.assertEqual(steps["ocfl_digest", "edits"], [("ocfl_digest", "proof")])

    def test_edits_of_what_is_not_proved_fail(self):
        proofs = {(name, "proof"): ([], 1, 1, lambda given, jobs: False) for name in self.made}
        noted = []
        proving.fill(self.rt, listed("ocfl_digest"), {"ocfl_digest"}, noted.append)
        was = os.getcwd()
        self.addCleanup(os.chdir, was)
        os.chdir(self.room.name)
        os.makedirs(os.path.join(self.crate().folder, trying.KEPT))
        (steps, ended), = self.ended
        with contextlib.redirect_stdout(io.StringIO()) as out:
            tasks = steps()
            given = one_by_one({**proofs, **tasks})
            ended({key: given[key] for key in tasks})
        # (that nothing was changed holds all the same)
        self.assertIn("\nedits: 1 passed, %d failed\n" % (len(listed("ocfl_digest")) + 1),
                      out.getvalue())
        self.assertEqual(noted, [set()])

    def test_edits_count_as_refused_where_all_else_went_well(self):
        """An edit over a proof that failed, or over kept work that was changed, does not count."""
        good, bad = trying.Step([(True, "")], 1), trying.Step([(False, "")], 1)
        both = trying.Step([(True, ""), (False, "")], 1)
        given = {("low", "base", ()): good, ("low", "edits", ("a", "b")): both,
                 ("low", "edits", ("c",)): good, ("low", "end", ()): good,
                 ("high", "edits", ("d",)): good, ("high", "end", ()): bad}
        self.assertEqual(trying.refused(given), {"a", "c"})


class Bases(Rooms):
    def test_changed_work_is_seen(self):
        self.write(trying.KEPT + "/a.oantt", b"one")
        kept = trying.Kept(self.crate())
        kept.files = trying.listing(kept.place)
        key = "ocfl_digest", "end", ()
        with contextlib.redirect_stdout(io.StringIO()):
            self.assertTrue(kept.compare(key, {}, 1).told[0][0])
            self.write(trying.KEPT + "/a.oantt", b"other")
            self.assertFalse(kept.compare(key, {}, 1).told[0][0])

    def test_what_a_check_writes_is_copied(self):
        """A check over links leaves what was kept as it is, also the files into which it writes, and
        what is linked from elsewhere already."""
        for name in ("a.oantt", *repository.WRITTEN):
            self.write(trying.KEPT + "/in/" + name, b"one")
        kept = trying.Kept(self.crate())
        kept.files = trying.listing(kept.place)
        with step.over(self.rt, self.crate()) as links:
            for name in repository.WRITTEN:
                with open(os.path.join(links, "in", name), "wb") as file:
                    file.write(b"other")
            linked, other = os.path.join(links, "in/a.oantt"), self.room.name + "/out/a.oantt"
            os.makedirs(os.path.dirname(other))
            with open(other, "wb") as file:
                file.write(b"of another crate")
            repository.copy_or_link(other, linked)
            self.assertEqual(os.stat(linked).st_nlink, 2)
        self.assertEqual(trying.listing(kept.place), kept.files)

    def test_library_without_proofs_is_proved(self):
        """Where nothing can be laid out, the check is one from nothing."""
        self.stand_in(check=lambda *_: types.SimpleNamespace(returncode=0),
                      lay_out=mock.Mock(side_effect=OSError))
        self.assertEqual(step.base(self.rt, self.crate(), []), (True, "proved"))

    def test_libraries_with_few_above_are_built_whole(self):
        made = {name: toolchain.Crate(name, "", None)
                for name in ("a%d" % at for at in range(proving.FEW + 2))}
        below_it = {name: ["a0"] for name in made if name != "a0"}
        self.stand_in(names_below=lambda crate: below_it.get(crate.name, []))
        self.assertEqual(proving.built_whole(made), set(made) - {"a0"})
        del below_it["a1"]
        self.assertEqual(proving.built_whole(made), set(made))


class Prover(Rooms):
    """What a step makes of the lines of a prover that gives those of its tests."""

    def setUp(self):
        super().setUp()
        self.flags, self.whole = [], []
        self.known = rounds.functions.functions_of("ocfl_digest")
        edits = rounds.share("ocfl_digest", listed("ocfl_digest"))[0][0]
        self.bodies = step.body_edits_of(self.crate(), edits)
        self.stand_in(check=self.checked, try_edit=self.try_edit,
                      edited=lambda rt, text, folder: ({"src/lib.rt": ""}, ""),
                      was_read=lambda rt, ran, changed: "cannot be read" not in ran.stdout)

    def checked(self, rt, crate, texts, flags, kept):
        self.flags.append(flags)
        asked = flags[1::2][1:] if "--only" in flags else [
            step.functions.path_of(it) for it in self.known]
        lines = [line for path in asked for line in self.lines_of(path)]
        last = "only=%d proved=0" % len(asked) if "--only" in flags else "logic=not-proved"
        return types.SimpleNamespace(returncode=self.status, stdout="\n".join([*lines, last, ""]))

    def try_edit(self, rt, crate, file, kept):
        with open(file) as it:
            self.whole.append(it.read())
        return False, "must-fail a/b: NOT REFUSED: the crate is still proved with this edit"

    def lines_of(self, path):
        """The prover's lines on a function: all are refused, but for some."""
        function = next(it for it in self.known if step.functions.path_of(it) == path)
        said = self.said.get(path, "no proof: `search` did not prove `returns`")
        at = "note: %s:%d:1: " % (function.file, rounds.span_of("ocfl_digest", function)[0])
        return [at + self.notes.get(path, "it is not proved"),
                "fn ocfl_digest::%s: %s" % (path, said)]

    status, said, notes = 1, {}, {}

    def path(self, at):
        return step.functions.path_of(self.bodies[at].function)

    def tried(self, **how):
        return step.together(self.rt, self.crate(), [it.edit for it in self.bodies], **how)

    def test_round_is_of_what_it_changes(self):
        self.assertTrue(all(well for well, _ in self.tried()))
        paths = [step.functions.path_of(body.function) for body in self.bodies]
        self.assertEqual(self.flags, [["--jobs", "1", *step.only(paths)]])

    def test_first_check_is_of_the_whole_crate(self):
        self.assertTrue(all(well for well, _ in self.tried(jobs="2", first=True)))
        self.assertEqual(self.flags, [["--jobs", "2"]])

    def test_edit_that_changes_nothing_fails(self):
        """What the prover still proves is not refused, whatever else it says there, and whatever
        it says of the others."""
        for said in ("proved", "no proof: it calls `ocfl_digest::a`, which is not proved"):
            self.said, self.whole = {self.path(0): said}, []
            wells = [well for well, _ in self.tried()]
            self.assertEqual(wells, [False] + [True] * (len(self.bodies) - 1), said)
            self.assertEqual(self.whole, [self.bodies[0].edit.text()])

    def test_no_verdict_is_no_refusal(self):
        unread = {self.path(at): "cannot be read" for at in range(len(self.bodies))}
        for status, notes in ((0, {}), (2, {}), (3, {}), (1, unread)):
            self.status, self.notes, self.whole = status, notes, []
            self.assertFalse(any(well for well, _ in self.tried()))
            self.assertEqual(self.whole, [body.edit.text() for body in self.bodies])

    def test_gone_name_is_said(self):
        """Where a proof only lacks a name, the edit is tried alone, and that is said of it."""
        folder = rounds.folders_of(self.bodies[0].function)[0]
        note = "%s/Answers.antt:1:1: error: `it` has no field `other`" % folder
        self.lines_of = lambda path: [note, "fn ocfl_digest::%s: not proved" % self.path(0)]
        (well, text), *_ = self.tried()
        self.assertTrue(well)
        self.assertIn(step.NAMES_ALONE, text)
        self.assertEqual(self.flags[1], ["--jobs", "1", "--only", self.path(0)])
        self.assertNotIn(self.bodies[0].edit.text(), self.whole)

    def test_paths_are_those_of_the_prover(self):
        function = rounds.functions.Function("<Trouble as From<AllocFailed<T>>>::from", "Trouble",
                                             True, "src/store.rt", 0, 0, "")
        self.assertEqual(step.functions.path_of(function), "store::TroubleFromAllocFailed::from")
        function = function._replace(name="<DisplayPlace as fmt::Display>::fmt", file="src/a/b.rt")
        self.assertEqual(step.functions.path_of(function), "a::b::DisplayPlaceDisplay::fmt")
        function = function._replace(name="<Stop as From<clap::Error>>::from", file="src/stop.rt")
        self.assertEqual(step.functions.path_of(function), "stop::StopFromClapError::from")
        function = function._replace(name="Line::put", file="src/lib.rt")
        self.assertEqual(step.functions.path_of(function), "Line::put")

    def test_unknown_path_is_a_check_of_the_whole_crate(self):
        given = self.checked

        def checked(rt, crate, texts, flags, kept):
            ran = given(rt, crate, texts, flags, kept)
            ran.returncode = 2 if "--only" in flags else 1
            return ran

        self.stand_in(check=checked)
        self.assertTrue(all(well for well, _ in self.tried()))
        self.assertEqual(["--only" in flags for flags in self.flags], [True, False])


if __name__ == "__main__":
    unittest.main()
