"""Tests what is said of the parts of a storage root, and what `tell` sends."""
import contextlib
import fcntl
import io
import os
import subprocess
import sys
import tempfile
import unittest
from unittest import mock

from gate.repository import TOP

sys.path[:0] = [os.path.join(TOP, "nights"), os.path.join(TOP, "nights", "parallel")]

import dividing
import given
import joining
import notes
from folder import note
from ocfl_scrub_reports import tell
from ocfl_scrub_reports.shared import Failed

FINDING = "E092\to01/v1/content/a\tsha256 0 1\n"


class State(unittest.TestCase):
    """The folder of the parts of a storage root."""

    def setUp(self):
        folder = tempfile.TemporaryDirectory()
        self.addCleanup(folder.cleanup)
        self.state = folder.name + "/state"
        self.put("said/.keep", "")
        os.remove(self.state + "/said/.keep")

    def put(self, name, text):
        path = os.path.join(self.state, name)
        os.makedirs(os.path.dirname(path), exist_ok=True)
        with open(path, "wb") as file:
            file.write(os.fsencode(text))

    def close(self, number, cycle, names=8, is_whole=True, is_listed=True):
        """What a part leaves that closed a cycle."""
        reports = "part-%06d/reports/" % number
        self.put(reports + ("cycle" if is_whole else "incomplete") + "-%06d" % cycle, "")
        self.put(reports + "checkpoint-%06d" % cycle, "names 0\nnames %d abc\n" % names)
        if is_listed:
            self.put(reports + "gone-%06d" % cycle, "object\tp%d\n" % number)


class Said(State):
    def said(self, *texts):
        for number, text in enumerate(texts, 1):
            self.put("said/%06d-1.%d" % (number, number), text)
        return os.fsdecode(notes.Notes(self.state).text())

    def test_what_several_parts_say_of_their_folders_is_there_once(self):
        text = "ocfl-scrub: %s/part-%06d/checkpoint is damaged.\n"
        self.assertEqual(self.said(*(text % (self.state, number) for number in (1, 2, 3))),
                         "In parts 1-3:\n" + text.replace("part-%06d", "part-*") % self.state)

    def test_paths_as_the_program_shows_them(self):
        self.state += "/b\u00fcro 5%"
        shown = self.state.replace("\u00fc", "%C3%BC").replace("%", "%25").replace("%25C3%25BC",
                                                                                 "%C3%BC")
        text = "%s/part-%06d/checkpoint is damaged.\n"
        self.assertEqual(self.said(*(text % (shown, number) for number in (1, 2))),
                         "In parts 1-2:\n" + text.replace("part-%06d", "part-*") % shown)

    def test_commands_stay_as_they_are(self):
        """The path in them is quoted, and no part has the command of another."""
        self.state += "/b\u00fcro 5%"
        texts = ["3 not shown here: ocfl-scrub-reports findings '%s/part-%06d/report'\n"
                 % (self.state, number) for number in (1, 2)]
        self.assertEqual(self.said(*texts), "In part 1:\n%sIn part 2:\n%s" % tuple(texts))

    def test_one_part_says_the_name_of_its_folder(self):
        text = "What is gone: %s/part-000001/reports/gone-000002\n" % self.state
        self.assertEqual(self.said(text), "In part 1:\n" + text)

    def test_the_number_of_a_part_is_not_said_twice(self):
        """Whatever the words are that come before it; a name is none of them."""
        for words in ("2 findings tonight in ", "A night of parts in "):
            said = [words + "part %d of /srv/ocfl: x\n" % number for number in (1, 2)]
            self.assertEqual(self.said(*said), "In parts 1-2:\n" + words + "/srv/ocfl: x\n")
        said = ["/a in part %d of b is damaged\n" % number for number in (1, 2)]
        self.assertEqual(self.said(*said), "In part 1:\n%sIn part 2:\n%s" % tuple(said))

    def test_places_are_told_as_they_are(self):
        """They may have the name of a part's folder, or of all of them."""
        for first, second in [
                ("ocfl-scrub: left out: part-000001\n", "ocfl-scrub: left out: part-000002\n"),
                ("E092\tpart-000001/a\tsha256 0 1\n", "E092\tpart-000002/a\tsha256 0 1\n"),
                ("ocfl-scrub: stopped at part-000001\n", "ocfl-scrub: stopped at part-000002\n"),
                ("Elsewhere: part-000001 (E072)\n", "Elsewhere: part-000002 (E072)\n"),
                ("object\tpart-*\n", "object\tpart-000001\n")]:
            self.assertEqual(self.said(first, second), "In part 1:\n%sIn part 2:\n%s" % (
                first, second))
            self.assertEqual(self.said(first, first), "In parts 1-2:\n" + first)

    def test_two_nights_of_a_part_say_a_finding_twice(self):
        self.put("said/000001-1.1", "first\n" + FINDING)
        self.put("said/000001-2.2", "second\n" + FINDING)
        self.assertEqual(notes.Notes(self.state).text().count(FINDING.encode()), 2)

    def test_what_is_no_note_is_passed_over_and_named(self):
        for name in (".nfs0001", "000001-1.1~", "a\nb"):
            self.put("said/" + name, "x")
        text = self.said(FINDING)
        self.assertEqual(text.splitlines()[:2], ["In part 1:", FINDING[:-1]])
        for name in (".nfs0001", "000001-1.1~", "a%0Ab"):
            self.assertIn("%s/said/%s is not a note" % (self.state, name), text)
        found = notes.Notes(self.state)
        self.assertEqual(found.numbers(), {1})
        found.remove()
        self.assertEqual(len(os.listdir(self.state + "/said")), 3)


class Noted(State):
    """`end` at each moment of a part that makes its note, and after it."""

    def said(self):
        """What is in the message of `end`, and the names that are left then."""
        found = notes.Notes(self.state)
        found.remove()
        return os.fsdecode(found.text()), os.listdir(self.state + "/said")

    def noted(self, call):
        """The message of an `end` that comes before this call of a part, which then says a finding,
        and that of the next one."""
        real, said = getattr(sys.modules[call.split(".")[0]], call.split(".")[1]), []

        def after_an_end(*given):
            if not said:
                said.append("under way")
                said[:] = self.said()[:1]
            return real(*given)

        with mock.patch(call, after_an_end):
            file = note(self.state, 1)
            os.write(file, FINDING.encode())
        os.close(file)
        return [*said, self.said()]

    def test_a_note_that_is_not_held_yet(self):
        self.assertEqual(self.noted("fcntl.flock"), ["", ("In part 1:\n" + FINDING, [])])

    def test_a_note_without_its_name(self):
        self.assertEqual(self.noted("os.rename"), ["", ("In part 1:\n" + FINDING, [])])

    def test_one_into_which_a_night_still_writes(self):
        file = note(self.state, 1)
        os.write(file, FINDING.encode())
        said, left = self.said()
        self.assertEqual((said, len(left)), ("", 1))
        os.close(file)
        self.assertEqual(self.said(), ("In part 1:\n" + FINDING, []))

    def test_a_part_that_was_killed_before_its_note_had_a_name(self):
        self.put("said/000001-1.1.new", "")
        self.assertEqual(self.said(), ("", []))

    def test_such_a_file_with_a_text_is_of_somebody_else(self):
        self.put("said/000001-1.1.new", "x")
        said, left = self.said()
        self.assertIn("said/000001-1.1.new is not a note of a part", said)
        self.assertEqual(left, ["000001-1.1.new"])

    def test_one_that_grew_after_it_was_read(self):
        """A part whose lock was lost writes on."""
        self.put("said/000001-1.1", "first\n")
        found = notes.Notes(self.state)
        self.put("said/000001-1.1", "first\n" + FINDING)
        found.remove()
        self.assertEqual(self.said(), ("In part 1:\nfirst\n" + FINDING, []))

    def test_one_that_is_held_after_it_was_read(self):
        self.put("said/000001-1.1", FINDING)
        found = notes.Notes(self.state)
        with open(self.state + "/said/000001-1.1", "rb") as file:
            fcntl.flock(file, fcntl.LOCK_EX)
            found.remove()
        self.assertEqual(os.listdir(self.state + "/said"), ["000001-1.1"])

    def test_one_that_somebody_removed(self):
        self.put("said/000001-1.1", FINDING)
        found = notes.Notes(self.state)
        os.remove(self.state + "/said/000001-1.1")
        found.remove()

    def test_links_are_not_followed(self):
        self.put("secret", "")
        for name in ("000001-1.1", "000001-1.1.new"):
            os.symlink(self.state + "/secret", self.state + "/said/" + name)
            self.assertRaises(OSError, notes.Notes, self.state)
            os.remove(self.state + "/said/" + name)
        self.assertTrue(os.path.exists(self.state + "/secret"))

    def test_no_note_takes_the_name_of_another(self):
        with mock.patch("time.time_ns", lambda: 1):
            self.put("said/000001-1.%d" % os.getpid(), FINDING)
            self.assertRaises(Failed, note, self.state, 1)
        self.assertIn(FINDING, self.said()[0])


class Joined(State):
    def setUp(self):
        super().setUp()
        self.put("parts", "b\n")
        self.put("reports/.keep", "")
        self.called = 0

    def join(self, cycle=0, statuses=(0,), word=""):
        """What `join` says, where the program joins all that it can, says so and ends so."""
        made = self.joined(cycle, statuses, word)
        self.assertEqual(made.status, 3 if made.text else 0)
        return made.text

    def joined(self, cycle=0, statuses=(0,), word=""):
        def run(words):
            status = statuses[min(self.called, len(statuses) - 1)]
            self.called += 1
            for it in parts.unjoined() if status < 2 else ():
                if parts.can_join(it):
                    kind = "incomplete" if parts.lacking(it) else "cycle"
                    self.put("reports/%s-%06d" % (kind, it), "")
            return status, word, "why" if status > 1 else ""

        parts = joining.Parts(self.state)
        with mock.patch.object(joining, "run_apart", run), mock.patch.object(
                joining, "find_program", lambda: "program"), mock.patch.object(
                    joining, "PATIENCE", 0.1), mock.patch.object(joining.time, "sleep"):
            return joining.join(self.state, cycle)

    def left(self):
        """What was left to be said of all parts."""
        return os.fsdecode(notes.Notes(self.state).text())

    def test_each_cycle_that_all_parts_closed(self):
        for cycle in (1, 2, 3):
            for number in (1, 2):
                self.close(number, cycle)
        self.close(1, 4)
        self.assertEqual(joining.Parts(self.state).unjoined(), [1, 2, 3])
        self.assertEqual((self.join(), self.called), ("", 1))
        self.assertEqual(joining.Parts(self.state).unjoined(), [])
        for cycle in (1, 2, 3):
            with open(self.state + "/reports/gone-%06d" % cycle) as file:
                self.assertEqual(file.read(), "object\tp1\nobject\tp2\n")

    def test_a_part_has_closed_what_it_has_a_list_of(self):
        self.close(1, 1)
        self.close(2, 1, is_listed=False)
        self.assertEqual(given.closed(self.state, 2), {})
        self.assertEqual((self.join(1), self.called), ("", 0))
        self.assertFalse(os.path.exists(self.state + "/reports/gone-000001"))

    def test_one_that_never_can_be_joined_is_named_once(self):
        for number in (1, 2):
            self.close(number, 1)
            self.close(number, 2, is_listed=number == 1)
            self.close(number, 3)
        self.assertEqual((self.join(3), self.left().count("cycle 2 are never joined")), ("", 1))
        for number in (1, 2):
            self.close(number, 4)
        self.assertEqual((self.join(4), self.left().count("never joined")), ("", 1))

    def test_what_is_not_whole_is_joined_too_and_said_once(self):
        self.close(1, 1)
        self.close(2, 1, is_whole=False)
        self.put("part-000002/log", '{"night":9,"row":"left","cycle":1,"place":"a","why":"no"}\n')
        text = ("The joined report of cycle 1 is incomplete: that of part 2 is not whole.\n"
                "Left out: a: no")
        self.assertEqual([self.join(1), self.join(1), self.join(2)], [text, "", ""])
        self.assertEqual(self.called, 1)
        for number in (1, 2):
            self.close(number, 2)
        self.assertEqual((self.join(2), self.called), ("", 2))

    def test_what_the_program_says_of_a_cycle(self):
        """It is no failure, whatever its words are, and the status is the program's."""
        word = "Cycle 1 ended: 9 of 9 files right."
        for number in (1, 2):
            self.close(number, 1)
        self.assertEqual(self.joined(1, word=word), ("", 0, word))
        for number in (1, 2):
            self.close(number, 2)
        self.assertEqual(self.joined(2, [1], word), ("", 1, word))
        self.close(1, 3)
        self.close(2, 3, is_whole=False)
        made = self.joined(3, [0], word)
        self.assertEqual((made.whole().startswith(word + "\nThe joined report of cycle 3 is incom"),
                          made.status), (True, 3))

    def test_what_was_said_of_all_parts_has_a_status(self):
        """That of its note, which is 3 if the note does not say it."""
        self.assertEqual(notes.Notes(self.state).status, 0)
        given.leave(self.state, "all is well", 0)
        self.assertEqual(notes.Notes(self.state).status, 0)
        given.leave(self.state, "one is missing", 1)
        self.assertEqual(notes.Notes(self.state).status, 1)
        given.leave(self.state, "it failed")
        made = notes.Notes(self.state)
        self.assertEqual((made.status, made.strange, made.text()), (
            3, [], b"all is well\none is missing\nit failed\n"))
        made.remove()
        self.assertEqual(os.listdir(self.state + "/said"), [])

    def test_one_that_failed_is_said_with_its_reason(self):
        for number in (1, 2):
            self.close(number, 1)
        self.assertEqual(self.join(1, [3]), "The reports of cycle 1 are not joined:\nwhy")

    def test_another_call_is_waited_for(self):
        for number in (1, 2):
            self.close(number, 1)
        self.assertEqual((self.join(1, [75, 75, 0]), self.called), ("", 3))
        for number in (1, 2):
            self.close(number, 2)
        self.assertEqual(self.join(2, [75]), "The reports of cycle 2 are not joined:\nwhy")

    def test_parts_that_saw_far_fewer_names_are_named(self):
        """Their cycle is not joined, which is said on its night; the others are."""
        for few, is_said in [(1, True), (3, True), (4, False), (8, False)]:
            self.close(1, few)
            self.close(2, few, names=few)
            said = self.join(few)
            self.assertEqual("had 8 names when part 1 began, and at most %d when part 2 did" % few
                             in said, is_said, said)
            self.assertEqual(joining.Parts(self.state).is_joined(few), not is_said)
        self.assertEqual(self.join(8), "")
        self.assertEqual(joining.Parts(self.state).unjoined(), [1, 3])


class Late(State):
    """Parts of an earlier night, of which `end` has what they said."""

    def test_the_status_of_the_last_night(self):
        row = '{"findings":0,"night":%d,"row":"night","runs":1,"status":%d,"time":9}\n'
        for rows, status in [([], 3), ([0], 1), ([1], 1), ([3, 0], 1), ([0, 3], 3), ([1, 4], 4)]:
            self.put("part-000002/log", "".join(row % it for it in enumerate(rows)))
            self.assertEqual(given.last_status(self.state, 2), status, rows)

    def test_a_part_without_a_folder(self):
        self.assertEqual(given.last_status(self.state, 9), 3)


class Divided(State):
    def refused(self, parts):
        try:
            dividing.refuse_others(self.state, parts)
        except Failed as error:
            self.assertEqual(error.status, 2)
            self.assertIn("new folder", str(error))
            return True
        return False

    def test_other_parts(self):
        self.assertFalse(self.refused("4"))
        self.put("parts", "b\nc\n")
        self.put("parts.asked", "5\n")
        self.assertEqual([self.refused(it) for it in ("", "3", "5", "4", "6", "2")],
                         [False, False, False, True, True, True])

    def test_a_folder_that_does_not_say_what_was_asked_for(self):
        self.put("parts", "b\nc\n")
        self.assertEqual([self.refused(it) for it in ("3", "5", "2")], [False, False, True])

    def test_other_separators(self):
        self.put("parts", "b\nc\n")
        self.put("same", "b\nc\n")
        self.put("other", "b\n")
        self.assertEqual([self.refused(self.state + "/" + it) for it in ("same", "other")],
                         [False, True])


class Told(State):
    def told(self, **given_on):
        night = tell.Night("archive", [self.state], {"EXIT_CODE": "exited", "EXIT_STATUS": "3",
                                                     "INVOCATION_ID": "x", **given_on})
        with contextlib.redirect_stderr(io.TextIOWrapper(io.BytesIO(), write_through=True)) as out:
            status = tell.send(night)
            out.seek(0)
            return status, out.read()

    def test_a_text_that_took_nothing(self):
        self.put("tonight.x", "")
        said = self.told(SERVICE_RESULT="exit-code")[1]
        self.assertIn("could not be written into %s" % self.state, said)
        self.assertIn("journalctl -u ocfl-scrub@archive", said)
        self.assertEqual(os.listdir(self.state), ["said"])

    def test_a_killed_night_says_nothing_of_room(self):
        self.put("tonight.x", "")
        said = self.told(EXIT_CODE="killed", EXIT_STATUS="KILL", SERVICE_RESULT="signal")[1]
        self.assertNotIn("room", said)

    def test_no_journal_is_named_where_there_is_none(self):
        self.assertNotIn("journal", self.told()[1])
        self.assertIn("journalctl", self.told(SERVICE_RESULT="exit-code")[1])

    def test_a_mail_that_hangs(self):
        self.put("tonight.x", FINDING)

        def hang(words, timeout=None, **_):
            raise subprocess.TimeoutExpired(words, timeout)

        with mock.patch.object(subprocess, "run", hang):
            status, said = self.told(EXIT_STATUS="1", MAIL="her@example.org")
        self.assertEqual((status, "could not be sent" in said, FINDING in said), (3, True, True))
        self.assertTrue(os.path.exists(self.state + "/tonight.x"))
