"""Tests what is used of the toolchain's command, and that one file alone names anything of it."""
import glob
import json
import os
import re
import sys
import tempfile
import types
import unittest

from gate import toolchain
from gate.repository import TOP

# What names something of the inside of the command, or of a crate that it knows.
INSIDE = re.compile(r"\brt\.\w|\brtlib\b|\.(rlib|cuts_libraries|of_kit|deps|build_rlib|must_fail"
                    r"|in_lanes)\b|(?<!repository)\.below\(|\.count\(rb|\b(get|has)attr\(rt\b")
# What speaks of the crates by a file's ending, or of a folder, is no such name.
ALLOWED = re.compile(r"\w\.rt\b|[\"'/*]\.rt\b")


class Command(unittest.TestCase):
    def test_this_kit_has_what_is_used(self):
        rt = toolchain.load()
        self.assertIsNotNone(rt, "the command rt is not found")
        self.assertEqual(toolchain.missing(rt, TOP), [])

    def test_what_is_missing_is_named(self):
        rt = types.SimpleNamespace(**{name: None for name in toolchain.USED if "." not in name})
        self.assertEqual(toolchain.missing(rt, TOP),
                         [name for name in toolchain.USED if "." in name])
        crate = types.SimpleNamespace(**dict.fromkeys(toolchain.USED_OF_CRATE))
        del crate.rlib
        rt.Crate = types.SimpleNamespace(**dict.fromkeys(
            ["below", "build_rlib", "ci", "count", "words"]))
        rt.rtlib = types.SimpleNamespace(ALLOW_C="", RATTLE="", STALE="", guarded=None,
                                         crates_below=lambda top: [crate])
        self.assertEqual(toolchain.missing(rt, TOP), ["a crate's rlib"])

    def test_all_that_is_used_is_named(self):
        """What the file takes of the command is in its lists, by which a kit is judged."""
        with open(toolchain.__file__, encoding="utf-8") as file:
            text = file.read()
        used = set(re.findall(r"\brt\.((?:rtlib\.|Crate\.)?\w+)", text)) - {"Crate", "rtlib"}
        of_crate = set(re.findall(r"\b(?:known|below)\.(\w+)", text))
        named = {*toolchain.USED, "Kept"}
        self.assertEqual(sorted(used - named), [])
        calls = {it.removeprefix("Crate.") for it in toolchain.USED if it.startswith("Crate.")}
        self.assertEqual(sorted(of_crate - calls - {*toolchain.USED_OF_CRATE}), [])
        self.assertEqual(sorted(calls - of_crate), ["ci"])

    def test_no_other_file_names_its_inside(self):
        files = [os.path.join(TOP, name) for name in ("test", "install", "package", "ocfl-scrub")]
        for folder in ("gate", "bench"):
            files += glob.glob(os.path.join(TOP, folder, "**", "*.py"), recursive=True)
        own = {os.path.realpath(toolchain.__file__), os.path.realpath(__file__)}
        found = []
        for path in (it for it in files if os.path.realpath(it) not in own):
            with open(path, encoding="utf-8") as file:
                found += ["%s:%d: %s" % (os.path.relpath(path, TOP), number, line.strip())
                          for number, line in enumerate(file, 1)
                          if INSIDE.search(ALLOWED.sub("", line))]
        self.assertEqual(found, [])

    def test_verdicts_of_each_kit(self):
        words = types.SimpleNamespace(REFUSED="refused", AT_LIMIT="limit")
        self.assertEqual([toolchain.is_refusal(words, it) for it in ("refused", "limit", "missed")],
                         [True, True, False])
        self.assertEqual([toolchain.is_refusal(types.SimpleNamespace(), it)
                          for it in (True, False)], [True, False])


class Known:
    """A crate as the command has it."""

    def __init__(self, name, lower=()):
        self.name, self.folder, self.lower, self.out = name, "/" + name, lower, sys.stdout

    def below(self):
        return self.lower

    def count(self, line):
        return 7 if line == rb"\n" else 0

    def build_rlib(self, flags, anew):
        self.out.write("%s %s" % (flags, anew))
        return 1 if flags else 0


class Crates(unittest.TestCase):
    def setUp(self):
        low = Known("low")
        rtlib = types.SimpleNamespace(crates_below=lambda top: [low, Known("high", [low])],
                                      STALE=re.compile("stale"), ALLOW_C="A_WORD")
        self.rt = types.SimpleNamespace(
            rtlib=rtlib, need=lambda crate: len(crate.name), main=lambda words: words,
            processors=lambda: 3, in_lanes=lambda tasks: {key: call for key, call in tasks.items()},
            unread=lambda line, changed: line in changed)
        self.made = toolchain.crates_of(self.rt, "/")

    def test_crates_are_the_gates_own(self):
        high = self.made["high"]
        self.assertEqual(list(self.made), ["low", "high"])
        self.assertEqual((high.name, high.folder), ("high", "/high"))
        self.assertEqual(toolchain.names_below(high), ["low"])
        self.assertEqual((toolchain.lines_of(high), toolchain.memory_of(self.rt, high)), (7, 4))

    def test_what_a_library_said_is_handed_on(self):
        self.assertEqual(toolchain.build_library(self.made["low"], []), (True, "[] False"))
        self.assertEqual(toolchain.build_library(self.made["low"], ["-x"]),
                         (False, "['-x'] False"))

    def test_edits_are_judged(self):
        self.rt.edited = lambda text, folder: (None, "why") if text == "bad" else ({"a": ""}, None)
        self.assertEqual(toolchain.edited(self.rt, "bad", "/"), ({}, "why"))
        self.assertEqual(toolchain.edited(self.rt, "good", "/"), ({"a": ""}, ""))
        self.rt.must_fail = lambda crate, file, flags, kept: (crate.name == "low", "%s" % flags)
        self.assertEqual(toolchain.try_edit(self.rt, self.made["low"], "", ""),
                         (True, "['--jobs', '1']"))
        self.assertFalse(toolchain.try_edit(self.rt, self.made["high"], "", "")[0])

    def test_what_was_read_is_seen(self):
        for said, is_read in [("fine\n", True), ("fine\nodd\n", False), ("stale\n", False)]:
            ran = types.SimpleNamespace(stdout=said)
            self.assertEqual(toolchain.was_read(self.rt, ran, {"odd": ""}), is_read, said)

    def test_checks_are_of_the_crate_as_the_command_has_it(self):
        self.rt.checked = lambda crate, *given: (crate.name, *given)
        self.assertEqual(toolchain.check(self.rt, self.made["low"], {}, ["-x"], "kept"),
                         ("low", {}, ["-x"], "kept"))

    def test_steps_stand_in_the_queue_of_the_command(self):
        given = []
        toolchain.put_into_queue(self.rt, lambda: {"own": 2}, given.append)
        self.assertEqual(self.rt.in_lanes({"its": 1}), {"its": 1, "own": 2})
        self.assertEqual(given, [{"own": 2}])
        self.assertEqual(toolchain.prove_all(self.rt), ["ci"])
        self.assertEqual(toolchain.processors(self.rt), 3)

    def test_code_in_c_is_not_trusted(self):
        os.environ["A_WORD"] = "1"
        toolchain.forbid_c(self.rt)
        toolchain.forbid_c(self.rt)
        self.assertNotIn("A_WORD", os.environ)

    def test_a_crate_is_read_from_a_folder(self):
        below = types.SimpleNamespace(rlib="/low.rlib", of_kit=["std", "hex"],
                                      deps=[types.SimpleNamespace(name="lowest")])
        words = ["--crate-name", "laws", "--extern", "std=/kit/std.rlib", "--extern",
                 "lowest=/lowest.rlib", "--extern", "low=/low.rlib", "--jobs", "1"]
        known = types.SimpleNamespace(words=lambda flags, keeps: words + flags)
        self.assertEqual(
            toolchain.words_over(toolchain.Crate("laws", "", known),
                                 toolchain.Crate("low", "", below), "/room", ["--only", "one"]),
            words[:6] + ["--lib", "low:core,std,hex,lowest=/room/src/lib.rt"] + words[8:]
            + ["--only", "one", "--extern", "core=/kit/core.rlib", "--extern",
               "hex=/kit/hex.rlib"])


class Libraries(unittest.TestCase):
    def test_library_is_laid_out(self):
        """The modules that a library carries become the files that a check would have kept, and
        statements of modules do not."""
        with tempfile.TemporaryDirectory() as room:
            library = os.path.join(room, "out", "it.rlib")
            os.makedirs(os.path.join(library, "toolchain"))

            def write(path, text):
                with open(os.path.join(library, path), "w", encoding="utf-8") as file:
                    file.write(text)

            write("format", "rattle rlib\nrattle-build antt-1/0/src-2.bid-3\ncrate it\n")
            rows = [["Rattle-a.b", 4, 3], ["part/Rattle-a.c", 7, 2], ["sum/all", 9, 1]]
            write("toolchain/checked.json", "\n".join(map(json.dumps, rows)))
            write("toolchain/checked.a", "ar: onetws")
            toolchain.lay_out(toolchain.Crate("it", room, types.SimpleNamespace(rlib=library)))
            folder = os.path.join(room, toolchain.KEPT, "antt-1_0_src-2.bid-3")
            self.assertEqual(sorted(os.listdir(folder)), ["Rattle-a.b.oantt", "long"])
            with open(os.path.join(folder, "Rattle-a.b.oantt"), "rb") as file:
                self.assertEqual(file.read(), b"one")

    def test_long_names_are_laid_out(self):
        """A name of 129 bytes, and the file in which a check was seen to keep its module."""
        name = ("Rattle-ocfl_report-proofs.reading.fn.split_once.position+FnMut.TheLinks."
                "ocfl_report-reading-fn-split_once-position+FnMut-call_mut")
        path = "long/8313e637bb46f2ac0a00b54c7c2ddf8dbab24cf106645cce3af962556bad7a49.oantt"
        self.assertEqual(list(toolchain.paths_of(name)), [path])
        self.assertIn(name[:120] + ".oantt", toolchain.paths_of(name[:120]))
        self.assertEqual(len(list(toolchain.paths_of(name[:120]))), 2)

    def test_libraries_are_built_whole(self):
        class Built:
            cuts_libraries = True

            def __init__(self, name):
                self.name = name

            def ci(self, flags, tests):
                return self.cuts_libraries

        class Known:
            def key(self, crate):
                return "sum"

        rt = types.SimpleNamespace(Crate=Built, Kept=Known)
        toolchain.build_whole(rt, {"high"})
        self.assertFalse(rt.Crate("high").ci([], False))
        self.assertTrue(rt.Crate("low").ci([], False))
        # (what an earlier run kept without its proofs has another name)
        self.assertNotEqual(rt.Kept().key(rt.Crate("high")), "sum")
        self.assertEqual(rt.Kept().key(rt.Crate("low")), "sum")

    def test_libraries_are_built_whole_where_nothing_is_kept(self):
        """Some kits keep no proofs for later runs."""
        class Built:
            name, cuts_libraries = "high", True

            def ci(self, flags, tests):
                return self.cuts_libraries

        rt = types.SimpleNamespace(Crate=Built)
        toolchain.build_whole(rt, {"high"})
        self.assertFalse(rt.Crate().ci([], False))


if __name__ == "__main__":
    unittest.main()
