"""Tests how README's block is made of what the programs write."""
import contextlib
import io
import os
import tempfile
import unittest
from unittest import mock

from gate.pages import message

class Message(unittest.TestCase):
    def test_digests_are_cut(self) -> None:
        self.assertEqual(message.block("sha512 %s end\n\nmore\n" % ("0f" * 64)),
                         "    sha512 0f0f0f0f0f0f.. end\n\n    more\n")

    def test_page_keeps_all_else(self) -> None:
        page = "# A\n\n%sold\n%s\nmore\n" % (message.BEGIN, message.END)
        made = message.put(page, "    new\n")
        self.assertEqual(made, page.replace("old\n", "\n    new\n\n"))
        self.assertEqual(message.put(made, "    new\n"), made)
        with self.assertRaises(ValueError):
            message.put("# A\n", "    new\n")

    def test_the_message_is_printed_or_put_there(self) -> None:
        with tempfile.TemporaryDirectory() as folder, \
                mock.patch.object(message, "PAGE", os.path.join(folder, "README.md")), \
                mock.patch.object(message, "sample", lambda it: ("one\n\ttwo\n", "a page")):
            with open(message.PAGE, "w", encoding="utf-8") as file:
                file.write(message.BEGIN + "old\n" + message.END)
            with contextlib.redirect_stdout(io.StringIO()) as out:
                self.assertEqual(message.main([], "usage"), 0)
            self.assertEqual(out.getvalue(), "    Subject: one\n    \ttwo\n")
            self.assertEqual(message.main(["--write"], "usage"), 0)
            with open(message.PAGE, encoding="utf-8") as file:
                self.assertEqual(file.read(), "%s\n%s\n%s" % (message.BEGIN, out.getvalue(),
                                                              message.END))

    def test_statuses(self) -> None:
        for words, status in [(["--help"], 0), (["more"], 2)]:
            with contextlib.redirect_stdout(io.StringIO()), \
                    contextlib.redirect_stderr(io.StringIO()):
                self.assertEqual(message.main(words, "usage"), status)
