"""Tests the picture of README."""
import contextlib
import io
import os
import unittest
from unittest import mock

from gate.pages import picture
from gate.repository import TOP


class Picture(unittest.TestCase):
    def test_it_is_there_and_small(self) -> None:
        with open(os.path.join(TOP, "docs", "page.png"), "rb") as file:
            data = file.read()
        self.assertEqual((data[:8], len(data) <= picture.MOST_BYTES),
                         (b"\x89PNG\r\n\x1a\n", True))

    def test_statuses(self) -> None:
        for words, status in [(["--help"], 0), ([], 2), (["a", "b"], 2), (["--more"], 2)]:
            with contextlib.redirect_stdout(io.StringIO()), \
                    contextlib.redirect_stderr(io.StringIO()):
                self.assertEqual(picture.main(words, "usage"), status)

    def test_without_a_browser(self) -> None:
        said = io.StringIO()
        with mock.patch.object(picture.message, "sample", return_value=("", "<p>")), \
                mock.patch.object(picture.shutil, "which", return_value=None), \
                contextlib.redirect_stderr(said):
            self.assertEqual(picture.main(["/none/x.png"], "usage"), 3)
        self.assertIn("Chromium is not there (Debian: chromium)", said.getvalue())
