"""Tests which links of pages lead nowhere."""
import os
import unittest
from unittest import mock

from gate.pages import links

PAGES = {
    "README.md": "# The head\n\n[a](docs/A.md) [b](docs/A.md#more-words) [c](#the-head) "
                 "[d](https://x.y/z) `[no](link)`\n\n    [no](link)\n",
    "docs/A.md": "## More *words*\n\n[back](../README.md) [gone](B.md) [no title](#other)\n",
}


class Links(unittest.TestCase):
    def test_links_that_lead_nowhere(self) -> None:
        with mock.patch.object(links, "text_of", PAGES.get):
            self.assertEqual(list(links.lost({it: it for it in PAGES})), [
                "docs/A.md links to B.md, which is not there",
                "docs/A.md links to #other, and there is no such title"])

    def test_where_a_page_lies_decides(self) -> None:
        with mock.patch.object(links, "text_of", PAGES.get):
            self.assertEqual(len(list(links.lost({"share/A.md": "docs/A.md"}))), 3)

    def test_pages_that_are_installed(self) -> None:
        pages = links.as_installed()
        self.assertEqual(pages["share/doc/ocfl-scrub/README.md"], "README.md")
        for page in pages.values():
            self.assertTrue(os.path.exists(os.path.join(links.TOP, page)), page)
