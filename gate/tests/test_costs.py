"""Tests what a change of a crate is said to cost."""
import unittest

from gate.pages import costs

LINES = {"low": "low:\n", "beside": "beside: low sha2\n", "high": "high: beside\n",
         "alone": "alone: hex\n", "new": "new: high\n"}
ROWS = {"low": (1.0, 2.0, "1234567"), "beside": (0.5, 0.25, "1234567"),
        "high": (10.0, 20.0, "1234567+"), "alone": (0.1, None, "1234567")}


class Costs(unittest.TestCase):
    def test_crates_above_through_others(self) -> None:
        self.assertEqual(costs.above(LINES), {
            "low": ["beside", "high", "new"], "beside": ["high", "new"], "high": ["new"],
            "alone": [], "new": []})

    def test_table_leaves_out_crates_without_a_row(self) -> None:
        self.assertEqual(costs.table(ROWS, LINES), costs.HEAD
                         + "| `low` | 1.0 | 2.0 | 34 | 2 |\n"
                         + "| `beside` | 0.5 | 0.2 | 31 | 1 |\n"
                         + "| `high` | 10.0 | 20.0 | 30 | 0 |\n"
                         + "| `alone` | 0.1 | - | 0 | 0 |\n")

    def test_page_keeps_all_else(self) -> None:
        page = "# A\n\n%s\nold\n\n%s\nmore\n" % (costs.BEGIN, costs.END)
        put = costs.put(page, "new\n")
        self.assertEqual(put, page.replace("old", "new"))
        self.assertEqual(costs.put(put, "new\n"), put)
        with self.assertRaises(ValueError):
            costs.put("# A\n", "new\n")
