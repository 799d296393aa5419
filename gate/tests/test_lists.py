"""Tests what is read as a name in pages."""
import unittest
from unittest import mock

from gate.pages import layers, lists


class Lists(unittest.TestCase):
    def test_names_of_several_words_are_cited(self) -> None:
        text = ("`read_line` of `ocfl_report::Line::put_all`, `IsAudit`, `told`, `a/b_c`, "
                "`x_y.md`, `S07`")
        self.assertEqual(lists.CITED.findall(text), ["read_line", "put_all", "IsAudit"])

    def test_files_of_a_crate(self) -> None:
        row = "| Parts | `ocfl_rules`: `Parts`, `Zone`; `ocfl_scope`: `Numbered` |"
        self.assertEqual([(crate, lists.NAMED.findall(files))
                          for crate, files in lists.FILES.findall(row)],
                         [("ocfl_rules", ["Parts", "Zone"]), ("ocfl_scope", ["Numbered"])])

    def test_files_of_recipes(self) -> None:
        line = ("2. `report`: `src/code.rt` (`CODES`), `specs/Text.antt`; `arguments/src/task.rt`, "
                "`a/b.py`")
        self.assertEqual(lists.sources_in(line), [
            "crates/ocfl_report/src/code.rt", "crates/ocfl_report/specs/Text.antt",
            "crates/ocfl_arguments/src/task.rt"])
        self.assertEqual(lists.sources_in("`src/a.rt`, `no/src/a.rt`"), ["crates/ocfl_no/src/a.rt"])


class Promises(unittest.TestCase):
    PAGES = {
        lists.PROMISES: "# A\n\n## All promises\n\n### One\n\n| promise | by |\n|---|---|\n"
                        "| a | `ocfl_scrub`: `cycle` |\n| b | `ocfl_digest`: `hash_open` |\n\n"
                        "### Two\n\n| promise | by |\n|---|---|\n| c | law `nights_are_sound` |\n"
                        "\n## More\n\n### Three\n\n| no | promise |\n|---|---|\n| d | `run` |\n",
        lists.CASE: "## Promises\n\n| promise | by |\n|---|---|\n| a | `ocfl_scrub`: `cycle` |\n",
    }

    def test_rows_of_all_tables_below_a_title(self) -> None:
        with mock.patch.object(lists, "text_of", self.PAGES.get):
            self.assertEqual(lists.all_rows(lists.PROMISES, "All promises"), [
                ["a", "`ocfl_scrub`: `cycle`"], ["b", "`ocfl_digest`: `hash_open`"],
                ["c", "law `nights_are_sound`"]])
            self.assertEqual(lists.rows(lists.CASE, "Promises"), [["a", "`ocfl_scrub`: `cycle`"]])

    def test_the_case_names_what_is_promised(self) -> None:
        with mock.patch.object(lists, "text_of", self.PAGES.get):
            self.assertEqual(lists.of_case(), [])
        more = {**self.PAGES, lists.CASE: self.PAGES[lists.CASE] + "| e | `ocfl_walk`: `Walk` |\n"}
        with mock.patch.object(lists, "text_of", more.get):
            self.assertEqual(lists.of_case(), [
                "ocfl_walk walk: docs/ASSURANCE.md names it, and no promise of docs/PROMISES.md "
                "does"])


class Layers(unittest.TestCase):
    PAGE = ("\nThe layers, the program at the top:\n\n```\n program  ocfl_d\n"
            " middle   ocfl_c ── ocfl_b   what `x_y` is\n"
            " low      ocfl_a, ocfl_e\n```\n\n`ocfl_x`.\n")
    LINES = {"ocfl_a": "ocfl_a:", "ocfl_e": "ocfl_e:", "ocfl_b": "ocfl_b: ocfl_a sha2",
             "ocfl_c": "ocfl_c: ocfl_a ocfl_b", "ocfl_d": "ocfl_d: ocfl_c ocfl_e"}

    def faults(self, page: str, **lines: str) -> list[str]:
        return [it.replace(layers.PAGE, "MAP") for it in
                layers.faults(page, {**self.LINES, **lines})]

    def test_as_crates_are(self) -> None:
        self.assertEqual(self.faults(self.PAGE), [])

    def test_a_crate_stands_on_nothing_above_it(self) -> None:
        self.assertEqual(self.faults(self.PAGE, ocfl_a="ocfl_a: ocfl_b"), [
            "ocfl_a: it stands on ocfl_b, and MAP has that above it"])
        self.assertEqual(self.faults(self.PAGE, ocfl_b="ocfl_b: ocfl_c"), [
            "ocfl_b: it stands on ocfl_c, and MAP has that above it"])

    def test_each_crate_is_there_once(self) -> None:
        self.assertEqual(self.faults(self.PAGE.replace(", ocfl_e", ", ocfl_f, ocfl_a"))[:3], [
            "ocfl_e: MAP lacks it in the picture of the layers",
            "ocfl_f: MAP has it in the picture of the layers, and crates.txt has not",
            "ocfl_a: MAP has it twice in the picture of the layers"])
        self.assertEqual(len(self.faults("No picture.")), len(self.LINES))


if __name__ == "__main__":
    unittest.main()
