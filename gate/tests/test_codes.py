"""The table of codes: what the scripts of nights read is what the definitions of `ocfl_codes` say,
and the pages name each of its codes and no other."""
import os
import re
import unittest

from gate.repository import TOP

WEIGHTS = {"Some Bytes": "1", "Some Object": "2", "Some Record": "3", "Some Position": "4",
           "None": "-"}
KINDS = {"Object": "object", "File": "file", "Place": "place", "ObjectOrFile": "object or file"}
# Codes that stop the whole root, or need a file that cannot be read: the gallery is of one root.
NOT_IN_THE_GALLERY = {"E069", "E076", "S08"}


def text_of(path: str) -> str:
    with open(os.path.join(TOP, path), encoding="utf-8") as file:
        return file.read()


def clauses(file: str, name: str) -> dict[str, str]:
    """What a definition of the crate says of each code."""
    found = re.findall(r"(?m)^%s (\w+) = (.*)$" % name,
                       text_of("crates/ocfl_codes/specs/%s.antt" % file))
    return {"ok" if code == "Clean" else code: value for code, value in found}


def words(file: str, name: str) -> dict[str, str]:
    return {code: value[len('codes "'):-1] for code, value in clauses(file, name).items()}


def rows() -> list[list[str]]:
    return [line.split("\t") for line in text_of("nights/ocfl_scrub_reports/codes").splitlines()
            if not line.startswith("#")]


class Codes(unittest.TestCase):
    maxDiff = None

    def test_the_table_is_that_of_the_definitions(self) -> None:
        weights, kinds = clauses("Weight", "weight_of"), clauses("Kinds", "kind_of")
        means, steps = words("Meaning", "meaning_of"), words("Meaning", "first_step_of")
        self.assertEqual(rows(), [[code, WEIGHTS[weights[code]], KINDS[kinds[code]], means[code],
                                   steps[code]] for code in weights])

    def test_the_rules_have_these_codes(self) -> None:
        table = text_of("docs/RULES.md").split("\n## Codes\n")[1].split("\n## ")[0]
        named = [code for row in table.splitlines() if row.startswith("|")
                 for code in re.findall(r"\bok\b|\b[ES]\d{2,3}\b", row.split("|")[1])]
        self.assertEqual(sorted(named), sorted(row[0] for row in rows()))

    def test_the_manual_page_has_these_codes(self) -> None:
        named = re.findall(r"(?m)^\.B (ok|[ES]\d+)$", text_of("nights/man/ocfl-scrub.1"))
        self.assertEqual(sorted(set(named)), sorted(row[0] for row in rows()))

    def test_the_gallery_has_these_codes(self) -> None:
        named = set(re.findall(r"(?m)^    (ok|[ES]\d+)\t", text_of("docs/GALLERY.md")))
        self.assertEqual(sorted(named | NOT_IN_THE_GALLERY), sorted(row[0] for row in rows()))


if __name__ == "__main__":
    unittest.main()
