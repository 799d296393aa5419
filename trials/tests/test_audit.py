"""Tests the model of the audit on cases whose lines were written by hand; the digests are those of
`sha256sum` and `sha512sum`."""
from __future__ import annotations

import os
import sys
import tempfile
import unittest

from gate.repository import TOP

sys.path.insert(0, os.path.join(TOP, "trials"))

from shared import audit

ROOT_INVENTORY = b'{"digestAlgorithm":"sha256","head":"v1","manifest":{}}'
ROOT_DIGEST = "1e627d990f5696a2c4d8f68b01778d3a82cbb4c793b1a6c269235432ddabbed9"
WITHOUT_HEAD = b'{"digestAlgorithm":"sha512","head":7,"manifest":{}}'
WITHOUT_HEAD_DIGEST = (
    "9ce5095efeb4e19ee9c1e862e2a74b7aa689f60a5f16765b2d01f4396f1e20b3"
    "e04f91409e1ba981e74c492f729d9c07322d63c53d4703c421166988e4842df5")
# Of `abc`, and of nothing.
ABC = "ba7816bf8f01cfea414140de5dae2223b00361a396177a9cb410ff61f20015ad"
ABC_512 = ("ddaf35a193617abacc417349ae20413112e6fa4e89a97ea20a9eeee64b55d39a"
           "2192992a274fc1a836ba3c23a3feebbd454d4423643ce80e2a9ac94fa54ca49f")
NOTHING = "e3b0c44298fc1c149afbf4c8996fb92427ae41e4649b934ca495991b7852b855"
V1 = "o/v1/inventory.json"


def sidecar(digest: str) -> bytes:
    return digest.encode() + b" inventory.json\n"


# An object whose root inventory is right.
OBJECT = {"0=ocfl_1.1": b"ocfl_1.1\n", "o/0=ocfl_object_1.1": b"ocfl_object_1.1\n",
          "o/inventory.json": ROOT_INVENTORY, "o/inventory.json.sha256": sidecar(ROOT_DIGEST)}
HEAD = ["ok\to\t-", "S09\to\tsha256 %s v1" % ROOT_DIGEST]


class Case(unittest.TestCase):
    def items(self, files: dict[str, bytes], inventories: bool = True,
              unread: dict[audit.Place, int] | None = None) -> list[audit.Item]:
        with tempfile.TemporaryDirectory() as folder:
            for path, data in files.items():
                os.makedirs(os.path.dirname(os.path.join(folder, path)), exist_ok=True)
                with open(os.path.join(folder, path), "wb") as file:
                    file.write(data)
            return audit.items_of(folder, inventories, unread)

    def lines(self, files: dict[str, bytes], inventories: bool = True) -> list[str]:
        return audit.report_of(self.items({**OBJECT, **files}, inventories)).splitlines()

    def of_version(self, files: dict[str, bytes]) -> list[str]:
        """What follows the head's lines."""
        lines = self.lines({"o/v1/" + name: data for name, data in files.items()})
        self.assertEqual(lines[:3], ["ok\t.\t-", *HEAD])
        return lines[3:]


class Versions(Case):
    def test_without_the_option(self) -> None:
        self.assertEqual(self.lines({V1: b"abc"}, False), ["ok\t.\t-", "ok\to\t-"])

    def test_the_newest(self) -> None:
        self.assertEqual(self.of_version({"inventory.json": ROOT_INVENTORY,
                                          "inventory.json.sha256": sidecar(ROOT_DIGEST)}),
                         ["ok\t%s\t54" % V1])

    def test_it_differs(self) -> None:
        differs = "E064\t%s\tsha256 %s %s" % (V1, ROOT_DIGEST, ABC)
        self.assertEqual(self.of_version({"inventory.json": b"abc",
                                          "inventory.json.sha512": sidecar(ABC_512)}), [differs])
        self.assertEqual(self.of_version({"inventory.json": b"abc"}),
                         ["E058\t%s\t-" % V1, differs])

    def test_sidecars(self) -> None:
        wrong = "E060\t%s\tsha256 %s %s" % (V1, NOTHING, ABC)
        differs = "E064\t%s\tsha256 %s %s" % (V1, ROOT_DIGEST, ABC)
        self.assertEqual(self.of_version({
            "inventory.json": b"abc", "inventory.json.sha256": sidecar(NOTHING.upper()),
            "inventory.json.sha512": b"no sidecar\n"}),
            ["E061\t%s\tsha512" % V1, wrong, differs])
        self.assertEqual(self.of_version({
            "inventory.json": ROOT_INVENTORY, "inventory.json.md5": b"x"}),
            ["E058\t%s\t-" % V1, "E015\to/v1/inventory.json.md5\t-"])

    def test_another_version(self) -> None:
        self.assertEqual(self.lines({"o/v2/inventory.json": b"abc"})[3:],
                         ["E058\to/v2/inventory.json\t-"])
        self.assertEqual(self.lines({"o/v2/inventory.json": b"abc",
                                     "o/v2/inventory.json.sha512": sidecar(ABC_512)})[3:],
                         ["ok\to/v2/inventory.json\t3"])

    def test_what_is_none(self) -> None:
        self.assertEqual(self.lines({"o/v1/content/inventory.json": b"", "o/vx/inventory.json": b"",
                                     "p/v1/inventory.json": b""})[1:],
                         [*HEAD, "E023\to/v1/content/inventory.json\t-", "E001\to/vx\t-",
                          "E072\tp/v1/inventory.json\t-"])

    def test_heads(self) -> None:
        beside = {"o/inventory.json.sha512": sidecar(WITHOUT_HEAD_DIGEST), V1: b"abc"}
        self.assertEqual(self.lines({"o/inventory.json": WITHOUT_HEAD, **beside})[1:], [
            "E060\to\tsha256 %s %s" % (ROOT_DIGEST, digest_of(WITHOUT_HEAD)),
            "S09\to\tsha512 " + WITHOUT_HEAD_DIGEST, "E058\t%s\t-" % V1])
        self.assertEqual(self.lines({"o/inventory.json": b"[]", **beside})[-1], "E033\to\t-")

    def test_costs(self) -> None:
        files = {**OBJECT, V1: b"abc", "o/v2/inventory.json": b"abc"}
        place = (b"o", b"v1", b"inventory.json")
        self.assertEqual([it.cost for it in self.items(files)], [0, 0, 4, 0])
        self.assertEqual([it.cost for it in self.items(files, False)], [0, 0])
        unread = self.items(files, unread={place: 2})[2]
        self.assertEqual((unread.cost, unread.text()),
                         (3, "E058\t%s\t-\nS08\t%s\t-\n" % (V1, V1)))

    def test_cuts(self) -> None:
        items = self.items({**OBJECT, V1: b"abc", "o/v2/inventory.json": b"abc",
                            "o/v2/inventory.json.sha512": sidecar(ABC_512)})
        self.assertEqual([len(it) for it in audit.cut(items, 4)], [3, 1])
        self.assertEqual([len(it) for it in audit.cut(items, 5)], [4, 0])
        self.assertEqual([len(it) for it in audit.cut(items, 5, 1)], [3, 1])


def digest_of(data: bytes) -> str:
    return audit.digest("sha256", data)


class Inventories(Case):
    """What an inventory's bytes say, and the lines that stop."""

    def notes(self, text: str) -> list[tuple[str, bytes]]:
        try:
            return [tuple(it) for it in audit.inventory_of(text.encode()).notes]
        except audit.Stops as stop:
            return [tuple(stop.note), ("stops", b"")]

    def test_stops(self) -> None:
        good = '"digestAlgorithm":"sha256"'
        for text, code, detail in [
                ("", "E033", b"-"), ("{}x", "E033", b"-"), ('{"a":1e999}', "E033", b"-"),
                ('{"a":NaN}', "E033", b"-"), ('{"a":"\\ud800"}', "E033", b"-"),
                ("[" * 128 + "]" * 128, "E033", b"-"), ("{}", "E036", b"digestAlgorithm"),
                ('{"digestAlgorithm":1}', "S03", b"digestAlgorithm"),
                ('{"digestAlgorithm":"md5"}', "E025", b"md5"),
                ("{%s}" % good, "E041", b"manifest"),
                ('{%s,"contentDirectory":""}' % good, "S03", b"contentDirectory"),
                ('{%s,"contentDirectory":"a/b"}' % good, "E017", b"a/b"),
                ('{%s,"contentDirectory":".."}' % good, "E018", b".."),
                ('{%s,"manifest":{"a":"b"}}' % good, "S03", b"manifest"),
                ('{%s,"manifest":{},"fixity":{"md5":[]}}' % good, "S03", b"fixity")]:
            self.assertEqual(self.notes(text), [(code, detail), ("stops", b"")], text)

    def test_depth(self) -> None:
        for depth, stops in [(126, False), (127, True)]:
            text = '{"digestAlgorithm":"sha256","manifest":{},"x":%s}' % (
                "[" * depth + "]" * depth)
            self.assertEqual(self.notes(text), [("E033", b"-"), ("stops", b"")] * stops)

    def test_lines(self) -> None:
        text = ('{"digestAlgorithm":"sha256","manifest":{"AB":["v1/content/a","/x","v1/content/a",'
                '"v1/content/a/b"],"ab":["a//b","x"]},"fixity":{"md5":{"C":[],"c":["y"]},"b":0}}')
        self.assertEqual(self.notes(text), [
            ("E096", b"ab"), ("E097", b"md5 c"), ("E100", b"/x"), ("E099", b"a//b"), ("S06", b"x"),
            ("S06", b"y"), ("E101", b"v1/content/a"), ("S07", b"b")])


if __name__ == "__main__":
    unittest.main()
